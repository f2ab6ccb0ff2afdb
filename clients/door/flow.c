#include "flow.h"

#include <errno.h>
#include <stdlib.h>
#include <string.h>
#include <sys/types.h>

static bool is_later(void)
{
    return errno == EAGAIN || errno == EINTR;
}

bool flow_reads(const struct flow *flow)
{
    return flow->kept == NULL && !flow->ended;
}

bool flow_writes(const struct flow *flow)
{
    return flow->kept != NULL;
}

/* How many of these are taken now; -1 if the connection is broken. */
static ssize_t written(int to, const unsigned char *bytes, size_t length)
{
    ssize_t done = send(to, bytes, length, NOW);
    return done < 0 && is_later() ? 0 : done;
}

int flow_read(struct flow *flow, int from, int to)
{
    static unsigned char piece[PIECE];
    ssize_t length = recv(from, piece, sizeof piece, MSG_DONTWAIT);
    if (length < 0)
        return is_later() ? 0 : -1;
    if (length == 0) {
        flow->ended = true;
        shutdown(to, SHUT_WR);
        return 0;
    }
    ssize_t done = written(to, piece, (size_t)length);
    if (done < 0)
        return -1;
    size_t left = (size_t)(length - done);
    if (left == 0)
        return 1;
    flow->kept = malloc(left);
    if (flow->kept == NULL)
        return -1;
    memcpy(flow->kept, piece + done, left);
    flow->at = 0;
    flow->end = left;
    return 1;
}

bool flow_write(struct flow *flow, int to)
{
    ssize_t done = written(to, flow->kept + flow->at, flow->end - flow->at);
    if (done < 0)
        return false;
    flow->at += (size_t)done;
    if (flow->at == flow->end)
        flow_free(flow);
    return true;
}

void flow_free(struct flow *flow)
{
    free(flow->kept);
    flow->kept = NULL;
}
