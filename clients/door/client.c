#include "client.h"

#include "admits.h"
#include "daemon.h"
#include "flow.h"
#include "frame.h"
#include "log.h"
#include "now.h"
#include "peer.h"
#include "users.h"

#include <errno.h>
#include <stdio.h>
#include <stdlib.h>
#include <string.h>
#include <sys/epoll.h>
#include <sys/socket.h>
#include <unistd.h>

/* Milliseconds in which a client has to say HELLO, and in which the daemon has to be there; and how often it may end without an answer. */
enum { PATIENCE = 10000, LOSSES = 20 };

enum { OVER = EPOLLHUP | EPOLLERR };

enum state { GREETS, WAITS, ASKED, SERVED, ENDS };

struct client {
    struct client *before, *next; /* in the list that it is in */
    enum state state;
    bool counts; /* among those of its uid that the daemon has */
    bool relayed, dead;
    struct end outer, inner; /* its connection, and the daemon's for it */
    struct peer peer;
    struct user *user;
    int64_t until; /* the moment at which it is given up, while it is waited for */
    unsigned losses;
    struct frame hello, reply;
    struct flow up, down; /* to the daemon, and from it */
};

struct bounds bounds = {16, false};

/* ---- lists: those that wait for a moment, GREETS and WAITS; the others; and those that have ended */

struct list {
    struct client *first, *last;
};

static struct list waiting, others, dead;

static struct list *list_of(const struct client *client)
{
    return client->dead ? &dead : client->state <= WAITS ? &waiting : &others;
}

static void leave_list(struct client *client)
{
    struct list *list = list_of(client);
    *(client->before == NULL ? &list->first : &client->before->next) = client->next;
    *(client->next == NULL ? &list->last : &client->next->before) = client->before;
}

static void enter_list(struct client *client)
{
    struct list *list = list_of(client);
    client->before = list->last;
    client->next = NULL;
    *(list->last == NULL ? &list->first : &list->last->next) = client;
    list->last = client;
}

static void is_now(struct client *client, enum state state)
{
    if (client->state == state)
        return; /* it keeps its place */
    leave_list(client);
    client->state = state;
    enter_list(client);
}

/* ---- ends */

/* Nothing is left of it but its memory, for as long as somebody may be told of it. */
static void forget(struct client *client)
{
    end_close(&client->outer);
    end_close(&client->inner);
    flow_free(&client->up);
    flow_free(&client->down);
    client->user->served -= client->counts;
    user_goes(client->user);
    leave_list(client);
    client->dead = true;
    enter_list(client);
}

/*
 * The client has gone, or is to. It counts until the daemon has ended its connection, which hears nothing more: so no uid has more of them than its bound. What
 * the daemon still answers is read here, or it would wait for that.
 */
static void leave(struct client *client)
{
    bool asked = client->state >= ASKED && client->inner.descriptor >= 0;
    end_close(&client->outer);
    flow_free(&client->up);
    flow_free(&client->down);
    if (!asked || shutdown(client->inner.descriptor, SHUT_WR) < 0 || !watch(&client->inner, EPOLLIN)) {
        forget(client);
        return;
    }
    is_now(client, ENDS);
}

void clients_bury(void)
{
    struct client *next;
    for (struct client *client = dead.first; client != NULL; client = next) {
        next = client->next;
        free(client);
    }
    dead = (struct list){NULL, NULL};
}

void clients_end(void)
{
    while (waiting.first != NULL)
        forget(waiting.first);
    while (others.first != NULL)
        forget(others.first);
    clients_bury();
}

/* Looks for these at both descriptors; one who can't be looked after ends. */
static bool looks(struct client *client, uint32_t outer, uint32_t inner)
{
    if (watch(&client->outer, outer) && (client->inner.descriptor < 0 || watch(&client->inner, inner)))
        return true;
    leave(client);
    return false;
}

/* ---- refusals */

static void log_refusal(const struct client *client, const char *why)
{
    char program[PROGRAM];
    const struct peer *peer = &client->peer;
    if (log_counts(LOG_REFUSED))
        log_warning("refused: uid %u, pid %d, %s: %s", (unsigned)peer->uid, (int)peer->pid, peer_program(peer, program), why);
}

/* Sends a frame, all of it at once; false and errno if that can't be. */
static bool sends(int to, const unsigned char *bytes, size_t length)
{
    ssize_t sent = send(to, bytes, length, NOW);
    if (sent >= 0 && sent < (ssize_t)length)
        errno = EAGAIN;
    return sent == (ssize_t)length;
}

/* Refuses what it has said; whether it could be told. */
static bool is_told(struct client *client, int error, const char *why)
{
    unsigned char reply[LONGEST];
    log_refusal(client, why);
    return sends(client->outer.descriptor, reply, refusal(reply, error));
}

/* Reads a HELLO from now on, the first one or one more. */
static void greets(struct client *client)
{
    client->hello.had = client->reply.had = 0;
    client->until = now_ms() + PATIENCE;
    is_now(client, GREETS);
    looks(client, EPOLLIN, 0);
}

/* Refuses a HELLO; another one may follow. */
static void refuse(struct client *client, int error, const char *why)
{
    if (is_told(client, error, why))
        greets(client);
    else
        leave(client);
}

/* ---- the daemon */

/* It is not there: it may be one that is exchanged for another. */
static void waits(struct client *client)
{
    end_close(&client->inner);
    is_now(client, WAITS);
    looks(client, 0, 0);
}

/* Says HELLO to the daemon. errno, if the client has to wait. */
static void ask(struct client *client)
{
    if (client->inner.descriptor < 0)
        client->inner.descriptor = daemon_connection();
    if (client->inner.descriptor < 0 || !sends(client->inner.descriptor, client->hello.bytes, client->hello.had)) {
        int error = errno;
        waits(client);
        errno = error;
        return;
    }
    client->reply.had = 0;
    is_now(client, ASKED);
    looks(client, 0, EPOLLIN);
    errno = 0;
}

static void give_up(struct client *client, const char *why)
{
    if (log_counts(LOG_DAEMON))
        log_warning("the daemon: %s; uid %u was let go", why, (unsigned)client->peer.uid);
    leave(client);
}

/* The daemon has ended without an answer. */
static void lost(struct client *client)
{
    if (++client->losses > LOSSES) {
        is_now(client, WAITS); /* it has no connection to be ended */
        give_up(client, "it ends connections without an answer");
        return;
    }
    client->until = now_ms() + PATIENCE;
    waits(client);
}

/*
 * The reply of the daemon, with its connection. If that can't be handed out, as if too many are on their way to clients that don't read (unix(7),
 * ETOOMANYREFS), the client is relayed.
 */
static bool is_handed(const struct client *client)
{
    _Alignas(struct cmsghdr) char control[CMSG_SPACE(sizeof(int))] = {0};
    struct iovec part = {(void *)(uintptr_t)client->reply.bytes, client->reply.had};
    struct msghdr message = {.msg_iov = &part, .msg_iovlen = 1, .msg_control = control, .msg_controllen = sizeof control};
    struct cmsghdr *head = CMSG_FIRSTHDR(&message);
    *head = (struct cmsghdr){.cmsg_len = CMSG_LEN(sizeof(int)), .cmsg_level = SOL_SOCKET, .cmsg_type = SCM_RIGHTS};
    memcpy(CMSG_DATA(head), &client->inner.descriptor, sizeof(int));
    ssize_t sent = sendmsg(client->outer.descriptor, &message, NOW);
    if (sent < 0 && errno != EAGAIN && errno != EPIPE)
        return sends(client->outer.descriptor, client->reply.bytes, client->reply.had);
    return sent == (ssize_t)client->reply.had;
}

static void answered(struct client *client, enum frame_kind kind)
{
    if (kind == FRAME_RINGS && is_handed(client)) {
        is_now(client, SERVED);
        looks(client, EPOLLIN, 0);
    } else if (kind == FRAME_REFUSED && sends(client->outer.descriptor, client->reply.bytes, client->reply.had))
        greets(client);
    else if (kind == FRAME_OTHER)
        give_up(client, "its answer to HELLO is none");
    else
        leave(client);
}

/* Reads more of a frame; whether there is more of it now. An error, or the end, is -1. */
static int more(struct frame *frame, int from)
{
    ssize_t length = recv(from, frame_end(frame), frame_lacks(frame), MSG_DONTWAIT);
    if (length < 0)
        return errno == EAGAIN || errno == EINTR ? 0 : -1;
    frame->had += (size_t)length;
    return length > 0 ? 1 : -1;
}

static void hears(struct client *client)
{
    enum frame_kind kind = FRAME_CUT;
    int read = 1;
    while (kind == FRAME_CUT && (read = more(&client->reply, client->inner.descriptor)) > 0)
        kind = frame_of_daemon(&client->reply);
    if (read < 0)
        lost(client);
    else if (kind != FRAME_CUT)
        answered(client, kind);
}

/* ---- HELLO */

static bool is_root(const struct client *client)
{
    return bounds.root_any && client->peer.uid == 0;
}

/* Who it says that it is has to be who it is. The error of a refusal, with its reason; or 0. */
static int fault_of(const struct client *client, char *why, size_t room)
{
    uint32_t uid = hello_uid(&client->hello), gid = hello_gid(&client->hello);
    if (is_root(client))
        return 0;
    if (!is_admitted(client->outer.descriptor, &client->peer))
        snprintf(why, room, "EACCES, not admitted");
    else if (uid != client->peer.uid)
        snprintf(why, room, "EACCES, HELLO for uid %u", (unsigned)uid);
    else if (!peer_has_group(client->outer.descriptor, &client->peer, gid))
        snprintf(why, room, "EACCES, HELLO for gid %u", (unsigned)gid);
    else if (!client->counts && client->user->served >= bounds.per_user) {
        snprintf(why, room, "EDQUOT, it has %u connections", client->user->served);
        return EDQUOT;
    } else
        return 0;
    return EACCES;
}

static void says(struct client *client)
{
    char why[64];
    int error = fault_of(client, why, sizeof why);
    if (error != 0) {
        refuse(client, error, why);
        return;
    }
    client->user->served += !client->counts;
    client->counts = true;
    client->until = now_ms() + PATIENCE;
    ask(client);
}

static void greeted(struct client *client)
{
    enum frame_kind kind = FRAME_CUT;
    int read = 1;
    while (kind == FRAME_CUT && (read = more(&client->hello, client->outer.descriptor)) > 0)
        kind = frame_of_client(&client->hello);
    if (kind == FRAME_HELLO)
        says(client);
    else if (kind == FRAME_OTHER) {
        is_told(client, EACCES, "EACCES, no HELLO");
        leave(client);
    } else if (read < 0)
        leave(client);
}

/* ---- one that is served */

/* Looks for what its flows need. A descriptor at which nothing is needed, and that is broken, is not looked at until something is. */
static void looks_on(struct client *client)
{
    uint32_t outer = (flow_reads(&client->up) ? EPOLLIN : 0) | (flow_writes(&client->down) ? EPOLLOUT : 0);
    uint32_t inner = (flow_reads(&client->down) ? EPOLLIN : 0) | (flow_writes(&client->up) ? EPOLLOUT : 0);
    if (outer == 0)
        unwatch(&client->outer);
    if (inner == 0)
        unwatch(&client->inner);
    if ((outer != 0 && !watch(&client->outer, outer)) || (inner != 0 && !watch(&client->inner, inner)))
        leave(client);
}

static void relays(struct client *client, const struct end *end, uint32_t events)
{
    int outer = client->outer.descriptor, inner = client->inner.descriptor;
    bool is_outer = end == &client->outer, whole = true;
    struct flow *from = is_outer ? &client->up : &client->down, *to = is_outer ? &client->down : &client->up;
    if ((events & (EPOLLOUT | OVER)) != 0 && flow_writes(to))
        whole = flow_write(to, end->descriptor);
    if (whole && (events & (EPOLLIN | OVER)) != 0 && flow_reads(from))
        whole = flow_read(from, end->descriptor, is_outer ? inner : outer) >= 0;
    if (!whole || client->down.ended)
        leave(client);
    else
        looks_on(client);
}

/*
 * It has the daemon's connection, and this one for as long as it keeps that. If it says something here, it knows nothing of the other: it is relayed.
 */
static void stays(struct client *client, const struct end *end)
{
    if (end == &client->inner) {
        forget(client); /* the daemon has ended it */
        return;
    }
    int read = flow_read(&client->up, client->outer.descriptor, client->inner.descriptor);
    if (read < 0 || client->up.ended)
        leave(client);
    else if (read > 0) {
        client->relayed = true;
        looks_on(client);
    }
}

/* The daemon is read to its end. */
static void ends(struct client *client)
{
    static unsigned char piece[PIECE];
    ssize_t length = recv(client->inner.descriptor, piece, sizeof piece, MSG_DONTWAIT);
    if (length == 0 || (length < 0 && errno != EAGAIN && errno != EINTR))
        forget(client);
}

/* ---- what happens */

/* Before it is served: at its own connection. */
static void happens_outside(struct client *client, uint32_t events)
{
    if (client->state == GREETS)
        greeted(client);
    else if ((events & OVER) != 0)
        leave(client);
}

void client_happens(struct end *end, uint32_t events)
{
    struct client *client = end->client;
    if (client->dead || end->descriptor < 0)
        return;
    if (client->state == ENDS)
        ends(client);
    else if (client->state == SERVED && client->relayed)
        relays(client, end, events);
    else if (client->state == SERVED)
        stays(client, end);
    else if (end == &client->outer)
        happens_outside(client, events);
    else if (client->state == ASKED)
        hears(client);
    else
        end_close(end); /* it has been refused by the daemon, which has ended since */
}

bool clients_wait(void)
{
    return waiting.first != NULL;
}

static void is_late(struct client *client)
{
    log_refusal(client, "no HELLO within 10 seconds");
    leave(client);
}

/* Once the daemon was found not to be there, the others who wait for it need not look. */
void clients_tick(void)
{
    struct client *next;
    int64_t now = now_ms();
    int error = 0;
    for (struct client *client = waiting.first; client != NULL; client = next) {
        next = client->next;
        if (client->state == GREETS && now >= client->until)
            is_late(client);
        else if (client->state == WAITS) {
            if (error == 0) {
                ask(client);
                error = errno;
            }
            if (!client->dead && client->state == WAITS && error != EAGAIN && now >= client->until)
                give_up(client, strerror(error));
        }
    }
    clients_bury();
}

/* It has more connections open than it may have served, or there is no memory for it: it is told, and not waited for. */
static void turn_away(int descriptor, const struct peer *peer, int error)
{
    unsigned char reply[LONGEST];
    char program[PROGRAM];
    if (log_counts(LOG_REFUSED))
        log_warning("refused: uid %u, pid %d, %s: %s", (unsigned)peer->uid, (int)peer->pid, peer_program(peer, program),
                    error == EDQUOT ? "EDQUOT, too many connections are open" : "ENOMEM, the door is out of memory");
    sends(descriptor, reply, refusal(reply, error));
    close(descriptor);
}

void client_comes(int descriptor)
{
    struct peer peer;
    if (!peer_of(descriptor, &peer)) {
        close(descriptor);
        return;
    }
    struct user *user = user_comes(peer.uid);
    struct client *client = user == NULL ? NULL : calloc(1, sizeof *client);
    bool fits = user != NULL && ((bounds.root_any && peer.uid == 0) || user->open <= 2 * bounds.per_user);
    if (client == NULL || !fits) {
        turn_away(descriptor, &peer, user != NULL && client != NULL ? EDQUOT : ENOMEM);
        if (user != NULL)
            user_goes(user);
        free(client);
        return;
    }
    client->peer = peer;
    client->user = user;
    client->outer = (struct end){.descriptor = descriptor, .client = client};
    client->inner = (struct end){.descriptor = -1, .client = client};
    enter_list(client);
    greets(client);
}
