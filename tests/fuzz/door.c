/*
 * What the door does with those who connect (clients/door/client.c, frame.c, flow.c, users.c), over clients and a daemon that are made of the input. They
 * say HELLO, cut anywhere, wrong, foreign, once more; they leave at any moment, and the system refuses what it may refuse. Whatever comes:
 *
 * - the daemon gets a HELLO for nobody but the client's own uid and groups, unless root may;
 * - no byte behind the HELLO of a client is read before it has its answer;
 * - what is relayed comes as it was sent, each byte once, in order;
 * - the daemon never has more connections of a uid than its bound;
 * - each descriptor is closed once, and is not looked at any more by then; nothing is left of any of them, and no memory.
 */
#include <stdbool.h>
#include <stdint.h>
#include <stdio.h>
#include <sys/epoll.h>
#include <unistd.h>

#include "stream.h"

enum { DESCRIPTORS = 256, FIRST = 3, HELLO_FRAME = 18, BOUND = 3 };

static const uint32_t UIDS[] = {0, 1000, 1001};

/* A connection, as the one at its other side has it. */
static struct other {
    bool open, inner, hands;
    uint32_t uid;       /* of the client */
    int pair;           /* the client's other descriptor, or -1 */
    size_t heard, said; /* bytes that the door has sent here, and that it has read, since the last HELLO or answer */
    size_t turns;       /* bytes that it has read in all */
    unsigned char frame[21];
    size_t frame_length;
} others_of[DESCRIPTORS];

static struct end *ends_of[DESCRIPTORS]; /* those that are looked at */
static unsigned served[3];               /* open connections of the daemon */
static int64_t moment;

/* A byte of the input, and after its end one by chance: so that a short one goes far, too. */
static unsigned some(void)
{
    return input_left > 0 ? next_byte() : next_turn() % 256;
}

static void holds(bool promise)
{
    if (!promise)
        abort();
}

static struct other *other_of(int descriptor)
{
    holds(descriptor >= FIRST && descriptor < DESCRIPTORS && others_of[descriptor].open);
    return &others_of[descriptor];
}

static int opened(bool inner, uint32_t uid)
{
    for (int i = FIRST; i < DESCRIPTORS; i++)
        if (!others_of[i].open) {
            others_of[i] = (struct other){.open = true, .inner = inner, .uid = uid, .pair = -1};
            return i;
        }
    errno = EMFILE;
    return -1;
}

static unsigned place_of_uid(uint32_t uid)
{
    return uid == 0 ? 0 : uid - 999;
}

/* What is sent at this place of a stream, after HELLO and its answer. */
static unsigned char sent_at(size_t place, bool inner)
{
    return (unsigned char)(place * 7 + place / 251 + (inner ? 13 : 0));
}

/* A HELLO, mostly right; or the answer of a daemon. */
static void compose(struct other *it)
{
    unsigned how = some();
    unsigned char hello[] = {0, 0, 0, 14, 1, 0, 0, (unsigned char)(it->uid >> 8), (unsigned char)it->uid, 0, 0, 0, (unsigned char)(how % 3), 0, 0, 0, 0, 0};
    unsigned char rings[21] = {0, 0, 0, 17, 2}, refused[] = {0, 0, 0, 2, 3, 126};
    it->frame_length = !it->inner ? sizeof hello : how % 4 != 0 ? sizeof rings : sizeof refused;
    memcpy(it->frame, !it->inner ? hello : how % 4 != 0 ? rings : refused, it->frame_length);
    if (how >= 200)
        it->frame[some() % it->frame_length] = (unsigned char)some();
}

/* ---- the system */

static ssize_t recv_of(int descriptor, void *to, size_t size, int flags)
{
    struct other *it = other_of(descriptor);
    unsigned how = some();
    holds((flags & MSG_DONTWAIT) != 0 && size > 0);
    if (it->inner && it->hands && it->pair >= 0)
        holds(others_of[it->pair].turns > 0); /* else its client reads here */
    if (how >= 240) {
        errno = how >= 250 ? ECONNRESET : how % 2 == 0 ? EAGAIN : EINTR;
        return how >= 246 && how < 250 ? 0 : -1;
    }
    size_t length = how % 3 == 0 ? 200 : 1 + how % 7;
    length = length > size ? size : length;
    for (size_t i = 0; i < length; i++) {
        if (it->said == 0 && !it->hands)
            compose(it);
        bool first = !it->hands && it->said < it->frame_length;
        ((unsigned char *)to)[i] = first ? it->frame[it->said] : sent_at(it->turns++, it->inner);
        it->said++;
        if (first && it->said == it->frame_length && it->inner)
            length = i + 1; /* the daemon says no more until it is asked */
    }
    return (ssize_t)length;
}

/* The HELLO that the daemon gets is for the client itself; it has read that, and not one byte more. */
static void is_right_hello(const struct other *inner, const unsigned char *bytes, size_t length)
{
    const struct other *client = other_of(inner->pair);
    uint32_t uid = (uint32_t)bytes[5] << 24 | (uint32_t)bytes[6] << 16 | (uint32_t)bytes[7] << 8 | bytes[8];
    uint32_t gid = (uint32_t)bytes[9] << 24 | (uint32_t)bytes[10] << 16 | (uint32_t)bytes[11] << 8 | bytes[12];
    holds(length == HELLO_FRAME && bytes[3] == 14 && bytes[4] == 1);
    holds(client->uid == 0 || (uid == client->uid && gid <= 1));
    holds(client->said == HELLO_FRAME);
}

static ssize_t sent(int descriptor, const unsigned char *bytes, size_t length, int flags)
{
    struct other *it = other_of(descriptor);
    unsigned how = some();
    holds((flags & (MSG_DONTWAIT | MSG_NOSIGNAL)) == (MSG_DONTWAIT | MSG_NOSIGNAL) && length > 0);
    if (it->inner && !it->hands) {
        is_right_hello(it, bytes, length);
        it->said = 0;
    }
    if (how >= 240) {
        errno = how >= 248 ? EPIPE : EAGAIN;
        return -1;
    }
    size_t done = !it->hands || how % 3 == 0 ? length : 1 + how % length;
    for (size_t i = 0; i < done && it->hands; i++)
        holds(bytes[i] == sent_at(it->heard++, !it->inner));
    if (!it->inner && !it->hands)
        it->said = 0; /* it may say another HELLO */
    return (ssize_t)done;
}

static ssize_t send_of(int descriptor, const void *from, size_t length, int flags)
{
    struct other *it = other_of(descriptor);
    const unsigned char *bytes = from;
    bool answers = !it->inner && !it->hands && bytes[4] == 2;
    ssize_t done = sent(descriptor, from, length, flags);
    if (answers && done == (ssize_t)length)
        it->hands = other_of(it->pair)->hands = true;
    return done;
}

/* An answer with a descriptor: the daemon's connection of this very client, which has read nothing behind its HELLO. */
static ssize_t sendmsg_of(int descriptor, const struct msghdr *message, int flags)
{
    int handed;
    memcpy(&handed, CMSG_DATA(CMSG_FIRSTHDR(message)), sizeof handed);
    holds(message->msg_iovlen == 1 && message->msg_iov->iov_len == 21 && handed == other_of(descriptor)->pair);
    holds(other_of(handed)->pair == descriptor && other_of(descriptor)->said == HELLO_FRAME);
    if (next_turn() % 16 == 0) {
        errno = ETOOMANYREFS;
        return -1;
    }
    return send_of(descriptor, message->msg_iov->iov_base, message->msg_iov->iov_len, flags);
}

static int shutdown_of(int descriptor, int how)
{
    (void)how;
    other_of(descriptor);
    return next_turn() % 32 == 0 ? -1 : 0;
}

static int close_of(int descriptor)
{
    struct other *it = other_of(descriptor);
    holds(ends_of[descriptor] == NULL);
    if (it->pair >= 0)
        others_of[it->pair].pair = -1;
    served[place_of_uid(it->uid)] -= it->inner;
    it->open = false;
    return 0;
}

#define recv recv_of
#define send send_of
#define sendmsg sendmsg_of
#define shutdown shutdown_of
#define close close_of
#include "../../clients/door/frame.c"
#include "../../clients/door/flow.c"
#include "../../clients/door/users.c"
#include "../../clients/door/client.c"

/* ---- the rest of the door */

static const struct client *told; /* of something that has happened */

bool watch(struct end *end, uint32_t events)
{
    other_of(end->descriptor);
    holds(end->watched == (ends_of[end->descriptor] == end));
    if (next_turn() % 64 == 0)
        return false;
    ends_of[end->descriptor] = end;
    end->watched = true;
    end->events = events;
    return true;
}

void unwatch(struct end *end)
{
    if (end->watched)
        ends_of[end->descriptor] = NULL;
    end->watched = false;
}

void end_close(struct end *end)
{
    if (end->descriptor < 0)
        return;
    unwatch(end);
    close(end->descriptor);
    end->descriptor = -1;
}

/* Who asks for a connection: the one that is told of something, or else the first that waits. */
static const struct client *asks(void)
{
    const struct client *it = told;
    for (it = it == NULL ? waiting.first : it; it != NULL && it != told && it->state != WAITS; it = it->next)
        ;
    holds(it != NULL && it->inner.descriptor < 0 && it->hello.had == HELLO_FRAME && other_of(it->outer.descriptor)->pair < 0);
    return it;
}

int daemon_connection(void)
{
    const struct client *it = asks();
    unsigned how = some();
    int made = how >= 200 ? -1 : opened(true, it->peer.uid);
    if (made < 0) {
        errno = how % 2 == 0 ? EAGAIN : ECONNREFUSED;
        return -1;
    }
    others_of[made].pair = it->outer.descriptor;
    others_of[it->outer.descriptor].pair = made;
    served[place_of_uid(it->peer.uid)]++;
    holds((bounds.root_any && it->peer.uid == 0) || served[place_of_uid(it->peer.uid)] <= BOUND);
    return made;
}

bool peer_of(int connection, struct peer *peer)
{
    *peer = (struct peer){1, other_of(connection)->uid, 0};
    return next_turn() % 64 != 0;
}

bool peer_has_group(int connection, const struct peer *peer, gid_t group)
{
    other_of(connection);
    return peer->gid == group || group == 1;
}

const char *peer_program(const struct peer *peer, char text[PROGRAM])
{
    (void)peer;
    return strcpy(text, "?");
}

bool is_admitted(int connection, const struct peer *peer)
{
    other_of(connection);
    return peer->uid != 0 || next_turn() % 2 == 0;
}

bool log_counts(enum log_kind kind)
{
    (void)kind;
    return false;
}

void log_warning(const char *form, ...)
{
    (void)form;
}

int64_t now_ms(void)
{
    return moment;
}

/* ---- what happens */

static void something(void)
{
    int from = FIRST + (int)(some() % 40);
    for (int i = 0; i < 40; i++) {
        struct end *end = ends_of[FIRST + (from - FIRST + i) % 40];
        if (end == NULL)
            continue;
        uint32_t broken = some() % 8 == 0 ? EPOLLHUP : 0, events = end->events | broken;
        told = end->client;
        if (events != 0)
            client_happens(end, events);
        told = NULL;
        return;
    }
}

int LLVMFuzzerTestOneInput(const uint8_t *data, size_t size)
{
    input = data;
    input_left = size;
    turn = next_byte() << 8 | next_byte();
    bounds = (struct bounds){BOUND, turn % 2 == 0};
    for (unsigned steps = 0; steps < 300; steps++) {
        unsigned how = some();
        int made = how % 8 == 0 ? opened(false, UIDS[some() % 3]) : -1;
        if (made >= 0)
            client_comes(made);
        else if (how % 8 == 1) {
            moment += how * 40;
            clients_tick();
        } else
            something();
        if (how % 8 == 2)
            clients_bury();
    }
    clients_end();
    for (int i = 0; i < DESCRIPTORS; i++)
        holds(!others_of[i].open && ends_of[i] == NULL);
    for (unsigned i = 0; i < BUCKETS; i++)
        holds(buckets[i] == NULL);
    return 0;
}
