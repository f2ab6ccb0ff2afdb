/* Drives a server: so many connections ask for what is there, or have a key made, each as fast as it is answered.
 *
 * usage: load SOCKET CONNECTIONS ASKS [users|made|together|redis|agent]
 *        load LIBRARY|- CALLERS ASKS calls
 *
 * Each connection says HELLO as the user 1000. The first one adds the key `load` to the user's ring. Then each asks REQUEST for it, without a callout
 * and without a ring, and reads its reply before the next one. In other words:
 *   users     each connection is of a user of its own, from 1000 on, and adds the key to that user's ring
 *   together  it writes 50 of them in one call, and reads their replies before the next 50
 *   made      it asks for keys `made:..` that are not there, with a callout of 1 KiB, and unlinks each one, which is not timed
 *   redis     it asks a Redis server for the value of a key, which the first one has set
 *   agent     it asks an ssh-agent for the list of its keys, one at least
 *   calls     threads read a key by the library's keyctl_read, or for `-` have the kernel look one up by request_key(2)
 * A tenth of the asks are to get warm, and then so many in all are measured. It prints the asks a second, and the 50th, 99th and 99.9th percentile of the
 * time to a reply. The status is 1 where a reply was not the one that is due. */
#include "socket.h"

#include <dlfcn.h>
#include <sys/syscall.h>

enum { CONNECTIONS = 64, CALLOUT = 1024, TOGETHER = 50, NUMBER_LEN = 9, PROCESS = -2, SESSION = -3, FIRST_USER = 1000 };

static const char usage[] = "usage: load SOCKET CONNECTIONS ASKS [users|made|together|redis|agent]\n       load LIBRARY|- CALLERS ASKS calls\n";

static const uint8_t add[] = {0, 0, 0, 20, OP_ADD, 0, 4, 'u', 's', 'e', 'r', 0, 4, 'l', 'o', 'a', 'd', 0, 1, 'v', 0xff, 0xff, 0xff, 0xfc};
static const uint8_t hello[] = {0, 0, 0, 14, OP_HELLO, 0, 0, 3, 232, 0, 0, 3, 232, 0, 0, 0, 0, 0};
static const uint8_t request[] = {0, 0, 0, 18, OP_REQUEST, 0, 4, 'u', 's', 'e', 'r', 0, 4, 'l', 'o', 'a', 'd', 0, 0, 0, 0, 0};

_Static_assert(sizeof add == 4 + 20 && sizeof hello == 4 + 14 && sizeof request == 4 + 18, "the lengths that the frames say");

struct connection;

/* What is asked, and how: whether the connection could be made ready, the first one also for the others; one ask, or so many together; and what is done behind
 * it and is not timed, or null. */
struct way {
    const char *name;
    unsigned each;
    bool (*open)(struct connection *c, const char *path);
    bool (*ask)(struct connection *c);
    bool (*behind)(struct connection *c);
};

struct connection {
    const struct way *way;
    int socket;
    unsigned no, warm, asks, made;
    uint32_t key; /* that was made last */
    uint64_t *times; /* of each measured ask, or of each 50, in ns */
    uint64_t begun, ended;
    uint64_t behind; /* of that, the ns of what is not timed */
    bool failed;
    pthread_barrier_t *all;
};

/* Reads a reply: the kind of it, or -1 where the server is gone or says more than that; and its number, where it is one. */
static int read_reply(int from, uint32_t *number)
{
    uint8_t frame[256];
    size_t held = 0, wanted = 4;
    while (held < wanted) {
        ssize_t got = read(from, frame + held, sizeof frame - held);
        if (got <= 0)
            return -1;
        held += (size_t)got;
        if (held >= 4)
            wanted = 4 + (size_t)read_u32(frame);
        if (wanted < 5 || wanted > sizeof frame)
            return -1;
    }
    if (number && held == 9)
        *number = read_u32(frame + 5);
    return held == wanted ? frame[4] : -1;
}

static int ask(struct connection *c, const uint8_t *frame, size_t len, uint32_t *number)
{
    return write_out(c->socket, frame, len) ? read_reply(c->socket, number) : -1;
}

/* A text behind its length. */
static uint8_t *write_text(uint8_t *to, const char *text, size_t len)
{
    *to++ = (uint8_t)(len >> 8);
    *to++ = (uint8_t)len;
    memcpy(to, text, len);
    return to + len;
}

/* Has a key made. */
static bool ask_made(struct connection *c)
{
    static const char callout[CALLOUT] = {[0 ... CALLOUT - 1] = 'c'};
    uint8_t frame[CALLOUT + 64], *at = frame + 4;
    char name[32];
    *at++ = OP_REQUEST;
    at = write_text(at, "user", 4);
    at = write_text(at, name, (size_t)snprintf(name, sizeof name, "made:%u:%u", c->no, c->made++));
    *at++ = 1;
    at = write_text(at, callout, sizeof callout);
    at = write_u32(at, 0);
    write_u32(frame, (uint32_t)(at - frame - 4));
    return ask(c, frame, (size_t)(at - frame), &c->key) == NUMBER_REPLY;
}

/* Unlinks it from the session ring, into which it was linked. */
static bool unlink_made(struct connection *c)
{
    uint8_t frame[13] = {0, 0, 0, 9, OP_UNLINK};
    write_u32(write_u32(frame + 5, c->key), (uint32_t)-3);
    return ask(c, frame, sizeof frame, NULL) == NUMBER_REPLY;
}

/* Fifty asks in one write, each of whose replies is to be a number. */
static bool ask_together(struct connection *c)
{
    uint8_t frames[TOGETHER * sizeof request], replies[TOGETHER * NUMBER_LEN];
    for (size_t i = 0; i < TOGETHER; i++)
        memcpy(frames + i * sizeof request, request, sizeof request);
    if (!write_out(c->socket, frames, sizeof frames) || !read_in(c->socket, replies, sizeof replies))
        return false;
    for (size_t i = 0; i < TOGETHER; i++)
        if (replies[i * NUMBER_LEN + 4] != NUMBER_REPLY)
            return false;
    return true;
}

static bool ask_found(struct connection *c)
{
    return ask(c, request, sizeof request, NULL) == NUMBER_REPLY;
}

static int connect_to(const char *path)
{
    struct sockaddr_un address = address_of(path);
    int made = socket(AF_UNIX, SOCK_STREAM | SOCK_CLOEXEC, 0);
    need(made >= 0 && connect(made, (struct sockaddr *)&address, sizeof address) == 0, path);
    return made;
}

/* Says HELLO, and goes on over the connection that a door hands over with its answer; the one to the door stays open. */
static bool greet(struct connection *c, const uint8_t *frame)
{
    _Alignas(struct cmsghdr) char control[CMSG_SPACE(sizeof(int))];
    uint8_t reply[21];
    struct iovec part = {reply, sizeof reply};
    struct msghdr message = {.msg_iov = &part, .msg_iovlen = 1, .msg_control = control, .msg_controllen = sizeof control};
    if (!write_out(c->socket, frame, sizeof hello) || recvmsg(c->socket, &message, MSG_CMSG_CLOEXEC) <= 4)
        return false;
    struct cmsghdr *head = CMSG_FIRSTHDR(&message);
    if (head != NULL && head->cmsg_type == SCM_RIGHTS)
        memcpy(&c->socket, CMSG_DATA(head), sizeof(int));
    return true;
}

static bool open_session(struct connection *c, const char *path)
{
    c->socket = connect_to(path);
    return greet(c, hello) && (c->no != 0 || ask(c, add, sizeof add, NULL) == NUMBER_REPLY);
}

/* The same, for a user of its own. */
static bool open_user(struct connection *c, const char *path)
{
    uint8_t frame[sizeof hello];
    memcpy(frame, hello, sizeof hello);
    write_u32(frame + 5, FIRST_USER + c->no);
    c->socket = connect_to(path);
    return greet(c, frame) && ask(c, add, sizeof add, NULL) == NUMBER_REPLY;
}

/* Whether a text is answered by this one. */
static bool say(const struct connection *c, const char *text, const char *wanted)
{
    char bytes[64];
    size_t len = strlen(wanted);
    return write_out(c->socket, (const uint8_t *)text, strlen(text)) && read_in(c->socket, bytes, len) && memcmp(bytes, wanted, len) == 0;
}

static bool open_redis(struct connection *c, const char *path)
{
    c->socket = connect_to(path);
    return c->no != 0 || say(c, "*3\r\n$3\r\nSET\r\n$4\r\nload\r\n$1\r\nv\r\n", "+OK\r\n");
}

static bool ask_redis(struct connection *c)
{
    return say(c, "*2\r\n$3\r\nGET\r\n$4\r\nload\r\n", "$1\r\nv\r\n");
}

static bool open_agent(struct connection *c, const char *path)
{
    c->socket = connect_to(path);
    return true;
}

/* The agent's protocol has frames of the same kind; its request 11 is answered by 12, and a count of keys. */
static bool ask_agent(struct connection *c)
{
    static const uint8_t list[] = {0, 0, 0, 1, 11};
    return ask(c, list, sizeof list, NULL) == 12;
}

/* The calls of a library, and a key that they read. */
static struct {
    int (*add)(const char *type, const char *description, const void *payload, size_t len, int ring);
    long (*read)(int key, char *buffer, size_t len);
    int key;
} library;

/* Whether the kernel finds a key that it has put into this ring: the session ring may be another one's. */
static bool is_in_kernel(int ring)
{
    library.key = (int)syscall(SYS_add_key, "user", "load", "v", 1, ring);
    return library.key > 0 && syscall(SYS_request_key, "user", "load", NULL, 0) == library.key;
}

static bool open_calls(struct connection *c, const char *path)
{
    if (c->no != 0)
        return true;
    if (strcmp(path, "-") == 0)
        return is_in_kernel(SESSION) || is_in_kernel(PROCESS);
    void *opened = dlopen(path, RTLD_NOW);
    need(opened != NULL, path);
    library.add = (int (*)(const char *, const char *, const void *, size_t, int))dlsym(opened, "add_key");
    library.read = (long (*)(int, char *, size_t))dlsym(opened, "keyctl_read");
    return library.add && library.read && (library.key = library.add("user", "load", "v", 1, SESSION)) > 0;
}

static bool ask_calls(struct connection *c)
{
    char payload[16];
    (void)c;
    return library.read ? library.read(library.key, payload, sizeof payload) == 1 : syscall(SYS_request_key, "user", "load", NULL, 0) == library.key;
}

static const struct way ways[] = {
    {"found", 1, open_session, ask_found, NULL},
    {"users", 1, open_user, ask_found, NULL},
    {"together", TOGETHER, open_session, ask_together, NULL},
    {"made", 1, open_session, ask_made, unlink_made},
    {"redis", 1, open_redis, ask_redis, NULL},
    {"agent", 1, open_agent, ask_agent, NULL},
    {"calls", 1, open_calls, ask_calls, NULL},
};

static const struct way *way_of(const char *name)
{
    for (size_t i = 0; i < sizeof ways / sizeof *ways; i++)
        if (strcmp(ways[i].name, name) == 0)
            return &ways[i];
    fputs(usage, stderr);
    exit(2);
}

/* Asks so often, unless a reply is not the one that is due; the time that each took goes into the room, if there is one. */
static void ask_often(struct connection *c, unsigned asks, uint64_t *times)
{
    for (unsigned i = 0; i < asks && !c->failed; i++) {
        uint64_t begun = nanos();
        c->failed = !c->way->ask(c);
        uint64_t ended = nanos();
        if (times)
            times[i] = ended - begun;
        if (!c->failed && c->way->behind) {
            c->failed = !c->way->behind(c);
            if (times)
                c->behind += nanos() - ended;
        }
    }
}

static void *drive(void *argument)
{
    struct connection *c = argument;
    ask_often(c, c->warm, NULL);
    pthread_barrier_wait(c->all);
    c->begun = nanos();
    ask_often(c, c->asks, c->times);
    c->ended = nanos();
    return NULL;
}

static double at(const uint64_t *times, size_t count, double part)
{
    return (double)times[(size_t)((double)(count - 1) * part)] / 1e3;
}

/* The time of all asks is that from the first to the last, less what a connection has taken on average for what is not timed. */
static void tell(struct connection *connections, unsigned count, uint64_t *times, size_t rounds, size_t each)
{
    uint64_t begun = connections[0].begun, ended = connections[0].ended, behind = 0;
    for (unsigned i = 0; i < count; i++) {
        begun = connections[i].begun < begun ? connections[i].begun : begun;
        ended = connections[i].ended > ended ? connections[i].ended : ended;
        behind += connections[i].behind;
    }
    qsort(times, rounds, sizeof *times, by_size);
    printf("%u %s: %.0f asks/s, %.1f us at the 50th percentile, %.1f at the 99th, %.1f at the 99.9th\n", count, count == 1 ? "connection" : "connections",
        (double)(rounds * each) / (double)(ended - begun - behind / count) * 1e9, at(times, rounds, 0.5), at(times, rounds, 0.99), at(times, rounds, 0.999));
}

int main(int count, char **words)
{
    const struct way *way = way_of(count == 5 ? words[4] : "found");
    unsigned wanted = number_in(count == 4 || count == 5 ? words[2] : NULL, 1, usage);
    unsigned asks = number_in(words[3], wanted * way->each, usage) / wanted / way->each;
    struct connection connections[CONNECTIONS];
    pthread_barrier_t all;
    if (wanted > CONNECTIONS) {
        fputs(usage, stderr);
        return 2;
    }
    pthread_barrier_init(&all, NULL, wanted);
    uint64_t *times = make_zeroed((size_t)wanted * asks, sizeof *times);
    for (unsigned i = 0; i < wanted; i++) {
        struct connection *c = &connections[i];
        *c = (struct connection){.way = way, .no = i, .warm = asks / 10, .asks = asks, .all = &all};
        c->times = times + (size_t)i * asks;
        need(way->open(c, words[1]), words[1]);
    }
    run_threads(wanted, drive, connections, sizeof *connections);
    for (unsigned i = 0; i < wanted; i++) {
        if (connections[i].failed) {
            fputs("load: a reply was not the one that is due\n", stderr);
            return 1;
        }
    }
    tell(connections, wanted, times, (size_t)wanted * asks, way->each);
    free(times);
    return 0;
}
