/* A server that answers each frame with one and the same reply: the peer of `reqkeyd serve`, which has to do the same and find a key.
 *
 * usage: echo SOCKET WORKERS [NANOSECONDS]
 *
 * Connections go to the workers over a queue of 64. A worker serves one until it is shut, reads at most 4,096 bytes at a time, and writes each reply
 * in one call. One more connection than there are workers waits. With NANOSECONDS a worker is busy for so long before each reply: so it can be told what
 * a server would reach that does so much for each ask. */
#include "socket.h"

enum { QUEUE = 64, PIECE = 4096 };

static const char usage[] = "usage: echo SOCKET WORKERS [NANOSECONDS]\n";

static uint64_t work_for;

static struct {
    pthread_mutex_t lock;
    pthread_cond_t filled, emptied;
    int connections[QUEUE];
    unsigned first, count;
} queue = {.lock = PTHREAD_MUTEX_INITIALIZER, .filled = PTHREAD_COND_INITIALIZER, .emptied = PTHREAD_COND_INITIALIZER};

static void queue_put(int connection)
{
    pthread_mutex_lock(&queue.lock);
    while (queue.count == QUEUE)
        pthread_cond_wait(&queue.emptied, &queue.lock);
    queue.connections[(queue.first + queue.count++) % QUEUE] = connection;
    pthread_cond_signal(&queue.filled);
    pthread_mutex_unlock(&queue.lock);
}

static int queue_take(void)
{
    pthread_mutex_lock(&queue.lock);
    while (queue.count == 0)
        pthread_cond_wait(&queue.filled, &queue.lock);
    int connection = queue.connections[queue.first];
    queue.first = (queue.first + 1) % QUEUE;
    queue.count--;
    pthread_cond_signal(&queue.emptied);
    pthread_mutex_unlock(&queue.lock);
    return connection;
}

static void be_busy(uint64_t nanoseconds)
{
    for (uint64_t begun = nanos(); nanos() - begun < nanoseconds;)
        ;
}

/* Answers the whole frames at the front of the bytes: how many bytes they are, or -1 where the connection is to be shut. */
static ssize_t answer_frames(int connection, const uint8_t *bytes, size_t len)
{
    static const uint8_t reply[] = {0, 0, 0, 5, NUMBER_REPLY, 0, 0, 0, 3};
    size_t at = 0;
    while (len - at >= 4) {
        uint32_t body = read_u32(bytes + at);
        if (body == 0 || body > MAX_BODY)
            return -1;
        if (len - at - 4 < body)
            break;
        if (work_for)
            be_busy(work_for);
        if (!write_out(connection, reply, sizeof reply))
            return -1;
        at += 4 + (size_t)body;
    }
    return (ssize_t)at;
}

static void serve(int connection)
{
    static _Thread_local uint8_t bytes[4 + MAX_BODY + PIECE];
    size_t held = 0;
    for (;;) {
        ssize_t got = read(connection, bytes + held, PIECE);
        if (got <= 0)
            break;
        held += (size_t)got;
        ssize_t used = answer_frames(connection, bytes, held);
        if (used < 0)
            break;
        held -= (size_t)used;
        if (held && used)
            memmove(bytes, bytes + used, held);
    }
    close(connection);
}

static void *take_connections(void *argument)
{
    (void)argument;
    for (;;)
        serve(queue_take());
    return NULL;
}

int main(int count, char **words)
{
    unsigned workers = number_in(count == 3 || count == 4 ? words[2] : NULL, 1, usage);
    if (count == 4)
        work_for = number_in(words[3], 0, usage);
    struct sockaddr_un address = address_of(words[1]);
    int listener = socket(AF_UNIX, SOCK_STREAM | SOCK_CLOEXEC, 0);
    need(listener >= 0 && bind(listener, (struct sockaddr *)&address, sizeof address) == 0 && listen(listener, 128) == 0, words[1]);
    for (unsigned i = 0; i < workers; i++) {
        pthread_t thread;
        need(pthread_create(&thread, NULL, take_connections, NULL) == 0, "pthread_create");
    }
    fputs("echo: ready\n", stderr);
    for (;;) {
        int connection = accept4(listener, NULL, NULL, SOCK_CLOEXEC);
        if (connection >= 0)
            queue_put(connection);
        else
            need(errno == EINTR || errno == ECONNABORTED, "accept");
    }
}
