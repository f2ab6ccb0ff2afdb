/* What a call costs behind a lock: the machine in one hall with a mutex, or in four, with 1, 2, 4 and 8 threads.
 *
 * usage: hall [CALLS]
 *
 * Each thread is a client with 199 keys in its user ring. Where there are four halls, a user stands in that of its uid's remainder by four,
 * and serials are drawn by fours. The best of five rounds is printed, each of so many calls. */
#include "machine.h"
#include "threads.h"

enum { HALLS = 4, THREADS = 8, KEYS = 199 };

struct hall {
    _Alignas(128) pthread_mutex_t lock;
    struct machine machine;
};

struct caller {
    _Alignas(128) struct hall *hall;
    struct session *session;
    unsigned calls;
    bool adds; /* each tenth call adds a key in the place of another */
    pthread_barrier_t *all;
};

static void hall_init(struct hall *hall, uint32_t no, uint32_t count)
{
    pthread_mutex_init(&hall->lock, NULL);
    machine_init(&hall->machine, 60, no ? no : count, count);
}

static struct answer call(struct caller *c, const struct ask *ask)
{
    pthread_mutex_lock(&c->hall->lock);
    struct answer answer = machine_ask(&c->hall->machine, c->session, 100, ask);
    pthread_mutex_unlock(&c->hall->lock);
    return answer;
}

static void enter(struct caller *c, uint32_t client)
{
    int error;
    struct ask hello = {.op = OP_HELLO, .uid = client, .gid = client};
    c->session = machine_open(&c->hall->machine, client, &error);
    need(c->session && call(c, &hello).kind == RINGS, "HELLO");
    for (unsigned name = 0; name < KEYS; name++) {
        char room[8];
        snprintf(room, sizeof room, "d%u", name);
        struct ask add = {.op = OP_ADD, .type = bytes_of("user"), .description = bytes_of(room), .payload = bytes_of("v"), .ring = -4};
        need(call(c, &add).kind == NUMBER, "ADD");
    }
}

static void *call_on(void *argument)
{
    struct caller *c = argument;
    char names[KEYS][8];
    for (unsigned name = 0; name < KEYS; name++)
        snprintf(names[name], sizeof names[name], "d%u", name);
    pthread_barrier_wait(c->all);
    for (unsigned i = 0; i < c->calls; i++) {
        struct ask ask = {.op = c->adds && i % 10 == 0 ? OP_ADD : OP_REQUEST, .type = bytes_of("user"), .description = bytes_of(names[i % KEYS])};
        ask.payload = bytes_of("v");
        ask.ring = ask.op == OP_ADD ? -4 : 0;
        if (call(c, &ask).kind != NUMBER)
            abort();
    }
    return NULL;
}

/* The nanoseconds of a call, and how many calls a second all threads make. */
static void bench(unsigned halls, unsigned threads, unsigned calls, bool adds)
{
    static struct hall hall[HALLS];
    static struct caller callers[THREADS];
    pthread_barrier_t all;
    pthread_barrier_init(&all, NULL, threads);
    for (unsigned no = 0; no < halls; no++)
        hall_init(&hall[no], no, halls);
    for (unsigned i = 0; i < threads; i++) {
        callers[i] = (struct caller){.hall = &hall[i % halls], .calls = calls / threads, .adds = adds, .all = &all};
        enter(&callers[i], i);
    }
    double took = (double)best_of(ROUNDS, threads, call_on, callers, sizeof *callers), made = (double)(calls / threads) * threads;
    printf("%s, %u %s, %u %s: %.0f ns a call, %.0f calls/s\n", adds ? "hits and adds" : "hits", halls, halls == 1 ? "hall" : "halls", threads,
        threads == 1 ? "thread" : "threads", took * threads / made, made / took * 1e9);
    for (unsigned no = 0; no < halls; no++)
        machine_free(&hall[no].machine);
    pthread_barrier_destroy(&all);
}

int main(int count, char **words)
{
    unsigned calls = count > 1 ? number_in(words[1], THREADS, "usage: hall [CALLS]\n") : 1600000;
    map_seed_draw();
    for (int adds = 0; adds < 2; adds++)
        for (unsigned halls = 1; halls <= HALLS; halls *= 4)
            for (unsigned threads = 1; threads <= THREADS; threads *= 2)
                bench(halls, threads, calls, adds);
    return 0;
}
