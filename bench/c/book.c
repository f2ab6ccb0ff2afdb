/* What a step of the machine costs, by the number of keys that it holds, without scripts.
 *
 * usage: book [--users USERS] [--rounds ROUNDS] KEYS ..
 *
 * The keys are 200 of each user, or are spread evenly over so many users. The steps are those of a client of the
 * last user. Steps that can't be repeated are made in batches, and what comes between the batches is not timed. */
#include "machine.h"
#include "threads.h"

enum { OF_A_USER = 200, BATCH = 50, STEPPER = 1 };

static const uint64_t NOW = 100;

struct filled {
    struct machine machine;
    uint32_t size, users;
    bool tells_users;
    uint32_t uid, names; /* of the last user, and how many keys it has */
    struct session *client;
    uint32_t key, ring; /* one of its keys, and its session ring */
};

/* ---- asks */

/* A name as `d7`, in its room. */
static struct bytes described(char prefix, uint32_t number, char room[12])
{
    char *at = room + 12;
    do
        *--at = (char)('0' + number % 10);
    while (number /= 10);
    *--at = prefix;
    return (struct bytes){(uint8_t *)at, (size_t)(room + 12 - at)};
}

/* A name has to keep its rules, as it would on the wire. */
static void name_ask(struct ask *ask, struct bytes description)
{
    ask->type = bytes_of("user");
    ask->description = description;
    if (type_fault(ask->type) || description_fault(description))
        abort();
}

static struct answer ask_of(struct filled *f, struct session *s, const struct ask *ask)
{
    return machine_ask(&f->machine, s, NOW, ask);
}

static struct answer request(struct filled *f, struct session *s, struct bytes description, bool starts)
{
    struct ask ask = {.op = OP_REQUEST, .has_callout = starts, .callout = bytes_of("x")};
    name_ask(&ask, description);
    return ask_of(f, s, &ask);
}

static uint32_t add(struct filled *f, char prefix, uint32_t number)
{
    char room[12];
    struct ask ask = {.op = OP_ADD, .payload = bytes_of("v"), .ring = -4};
    name_ask(&ask, described(prefix, number, room));
    return ask_of(f, f->client, &ask).number;
}

static struct answer ask_key(struct filled *f, struct session *s, enum op op, uint32_t key, int32_t ring)
{
    struct ask ask = {.op = op, .key = (int32_t)key, .ring = ring, .payload = bytes_of("v")};
    return ask_of(f, s, &ask);
}

static void expect(bool holds, const char *what)
{
    if (!holds) {
        fprintf(stderr, "book: %s is answered otherwise\n", what);
        exit(1);
    }
}

/* ---- filling */

static struct session *greet(struct filled *f, uint32_t client, uint32_t uid, uint32_t join)
{
    int error;
    struct ask ask = {.op = OP_HELLO, .uid = uid, .gid = uid, .join = join};
    if (machine_client(&f->machine, client))
        machine_gone(&f->machine, client);
    struct session *s = machine_open(&f->machine, client, &error);
    expect(ask_of(f, s, &ask).kind == RINGS, "HELLO");
    return s;
}

/* How many keys the user of this number gets. A user with all its 200 keeps one free. */
static uint32_t share(const struct filled *f, uint32_t user)
{
    uint64_t size = f->size;
    uint32_t keys = (uint32_t)(size * (user + 1) / f->users - size * user / f->users);
    return keys < OF_A_USER ? keys : OF_A_USER - 1;
}

static void fill(struct filled *f)
{
    machine_init(&f->machine, 60, 1, 1);
    for (f->uid = 0; f->uid < f->users; f->uid++) {
        f->client = greet(f, STEPPER, f->uid, 0);
        f->names = share(f, f->uid);
        for (uint32_t name = 0; name < f->names; name++)
            f->key = add(f, 'd', name);
    }
    f->uid--;
    f->ring = f->client->context.rings[SESSION];
}

static void tell(const struct filled *f, const char *step, uint64_t took, uint32_t steps)
{
    printf("%u keys", f->size);
    if (f->tells_users)
        printf(" of %u users", f->users);
    printf(", %s: %.1f ns\n", step, (double)took / steps);
}

/* ---- steps that can be repeated */

static void hits_and_misses(struct filled *f, uint32_t rounds)
{
    char room[12];
    uint32_t name = f->names > 7 ? 7 : 0;
    uint64_t begun = nanos();
    for (uint32_t i = 0; i < rounds; i++)
        expect(request(f, f->client, described('d', name, room), false).kind == NUMBER, "a hit");
    tell(f, "a request that hits", nanos() - begun, rounds);
    begun = nanos();
    for (uint32_t i = 0; i < rounds; i++)
        expect(request(f, f->client, described('d', OF_A_USER, room), false).number == ENOKEY, "a miss");
    tell(f, "a request that misses", nanos() - begun, rounds);
}

static void displacing(struct filled *f, uint32_t rounds)
{
    uint32_t name = f->names > 7 ? 7 : 0;
    uint64_t begun = nanos();
    for (uint32_t i = 0; i < rounds; i++)
        f->key = add(f, 'd', name);
    tell(f, "a key added in the place of another", nanos() - begun, rounds);
}

static void reads(struct filled *f, uint32_t rounds)
{
    uint64_t begun = nanos();
    for (uint32_t i = 0; i < rounds; i++)
        expect(ask_key(f, f->client, OP_READ, f->key, 0).kind == BYTES, "READ");
    tell(f, "a key read", nanos() - begun, rounds);
}

/* ---- steps in batches */

/* Leaves room for the keys of a batch. */
static void make_room(struct filled *f)
{
    const struct user *user = map_get(&f->machine.users, f->uid);
    char room[12];
    while (user->keys + BATCH > OF_A_USER) {
        struct answer found = request(f, f->client, described('d', --f->names, room), false);
        expect(ask_key(f, f->client, OP_UNLINK, found.number, -4).kind == NUMBER, "UNLINK");
    }
}

static void batches(struct filled *f, uint32_t rounds)
{
    uint64_t added = 0, revoked = 0, unlinked = 0;
    uint32_t steps = 0, keys[BATCH];
    for (; steps < rounds; steps += BATCH) {
        uint64_t begun = nanos();
        for (uint32_t i = 0; i < BATCH; i++)
            keys[i] = add(f, 'e', i);
        uint64_t then = nanos();
        added += then - begun;
        for (uint32_t i = 0; i < BATCH; i++)
            expect(ask_key(f, f->client, OP_REVOKE, keys[i], 0).kind == NUMBER, "REVOKE");
        begun = nanos();
        revoked += begun - then;
        for (uint32_t i = 0; i < BATCH; i++)
            expect(ask_key(f, f->client, OP_UNLINK, keys[i], -4).kind == NUMBER, "UNLINK");
        unlinked += nanos() - begun;
    }
    tell(f, "a key added", added, steps);
    tell(f, "a key revoked", revoked, steps);
    tell(f, "a key unlinked", unlinked, steps);
}

/* Other clients of the user ask for a key each, and the handlers of all assume their authorities. */
static void begin_constructions(struct filled *f, struct session *clients[], uint32_t keys[])
{
    char room[12];
    for (uint32_t i = 0; i < BATCH; i++) {
        struct answer started = request(f, clients[i], described('e', i, room), true);
        expect(started.kind == START, "a start");
        keys[i] = started.number;
        machine_launched(&f->machine, keys[i], RAN_PLAIN, NOW);
        struct session *handler = &machine_construction(&f->machine, keys[i])->session;
        expect(ask_key(f, handler, OP_ASSUME, keys[i], 0).kind == NUMBER, "ASSUME");
    }
}

static void end_constructions(struct filled *f, struct session *clients[], uint32_t keys[])
{
    for (uint32_t i = 0; i < BATCH; i++) {
        machine_ended(&f->machine, keys[i], true, (struct bytes){0}, NOW);
        expect(machine_collect(&f->machine, clients[i]).kind == NUMBER, "an outcome");
        expect(ask_key(f, f->client, OP_UNLINK, keys[i], -3).kind == NUMBER, "UNLINK");
    }
}

static void instantiating(struct filled *f, uint32_t rounds)
{
    struct session *clients[BATCH];
    uint64_t took = 0;
    uint32_t steps = 0, keys[BATCH];
    for (uint32_t i = 0; i < BATCH; i++)
        clients[i] = greet(f, STEPPER + 1 + i, f->uid, f->ring);
    for (; steps < rounds; steps += BATCH) {
        begin_constructions(f, clients, keys);
        uint64_t begun = nanos();
        for (uint32_t i = 0; i < BATCH; i++) {
            struct session *handler = &machine_construction(&f->machine, keys[i])->session;
            expect(ask_key(f, handler, OP_INSTANTIATE, keys[i], 0).kind == NUMBER, "INSTANTIATE");
        }
        took += nanos() - begun;
        end_constructions(f, clients, keys);
    }
    tell(f, "a key instantiated", took, steps);
}

static void bench(uint32_t size, uint32_t users, uint32_t rounds)
{
    struct filled f = {.size = size, .users = users ? users : size < OF_A_USER ? 1 : size / OF_A_USER, .tells_users = users};
    fill(&f);
    hits_and_misses(&f, rounds);
    displacing(&f, rounds);
    reads(&f, rounds);
    make_room(&f);
    batches(&f, rounds);
    instantiating(&f, rounds);
    machine_free(&f.machine);
}

int main(int count, char **words)
{
    uint32_t users = 0, rounds = 20000;
    int at = 1;
    for (; at + 1 < count && words[at][0] == '-'; at += 2) {
        uint32_t *option = strcmp(words[at], "--users") == 0 ? &users : &rounds;
        *option = (uint32_t)strtoul(words[at + 1], NULL, 10);
    }
    if (at >= count || rounds == 0) {
        fputs("usage: book [--users USERS] [--rounds ROUNDS] KEYS ..\n", stderr);
        return 2;
    }
    map_seed_draw();
    for (; at < count; at++)
        bench((uint32_t)strtoul(words[at], NULL, 10), users, rounds);
    return 0;
}
