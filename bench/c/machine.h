/* The machine of docs/MACHINE.md in plain C: keys, rings, sessions and constructions in hash maps.
 *
 * It is the measure for `rk_core`, and answers the same events alike. Each event has a function; a session is found by its number
 * first. Out of memory ends the program. */
#ifndef MACHINE_H
#define MACHINE_H

#include "map.h"
#include "message.h"

#include <errno.h>
#include <stdbool.h>

enum { THREAD, PROCESS, SESSION, USER }; /* the rings of a context, in the order of search */

/* Whose rings a session acts with; 0 for a ring that it does not have. One that was dropped is not there. */
struct context {
    uint32_t uid, gid;
    uint32_t rings[4];
};

enum condition { BUILDING, POSITIVE, NEGATIVE };

struct user {
    uint32_t uid;
    uint32_t keys; /* how many belong to it */
    uint32_t ring; /* its user ring, 0 before the first HELLO */
};

struct key {
    uint32_t serial;
    uint32_t hash;  /* of its name */
    uint32_t links; /* in how many rings it is linked */
    uint8_t condition;
    uint8_t error; /* of a negative one */
    bool revoked, expires;
    uint8_t type_len;
    uint16_t description_len, payload_len;
    uint64_t expiry;
    struct user *owner;
    uint8_t *payload; /* behind the name, or memory of its own */
    uint8_t name[];   /* the type, then the description */
};

struct session {
    uint64_t id; /* its place in the order of moves: clients by number, then handlers by key */
    bool has_context;
    uint8_t setting;
    bool starter, told; /* of its wait; told: the outcome is there */
    struct context context;
    uint32_t assumed;  /* the key whose authority it has assumed, 0 for none */
    uint32_t wait_key; /* 0 where it does not wait */
    uint32_t outcome;  /* an errno, or 0 for the key itself */
    struct session *next, **here; /* in the chain of those who wait for one key and are not told yet */
    void *peer;                   /* for whoever drives the machine */
};

#define HANDLER_ID ((uint64_t)1 << 32)

enum stage { STARTING, PLAIN, PIPED, NEGATING };

struct construction {
    uint32_t key;
    uint8_t stage, depth;
    bool unspent;
    struct context context; /* of the first requester */
    uint32_t destination;
    uint32_t rings[3]; /* what the handler gets: the thread, process and session ring at the start, or 0 */
    uint8_t *callout;
    size_t callout_len;
    struct session session;  /* of its plain handler */
    struct session *waiting; /* the chain, the starter in it */
    struct session *starter; /* until it has collected or is gone */
    void *peer;
};

struct machine {
    uint32_t negative; /* for so many seconds a key is negative whose handler did not complete it */
    uint64_t next, stride; /* serials */
    struct map keys, rings, users, clients, constructions;
    struct buffer text; /* of the last DESCRIBE */
    /* called for each session whose wait may be collected from now on; may be null */
    void (*woken)(void *driver, struct session *session);
    void *driver;
};

enum answer_kind {
    NUMBER = NUMBER_REPLY, BYTES = BYTES_REPLY, RINGS = RINGS_REPLY, REFUSED = REFUSED_REPLY,
    WAITING, START, NEGATE,
};

/* What is answered; the first four are replies. The bytes stand until the next event. */
struct answer {
    enum answer_kind kind;
    uint32_t number; /* a number, an errno, or a key */
    struct bytes bytes;
    const uint32_t *rings; /* the four of a context */
};

enum ran { RAN_PLAIN, RAN_PIPED, RAN_FAILED };

void machine_init(struct machine *m, uint32_t negative, uint32_t first, uint32_t stride);
void machine_free(struct machine *m);

static inline struct session *machine_client(const struct machine *m, uint32_t client)
{
    return map_get(&m->clients, client);
}

static inline struct construction *machine_construction(const struct machine *m, uint32_t key)
{
    return map_get(&m->constructions, key);
}

/* A handler for it is to be started; one runs. */
static inline bool is_to_launch(const struct construction *c)
{
    return c && (c->stage == STARTING || c->stage == NEGATING);
}

static inline bool is_running(const struct construction *c)
{
    return c && (c->stage == PLAIN || c->stage == PIPED);
}

static inline bool is_ready(const struct machine *m, const struct session *s)
{
    return s->wait_key && s->told && !(s->starter && machine_construction(m, s->wait_key));
}

/* A client comes: its session, or null and the errno. */
struct session *machine_open(struct machine *m, uint32_t client, int *error);

/* A session asks. EBUSY while it waits. */
struct answer machine_ask(struct machine *m, struct session *s, uint64_t now, const struct ask *ask);

/* The handler of a key was started, or could not be; EINVAL where that does not fit its construction. */
struct answer machine_launched(struct machine *m, uint32_t key, enum ran ran, uint64_t now);

/* The handler of a key has ended, with status 0 if `well`; the payload is empty where there is none. */
struct answer machine_ended(struct machine *m, uint32_t key, bool well, struct bytes payload, uint64_t now);

/* A session collects the outcome of its wait; EINVAL where it does not wait. */
struct answer machine_collect(struct machine *m, struct session *s);

/* A client that is there goes. */
void machine_gone(struct machine *m, uint32_t client);

/* The payload of a valid key of that name which the requester of k can find; none where the first hit is under construction. */
bool machine_peek(struct machine *m, uint32_t key, struct bytes type, struct bytes description, uint64_t now, struct bytes *payload);

static inline struct bytes key_type(const struct key *key)
{
    return (struct bytes){key->name, key->type_len};
}

static inline struct bytes key_description(const struct key *key)
{
    return (struct bytes){key->name + key->type_len, key->description_len};
}

#endif
