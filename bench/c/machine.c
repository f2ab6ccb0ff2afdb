#include "machine.h"

enum { MAX_CLIENTS = 64, MAX_KEYS = 200, MAX_LINKS = 256, MAX_RINGS = 1024, MAX_DEPTH = 8 };

struct link {
    struct key *key; /* null where the slot is free */
    uint32_t hash;
};

/* A ring: a hash table of the keys that are linked in it, by name. It has one key of a name at most. */
struct ring {
    uint32_t serial, uid;
    uint8_t kind;
    uint32_t clients; /* how many clients have it as their session ring */
    uint32_t count, mask;
    struct link *links;
};

struct name {
    struct bytes type, description;
    uint32_t hash;
};

/* Who acts when a session asks. */
struct asker {
    const struct context *context;
    uint32_t assumed, requestor; /* 0 for a client */
    int depth;
};

static struct name name_of(struct bytes type, struct bytes description)
{
    uint64_t hash = hash_bytes(hash_bytes(type.len, type.at, type.len), description.at, description.len);
    return (struct name){type, description, (uint32_t)hash};
}

static struct name name_of_key(const struct key *key)
{
    return (struct name){key_type(key), key_description(key), key->hash};
}

static bool is_named(const struct key *key, const struct name *name)
{
    return key->description_len == name->description.len && key->type_len == name->type.len
        && memcmp(key->name, name->type.at, key->type_len) == 0
        && memcmp(key->name + key->type_len, name->description.at, key->description_len) == 0;
}

/* ---- serials */

static bool has_serials(const struct machine *m, uint32_t count)
{
    return count == 0 || m->next + (count - 1) * m->stride <= INT32_MAX;
}

static uint32_t draw(struct machine *m)
{
    uint32_t serial = (uint32_t)m->next;
    m->next += m->stride;
    return serial;
}

/* ---- keys */

static struct user *user_of(struct machine *m, uint32_t uid)
{
    struct user *user = map_get(&m->users, uid);
    if (!user) {
        user = make(sizeof *user);
        *user = (struct user){.uid = uid};
        map_add(&m->users, uid, user);
    }
    return user;
}

static struct key *key_make(struct machine *m, const struct name *name, uint32_t uid, struct bytes payload)
{
    size_t names = name->type.len + name->description.len;
    struct key *key = make(sizeof *key + names + payload.len);
    *key = (struct key){
        .serial = draw(m),
        .hash = name->hash,
        .condition = payload.len ? POSITIVE : BUILDING,
        .type_len = (uint8_t)name->type.len,
        .description_len = (uint16_t)name->description.len,
        .payload_len = (uint16_t)payload.len,
        .owner = user_of(m, uid),
    };
    memcpy(key->name, name->type.at, name->type.len);
    memcpy(key->name + key->type_len, name->description.at, name->description.len);
    key->payload = key->name + names;
    if (payload.len)
        memcpy(key->payload, payload.at, payload.len);
    key->owner->keys++;
    map_add(&m->keys, key->serial, key);
    return key;
}

static void key_free(struct key *key)
{
    if (key->payload != key->name + key->type_len + key->description_len)
        free(key->payload);
    free(key);
}

/* A key without a link is gone, unless it is under construction. */
static void key_settle(struct machine *m, struct key *key)
{
    if (key->links || key->condition == BUILDING)
        return;
    map_remove(&m->keys, key->serial);
    key->owner->keys--;
    key_free(key);
}

static bool is_expired(const struct key *key, uint64_t now)
{
    return key->expires && key->expiry <= now;
}

/* The error of a key that is revoked or expired, or 0. */
static int over_error(const struct key *key, uint64_t now)
{
    return key->revoked ? EKEYREVOKED : is_expired(key, now) ? EKEYEXPIRED : 0;
}

/* The error of a key that is neither valid nor under construction, or 0. */
static int use_error(const struct key *key, uint64_t now)
{
    int error = over_error(key, now);
    return error || key->condition != NEGATIVE ? error : key->error;
}

static void expire_in(struct key *key, uint64_t now, uint32_t seconds)
{
    key->expires = true;
    key->expiry = now + seconds < now ? UINT64_MAX : now + seconds;
}

/* ---- rings */

static struct ring *ring_get(const struct machine *m, uint32_t serial)
{
    return serial ? map_get(&m->rings, serial) : NULL;
}

static struct ring *ring_make(struct machine *m, int kind, uint32_t uid)
{
    struct ring *ring = make(sizeof *ring);
    *ring = (struct ring){.serial = draw(m), .uid = uid, .kind = (uint8_t)kind, .mask = 7};
    ring->links = make_zeroed(ring->mask + 1, sizeof *ring->links);
    map_add(&m->rings, ring->serial, ring);
    return ring;
}

/* The slot of the key of that name, or the free one where it would stand. */
static struct link *ring_slot(const struct ring *ring, const struct name *name)
{
    for (uint32_t at = name->hash & ring->mask;; at = (at + 1) & ring->mask) {
        struct link *link = &ring->links[at];
        if (!link->key || (link->hash == name->hash && is_named(link->key, name)))
            return link;
    }
}

static bool ring_holds(const struct ring *ring, const struct key *key)
{
    for (uint32_t at = key->hash & ring->mask; ring->links[at].key; at = (at + 1) & ring->mask)
        if (ring->links[at].key == key)
            return true;
    return false;
}

static bool is_full(const struct ring *ring, const struct name *name)
{
    return ring->count >= MAX_LINKS && !ring_slot(ring, name)->key;
}

static bool is_full_for(const struct ring *ring, const struct key *key)
{
    if (ring->count < MAX_LINKS)
        return false;
    struct name name = name_of_key(key);
    return is_full(ring, &name);
}

static void ring_grow(struct ring *ring)
{
    struct link *old = ring->links;
    uint32_t count = ring->mask + 1;
    ring->mask = 2 * count - 1;
    ring->links = make_zeroed(2 * (size_t)count, sizeof *ring->links);
    for (uint32_t i = 0; i < count; i++) {
        if (!old[i].key)
            continue;
        uint32_t at = old[i].hash & ring->mask;
        while (ring->links[at].key)
            at = (at + 1) & ring->mask;
        ring->links[at] = old[i];
    }
    free(old);
}

/* Links the key; another one of its name gives way. */
static void ring_link(struct machine *m, struct ring *ring, struct key *key)
{
    if (4 * (ring->count + 1) > 3 * (ring->mask + 1))
        ring_grow(ring);
    struct name name = name_of_key(key);
    struct link *link = ring_slot(ring, &name);
    struct key *rival = link->key;
    if (rival == key)
        return;
    *link = (struct link){key, key->hash};
    key->links++;
    if (rival) {
        rival->links--;
        key_settle(m, rival);
    } else {
        ring->count++;
    }
}

/* Takes out the link of a key that is linked. */
static void ring_unlink(struct machine *m, struct ring *ring, struct key *key)
{
    uint32_t hole = key->hash & ring->mask;
    while (ring->links[hole].key != key)
        hole = (hole + 1) & ring->mask;
    for (uint32_t at = (hole + 1) & ring->mask; ring->links[at].key; at = (at + 1) & ring->mask) {
        if (((at - ring->links[at].hash) & ring->mask) >= ((at - hole) & ring->mask)) {
            ring->links[hole] = ring->links[at];
            hole = at;
        }
    }
    ring->links[hole].key = NULL;
    ring->count--;
    key->links--;
    key_settle(m, key);
}

static void ring_clear(struct machine *m, struct ring *ring)
{
    for (uint32_t at = 0; at <= ring->mask; at++) {
        struct key *key = ring->links[at].key;
        ring->links[at].key = NULL;
        if (key) {
            key->links--;
            key_settle(m, key);
        }
    }
    ring->count = 0;
}

static void ring_drop(struct machine *m, uint32_t serial)
{
    struct ring *ring = ring_get(m, serial);
    if (!ring)
        return;
    ring_clear(m, ring);
    map_remove(&m->rings, serial);
    free(ring->links);
    free(ring);
}

/* ---- who acts, and what it names */

static struct construction *construction_of(struct session *s)
{
    return (struct construction *)((char *)s - offsetof(struct construction, session));
}

/* A client acts for itself, a handler for its first requester, as long as it has assumed its authority. */
static bool acts(struct session *s, struct asker *asker)
{
    if (s->id < HANDLER_ID) {
        *asker = (struct asker){&s->context, 0, 0, 1};
        return s->has_context;
    }
    const struct construction *c = construction_of(s);
    *asker = (struct asker){&c->context, s->assumed, c->destination, c->depth + 1};
    return s->assumed != 0;
}

/* The ring that a number names, or null and the errno. */
static struct ring *ring_named(const struct machine *m, const struct asker *asker, int32_t number, int *error)
{
    struct ring *ring;
    *error = ENOKEY;
    if (number > 0) {
        const uint32_t *own = asker->context->rings, serial = (uint32_t)number;
        ring = ring_get(m, serial);
        if (!ring || serial == own[THREAD] || serial == own[PROCESS] || serial == own[SESSION] || serial == own[USER])
            return ring;
        *error = EACCES;
        return NULL;
    }
    if (number == 0)
        return NULL;
    if (number >= -4)
        return ring_get(m, asker->context->rings[-number - 1]);
    if (number == -8)
        return ring_get(m, asker->requestor);
    *error = EINVAL;
    return NULL;
}

/* The same where 0 stands for no ring, without an error. */
static struct ring *ring_or_none(const struct machine *m, const struct asker *asker, int32_t number, int *error)
{
    if (number)
        return ring_named(m, asker, number, error);
    *error = 0;
    return NULL;
}

static bool is_possessed(const struct machine *m, const struct asker *asker, const struct key *key)
{
    for (int place = THREAD; place <= USER; place++) {
        const struct ring *ring = ring_get(m, asker->context->rings[place]);
        if (ring && ring_holds(ring, key))
            return true;
    }
    return asker->assumed == key->serial;
}

static struct key *key_known(const struct machine *m, int32_t number, int *error)
{
    *error = number <= 0 ? EINVAL : ENOKEY;
    return number <= 0 ? NULL : map_get(&m->keys, (uint32_t)number);
}

/* The key that a number names, if the asker possesses it; else null and the errno. */
static struct key *key_named(const struct machine *m, const struct asker *asker, int32_t number, int *error)
{
    struct key *key = key_known(m, number, error);
    if (!key || is_possessed(m, asker, key))
        return key;
    *error = EACCES;
    return NULL;
}

/* ---- answers */

static struct answer refused(int error)
{
    return (struct answer){.kind = REFUSED, .number = (uint32_t)error};
}

static struct answer number(uint32_t number)
{
    return (struct answer){.kind = NUMBER, .number = number};
}

static struct answer answer_of(const uint8_t *at, size_t len)
{
    return (struct answer){.kind = BYTES, .bytes = {at, len}};
}

/* ---- waits */

static void wait_on(struct session *s, struct construction *c, bool starter)
{
    s->wait_key = c->key;
    s->starter = starter;
    s->told = false;
    s->next = c->waiting;
    s->here = &c->waiting;
    if (s->next)
        s->next->here = &s->next;
    c->waiting = s;
    if (starter)
        c->starter = s;
}

static void leave_chain(struct session *s)
{
    if (!s->here)
        return;
    *s->here = s->next;
    if (s->next)
        s->next->here = s->here;
    s->here = NULL;
}

static void stop_waiting(struct machine *m, struct session *s)
{
    if (!s->wait_key)
        return;
    leave_chain(s);
    struct construction *c = s->starter ? machine_construction(m, s->wait_key) : NULL;
    if (c)
        c->starter = NULL;
    s->wait_key = 0;
}

static void wake(struct machine *m, struct session *s)
{
    if (m->woken)
        m->woken(m->driver, s);
}

/* A handler would wait, over other handlers, for itself. */
static bool would_circle(const struct machine *m, const struct session *s, uint32_t key)
{
    while (key) {
        const struct construction *c = machine_construction(m, key);
        if (!c || c->stage != PLAIN)
            return false;
        if (&c->session == s)
            return true;
        key = c->session.wait_key;
    }
    return false;
}

/* ---- completion */

/* The authority is spent, and all who wait get the outcome of the key. */
static void announce(struct machine *m, struct construction *c, struct key *key, uint64_t now)
{
    c->unspent = false;
    c->session.assumed = 0;
    int outcome = key->revoked ? EKEYREVOKED
        : key->condition == NEGATIVE ? key->error
        : is_expired(key, now) ? EKEYEXPIRED : 0;
    while (c->waiting) {
        struct session *s = c->waiting;
        leave_chain(s);
        s->told = true;
        s->outcome = (uint32_t)outcome;
        if (!s->starter)
            wake(m, s);
    }
}

static void complete_with(struct machine *m, struct construction *c, struct key *key, struct bytes payload, uint64_t now)
{
    key->condition = POSITIVE;
    key->payload = make(payload.len);
    key->payload_len = (uint16_t)payload.len;
    memcpy(key->payload, payload.at, payload.len);
    announce(m, c, key, now);
    key_settle(m, key);
}

static void complete_without(struct machine *m, struct construction *c, struct key *key, int error, uint32_t seconds, uint64_t now)
{
    key->condition = NEGATIVE;
    key->error = (uint8_t)error;
    expire_in(key, now, seconds);
    announce(m, c, key, now);
    key_settle(m, key);
}

/* The construction is over, and the session of its handler with it. */
static void construction_end(struct machine *m, struct construction *c)
{
    struct session *starter = c->starter;
    stop_waiting(m, &c->session);
    map_remove(&m->constructions, c->key);
    free(c->callout);
    free(c);
    if (starter)
        wake(m, starter);
}

/* The handler of c made nothing of its key, or could not be started. */
static void construction_fail(struct machine *m, struct construction *c, uint64_t now)
{
    if (c->unspent)
        complete_without(m, c, map_get(&m->keys, c->key), ENOKEY, m->negative, now);
    construction_end(m, c);
}

/* ---- HELLO */

static int hello_refusal(const struct machine *m, const struct ask *ask, const struct ring *joined)
{
    const struct user *user = map_get(&m->users, ask->uid);
    uint32_t made = (uint32_t)ask->thread + ask->process + !ask->join + !(user && user->ring);
    if (ask->join && !joined)
        return ENOKEY;
    if (ask->join && (joined->kind != SESSION || joined->uid != ask->uid))
        return EACCES;
    return m->rings.count + made > MAX_RINGS || !has_serials(m, made) ? EDQUOT : 0;
}

static struct answer hello(struct machine *m, struct session *s, const struct ask *ask)
{
    struct ring *joined = ring_get(m, ask->join);
    int error = hello_refusal(m, ask, joined);
    if (error)
        return refused(error);
    uint32_t *rings = s->context.rings;
    rings[THREAD] = ask->thread ? ring_make(m, THREAD, ask->uid)->serial : 0;
    rings[PROCESS] = ask->process ? ring_make(m, PROCESS, ask->uid)->serial : 0;
    if (!joined)
        joined = ring_make(m, SESSION, ask->uid);
    joined->clients++;
    rings[SESSION] = joined->serial;
    struct user *user = user_of(m, ask->uid);
    if (!user->ring)
        user->ring = ring_make(m, USER, ask->uid)->serial;
    rings[USER] = user->ring;
    s->context.uid = ask->uid;
    s->context.gid = ask->gid;
    s->has_context = true;
    return (struct answer){.kind = RINGS, .rings = rings};
}

/* ---- REQUEST */

/* The first key of the name that is valid or under construction; else null and the error to be returned. `stale` says that the error is of
 * revoked and expired keys alone, or of none. */
static struct key *search(const struct machine *m, const struct context *context, const struct name *name, uint64_t now, int *error, bool *stale)
{
    static const uint8_t rank[] = {[ENOKEY] = 1, [EKEYREJECTED] = 2, [EKEYEXPIRED] = 3, [EKEYREVOKED] = 4};
    int block = 0, old = ENOKEY;
    for (int place = THREAD; place <= USER; place++) {
        const struct ring *ring = ring_get(m, context->rings[place]);
        struct key *key = ring ? ring_slot(ring, name)->key : NULL;
        if (!key)
            continue;
        int over = over_error(key, now);
        if (over) {
            old = rank[over] > rank[old] ? over : old;
        } else if (key->condition == NEGATIVE) {
            block = rank[key->error] > rank[block] ? key->error : block;
        } else {
            return key;
        }
    }
    *stale = block == 0;
    *error = block ? block : old;
    return NULL;
}

/* Where a new key goes for 0: the first ring from the setting on. */
static struct ring *default_ring(const struct machine *m, const struct session *s, const struct asker *asker)
{
    int place = s->setting == 0 || s->setting == 7 ? THREAD : s->setting - 1;
    struct ring *ring = s->setting == 0 || s->setting == 7 ? ring_get(m, asker->requestor) : NULL;
    for (; !ring && place <= USER; place++)
        ring = ring_get(m, asker->context->rings[place]);
    return ring;
}

static struct construction *construction_make(struct machine *m, const struct asker *asker, uint32_t key, uint32_t destination, struct bytes callout)
{
    struct construction *c = make_zeroed(1, sizeof *c);
    c->key = key;
    c->stage = STARTING;
    c->depth = (uint8_t)asker->depth;
    c->unspent = true;
    c->context = *asker->context;
    c->destination = destination;
    for (int place = THREAD; place <= SESSION; place++)
        c->rings[place] = ring_get(m, c->context.rings[place]) ? c->context.rings[place] : 0;
    c->callout = make(callout.len);
    c->callout_len = callout.len;
    memcpy(c->callout, callout.at, callout.len);
    c->session.id = HANDLER_ID | key;
    map_add(&m->constructions, key, c);
    return c;
}

static struct answer start(struct machine *m, struct session *s, const struct asker *asker, const struct name *name, struct ring *ring, struct bytes callout)
{
    const struct user *user = map_get(&m->users, asker->context->uid);
    if (asker->depth > MAX_DEPTH || user->keys >= MAX_KEYS || !has_serials(m, 1) || is_full(ring, name))
        return refused(EDQUOT);
    struct key *key = key_make(m, name, asker->context->uid, (struct bytes){0});
    ring_link(m, ring, key);
    struct construction *c = construction_make(m, asker, key->serial, ring->serial, callout);
    wait_on(s, c, true);
    return (struct answer){.kind = START, .number = key->serial};
}

static struct answer request(struct machine *m, struct session *s, const struct asker *asker, uint64_t now, const struct ask *ask)
{
    int error;
    struct ring *ring = ring_or_none(m, asker, ask->ring, &error);
    if (!ring && error)
        return refused(error);
    struct name name = name_of(ask->type, ask->description);
    bool stale;
    struct key *key = search(m, asker->context, &name, now, &error, &stale);
    if (!key) {
        if (!ask->has_callout || !stale)
            return refused(error);
        return start(m, s, asker, &name, ring ? ring : default_ring(m, s, asker), ask->callout);
    }
    bool building = key->condition == BUILDING;
    if (building && would_circle(m, s, key->serial))
        return refused(EDEADLK);
    if (ring && is_full_for(ring, key))
        return refused(EDQUOT);
    if (ring)
        ring_link(m, ring, key);
    if (!building)
        return number(key->serial);
    wait_on(s, machine_construction(m, key->serial), false);
    return (struct answer){.kind = WAITING, .number = key->serial};
}

/* ---- authority and completion */

static struct answer assume(struct session *s, int32_t key)
{
    if (key == 0) {
        s->assumed = 0;
        return number(0);
    }
    if (s->id < HANDLER_ID || key < 0 || (uint32_t)key != construction_of(s)->key)
        return refused(ENOKEY);
    if (!construction_of(s)->unspent)
        return refused(EKEYREVOKED);
    s->assumed = (uint32_t)key;
    return number(0);
}

static struct answer complete(struct machine *m, struct session *s, const struct asker *asker, uint64_t now, const struct ask *ask)
{
    int error;
    if (ask->key <= 0 || asker->assumed != (uint32_t)ask->key)
        return refused(EPERM);
    struct key *key = map_get(&m->keys, asker->assumed);
    struct ring *ring = ring_or_none(m, asker, ask->ring, &error);
    if (!ring && error)
        return refused(error);
    if (ring && is_full_for(ring, key))
        return refused(EDQUOT);
    if (ring)
        ring_link(m, ring, key);
    struct construction *c = construction_of(s);
    if (ask->op == OP_INSTANTIATE)
        complete_with(m, c, key, ask->payload, now);
    else
        complete_without(m, c, key, ask->op == OP_NEGATE ? ENOKEY : (int)ask->error, ask->seconds, now);
    return number(0);
}

static struct answer callout(struct session *s, const struct asker *asker)
{
    if (!asker->assumed)
        return refused(ENOKEY);
    const struct construction *c = construction_of(s);
    return answer_of(c->callout, c->callout_len);
}

/* ---- keys by their serials */

static struct answer read_key(const struct machine *m, const struct asker *asker, uint64_t now, int32_t key_number)
{
    int error;
    const struct key *key = key_named(m, asker, key_number, &error);
    if (!key || (error = use_error(key, now)))
        return refused(error);
    if (key->condition == BUILDING)
        return refused(EBUSY);
    return answer_of(key->payload, key->payload_len);
}

static const char *state_of(const struct key *key, uint64_t now)
{
    static const char *const words[] = {[BUILDING] = "building", [POSITIVE] = "valid", [NEGATIVE] = "negative"};
    return key->revoked ? "revoked" : is_expired(key, now) ? "expired" : words[key->condition];
}

static struct answer describe(struct machine *m, const struct asker *asker, uint64_t now, int32_t key_number)
{
    int error;
    const struct key *key = key_named(m, asker, key_number, &error);
    if (!key)
        return refused(error);
    char middle[32];
    int len = snprintf(middle, sizeof middle, ";%u;%s;", key->owner->uid, state_of(key, now));
    m->text.len = 0;
    buffer_put(&m->text, key->name, key->type_len);
    buffer_put(&m->text, middle, (size_t)len);
    buffer_put(&m->text, key->name + key->type_len, key->description_len);
    return answer_of(m->text.at, m->text.len);
}

static struct answer revoke(struct machine *m, const struct asker *asker, int32_t key_number)
{
    int error;
    struct key *key = key_named(m, asker, key_number, &error);
    if (!key)
        return refused(error);
    if (key->revoked)
        return refused(EKEYREVOKED);
    key->revoked = true;
    return number(0);
}

static struct answer timeout(struct machine *m, const struct asker *asker, uint64_t now, const struct ask *ask)
{
    int error;
    struct key *key = key_named(m, asker, ask->key, &error);
    if (!key || (error = over_error(key, now)))
        return refused(error);
    if (ask->seconds)
        expire_in(key, now, ask->seconds);
    else
        key->expires = false;
    return number(0);
}

/* ---- links */

static struct answer link_in(struct machine *m, const struct asker *asker, uint64_t now, const struct ask *ask)
{
    int error;
    struct key *key = key_named(m, asker, ask->key, &error);
    if (!key)
        return refused(error);
    struct ring *ring = ring_named(m, asker, ask->ring, &error);
    if (!ring || (error = use_error(key, now)))
        return refused(error);
    if (is_full_for(ring, key))
        return refused(EDQUOT);
    ring_link(m, ring, key);
    return number(0);
}

static struct answer unlink_from(struct machine *m, const struct asker *asker, const struct ask *ask)
{
    int error;
    struct key *key = key_known(m, ask->key, &error);
    if (!key)
        return refused(error);
    struct ring *ring = ring_named(m, asker, ask->ring, &error);
    if (!ring)
        return refused(error);
    if (!ring_holds(ring, key))
        return refused(ENOENT);
    ring_unlink(m, ring, key);
    return number(0);
}

static struct answer clear(struct machine *m, const struct asker *asker, int32_t ring_number)
{
    int error;
    struct ring *ring = ring_named(m, asker, ring_number, &error);
    if (!ring)
        return refused(error);
    ring_clear(m, ring);
    return number(0);
}

static struct answer set_default(struct session *s, int32_t setting)
{
    uint8_t before = s->setting;
    if (setting != -1 && (setting < 0 || setting > 7 || setting == 5 || setting == 6))
        return refused(EINVAL);
    if (setting >= 0)
        s->setting = (uint8_t)setting;
    return number(before);
}

static struct answer add(struct machine *m, const struct asker *asker, const struct ask *ask)
{
    int error;
    struct ring *ring = ring_named(m, asker, ask->ring, &error);
    if (!ring)
        return refused(error);
    const struct user *user = map_get(&m->users, asker->context->uid);
    struct name name = name_of(ask->type, ask->description);
    if (user->keys >= MAX_KEYS || !has_serials(m, 1) || is_full(ring, &name))
        return refused(EDQUOT);
    struct key *key = key_make(m, &name, asker->context->uid, ask->payload);
    ring_link(m, ring, key);
    return number(key->serial);
}

/* ---- events */

void machine_init(struct machine *m, uint32_t negative, uint32_t first, uint32_t stride)
{
    *m = (struct machine){.negative = negative, .next = first, .stride = stride};
}

void machine_free(struct machine *m)
{
    void *value;
    for (uint32_t at = 0; map_next(&m->constructions, &at, &value);) {
        free(((struct construction *)value)->callout);
        free(value);
    }
    for (uint32_t at = 0; map_next(&m->rings, &at, &value);) {
        free(((struct ring *)value)->links);
        free(value);
    }
    for (uint32_t at = 0; map_next(&m->keys, &at, &value);)
        key_free(value);
    for (uint32_t at = 0; map_next(&m->users, &at, &value);)
        free(value);
    for (uint32_t at = 0; map_next(&m->clients, &at, &value);)
        free(value);
    map_free(&m->constructions);
    map_free(&m->rings);
    map_free(&m->keys);
    map_free(&m->users);
    map_free(&m->clients);
    buffer_free(&m->text);
}

struct session *machine_open(struct machine *m, uint32_t client, int *error)
{
    *error = machine_client(m, client) ? EBUSY : m->clients.count >= MAX_CLIENTS ? EDQUOT : 0;
    if (*error)
        return NULL;
    struct session *s = make_zeroed(1, sizeof *s);
    s->id = client;
    map_add(&m->clients, client, s);
    return s;
}

/* Who may ask: one who acts, but for HELLO of a client and ASSUME of a handler. */
static int gate(const struct session *s, bool acting, enum op op)
{
    bool handler = s->id >= HANDLER_ID;
    if (op == OP_HELLO)
        return handler && !acting ? EACCES : handler || acting ? EINVAL : 0;
    if (op == OP_ASSUME && handler)
        return 0;
    return acting ? 0 : EACCES;
}

struct answer machine_ask(struct machine *m, struct session *s, uint64_t now, const struct ask *ask)
{
    struct asker asker;
    if (s->wait_key)
        return refused(EBUSY);
    int error = gate(s, acts(s, &asker), ask->op);
    if (error)
        return refused(error);
    switch (ask->op) {
    case OP_HELLO: return hello(m, s, ask);
    case OP_REQUEST: return request(m, s, &asker, now, ask);
    case OP_ASSUME: return assume(s, ask->key);
    case OP_INSTANTIATE:
    case OP_NEGATE:
    case OP_REJECT: return complete(m, s, &asker, now, ask);
    case OP_READ: return ask->key == -7 ? callout(s, &asker) : read_key(m, &asker, now, ask->key);
    case OP_DESCRIBE: return describe(m, &asker, now, ask->key);
    case OP_REVOKE: return revoke(m, &asker, ask->key);
    case OP_TIMEOUT: return timeout(m, &asker, now, ask);
    case OP_LINK: return link_in(m, &asker, now, ask);
    case OP_UNLINK: return unlink_from(m, &asker, ask);
    case OP_CLEAR: return clear(m, &asker, ask->ring);
    case OP_DEFAULT: return set_default(s, ask->ring);
    case OP_ADD: return add(m, &asker, ask);
    case OP_CALLOUT: return callout(s, &asker);
    }
    return refused(EINVAL);
}

struct answer machine_launched(struct machine *m, uint32_t key, enum ran ran, uint64_t now)
{
    struct construction *c = machine_construction(m, key);
    if (!is_to_launch(c) || (ran == RAN_PIPED && c->stage != STARTING))
        return refused(EINVAL);
    if (ran == RAN_FAILED)
        construction_fail(m, c, now);
    else
        c->stage = ran == RAN_PIPED ? PIPED : PLAIN;
    return number(0);
}

struct answer machine_ended(struct machine *m, uint32_t key, bool well, struct bytes payload, uint64_t now)
{
    struct construction *c = machine_construction(m, key);
    if (!is_running(c))
        return refused(EINVAL);
    if (c->stage == PLAIN) {
        construction_fail(m, c, now);
    } else if (well && payload.len) {
        complete_with(m, c, map_get(&m->keys, key), payload, now);
        construction_end(m, c);
    } else {
        c->stage = NEGATING;
        return (struct answer){.kind = NEGATE, .number = key};
    }
    return number(0);
}

struct answer machine_collect(struct machine *m, struct session *s)
{
    uint32_t key = s->wait_key;
    if (!key)
        return refused(EINVAL);
    if (!is_ready(m, s))
        return (struct answer){.kind = WAITING, .number = key};
    stop_waiting(m, s);
    return s->outcome ? refused((int)s->outcome) : number(key);
}

void machine_gone(struct machine *m, uint32_t client)
{
    struct session *s = machine_client(m, client);
    stop_waiting(m, s);
    if (s->has_context) {
        ring_drop(m, s->context.rings[THREAD]);
        ring_drop(m, s->context.rings[PROCESS]);
        struct ring *ring = ring_get(m, s->context.rings[SESSION]);
        if (ring && --ring->clients == 0)
            ring_drop(m, ring->serial);
    }
    map_remove(&m->clients, client);
    free(s);
}

bool machine_peek(struct machine *m, uint32_t key, struct bytes type, struct bytes description, uint64_t now, struct bytes *payload)
{
    int error;
    bool stale;
    struct construction *c = machine_construction(m, key);
    struct name name = name_of(type, description);
    const struct key *found = c && c->unspent ? search(m, &c->context, &name, now, &error, &stale) : NULL;
    if (!found || found->condition != POSITIVE)
        return false;
    *payload = (struct bytes){found->payload, found->payload_len};
    return true;
}
