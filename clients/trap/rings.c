#include "rings.h"

#include "../keyutils/connection.h"
#include "listener.h"
#include "processes.h"
#include "sets.h"

#include <errno.h>
#include <limits.h>
#include <pthread.h>
#include <signal.h>
#include <stdlib.h>
#include <string.h>
#include <sys/types.h>
#include <time.h>

/* Idle connections of a ring at most, and the calls after which one is made anew: the daemon reads one 1,048,576 times, 4,096 bytes at most. */
enum { IDLE = 2, CALLS = 50000 };

/*
 * Connections at most: in all, since the daemon serves 64 at a time; of a set of programs, which is alone; and those that containers share. The others are for
 * the first one of a container each. A set has so many rings at most.
 */
enum { CONNECTIONS = 60, OF_PROGRAMS = 56, SHARED = 44, RINGS_OF_SET = 32 };

/* Seconds after which nobody uses a first ring any more, though a process lives that has. */
enum { FORSAKEN = 2 };

struct ring {
    struct set *set;   /* NULL once it has ended */
    struct user *user; /* of the set */
    uint32_t uid, number;
    char *name;   /* NULL for none, "" for the first one */
    unsigned age; /* of the daemon, or another number once the ring is gone */
    pid_t daemon; /* who has it; 0 if that is not known */
    unsigned holds;
    unsigned connections, waiting; /* those in it, and calls that wait for one of them */
    pthread_cond_t given;          /* what they wait for */
    bool filled;                   /* a key may be in it */
    pid_t last;                    /* the process that has used it last, and when */
    time_t used;
    struct reqkey_rings rings;
    struct connection *idle;
    struct ring *next;
};

static pthread_mutex_t lock = PTHREAD_MUTEX_INITIALIZER;
static struct ring *rings;
static unsigned age; /* how often the daemon has been found to be another one */
static const char *path;

void rings_at(const char *socket)
{
    path = socket;
}

void rings_lock(void)
{
    pthread_mutex_lock(&lock);
}

void rings_unlock(void)
{
    pthread_mutex_unlock(&lock);
}

/* ---- connections */

/*
 * A session of this user in this ring, or in a new one for NULL, which may wait for the daemon; NULL and errno. EKEYREVOKED: the daemon is not the ring's,
 * which may be another there.
 */
static struct reqkey *connected(uint32_t number, uint32_t gid, const struct ring *ring, struct reqkey_rings *are)
{
    listener_waits();
    struct reqkey *session = reqkey_connect(path);
    if (session == NULL)
        return NULL;
    int result = reqkey_hello(session, number, gid, 0, ring == NULL ? 0 : ring->rings.session, are);
    bool lost = ring != NULL && (result == -REQKEY_ENOKEY || result == -REQKEY_EACCES);
    /* behind a door the daemon is known only when it has let somebody in: here into a ring that nobody keeps */
    if (lost && connection_daemon(session) != ring->daemon && reqkey_hello(session, number, gid, 0, 0, are) < 0)
        lost = false; /* and nothing is known */
    if (ring != NULL && (result == 0 || lost) && connection_daemon(session) != ring->daemon)
        result = -REQKEY_EKEYREVOKED;
    if (result == 0)
        return session;
    int error = errno_of(result);
    reqkey_free(session);
    errno = error;
    return NULL;
}

struct reqkey *ring_alone(uint32_t number, uint32_t gid)
{
    struct reqkey_rings are;
    return connected(number, gid, NULL, &are);
}

bool ring_clears(uint32_t number)
{
    struct reqkey *session = ring_alone(number, 0);
    bool done = session != NULL && reqkey_clear(session, REQKEY_USER_RING) == 0;
    reqkey_free(session);
    return done;
}

/* A connection for a ring, which is let go of with it. */
static struct connection *connection_in(struct ring *ring, struct reqkey *session, const struct reqkey_rings *are, uint32_t gid)
{
    struct connection *made = calloc(1, sizeof *made);
    if (made == NULL) {
        reqkey_free(session);
        errno = ENOMEM;
        return NULL;
    }
    *made = (struct connection){.session = session, .ring = ring, .rings = *are, .gid = gid};
    return made;
}

/* A ring has one connection less, so that there is room for one more. Of a thread that has the rings, as all that follows. */
static void has_less(struct ring *ring)
{
    ring->connections--;
    for (struct ring *each = rings; each != NULL; each = each->next)
        if (each->waiting > 0)
            pthread_cond_signal(&each->given);
}

static void connection_end(struct connection *connection)
{
    has_less(connection->ring);
    reqkey_free(connection->session);
    free(connection);
}

/* Ends the first of a ring's idle connections. */
static void ends_idle(struct ring *ring)
{
    struct connection *connection = ring->idle;
    ring->idle = connection->next;
    connection_end(connection);
}

/* ---- rings; of a thread that has them */

static void ring_end(struct ring *ring)
{
    struct ring **at = &rings;
    while (*at != ring)
        at = &(*at)->next;
    *at = ring->next;
    while (ring->idle != NULL)
        ends_idle(ring);
    if (ring->set != NULL)
        set_leaves(ring->set, ring->user);
    pthread_cond_destroy(&ring->given);
    free(ring->name);
    free(ring);
}

static bool is_first(const struct ring *ring)
{
    return ring->name != NULL && ring->name[0] == 0;
}

void ring_enter(struct ring *ring)
{
    ring->holds++;
}

/* A first ring stays for those who come, as long as its set does. */
void ring_leave(struct ring *ring)
{
    if (--ring->holds == 0 && (!is_first(ring) || ring->set == NULL || ring->age != age))
        ring_end(ring);
}

void rings_forget(const struct set *set)
{
    struct ring *next;
    for (struct ring *ring = rings; ring != NULL; ring = next) {
        next = ring->next;
        if (ring->set != set)
            continue;
        set_leaves(ring->set, ring->user);
        ring->set = NULL;
        if (ring->holds == 0)
            ring_end(ring);
    }
}

bool ring_hold(struct ring *ring)
{
    if (ring->age != age) {
        errno = EKEYREVOKED;
        return false;
    }
    ring->holds++;
    return true;
}

void ring_let_go(struct ring *ring)
{
    rings_lock();
    ring_leave(ring);
    rings_unlock();
}

uint32_t ring_serial(const struct ring *ring)
{
    return ring->rings.session;
}

const char *ring_name(const struct ring *ring)
{
    return ring->name;
}

bool ring_is_of(const struct ring *ring, uint32_t uid)
{
    return ring->uid == uid;
}

/* A ring is gone: whoever is in it, or waits for a connection, gets EKEYREVOKED. */
static void is_gone(struct ring *ring)
{
    ring->age = age - 1;
    while (ring->idle != NULL)
        ends_idle(ring);
    pthread_cond_broadcast(&ring->given);
}

void ring_revoke(struct ring *ring)
{
    rings_lock();
    is_gone(ring);
    rings_unlock();
}

/* The daemon is another one than that of this ring: its rings are gone, and not those that were made since. Those that nobody holds end here. */
static void grow_older(const struct ring *than)
{
    struct ring *next;
    pid_t daemon = than->daemon;
    if (than->age != age)
        return;
    age++;
    for (struct ring *ring = rings; ring != NULL; ring = next) {
        next = ring->next;
        if (ring->age == age - 1 && ring->daemon != daemon)
            ring->age = age;
        else if (ring->holds == 0)
            ring_end(ring);
        else
            pthread_cond_broadcast(&ring->given);
    }
    sets_begin_anew();
}

/* Holds the ring by this name; NULL if there is none. */
static struct ring *held_by_name(const struct set *set, uint32_t uid, const char *name)
{
    for (struct ring *ring = rings; ring != NULL; ring = ring->next)
        if (ring->set == set && ring->uid == uid && ring->name != NULL && strcmp(ring->name, name) == 0 && ring->age == age) {
            ring->holds++;
            return ring;
        }
    return NULL;
}

/* ---- room */

/* Connections, of which a ring without one is to have one, and rings that are not gone. */
struct sums {
    unsigned all, its, its_rings;
};

static struct sums sums_of(const struct set *set)
{
    struct sums sums = {0, 0, 0};
    for (const struct ring *ring = rings; ring != NULL; ring = ring->next) {
        unsigned connections = ring->connections == 0 && ring->age == age ? 1 : ring->connections;
        sums.all += connections;
        sums.its += ring->set == set ? connections : 0;
        sums.its_rings += ring->set == set && ring->age == age;
    }
    return sums;
}

/* Whether there is room for one more connection of this set. After its first one, a container has no more than are left. */
static bool has_room(const struct set *set, const struct sums *sums)
{
    if (sums->all >= CONNECTIONS || sums->its == 0)
        return sums->all < CONNECTIONS;
    return set_is_container(set) ? sums->all + sums->its <= SHARED : sums->its < OF_PROGRAMS;
}

static time_t now(void)
{
    struct timespec time;
    clock_gettime(CLOCK_MONOTONIC, &time);
    return time.tv_sec;
}

/* Whether a first ring is empty, and no living process has used it for some seconds. */
static bool is_forsaken(const struct ring *ring)
{
    return is_first(ring) && ring->holds == 0 && !ring->filled && (now() - ring->used >= FORSAKEN || (kill(ring->last, 0) < 0 && errno == ESRCH));
}

/* Of this set, or of any for NULL: ends an idle connection that its ring can do without, or else the first ring that was forsaken longest ago. */
static bool makes_room(const struct set *set)
{
    struct ring *oldest = NULL;
    for (struct ring *ring = rings; ring != NULL; ring = ring->next) {
        if (set != NULL && ring->set != set)
            continue;
        if (ring->idle != NULL && ring->connections > 1 && ring->waiting == 0) {
            ends_idle(ring);
            return true;
        }
        if ((oldest == NULL || ring->used < oldest->used) && is_forsaken(ring))
            oldest = ring;
    }
    if (oldest != NULL)
        ring_end(oldest);
    return oldest != NULL;
}

/* Makes room for one more connection of a set, or for one more ring, as far as that goes without taking what others use. */
static bool finds_room(const struct set *set, bool for_ring)
{
    for (;;) {
        struct sums sums = sums_of(set);
        bool too_many = for_ring && sums.its_rings >= RINGS_OF_SET;
        if (!too_many && has_room(set, &sums))
            return true;
        if (!makes_room(set) && (too_many || !makes_room(NULL)))
            return false;
    }
}

/* ---- new rings */

/* A place for a new ring of a user, which has a connection from now on: it is held, and gone until it is made. NULL and errno. */
static struct ring *begun(struct set *set, uint32_t uid, const char *name)
{
    struct ring *ring = calloc(1, sizeof *ring);
    if (ring == NULL || (name != NULL && (ring->name = strdup(name)) == NULL)) {
        free(ring);
        errno = ENOMEM;
        return NULL;
    }
    rings_lock();
    errno = EDQUOT;
    bool room = finds_room(set, true);
    while (room && (ring->user = set_enters(set, uid)) == NULL && errno == EDQUOT && makes_room(set))
        ; /* whose user may be one less */
    if (ring->user != NULL) {
        ring->set = set;
        ring->uid = uid;
        ring->number = ring->user->number;
        ring->holds = ring->connections = 1;
        ring->age = age - 1;
        pthread_cond_init(&ring->given, NULL);
        ring->next = rings;
        rings = ring;
    }
    rings_unlock();
    if (ring->user != NULL)
        return ring;
    free(ring->name);
    free(ring);
    return NULL;
}

/* The first connection of a ring; NULL and errno. What another container has left in the user ring goes first. */
static struct connection *first_connection(struct ring *ring, uint32_t gid)
{
    struct reqkey *session = connected(ring->number, gid, NULL, &ring->rings);
    int cleared = session != NULL && ring->user->unclear ? reqkey_clear(session, REQKEY_USER_RING) : 0;
    if (cleared == 0)
        return session == NULL ? NULL : connection_in(ring, session, &ring->rings, gid);
    int error = errno_of(cleared);
    reqkey_free(session);
    errno = error;
    return NULL;
}

/* A new ring with its first connection, held; NULL and errno. Not of a thread that has the rings. */
static struct ring *made(struct set *set, uint32_t uid, uint32_t gid, const char *name)
{
    struct ring *ring = begun(set, uid, name);
    if (ring == NULL && errno == EDQUOT) {
        processes_reap();
        ring = begun(set, uid, name);
    }
    if (ring == NULL)
        return NULL;
    struct connection *connection = first_connection(ring, gid);
    int error = errno;
    rings_lock();
    if (connection == NULL) {
        has_less(ring);
        ring_end(ring);
    } else {
        ring->user->unclear = false;
        set_has_acted(set, ring->user);
        ring->daemon = connection_daemon(connection->session);
        ring->idle = connection;
        ring->age = age;
    }
    rings_unlock();
    errno = error;
    return connection == NULL ? NULL : ring;
}

struct ring *ring_named(struct set *set, uint32_t uid, uint32_t gid, const char *name)
{
    pthread_mutex_lock(&set->making);
    rings_lock();
    struct ring *ring = name == NULL ? NULL : held_by_name(set, uid, name);
    rings_unlock();
    if (ring == NULL)
        ring = made(set, uid, gid, name);
    pthread_mutex_unlock(&set->making);
    return ring;
}

struct ring *ring_first(struct set *set, uint32_t uid, uint32_t gid)
{
    rings_lock();
    struct ring *ring = held_by_name(set, uid, "");
    rings_unlock();
    return ring != NULL ? ring : ring_named(set, uid, gid, "");
}

/* ---- turns */

/* An idle connection of this group, taken out; NULL if there is none. Those that the daemon has ended go. Of a thread that has the rings. */
static struct connection *idle_one(struct ring *ring, uint32_t gid)
{
    struct connection *connection, **at = &ring->idle;
    while ((connection = *at) != NULL) {
        if (connection->gid != gid) {
            at = &connection->next;
            continue;
        }
        *at = connection->next;
        if (!connection_has_ended(connection->session))
            return connection;
        connection_end(connection);
    }
    return NULL;
}

/* Whether a ring may have one more connection, which takes the place of an idle one of another group if there is no room. */
static bool may_have_more(struct ring *ring)
{
    if (ring->connections == 0 || finds_room(ring->set, false))
        return true;
    if (ring->idle != NULL)
        ends_idle(ring);
    return ring->connections == 0 || finds_room(ring->set, false);
}

/* An idle connection, or NULL where another one is to be made, which counts from now on; EKEYREVOKED if the ring is gone. */
static struct connection *idle_or_room(struct ring *ring, uint32_t gid)
{
    struct connection *connection;
    rings_lock();
    while ((connection = idle_one(ring, gid)) == NULL && ring->age == age && !may_have_more(ring)) {
        listener_waits();
        ring->waiting++;
        pthread_cond_wait(&ring->given, &lock);
        ring->waiting--;
    }
    int error = connection == NULL && ring->age != age ? EKEYREVOKED : 0;
    if (connection == NULL && error == 0)
        ring->connections++;
    rings_unlock();
    errno = error;
    return connection;
}

/* None was made after all. If there is no such ring, it is gone, and all are with it if the daemon is another one. */
static void not_made(struct ring *ring, int error)
{
    rings_lock();
    has_less(ring);
    bool gone = error == ENOKEY || error == EACCES || error == EKEYREVOKED;
    if (error == EKEYREVOKED || (gone && ring->daemon == 0))
        grow_older(ring);
    else if (gone)
        is_gone(ring);
    rings_unlock();
    errno = gone ? EKEYREVOKED : error;
}

struct connection *connection_take(struct ring *ring, uint32_t gid)
{
    struct reqkey_rings are;
    struct connection *connection = idle_or_room(ring, gid);
    if (connection != NULL || errno != 0)
        return connection;
    struct reqkey *session = connected(ring->number, gid, ring, &are);
    if (session != NULL)
        connection = connection_in(ring, session, &are, gid);
    if (connection == NULL)
        not_made(ring, errno);
    return connection;
}

static unsigned idle_count(const struct ring *ring)
{
    unsigned count = 0;
    for (const struct connection *connection = ring->idle; connection != NULL; connection = connection->next)
        count++;
    return count;
}

/* A young connection in the place of an old one, whose ring it keeps; the old one if there is none. */
static struct connection *renewed(struct connection *connection)
{
    struct reqkey_rings are;
    struct reqkey *session = connected(connection->ring->number, connection->gid, connection->ring, &are);
    if (session == NULL)
        return connection;
    reqkey_free(connection->session);
    connection->session = session;
    connection->calls = 0;
    connection->setting = REQKEY_DEFAULT;
    return connection;
}

/* The ring is used by this process. Keys may be in it, and in the user ring. */
static void is_used(struct ring *ring, const struct use *use)
{
    ring->last = use->process;
    ring->used = now();
    ring->filled |= use->fills_session;
    if (ring->set != NULL)
        ring->user->filled |= use->fills_user;
}

void connection_give(struct connection *connection, const struct use *use)
{
    struct ring *ring = connection->ring;
    reqkey_wipe(connection->session);
    if (!use->broken && connection->calls >= CALLS)
        connection = renewed(connection);
    rings_lock();
    is_used(ring, use);
    if (connection->alone)
        has_less(ring);
    connection->alone = false;
    unsigned idle = ring->waiting > 0 ? UINT_MAX : IDLE;
    if (use->broken || ring->age != age || idle_count(ring) >= idle)
        connection_end(connection);
    else {
        connection->next = ring->idle;
        ring->idle = connection;
        pthread_cond_signal(&ring->given);
    }
    ring_leave(ring);
    rings_unlock();
}

struct reqkey *connection_alone(struct connection *connection)
{
    struct ring *ring = connection->ring;
    rings_lock();
    connection->alone = finds_room(ring->set, false);
    ring->connections += connection->alone;
    rings_unlock();
    errno = EDQUOT;
    return connection->alone ? ring_alone(ring->number, connection->gid) : NULL;
}
