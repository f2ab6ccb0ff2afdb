/* The library's session.h, for whoever calls at the moment: a handler's one session, or a connection in the ring of the caller's process. */
#include "session.h"

#include "../keyutils/connection.h"
#include "../keyutils/session.h"
#include "caller.h"
#include "handler.h"
#include "processes.h"
#include "rings.h"

#include <errno.h>
#include <stddef.h>

static __thread struct connection *mine; /* of the call of this thread */

/* The ring of the caller's process, held; the first one of its user if it is in none, or in another user's, who is let into no ring of that. */
static struct ring *ring_of_caller(int *setting)
{
    struct ring *ring;
    if (!process_find(&ring, setting))
        return NULL;
    return ring != NULL ? ring : ring_first(caller.set, caller.uid, caller.gid);
}

/* A connection in a ring that is held; NULL and errno, and then it is let go of. */
static struct connection *taken(struct ring *ring)
{
    struct connection *connection = ring == NULL ? NULL : connection_take(ring, caller.gid);
    if (ring == NULL || connection != NULL)
        return connection;
    int error = errno;
    ring_let_go(ring);
    errno = error;
    return NULL;
}

/* A connection for the caller; NULL and errno. If the daemon is found to be another one, a first ring is made anew, and the call goes on there. */
static struct connection *connection_of_caller(int *setting)
{
    struct connection *connection = taken(ring_of_caller(setting));
    return connection != NULL || errno != EKEYREVOKED ? connection : taken(ring_of_caller(setting));
}

/* Has a connection of several processes the setting of this one; a result that is an error if it can't. */
static int set_default(int setting)
{
    int before = mine->setting == setting ? 0 : reqkey_default(mine->session, setting);
    if (before >= 0)
        mine->setting = setting;
    return before;
}

/* What the call has done with its ring, by this result. */
static struct use use_of(int result)
{
    bool broken = result <= -REQKEY_ENDED, links = caller.constructs || (caller.links && (result >= 0 || broken));
    bool session = caller.into == REQKEY_SESSION_RING || (uint32_t)caller.into == mine->rings.session;
    bool user = caller.into == REQKEY_USER_RING || (uint32_t)caller.into == mine->rings.user;
    return (struct use){caller.process, links && (caller.constructs || !user), links && (caller.constructs || !session), broken};
}

struct reqkey *session_begin(int32_t key)
{
    int setting = 0;
    struct reqkey *session = NULL;
    (void)key;
    if (is_handler())
        session = handler_take();
    else if ((mine = connection_of_caller(&setting)) != NULL) {
        int result = set_default(setting);
        mine->calls++;
        session = result < 0 ? NULL : mine->session;
        if (session == NULL)
            session_end(result);
    }
    if (session == NULL)
        return NULL;
    if (caller_lives()) /* it may have waited for its turn */
        return session;
    session_end(0);
    errno = ESRCH;
    return NULL;
}

long session_end(int result)
{
    int error = result < 0 ? errno_of(result) : 0;
    if (is_handler())
        handler_give();
    else {
        struct use use = use_of(result);
        connection_give(mine, &use);
    }
    mine = NULL;
    if (error == 0)
        return result;
    errno = error;
    return -1;
}

bool session_is_handlers(void)
{
    return is_handler();
}

struct reqkey_rings session_rings(void)
{
    return is_handler() ? (struct reqkey_rings){0, 0, 0, 0} : mine->rings;
}

struct reqkey *session_alone(void)
{
    if (is_handler()) {
        errno = EOPNOTSUPP;
        return NULL;
    }
    return connection_alone(mine);
}

long session_renew(const char *name)
{
    if (is_handler()) {
        errno = EOPNOTSUPP;
        return -1;
    }
    struct ring *ring = ring_named(caller.set, caller.uid, caller.gid, name);
    if (ring == NULL)
        return -1;
    uint32_t serial = ring_serial(ring);
    bool joined = process_join(ring);
    ring_let_go(ring);
    if (joined)
        return (long)serial;
    errno = ENOMEM;
    return -1;
}

/* The ring of the caller's process by its number, held, whoever's it is: a program that has joined it for another user may still revoke it. */
static struct ring *ring_to_revoke(int32_t id)
{
    int setting;
    struct ring *ring = process_ring();
    if (ring != NULL && id > 0 && ring_serial(ring) == (uint32_t)id)
        return ring;
    if (ring != NULL)
        ring_let_go(ring);
    ring = ring_of_caller(&setting);
    if (ring == NULL || id == REQKEY_SESSION_RING || ring_serial(ring) == (uint32_t)id)
        return ring;
    ring_let_go(ring);
    errno = 0;
    return NULL;
}

int session_revoke(int32_t id)
{
    struct ring *ring = is_handler() || (id <= 0 && id != REQKEY_SESSION_RING) ? NULL : ring_to_revoke(id);
    if (ring == NULL)
        return is_handler() || id != REQKEY_SESSION_RING ? 0 : -1;
    mine = taken(ring);
    if (mine == NULL)
        return -1;
    ring_revoke(ring);
    return session_end(reqkey_clear(mine->session, REQKEY_SESSION_RING)) < 0 ? -1 : 1;
}

bool session_setting(int setting)
{
    if (is_handler())
        return true;
    mine->setting = setting;
    return process_set(setting);
}

void session_assumes(int32_t key)
{
    if (is_handler()) /* with its session taken; all others answer at the same time */
        handler_assumes(key);
}

int32_t session_assumed(void)
{
    return handler_key();
}

const char *session_ring_name(void)
{
    const char *name = is_handler() ? NULL : ring_name(mine->ring);
    return name == NULL || name[0] == 0 ? "_ses" : name;
}

/* Of the session that has begun. */
static struct learned *learned(void)
{
    static struct learned handlers;
    return is_handler() ? &handlers : &mine->learned;
}

void session_learns(int32_t key)
{
    learn(learned(), key);
}

bool session_has_learned(int32_t key)
{
    return has_learned(learned(), key);
}
