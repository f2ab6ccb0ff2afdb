#include "session.h"

#include "connection.h"
#include "environment.h"
#include "learned.h"
#include "streams.h"
#include "turn.h"

#include <errno.h>
#include <fcntl.h>
#include <pthread.h>
#include <signal.h>
#include <stdio.h>
#include <stdlib.h>
#include <sys/mman.h>
#include <sys/socket.h>
#include <sys/stat.h>
#include <time.h>
#include <unistd.h>

/* The calls after which a connection is made anew. The daemon reads a connection 1,048,576 times, at most 4,096 bytes each time. */
enum { CALLS = 50000 };

/* What a descriptor is. */
struct file {
    dev_t device;
    ino_t inode;
};

/* A session, and what its descriptors are. */
struct held {
    struct reqkey *session; /* or NULL */
    struct file file, door;
};

/* Sessions of calls that did not end, as long as their functions may go on with them. */
static struct {
    struct held held;
    int thread;
    const char *frame; /* where the stack was when the call began */
} aside[8];

static struct {
    struct held held;
    bool asks;              /* the program itself assumes authorities */
    int32_t assumed;        /* the handler's key, or 0 */
    pid_t owner;            /* of a client's connection */
    uid_t uid;
    gid_t gid;
    pid_t daemon; /* who has answered it, or 0 */
    unsigned calls;
    struct reqkey_rings rings;
    struct learned learned; /* of this daemon's keys */
    uint32_t handed;   /* the ring that is there for what this process executes, or 0 */
    const char *frame; /* where the stack was when the call began */
} own;

/* ---- a client's connection */

/* A connection in this session ring, or in a new one for 0; NULL, and errno. A ring of a daemon that is not the same one any more is not there: ENOKEY. */
static struct reqkey *client(uint32_t join, struct reqkey_rings *rings)
{
    const char *path = secure_getenv("REQKEYD_SOCKET");
    if (path == NULL || path[0] == 0) {
        errno = ENOTCONN;
        return NULL;
    }
    struct reqkey *session = reqkey_connect(path);
    if (session == NULL)
        return NULL;
    int result = reqkey_hello(session, geteuid(), getegid(), 0, join, rings);
    /* (behind a door the daemon is known when HELLO was answered) */
    if (result == 0 && join != 0 && own.daemon != 0 && connection_daemon(session) != own.daemon)
        result = -REQKEY_ENOKEY;
    if (result < 0) {
        int error = errno_of(result);
        reqkey_free(session);
        errno = error;
        return NULL;
    }
    return session;
}

static uint32_t ring_told(void)
{
    const char *told = secure_getenv("REQKEYD_JOIN");
    return told == NULL ? 0 : (uint32_t)strtoul(told, NULL, 10);
}

static bool is_same_user(void)
{
    return own.uid == geteuid() && own.gid == getegid();
}

/* A connection in the ring that this process has been in, else in the one of its environment, else in a new one; NULL, and errno. */
static struct reqkey *next_client(struct reqkey_rings *rings)
{
    uint32_t told = ring_told(), before = own.rings.session;
    struct reqkey *session = NULL;
    errno = ENOKEY;
    if (before != 0)
        session = client(before, rings);
    if (session == NULL && told != 0 && told != before && (errno == ENOKEY || errno == EACCES))
        session = client(told, rings);
    if (session != NULL || (errno != ENOKEY && errno != EACCES))
        return session;
    if (told == 0 || (before != 0 && !is_same_user()))
        return client(0, rings);
    errno = EKEYREVOKED;
    return NULL;
}

static struct file file_of(int descriptor)
{
    struct stat file = {.st_ino = 0};
    return descriptor >= 0 && fstat(descriptor, &file) == 0 ? (struct file){file.st_dev, file.st_ino} : (struct file){0, 0};
}

static bool is_file(struct file file, int descriptor)
{
    struct file now = file_of(descriptor);
    return now.device == file.device && now.inode == file.inode;
}

/* Whether the descriptors still are this session's: the program may have closed one, and opened another file. */
static bool is_mine(const struct held *held)
{
    return is_file(held->file, reqkey_descriptor(held->session)) && is_file(held->door, reqkey_door(held->session));
}

/* It is gone from here before it ends: another thread may fork meanwhile, and its child must not find it. */
static void end(struct held *held)
{
    struct held was = *held;
    __atomic_store_n(&held->session, NULL, __ATOMIC_SEQ_CST);
    if (was.session != NULL && is_mine(&was))
        reqkey_free(was.session);
    else if (was.session != NULL)
        reqkey_forget(was.session);
}

/* A page that a child finds empty, however it was forked (MADV_WIPEONFORK, madvise(2)): not empty says that the connection is this process'. Or NULL. */
static char *page;

enum { PAGE = 4096 };

/* A child has no connection yet. In a process namespace of its own it may have its parent's number. */
static void forked(void)
{
    own.owner = 0;
}

__attribute__((constructor)) static void loaded(void)
{
    void *at = mmap(NULL, PAGE, PROT_READ | PROT_WRITE, MAP_PRIVATE | MAP_ANONYMOUS, -1, 0);
    pthread_atfork(NULL, NULL, forked);
    if (at != MAP_FAILED && madvise(at, PAGE, MADV_WIPEONFORK) == 0)
        page = at;
}

/* Without a system call where there is such a page. */
static bool is_owner(void)
{
    return page != NULL ? *page != 0 : own.owner == getpid();
}

/*
 * Whether this call has its turn, for a change of the session. A signal's function that has called has taken it away. So signals are blocked until the change
 * is done, and the mask before is set again.
 */
static bool may_change(sigset_t *before)
{
    sigset_t all;
    sigfillset(&all);
    pthread_sigmask(SIG_BLOCK, &all, before);
    return turn_is_mine();
}

/* This session, which may be none, in the place of the one before. */
static bool is_now(struct reqkey *session, const struct reqkey_rings *rings)
{
    if (session == NULL)
        return false;
    end(&own.held);
    own.held = (struct held){session, file_of(reqkey_descriptor(session)), file_of(reqkey_door(session))};
    own.rings = *rings;
    own.owner = getpid();
    if (page != NULL)
        *page = 1;
    own.uid = geteuid();
    own.gid = getegid();
    own.daemon = connection_daemon(session);
    own.calls = 0;
    own.learned = (struct learned){{0}};
    if (own.handed == rings->session) {
        fcntl(reqkey_descriptor(session), F_SETFD, 0);
        fcntl(reqkey_door(session), F_SETFD, 0); /* which fails without a door */
    }
    return true;
}

/* The same, unless this call has lost its turn: ECONNRESET then, as for a call that was interrupted later. */
static bool takes_place(struct reqkey *session, const struct reqkey_rings *rings)
{
    sigset_t before;
    bool mine = may_change(&before), done = mine && is_now(session, rings);
    pthread_sigmask(SIG_SETMASK, &before, NULL);
    if (mine)
        return done;
    reqkey_free(session);
    errno = ECONNRESET;
    return false;
}

/* Sees to a connection that is right for this call. */
static bool is_connected(void)
{
    struct reqkey_rings rings = {0, 0, 0, 0};
    bool right = own.held.session != NULL && is_owner() && is_same_user() && is_mine(&own.held) && !connection_has_ended(own.held.session);
    if (right && own.calls++ < CALLS)
        return true;
    struct reqkey *next = next_client(&rings);
    return takes_place(next, &rings) || (right && next == NULL);
}

/* ---- a handler's session, over its streams */

/* Whether SIGPIPE is kept from this thread's call, and was not blocked before. A write to streams that the daemon has left raises it; no call of keys does. */
static __thread bool hushed, was_open;

static sigset_t pipe_alone(void)
{
    sigset_t alone;
    sigemptyset(&alone);
    sigaddset(&alone, SIGPIPE);
    return alone;
}

/* One that is pending already is the program's own. */
static void hush(void)
{
    sigset_t alone = pipe_alone(), pending, before;
    hushed = sigpending(&pending) == 0 && sigismember(&pending, SIGPIPE) == 0 && pthread_sigmask(SIG_BLOCK, &alone, &before) == 0;
    was_open = hushed && sigismember(&before, SIGPIPE) == 0;
}

/* Takes away what the call has raised. */
static void unhush(void)
{
    static const struct timespec NO_TIME = {0, 0};
    sigset_t alone = pipe_alone();
    if (!hushed)
        return;
    hushed = false;
    while (sigtimedwait(&alone, NULL, &NO_TIME) < 0 && errno == EINTR)
        ;
    if (was_open)
        pthread_sigmask(SIG_UNBLOCK, &alone, NULL);
}

static struct reqkey *over_streams(void)
{
    int input, output, error = streams_take(&input, &output);
    errno = error;
    struct reqkey *session = error == 0 ? reqkey_open(input, output) : NULL;
    if (session == NULL && error == 0) {
        streams_give(true);
        errno = ENOMEM;
    }
    return session;
}

/* Assumes the authority over this key, if it is the handler's own; an error where the session is over. */
static int assume(int32_t key)
{
    int result = reqkey_assume(own.held.session, key);
    own.assumed = result == 0 ? key : 0;
    return result <= -REQKEY_ENDED ? errno_of(result) : 0;
}

/* ---- a call */

/* An earlier call of this thread did not end, so that nobody knows whose the next reply is: its session is over, and set aside. */
static void set_aside(void)
{
    if (streams_are_told())
        streams_give(false);
    else if (own.held.session != NULL && is_mine(&own.held))
        shutdown(reqkey_descriptor(own.held.session), SHUT_RDWR);
    for (size_t i = 0; i < sizeof aside / sizeof *aside && own.held.session != NULL; i++) {
        if (aside[i].held.session != NULL)
            continue;
        aside[i].held = own.held;
        aside[i].thread = gettid();
        aside[i].frame = own.frame;
        own.held.session = NULL;
    }
    own.held.session = NULL; /* without a place for it, it stays in memory */
}

static bool has_aside(void)
{
    bool any = false;
    for (size_t i = 0; i < sizeof aside / sizeof *aside; i++)
        any |= aside[i].held.session != NULL;
    return any;
}

/* Ends the sessions of this thread whose functions were left: the stack is back at where these began, or before. Else a signal's function may be calling. */
static void end_aside(const char *frame)
{
    stack_t stack = {.ss_flags = SS_ONSTACK};
    if (!has_aside() || sigaltstack(NULL, &stack) < 0 || (stack.ss_flags & SS_ONSTACK) != 0)
        return;
    for (size_t i = 0; i < sizeof aside / sizeof *aside; i++)
        if (aside[i].held.session != NULL && aside[i].thread == gettid() && frame >= aside[i].frame)
            end(&aside[i].held);
}

static void take_turn(const char *frame)
{
    if (turn_take() == TURN_LEFT)
        set_aside();
    end_aside(frame);
    own.frame = frame;
}

struct reqkey *session_begin(int32_t key)
{
    take_turn(__builtin_frame_address(0));
    bool handler = streams_are_told();
    if (handler)
        own.held = (struct held){over_streams(), {0, 0}, {0, 0}};
    int fault = handler ? (own.held.session == NULL ? errno : 0) : is_connected() ? 0 : errno;
    bool hushes = fault == 0 && handler;
    if (hushes)
        hush();
    int broken = fault == 0 && handler && !own.asks && own.assumed == 0 && key > 0 ? assume(key) : 0;
    struct reqkey *session = own.held.session;
    if (!turn_is_mine())
        fault = ECONNRESET; /* a signal's function has called */
    else if (fault == 0 && broken == 0)
        return session;
    else if (handler && session != NULL) {
        end(&own.held);
        streams_give(broken == 0);
    }
    if (hushes)
        unhush();
    turn_give();
    errno = fault != 0 ? fault : broken;
    return NULL;
}

long session_end(int result)
{
    int error = result < 0 ? errno_of(result) : 0;
    bool whole = result > -REQKEY_ENDED;
    if (streams_are_told() || !whole) {
        sigset_t before;
        if (may_change(&before)) {
            end(&own.held);
            if (streams_are_told())
                streams_give(whole);
        }
        pthread_sigmask(SIG_SETMASK, &before, NULL);
    }
    unhush();
    turn_give();
    if (error == 0)
        return result;
    errno = error;
    return -1;
}

bool session_is_handlers(void)
{
    return streams_are_told();
}

struct reqkey_rings session_rings(void)
{
    return own.rings;
}

uint32_t session_uid(void)
{
    return own.uid;
}

uint32_t session_shown(uint32_t user)
{
    return user;
}

bool session_is_own(uint32_t user)
{
    return streams_are_told() || user == own.uid;
}

/* A ring may have been joined by a name, but not here. */
const char *session_ring_name(void)
{
    return "_ses";
}

void session_learns(int32_t key)
{
    learn(&own.learned, key);
}

bool session_has_learned(int32_t key)
{
    return has_learned(&own.learned, key);
}

struct reqkey *session_alone(void)
{
    struct reqkey_rings rings;
    if (!streams_are_told())
        return client(0, &rings);
    errno = EOPNOTSUPP;
    return NULL;
}

void session_assumes(int32_t key)
{
    own.asks = true;
    own.assumed = key;
}

int32_t session_assumed(void)
{
    return own.assumed;
}

/* What this process executes is to be in this ring, too; ENOMEM. */
static bool hand(uint32_t ring)
{
    char told[16];
    snprintf(told, sizeof told, "%u", ring);
    if (environment_set("REQKEYD_JOIN", told)) {
        own.handed = ring; /* the connection lasts as long as the programs that are executed */
        return true;
    }
    errno = ENOMEM;
    return false;
}

long session_renew(const char *name)
{
    struct reqkey_rings rings;
    (void)name;
    if (streams_are_told()) {
        errno = EOPNOTSUPP;
        return -1;
    }
    take_turn(__builtin_frame_address(0));
    struct reqkey *session = client(0, &rings);
    if (session != NULL && turn_is_mine() && !hand(rings.session)) {
        reqkey_free(session);
        errno = ENOMEM;
        session = NULL;
    }
    bool done = takes_place(session, &rings);
    int error = errno;
    turn_give();
    errno = error;
    return done ? (long)rings.session : -1;
}
