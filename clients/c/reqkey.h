/*
 * Requests keys of a daemon reqkeyd, and makes keys for it. These are all sixteen requests of docs/PROTOCOL.md, over the C library and POSIX alone.
 *
 * A client connects to the daemon's socket and says for whom it acts:
 *
 *     struct reqkey *session = reqkey_connect("/run/reqkeyd/socket");
 *     const void *payload;
 *     int key, length;
 *
 *     if (session == NULL || reqkey_hello(session, getuid(), getgid(), 0, 0, NULL) < 0)
 *         ...
 *     key = reqkey_request(session, "user", "mail:joe", "letter", REQKEY_USER_RING);
 *     if (key == -REQKEY_ENOKEY)
 *         ...
 *     length = reqkey_read(session, key, &payload);
 *     if (length < 0)
 *         fprintf(stderr, "read: %s: %s\n", reqkey_name(length), reqkey_text(length));
 *     ...
 *     reqkey_free(session);
 *
 * A plain handler speaks over its standard streams. It is started with the serial of its key, by a line of the configuration like
 * `create user mail:* * /path/of/handler %k`, and prints nothing on standard output:
 *
 *     struct reqkey *session = reqkey_open(STDIN_FILENO, STDOUT_FILENO);
 *     int key = atoi(argv[1]);
 *
 *     if (session == NULL || reqkey_assume(session, key) < 0 || reqkey_instantiate(session, key, "a payload", 9, REQKEY_NO_RING) < 0)
 *         return 1;
 *
 * RESULTS. A request returns 0 or more if it was carried out. Anything else is the negative number of an error, as -REQKEY_ENOKEY; what it points at is not
 * written then.
 *
 * - The errors up to 129 are the daemon's refusals. Nothing has changed (but see ENOMEM in docs/PROTOCOL.md), and the session goes on.
 * - REQKEY_UNSPELT: no frame can hold the arguments, since a text or payload has more than 65,535 bytes, or all together more than 65,536, or flags are above
 *   255. Nothing was sent, and the session goes on.
 * - REQKEY_ENDED: the connection has ended before the reply came whole.
 * - REQKEY_MALFORMED: what came is no reply to this request.
 * - REQKEY_SYSTEM: a read or write has failed, and errno says how.
 *
 * After one of the last three it isn't known any more which reply belongs to which request, so the session is over: each further one returns
 * REQKEY_ENDED.
 *
 * TEXTS are UTF-8 and end with a zero byte. BYTES that a request returns stand in the session until its next one is answered, so that they may be handed to
 * that one; a zero byte is behind them.
 *
 * A request WAITS as long as a handler takes, and no signal ends that. What can't wait has a session of its own.
 *
 * A session is for one THREAD at a time; different ones share nothing. After fork(2) one of the two processes alone may go on with it.
 *
 * Writing to a socket never raises SIGPIPE. Writing to a pipe does, where the daemon has gone: a handler that is to live on ignores it.
 */
#ifndef REQKEY_H
#define REQKEY_H

#include <stddef.h>
#include <stdint.h>

#ifdef __cplusplus
extern "C" {
#endif

/* Why a request was not carried out. The refusals have Linux's numbers, on every system. */
enum {
    REQKEY_EPERM = 1,
    REQKEY_ENOENT = 2,
    REQKEY_ENOMEM = 12,
    REQKEY_EACCES = 13,
    REQKEY_EBUSY = 16,
    REQKEY_EINVAL = 22,
    REQKEY_EDEADLK = 35,
    REQKEY_EDQUOT = 122,
    REQKEY_ENOKEY = 126,
    REQKEY_EKEYEXPIRED = 127,
    REQKEY_EKEYREVOKED = 128,
    REQKEY_EKEYREJECTED = 129,

    REQKEY_UNSPELT = 256,
    REQKEY_ENDED,
    REQKEY_MALFORMED,
    REQKEY_SYSTEM,
};

/* The rings that a request can name without their serials. */
enum {
    REQKEY_NO_RING = 0,
    REQKEY_THREAD_RING = -1,
    REQKEY_PROCESS_RING = -2,
    REQKEY_SESSION_RING = -3,
    REQKEY_USER_RING = -4,
    REQKEY_REQUESTOR_RING = -8, /* the destination of the key whose authority is assumed */
};

/* In the place of a key in reqkey_read: the authority that is assumed, whose payload is the callout. */
enum { REQKEY_AUTHORITY = -7 };

/* For reqkey_default. */
enum {
    REQKEY_KEEP = -1,
    REQKEY_DEFAULT = 0,
    REQKEY_DEFAULT_THREAD = 1,
    REQKEY_DEFAULT_PROCESS = 2,
    REQKEY_DEFAULT_SESSION = 3,
    REQKEY_DEFAULT_USER = 4,
    REQKEY_DEFAULT_REQUESTOR = 7,
};

/* For reqkey_hello: which rings a client wants besides its session and its user ring. */
enum { REQKEY_WITH_THREAD = 1, REQKEY_WITH_PROCESS = 2 };

/* The serials of a client's rings, 0 for one that there is not. */
struct reqkey_rings {
    uint32_t thread, process, session, user;
};

/* A session, as a client or as a handler. */
struct reqkey;

/*
 * Connects to the daemon's socket; reqkey_hello comes next. NULL, and errno, where that fails: what socket(2) and connect(2) say, ENOMEM, ENAMETOOLONG for a
 * path that has no place in an address, ENOENT for an empty one. The descriptor is never a standard stream's, also where the program has closed those.
 */
struct reqkey *reqkey_connect(const char *path);

/*
 * Speaks over these descriptors, which may be one and the same; both are to block. They stay the caller's, who closes them. NULL, and errno, where there is
 * no memory.
 */
struct reqkey *reqkey_open(int input, int output);

/*
 * Ends a session, and closes the connection that reqkey_connect has made, and that to a door. A client's thread and process rings go with it, and its session ring where nobody
 * else has joined it. NULL is no session, and nothing happens.
 */
void reqkey_free(struct reqkey *session);

/* The same without closing anything, for a program that has closed the connection by itself: its number may be another file's by now. */
void reqkey_forget(struct reqkey *session);

/* Overwrites what stands in the session of its last ask and reply, so that no payload stays in memory. reqkey_free does that, too. */
void reqkey_wipe(struct reqkey *session);

/* The descriptor that it reads from: the connection of a client. To set its limits of time, or whether exec(3) closes it, as it does unless that is changed. */
int reqkey_descriptor(const struct reqkey *session);

/*
 * Behind a door (reqkey-door(8)) reqkey_hello takes the daemon's own connection in the place of the one that reqkey_connect has made. That one is given here,
 * else -1. It has to stay open as long as the session, without a word: it is left open by exec(3) if the other one is. So limits of time are set after
 * reqkey_hello.
 */
int reqkey_door(const struct reqkey *session);

/* The name of a result, as "ENOKEY" of -126, and what it says in words. For any other number they are "?" and "unknown error". */
const char *reqkey_name(int result);
const char *reqkey_text(int result);

/*
 * Says for whom a client acts, once, with the rings of `flags`, in a new session ring for 0 or else in the one that it joins. Where `rings` is no NULL they
 * are the client's rings then.
 */
int reqkey_hello(struct reqkey *session, uint32_t uid, uint32_t gid, unsigned flags, uint32_t join, struct reqkey_rings *rings);

/*
 * The serial of a key of this name, linked in the ring. Where there is none and a callout is given, which may be empty, a handler makes it, and this waits for
 * it; NULL is no callout.
 */
int reqkey_request(struct reqkey *session, const char *type, const char *description, const char *callout, int32_t ring);

/* Assumes a handler's authority over its key; 0 lays it down. */
int reqkey_assume(struct reqkey *session, int32_t key);

/* Gives the key that a handler makes its payload, of 1 to 32,767 bytes, and links it in one more ring. */
int reqkey_instantiate(struct reqkey *session, int32_t key, const void *payload, size_t length, int32_t ring);

/* Says of the key that a handler makes that there is none, for so many seconds: requests are answered ENOKEY. */
int reqkey_negate(struct reqkey *session, int32_t key, uint32_t seconds, int32_t ring);

/* As reqkey_negate with one of the errors 126 to 129. */
int reqkey_reject(struct reqkey *session, int32_t key, uint32_t seconds, uint32_t error, int32_t ring);

/* The payload of a key: its length, and where it stands. */
int reqkey_read(struct reqkey *session, int32_t key, const void **payload);

/*
 * The payload of the key of this name: its length, and where it stands. This is reqkey_request into the user ring, and reqkey_read. A key may expire between
 * them, so after EKEYEXPIRED both are sent once more. As these are several requests, no text may stand in the session.
 */
int reqkey_get(struct reqkey *session, const char *type, const char *description, const char *callout, const void **payload);

/*
 * `type;uid;state;description` of a key, as "user;1000;valid;mail:joe": its length, and where it stands. The states are valid, negative, building, expired
 * and revoked.
 */
int reqkey_describe(struct reqkey *session, int32_t key, const char **text);

/* Marks a key as revoked, for good. */
int reqkey_revoke(struct reqkey *session, int32_t key);

/* Lets a key expire in so many seconds, or never for 0. */
int reqkey_timeout(struct reqkey *session, int32_t key, uint32_t seconds);

/* Links a key in a ring; another one of its name is unlinked there. */
int reqkey_link(struct reqkey *session, int32_t key, int32_t ring);

/* Unlinks a key from a ring. A key without links is gone. */
int reqkey_unlink(struct reqkey *session, int32_t key, int32_t ring);

/* Unlinks all keys of a ring. */
int reqkey_clear(struct reqkey *session, int32_t ring);

/*
 * Sets where keys go that are requested into no ring: the first ring there is from this one on, in the order requestor, thread, process, session, user. The
 * result is the setting before; REQKEY_KEEP only reads it.
 */
int reqkey_default(struct reqkey *session, int32_t setting);

/* Makes a key with its payload, of 1 to 32,767 bytes, links it in a ring, and gives its serial. */
int reqkey_add(struct reqkey *session, const char *type, const char *description, const void *payload, size_t length, int32_t ring);

/* The callout of the request for a handler's key: its length, and where it stands. */
int reqkey_callout(struct reqkey *session, const char **text);

#ifdef __cplusplus
}
#endif

#endif
