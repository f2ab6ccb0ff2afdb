#define _POSIX_C_SOURCE 200809L

#include "reqkey.h"

#include <errno.h>
#include <fcntl.h>
#include <stdbool.h>
#include <stdlib.h>
#include <string.h>
#include <sys/socket.h>
#include <sys/stat.h>
#include <sys/un.h>
#include <unistd.h>

enum { HEAD = 4, BODY = 65536, BLOCK = 65535 }; /* bytes of a frame, and of a text or payload at most */

enum ask {
    HELLO = 1, REQUEST, ASSUME, INSTANTIATE, NEGATE, REJECT, READ, DESCRIBE, REVOKE, TIMEOUT, LINK, UNLINK, CLEAR, DEFAULT, ADD, CALLOUT
};

enum reply { NUMBER, BYTES, RINGS, REFUSED };

struct reqkey {
    int input, output;
    int door;       /* the connection to a door that has handed over the other one, or -1 */
    int handed;     /* what a door has handed over with a reply that is not read whole yet, or -1 */
    bool connected; /* the descriptor is its own */
    bool socket;    /* what it writes to is one */
    bool over;
    bool unspelt;   /* the ask has no place in its frame */
    size_t asked, replied, early;
    unsigned char frame[HEAD + BODY];     /* of the ask, of which `asked` bytes are there */
    unsigned char reply[HEAD + BODY + 1]; /* the frame of the reply, whose body has `replied` bytes, a zero byte, and `early` bytes of the next one */
};

/* ---- errors */

static const struct {
    int error;
    const char *name, *text;
} ERRORS[] = {
    {REQKEY_EPERM, "EPERM", "the authority of that key is not assumed, or a type begins with a dot"},
    {REQKEY_ENOENT, "ENOENT", "the key is not linked in that ring"},
    {REQKEY_ENOMEM, "ENOMEM", "the daemon is out of memory"},
    {REQKEY_EACCES, "EACCES", "nobody to act for, or a key or ring that is not the requester's"},
    {REQKEY_EBUSY, "EBUSY", "the key is under construction"},
    {REQKEY_EINVAL, "EINVAL", "a name, payload or number that is not allowed"},
    {REQKEY_EDEADLK, "EDEADLK", "handlers would wait in a circle"},
    {REQKEY_EDQUOT, "EDQUOT", "a limit of keys, rings or handlers is reached"},
    {REQKEY_ENOKEY, "ENOKEY", "there is no such key, ring or authority"},
    {REQKEY_EKEYEXPIRED, "EKEYEXPIRED", "the key has expired"},
    {REQKEY_EKEYREVOKED, "EKEYREVOKED", "the key was revoked, or the authority is spent"},
    {REQKEY_EKEYREJECTED, "EKEYREJECTED", "the key was rejected"},
    {REQKEY_UNSPELT, "unspelt", "the arguments do not fit a frame"},
    {REQKEY_ENDED, "ended", "the connection has ended"},
    {REQKEY_MALFORMED, "malformed", "what came is not a reply to this request"},
    {REQKEY_SYSTEM, "system", "a read or write has failed"},
};

enum { ERROR_COUNT = sizeof ERRORS / sizeof ERRORS[0] };

/* Where the error of this result stands, or -1. */
static int place_of(int result)
{
    for (int i = 0; i < ERROR_COUNT; i++)
        if (result == -ERRORS[i].error)
            return i;
    return -1;
}

const char *reqkey_name(int result)
{
    int place = place_of(result);
    return place < 0 ? "?" : ERRORS[place].name;
}

const char *reqkey_text(int result)
{
    int place = place_of(result);
    return place < 0 ? "unknown error" : ERRORS[place].text;
}

/* Ends the session by this error. */
static int over(struct reqkey *session, int error)
{
    session->over = true;
    return -error;
}

/* ---- sessions */

static bool is_socket(int descriptor)
{
    struct stat file;
    return fstat(descriptor, &file) == 0 && S_ISSOCK(file.st_mode);
}

struct reqkey *reqkey_open(int input, int output)
{
    struct reqkey *session = malloc(sizeof *session);
    if (session == NULL)
        return NULL;
    session->input = input;
    session->output = output;
    session->door = session->handed = -1;
    session->connected = false;
    session->socket = is_socket(output);
    session->over = session->unspelt = false;
    session->asked = session->replied = session->early = 0;
    return session;
}

/* The same socket as none of the standard streams, also if the program has closed those: it would print to the daemon. -1 and errno. */
static int above_streams(int descriptor)
{
    if (descriptor < 0 || descriptor > STDERR_FILENO)
        return descriptor;
    int higher = fcntl(descriptor, F_DUPFD_CLOEXEC, STDERR_FILENO + 1), error = errno;
    close(descriptor);
    errno = error;
    return higher;
}

/* A descriptor that is connected to the socket at this path, or -1. */
static int connected(const char *path)
{
    struct sockaddr_un address = {.sun_family = AF_UNIX};
    if (path[0] == 0) { /* which would be a name that anybody may listen at (unix(7), "abstract") */
        errno = ENOENT;
        return -1;
    }
    if (strlen(path) >= sizeof address.sun_path) {
        errno = ENAMETOOLONG;
        return -1;
    }
    strcpy(address.sun_path, path);
    /* closed by exec(3) at once, since another thread may start a program at any time */
    int descriptor = above_streams(socket(AF_UNIX, SOCK_STREAM | SOCK_CLOEXEC, 0));
    if (descriptor < 0)
        return -1;
    int result;
    do
        result = connect(descriptor, (struct sockaddr *)&address, sizeof address);
    while (result < 0 && errno == EINTR);
    if (result == 0)
        return descriptor;
    int error = errno;
    close(descriptor);
    errno = error;
    return -1;
}

struct reqkey *reqkey_connect(const char *path)
{
    int descriptor = connected(path);
    if (descriptor < 0)
        return NULL;
    struct reqkey *session = reqkey_open(descriptor, descriptor);
    if (session == NULL) {
        close(descriptor);
        errno = ENOMEM;
        return NULL;
    }
    session->connected = true;
    return session;
}

/* A compiler that sees that nobody reads them any more must not leave them. */
static void *(*const volatile set_all)(void *, int, size_t) = memset;

void reqkey_wipe(struct reqkey *session)
{
    set_all(session->frame, 0, session->asked);
    set_all(session->reply, 0, session->replied);
}

void reqkey_free(struct reqkey *session)
{
    if (session != NULL)
        reqkey_wipe(session);
    if (session != NULL && session->connected)
        close(session->input);
    if (session != NULL && session->door >= 0)
        close(session->door);
    free(session);
}

void reqkey_forget(struct reqkey *session)
{
    free(session);
}

int reqkey_descriptor(const struct reqkey *session)
{
    return session->input;
}

int reqkey_door(const struct reqkey *session)
{
    return session->door;
}

/* ---- an ask into its frame, field by field */

static void put(struct reqkey *session, const void *bytes, size_t length)
{
    if (length > HEAD + BODY - session->asked) {
        session->unspelt = true;
        return;
    }
    if (length > 0)
        memcpy(session->frame + session->asked, bytes, length);
    session->asked += length;
}

static void write_number(unsigned char *at, uint32_t value)
{
    for (int i = 0; i < 4; i++)
        at[i] = (unsigned char)(value >> (24 - 8 * i));
}

/* A number of at most four bytes, of which the first ones may be left out where they are 0. */
static void put_number(struct reqkey *session, uint32_t value, size_t size)
{
    unsigned char bytes[4];
    write_number(bytes, value);
    for (size_t i = 0; i < 4 - size; i++)
        session->unspelt |= bytes[i] != 0;
    put(session, bytes + 4 - size, size);
}

static void put_block(struct reqkey *session, const void *bytes, size_t length)
{
    session->unspelt |= length > BLOCK;
    put_number(session, (uint32_t)length, 2);
    put(session, bytes, length);
}

static void put_text(struct reqkey *session, const char *text)
{
    put_block(session, text, strlen(text));
}

/* The length of the frame is written in its place when the ask is complete. */
static void begin(struct reqkey *session, enum ask ask)
{
    session->asked = HEAD;
    session->unspelt = false;
    put_number(session, ask, 1);
}

static void begin_on_key(struct reqkey *session, enum ask ask, int32_t key)
{
    begin(session, ask);
    put_number(session, (uint32_t)key, 4);
}

/* ---- frames */

static int write_all(struct reqkey *session, const unsigned char *bytes, size_t length)
{
    while (length > 0) {
        ssize_t done = session->socket ? send(session->output, bytes, length, MSG_NOSIGNAL) : write(session->output, bytes, length);
        if (done < 0 && errno != EINTR)
            return over(session, REQKEY_SYSTEM);
        if (done > 0) {
            bytes += done;
            length -= (size_t)done;
        }
    }
    return 0;
}

/* The first descriptor that comes with a reply is kept; others are closed, or have no room. */
static void keep_handed(struct reqkey *session, struct msghdr *message)
{
    struct cmsghdr *head = CMSG_FIRSTHDR(message);
    int handed;
    if (head == NULL || head->cmsg_level != SOL_SOCKET || head->cmsg_type != SCM_RIGHTS || head->cmsg_len != CMSG_LEN(sizeof handed))
        return;
    memcpy(&handed, CMSG_DATA(head), sizeof handed);
    if (session->handed < 0)
        session->handed = handed;
    else
        close(handed);
}

/* Reads as read(2). What a door hands over comes with the reply to HELLO, and is looked for in no other; the system closes what nobody looks for. */
static ssize_t read_some(struct reqkey *session, unsigned char *bytes, size_t length)
{
    union {
        char room[CMSG_LEN(sizeof(int))];
        struct cmsghdr align;
    } control;
    struct iovec part = {.iov_base = bytes, .iov_len = length};
    struct msghdr message = {.msg_iov = &part, .msg_iovlen = 1, .msg_control = &control, .msg_controllen = sizeof control.room};
    if (!session->connected || session->door >= 0 || session->frame[HEAD] != HELLO)
        return read(session->input, bytes, length);
    ssize_t done = recvmsg(session->input, &message, MSG_CMSG_CLOEXEC);
    if (done > 0)
        keep_handed(session, &message);
    return done;
}

/* Reads until so many bytes of a reply are there, of which `have` are: how many there are then, since one read takes all that has come; or an error. */
static ssize_t read_up_to(struct reqkey *session, size_t have, size_t least)
{
    while (have < least) {
        ssize_t done = read_some(session, session->reply + have, HEAD + BODY - have);
        if (done == 0)
            return over(session, REQKEY_ENDED);
        if (done < 0 && errno != EINTR)
            return over(session, REQKEY_SYSTEM);
        if (done > 0)
            have += (size_t)done;
    }
    return (ssize_t)have;
}

static uint32_t number_at(const unsigned char *at)
{
    return (uint32_t)at[0] << 24 | (uint32_t)at[1] << 16 | (uint32_t)at[2] << 8 | at[3];
}

static const unsigned char *body_of(const struct reqkey *session)
{
    return session->reply + HEAD;
}

/* Reads a reply whole, behind what has come of it already. */
static int read_reply(struct reqkey *session)
{
    memmove(session->reply, body_of(session) + session->replied + 1, session->early);
    ssize_t have = read_up_to(session, session->early, HEAD);
    session->early = session->replied = 0;
    if (have < 0)
        return (int)have;
    uint32_t length = number_at(session->reply);
    if (length == 0 || length > BODY)
        return over(session, REQKEY_MALFORMED);
    have = read_up_to(session, (size_t)have, HEAD + length);
    if (have < 0)
        return (int)have;
    unsigned char *end = session->reply + HEAD + length;
    session->replied = length;
    session->early = (size_t)have - HEAD - length;
    memmove(end + 1, end, session->early);
    *end = 0;
    return 0;
}

/* Writes the frame of the ask, and reads its reply. */
static int exchange(struct reqkey *session)
{
    write_number(session->frame, (uint32_t)(session->asked - HEAD));
    int result = write_all(session, session->frame, session->asked);
    return result < 0 ? result : read_reply(session);
}

/* ---- replies */

/* Asks what stands in the frame. 0, and the reply is of this kind. */
static int ask(struct reqkey *session, enum reply kind)
{
    if (session->over)
        return -REQKEY_ENDED;
    if (session->unspelt)
        return -REQKEY_UNSPELT;
    int result = exchange(session);
    if (result < 0)
        return result;
    const unsigned char *body = body_of(session);
    if (body[0] == (unsigned char)kind)
        return 0;
    if (body[0] == REFUSED && session->replied == 2 && place_of(-body[1]) >= 0)
        return -body[1];
    return over(session, REQKEY_MALFORMED);
}

/* Asks for a number from this one to that one. */
static int ask_number(struct reqkey *session, uint32_t least, uint32_t greatest)
{
    int result = ask(session, NUMBER);
    if (result < 0)
        return result;
    if (session->replied != 1 + 4)
        return over(session, REQKEY_MALFORMED);
    uint32_t value = number_at(body_of(session) + 1);
    return least <= value && value <= greatest ? (int)value : over(session, REQKEY_MALFORMED);
}

static int ask_done(struct reqkey *session)
{
    return ask_number(session, 0, 0);
}

static int ask_serial(struct reqkey *session)
{
    return ask_number(session, 1, INT32_MAX);
}

static int ask_bytes(struct reqkey *session, const void **bytes)
{
    int result = ask(session, BYTES);
    if (result < 0)
        return result;
    const unsigned char *body = body_of(session);
    if (session->replied < 3 || ((size_t)body[1] << 8 | body[2]) != session->replied - 3)
        return over(session, REQKEY_MALFORMED);
    *bytes = body + 3;
    return (int)(session->replied - 3);
}

/* Bytes that may be read as a string. */
static int ask_text(struct reqkey *session, const char **text)
{
    const void *bytes = NULL; /* as long as there is an error */
    int length = ask_bytes(session, &bytes);
    if (bytes == NULL)
        return length;
    if (memchr(bytes, 0, (size_t)length) != NULL)
        return over(session, REQKEY_MALFORMED);
    *text = bytes;
    return length;
}

/* ---- the asks */

/* From now on the session speaks over what a door has handed over; the connection to the door stays open as long. */
static int take_over(struct reqkey *session)
{
    int handed = above_streams(session->handed);
    session->handed = -1;
    if (handed < 0)
        return over(session, REQKEY_SYSTEM);
    session->door = session->input;
    session->input = session->output = handed;
    session->early = 0; /* which would be of the door */
    return 0;
}

/* What came with no context is not taken. */
static int leave_handed(struct reqkey *session, int result)
{
    if (session->handed >= 0)
        close(session->handed);
    session->handed = -1;
    return result;
}

int reqkey_hello(struct reqkey *session, uint32_t uid, uint32_t gid, unsigned flags, uint32_t join, struct reqkey_rings *rings)
{
    begin(session, HELLO);
    put_number(session, uid, 4);
    put_number(session, gid, 4);
    put_number(session, flags, 1);
    put_number(session, join, 4);
    int result = ask(session, RINGS);
    if (result == 0 && session->replied != 1 + 4 * 4)
        result = over(session, REQKEY_MALFORMED);
    if (result == 0 && session->handed >= 0)
        result = take_over(session);
    if (result < 0)
        return leave_handed(session, result);
    const unsigned char *at = body_of(session) + 1;
    if (rings != NULL)
        *rings = (struct reqkey_rings){number_at(at), number_at(at + 4), number_at(at + 8), number_at(at + 12)};
    return 0;
}

int reqkey_request(struct reqkey *session, const char *type, const char *description, const char *callout, int32_t ring)
{
    begin(session, REQUEST);
    put_text(session, type);
    put_text(session, description);
    put_number(session, callout != NULL, 1);
    if (callout != NULL)
        put_text(session, callout);
    put_number(session, (uint32_t)ring, 4);
    return ask_serial(session);
}

int reqkey_assume(struct reqkey *session, int32_t key)
{
    begin_on_key(session, ASSUME, key);
    return ask_done(session);
}

int reqkey_instantiate(struct reqkey *session, int32_t key, const void *payload, size_t length, int32_t ring)
{
    begin_on_key(session, INSTANTIATE, key);
    put_block(session, payload, length);
    put_number(session, (uint32_t)ring, 4);
    return ask_done(session);
}

int reqkey_negate(struct reqkey *session, int32_t key, uint32_t seconds, int32_t ring)
{
    begin_on_key(session, NEGATE, key);
    put_number(session, seconds, 4);
    put_number(session, (uint32_t)ring, 4);
    return ask_done(session);
}

int reqkey_reject(struct reqkey *session, int32_t key, uint32_t seconds, uint32_t error, int32_t ring)
{
    begin_on_key(session, REJECT, key);
    put_number(session, seconds, 4);
    put_number(session, error, 4);
    put_number(session, (uint32_t)ring, 4);
    return ask_done(session);
}

int reqkey_read(struct reqkey *session, int32_t key, const void **payload)
{
    begin_on_key(session, READ, key);
    return ask_bytes(session, payload);
}

/* Requests a key and reads it. */
static int get(struct reqkey *session, const char *type, const char *description, const char *callout, const void **payload)
{
    int key = reqkey_request(session, type, description, callout, REQKEY_USER_RING);
    return key < 0 ? key : reqkey_read(session, key, payload);
}

int reqkey_get(struct reqkey *session, const char *type, const char *description, const char *callout, const void **payload)
{
    int result = get(session, type, description, callout, payload);
    return result == -REQKEY_EKEYEXPIRED ? get(session, type, description, callout, payload) : result;
}

int reqkey_describe(struct reqkey *session, int32_t key, const char **text)
{
    begin_on_key(session, DESCRIBE, key);
    return ask_text(session, text);
}

int reqkey_revoke(struct reqkey *session, int32_t key)
{
    begin_on_key(session, REVOKE, key);
    return ask_done(session);
}

int reqkey_timeout(struct reqkey *session, int32_t key, uint32_t seconds)
{
    begin_on_key(session, TIMEOUT, key);
    put_number(session, seconds, 4);
    return ask_done(session);
}

int reqkey_link(struct reqkey *session, int32_t key, int32_t ring)
{
    begin_on_key(session, LINK, key);
    put_number(session, (uint32_t)ring, 4);
    return ask_done(session);
}

int reqkey_unlink(struct reqkey *session, int32_t key, int32_t ring)
{
    begin_on_key(session, UNLINK, key);
    put_number(session, (uint32_t)ring, 4);
    return ask_done(session);
}

int reqkey_clear(struct reqkey *session, int32_t ring)
{
    begin_on_key(session, CLEAR, ring);
    return ask_done(session);
}

/* The settings before are 0 to 4 and 7. */
int reqkey_default(struct reqkey *session, int32_t setting)
{
    begin_on_key(session, DEFAULT, setting);
    int before = ask_number(session, REQKEY_DEFAULT, REQKEY_DEFAULT_REQUESTOR);
    return before > REQKEY_DEFAULT_USER && before < REQKEY_DEFAULT_REQUESTOR ? over(session, REQKEY_MALFORMED) : before;
}

int reqkey_add(struct reqkey *session, const char *type, const char *description, const void *payload, size_t length, int32_t ring)
{
    begin(session, ADD);
    put_text(session, type);
    put_text(session, description);
    put_block(session, payload, length);
    put_number(session, (uint32_t)ring, 4);
    return ask_serial(session);
}

int reqkey_callout(struct reqkey *session, const char **text)
{
    begin(session, CALLOUT);
    return ask_text(session, text);
}
