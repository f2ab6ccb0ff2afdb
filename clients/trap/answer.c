#include "answer.h"

#include "../keyutils/calls.h"
#include "../keyutils/session.h"
#include "../keyutils/words.h"
#include "caller.h"
#include "calls_of.h"
#include "kernel.h"
#include "memory.h"
#include "session.h"
#include "sets.h"

#include <errno.h>
#include <stdbool.h>
#include <string.h>

/* Bytes: a name with its zero byte, as the kernel allows it; what a call gives; and parts of a payload. */
enum { TYPE = 32, DESCRIPTION = 4096, CALLOUT = 4096, PAYLOAD = 32767, OUT = 65536, PARTS = 1024 };

/* What a thread has of the call that it answers. */
static __thread union {
    struct {
        char type[TYPE], description[DESCRIPTION], callout[CALLOUT], payload[PAYLOAD];
    } in;
    char words[WORDS];
    char out[OUT];
} room;

static const char *socket_path = "";

void answer_socket(const char *path)
{
    socket_path = path;
}

/* A result of the library as the kernel gives it. */
static long told(long result)
{
    return result < 0 ? -errno : result;
}

/* Overwrites what a call has had of a payload, since it is nobody else's; gives its result. */
static long wiped(void *payload, size_t length, long result)
{
    explicit_bzero(payload, length);
    return result;
}

/* ---- names */

static long answer_add_key(const uint64_t *a)
{
    int fault = memory_text(room.in.type, a[0], TYPE);
    if (fault == 0 && kernel_has(room.in.type))
        return ANSWER_GOES_ON;
    if (fault == 0)
        fault = a[1] == 0 ? -EINVAL : memory_text(room.in.description, a[1], DESCRIPTION);
    if (fault == 0)
        fault = a[3] > PAYLOAD ? -EINVAL : memory_read(room.in.payload, a[2], a[3]);
    long result = fault < 0 ? fault : told(add_key(room.in.type, room.in.description, room.in.payload, a[3], (key_serial_t)a[4]));
    return wiped(room.in.payload, a[3] > PAYLOAD ? 0 : a[3], result);
}

static long answer_request_key(const uint64_t *a)
{
    int fault = memory_text(room.in.type, a[0], TYPE);
    if (fault == 0 && kernel_has(room.in.type))
        return ANSWER_GOES_ON;
    if (fault == 0)
        fault = memory_text(room.in.description, a[1], DESCRIPTION);
    if (fault == 0 && a[2] != 0)
        fault = memory_text(room.in.callout, a[2], CALLOUT);
    long result = fault < 0 ? fault : told(request_key(room.in.type, room.in.description, a[2] == 0 ? NULL : room.in.callout, (key_serial_t)a[3]));
    return wiped(room.in.callout, a[2] == 0 ? 0 : CALLOUT, result);
}

static long answer_search(const uint64_t *a)
{
    int fault = memory_text(room.in.type, a[1], TYPE);
    if (fault == 0 && kernel_has(room.in.type))
        return ANSWER_GOES_ON;
    if (fault == 0)
        fault = memory_text(room.in.description, a[2], DESCRIPTION);
    return fault < 0 ? fault : told(keyctl_search((key_serial_t)a[0], room.in.type, room.in.description, (key_serial_t)a[3]));
}

static long answer_join(const uint64_t *a)
{
    int fault = a[0] == 0 ? 0 : memory_text(room.in.description, a[0], DESCRIPTION);
    return fault < 0 ? fault : told(keyctl_join_session_keyring(a[0] == 0 ? NULL : room.in.description));
}

/* ---- bytes that a call gives */

/* Puts them back if the buffer has room for all, as the kernel does, and gives their number. */
static long put_back(long length, const void *bytes, uint64_t buffer, uint64_t size)
{
    int fault = length > 0 && buffer != 0 && (uint64_t)length <= size ? memory_write(buffer, bytes, (size_t)length) : 0;
    return fault < 0 ? fault : length;
}

static long answer_read(const uint64_t *a)
{
    long length = told(keyctl_read((key_serial_t)a[0], room.out, OUT));
    return wiped(room.out, length < 0 ? 0 : (size_t)length, put_back(length, room.out, a[1], a[2]));
}

static long answer_describe(const uint64_t *a)
{
    return put_back(told(keyctl_describe((key_serial_t)a[0], room.words, WORDS)), room.words, a[1], a[2]);
}

static long answer_capabilities(const uint64_t *a)
{
    size_t length = a[1] < OUT ? a[1] : OUT;
    long result = told(keyctl_capabilities((unsigned char *)room.out, length));
    int fault = a[0] == 0 ? 0 : memory_write(a[0], room.out, length);
    return fault < 0 ? fault : result;
}

static long answer_own(const uint64_t *a)
{
    return put_back((long)strlen(socket_path) + 1, socket_path, a[0], a[1]);
}

/* ---- payloads of a handler's key */

static long answer_instantiate(const uint64_t *a)
{
    int fault = a[2] > PAYLOAD ? -EINVAL : memory_read(room.in.payload, a[1], a[2]);
    long result = fault < 0 ? fault : told(keyctl_instantiate((key_serial_t)a[0], room.in.payload, a[2], (key_serial_t)a[3]));
    return wiped(room.in.payload, PAYLOAD, result);
}

/* A part of a payload: where it begins, and its length. */
static int read_part(uint64_t at, uint64_t number, uint64_t part[2])
{
    uint32_t narrow[2] = {0, 0};
    if (!caller.narrow)
        return memory_read(part, at + number * sizeof(uint64_t[2]), sizeof(uint64_t[2]));
    int fault = memory_read(narrow, at + number * sizeof narrow, sizeof narrow);
    part[0] = narrow[0];
    part[1] = narrow[1];
    return fault;
}

static long answer_instantiate_iov(const uint64_t *a)
{
    size_t length = 0;
    uint32_t count = a[1] == 0 ? 0 : (uint32_t)a[2]; /* NULL is no parts, as in the kernel */
    int fault = count > PARTS ? -EINVAL : 0;
    for (uint32_t i = 0; i < count && fault == 0; i++) {
        uint64_t part[2] = {0, 0};
        fault = read_part(a[1], i, part);
        if (fault == 0)
            fault = part[1] > PAYLOAD - length ? -EINVAL : memory_read(room.in.payload + length, part[0], part[1]);
        length += fault == 0 ? part[1] : 0;
    }
    long result = fault < 0 ? fault : told(keyctl_instantiate((key_serial_t)a[0], room.in.payload, length, (key_serial_t)a[3]));
    return wiped(room.in.payload, PAYLOAD, result);
}

/* ---- numbers alone */

/* Kept for the process: connections are shared. */
static long answer_default(const uint64_t *a)
{
    int setting = (int)a[0];
    struct reqkey *session = session_begin(0);
    if (session == NULL)
        return -errno;
    int before = reqkey_default(session, setting);
    if (before >= 0 && setting != REQKEY_KEEP && !session_setting(setting))
        before = -ENOMEM;
    return told(session_end(before));
}

/* A key, or the session ring. */
static long answer_revoke(const uint64_t *a)
{
    int done = session_revoke((int32_t)a[0]);
    return done != 0 ? told(done < 0 ? done : 0) : told(keyctl_revoke((key_serial_t)a[0]));
}

static long answer_keyctl(uint32_t command, const uint64_t *a)
{
    switch (command) {
    case KEYCTL_JOIN_SESSION_KEYRING:
        return answer_join(a);
    case KEYCTL_DESCRIBE:
        return answer_describe(a);
    case KEYCTL_SEARCH:
        return answer_search(a);
    case KEYCTL_READ:
        return answer_read(a);
    case KEYCTL_INSTANTIATE:
        return answer_instantiate(a);
    case KEYCTL_INSTANTIATE_IOV:
        return answer_instantiate_iov(a);
    case KEYCTL_SET_REQKEY_KEYRING:
        return answer_default(a);
    case KEYCTL_CAPABILITIES:
        return answer_capabilities(a);
    case ANSWER_SOCKET:
        return set_is_container(caller.set) ? -EOPNOTSUPP : answer_own(a);
    case KEYCTL_REVOKE:
        return answer_revoke(a);
    case KEYCTL_GET_KEYRING_ID:
    case KEYCTL_CLEAR:
    case KEYCTL_LINK:
    case KEYCTL_UNLINK:
    case KEYCTL_NEGATE:
    case KEYCTL_SET_TIMEOUT:
    case KEYCTL_ASSUME_AUTHORITY:
    case KEYCTL_REJECT:
    case KEYCTL_UPDATE: /* this one and those below do not look at memory */
    case KEYCTL_CHOWN:
    case KEYCTL_SETPERM:
    case KEYCTL_GET_SECURITY:
    case KEYCTL_INVALIDATE:
    case KEYCTL_MOVE:
        return told(keyctl((int)command, a[0], a[1], a[2], a[3]));
    default:
        return -EOPNOTSUPP;
    }
}

/* Whether the first argument of a command is a key. */
static bool is_on_key(uint32_t command)
{
    static const uint32_t KEYS = 1U << KEYCTL_GET_KEYRING_ID | 1U << KEYCTL_UPDATE | 1U << KEYCTL_REVOKE | 1U << KEYCTL_CHOWN | 1U << KEYCTL_SETPERM |
                                 1U << KEYCTL_DESCRIBE | 1U << KEYCTL_CLEAR | 1U << KEYCTL_LINK | 1U << KEYCTL_UNLINK | 1U << KEYCTL_SEARCH |
                                 1U << KEYCTL_READ | 1U << KEYCTL_SET_TIMEOUT | 1U << KEYCTL_GET_SECURITY | 1U << KEYCTL_INVALIDATE | 1U << KEYCTL_MOVE;
    return command < 32 && (KEYS >> command & 1) != 0;
}

/* A key that the daemon does not have is the kernel's, where some are left to it. */
static long on_key(uint32_t command, const uint64_t *a, long result)
{
    key_serial_t key = (key_serial_t)a[0];
    bool unknown = kernel_has_any() && result == -ENOKEY && is_on_key(command) && key > 0;
    return unknown && told(keyctl_describe(key, NULL, 0)) == -ENOKEY ? ANSWER_GOES_ON : result;
}

long answer(int listener, struct set *set, const struct seccomp_notif *call)
{
    uint64_t a[6];
    memcpy(a, call->data.args, sizeof a);
    long result = caller_begin(listener, set, call);
    if (result == 0)
        switch (call_of(call->data.arch, (uint32_t)call->data.nr)) {
        case CALL_ADD_KEY:
            result = answer_add_key(a);
            break;
        case CALL_REQUEST_KEY:
            result = answer_request_key(a);
            break;
        case CALL_KEYCTL:
            result = on_key((uint32_t)a[0], a + 1, answer_keyctl((uint32_t)a[0], a + 1));
            break;
        case CALL_OTHER:
            result = -ENOSYS;
        }
    caller_end();
    return result;
}
