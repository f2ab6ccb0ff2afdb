/*
 * What the trap reads of a hostile program (clients/trap/answer.c and memory.c), over a daemon that answers anything. The program's memory is made of the
 * input: pages that are mapped or not, of other bytes at each read. Whatever it is, each call answers a result or an errno, no byte is touched that is not
 * there, and no more is written into the program than it has said that there is room for.
 */
#include <errno.h>
#include <fcntl.h>
#include <stdbool.h>
#include <stdint.h>
#include <stdio.h>
#include <sys/uio.h>
#include <sys/un.h>
#include <unistd.h>

#include "stream.h"

static uint64_t allowed; /* what the call may write */

static int fuzz_open(const char *path, int flags)
{
    return strncmp(path, "/proc/", 6) == 0 && (flags & O_RDWR) != 0 && next_turn() % 64 != 0 ? 1000 : -1;
}

/* A page is mapped by its number and the input, and now and then by chance. */
static bool is_mapped(uint64_t address)
{
    uint64_t page = address >> 12;
    return page != 0 && page % 4 != 3 && next_turn() % 97 != 0;
}

static ssize_t fuzz_pread(int descriptor, void *to, size_t size, off_t from)
{
    (void)descriptor;
    for (size_t i = 0; i < size; i++) {
        if ((i == 0 || ((uint64_t)from + i) % 4096 == 0) && !is_mapped((uint64_t)from + i))
            return i == 0 ? -1 : (ssize_t)i;
        unsigned how = next_turn();
        ((unsigned char *)to)[i] = (unsigned char)(how % 5 == 0 ? next_byte() : how % 300 == 1 ? 0 : 'a' + how % 26);
    }
    return (ssize_t)size;
}

/* Like fuzz_pread, or as a kernel that is built without it. */
static ssize_t fuzz_across(void *to, uint64_t from, size_t size)
{
    static const int ERRORS[] = {ENOSYS, ESRCH, EPERM};
    unsigned how = next_turn() % 20;
    ssize_t done = how < 3 ? -1 : fuzz_pread(1000, to, size, (off_t)from);
    errno = how < 3 ? ERRORS[how] : done < 0 ? EFAULT : 0;
    return done;
}

bool mappings_may_be_written(uint64_t at, size_t length)
{
    return length > 0 && is_mapped(at);
}

static ssize_t fuzz_pwrite(int descriptor, const void *from, size_t size, off_t to)
{
    (void)to;
    if (size > allowed)
        abort();
    ssize_t written = fuzz_write(descriptor, from, size);
    return next_turn() % 4 == 0 ? written : (ssize_t)size;
}

#define open fuzz_open
#define pread fuzz_pread
#define pwrite fuzz_pwrite
#define process_vm_readv(thread, here, one, there, another, flags) fuzz_across((here)->iov_base, (uint64_t)(there)->iov_base, (here)->iov_len)
#define close(descriptor) ((void)(descriptor))
#define read fuzz_read
#define write fuzz_write
#define send fuzz_send
#include "../../clients/trap/memory.c"
#include "../../clients/c/reqkey.c"
#include "../../clients/trap/answer.h"
#include "../../clients/keyutils/learned.h"
#include "../../clients/keyutils/session.h"
#include "../../clients/trap/calls_of.h"
#include "../../clients/trap/session.h"

/* ---- what the rest of the trap does */

__thread struct caller caller;
static struct reqkey *session;
static bool handler;

int caller_begin(int listener, struct set *set, const struct seccomp_notif *call)
{
    caller = (struct caller){.listener = listener, .set = set, .thread = 1, .process = 1, .memory = -1, .narrow = is_narrow(call->data.arch)};
    return next_turn() % 50 == 0 ? -ESRCH : 0;
}

void caller_end(void)
{
    caller.memory = -1;
}

bool caller_lives(void)
{
    return next_turn() % 50 != 0;
}

static int errno_of_result(int result)
{
    return result <= -REQKEY_UNSPELT ? ECONNRESET : -result;
}

struct reqkey *session_begin(int32_t key)
{
    (void)key;
    errno = ECONNREFUSED;
    return next_turn() % 30 == 0 ? NULL : session;
}

long session_end(int result)
{
    errno = result < 0 ? errno_of_result(result) : 0;
    return result < 0 ? -1 : result;
}

bool session_is_handlers(void)
{
    return handler;
}

struct reqkey_rings session_rings(void)
{
    return handler ? (struct reqkey_rings){0, 0, 0, 0} : (struct reqkey_rings){0, 0, 4, 8};
}

struct reqkey *session_alone(void)
{
    errno = ECONNREFUSED;
    return next_turn() % 2 == 0 ? NULL : reqkey_open(3, 4);
}

long session_renew(const char *name)
{
    return name == NULL ? 12 : 12 + (long)strlen(name);
}

void session_assumes(int32_t key)
{
    (void)key;
}

int32_t session_assumed(void)
{
    return handler ? 16 : 0;
}

bool session_setting(int setting)
{
    (void)setting;
    return next_turn() % 30 != 0;
}

int session_revoke(int32_t id)
{
    errno = EKEYREVOKED;
    return id == -3 ? (int)(next_turn() % 3) - 1 : 0;
}

bool set_is_container(const struct set *set)
{
    (void)set;
    return next_turn() % 2 == 0;
}

/* Users of a container are told as its uids. */
uint32_t session_shown(uint32_t user)
{
    return user >= 3000000000 ? user - 3000000000 : user;
}

uint32_t session_uid(void)
{
    return 1000;
}

bool session_is_own(uint32_t user)
{
    return session_shown(user) == session_uid();
}

const char *session_ring_name(void)
{
    return "_ses";
}

static struct learned learned;

void session_learns(int32_t key)
{
    learn(&learned, key);
}

bool session_has_learned(int32_t key)
{
    return has_learned(&learned, key);
}

/* ---- calls */

/* An argument: a small number, a pointer, or any. */
static uint64_t argument(void)
{
    switch (next_byte() % 6) {
    case 0:
        return next_byte();
    case 1:
        return (uint64_t)-(int64_t)(next_byte() % 10);
    case 2:
        return next_byte() << 12 | 4000;
    case 3:
        return UINT64_MAX - next_byte();
    case 4:
        return next_byte() << 8 | next_byte();
    default:
        return (uint64_t)next_byte() << 56 | next_byte();
    }
}

int LLVMFuzzerTestOneInput(const uint8_t *data, size_t size)
{
    static const uint32_t COMMANDS[] = {0, 1, 3, 6, 7, 8, 9, 10, 11, 12, 13, 14, 15, 16, 19, 20, 31, ANSWER_SOCKET, 2, 99};
    input = data;
    input_left = size;
    turn = next_byte() << 8 | next_byte();
    handler = turn % 3 == 0;
    session = reqkey_open(3, 4);
    for (unsigned count = next_byte() % 6; count > 0 && session != NULL; count--) {
        unsigned kind = next_byte();
        struct seccomp_notif call = {.id = 1, .pid = 1};
        call.data.arch = kind & 128 ? NARROW_ARCHITECTURE : WIDE_ARCHITECTURE;
        call.data.nr = (kind & 128 ? NARROW_CALLS : WIDE_CALLS) + (int)(kind % 4);
        for (int i = 0; i < 6; i++)
            call.data.args[i] = argument();
        if (kind % 4 == 2)
            call.data.args[0] = COMMANDS[next_byte() % (sizeof COMMANDS / sizeof *COMMANDS)];
        bool first = call.data.args[0] == 31 || call.data.args[0] == ANSWER_SOCKET; /* whose buffer comes first */
        allowed = kind % 4 == 2 ? call.data.args[first ? 2 : 3] : 0;
        session->over = false;
        long result = answer(5, NULL, &call);
        if (result < -4095 || result > INT32_MAX)
            abort();
    }
    reqkey_free(session);
    return 0;
}
