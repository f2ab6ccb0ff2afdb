/* Loaded before the C library (LD_PRELOAD): the call named by CALL whose number stands in REFUSED, counted from 1, fails with the error ERROR, and the file
   TOLD is made; no other call is refused, and none of the programs that this one starts. */
#define _GNU_SOURCE
#include <dlfcn.h>
#include <errno.h>
#include <fcntl.h>
#include <pthread.h>
#include <spawn.h>
#include <stdarg.h>
#include <stdlib.h>
#include <string.h>
#include <sys/socket.h>
#include <sys/stat.h>
#include <sys/syscall.h>
#include <sys/types.h>
#include <sys/wait.h>
#include <unistd.h>

static const char *call, *told;
static long left;
static int error;

__attribute__((constructor)) static void begin(void) {
    const char *number = getenv("REFUSED"), *code = getenv("ERROR");
    call = getenv("CALL");
    told = getenv("TOLD");
    left = number ? atol(number) : 0;
    error = code ? atoi(code) : EIO;
    unsetenv("LD_PRELOAD");
}

/* Threads count together; past the refused one the count only falls. */
static int refused(const char *name) {
    if (!call || strcmp(name, call) != 0 || __atomic_fetch_sub(&left, 1, __ATOMIC_RELAXED) != 1)
        return 0;
    /* without a descriptor, since a test may count those just now */
    syscall(SYS_mknodat, AT_FDCWD, told, S_IFREG | 0600, 0);
    errno = error;
    return 1;
}

#define NEXT(name) ((__typeof__(&name))dlsym(RTLD_NEXT, #name))
#define REFUSING(type, name, parameters, arguments) \
    type name parameters { \
        return refused(#name) ? -1 : NEXT(name) arguments; \
    }

REFUSING(ssize_t, read, (int file, void *bytes, size_t count), (file, bytes, count))
REFUSING(ssize_t, write, (int file, const void *bytes, size_t count), (file, bytes, count))
REFUSING(ssize_t, recv, (int file, void *bytes, size_t count, int flags), (file, bytes, count, flags))
REFUSING(ssize_t, send, (int file, const void *bytes, size_t count, int flags), (file, bytes, count, flags))
REFUSING(int, accept4, (int file, __SOCKADDR_ARG name, socklen_t *length, int flags), (file, name, length, flags))
REFUSING(int, socket, (int domain, int type, int protocol), (domain, type, protocol))
REFUSING(int, bind, (int file, __CONST_SOCKADDR_ARG name, socklen_t length), (file, name, length))
REFUSING(int, getentropy, (void *bytes, size_t count), (bytes, count))
REFUSING(int, listen, (int file, int waiting), (file, waiting))
REFUSING(int, chmod, (const char *path, mode_t mode), (path, mode))
REFUSING(int, pipe2, (int ends[2], int flags), (ends, flags))
REFUSING(pid_t, waitpid, (pid_t child, int *status, int options), (child, status, options))

int open(const char *path, int flags, ...) {
    va_list more;
    va_start(more, flags);
    mode_t mode = flags & O_CREAT ? va_arg(more, mode_t) : 0;
    va_end(more);
    return refused("open") ? -1 : NEXT(open)(path, flags, mode);
}

int posix_spawn(pid_t *child, const char *path, const posix_spawn_file_actions_t *files, const posix_spawnattr_t *how, char *const words[],
                char *const environment[]) {
    return refused("posix_spawn") ? error : NEXT(posix_spawn)(child, path, files, how, words, environment);
}

int pthread_create(pthread_t *thread, const pthread_attr_t *how, void *(*runs)(void *), void *of) {
    return refused("pthread_create") ? error : NEXT(pthread_create)(thread, how, runs, of);
}
