/*
 * What a call of a program takes, by the way in which it is answered: READ of a key, and a call that is nobody's but the kernel's. The median and the least of
 * batches, in nanoseconds. `bench/keys.py` calls it in each way.
 *
 * usage: keys BATCHES [LIBRARY]: by the system calls themselves, or else by a library's keyctl_read
 */
#include "threads.h"

#include <dlfcn.h>
#include <sys/syscall.h>
#include <unistd.h>

enum { BATCH = 50, SESSION = -3, PROCESS = -2, READ = 11 };

typedef int (*add_key_call)(const char *, const char *, const void *, size_t, int);

static long (*reads)(int key, char *buffer, size_t length);
static int key;

static void read_key(void)
{
    char payload[16];
    long length = reads != NULL ? reads(key, payload, sizeof payload) : syscall(SYS_keyctl, READ, key, payload, sizeof payload);
    if (length != 7)
        exit(1);
}

static void ask_parent(void)
{
    syscall(SYS_getppid);
}

static void measure(const char *name, void (*call)(void), int batches)
{
    uint64_t *times = calloc((size_t)batches, sizeof *times);
    need(times != NULL, "memory");
    for (int i = 0; i < batches; i++) {
        uint64_t begun = nanos();
        for (int n = 0; n < BATCH; n++)
            call();
        times[i] = nanos() - begun;
    }
    qsort(times, (size_t)batches, sizeof *times, by_size);
    printf("%s %.0f %.0f\n", name, (double)times[batches / 2] / BATCH, (double)times[0] / BATCH);
    free(times);
}

int main(int count, char **words)
{
    int batches = count > 1 ? atoi(words[1]) : 0;
    void *library = count > 2 ? dlopen(words[2], RTLD_NOW) : NULL;
    if (batches <= 0 || (count > 2 && library == NULL))
        return 2;
    if (library != NULL) {
        add_key_call adds = (add_key_call)dlsym(library, "add_key");
        reads = (long (*)(int, char *, size_t))dlsym(library, "keyctl_read");
        key = adds("user", "measured", "payload", 7, SESSION);
    } else {
        key = (int)syscall(SYS_add_key, "user", "measured", "payload", 7, SESSION);
        if (key < 0 || syscall(SYS_keyctl, READ, key, NULL, 0) < 0) /* the kernel's session ring may be another one's */
            key = (int)syscall(SYS_add_key, "user", "measured", "payload", 7, PROCESS);
    }
    measure("read", read_key, batches);
    measure("getppid", ask_parent, batches);
    return 0;
}
