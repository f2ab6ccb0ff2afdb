/* Loaded before the C library (LD_PRELOAD): the first file that gets one more name waits there until who opened the FIFO GATE closes it. */
#define _GNU_SOURCE
#include <dlfcn.h>
#include <fcntl.h>
#include <stdlib.h>
#include <unistd.h>

static int held;

int link(const char *old, const char *new) {
    const char *gate = getenv("GATE");
    if (gate && !__atomic_exchange_n(&held, 1, __ATOMIC_RELAXED)) {
        char byte;
        int file = open(gate, O_RDONLY);
        if (file >= 0 && read(file, &byte, 1) >= 0)
            close(file);
    }
    return ((__typeof__(&link))dlsym(RTLD_NEXT, "link"))(old, new);
}
