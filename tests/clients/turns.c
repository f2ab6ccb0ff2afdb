/*
 * Threads that wait for the turn of clients/keyutils/turn.c: when it is given back all of them are woken, and each gets it. Prints how many of how many were
 * woken, and how many had the turn; the status is 77 where the kernel doesn't show who sleeps. One that is woken may be led away by a signal before it takes
 * the turn: were it the only one, the others would sleep on.
 */
#include <linux/futex.h>
#include <pthread.h>
#include <stdarg.h>
#include <stdatomic.h>
#include <stdbool.h>
#include <stdio.h>
#include <sys/syscall.h>
#include <unistd.h>

enum { THREADS = 5 };

static __thread bool notes; /* whether this thread is the one whose wake is told */
static long woken;

/* The system's, but that it notes how many are woken. */
static long noted(long number, ...)
{
    va_list more;
    va_start(more, number);
    long words[6];
    int count = number == SYS_futex ? 6 : 0;
    for (int i = 0; i < count; i++)
        words[i] = i == 1 || i == 2 || i == 5 ? va_arg(more, int) : (long)va_arg(more, void *);
    va_end(more);
    long result = count == 0 ? syscall(number) : syscall(number, words[0], words[1], words[2], words[3], words[4], words[5]);
    if (count != 0 && words[1] == FUTEX_WAKE_PRIVATE && notes)
        woken = result;
    return result;
}

#define syscall(...) noted(__VA_ARGS__)
#include "turn.c"
#undef syscall

static atomic_int numbers[THREADS], served;

static void *takes(void *at)
{
    atomic_store((atomic_int *)at, (int)syscall(SYS_gettid));
    turn_take();
    atomic_fetch_add(&served, 1);
    turn_give();
    return NULL;
}

/* The number of the system call in which a thread is, as the kernel shows it (proc(5)); -1 for none. */
static int call_of(int thread)
{
    char path[64];
    int number = -1;
    snprintf(path, sizeof path, "/proc/self/task/%d/syscall", thread);
    FILE *file = fopen(path, "r");
    if (file == NULL)
        return -1;
    if (fscanf(file, "%d", &number) != 1)
        number = -1;
    fclose(file);
    return number;
}

int main(void)
{
    pthread_t threads[THREADS];
    if (access("/proc/self/syscall", R_OK) < 0)
        return 77;
    turn_take();
    for (int i = 0; i < THREADS; i++)
        pthread_create(&threads[i], NULL, takes, &numbers[i]);
    for (int i = 0; i < THREADS; i++)
        while (atomic_load(&numbers[i]) == 0 || call_of(atomic_load(&numbers[i])) != SYS_futex)
            usleep(100);
    notes = true;
    turn_give();
    for (int i = 0; i < THREADS; i++)
        pthread_join(threads[i], NULL);
    printf("woken %ld of %d, served %d\n", woken, THREADS, atomic_load(&served));
    return 0;
}
