/*
 * The threads that receive calls (clients/trap/listener.c), with calls that are made of the input: quick ones, some that say that they wait, some that wait
 * without a word, and some whose callers are gone. Threads are refused now and then.
 *
 * What holds all the while: one thread at a time receives; each call is received though others wait, and answered once; with the end of all programs the
 * descriptor is closed and the set ended once, after the last answer.
 */
#include <errno.h>
#include <linux/seccomp.h>
#include <poll.h>
#include <pthread.h>
#include <stdbool.h>
#include <stdint.h>
#include <stdio.h>
#include <stdlib.h>
#include <string.h>
#include <sys/ioctl.h>
#include <sys/timerfd.h>
#include <unistd.h>

enum { CALLS = 64, DESCRIPTOR = 1000 };
enum how { QUICK, GONE, HAS_CALLOUT, SAYS_THAT_IT_WAITS, WAITS };

static pthread_mutex_t world = PTHREAD_MUTEX_INITIALIZER;
static pthread_cond_t changed = PTHREAD_COND_INITIALIZER;
static enum how calls[CALLS];
static unsigned count, received, replied, answered_once[CALLS];
static unsigned receivers, sets_ended, closed_times, ended_times;
static bool released, is_over_now, refuses_threads;

static void holds(bool promise)
{
    if (!promise)
        abort();
}

static int fuzz_poll(struct pollfd *all, nfds_t number, int wait)
{
    pthread_mutex_lock(&world);
    holds(number == 1 && wait == -1 && ++receivers == 1);
    while (received == count && !is_over_now)
        pthread_cond_wait(&changed, &world);
    all->revents = received < count ? POLLIN : POLLHUP;
    receivers--;
    pthread_mutex_unlock(&world);
    return 1;
}

static int fuzz_ioctl(int descriptor, unsigned long request, void *of)
{
    int result = 0;
    holds(descriptor == DESCRIPTOR);
    pthread_mutex_lock(&world);
    if (request == SECCOMP_IOCTL_NOTIF_RECV) {
        struct seccomp_notif *call = of;
        holds(received < count && receivers == 0);
        call->id = received;
        call->data.arch = 0;
        call->data.args[2] = calls[received] == HAS_CALLOUT;
        result = calls[received] == GONE ? -1 : 0;
        answered_once[received] += result < 0;
        replied += result < 0;
        received++;
    } else if (request == SECCOMP_IOCTL_NOTIF_SEND) {
        const struct seccomp_notif_resp *reply = of;
        holds(reply->id < received && answered_once[reply->id]++ == 0 && reply->val == (int64_t)reply->id);
        replied++;
    }
    pthread_cond_broadcast(&changed);
    pthread_mutex_unlock(&world);
    return result;
}

static int fuzz_settime(int timer, int flags, const struct itimerspec *when, struct itimerspec *old)
{
    struct itimerspec soon = {.it_value = {0, 50000}};
    holds(when->it_value.tv_nsec > 0);
    return timerfd_settime(timer, flags, &soon, old);
}

static int fuzz_thread(pthread_t *thread, const pthread_attr_t *how, void *(*does)(void *), void *of)
{
    static unsigned turn;
    return refuses_threads && ++turn % 3 == 0 ? EAGAIN : pthread_create(thread, how, does, of);
}

static int fuzz_close(int descriptor)
{
    closed_times += descriptor == DESCRIPTOR;
    return descriptor == DESCRIPTOR ? 0 : close(descriptor);
}

#define poll fuzz_poll
#define ioctl(descriptor, request, of) fuzz_ioctl(descriptor, request, (void *)(of))
#define timerfd_settime fuzz_settime
#define pthread_create fuzz_thread
#define close fuzz_close
#include "../../clients/trap/calls_of.h"
#define call_of(architecture, number) ((void)(architecture), (void)(number), CALL_REQUEST_KEY)
#include "../../clients/trap/listener.c"

long answer(int descriptor, struct set *set, const struct seccomp_notif *call)
{
    enum how how = calls[call->id];
    holds(descriptor == DESCRIPTOR && set == NULL);
    if (how == SAYS_THAT_IT_WAITS)
        listener_waits();
    pthread_mutex_lock(&world);
    while (how >= HAS_CALLOUT && !released)
        pthread_cond_wait(&changed, &world);
    pthread_mutex_unlock(&world);
    return (long)call->id;
}

void caller_forget(void)
{
}

void set_end(struct set *set)
{
    holds(set == NULL && replied == received);
    sets_ended++;
}

static void has_ended(void)
{
    pthread_mutex_lock(&world);
    ended_times++;
    pthread_cond_broadcast(&changed);
    pthread_mutex_unlock(&world);
}

/* Waits until so many are received, or answered, or the listener has ended. */
static void until(const unsigned *what, unsigned wanted)
{
    pthread_mutex_lock(&world);
    while (*what < wanted)
        pthread_cond_wait(&changed, &world);
    pthread_mutex_unlock(&world);
}

static void comes(enum how how)
{
    pthread_mutex_lock(&world);
    calls[count++] = how;
    pthread_cond_broadcast(&changed);
    pthread_mutex_unlock(&world);
}

int LLVMFuzzerTestOneInput(const uint8_t *data, size_t size)
{
    count = received = replied = receivers = sets_ended = closed_times = ended_times = 0;
    memset(answered_once, 0, sizeof answered_once);
    released = is_over_now = false;
    refuses_threads = size > 0 && data[0] % 8 == 0;
    bool begun = listener_begin(DESCRIPTOR, NULL, has_ended);
    for (size_t i = 1; begun && i < size && i <= CALLS; i++) {
        /* without threads nobody is there to receive what comes beside a call that waits */
        comes(refuses_threads ? (enum how)(data[i] % 2) : (enum how)(data[i] % 5));
        if (data[i] >= 128)
            until(&received, count);
    }
    if (begun)
        until(&received, count);
    pthread_mutex_lock(&world);
    released = true;
    pthread_cond_broadcast(&changed);
    pthread_mutex_unlock(&world);
    if (begun)
        until(&replied, count);
    pthread_mutex_lock(&world);
    is_over_now = true;
    pthread_cond_broadcast(&changed);
    pthread_mutex_unlock(&world);
    if (begun)
        until(&ended_times, 1);
    holds(closed_times == 1 && sets_ended == 1 && ended_times == begun);
    return 0;
}
