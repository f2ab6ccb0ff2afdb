#include "listener.h"

#include "answer.h"
#include "caller.h"
#include "calls_of.h"
#include "sets.h"

#include <errno.h>
#include <linux/seccomp.h>
#include <poll.h>
#include <pthread.h>
#include <stdlib.h>
#include <string.h>
#include <sys/ioctl.h>
#include <sys/timerfd.h>
#include <unistd.h>

#ifndef SECCOMP_IOCTL_NOTIF_SET_FLAGS /* Linux 6.6: the caller and who answers it take turns on one processor */
#define SECCOMP_IOCTL_NOTIF_SET_FLAGS SECCOMP_IOW(4, __u64)
#define SECCOMP_USER_NOTIF_FD_SYNC_WAKE_UP 1UL
#endif

enum { THREADS = 256, FREE = 4 /* that wait for a turn */, STACK = 256 * 1024, PATIENCE = 10 * 1000 * 1000 /* nanoseconds */ };

struct listener {
    int descriptor;
    struct set *set;
    void (*ended)(void);
    pthread_mutex_t lock;
    pthread_cond_t turn_is_free; /* or all is over */
    unsigned threads, idle;
    bool free, over;
    /* Of the turn: even while the thread that has it receives, odd while it answers. Then it may be taken away by the next number. */
    unsigned long state;
    unsigned long seen; /* the state at the overseer's last look */
    struct listener *next;
};

/* ---- turns */

/* Whose turn this thread has, or had for the call that it answers, and the state of it then. */
static __thread struct listener *mine;
static __thread unsigned long answering;

static void *serve(void *of);

/* Another thread may take the turn: one that waits for it, or else a new one. Without a new one it is the next that is free. */
static void is_free(struct listener *listener)
{
    pthread_t thread;
    pthread_attr_t how;
    pthread_mutex_lock(&listener->lock);
    listener->free = true;
    if (listener->idle == 0 && listener->threads < THREADS) {
        pthread_attr_init(&how);
        pthread_attr_setdetachstate(&how, PTHREAD_CREATE_DETACHED);
        pthread_attr_setstacksize(&how, STACK);
        listener->threads += pthread_create(&thread, &how, serve, listener) == 0;
        pthread_attr_destroy(&how);
    }
    pthread_cond_signal(&listener->turn_is_free);
    pthread_mutex_unlock(&listener->lock);
}

/* Takes the turn from a thread that answers, if this still is the state. */
static void give_away(struct listener *listener, unsigned long state)
{
    if (__atomic_compare_exchange_n(&listener->state, &state, state + 1, false, __ATOMIC_ACQ_REL, __ATOMIC_RELAXED))
        is_free(listener);
}

void listener_waits(void)
{
    if (mine != NULL && answering % 2 == 1)
        give_away(mine, answering);
}

/* Waits for the turn; false if enough others do, or all is over. */
static bool takes_turn(struct listener *listener)
{
    pthread_mutex_lock(&listener->lock);
    bool stays = listener->idle < FREE;
    listener->idle += stays;
    while (stays && !listener->over && !listener->free)
        pthread_cond_wait(&listener->turn_is_free, &listener->lock);
    listener->idle -= stays;
    bool taken = !listener->over && listener->free;
    if (taken)
        listener->free = false;
    pthread_mutex_unlock(&listener->lock);
    return taken;
}

/* ---- the overseer: takes turns away from calls that take long */

static pthread_mutex_t overseeing = PTHREAD_MUTEX_INITIALIZER;
static struct listener *listeners;
static int timer = -1; /* that wakes the overseer, when calls are answered */
static bool is_set;    /* it will */

static void set_timer(void)
{
    const struct itimerspec when = {.it_value = {0, PATIENCE}};
    __atomic_store_n(&is_set, true, __ATOMIC_RELAXED);
    timerfd_settime(timer, 0, &when, NULL);
}

/* Looks at each listener: whether it answers, and takes its turn away if it is the same call as before. */
static bool looks(void)
{
    bool any = false;
    pthread_mutex_lock(&overseeing);
    for (struct listener *listener = listeners; listener != NULL; listener = listener->next) {
        unsigned long state = __atomic_load_n(&listener->state, __ATOMIC_SEQ_CST);
        if (state % 2 == 1 && state == listener->seen)
            give_away(listener, state);
        any |= state % 2 == 1;
        listener->seen = state;
    }
    pthread_mutex_unlock(&overseeing);
    return any;
}

static void *oversees(void *nothing)
{
    uint64_t times;
    while (read(timer, &times, sizeof times) == sizeof times || errno == EINTR) {
        __atomic_store_n(&is_set, false, __ATOMIC_SEQ_CST);
        if (looks())
            set_timer();
    }
    return nothing;
}

/* Whether there is an overseer, from the first call on. It is tried again with each call that has none. */
static bool is_overseen(void)
{
    pthread_t thread;
    if (__atomic_load_n(&timer, __ATOMIC_RELAXED) >= 0)
        return true;
    pthread_mutex_lock(&overseeing);
    int made = timer < 0 ? timerfd_create(CLOCK_MONOTONIC, TFD_CLOEXEC) : -1;
    if (made >= 0)
        __atomic_store_n(&timer, made, __ATOMIC_RELAXED);
    if (made >= 0 && pthread_create(&thread, NULL, oversees, NULL) == 0)
        pthread_detach(thread);
    else if (made >= 0) {
        __atomic_store_n(&timer, -1, __ATOMIC_RELAXED);
        close(made);
    }
    pthread_mutex_unlock(&overseeing);
    return __atomic_load_n(&timer, __ATOMIC_RELAXED) >= 0;
}

/* ---- calls */

/* The next call: false with the end of all programs. One thread at a time, since one that waits in the ioctl itself may wait for ever. */
static bool receive(struct listener *listener, struct seccomp_notif *call)
{
    for (;;) {
        struct pollfd next = {listener->descriptor, POLLIN, 0};
        int ready = poll(&next, 1, -1);
        memset(call, 0, sizeof *call);
        if (ready > 0 && (next.revents & POLLIN) == 0)
            return false;
        if (ready > 0 && ioctl(listener->descriptor, SECCOMP_IOCTL_NOTIF_RECV, call) == 0)
            return true; /* else the caller was killed meanwhile */
    }
}

static bool has_callout(const struct seccomp_notif *call)
{
    return call_of(call->data.arch, (uint32_t)call->data.nr) == CALL_REQUEST_KEY && call->data.args[2] != 0;
}

/* Answers a call; whether this thread still has the turn. */
static bool answered(struct listener *listener, const struct seccomp_notif *call)
{
    bool overseen = is_overseen();
    answering = __atomic_load_n(&listener->state, __ATOMIC_RELAXED) + 1;
    __atomic_store_n(&listener->state, answering, __ATOMIC_SEQ_CST);
    if (overseen && !__atomic_load_n(&is_set, __ATOMIC_SEQ_CST))
        set_timer();
    if (!overseen || has_callout(call))
        listener_waits();
    long result = answer(listener->descriptor, listener->set, call);
    struct seccomp_notif_resp reply = answer_reply(call->id, result);
    ioctl(listener->descriptor, SECCOMP_IOCTL_NOTIF_SEND, &reply); /* ENOENT: the caller is gone */
    unsigned long state = answering++;
    return __atomic_compare_exchange_n(&listener->state, &state, answering, false, __ATOMIC_ACQ_REL, __ATOMIC_RELAXED);
}

/* ---- the ends */

static void is_over(struct listener *listener)
{
    pthread_mutex_lock(&listener->lock);
    listener->over = true;
    pthread_cond_broadcast(&listener->turn_is_free);
    pthread_mutex_unlock(&listener->lock);
}

static void listener_free(struct listener *listener)
{
    close(listener->descriptor);
    set_end(listener->set);
    pthread_cond_destroy(&listener->turn_is_free);
    pthread_mutex_destroy(&listener->lock);
    free(listener);
}

/* A thread ends; the last one ends the listener. */
static void leave(struct listener *listener)
{
    caller_forget();
    pthread_mutex_lock(&listener->lock);
    bool last = --listener->threads == 0;
    pthread_mutex_unlock(&listener->lock);
    if (!last)
        return;
    void (*ended)(void) = listener->ended;
    pthread_mutex_lock(&overseeing);
    struct listener **at = &listeners;
    while (*at != listener)
        at = &(*at)->next;
    *at = listener->next;
    pthread_mutex_unlock(&overseeing);
    listener_free(listener);
    if (ended != NULL)
        ended();
}

static void *serve(void *of)
{
    struct listener *listener = of;
    struct seccomp_notif call;
    mine = listener;
    while (takes_turn(listener)) {
        bool received;
        while ((received = receive(listener, &call)) && answered(listener, &call))
            ;
        if (!received)
            is_over(listener);
    }
    leave(listener);
    return NULL;
}

bool listener_begin(int descriptor, struct set *set, void (*ended)(void))
{
    pthread_t thread;
    struct listener *listener = calloc(1, sizeof *listener);
    if (listener == NULL) {
        close(descriptor);
        set_end(set);
        return false;
    }
    *listener = (struct listener){.descriptor = descriptor, .set = set, .ended = ended, .threads = 1, .free = true};
    pthread_mutex_init(&listener->lock, NULL);
    pthread_cond_init(&listener->turn_is_free, NULL);
    ioctl(descriptor, SECCOMP_IOCTL_NOTIF_SET_FLAGS, SECCOMP_USER_NOTIF_FD_SYNC_WAKE_UP);
    pthread_mutex_lock(&overseeing);
    bool begun = pthread_create(&thread, NULL, serve, listener) == 0;
    if (begun) {
        pthread_detach(thread);
        listener->next = listeners;
        listeners = listener;
    }
    pthread_mutex_unlock(&overseeing);
    if (!begun)
        listener_free(listener);
    return begun;
}
