#include "turn.h"

#include <limits.h>
#include <linux/futex.h>
#include <pthread.h>
#include <stddef.h>
#include <sys/syscall.h>
#include <unistd.h>

enum { WAITED_FOR = 1 << 30 }; /* beside a thread's number: another thread may sleep */

/* The thread that has the turn, or 0. It is taken and marked in one step, so that a signal comes before or after that. */
static int holder;

static __thread int cancelling; /* whether this thread could be cancelled before it took the turn */

static __thread int number; /* of this thread, once it is known */

static int this_thread(void)
{
    if (number == 0)
        number = (int)syscall(SYS_gettid);
    return number;
}

/* The thread that had it may be one of the parent. */
static void renew(void)
{
    holder = 0;
    number = 0;
}

__attribute__((constructor)) static void loaded(void)
{
    pthread_atfork(NULL, NULL, renew);
}

enum turn turn_take(void)
{
    int before, mine = this_thread();
    pthread_setcancelstate(PTHREAD_CANCEL_DISABLE, &before);
    for (;;) {
        int other = 0;
        if (__atomic_compare_exchange_n(&holder, &other, mine, false, __ATOMIC_ACQUIRE, __ATOMIC_RELAXED)) {
            cancelling = before;
            return TURN_TAKEN;
        }
        if ((other & ~WAITED_FOR) == mine)
            return TURN_LEFT;
        if ((other & WAITED_FOR) != 0 || __atomic_compare_exchange_n(&holder, &other, other | WAITED_FOR, false, __ATOMIC_RELAXED, __ATOMIC_RELAXED))
            syscall(SYS_futex, &holder, FUTEX_WAIT_PRIVATE, other | WAITED_FOR, NULL, NULL, 0);
    }
}

bool turn_is_mine(void)
{
    return (__atomic_load_n(&holder, __ATOMIC_RELAXED) & ~WAITED_FOR) == this_thread();
}

void turn_give(void)
{
    if (!turn_is_mine())
        return;
    int before = cancelling;
    /* all of them, since one that is woken may be led away by a signal before it takes the turn */
    if ((__atomic_exchange_n(&holder, 0, __ATOMIC_RELEASE) & WAITED_FOR) != 0)
        syscall(SYS_futex, &holder, FUTEX_WAKE_PRIVATE, INT_MAX, NULL, NULL, 0);
    pthread_setcancelstate(before, NULL);
}
