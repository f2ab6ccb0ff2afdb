/*
 * One call of this process at a time. A thread that has the turn can't be cancelled (pthread_cancel(3)) until it gives it back. One that leaves its call by
 * siglongjmp(3) never gives it back: it has the turn still when it makes its next call. No other thread gets it until then.
 */
#ifndef TURN_H
#define TURN_H

#include <stdbool.h>

enum turn {
    TURN_TAKEN,
    TURN_LEFT, /* and an earlier call of this thread has not ended: it was left, or a signal has interrupted it */
};

/* Waits for the turn. */
enum turn turn_take(void);

/* Whether this thread has the turn. */
bool turn_is_mine(void);

/* Gives it back; nothing happens if this thread does not have it. */
void turn_give(void);

#endif
