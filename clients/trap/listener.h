/*
 * A listener of seccomp's user notification (seccomp_unotify(2)): the calls of all programs that run under one filter.
 *
 * One thread at a time has the turn: it receives a call, answers it, and receives the next one, so that no other thread has to wake. Before it answers what
 * may wait, it gives the turn away: for a request with a callout, and where it waits for a connection. From a call that takes longer than others, as one whose
 * memory does not come, the turn is taken away after 10 to 20 milliseconds. So no call holds up another one for longer, up to 256 of them.
 *
 * With the end of the last program the listener is closed, and its set let go of.
 */
#ifndef LISTENER_H
#define LISTENER_H

#include <stdbool.h>

struct set;

/* Begins to answer; `ended` is called by the last thread, and may be NULL. False if out of memory or threads: then the listener is closed. */
bool listener_begin(int descriptor, struct set *set, void (*ended)(void));

/* The call that this thread answers may wait: others are received meanwhile. */
void listener_waits(void);

#endif
