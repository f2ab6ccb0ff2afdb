/*
 * A plain handler's way to the daemon: its standard input and output, where REQKEYD_STREAMS is `0,1`.
 *
 * When the library is loaded, they are moved to descriptors from 10 on, so that what a program reads and prints stays apart. The variable then says where
 * they are, and who has them: `INPUT,OUTPUT,MARK,HOLDER` and the three inodes. The process that the daemon has started holds them, from one execve(2) to the
 * next. Every other process of the handler opens them for the time of a call, as /proc/HOLDER/fd/N. So a program has them whose caller closes all
 * descriptors, as Python's subprocess does; and one that goes on in the background does not hold up the handler's end. A process that can't open them
 * keeps what it has inherited: as another user, or without /proc.
 *
 * Programs of one handler take turns, by a lock on the file MARK. Its byte is 1 while a request is on its way. If a program is killed then, nobody knows
 * whose the next reply is: all later calls of the handler fail.
 */
#ifndef STREAMS_H
#define STREAMS_H

#include <stdbool.h>

/* Whether this process is one of a plain handler. */
bool streams_are_told(void);

/* Waits for the streams, and gives their descriptors. 0 or an error: ECONNRESET after a request that did not end, or what open(2) says. */
int streams_take(int *input, int *output);

/* Gives them back; `whole` if each request has got its reply. */
void streams_give(bool whole);

#endif
