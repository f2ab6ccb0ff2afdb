/* The filter of a trapped program, which hands its three system calls to a listener, and all others to the kernel. */
#ifndef FILTER_H
#define FILTER_H

/*
 * Puts this process, and all that it starts, under the filter, and gives its listener; -1 and errno. EBUSY: it has another filter with a listener, as in a
 * chain of filters one alone may have.
 *
 * Without CAP_SYS_ADMIN the process can't gain rights by setuid programs from then on (no_new_privs, prctl(2)).
 */
int filter_begin(void);

#endif
