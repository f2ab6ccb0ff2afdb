/* Lines on standard error, as the daemon's own (reqkeyd(8), DIAGNOSTICS): of each kind ten in a minute, and a later line counts the others. */
#ifndef LOG_H
#define LOG_H

#include <stdbool.h>

enum log_kind { LOG_REFUSED, LOG_DAEMON, LOG_ACCEPT, LOG_KINDS };

/* Whether standard error is the journal. Before all others. */
void log_begin(void);

/*
 * A warning. Who writes one never waits: if standard error takes nothing at the moment, the line is lost.
 *
 * `log_counts` says whether a line of this kind is to be written; else it is counted.
 */
bool log_counts(enum log_kind kind);
__attribute__((format(printf, 1, 2))) void log_warning(const char *form, ...);

#endif
