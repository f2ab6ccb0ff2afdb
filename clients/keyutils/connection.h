/* What a session of clients/c/reqkey.h is to a system call. */
#ifndef CONNECTION_H
#define CONNECTION_H

#include "../c/reqkey.h"

#include <stdbool.h>
#include <sys/types.h>

/* The errno of a result that is an error. */
int errno_of(int result);

/* Whether the daemon has ended the connection. It says nothing that it was not asked. */
bool connection_has_ended(const struct reqkey *session);

/* The process that listens at the other end; 0 if that is not known. */
pid_t connection_daemon(const struct reqkey *session);

#endif
