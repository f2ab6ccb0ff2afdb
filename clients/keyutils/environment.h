/* The environment of this process. */
#ifndef ENVIRONMENT_H
#define ENVIRONMENT_H

#include <stdbool.h>

/*
 * Sets a variable for this process and what it executes, as setenv(3); false if out of memory. A program may have a setenv of its own, as bash has, which
 * knows no variable yet when a library is loaded. So this writes `environ` itself.
 */
bool environment_set(const char *name, const char *value);

#endif
