/* What a container runtime says of a container (the OCI runtime specification's "container process state"): JSON, as {"state": {"id": "web", ..}, ..}. */
#ifndef STATE_H
#define STATE_H

#include <stdbool.h>
#include <stddef.h>

/* The container's name, as it is written between its quotes; false if there is none, or it has no room. Any text may be tried. */
bool state_name(const char *text, char *name, size_t room);

#endif
