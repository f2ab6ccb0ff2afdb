/* The uids that the caller is told (caller.h). */
#ifndef SHOWN_H
#define SHOWN_H

#include <stdint.h>

/*
 * A uid in the caller's user namespace, as user_namespaces(7) maps it: of what the kernel shows there, 65534 is a uid that it does not have. Where that can't
 * be seen it is the same.
 */
uint32_t uid_within(uint32_t uid);

#endif
