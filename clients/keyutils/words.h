/* What the daemon says of a key, and how the kernel words it. */
#ifndef WORDS_H
#define WORDS_H

#include "calls.h"

#include <stdbool.h>
#include <stddef.h>
#include <stdint.h>

enum { WORDS = 31 + 1 + 10 + 1 + 2 + 1 + 8 + 1 + 4095 + 1 }; /* bytes of type;uid;gid;permissions;description and a zero byte */

/* What is said of each key and ring: who possesses it may do all with it, and nobody else. */
enum { POSSESSOR_MAY_ALL = 0x3f000000 };

/* The parts of `type;uid;state;description`. */
struct described {
    const char *type, *state, *description;
    size_t type_length, state_length;
    uint32_t uid;
};

/*
 * Finds the parts; false if they are not there. A type may have semicolons, too: so its end is the first one that a uid and a state follow, and which `is_own`
 * says may be that of the key, if there is such a one.
 */
bool described_parts(const char *text, bool (*is_own)(uint32_t uid), struct described *parts);

/* Whether this is the state. */
bool described_is(const struct described *parts, const char *state);

/* The error of a key that is revoked or has expired, or 0. */
int described_error(const struct described *parts);

/* As the kernel describes a key of this user: the length with the zero byte, or -1 if it has no room in WORDS bytes. */
int words_of(char *words, const char *type, size_t type_length, uint32_t uid, unsigned permissions, const char *description);

#endif
