/*
 * The types of keys that Linux knows, and what the calls here make of each. Handlers may make keys of any type, also of one that is not among these.
 */
#ifndef TYPES_H
#define TYPES_H

#include <stdbool.h>
#include <stddef.h>

/* What add_key makes of a type. */
enum type_use {
    TYPE_KEPT,      /* the daemon keeps its keys */
    TYPE_OF_KERNEL, /* the kernel itself looks for its keys, and would find none of the daemon's */
    TYPE_OF_RINGS,
    TYPE_UNKNOWN,
};

enum type_use type_use(const char *type);

/* Whether programs may read keys of the type that has these first bytes: not if only the kernel may, as of `logon`. */
bool type_is_readable(const char *type, size_t length);

/* Whether a key of this type may have this description. That of `logon` begins with a word and a colon. */
bool type_allows(const char *type, const char *description);

#endif
