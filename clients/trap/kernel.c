#include "kernel.h"

#include <stddef.h>
#include <string.h>

enum { TYPE = 31 };

static const char *list; /* or NULL */

/* Behind the type that begins here. */
static const char *behind(const char *type)
{
    return type + strcspn(type, ",");
}

/* The type behind this one; NULL behind the last. */
static const char *next(const char *type)
{
    const char *end = behind(type);
    return *end == 0 ? NULL : end + 1;
}

bool kernel_takes(const char *types)
{
    for (const char *type = types; type != NULL; type = next(type))
        if (behind(type) == type || behind(type) - type > TYPE)
            return false;
    list = types;
    return true;
}

bool kernel_has(const char *type)
{
    size_t length = strlen(type);
    for (const char *each = list; each != NULL; each = next(each))
        if ((size_t)(behind(each) - each) == length && memcmp(each, type, length) == 0)
            return true;
    return false;
}

bool kernel_has_any(void)
{
    return list != NULL;
}
