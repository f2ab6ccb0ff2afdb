#include "words.h"

#include "../c/reqkey.h"

#include <stdio.h>
#include <stdlib.h>
#include <string.h>

enum { TYPE = 31 };

static const char *const STATES[] = {"valid", "building", "negative", "expired", "revoked"};

/* The length of the state that stands here with a semicolon behind it, or 0. */
static size_t state_at(const char *at)
{
    for (size_t i = 0; i < sizeof STATES / sizeof *STATES; i++) {
        size_t length = strlen(STATES[i]);
        if (strncmp(at, STATES[i], length) == 0 && at[length] == ';')
            return length;
    }
    return 0;
}

/* Whether the type may end here, where a semicolon is: `;uid;state;` follows. */
static bool ends_here(const char *text, const char *at, struct described *parts)
{
    char *behind;
    if (at[1] < '0' || at[1] > '9')
        return false;
    uint32_t uid = (uint32_t)strtoul(at + 1, &behind, 10);
    size_t length = *behind == ';' ? state_at(behind + 1) : 0;
    if (length == 0)
        return false;
    *parts = (struct described){text, behind + 1, behind + 1 + length + 1, (size_t)(at - text), length, uid};
    return true;
}

bool described_parts(const char *text, bool (*is_own)(uint32_t uid), struct described *parts)
{
    struct described here;
    bool found = false;
    for (const char *at = strchr(text, ';'); at != NULL && at - text <= TYPE; at = strchr(at + 1, ';')) {
        bool ends = ends_here(text, at, &here), own = ends && is_own(here.uid);
        if (own || (ends && !found))
            *parts = here;
        if (own)
            return true;
        found |= ends;
    }
    return found;
}

bool described_is(const struct described *parts, const char *state)
{
    return strlen(state) == parts->state_length && memcmp(state, parts->state, parts->state_length) == 0;
}

int described_error(const struct described *parts)
{
    return described_is(parts, "revoked") ? -REQKEY_EKEYREVOKED : described_is(parts, "expired") ? -REQKEY_EKEYEXPIRED : 0;
}

int words_of(char *words, const char *type, size_t type_length, uint32_t uid, unsigned permissions, const char *description)
{
    int length = snprintf(words, WORDS, "%.*s;%u;-1;%08x;%s", (int)type_length, type, uid, permissions, description);
    return length < WORDS ? length + 1 : -1;
}
