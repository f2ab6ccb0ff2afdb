#include "types.h"

#include <string.h>

static const struct type {
    const char *name;
    enum type_use use;
    bool unreadable;
} TYPES[] = {
    {"user", TYPE_KEPT, false},
    {"big_key", TYPE_KEPT, false},
    {"dns_resolver", TYPE_KEPT, false},
    {"id_legacy", TYPE_KEPT, false},
    {"id_resolver", TYPE_KEPT, false},
    {"keyring", TYPE_OF_RINGS, false},
    {"asymmetric", TYPE_OF_KERNEL, true},
    {"ceph", TYPE_OF_KERNEL, true},
    {"cifs.idmap", TYPE_OF_KERNEL, true},
    {"cifs.spnego", TYPE_OF_KERNEL, true},
    {"encrypted", TYPE_OF_KERNEL, false},
    {"fscrypt-provisioning", TYPE_OF_KERNEL, true},
    {"logon", TYPE_OF_KERNEL, true},
    {"psk", TYPE_OF_KERNEL, false},
    {"rxrpc", TYPE_OF_KERNEL, false},
    {"rxrpc_s", TYPE_OF_KERNEL, true},
    {"trusted", TYPE_OF_KERNEL, false},
};

static const struct type *found(const char *name, size_t length)
{
    for (size_t i = 0; i < sizeof TYPES / sizeof *TYPES; i++)
        if (strlen(TYPES[i].name) == length && memcmp(TYPES[i].name, name, length) == 0)
            return &TYPES[i];
    return NULL;
}

enum type_use type_use(const char *type)
{
    const struct type *known = found(type, strlen(type));
    return known == NULL ? TYPE_UNKNOWN : known->use;
}

bool type_is_readable(const char *type, size_t length)
{
    const struct type *known = found(type, length);
    return known == NULL || !known->unreadable;
}

bool type_allows(const char *type, const char *description)
{
    return strcmp(type, "logon") != 0 || (description[0] != ':' && strchr(description, ':') != NULL);
}
