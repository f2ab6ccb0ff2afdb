#include "calls.h"

#include <errno.h>
#include <stdarg.h>

/* keyctl(2) by the number of its command: the call of its name. */
long keyctl(int cmd, ...)
{
    va_list words;
    unsigned long a[4];
    va_start(words, cmd);
    for (int i = 0; i < 4; i++)
        a[i] = va_arg(words, unsigned long);
    va_end(words);
    key_serial_t id = (key_serial_t)a[0];
    switch (cmd) {
    case KEYCTL_GET_KEYRING_ID:
        return keyctl_get_keyring_ID(id, (int)a[1]);
    case KEYCTL_JOIN_SESSION_KEYRING:
        return keyctl_join_session_keyring((const char *)a[0]);
    case KEYCTL_UPDATE:
        return keyctl_update(id, (const void *)a[1], a[2]);
    case KEYCTL_REVOKE:
        return keyctl_revoke(id);
    case KEYCTL_CHOWN:
        return keyctl_chown(id, (uid_t)a[1], (gid_t)a[2]);
    case KEYCTL_SETPERM:
        return keyctl_setperm(id, (key_perm_t)a[1]);
    case KEYCTL_DESCRIBE:
        return keyctl_describe(id, (char *)a[1], a[2]);
    case KEYCTL_CLEAR:
        return keyctl_clear(id);
    case KEYCTL_LINK:
        return keyctl_link(id, (key_serial_t)a[1]);
    case KEYCTL_UNLINK:
        return keyctl_unlink(id, (key_serial_t)a[1]);
    case KEYCTL_SEARCH:
        return keyctl_search(id, (const char *)a[1], (const char *)a[2], (key_serial_t)a[3]);
    case KEYCTL_READ:
        return keyctl_read(id, (char *)a[1], a[2]);
    case KEYCTL_INSTANTIATE:
        return keyctl_instantiate(id, (const void *)a[1], a[2], (key_serial_t)a[3]);
    case KEYCTL_NEGATE:
        return keyctl_negate(id, (unsigned)a[1], (key_serial_t)a[2]);
    case KEYCTL_SET_REQKEY_KEYRING:
        return keyctl_set_reqkey_keyring((int)a[0]);
    case KEYCTL_SET_TIMEOUT:
        return keyctl_set_timeout(id, (unsigned)a[1]);
    case KEYCTL_ASSUME_AUTHORITY:
        return keyctl_assume_authority(id);
    case KEYCTL_GET_SECURITY:
        return keyctl_get_security(id, (char *)a[1], a[2]);
    case KEYCTL_REJECT:
        return keyctl_reject(id, (unsigned)a[1], (unsigned)a[2], (key_serial_t)a[3]);
    case KEYCTL_INSTANTIATE_IOV:
        return keyctl_instantiate_iov(id, (const struct iovec *)a[1], (unsigned)a[2], (key_serial_t)a[3]);
    case KEYCTL_INVALIDATE:
        return keyctl_invalidate(id);
    case KEYCTL_MOVE:
        return keyctl_move(id, (key_serial_t)a[1], (key_serial_t)a[2], (unsigned)a[3]);
    case KEYCTL_CAPABILITIES:
        return keyctl_capabilities((unsigned char *)a[0], a[1]);
    default:
        errno = EOPNOTSUPP;
        return -1;
    }
}
