/* The calls for which the daemon has nothing: each fails with EOPNOTSUPP, whatever its arguments, and says nothing to the daemon. */
#include "calls.h"

#include <errno.h>

#pragma GCC diagnostic ignored "-Wunused-parameter"

#define LEFT_OUT(result, name, ...)                                                                                                                            \
    result name(__VA_ARGS__)                                                                                                                                   \
    {                                                                                                                                                          \
        errno = EOPNOTSUPP;                                                                                                                                    \
        return -1;                                                                                                                                             \
    }

LEFT_OUT(long, keyctl_session_to_parent, void)
LEFT_OUT(long, keyctl_get_persistent, uid_t uid, key_serial_t id)
LEFT_OUT(long, keyctl_dh_compute, key_serial_t priv, key_serial_t prime, key_serial_t base, char *buffer, size_t buflen)
LEFT_OUT(int, keyctl_dh_compute_alloc, key_serial_t priv, key_serial_t prime, key_serial_t base, void **_buffer)
LEFT_OUT(long, keyctl_dh_compute_kdf, key_serial_t priv, key_serial_t prime, key_serial_t base, char *hashname, char *otherinfo, size_t otherinfolen,
         char *buffer, size_t buflen)
LEFT_OUT(long, keyctl_restrict_keyring, key_serial_t keyring, const char *type, const char *restriction)
LEFT_OUT(long, keyctl_pkey_query, key_serial_t key_id, const char *info, struct keyctl_pkey_query *result)
LEFT_OUT(long, keyctl_pkey_encrypt, key_serial_t key_id, const char *info, const void *data, size_t data_len, void *enc, size_t enc_len)
LEFT_OUT(long, keyctl_pkey_decrypt, key_serial_t key_id, const char *info, const void *enc, size_t enc_len, void *data, size_t data_len)
LEFT_OUT(long, keyctl_pkey_sign, key_serial_t key_id, const char *info, const void *data, size_t data_len, void *sig, size_t sig_len)
LEFT_OUT(long, keyctl_pkey_verify, key_serial_t key_id, const char *info, const void *data, size_t data_len, const void *sig, size_t sig_len)
LEFT_OUT(long, keyctl_watch_key, key_serial_t id, int watch_queue_fd, int watch_id)
LEFT_OUT(int, recursive_key_scan, key_serial_t key, recursive_key_scanner_t func, void *data)
LEFT_OUT(int, recursive_session_key_scan, recursive_key_scanner_t func, void *data)
