/*
 * libkeyutils' calls, as <keyutils.h> of keyutils 1.6.3 declares them; docs/PROGRAMS.md tells what each does here. Programs are compiled with the header of
 * keyutils itself: this one is there so that the library can be built without it.
 */
#ifndef CALLS_H
#define CALLS_H

#include <stddef.h>
#include <stdint.h>
#include <sys/types.h>
#include <sys/uio.h>

typedef int32_t key_serial_t;
typedef uint32_t key_perm_t;
typedef int (*recursive_key_scanner_t)(key_serial_t parent, key_serial_t key, char *desc, int desc_len, void *data);

struct keyctl_kdf_params;
struct keyctl_pkey_query;

/* The commands of keyctl() that are answered; the numbers are the kernel's. */
#define KEYCTL_GET_KEYRING_ID 0
#define KEYCTL_JOIN_SESSION_KEYRING 1
#define KEYCTL_UPDATE 2
#define KEYCTL_REVOKE 3
#define KEYCTL_CHOWN 4
#define KEYCTL_SETPERM 5
#define KEYCTL_DESCRIBE 6
#define KEYCTL_CLEAR 7
#define KEYCTL_LINK 8
#define KEYCTL_UNLINK 9
#define KEYCTL_SEARCH 10
#define KEYCTL_READ 11
#define KEYCTL_INSTANTIATE 12
#define KEYCTL_NEGATE 13
#define KEYCTL_SET_REQKEY_KEYRING 14
#define KEYCTL_SET_TIMEOUT 15
#define KEYCTL_ASSUME_AUTHORITY 16
#define KEYCTL_GET_SECURITY 17
#define KEYCTL_REJECT 19
#define KEYCTL_INSTANTIATE_IOV 20
#define KEYCTL_INVALIDATE 21
#define KEYCTL_MOVE 30
#define KEYCTL_CAPABILITIES 31

extern const char keyutils_version_string[];
extern const char keyutils_build_string[];

/* Answered by the daemon, or from what it has said: calls.c, attributes.c. */
key_serial_t add_key(const char *type, const char *description, const void *payload, size_t plen, key_serial_t ringid);
key_serial_t request_key(const char *type, const char *description, const char *callout_info, key_serial_t destringid);
key_serial_t find_key_by_type_and_desc(const char *type, const char *desc, key_serial_t destringid);
key_serial_t keyctl_get_keyring_ID(key_serial_t id, int create);
key_serial_t keyctl_join_session_keyring(const char *name);
long keyctl_revoke(key_serial_t id);
long keyctl_describe(key_serial_t id, char *buffer, size_t buflen);
int keyctl_describe_alloc(key_serial_t id, char **_buffer);
long keyctl_clear(key_serial_t ringid);
long keyctl_link(key_serial_t id, key_serial_t ringid);
long keyctl_unlink(key_serial_t id, key_serial_t ringid);
long keyctl_search(key_serial_t ringid, const char *type, const char *description, key_serial_t destringid);
long keyctl_read(key_serial_t id, char *buffer, size_t buflen);
int keyctl_read_alloc(key_serial_t id, void **_buffer);
long keyctl_instantiate(key_serial_t id, const void *payload, size_t plen, key_serial_t ringid);
long keyctl_instantiate_iov(key_serial_t id, const struct iovec *payload_iov, unsigned ioc, key_serial_t ringid);
long keyctl_negate(key_serial_t id, unsigned timeout, key_serial_t ringid);
long keyctl_reject(key_serial_t id, unsigned timeout, unsigned error, key_serial_t ringid);
long keyctl_set_reqkey_keyring(int reqkey_defl);
long keyctl_set_timeout(key_serial_t key, unsigned timeout);
long keyctl_assume_authority(key_serial_t key);
long keyctl_capabilities(unsigned char *buffer, size_t buflen);
long keyctl_setperm(key_serial_t id, key_perm_t perm);

/* EOPNOTSUPP, but for the errors of a key that the kernel tells first: attributes.c. */
long keyctl_update(key_serial_t id, const void *payload, size_t plen);
long keyctl_chown(key_serial_t id, uid_t uid, gid_t gid);
long keyctl_invalidate(key_serial_t id);
long keyctl_get_security(key_serial_t key, char *buffer, size_t buflen);
int keyctl_get_security_alloc(key_serial_t id, char **_buffer);
long keyctl_move(key_serial_t id, key_serial_t from_ringid, key_serial_t to_ringid, unsigned int flags);

/* Those by the number of a command: raw.c. */
long keyctl(int cmd, ...);

/* EOPNOTSUPP: left_out.c. */
long keyctl_session_to_parent(void);
long keyctl_get_persistent(uid_t uid, key_serial_t id);
long keyctl_dh_compute(key_serial_t priv, key_serial_t prime, key_serial_t base, char *buffer, size_t buflen);
int keyctl_dh_compute_alloc(key_serial_t priv, key_serial_t prime, key_serial_t base, void **_buffer);
long keyctl_dh_compute_kdf(key_serial_t priv, key_serial_t prime, key_serial_t base, char *hashname, char *otherinfo, size_t otherinfolen, char *buffer,
                           size_t buflen);
long keyctl_restrict_keyring(key_serial_t keyring, const char *type, const char *restriction);
long keyctl_pkey_query(key_serial_t key_id, const char *info, struct keyctl_pkey_query *result);
long keyctl_pkey_encrypt(key_serial_t key_id, const char *info, const void *data, size_t data_len, void *enc, size_t enc_len);
long keyctl_pkey_decrypt(key_serial_t key_id, const char *info, const void *enc, size_t enc_len, void *data, size_t data_len);
long keyctl_pkey_sign(key_serial_t key_id, const char *info, const void *data, size_t data_len, void *sig, size_t sig_len);
long keyctl_pkey_verify(key_serial_t key_id, const char *info, const void *data, size_t data_len, const void *sig, size_t sig_len);
long keyctl_watch_key(key_serial_t id, int watch_queue_fd, int watch_id);
int recursive_key_scan(key_serial_t key, recursive_key_scanner_t func, void *data);
int recursive_session_key_scan(recursive_key_scanner_t func, void *data);

#endif
