/* What a key is, and the calls that would change it: the daemon keeps no groups and no permissions, and a key's payload stays as it is. */
#include "calls.h"
#include "on_key.h"

#include <errno.h>
#include <stdio.h>
#include <stdlib.h>
#include <string.h>

enum { KNOWN_PERMISSIONS = 0x3f3f3f3f, AUTHORITYS_PERMISSIONS = 0x0b010000, MOVE_EXCLUDES = 1 };

/* The description is written if there is room for all of it. */
static long told(int length, const char *words, char *buffer, size_t buflen)
{
    if (length >= 0 && buffer != NULL && (size_t)length <= buflen)
        memcpy(buffer, words, (size_t)length);
    return session_end(length);
}

/* The length of words that have to have room. */
static int whole(int length)
{
    return length < 0 ? -REQKEY_MALFORMED : length;
}

/* The authority of a handler that has assumed it, as the kernel describes its key: for the user whom the handler acts for, and named by the handler's key. */
static long described_authority(char *buffer, size_t buflen)
{
    static const char TYPE[] = ".request_key_auth";
    struct described parts;
    char words[WORDS], name[16];
    struct reqkey *session = session_begin(0);
    if (session == NULL)
        return -1;
    int key = session_assumed(), result = key == 0 ? -EOPNOTSUPP : look_up(session, key, &parts);
    bool known = result == 0 || result == -REQKEY_EKEYREVOKED || result == -REQKEY_EKEYEXPIRED;
    snprintf(name, sizeof name, "%x", (unsigned)key);
    if (key != 0 && known)
        result = whole(words_of(words, TYPE, sizeof TYPE - 1, session_shown(parts.uid), AUTHORITYS_PERMISSIONS, name));
    return told(result, words, buffer, buflen);
}

/* A ring of the client, of the session that has begun. */
static int ring_words(key_serial_t id, char *words)
{
    static const char TYPE[] = "keyring";
    char name[32];
    uint32_t uid = session_uid();
    snprintf(name, sizeof name, "_uid.%u", uid);
    return whole(words_of(words, TYPE, sizeof TYPE - 1, uid, POSSESSOR_MAY_ALL, is_user_ring(id) ? name : session_ring_name()));
}

/* A key, as `type;uid;-1;permissions;description`; its error if it was revoked or has expired. */
static int key_words(struct reqkey *session, key_serial_t key, char *words)
{
    struct described parts;
    int result = look_up(session, key, &parts);
    if (result < 0)
        return result;
    return whole(words_of(words, parts.type, parts.type_length, session_shown(parts.uid), POSSESSOR_MAY_ALL, parts.description));
}

/* Whether a ring is named that can be described. A handler has not been told its requester's rings. */
static bool is_own_ring(key_serial_t id)
{
    return !session_is_handlers() && (is_session_ring(id) || is_user_ring(id));
}

long keyctl_describe(key_serial_t id, char *buffer, size_t buflen)
{
    char words[WORDS];
    key_serial_t key = meant(id);
    if (key == REQKEY_AUTHORITY && session_is_handlers())
        return described_authority(buffer, buflen);
    struct reqkey *session = session_begin(key);
    if (session == NULL)
        return -1;
    int fault = is_own_ring(key) ? 0 : fault_of(key);
    int length = fault != 0 ? -fault : is_own_ring(key) ? ring_words(key, words) : key_words(session, key, words);
    return told(length, words, buffer, buflen);
}

int keyctl_describe_alloc(key_serial_t id, char **_buffer)
{
    char *buffer = malloc(WORDS);
    if (buffer == NULL)
        return -1;
    long length = keyctl_describe(id, buffer, WORDS);
    if (length < 0) {
        free(buffer);
        return -1;
    }
    *_buffer = buffer;
    return (int)length - 1;
}

/* ---- what is left out, once the key is there */

/* The error of a key or ring, as the kernel tells it before it says anything else; else EOPNOTSUPP. */
static long left_out(key_serial_t id)
{
    return failed(keyctl_describe(id, NULL, 0) < 0 ? errno : EOPNOTSUPP);
}

long keyctl_update(key_serial_t id, const void *payload, size_t plen)
{
    (void)payload;
    (void)plen;
    return left_out(id);
}

long keyctl_chown(key_serial_t id, uid_t uid, gid_t gid)
{
    return uid == (uid_t)-1 && gid == (gid_t)-1 ? 0 : left_out(id);
}

long keyctl_invalidate(key_serial_t id)
{
    return left_out(id);
}

long keyctl_get_security(key_serial_t key, char *buffer, size_t buflen)
{
    (void)buffer;
    (void)buflen;
    return left_out(key);
}

int keyctl_get_security_alloc(key_serial_t id, char **_buffer)
{
    (void)_buffer;
    return (int)left_out(id);
}

/* Who possesses a key may do all with it: a mask that says so is right already, whatever it would allow to others. */
long keyctl_setperm(key_serial_t id, key_perm_t perm)
{
    if ((perm & ~(key_perm_t)KNOWN_PERMISSIONS) != 0)
        return failed(EINVAL);
    if (keyctl_describe(id, NULL, 0) < 0)
        return -1;
    return (perm & POSSESSOR_MAY_ALL) == POSSESSOR_MAY_ALL ? 0 : failed(EOPNOTSUPP);
}

/* EINVAL and ENOTDIR, where the kernel says so. */
long keyctl_move(key_serial_t id, key_serial_t from_ringid, key_serial_t to_ringid, unsigned int flags)
{
    if ((flags & ~(unsigned)MOVE_EXCLUDES) != 0 || is_no_place(from_ringid) || is_no_place(to_ringid))
        return failed(EINVAL);
    if (keyctl_describe(id, NULL, 0) < 0)
        return -1;
    struct reqkey *session = session_begin(0);
    if (session == NULL)
        return -1;
    int result = in_ring(session, -REQKEY_ENOKEY, meant(from_ringid));
    if (result == -REQKEY_ENOKEY)
        result = in_ring(session, -REQKEY_ENOKEY, meant(to_ringid));
    return session_end(result == -REQKEY_ENOKEY ? -EOPNOTSUPP : result);
}
