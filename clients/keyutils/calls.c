#include "calls.h"
#include "on_key.h"
#include "types.h"

#include <errno.h>
#include <stdlib.h>
#include <string.h>

/* Which calls there are, and whose they are; of the size that programs expect. */
const char keyutils_version_string[] = "keyutils-1.6.3";
const char keyutils_build_string[] = "on reqkeyd";

enum {
    PAYLOAD = 32767,
    TYPE = 32,   /* with its zero byte */
    NAME = 4096, /* of a ring, or a description, with its zero byte */
};

/* ---- names */

/* The error of a new ring, which the daemon does not make: that of its words, else EOPNOTSUPP. */
static int fault_of_ring(const char *description, size_t plen)
{
    size_t length = strlen(description);
    return description[0] == '.' ? EPERM : plen > 0 || length == 0 || length >= NAME ? EINVAL : EOPNOTSUPP;
}

/* The error of a new key's words that the daemon does not know of, or 0. */
static int fault_of_new(const char *type, const char *description, size_t plen)
{
    size_t length = strlen(type);
    if (length == 0 || length >= TYPE || type[0] == '.')
        return 0; /* which the daemon refuses */
    switch (type_use(type)) {
    case TYPE_OF_RINGS:
        return fault_of_ring(description, plen);
    case TYPE_OF_KERNEL:
        return type_allows(type, description) ? EOPNOTSUPP : EINVAL;
    case TYPE_UNKNOWN:
        return ENODEV;
    default:
        return 0;
    }
}

/* What a key of this type is, for the calls that follow. */
static int learned(int key, const char *type)
{
    if (key > 0 && type_is_readable(type, strlen(type)))
        session_learns(key);
    return key;
}

key_serial_t add_key(const char *type, const char *description, const void *payload, size_t plen, key_serial_t ringid)
{
    if (type == NULL || (payload == NULL && plen > 0))
        return failed(EFAULT);
    if (description == NULL || (is_no_place(ringid) && type[0] != '.'))
        return failed(EINVAL);
    int fault = fault_of_new(type, description, plen);
    if (fault != 0)
        return failed(fault);
    struct reqkey *session = session_begin(0);
    if (session == NULL)
        return -1;
    int key = learned(reqkey_add(session, type, description, payload, plen, meant(ringid)), type);
    return (key_serial_t)session_end(in_ring(session, key, ringid));
}

key_serial_t request_key(const char *type, const char *description, const char *callout_info, key_serial_t destringid)
{
    if (type == NULL || description == NULL)
        return failed(EFAULT);
    if (callout_info != NULL && !type_allows(type, description))
        return failed(EINVAL);
    struct reqkey *session = session_begin(0);
    if (session == NULL)
        return -1;
    return (key_serial_t)session_end(learned(reqkey_request(session, type, description, callout_info, meant(destringid)), type));
}

key_serial_t find_key_by_type_and_desc(const char *type, const char *desc, key_serial_t destringid)
{
    return request_key(type, desc, NULL, destringid);
}

/* ---- rings */

/* The serial of a ring by its special number, 0 for one that there is not, -1 for one that is left out. A handler has not been told its requester's rings. */
static key_serial_t ring_serial(struct reqkey_rings rings, key_serial_t id)
{
    switch (rings.session == 0 ? 0 : id) {
    case REQKEY_THREAD_RING:
        return (key_serial_t)rings.thread;
    case REQKEY_PROCESS_RING:
        return (key_serial_t)rings.process;
    case REQKEY_SESSION_RING:
        return (key_serial_t)rings.session;
    case REQKEY_USER_RING:
        return (key_serial_t)rings.user;
    default:
        return -1;
    }
}

/* The number that stands for a handler's authority, or its requester's ring. Only a handler with its authority assumed has them, and it has a callout. */
static key_serial_t handlers_serial(key_serial_t id)
{
    const char *callout;
    struct reqkey *session = session_begin(0);
    if (session == NULL)
        return -1;
    int result = session_is_handlers() ? reqkey_callout(session, &callout) : -REQKEY_ENOKEY;
    key_serial_t serial = id == REQKEY_AUTHORITY ? AUTHORITY_SERIAL : REQUESTOR_SERIAL;
    return session_end(result < 0 ? result : 0) < 0 ? -1 : serial;
}

/* No ring is made, whatever `create` says. */
key_serial_t keyctl_get_keyring_ID(key_serial_t id, int create)
{
    (void)create;
    if (id > 0)
        return keyctl_describe(id, NULL, 0) >= 0 || errno == EOPNOTSUPP ? id : -1;
    if (is_no_place(id))
        return failed(EINVAL);
    if (id == REQKEY_AUTHORITY || id == REQKEY_REQUESTOR_RING)
        return handlers_serial(id);
    if (session_begin(0) == NULL)
        return -1;
    key_serial_t serial = ring_serial(session_rings(), id);
    session_end(0);
    return serial > 0 ? serial : failed(serial == 0 ? ENOKEY : EOPNOTSUPP);
}

key_serial_t keyctl_join_session_keyring(const char *name)
{
    if (name != NULL && (name[0] == 0 || strlen(name) >= NAME))
        return failed(EINVAL);
    if (name != NULL && name[0] == '.')
        return failed(EPERM);
    return (key_serial_t)session_renew(name);
}

long keyctl_clear(key_serial_t ringid)
{
    if (is_no_place(ringid))
        return failed(EINVAL);
    struct reqkey *session = session_begin(0);
    return session == NULL ? -1 : session_end(in_ring(session, reqkey_clear(session, meant(ringid)), ringid));
}

/* A ring's link in a ring: none is made, and there is none. That of the user ring in the session ring is as good as there, since that is searched anyway. */
static long link_of_ring(struct reqkey *session, key_serial_t id, key_serial_t ringid, bool makes)
{
    bool users = makes && is_user_ring(id) && is_session_ring(ringid);
    int result = users ? 0 : in_ring(session, -REQKEY_ENOKEY, ringid);
    bool is_ring = ringid < 0 || is_session_ring(ringid) || is_user_ring(ringid);
    return session_end(is_ring && !users ? (makes ? -EOPNOTSUPP : -ENOENT) : result);
}

/* A link is made, or taken away. */
static long linked(key_serial_t id, key_serial_t ringid, bool makes)
{
    if (is_no_place(ringid))
        return failed(EINVAL);
    struct reqkey *session = session_begin(id);
    if (session == NULL)
        return -1;
    key_serial_t place = meant(ringid);
    if (is_user_ring(id) || is_session_ring(id))
        return link_of_ring(session, id, place, makes);
    int fault = fault_of(id), result = -fault;
    if (fault == 0)
        result = in_ring(session, makes ? reqkey_link(session, id, place) : reqkey_unlink(session, id, place), place);
    return session_end(result);
}

long keyctl_link(key_serial_t id, key_serial_t ringid)
{
    return linked(id, ringid, true);
}

long keyctl_unlink(key_serial_t id, key_serial_t ringid)
{
    return linked(id, ringid, false);
}

/* A key of this name in the user ring, linked in another ring: a result of the session that has begun. */
static int found_in_user_ring(struct reqkey *session, const char *type, const char *description, key_serial_t destringid)
{
    struct reqkey *alone = session_alone();
    if (alone == NULL)
        return -errno;
    int key = reqkey_request(alone, type, description, NULL, REQKEY_NO_RING);
    reqkey_free(alone);
    if (key < 0 || destringid == 0)
        return key <= -REQKEY_ENDED ? -ECONNRESET : key;
    int result = reqkey_link(session, key, meant(destringid));
    return result < 0 ? result : key;
}

/* The session ring is searched with the user ring behind it, as all requests are. */
long keyctl_search(key_serial_t ringid, const char *type, const char *description, key_serial_t destringid)
{
    if (type == NULL || description == NULL)
        return failed(EFAULT);
    struct reqkey *session = session_begin(0);
    if (session == NULL)
        return -1;
    if (is_user_ring(ringid))
        return session_end(found_in_user_ring(session, type, description, destringid));
    if (is_session_ring(ringid))
        return session_end(learned(reqkey_request(session, type, description, NULL, meant(destringid)), type));
    if (ringid > 0)
        return session_end(in_ring(session, -REQKEY_ENOKEY, ringid));
    session_end(0);
    return failed(is_no_place(ringid) ? EINVAL : ringid == REQKEY_THREAD_RING || ringid == REQKEY_PROCESS_RING ? ENOKEY : EOPNOTSUPP);
}

long keyctl_set_reqkey_keyring(int reqkey_defl)
{
    struct reqkey *session = session_begin(0);
    return session == NULL ? -1 : session_end(reqkey_default(session, reqkey_defl));
}

/* ---- a key */

long keyctl_revoke(key_serial_t id)
{
    struct reqkey *session = begin_on(id);
    return session == NULL ? -1 : session_end(reqkey_revoke(session, id));
}

long keyctl_set_timeout(key_serial_t key, unsigned timeout)
{
    struct reqkey *session = begin_on(key);
    return session == NULL ? -1 : session_end(reqkey_timeout(session, key, timeout));
}

/* Bytes of the session as a call answers them: as many as there are, of which those that fit are written. */
static long copied(int length, const void *bytes, char *buffer, size_t buflen)
{
    if (length >= 0 && buffer != NULL)
        memcpy(buffer, bytes, (size_t)length < buflen ? (size_t)length : buflen);
    return session_end(length);
}

/*
 * Whether the payload of a key may be given: 0, or the error of READ. A key of a type that only the kernel reads is asked for while it has no payload alone:
 * its error is told then.
 */
static int readable(struct reqkey *session, key_serial_t key)
{
    struct described parts;
    const void *payload;
    if (session_has_learned(key))
        return 0;
    int result = look_up(session, key, &parts);
    bool known = result == 0 || result == -REQKEY_EKEYREVOKED || result == -REQKEY_EKEYEXPIRED;
    if (!known)
        return result;
    if (type_is_readable(parts.type, parts.type_length)) {
        session_learns(key);
        return 0;
    }
    bool fails = described_is(&parts, "negative") || described_is(&parts, "building");
    result = fails ? reqkey_read(session, key, &payload) : 0;
    return result < 0 ? result : -EOPNOTSUPP;
}

/* The authority's payload is the callout. A number that names nothing is ENOKEY, as in the kernel. */
long keyctl_read(key_serial_t id, char *buffer, size_t buflen)
{
    const void *payload = NULL;
    key_serial_t key = meant(id);
    if (id == 0 || id < REQKEY_REQUESTOR_RING)
        return failed(ENOKEY);
    struct reqkey *session = key == REQKEY_AUTHORITY ? session_begin(0) : begin_on(key);
    if (session == NULL)
        return -1;
    int fault = key == REQKEY_AUTHORITY ? 0 : readable(session, key), length = fault < 0 ? fault : reqkey_read(session, key, &payload);
    return copied(length, payload, buffer, buflen);
}

int keyctl_read_alloc(key_serial_t id, void **_buffer)
{
    char *buffer = malloc(PAYLOAD + 1);
    if (buffer == NULL)
        return -1;
    long length = keyctl_read(id, buffer, PAYLOAD);
    if (length < 0 || length > PAYLOAD) {
        free(buffer);
        return length < 0 ? -1 : failed(EPROTO);
    }
    buffer[length] = 0;
    *_buffer = buffer;
    return (int)length;
}

/* ---- a handler's key */

/* The kernel answers the serial of the authority, which has none here. A refusal changes nothing. */
long keyctl_assume_authority(key_serial_t key)
{
    struct reqkey *session = session_begin(0);
    if (session == NULL)
        return -1;
    int result = reqkey_assume(session, key);
    if (result == 0)
        session_assumes(key);
    return session_end(result);
}

long keyctl_instantiate(key_serial_t id, const void *payload, size_t plen, key_serial_t ringid)
{
    if (payload == NULL && plen > 0)
        return failed(EFAULT);
    struct reqkey *session = begin_on(id);
    return session == NULL ? -1 : session_end(reqkey_instantiate(session, id, payload, plen, meant(ringid)));
}

/* All parts in one; EINVAL where they are no payload together. NULL is no parts, as in the kernel. */
long keyctl_instantiate_iov(key_serial_t id, const struct iovec *payload_iov, unsigned ioc, key_serial_t ringid)
{
    char payload[PAYLOAD];
    size_t length = 0;
    for (unsigned i = 0; payload_iov != NULL && i < ioc; i++) {
        if (payload_iov[i].iov_len > sizeof payload - length)
            return failed(EINVAL);
        if (payload_iov[i].iov_base == NULL && payload_iov[i].iov_len > 0)
            return failed(EFAULT);
        if (payload_iov[i].iov_len > 0)
            memcpy(payload + length, payload_iov[i].iov_base, payload_iov[i].iov_len);
        length += payload_iov[i].iov_len;
    }
    return keyctl_instantiate(id, payload, length, ringid);
}

long keyctl_negate(key_serial_t id, unsigned timeout, key_serial_t ringid)
{
    struct reqkey *session = begin_on(id);
    return session == NULL ? -1 : session_end(reqkey_negate(session, id, timeout, meant(ringid)));
}

long keyctl_reject(key_serial_t id, unsigned timeout, unsigned error, key_serial_t ringid)
{
    struct reqkey *session = begin_on(id);
    return session == NULL ? -1 : session_end(reqkey_reject(session, id, timeout, error, meant(ringid)));
}

/* ---- what there is */

/* That one may ask for this, and nothing else: permissions, persistent rings, public keys and the like are left out. */
long keyctl_capabilities(unsigned char *buffer, size_t buflen)
{
    static const unsigned char CAPABILITIES[] = {1, 0};
    if (buffer != NULL) {
        memset(buffer, 0, buflen);
        memcpy(buffer, CAPABILITIES, buflen < sizeof CAPABILITIES ? buflen : sizeof CAPABILITIES);
    }
    return sizeof CAPABILITIES;
}
