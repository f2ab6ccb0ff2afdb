#include "on_key.h"

#include <errno.h>

enum { USER_SESSION_RING = -5, GROUP_RING = -6 };

int failed(int error)
{
    errno = error;
    return -1;
}

key_serial_t meant(key_serial_t id)
{
    if (!session_is_handlers())
        return id;
    return id == REQUESTOR_SERIAL ? REQKEY_REQUESTOR_RING : id == AUTHORITY_SERIAL ? REQKEY_AUTHORITY : id;
}

bool is_session_ring(key_serial_t id)
{
    return id == REQKEY_SESSION_RING || (id > 0 && (uint32_t)id == session_rings().session);
}

bool is_user_ring(key_serial_t id)
{
    return id == REQKEY_USER_RING || (id > 0 && (uint32_t)id == session_rings().user);
}

int fault_of(key_serial_t key)
{
    if (key == GROUP_RING)
        return EINVAL;
    if ((key == REQKEY_THREAD_RING || key == REQKEY_PROCESS_RING) && !session_is_handlers())
        return ENOKEY;
    bool special = key < 0 && key >= REQKEY_REQUESTOR_RING;
    return special || is_session_ring(key) || is_user_ring(key) ? EOPNOTSUPP : 0;
}

struct reqkey *begin_on(key_serial_t key)
{
    struct reqkey *session = session_begin(key);
    int fault = session == NULL ? 0 : fault_of(key);
    if (fault == 0)
        return session;
    session_end(0);
    errno = fault;
    return NULL;
}

bool is_no_place(key_serial_t ringid)
{
    return ringid == 0 || ringid == GROUP_RING || ringid < REQKEY_REQUESTOR_RING;
}

int in_ring(struct reqkey *session, int result, key_serial_t ringid)
{
    const char *text;
    if (result != -REQKEY_ENOKEY || ringid <= 0 || is_session_ring(ringid) || is_user_ring(ringid))
        return result;
    int described = reqkey_describe(session, ringid, &text);
    return described >= 0 ? -ENOTDIR : described == -REQKEY_EACCES || described <= -REQKEY_ENDED ? described : result;
}

int look_up(struct reqkey *session, key_serial_t key, struct described *parts)
{
    const char *text;
    int length = reqkey_describe(session, key, &text);
    if (length < 0)
        return length;
    return described_parts(text, session_is_own, parts) ? described_error(parts) : -REQKEY_MALFORMED;
}
