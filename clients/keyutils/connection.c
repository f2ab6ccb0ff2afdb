#include "connection.h"

#include <errno.h>
#include <poll.h>
#include <sys/socket.h>

int errno_of(int result)
{
    switch (-result) {
    case REQKEY_UNSPELT:
        return EINVAL;
    case REQKEY_ENDED:
        return ECONNRESET;
    case REQKEY_MALFORMED:
        return EPROTO;
    case REQKEY_SYSTEM:
        return errno == EPIPE ? ECONNRESET : errno;
    default:
        return -result;
    }
}

bool connection_has_ended(const struct reqkey *session)
{
    struct pollfd end = {reqkey_descriptor(session), POLLIN | POLLRDHUP, 0};
    return poll(&end, 1, 0) > 0;
}

pid_t connection_daemon(const struct reqkey *session)
{
    struct ucred who = {0, 0, 0};
    socklen_t length = sizeof who;
    return getsockopt(reqkey_descriptor(session), SOL_SOCKET, SO_PEERCRED, &who, &length) == 0 ? who.pid : 0;
}
