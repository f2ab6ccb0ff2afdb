/*
 * Who may come. By default each user but those of /etc/subuid: whoever has such uids can be 65,536 users, each with a user ring that stays (subuid(5),
 * user_namespaces(7)). And not the one uid by which the kernel shows all that the door's user namespace has no number for.
 */
#ifndef ADMITS_H
#define ADMITS_H

#include "peer.h"

#include <stdbool.h>

/*
 * One more that may come, `who` of an option: a uid, `FIRST-LAST` of uids, or the name of a group. From the first one on nobody else may. False if it is none
 * of these, or there are too many.
 */
bool admit(const char *who);

/* Whether the peer of a connection may come. The file is looked at anew if it has changed. */
bool is_admitted(int connection, const struct peer *peer);

#endif
