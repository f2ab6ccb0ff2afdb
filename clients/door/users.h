/* How many connections each uid has, of those that have any. */
#ifndef USERS_H
#define USERS_H

#include <sys/types.h>

struct user {
    uid_t uid;
    unsigned open;   /* all of its connections */
    unsigned served; /* those that act for somebody */
    struct user *next;
};

/* One more that is open; NULL if out of memory. */
struct user *user_comes(uid_t uid);

/* One less. A user without any is forgotten. */
void user_goes(struct user *user);

#endif
