#include "users.h"

#include <stdlib.h>

enum { BUCKETS = 1024 };

static struct user *buckets[BUCKETS];

/* Where a user is, or would be. */
static struct user **place_of(uid_t uid)
{
    struct user **at = &buckets[uid % BUCKETS];
    while (*at != NULL && (*at)->uid != uid)
        at = &(*at)->next;
    return at;
}

struct user *user_comes(uid_t uid)
{
    struct user **at = place_of(uid);
    if (*at == NULL) {
        struct user *made = calloc(1, sizeof *made);
        if (made == NULL)
            return NULL;
        made->uid = uid;
        *at = made;
    }
    (*at)->open++;
    return *at;
}

void user_goes(struct user *user)
{
    if (--user->open > 0)
        return;
    struct user **at = place_of(user->uid);
    *at = user->next;
    free(user);
}
