#include "sets.h"

#include "processes.h"
#include "rings.h"

#include <errno.h>
#include <stdlib.h>
#include <string.h>

enum { FRESH = 512, NUMBERS = 2048, HALLS = 4, UIDS_OF_HALL = 256 };
static const uint32_t FIRST = 3000000000;

static struct set *sets;
static uint32_t drawn;                          /* numbers so far */
static struct user *clean;                      /* whose user rings never had a key */
static struct user *oldest, **newest = &oldest; /* whose user rings have been cleared */

/* For whom programs have acted, by the daemon's halls. */
static struct {
    uint32_t uids[UIDS_OF_HALL];
    unsigned count;
} acted[HALLS];

/* ---- sets */

static struct set *found(const char *container)
{
    struct set *set = sets;
    while (set != NULL && (container == NULL || set->container == NULL || strcmp(set->container, container) != 0))
        set = set->next;
    return set;
}

static struct set *made(const char *container)
{
    struct set *set = calloc(1, sizeof *set);
    if (set == NULL)
        return NULL;
    set->container = container == NULL ? NULL : strdup(container);
    if (container != NULL && set->container == NULL) {
        free(set);
        return NULL;
    }
    pthread_mutex_init(&set->making, NULL);
    set->next = sets;
    sets = set;
    return set;
}

struct set *set_begin(const char *container)
{
    rings_lock();
    struct set *set = found(container);
    if (set == NULL)
        set = made(container);
    if (set != NULL)
        set->listeners++;
    rings_unlock();
    return set;
}

static void queue(struct user *user)
{
    user->next = NULL;
    *newest = user;
    newest = &user->next;
}

/* Gives the numbers of a set back, after its user rings have been cleared, or else to be cleared when they are used again. */
static void give_back(struct user *users)
{
    while (users != NULL) {
        struct user *user = users;
        users = user->next;
        user->unclear = !ring_clears(user->number);
        user->filled = false;
        rings_lock();
        queue(user);
        rings_unlock();
    }
}

bool set_is_container(const struct set *set)
{
    return set->container != NULL;
}

void set_end(struct set *set)
{
    rings_lock();
    bool over = --set->listeners == 0;
    if (over) {
        struct set **at = &sets;
        while (*at != set)
            at = &(*at)->next;
        *at = set->next;
        processes_forget(set);
        rings_forget(set);
    }
    rings_unlock();
    if (!over)
        return;
    for (size_t i = 0; i < SET_USERS; i++)
        give_back(set->users[i]);
    pthread_mutex_destroy(&set->making);
    free(set->container);
    free(set);
}

/* ---- users */

/* Where this uid stands among those for whom programs have acted, or the end of these. */
static unsigned acted_at(uint32_t uid)
{
    unsigned at = 0;
    while (at < acted[uid % HALLS].count && acted[uid % HALLS].uids[at] != uid)
        at++;
    return at;
}

void set_has_acted(const struct set *set, const struct user *user)
{
    unsigned at = acted_at(user->uid), hall = user->uid % HALLS;
    if (set_is_container(set) || at == UIDS_OF_HALL)
        return;
    acted[hall].uids[at] = user->uid;
    if (at == acted[hall].count)
        acted[hall].count++;
}

/* A number that no set has; NULL and errno. */
static struct user *drawn_user(void)
{
    struct user *user = clean;
    if (user != NULL) {
        clean = user->next;
        return user;
    }
    bool anew = drawn < FRESH || (oldest == NULL && drawn < NUMBERS);
    if (anew && (user = calloc(1, sizeof *user)) != NULL)
        user->number = FIRST + drawn++;
    if (anew || oldest == NULL) {
        errno = anew ? ENOMEM : EDQUOT;
        return user;
    }
    user = oldest;
    oldest = user->next;
    if (oldest == NULL)
        newest = &oldest;
    return user;
}

/* A user of a set of programs, who is no other. */
static struct user *itself(uint32_t uid)
{
    if (acted_at(uid) == UIDS_OF_HALL) {
        errno = EDQUOT;
        return NULL;
    }
    struct user *user = calloc(1, sizeof *user);
    if (user == NULL)
        errno = ENOMEM;
    else
        user->number = uid;
    return user;
}

struct user *set_enters(struct set *set, uint32_t uid)
{
    struct user **at = &set->users[uid % SET_USERS], *user = *at;
    while (user != NULL && user->uid != uid)
        user = user->next;
    if (user == NULL) {
        errno = EDQUOT;
        user = set->count >= SET_USERS ? NULL : set_is_container(set) ? drawn_user() : itself(uid);
        if (user == NULL)
            return NULL;
        user->uid = uid;
        user->next = *at;
        *at = user;
        set->count++;
    }
    user->rings++;
    return user;
}

void set_leaves(struct set *set, struct user *user)
{
    struct user **at = &set->users[user->uid % SET_USERS];
    if (--user->rings > 0 || (user->filled && set_is_container(set)))
        return;
    while (*at != user)
        at = &(*at)->next;
    *at = user->next;
    set->count--;
    if (!set_is_container(set))
        free(user);
    else if (user->unclear)
        queue(user);
    else {
        user->next = clean;
        clean = user;
    }
}

/* Users stay as they are: some may have been filled at the new daemon before it was found to be another one. */
void sets_begin_anew(void)
{
    for (size_t hall = 0; hall < HALLS; hall++)
        acted[hall].count = 0;
}

uint32_t set_uid(const struct set *set, uint32_t number)
{
    for (size_t i = 0; i < SET_USERS; i++)
        for (const struct user *user = set->users[i]; user != NULL; user = user->next)
            if (user->number == number)
                return user->uid;
    return number;
}
