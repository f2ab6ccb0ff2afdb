#include "shown.h"

#include "../keyutils/session.h"
#include "caller.h"
#include "handler.h"
#include "rings.h"
#include "sets.h"

#include <stdbool.h>
#include <stdio.h>
#include <sys/stat.h>

enum { OVERFLOW_UID = 65534 };

/* Whether the caller is in the user namespace of this process. */
static bool is_within_mine(void)
{
    char path[64];
    struct stat mine, theirs;
    snprintf(path, sizeof path, "/proc/%d/ns/user", caller.thread);
    return stat("/proc/self/ns/user", &mine) < 0 || stat(path, &theirs) < 0 || (mine.st_ino == theirs.st_ino && mine.st_dev == theirs.st_dev);
}

/* The lines of a map have the first uid there, the first one here, and how many. */
static uint32_t mapped(FILE *map, uint32_t uid)
{
    unsigned there, here, count;
    while (fscanf(map, "%u %u %u", &there, &here, &count) == 3)
        if (uid >= here && uid - here < count)
            return there + (uid - here);
    return OVERFLOW_UID;
}

uint32_t uid_within(uint32_t uid)
{
    char path[64];
    if (is_within_mine())
        return uid;
    snprintf(path, sizeof path, "/proc/%d/uid_map", caller.thread);
    FILE *map = fopen(path, "re");
    if (map == NULL)
        return uid;
    uint32_t within = mapped(map, uid);
    fclose(map);
    return caller_lives() ? within : uid;
}

/* The uid in the set of the caller. */
static uint32_t uid_of(uint32_t user)
{
    rings_lock();
    uint32_t uid = set_uid(caller.set, user);
    rings_unlock();
    return uid;
}

uint32_t session_uid(void)
{
    return uid_within(caller.uid);
}

uint32_t session_shown(uint32_t user)
{
    return uid_within(uid_of(user));
}

bool session_is_own(uint32_t user)
{
    return is_handler() || uid_of(user) == caller.uid;
}
