#include "admits.h"

#include <errno.h>
#include <grp.h>
#include <stdint.h>
#include <stdio.h>
#include <stdlib.h>
#include <string.h>
#include <sys/stat.h>

enum { MOST = 256, LINE = 1024 };

#define SUBORDINATE "/etc/subuid"

struct range {
    uint64_t first, last;
};

static struct {
    size_t count;
    struct {
        bool is_group;
        struct range uids;
        gid_t gid;
    } all[MOST];
} admitted;

/* A number of 32 bits, up to this byte; NULL if there is none. */
static const char *number(const char *at, uint64_t *value)
{
    char *end;
    errno = 0;
    *value = strtoull(at, &end, 10);
    return *at < '0' || *at > '9' || errno != 0 || *value > UINT32_MAX ? NULL : end;
}

/* A uid, or two with a dash between them; whether it is that. */
static bool uids(const char *text, struct range *range)
{
    const char *end = number(text, &range->first);
    range->last = range->first;
    if (end != NULL && *end == '-')
        end = number(end + 1, &range->last);
    return end != NULL && *end == 0 && range->first <= range->last;
}

bool admit(const char *who)
{
    if (admitted.count == MOST)
        return false;
    bool numbers = uids(who, &admitted.all[admitted.count].uids);
    struct group *group = numbers ? NULL : getgrnam(who);
    if (!numbers && group == NULL)
        return false;
    admitted.all[admitted.count].is_group = !numbers;
    if (!numbers)
        admitted.all[admitted.count].gid = group->gr_gid;
    admitted.count++;
    return true;
}

static bool has(const struct range *range, uid_t uid)
{
    return range->first <= uid && uid <= range->last;
}

/* ---- uids that are nobody's own */

static struct {
    struct timespec changed;
    ino_t inode;
    struct range *all;
    size_t count, room;
} subordinate;

/* One more of the file; false if out of memory. */
static bool keep(struct range range)
{
    if (subordinate.count == subordinate.room) {
        size_t room = 2 * subordinate.room + 16;
        struct range *wider = realloc(subordinate.all, room * sizeof *wider);
        if (wider == NULL)
            return false;
        subordinate.all = wider;
        subordinate.room = room;
    }
    subordinate.all[subordinate.count++] = range;
    return true;
}

/* `name:first:count`; another line has none. */
static bool line_has(const char *line, struct range *range)
{
    uint64_t count;
    const char *at = strchr(line, ':');
    at = at == NULL ? NULL : number(at + 1, &range->first);
    at = at == NULL || *at != ':' ? NULL : number(at + 1, &count);
    if (at == NULL || count == 0)
        return false;
    range->last = range->first + count - 1;
    return true;
}

/* Reads the file again if it is another one. False if it is there and can't be read: then nobody knows whose a uid is. */
static bool is_read(void)
{
    struct stat file;
    if (stat(SUBORDINATE, &file) < 0) {
        subordinate.count = 0;
        subordinate.inode = 0;
        return errno == ENOENT;
    }
    if (file.st_ino == subordinate.inode && memcmp(&file.st_mtim, &subordinate.changed, sizeof file.st_mtim) == 0)
        return true;
    FILE *lines = fopen(SUBORDINATE, "re");
    if (lines == NULL)
        return false;
    char line[LINE];
    struct range range;
    bool whole = true;
    subordinate.count = 0;
    while (whole && fgets(line, sizeof line, lines) != NULL)
        whole = !line_has(line, &range) || keep(range);
    whole = whole && ferror(lines) == 0;
    fclose(lines);
    subordinate.inode = whole ? file.st_ino : 0;
    subordinate.changed = file.st_mtim;
    return whole;
}

static bool is_subordinate(uid_t uid)
{
    if (!is_read())
        return true;
    for (size_t i = 0; i < subordinate.count; i++)
        if (has(&subordinate.all[i], uid))
            return true;
    return false;
}

/* Whether each uid has a number of its own here, as outside of all user namespaces. */
static bool sees_all(void)
{
    unsigned long inside, outside, count;
    FILE *map = fopen("/proc/self/uid_map", "re");
    bool all = map == NULL || (fscanf(map, "%lu %lu %lu", &inside, &outside, &count) == 3 && inside == 0 && count >= UINT32_MAX);
    if (map != NULL)
        fclose(map);
    return all;
}

/* Whether this uid may stand for any that has no number here. */
static bool is_anybody(uid_t uid)
{
    static bool known, all;
    static unsigned long overflow = 65534;
    if (!known) {
        FILE *file = fopen("/proc/sys/kernel/overflowuid", "re");
        if (file != NULL && fscanf(file, "%lu", &overflow) != 1)
            overflow = 65534;
        if (file != NULL)
            fclose(file);
        all = sees_all();
        known = true;
    }
    return !all && uid == overflow;
}

bool is_admitted(int connection, const struct peer *peer)
{
    if (is_anybody(peer->uid))
        return false;
    if (admitted.count == 0)
        return !is_subordinate(peer->uid);
    for (size_t i = 0; i < admitted.count; i++)
        if (admitted.all[i].is_group ? peer_has_group(connection, peer, admitted.all[i].gid) : has(&admitted.all[i].uids, peer->uid))
            return true;
    return false;
}
