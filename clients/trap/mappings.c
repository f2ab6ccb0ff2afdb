#include "mappings.h"

#include "caller.h"

#include <errno.h>
#include <fcntl.h>
#include <stdio.h>
#include <string.h>
#include <sys/ioctl.h>
#include <unistd.h>

#ifndef ASKS_MAPS /* a test builds it without */
#define ASKS_MAPS 1
#endif

/* Linux 6.11's <linux/fs.h>. */
struct query {
    uint64_t size, flags, address, start, end, are, page, offset, inode;
    uint32_t major, minor, name_room, build_room;
    uint64_t name, build;
};

#define ASK_QUERY _IOWR('f', 17, struct query)

enum { WRITABLE = 2 };

/* A mapping: from here to there, and whether the program may write it. */
struct mapping {
    uint64_t start, end;
    bool writable;
};

enum found { FOUND, ABSENT, NOT_SEEN };

static enum found asked(int maps, uint64_t at, struct mapping *mapping)
{
    struct query query = {.size = sizeof query, .address = at};
    if (!ASKS_MAPS)
        return NOT_SEEN;
    if (ioctl(maps, ASK_QUERY, &query) < 0)
        return errno == ENOENT ? ABSENT : NOT_SEEN;
    *mapping = (struct mapping){query.start, query.end, (query.are & WRITABLE) != 0};
    return FOUND;
}

/* The rest of a line, whose name may be of any length. */
static void skip_line(FILE *maps, const char *line)
{
    for (int next = strchr(line, '\n') != NULL ? '\n' : 0; next != '\n' && next != EOF;)
        next = getc(maps);
}

/* The mapping of this address, which is behind those that were read before. */
static enum found read_on(FILE *maps, uint64_t at, struct mapping *mapping)
{
    char line[128], how[5];
    unsigned long start, end;
    while (fgets(line, sizeof line, maps) != NULL) {
        skip_line(maps, line);
        if (sscanf(line, "%lx-%lx %4s", &start, &end, how) == 3 && end > at) {
            if (start > at)
                return ABSENT;
            *mapping = (struct mapping){start, end, how[1] == 'w'};
            return FOUND;
        }
    }
    return ABSENT;
}

/* The same as mappings_may_be_written, by this file, which is closed. */
static bool read_may_be_written(int maps, uint64_t at, uint64_t end)
{
    struct mapping mapping = {0, 0, true};
    FILE *file = fdopen(maps, "r");
    if (file == NULL) {
        close(maps);
        return true;
    }
    while (at < end && mapping.writable && read_on(file, at, &mapping) == FOUND)
        at = mapping.end;
    fclose(file);
    return mapping.writable;
}

bool mappings_may_be_written(uint64_t at, size_t length)
{
    char path[64];
    uint64_t end = at + length;
    enum found found = FOUND;
    struct mapping mapping = {0, 0, true};
    snprintf(path, sizeof path, "/proc/%d/maps", caller.thread);
    int maps = open(path, O_RDONLY | O_CLOEXEC);
    if (maps < 0)
        return true;
    for (; at < end && mapping.writable && found == FOUND; at = mapping.end)
        if ((found = asked(maps, at, &mapping)) == NOT_SEEN)
            return read_may_be_written(maps, at, end);
    close(maps);
    return mapping.writable;
}
