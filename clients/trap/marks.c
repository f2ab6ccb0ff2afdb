#include "marks.h"

#include <dirent.h>
#include <errno.h>
#include <inttypes.h>
#include <poll.h>
#include <stdio.h>
#include <stdlib.h>
#include <string.h>
#include <sys/random.h>
#include <sys/resource.h>
#include <sys/syscall.h>
#include <unistd.h>

/* All marks have this bit, and not the highest one: so they are above 100,000 years, and below what has no end. */
static const uint64_t MARK = (uint64_t)1 << 62;

static bool is_mark(uint64_t limit)
{
    return limit >> 62 == 1;
}

uint64_t mark_drawn(void)
{
    uint64_t drawn = 0;
    while (getrandom(&drawn, sizeof drawn, 0) != sizeof drawn)
        ;
    return MARK | (drawn & (MARK - 1));
}

/* By /proc anybody's limits may be seen. */
static uint64_t limit_of_another_user(pid_t id)
{
    static const char NAME[] = "Max realtime timeout";
    char path[64], line[256];
    uint64_t limit = 0;
    snprintf(path, sizeof path, "/proc/%d/limits", id);
    FILE *file = fopen(path, "re");
    while (file != NULL && fgets(line, sizeof line, file) != NULL)
        if (strncmp(line, NAME, sizeof NAME - 1) == 0 && sscanf(line + sizeof NAME - 1, "%" SCNu64, &limit) != 1)
            limit = RLIM_INFINITY; /* "unlimited" */
    if (file != NULL)
        fclose(file);
    return limit;
}

uint64_t mark_of(pid_t id)
{
    struct rlimit limit;
    if (prlimit(id, RLIMIT_RTTIME, NULL, &limit) == 0)
        return limit.rlim_cur;
    return errno == EPERM ? limit_of_another_user(id) : 0;
}

bool mark_set(pid_t id, uint64_t limit, uint64_t mark)
{
    const struct rlimit wanted = {mark, RLIM_INFINITY};
    return (limit == RLIM_INFINITY || is_mark(limit)) && prlimit(id, RLIMIT_RTTIME, &wanted, NULL) == 0;
}

/* ---- descendants */

/* Process numbers that are to be looked at; whether some could not be, for want of memory or descriptors. */
struct numbers {
    pid_t *all;
    size_t count, room;
    bool lacks;
};

static bool is_lack(int error)
{
    return error == EMFILE || error == ENFILE || error == ENOMEM;
}

static void append(struct numbers *numbers, pid_t id)
{
    if (numbers->count == numbers->room) {
        size_t room = numbers->room == 0 ? 64 : 2 * numbers->room;
        pid_t *wider = realloc(numbers->all, room * sizeof *wider);
        numbers->lacks |= wider == NULL;
        if (wider == NULL)
            return;
        numbers->all = wider;
        numbers->room = room;
    }
    numbers->all[numbers->count++] = id;
}

/* The children that one thread of a process has started. */
static void append_children(struct numbers *numbers, pid_t process, const char *thread)
{
    char path[128];
    int child;
    snprintf(path, sizeof path, "/proc/%d/task/%.20s/children", process, thread);
    FILE *file = fopen(path, "re");
    numbers->lacks |= file == NULL && is_lack(errno);
    while (file != NULL && fscanf(file, "%d", &child) == 1)
        append(numbers, child);
    if (file != NULL)
        fclose(file);
}

bool marks_settle(pid_t of, uint64_t mark)
{
    struct numbers numbers = {NULL, 0, 0, false};
    append(&numbers, of);
    for (size_t i = 0; i < numbers.count; i++) {
        char path[64];
        pid_t id = numbers.all[i];
        /* before its children are listed, so that what it starts meanwhile is marked */
        if (i > 0 && (mark_of(id) != RLIM_INFINITY || !mark_set(id, RLIM_INFINITY, mark)))
            continue;
        snprintf(path, sizeof path, "/proc/%d/task", id);
        DIR *threads = opendir(path);
        numbers.lacks |= threads == NULL && is_lack(errno);
        for (struct dirent *each; threads != NULL && (each = readdir(threads)) != NULL;)
            if (each->d_name[0] != '.')
                append_children(&numbers, id, each->d_name);
        if (threads != NULL)
            closedir(threads);
    }
    free(numbers.all);
    return !numbers.lacks;
}

/* ---- all processes */

/* The process has this mark: it is found if its pidfd was opened before it was seen to have it, and it lives after that. */
static void finds(pid_t id, uint64_t mark, struct found *found)
{
    int pidfd = (int)syscall(SYS_pidfd_open, id, 0);
    struct pollfd end = {pidfd, POLLIN, 0};
    bool lives = pidfd >= 0 && mark_of(id) == mark && poll(&end, 1, 0) == 0;
    if (lives || (pidfd < 0 && errno != ESRCH))
        *found = (struct found){true, id, pidfd};
    else if (pidfd >= 0)
        close(pidfd);
}

void marks_find(const uint64_t *marks, size_t count, bool (*counts)(pid_t id, uint64_t mark), struct found *found)
{
    for (size_t i = 0; i < count; i++)
        found[i] = (struct found){false, 0, -1};
    DIR *all = opendir("/proc");
    for (struct dirent *each; all != NULL && (each = readdir(all)) != NULL;) {
        pid_t id = atoi(each->d_name);
        uint64_t mark = id > 0 ? mark_of(id) : 0;
        for (size_t i = 0; i < count && is_mark(mark); i++)
            if (marks[i] == mark && !found[i].any && counts(id, mark))
                finds(id, mark, &found[i]);
    }
    if (all != NULL)
        closedir(all);
    for (size_t i = 0; i < count && all == NULL; i++)
        found[i].any = true; /* for all that is known */
}
