#include "processes.h"

#include "caller.h"
#include "marks.h"
#include "rings.h"
#include "sets.h"

#include <errno.h>
#include <poll.h>
#include <pthread.h>
#include <stdio.h>
#include <stdlib.h>
#include <sys/epoll.h>
#include <sys/syscall.h>
#include <unistd.h>

/* Lists by marks, and by process numbers; and the places that are looked for at a time: 60 rings have six settings each. */
enum { LISTS = 64, SOUGHT = 384 };

struct place {
    uint64_t mark;
    struct set *set;
    struct ring *ring; /* NULL for the first one of each user */
    int setting;
    unsigned kept; /* processes of it */
    struct place *next;
};

struct process {
    pid_t id;
    int pidfd;
    struct place *place;
    uint64_t old; /* the mark that it has, since it could not be given that of its place; or 0 */
    struct process *next;
};

static struct place *places[LISTS];
static struct process *processes[LISTS];
static int ends = -1; /* an epoll of all pidfds */

static void tells(pid_t process)
{
    fprintf(stderr, "reqkey-trap: " PROCESSES_LIMITED "\n", process);
}

void (*processes_limited)(pid_t process) = tells;

/* ---- places; of a thread that has the rings */

static struct place *place_of_mark(const struct set *set, uint64_t mark)
{
    struct place *place = places[mark % LISTS];
    while (place != NULL && (place->mark != mark || (set != NULL && place->set != set)))
        place = place->next;
    return place;
}

static struct place *place_like(const struct set *set, const struct ring *ring, int setting)
{
    for (size_t i = 0; i < LISTS; i++)
        for (struct place *place = places[i]; place != NULL; place = place->next)
            if (place->set == set && place->ring == ring && place->setting == setting)
                return place;
    return NULL;
}

/* The place in this ring with this setting; NULL if out of memory. */
static struct place *place_in(struct set *set, struct ring *ring, int setting)
{
    struct place *place = place_like(set, ring, setting);
    if (place != NULL || (place = calloc(1, sizeof *place)) == NULL)
        return place;
    *place = (struct place){.mark = mark_drawn(), .set = set, .ring = ring, .setting = setting};
    place->next = places[place->mark % LISTS];
    places[place->mark % LISTS] = place;
    set->places++;
    if (ring != NULL)
        ring_enter(ring);
    return place;
}

static void place_end(struct place *place)
{
    struct place **at = &places[place->mark % LISTS];
    while (*at != place)
        at = &(*at)->next;
    *at = place->next;
    place->set->places--;
    if (place->ring != NULL)
        ring_leave(place->ring);
    free(place);
}

/* ---- processes that are kept; of a thread that has the rings */

static bool has_ended(int pidfd)
{
    struct pollfd end = {pidfd, POLLIN, 0};
    return poll(&end, 1, 0) > 0;
}

/* Where the process of this number stands, if it is kept, and lives. */
static struct process **kept(pid_t id)
{
    struct process **at = &processes[(unsigned)id % LISTS];
    while (*at != NULL && ((*at)->id != id || has_ended((*at)->pidfd)))
        at = &(*at)->next;
    return at;
}

static void forget(struct process **at)
{
    struct process *process = *at;
    *at = process->next;
    process->place->kept--;
    close(process->pidfd);
    free(process);
}

static void forget_ended(void)
{
    for (size_t i = 0; i < LISTS; i++)
        for (struct process **at = &processes[i]; *at != NULL;)
            if (has_ended((*at)->pidfd))
                forget(at);
            else
                at = &(*at)->next;
}

void processes_forget(const struct set *set)
{
    struct place *next;
    for (size_t i = 0; i < LISTS; i++)
        for (struct process **at = &processes[i]; *at != NULL;)
            if ((*at)->place->set == set)
                forget(at);
            else
                at = &(*at)->next;
    for (size_t i = 0; i < LISTS; i++)
        for (struct place *place = places[i]; place != NULL; place = next) {
            next = place->next;
            if (place->set == set)
                place_end(place);
        }
}

/* Ends each place as soon as its last process does. */
static void *watch(void *nothing)
{
    struct epoll_event event;
    for (;;)
        if (epoll_wait(ends, &event, 1, -1) > 0)
            processes_reap();
    return nothing;
}

static bool is_watched(int pidfd)
{
    pthread_t thread;
    struct epoll_event event = {.events = EPOLLIN, .data.fd = pidfd};
    if (ends < 0) {
        ends = epoll_create1(EPOLL_CLOEXEC);
        if (ends < 0)
            return false;
        if (pthread_create(&thread, NULL, watch, NULL) != 0) {
            close(ends);
            ends = -1; /* so that the next one tries again */
            return false;
        }
        pthread_detach(thread);
    }
    return epoll_ctl(ends, EPOLL_CTL_ADD, pidfd, &event) == 0;
}

/* Keeps the process of this pidfd, in the place of what was kept of it; false if there is no memory for it. The pidfd is closed with it. */
static bool keep(pid_t id, int pidfd, struct place *place)
{
    struct process **at = kept(id), *process = calloc(1, sizeof *process);
    if (process == NULL || !is_watched(pidfd)) {
        free(process);
        close(pidfd);
        return false;
    }
    place->kept++;
    if (*at != NULL)
        forget(at);
    *process = (struct process){id, pidfd, place, 0, processes[(unsigned)id % LISTS]};
    processes[(unsigned)id % LISTS] = process;
    return true;
}

/* Whether some process has this mark, and is elsewhere: then those that it has started have it, too. */
static bool is_old(uint64_t mark)
{
    for (size_t i = 0; i < LISTS; i++)
        for (const struct process *process = processes[i]; process != NULL; process = process->next)
            if (process->old == mark)
                return true;
    return false;
}

/* ---- the ends of places */

static pthread_mutex_t reaping = PTHREAD_MUTEX_INITIALIZER;

/* Whether a process is where its mark says. */
static bool is_there(pid_t id, uint64_t mark)
{
    rings_lock();
    const struct process *process = *kept(id);
    bool there = process == NULL || process->place->mark == mark;
    rings_unlock();
    return there;
}

/* The marks of places in which no process is kept. */
static size_t sought_marks(uint64_t *marks)
{
    size_t count = 0;
    for (size_t i = 0; i < LISTS; i++)
        for (const struct place *place = places[i]; place != NULL && count < SOUGHT; place = place->next)
            if (place->ring != NULL && place->kept == 0)
                marks[count++] = place->mark;
    return count;
}

void processes_reap(void)
{
    uint64_t marks[SOUGHT];
    struct found found[SOUGHT];
    pthread_mutex_lock(&reaping);
    rings_lock();
    forget_ended();
    size_t count = sought_marks(marks);
    rings_unlock();
    if (count > 0)
        marks_find(marks, count, is_there, found);
    rings_lock();
    for (size_t i = 0; i < count; i++) {
        struct place *place = place_of_mark(NULL, marks[i]);
        bool wanted = place != NULL && place->kept == 0;
        if (wanted && !found[i].any)
            place_end(place);
        else if (wanted && found[i].pidfd >= 0)
            keep(found[i].id, found[i].pidfd, place);
        else if (found[i].pidfd >= 0)
            close(found[i].pidfd);
    }
    rings_unlock();
    pthread_mutex_unlock(&reaping);
}

/* ---- the caller's place */

/*
 * The mark of a process' place, by what is kept of it, since it may not have been marked, or else by its own; 0 if neither is known. One that may be that of
 * an ancestor who is elsewhere counts if `old` does.
 */
static uint64_t known_mark(pid_t id, uint64_t limit, bool old)
{
    rings_lock();
    const struct process *process = *kept(id);
    bool is_kept = process != NULL && process->place->set == caller.set;
    const struct place *place = is_kept ? process->place : old || !is_old(limit) ? place_of_mark(caller.set, limit) : NULL;
    uint64_t mark = place == NULL ? 0 : place->mark;
    rings_unlock();
    return mark;
}

/* That of its nearest ancestor that has one; false if out of memory. A parent's number counts if it still is the parent's after that was looked at. */
static bool ancestors_mark(uint64_t *found)
{
    pid_t id = caller.process, parent = caller.parent;
    while (parent > 1 && parent != getpid()) {
        uint64_t limit = mark_of(parent), mark = known_mark(parent, limit, false);
        pid_t again = parent_of(id);
        if (again == parent && mark != 0) {
            *found = mark;
            return true;
        }
        if (again == parent) {
            id = parent;
            again = parent_of(id);
        }
        parent = again;
    }
    return parent >= 0;
}

/* That of the place in the first ring, where processes are of which nothing is known; 0 if out of memory. */
static uint64_t first_mark(void)
{
    rings_lock();
    struct place *place = place_in(caller.set, NULL, 0);
    uint64_t mark = place == NULL ? 0 : place->mark;
    rings_unlock();
    return mark;
}

static void tell_of_limit(void)
{
    rings_lock();
    bool told = caller.set->limited;
    caller.set->limited = true;
    rings_unlock();
    if (!told)
        processes_limited(caller.process);
}

/* The mark of the caller's place, and the caller is marked by it if it may be; 0 if out of memory. */
static uint64_t caller_mark(void)
{
    uint64_t limit = mark_of(caller.process), mark = known_mark(caller.process, limit, false);
    if (mark != 0 && mark == limit)
        return mark;
    if (mark == 0 && !ancestors_mark(&mark))
        return 0;
    if (mark == 0)
        mark = known_mark(caller.process, limit, true);
    if (mark == 0)
        mark = first_mark();
    if (mark != 0 && caller_lives() && !mark_set(caller.process, limit, mark))
        tell_of_limit();
    return mark;
}

/* Whether any process of the caller's set was ever put elsewhere. */
static bool has_places(void)
{
    return __atomic_load_n(&caller.set->places, __ATOMIC_RELAXED) > 0;
}

/* The caller's place, if it is known, of a thread that has the rings from now on. False if out of memory. */
static bool with_place(struct place **place)
{
    *place = NULL;
    bool any = has_places();
    uint64_t mark = any ? caller_mark() : 0;
    rings_lock();
    *place = mark == 0 ? NULL : place_of_mark(caller.set, mark);
    return !any || mark != 0;
}

bool process_find(struct ring **ring, int *setting)
{
    struct place *place;
    bool done = with_place(&place), joined = place != NULL && place->ring != NULL && ring_is_of(place->ring, caller.uid);
    *setting = place == NULL ? 0 : place->setting;
    *ring = joined ? place->ring : NULL;
    errno = ENOMEM;
    if (joined)
        done = ring_hold(*ring);
    rings_unlock();
    return done;
}

struct ring *process_ring(void)
{
    struct place *place;
    struct ring *ring = NULL;
    if (with_place(&place) && place != NULL && place->ring != NULL && ring_hold(place->ring))
        ring = place->ring;
    rings_unlock();
    return ring;
}

/* ---- a change of it */

/* Whether the caller, whom it would be by this pidfd, is still there. */
static int pidfd_of_caller(void)
{
    int pidfd = (int)syscall(SYS_pidfd_open, caller.process, 0);
    if (pidfd < 0 || caller_lives())
        return pidfd;
    close(pidfd);
    return -1;
}

/* Keeps the caller in a place; the mark of that, 0 if it can't be. */
static uint64_t kept_in(struct ring *ring, int setting)
{
    int pidfd = pidfd_of_caller();
    if (pidfd < 0)
        return 0;
    rings_lock();
    bool is_new = place_like(caller.set, ring, setting) == NULL;
    struct place *place = place_in(caller.set, ring, setting);
    if (place == NULL)
        close(pidfd);
    bool done = place != NULL && keep(caller.process, pidfd, place);
    uint64_t mark = done ? place->mark : 0;
    if (place != NULL && !done && is_new)
        place_end(place);
    rings_unlock();
    return mark;
}

/* The caller is marked, so it need not be kept, unless it is the only one. */
static void need_not_be_kept(void)
{
    rings_lock();
    struct process **at = kept(caller.process);
    if (*at != NULL && ((*at)->place->ring == NULL || (*at)->place->kept > 1))
        forget(at);
    rings_unlock();
}

/* The mark of the caller's place before it moves: its own from now on, and that of what it has started before. 0 if out of memory. */
static uint64_t settled_mark(void)
{
    uint64_t mark = has_places() ? caller_mark() : first_mark(), limit = mark_of(caller.process);
    if (mark != 0 && mark != limit && caller_lives())
        mark_set(caller.process, limit, mark);
    return mark != 0 && marks_settle(caller.process, mark) ? mark : 0;
}

/* The caller can't be marked, and has this limit: so it is kept, and those that it starts go by their ancestors. */
static void has_old_mark(uint64_t limit)
{
    rings_lock();
    struct process *process = *kept(caller.process);
    if (process != NULL)
        process->old = limit;
    rings_unlock();
    tell_of_limit();
}

/* The caller is in the place of this mark from now on. */
static void is_marked(uint64_t mark)
{
    uint64_t limit = mark_of(caller.process);
    if (caller_lives() && mark_set(caller.process, limit, mark))
        need_not_be_kept();
    else if (caller_lives())
        has_old_mark(limit);
}

/* Puts the caller's process into another place: the ring of before for NULL, or the setting of before for -1. */
static bool moves(struct ring *ring, int setting)
{
    if (!caller_lives())
        return false;
    uint64_t before = settled_mark(), mark = 0;
    rings_lock();
    struct place *place = before == 0 ? NULL : place_of_mark(caller.set, before);
    if (place != NULL) {
        ring = ring == NULL ? place->ring : ring;
        setting = setting < 0 ? place->setting : setting;
    }
    if (ring != NULL)
        ring_enter(ring);
    rings_unlock();
    if (place != NULL && (mark = kept_in(ring, setting)) != 0)
        is_marked(mark);
    if (ring != NULL)
        ring_let_go(ring);
    processes_reap();
    return mark != 0 && caller_lives();
}

bool process_join(struct ring *ring)
{
    return moves(ring, -1);
}

bool process_set(int setting)
{
    return moves(NULL, setting);
}
