/*
 * The rings of trapped programs (clients/trap/: caller.c, marks.c, processes.c, rings.c, sets.c, session.c), over a machine and a daemon that are made of the
 * input. Processes fork, end, leave their numbers to others, change their users and set limits; they call side by side, in containers and without; memory,
 * descriptors and rights are refused; the daemon refuses, ends connections and is another one.
 *
 * What holds all the while: each process gets the ring that the kernel's rules give it, or EKEYREVOKED; no user ring of a container has a key of another one;
 * there are no more connections than the daemon serves; nobody waits for what never comes. In the end nothing is left.
 */
#include <dirent.h>
#include <fcntl.h>
#include <poll.h>
#include <pthread.h>
#include <signal.h>
#include <stdarg.h>
#include <stdbool.h>
#include <stdint.h>
#include <stdio.h>
#include <stdlib.h>
#include <string.h>
#include <sys/epoll.h>
#include <sys/ioctl.h>
#include <sys/random.h>
#include <sys/resource.h>
#include <sys/socket.h>
#include <sys/stat.h>
#include <sys/syscall.h>
#include <sys/un.h>
#include <time.h>
#include <unistd.h>

#include "../../clients/c/reqkey.h"
#include "stream.h"

enum { PROCESSES = 24, FILES = 256, SETS = 3, CALLS_AT_A_TIME = 4, SESSIONS = 512, KEPT_USERS = 4096, OF_SUPERVISOR = 2, UNKNOWN = -1 };

#define holds(promise) ((promise) ? (void)0 : is_broken(__LINE__))

static void is_broken(int line)
{
    fprintf(stderr, "line %d of rings.c\n", line);
    abort();
}

/* ---- the machine */

static struct fake {
    bool alive;
    pid_t id, parent;
    uint32_t uid, gid;
    uint64_t limit;
    unsigned life; /* which process of this number it is */
    unsigned set;
    uint32_t session, session_uid;   /* the ring that it has joined, 0 for none, and whose it is */
    unsigned generation; /* of the daemon, then */
    int setting;
    bool limited, lost, foreign; /* it has set its limit; nobody knows it, since it was not marked; it is another user's */
} fakes[PROCESSES];

static unsigned lives;
static time_t moment;
static bool no_memory, no_descriptors;

static struct fake *fake_of(pid_t id)
{
    for (size_t i = 0; i < PROCESSES; i++)
        if (fakes[i].alive && fakes[i].id == id)
            return &fakes[i];
    return NULL;
}

static void *fuzz_calloc(size_t count, size_t size)
{
    return no_memory && next_turn() % 8 == 0 ? NULL : calloc(count, size);
}

static char *fuzz_strdup(const char *text)
{
    return no_memory && next_turn() % 8 == 0 ? NULL : strdup(text);
}

static time_t fuzz_time(void)
{
    return moment;
}

static int fuzz_clock(clockid_t clock, struct timespec *now)
{
    (void)clock;
    *now = (struct timespec){fuzz_time(), 0};
    return 0;
}

static int fuzz_prlimit(pid_t id, int resource, const struct rlimit *new, struct rlimit *old)
{
    struct fake *fake = fake_of(id);
    holds(resource == RLIMIT_RTTIME);
    if (fake == NULL || fake->foreign) {
        errno = fake == NULL ? ESRCH : EPERM;
        return -1;
    }
    if (old != NULL)
        *old = (struct rlimit){fake->limit, RLIM_INFINITY};
    if (new != NULL) {
        holds(new->rlim_cur >> 62 == 1 && new->rlim_max == RLIM_INFINITY);
        fake->limit = new->rlim_cur;
    }
    return 0;
}

static int fuzz_kill(pid_t id, int number)
{
    holds(number == 0);
    errno = ESRCH;
    return fake_of(id) != NULL ? 0 : -1;
}

static ssize_t fuzz_random(void *to, size_t size, unsigned flags)
{
    (void)flags;
    for (size_t i = 0; i < size; i++)
        ((unsigned char *)to)[i] = (unsigned char)next_turn();
    return (ssize_t)size;
}

/* ---- descriptors: texts, pidfds, connections */

static struct file {
    enum { NONE, TEXT, PIDFD, SOCKET, EPOLL } kind;
    char text[512];
    size_t at, length;
    pid_t id;
    unsigned life;
    bool ended; /* of a connection, whose rings these are */
    uint32_t uid, ring;
} files[FILES];

static unsigned sockets;

static int new_file(int kind)
{
    if (no_descriptors && next_turn() % 8 == 0) {
        errno = EMFILE;
        return -1;
    }
    for (int i = 3; i < FILES; i++)
        if (files[i].kind == NONE) {
            files[i] = (struct file){.kind = kind};
            return i;
        }
    abort();
}

static int new_text(const char *format, ...)
{
    va_list words;
    int file = new_file(TEXT);
    if (file < 0)
        return -1;
    va_start(words, format);
    files[file].length = (size_t)vsnprintf(files[file].text, sizeof files[file].text, format, words);
    va_end(words);
    return file;
}

static int fuzz_open(const char *path, int flags)
{
    pid_t id = atoi(path + 6);
    struct fake *fake = fake_of(id);
    (void)flags;
    if (fake == NULL) {
        errno = ENOENT;
        return -1;
    }
    return strstr(path, "/stat") != NULL && strstr(path, "/status") == NULL
               ? new_text("%d (a) b) R %d 1 1", id, fake->parent)
               : new_text("Name:\ta\nTgid:\t%d\nPPid:\t%d\nUid:\t%u\t1\t2\t3\nGid:\t4\t5\t6\t%u\n", id, fake->parent, fake->uid, fake->gid);
}

static FILE *fuzz_fopen(const char *path, const char *how)
{
    char text[512] = " ";
    struct fake *fake = fake_of(atoi(path + 6));
    errno = ENOENT;
    if (fake == NULL)
        return NULL;
    if (strstr(path, "/limits") != NULL)
        snprintf(text, sizeof text, "Limit\nMax realtime timeout    %s%llu 1 us\n", fake->limit == RLIM_INFINITY ? "un" : "", (unsigned long long)fake->limit);
    else
        for (size_t i = 0; i < PROCESSES; i++)
            if (fakes[i].alive && fakes[i].parent == fake->id)
                snprintf(text + strlen(text), sizeof text - strlen(text), "%d ", fakes[i].id);
    if (no_descriptors && next_turn() % 8 == 0) {
        errno = EMFILE;
        return NULL;
    }
    FILE *file = fmemopen(NULL, sizeof text, "w+");
    holds(file != NULL && how[0] == 'r');
    fputs(text, file);
    rewind(file);
    return file;
}

/* A folder: all processes, or the one thread of a process. */
struct folder {
    size_t at;
    bool threads;
    struct dirent entry;
};

static struct folder *fuzz_opendir(const char *path)
{
    if (no_descriptors && next_turn() % 8 == 0) {
        errno = EMFILE;
        return NULL;
    }
    struct folder *folder = calloc(1, sizeof *folder);
    holds(folder != NULL);
    folder->threads = strstr(path, "/task") != NULL;
    return folder;
}

static struct dirent *fuzz_readdir(struct folder *folder)
{
    while (!folder->threads && folder->at < PROCESSES && !fakes[folder->at].alive)
        folder->at++;
    if (folder->at >= (folder->threads ? 1 : PROCESSES))
        return NULL;
    snprintf(folder->entry.d_name, sizeof folder->entry.d_name, "%d", folder->threads ? 1 : fakes[folder->at].id);
    folder->at++;
    return &folder->entry;
}

static long fuzz_syscall(long number, pid_t id, unsigned flags)
{
    struct fake *fake = fake_of(id);
    (void)flags;
    holds(number == SYS_pidfd_open);
    if (fake == NULL) {
        errno = ESRCH;
        return -1;
    }
    int file = new_file(PIDFD);
    if (file >= 0) {
        files[file].id = id;
        files[file].life = fake->life;
    }
    return file;
}

static bool pidfd_lives(int file)
{
    struct fake *fake = fake_of(files[file].id);
    holds(files[file].kind == PIDFD);
    return fake != NULL && fake->life == files[file].life;
}

static int fuzz_poll(struct pollfd *all, nfds_t count, int wait)
{
    holds(count == 1 && wait == 0);
    return files[all->fd].kind == SOCKET ? files[all->fd].ended : !pidfd_lives(all->fd);
}

static int fuzz_epoll(int file, int how, int other, struct epoll_event *event)
{
    (void)how, (void)event;
    holds(files[file].kind == EPOLL && files[other].kind == PIDFD);
    errno = ENOMEM;
    return no_memory && next_turn() % 8 == 0 ? -1 : 0;
}

static int fuzz_thread(pthread_t *thread, const pthread_attr_t *how, void *(*does)(void *), void *of)
{
    (void)thread, (void)how, (void)does, (void)of;
    return no_memory && next_turn() % 4 == 0 ? EAGAIN : 0;
}

/* ---- the daemon */

static struct {
    uint32_t uid;
    unsigned joined; /* connections */
} sessions[SESSIONS];

static uint32_t next_session;
static unsigned generation; /* of the daemon */

/* Whose keys are in a container's user ring: the number of the set and which it is; 0 for nobody's. */
static unsigned kept_users[KEPT_USERS];
static unsigned set_lives[SETS];
static unsigned asking; /* the set whose call is made */

static uint32_t number_at(const unsigned char *at);

static void replies(struct file *file, const void *body, size_t length)
{
    const unsigned char head[4] = {0, 0, (unsigned char)(length >> 8), (unsigned char)length};
    memcpy(file->text, head, 4);
    memcpy(file->text + 4, body, length);
    file->at = 0;
    file->length = 4 + length;
}

static void refuses(struct file *file, unsigned error)
{
    const unsigned char body[2] = {3, (unsigned char)error};
    replies(file, body, sizeof body);
}

static unsigned owner(void)
{
    return asking + SETS * set_lives[asking] + 1;
}

static unsigned *keys_of(uint32_t uid)
{
    holds(uid < 3000000000 || uid < 3000000000 + KEPT_USERS);
    return uid < 3000000000 ? NULL : &kept_users[uid - 3000000000];
}

static void says_hello(struct file *file, const unsigned char *body)
{
    uint32_t uid = number_at(body + 1), join = number_at(body + 10);
    if (next_turn() % 16 == 0) {
        refuses(file, next_turn() % 2 == 0 ? REQKEY_EDQUOT : REQKEY_ENOMEM);
        return;
    }
    if (join != 0 && (join >= SESSIONS || sessions[join].joined == 0)) {
        refuses(file, REQKEY_ENOKEY);
        return;
    }
    if (join != 0 && sessions[join].uid != uid) {
        refuses(file, REQKEY_EACCES);
        return;
    }
    if (join == 0) {
        holds(next_session + 1 < SESSIONS);
        join = ++next_session;
        sessions[join].uid = uid;
    }
    sessions[join].joined++;
    file->ring = join;
    file->uid = uid;
    unsigned char rings[17] = {2};
    for (int i = 0; i < 4; i++) {
        rings[9 + i] = (unsigned char)(join >> (24 - 8 * i));
        rings[13 + i] = (unsigned char)((100000 + uid % 1000) >> (24 - 8 * i));
    }
    replies(file, rings, sizeof rings);
}

/* An ask: a serial or 0 as its kind has it. Only ADD (15) and a REQUEST with a callout bring keys. */
static void asked(struct file *file, const unsigned char *body, size_t length)
{
    static const unsigned char DONE[5] = {0}, SERIAL[5] = {0, 0, 1, 0, 0};
    unsigned *keys = keys_of(file->uid);
    if (body[0] == 1) {
        says_hello(file, body);
        return;
    }
    holds(file->ring != 0);
    if (keys != NULL && *keys != 0 && *keys != owner())
        holds(body[0] == 13 && number_at(body + 1) == (uint32_t)-4); /* what another container has left is only cleared */
    if (next_turn() % 16 == 0) {
        refuses(file, REQKEY_ENOMEM);
        return;
    }
    if (body[0] == 13 && number_at(body + 1) == (uint32_t)-4 && keys != NULL)
        *keys = 0;
    if (body[0] == 15 && keys != NULL && number_at(body + length - 4) == (uint32_t)REQKEY_USER_RING)
        *keys = owner();
    replies(file, body[0] == 15 || body[0] == 2 ? SERIAL : DONE, 5);
}

static int fuzz_socket(int domain, int type, int protocol)
{
    (void)domain, (void)type, (void)protocol;
    int file = new_file(SOCKET);
    if (file >= 0)
        files[file].life = generation;
    return file;
}

static int fuzz_connect(int file, const struct sockaddr *address, socklen_t length)
{
    (void)address, (void)length;
    if (next_turn() % 32 == 0) {
        errno = ECONNREFUSED;
        return -1;
    }
    files[file].at = files[file].length = 0;
    sockets++;
    files[file].id = 1;   /* is connected */
    holds(sockets <= 61); /* 60, and one that clears what a container has left */
    return 0;
}

static ssize_t world_send(int file, const void *from, size_t size, int flags)
{
    const unsigned char *bytes = from;
    holds((flags & MSG_NOSIGNAL) != 0 && files[file].kind == SOCKET && number_at(bytes) == size - 4);
    if (files[file].ended) {
        errno = EPIPE;
        return -1;
    }
    asked(&files[file], bytes + 4, size - 4);
    return (ssize_t)size;
}

static ssize_t world_read(int file, void *to, size_t size)
{
    struct file *from = &files[file];
    size_t left = from->length - from->at, length = size < left ? size : left;
    holds(from->kind == TEXT || from->kind == SOCKET);
    if (from->kind == SOCKET && (from->ended || next_turn() % 64 == 0)) {
        from->ended = true;
        return 0;
    }
    memcpy(to, from->text + from->at, length);
    from->at += length;
    return (ssize_t)length;
}

/* No door hands anything over. */
static ssize_t world_recvmsg(int file, struct msghdr *message, int flags)
{
    (void)flags;
    message->msg_controllen = 0;
    return world_read(file, message->msg_iov[0].iov_base, message->msg_iov[0].iov_len);
}

static int fuzz_close(int file)
{
    holds(file >= 3 && file < FILES && files[file].kind != NONE);
    if (files[file].kind == SOCKET && files[file].id == 1) {
        sockets--;
        if (files[file].ring != 0 && files[file].life == generation)
            sessions[files[file].ring].joined--;
    }
    files[file].kind = NONE;
    return 0;
}

static int fuzz_getsockopt(int file, int level, int name, void *value, socklen_t *length)
{
    (void)level, (void)name, (void)length;
    ((struct ucred *)value)->pid = 1000 + (pid_t)files[file].life;
    return 0;
}

static int fuzz_wait(pthread_cond_t *condition, pthread_mutex_t *lock);
static int fuzz_ioctl(int file, unsigned long request, void *of);

#define fstat(descriptor, file) ((file)->st_mode = S_IFSOCK, (void)(descriptor), 0)
#define calloc fuzz_calloc
#define strdup fuzz_strdup
#define clock_gettime fuzz_clock
#define prlimit fuzz_prlimit
#define kill fuzz_kill
#define getrandom fuzz_random
#define open fuzz_open
#define fopen fuzz_fopen
#define DIR struct folder
#define opendir fuzz_opendir
#define readdir fuzz_readdir
#define closedir free
#define syscall fuzz_syscall
#define poll fuzz_poll
#define epoll_create1(flags) new_file(EPOLL)
#define epoll_ctl fuzz_epoll
#define pthread_create fuzz_thread
#define pthread_detach(thread) ((void)(thread))
#define pthread_cond_wait fuzz_wait
#define ioctl fuzz_ioctl
#define socket fuzz_socket
#define connect fuzz_connect
#define send world_send
#define read world_read
#define recvmsg world_recvmsg
#define close fuzz_close
#define getsockopt fuzz_getsockopt
#define getpid() OF_SUPERVISOR
#define connected reqkey_connected
#define begin reqkey_begin
#define put reqkey_put
#define asked reqkey_asked
#include "../../clients/c/reqkey.c"
#undef connected
#undef begin
#undef put
#undef asked
#include "../../clients/keyutils/connection.c"
#include "../../clients/trap/caller.c"
#include "../../clients/trap/marks.c"
#define found set_found
#define made set_made
#include "../../clients/trap/sets.c"
#undef found
#undef made
#include "../../clients/trap/processes.c"
#include "../../clients/trap/rings.c"
#include "../../clients/trap/session.c"
#undef calloc

/* ---- handlers, and waits in the listener: none */

bool is_handler(void)
{
    return false;
}

int32_t handler_key(void)
{
    return 0;
}

void handler_assumes(int32_t key)
{
    (void)key;
}

struct reqkey *handler_take(void)
{
    abort();
}

void handler_give(void)
{
    abort();
}

void listener_waits(void)
{
}

/* ---- calls, some of which are not over when others begin */

static struct set *its[SETS];
static unsigned listeners_of[SETS];

static struct pending {
    bool open;
    uint64_t id;
    struct fake *fake;
    unsigned life;
    struct caller caller;
    struct connection *connection;
    int result;
} calls[CALLS_AT_A_TIME];

static uint64_t ids;

static bool call_lives(const struct pending *call)
{
    return call->fake->alive && call->fake->life == call->life;
}

static int fuzz_ioctl(int file, unsigned long request, void *of)
{
    if (request == GET_INFO) {
        struct info *info = of;
        struct fake *fake = fake_of(files[file].id);
        errno = ESRCH;
        if (!pidfd_lives(file) || fake == NULL)
            return -1;
        *info = (struct info){.mask = HAS_PROCESS | HAS_USER, .thread = (uint32_t)fake->id, .process = (uint32_t)fake->id, .parent = (uint32_t)fake->parent};
        info->uids[0] = fake->uid;
        info->file_system[1] = fake->gid;
        return 0;
    }
    holds(request == SECCOMP_IOCTL_NOTIF_ID_VALID);
    for (size_t i = 0; i < CALLS_AT_A_TIME; i++)
        if (calls[i].id == *(uint64_t *)of && call_lives(&calls[i]))
            return 0;
    errno = ENOENT;
    return -1;
}

/* What this thread has of a call, in the place of another one's. */
static void goes_on_with(const struct pending *call)
{
    caller = call->caller;
    mine = call->connection;
    asking = call->fake->set;
}

static void ends_call(struct pending *call)
{
    goes_on_with(call);
    session_end(call->result);
    caller_end();
    call->open = false;
}

/* Somebody else has to give back what is waited for. */
static int fuzz_wait(pthread_cond_t *condition, pthread_mutex_t *lock)
{
    struct caller own = caller;
    unsigned its_set = asking;
    size_t i = 0;
    (void)condition, (void)lock;
    while (i < CALLS_AT_A_TIME && !calls[i].open)
        i++;
    holds(i < CALLS_AT_A_TIME);
    rings_unlock();
    ends_call(&calls[i]);
    rings_lock();
    caller = own;
    asking = its_set;
    return 0;
}

/* The rules of the kernel: a process is in the ring that it has joined, or its parent before it was started; but not in another user's. */
static void is_right(const struct fake *fake)
{
    const struct ring *ring = mine->ring;
    bool joined = fake->session != 0 && fake->session_uid == fake->uid;
    holds(ring->uid == fake->uid && ring->set == its[fake->set]);
    if (fake->lost)
        return;
    if (joined)
        holds(mine->rings.session == fake->session && fake->generation == files[reqkey_descriptor(mine->session)].life);
    else
        holds(is_first(ring));
    holds(fake->setting == UNKNOWN || mine->setting == fake->setting);
}

static bool begins_call(struct pending *call, struct fake *fake, int32_t ring)
{
    struct seccomp_notif told = {.id = ++ids, .pid = (uint32_t)fake->id};
    told.data.arch = WIDE_ARCHITECTURE;
    told.data.nr = WIDE_CALLS + (ring == 0 ? CALL_KEYCTL : CALL_ADD_KEY);
    told.data.args[0] = ring == 0 ? KEYCTL_READ : 1;
    told.data.args[4] = (uint64_t)(int64_t)ring;
    *call = (struct pending){.id = ids, .fake = fake, .life = fake->life};
    asking = fake->set;
    if (caller_begin(5, its[fake->set], &told) == 0)
        return true;
    caller_end();
    return false;
}

/* A call that uses a session, and may be over later. */
static void uses(struct pending *call, struct fake *fake, unsigned how)
{
    static const int32_t RINGS[] = {0, REQKEY_SESSION_RING, REQKEY_USER_RING};
    int32_t ring = RINGS[how % 3];
    struct reqkey *session = begins_call(call, fake, ring) ? session_begin(0) : NULL;
    if (session == NULL)
        return;
    is_right(fake);
    if (how & 16) {
        struct reqkey *alone = session_alone();
        reqkey_free(alone);
    }
    int result = ring == 0 ? 0 : reqkey_add(session, "user", "k", "v", 1, ring);
    if ((how & 32) != 0 && session_setting((int)(how % 5)))
        fake->setting = (int)(how % 5);
    call->caller = caller;
    call->connection = mine;
    call->result = result;
    call->open = (how & 64) != 0 && result > -REQKEY_ENDED;
    if (call->open)
        return;
    session_end(result);
    caller_end();
}

/* A call that joins a ring, or revokes it. */
static void changes(struct pending *call, struct fake *fake, unsigned how)
{
    if (!begins_call(call, fake, 0))
        return;
    if (how % 4 == 0)
        session_revoke(how & 8 ? REQKEY_SESSION_RING : (int32_t)fake->session);
    else {
        long serial = session_renew(how % 4 == 1 ? "name" : NULL);
        if (serial > 0) {
            fake->session = (uint32_t)serial;
            fake->session_uid = fake->uid;
            fake->generation = generation;
            fake->setting = fake->lost ? UNKNOWN : fake->setting;
            fake->lost = false;
        } else
            holds(errno != 0);
    }
    caller_end();
}

/* ---- what else happens */

static struct fake *starts(struct fake *parent, pid_t id)
{
    for (size_t i = 0; i < PROCESSES; i++) {
        if (fakes[i].alive)
            continue;
        struct fake *child = &fakes[i];
        *child = *parent;
        child->alive = true;
        child->id = id;
        child->parent = parent->id;
        child->life = ++lives;
        child->lost = parent->lost || parent->limited;
        return child;
    }
    return NULL;
}

static void dies(struct fake *fake)
{
    fake->alive = false;
    for (size_t i = 0; i < PROCESSES; i++)
        if (fakes[i].parent == fake->id)
            fakes[i].parent = OF_SUPERVISOR;
}

static void begins_set(unsigned set)
{
    static const char *const NAMES[SETS] = {NULL, "web", "other"};
    its[set] = set_begin(NAMES[set]);
    if (its[set] != NULL && listeners_of[set]++ == 0)
        set_lives[set]++;
}

/* All of its calls and processes are over before a set is. */
static void ends_set(unsigned set)
{
    for (size_t i = 0; i < CALLS_AT_A_TIME; i++)
        if (calls[i].open && calls[i].fake->set == set)
            ends_call(&calls[i]);
    for (size_t i = 0; i < PROCESSES; i++)
        if (fakes[i].alive && fakes[i].set == set)
            dies(&fakes[i]);
    asking = set;
    while (listeners_of[set] > 0 && listeners_of[set]-- > 0)
        set_end(its[set]);
    its[set] = NULL;
}

static void is_another_daemon(void)
{
    generation++;
    next_session = 0;
    memset(sessions, 0, sizeof sessions);
    memset(kept_users, 0, sizeof kept_users);
    for (size_t i = 0; i < FILES; i++)
        files[i].ended |= files[i].kind == SOCKET;
}

static struct fake *any_process(void)
{
    struct fake *fake = &fakes[next_byte() % PROCESSES];
    return fake->alive && its[fake->set] != NULL ? fake : NULL;
}

static void new_process(void)
{
    unsigned set = next_byte() % SETS;
    struct fake parent = {.id = OF_SUPERVISOR, .limit = RLIM_INFINITY, .set = set, .uid = next_byte() % 3, .gid = next_byte() % 2};
    pid_t id = 100 + (pid_t)(next_byte() % 40);
    if (its[set] == NULL)
        begins_set(set);
    if (its[set] != NULL && fake_of(id) == NULL)
        starts(&parent, id);
}

static void happens(void)
{
    unsigned what = next_byte(), how = next_byte();
    struct fake *fake = any_process();
    struct pending *call = &calls[next_byte() % CALLS_AT_A_TIME];
    pid_t id = 100 + (pid_t)(how % 40);
    if (fake == NULL || what % 16 == 0)
        new_process();
    else if (what % 16 < 5 && !call->open)
        uses(call, fake, how);
    else if (what % 16 < 8 && !call->open)
        changes(call, fake, how);
    else if (what % 16 == 8 && fake_of(id) == NULL)
        starts(fake, id);
    else if (what % 16 == 9)
        dies(fake);
    else if (what % 16 == 10 && !fake->foreign) {
        fake->limit = how % 2 == 0 ? how : RLIM_INFINITY;
        fake->limited = fake->lost = true;
    } else if (what % 16 == 11)
        fake->uid = how % 3;
    else if (what % 16 == 12) {
        no_memory = how & 1;
        no_descriptors = how & 2;
        moment += how >> 4;
    } else if (what % 16 == 13)
        processes_reap();
    else if (what % 16 == 14 && how % 4 == 0)
        is_another_daemon();
    else if (what % 16 == 14 && how % 4 == 1)
        ends_set(how % 3);
    else if (what % 16 == 14 && how % 4 == 2)
        fake->foreign = fake->limited = fake->lost = true;
    else if (what % 16 == 15 && call->open)
        ends_call(call);
}

/* ---- the end of an input */

static void frees(struct user *users)
{
    while (users != NULL) {
        struct user *next = users->next;
        free(users);
        users = next;
    }
}

static void is_empty(void)
{
    no_memory = no_descriptors = false;
    for (unsigned set = 0; set < SETS; set++)
        ends_set(set);
    processes_reap();
    caller_forget();
    holds(rings == NULL && sockets == 0);
    for (size_t i = 0; i < LISTS; i++)
        holds(places[i] == NULL && processes[i] == NULL);
    for (size_t i = 0; i < FILES; i++)
        holds(files[i].kind == NONE || files[i].kind == EPOLL);
    frees(clean);
    frees(oldest);
    clean = oldest = NULL;
    newest = &oldest;
    drawn = 0;
    sets_begin_anew();
}

static void tells_nothing(pid_t process)
{
    holds(fake_of(process) != NULL && (fake_of(process)->limited || fake_of(process)->foreign));
}

int LLVMFuzzerTestOneInput(const uint8_t *data, size_t size)
{
    input = data;
    input_left = size;
    turn = next_byte() << 8 | next_byte();
    memset(fakes, 0, sizeof fakes);
    is_another_daemon();
    rings_at("s");
    processes_limited = tells_nothing;
    while (input_left > 0 && next_session + 8 < SESSIONS)
        happens();
    is_empty();
    return 0;
}
