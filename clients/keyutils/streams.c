#include "streams.h"

#include "environment.h"

#include <errno.h>
#include <fcntl.h>
#include <pthread.h>
#include <stdio.h>
#include <stdlib.h>
#include <string.h>
#include <sys/mman.h>
#include <sys/stat.h>
#include <unistd.h>

enum { INPUT, OUTPUT, MARK, COUNT };

static const char VARIABLE[] = "REQKEYD_STREAMS";

static struct {
    bool told;
    pid_t holder;                     /* 0 if it is not known: these descriptors are all that there is */
    int descriptor[COUNT];            /* of the holder; MARK is -1 if there is none */
    unsigned long long inode[COUNT];  /* of those files */
    bool lost;                        /* a request of this process got no reply */
} way = {.descriptor = {-1, -1, -1}};

static int now[COUNT] = {-1, -1, -1}; /* the descriptors of the call that has the streams */

static unsigned long long inode_of(int descriptor)
{
    struct stat file;
    return descriptor >= 0 && fstat(descriptor, &file) == 0 ? file.st_ino : 0;
}

/* Whether a descriptor of this number is the stream: the program may have closed it, and opened another file in its place. */
static bool is_here(int which)
{
    return way.descriptor[which] >= 0 && inode_of(way.descriptor[which]) == way.inode[which];
}

/* The holder's stream, opened anew; -1 and errno. */
static int open_again(int which)
{
    static const int HOW[COUNT] = {O_RDONLY, O_WRONLY, O_RDWR};
    char path[64];
    snprintf(path, sizeof path, "/proc/%d/fd/%d", (int)way.holder, way.descriptor[which]);
    int file = open(path, HOW[which] | O_CLOEXEC);
    if (file < 0 || inode_of(file) == way.inode[which])
        return file;
    close(file);
    errno = ECONNRESET;
    return -1;
}

/* Whether the holder has ended. The daemon waits for it only when all have closed the streams, so until then it is a zombie (proc(5), "stat"). */
static bool holder_has_ended(void)
{
    char path[64], text[512];
    snprintf(path, sizeof path, "/proc/%d/stat", (int)way.holder);
    int file = open(path, O_RDONLY | O_CLOEXEC);
    ssize_t length = file < 0 ? -1 : read(file, text, sizeof text - 1);
    if (file >= 0)
        close(file);
    if (length < 0)
        return false;
    text[length] = 0;
    const char *name_end = strrchr(text, ')');
    return name_end != NULL && strncmp(name_end, ") Z", 3) == 0;
}

/* Closes what this process has inherited, unless it holds the streams, or could not open them again although the holder lives. */
static void leave(void)
{
    if (!way.told || way.holder == 0 || way.holder == getpid())
        return;
    int again = open_again(OUTPUT);
    if (again >= 0)
        close(again);
    else if (!holder_has_ended())
        return;
    for (int which = 0; which < COUNT; which++)
        if (is_here(which))
            close(way.descriptor[which]);
}

/* Closes what was opened for a call. */
static void part(void)
{
    for (int which = 0; which < COUNT; which++) {
        if (now[which] >= 0 && now[which] != way.descriptor[which])
            close(now[which]);
        now[which] = -1;
    }
}

static void forked(void)
{
    part();
    leave();
}

/* ---- when the library is loaded */

static void read_variable(void)
{
    const char *told = secure_getenv(VARIABLE);
    int fields = told == NULL ? 0
                              : sscanf(told, "%d,%d,%d,%d,%llu,%llu,%llu", &way.descriptor[INPUT], &way.descriptor[OUTPUT], &way.descriptor[MARK], &way.holder,
                                       &way.inode[INPUT], &way.inode[OUTPUT], &way.inode[MARK]);
    way.told = fields >= 2 && way.descriptor[INPUT] >= 0 && way.descriptor[OUTPUT] >= 0;
    if (fields == 7 && way.holder > 0)
        return;
    way.holder = 0;
    way.descriptor[MARK] = -1;
}

/* Puts what a file has, or else nothing, in the place of this descriptor. */
static void replace(int descriptor, int file)
{
    if (file < 0 || dup2(file, descriptor) < 0) {
        int nothing = open("/dev/null", O_RDWR | O_CLOEXEC);
        dup2(nothing, descriptor);
        if (nothing > STDERR_FILENO)
            close(nothing);
    }
}

/* A file in memory for the mark, not among the first descriptors; -1 if there is none. */
static int marked(void)
{
    int file = memfd_create("reqkeyd", 0), mark = file < 0 ? -1 : fcntl(file, F_DUPFD, 10);
    if (file >= 0)
        close(file);
    return mark;
}

/* Moves the standard streams away. They stay open for what this process executes. */
static void move(void)
{
    char told[128];
    int moved[COUNT] = {fcntl(STDIN_FILENO, F_DUPFD, 10), fcntl(STDOUT_FILENO, F_DUPFD, 10), marked()};
    unsigned long long inode[COUNT] = {inode_of(moved[INPUT]), inode_of(moved[OUTPUT]), inode_of(moved[MARK])};
    snprintf(told, sizeof told, "%d,%d,%d,%d,%llu,%llu,%llu", moved[INPUT], moved[OUTPUT], moved[MARK], (int)getpid(), inode[INPUT], inode[OUTPUT],
             inode[MARK]);
    if (moved[INPUT] < 0 || moved[OUTPUT] < 0 || !environment_set(VARIABLE, told))
        return;
    replace(STDIN_FILENO, -1);
    replace(STDOUT_FILENO, STDERR_FILENO);
    way.holder = getpid();
    for (int which = 0; which < COUNT; which++) {
        way.descriptor[which] = moved[which];
        way.inode[which] = inode[which];
    }
}

__attribute__((constructor)) static void loaded(void)
{
    pthread_atfork(NULL, NULL, forked);
    read_variable();
    if (way.told && way.holder == 0 && way.descriptor[INPUT] == STDIN_FILENO && way.descriptor[OUTPUT] == STDOUT_FILENO)
        move();
    else
        leave();
}

/* ---- a call */

bool streams_are_told(void)
{
    return way.told;
}

/* The descriptors for a call. Those that are not `here` are opened for its time alone. 0 or an error. */
static int reach(void)
{
    for (int which = 0; which < COUNT; which++) {
        now[which] = way.holder == 0 || way.descriptor[which] < 0 || is_here(which) ? way.descriptor[which] : open_again(which);
        if (now[which] < 0 && way.descriptor[which] >= 0)
            return errno;
    }
    return 0;
}

static void lock_as(short how)
{
    struct flock all = {.l_type = how, .l_whence = SEEK_SET};
    while (fcntl(now[MARK] >= 0 ? now[MARK] : now[OUTPUT], F_SETLKW, &all) < 0 && errno == EINTR)
        ;
}

static bool is_marked(void)
{
    char mark = 0;
    return now[MARK] >= 0 && pread(now[MARK], &mark, 1, 0) == 1 && mark != 0;
}

static void set_mark(char mark)
{
    if (now[MARK] >= 0 && pwrite(now[MARK], &mark, 1, 0) != 1)
        way.lost = true;
}

int streams_take(int *input, int *output)
{
    now[INPUT] = now[OUTPUT] = now[MARK] = -1;
    int error = way.lost ? ECONNRESET : reach();
    if (error == 0) {
        lock_as(F_WRLCK);
        if (is_marked()) {
            lock_as(F_UNLCK);
            error = ECONNRESET;
        }
    }
    if (error != 0) {
        part();
        return error;
    }
    set_mark(1);
    *input = now[INPUT];
    *output = now[OUTPUT];
    return 0;
}

void streams_give(bool whole)
{
    way.lost |= !whole;
    if (whole)
        set_mark(0);
    lock_as(F_UNLCK);
    part();
}
