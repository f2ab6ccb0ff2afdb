/*
 * What programs do around their calls: cancel threads, leave a call by siglongjmp, call in a signal's function, close all descriptors, change their user, and
 * wait for the daemon's restart. It prints a line for each call: what it gave, or its error.
 *
 * usage: habits SUBJECT [WORD]; linked with the library. FIFO of the environment holds up the handler of keys `slow:*`.
 */
#include "calls.h"

#include <errno.h>
#include <fcntl.h>
#include <pthread.h>
#include <sched.h>
#include <setjmp.h>
#include <signal.h>
#include <stdio.h>
#include <stdlib.h>
#include <string.h>
#include <sys/socket.h>
#include <sys/wait.h>
#include <unistd.h>

enum { REQUESTOR = -8, AUTHORITY = -7, USER = -4, SESSION = -3 };

static void show(const char *name, long result)
{
    if (result < 0)
        printf("%s %s\n", name, strerrorname_np(errno));
    else
        printf("%s done\n", name);
    fflush(stdout);
}

/* Whether two calls in a row give the right answers. */
static void right(const char *name)
{
    char payload[8];
    key_serial_t key = add_key("user", name, name, strlen(name), SESSION);
    long length = key < 0 ? -1 : keyctl_read(key, payload, sizeof payload);
    printf("%s %s\n", name, length == (long)strlen(name) && memcmp(payload, name, (size_t)length) == 0 ? "right" : "wrong");
    fflush(stdout);
}

/* ---- a thread is cancelled while it waits for a key */

static void *waits(void *name)
{
    request_key("user", name, "x", SESSION);
    pthread_testcancel();
    return NULL;
}

static int at_fifo(void)
{
    return open(getenv("FIFO"), O_WRONLY); /* as soon as the handler runs */
}

static void cancel(void)
{
    pthread_t thread;
    void *result = NULL;
    pthread_create(&thread, NULL, waits, "slow:cancel");
    int fifo = at_fifo();
    pthread_cancel(thread);
    show("written", write(fifo, "made", 4));
    close(fifo);
    pthread_join(thread, &result);
    printf("cancelled %d\n", result == PTHREAD_CANCELED);
    right("after");
}

/* ---- a call is left by siglongjmp, and a signal's function calls */

static sigjmp_buf back;

static void jumps(int signal)
{
    (void)signal;
    siglongjmp(back, 1);
}

static int open_files(void)
{
    int count = 0;
    for (int i = 0; i < 256; i++)
        count += fcntl(i, F_GETFD) >= 0;
    return count;
}

static void left(void)
{
    volatile char deep[4096]; /* so that the stack is here no more when the next call comes */
    deep[0] = deep[4095] = 0;
    if (sigsetjmp(back, 1) == 0) {
        ualarm(200000, 0);
        request_key("user", "slow:left", "x", SESSION);
        puts("not left");
    }
}

static void jump(void)
{
    struct sigaction action = {.sa_handler = jumps};
    sigaction(SIGALRM, &action, NULL);
    right("before");
    int files = open_files();
    for (int i = 0; i < 3; i++)
        left();
    right("after");
    show("ring", keyctl_get_keyring_ID(SESSION, 0));
    printf("files %d\n", open_files() - files);
    pthread_t thread;
    pthread_create(&thread, NULL, waits, "n");
    pthread_join(thread, NULL);
    int fifo = at_fifo();
    close(fifo);
}

static void calls(int signal)
{
    (void)signal;
    right("inner");
}

static void interrupt(void)
{
    struct sigaction action = {.sa_handler = calls, .sa_flags = SA_RESTART};
    sigaction(SIGALRM, &action, NULL);
    ualarm(200000, 0);
    show("outer", request_key("user", "slow:outer", "x", SESSION));
    right("after");
    int fifo = at_fifo();
    close(fifo);
}

/* ---- a signal's function calls while a call connects, and another thread goes on with what that has connected: lines of input say when */

static void reads(const char *name, key_serial_t key)
{
    show(name, keyctl_read(key, NULL, 0));
}

static void reads_inside(int signal)
{
    (void)signal;
    reads("inner", 1);
}

static void *reads_outside(void *nothing)
{
    reads("outer", 2);
    return nothing;
}

static void *reads_beside(void *nothing)
{
    reads("beside", 3);
    return nothing;
}

static void connects(void)
{
    struct sigaction action = {.sa_handler = reads_inside, .sa_flags = SA_RESTART};
    pthread_t outside, beside;
    sigaction(SIGUSR1, &action, NULL);
    pthread_create(&outside, NULL, reads_outside, NULL);
    int next = getchar();
    pthread_kill(outside, SIGUSR1);
    next = getchar();
    pthread_create(&beside, NULL, reads_beside, NULL);
    pthread_join(outside, NULL);
    pthread_join(beside, NULL);
    (void)next;
}

/* ---- descriptors */

static void closes(void)
{
    int pair[2];
    char heard[64];
    right("before");
    for (int i = 3; i < 256; i++)
        close(i);
    socketpair(AF_UNIX, SOCK_STREAM | SOCK_NONBLOCK, 0, pair);
    right("after");
    show("heard", recv(pair[0], heard, sizeof heard, 0));
    show("heard", recv(pair[1], heard, sizeof heard, 0));
    close(pair[0]);
    close(pair[1]);
    right("again");
}

/* What a program reads and prints is not the daemon's, also if it has closed its streams. */
static void stream(void)
{
    close(STDIN_FILENO);
    right("without");
    printf("input %s\n", fcntl(STDIN_FILENO, F_GETFD) < 0 ? "closed" : "open");
}

/* ---- a child with the number of its parent */

static void in_namespace(void (*does)(void))
{
    int begun = unshare(CLONE_NEWPID); /* where that is allowed: the child is process 1 there */
    (void)begun;
    fflush(stdout);
    pid_t child = fork();
    if (child == 0) {
        does();
        fflush(stdout);
        _exit(0);
    }
    waitpid(child, NULL, 0);
}

static void child_asks(void)
{
    printf("its child's %ld\n", keyctl_set_reqkey_keyring(-1));
}

static void child_sets(void)
{
    show("set", keyctl_set_reqkey_keyring(4));
    in_namespace(child_asks);
    printf("its own %ld\n", keyctl_set_reqkey_keyring(-1));
}

static void number(void)
{
    in_namespace(child_sets);
}

/* ---- another user */

static void user(void)
{
    char payload[8];
    key_serial_t key = add_key("user", "root", "secret", 6, USER), ring = keyctl_get_keyring_ID(USER, 0);
    right("root");
    show("seteuid", seteuid(65534));
    long length = keyctl_read(key, payload, sizeof payload);
    printf("read %s\n", length < 0 && (errno == ENOKEY || errno == EACCES) ? "refused" : "secret");
    printf("ring %s\n", keyctl_get_keyring_ID(USER, 0) == ring ? "same" : "other");
    right("nobody");
    show("seteuid", seteuid(0));
    show("read", keyctl_read(key, payload, sizeof payload));
    show("unlink", keyctl_unlink(key, USER));
}

/* ---- a daemon that is started again: a line of input says when */

static void restart(void)
{
    key_serial_t key = add_key("user", "k", "v", 1, SESSION);
    show("add", key);
    int next = getchar();
    (void)next;
    show("read", keyctl_read(key, NULL, 0));
    show("add", add_key("user", "k", "v", 1, SESSION));
}

/* ---- the handler of keyctl(2)'s example */

static void example(key_serial_t key)
{
    char text[256], payload[256];
    show("assume", keyctl_assume_authority(key));
    show("another", keyctl_assume_authority(key + 4)); /* a refusal changes nothing */
    long length = keyctl_read(AUTHORITY, payload, sizeof payload);
    key_serial_t authority = keyctl_get_keyring_ID(AUTHORITY, 0), ring = keyctl_get_keyring_ID(REQUESTOR, 0);
    show("authority", authority);
    show("ring", ring);
    show("itself", keyctl_get_keyring_ID(ring, 0));
    long told = keyctl_describe(authority, text, sizeof text);
    fprintf(stderr, "described %s\n", told < 0 ? strerrorname_np(errno) : text);
    key_serial_t other = add_key("user", "beside", "v", 1, ring);
    show("add", other);
    show("instantiate", keyctl_instantiate(key, payload, (size_t)length, REQUESTOR));
}

/* ---- what a call takes */

enum { READS = 10 };

/* Reads between two calls of getppid(2), by which a trace finds them. */
static void ten_reads(void)
{
    char payload[8];
    key_serial_t key = add_key("user", "n", "v", 1, SESSION);
    getppid();
    for (int i = 0; i < READS; i++)
        if (keyctl_read(key, payload, sizeof payload) != 1)
            show("read", -1);
    getppid();
}

int main(int count, char **words)
{
    const char *subject = count > 1 ? words[1] : "";
    struct {
        const char *name;
        void (*does)(void);
    } subjects[] = {{"cancel", cancel}, {"jump", jump}, {"interrupt", interrupt}, {"connects", connects}, {"closes", closes},
                  {"stream", stream}, {"number", number}, {"user", user}, {"restart", restart}, {"reads", ten_reads}};
    if (count == 3 && strcmp(subject, "example") == 0)
        example(atoi(words[2]));
    for (size_t i = 0; i < sizeof subjects / sizeof *subjects; i++)
        if (strcmp(subject, subjects[i].name) == 0)
            subjects[i].does();
    return 0;
}
