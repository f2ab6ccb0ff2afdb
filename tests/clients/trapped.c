/*
 * A program without libkeyutils, which makes the system calls itself, and no library is loaded into it (it is linked statically). It prints a line for each
 * call: what it gave, or its error.
 *
 * usage: trapped SUBJECT [WORD ..]
 */
#include <errno.h>
#include <fcntl.h>
#include <pthread.h>
#include <sched.h>
#include <signal.h>
#include <stdint.h>
#include <stdio.h>
#include <stdlib.h>
#include <string.h>
#include <sys/mman.h>
#include <sys/prctl.h>
#include <sys/syscall.h>
#include <sys/uio.h>
#include <sys/wait.h>
#include <time.h>
#include <unistd.h>

enum { SESSION = -3, USER = -4 };

enum { GET_ID = 0, JOIN = 1, UPDATE = 2, REVOKE = 3, DESCRIBE = 6, LINK = 8, UNLINK = 9, SEARCH = 10, READ = 11, INSTANTIATE = 12, SET_DEFAULT = 14, IOV = 20,
       CAPABILITIES = 31 };

static long add(const char *name, const void *payload, size_t length, int ring)
{
    return syscall(SYS_add_key, "user", name, payload, length, ring);
}

static long request(const char *name, const char *callout, int ring)
{
    return syscall(SYS_request_key, "user", name, callout, ring);
}

#define KEYCTL(...) syscall(SYS_keyctl, __VA_ARGS__)

static void show(const char *name, long result)
{
    printf("%s %s\n", name, result < 0 ? strerrorname_np(errno) : "done");
    fflush(stdout);
}

/* ---- every call once */

static void calls(void)
{
    char text[256] = "", payload[64] = "";
    long key = add("k", "value", 5, SESSION), ring = KEYCTL(GET_ID, SESSION, 0);
    show("add", key);
    printf("request %d\n", request("k", NULL, 0) == key);
    printf("made %d\n", KEYCTL(READ, request("made:a", "callout", SESSION), payload, sizeof payload) == 7 && memcmp(payload, "callout", 7) == 0);
    show("missing", request("none", NULL, 0));
    printf("read %ld ", KEYCTL(READ, key, NULL, 0L));
    printf("%ld ", KEYCTL(READ, key, memset(payload, '.', 8), 3L));
    printf("%.8s ", payload);
    printf("%ld %.8s\n", KEYCTL(READ, key, payload, 8L), payload);
    long length = KEYCTL(DESCRIBE, key, text, sizeof text);
    printf("describe %d %s\n", length == (long)strlen(text) + 1, strchr(text + 5, ';'));
    printf("search %d\n", KEYCTL(SEARCH, SESSION, "user", "k", 0L) == key);
    show("link", KEYCTL(LINK, key, USER));
    show("users", KEYCTL(LINK, USER, SESSION));
    show("unlink", KEYCTL(UNLINK, key, USER));
    printf("default %ld ", KEYCTL(SET_DEFAULT, 4L));
    printf("%ld ", KEYCTL(SET_DEFAULT, -1L));
    printf("%ld\n", KEYCTL(SET_DEFAULT, 0L));
    printf("capabilities %ld\n", KEYCTL(CAPABILITIES, text, sizeof text));
    show("update", KEYCTL(UPDATE, key, "w", 1L));
    show("instantiate", KEYCTL(INSTANTIATE, key, "w", 1L, 0L));
    show("revoke", KEYCTL(REVOKE, key));
    show("revoked", KEYCTL(READ, key, NULL, 0L));
    printf("ring %d\n", KEYCTL(JOIN, NULL) != ring);
    show("unknown", KEYCTL(9999L, key));
    show("getppid", getppid());
}

/* ---- memory that a hostile program gives */

static char *page; /* the last page before one that is not mapped */

static void *changes(void *running)
{
    for (unsigned turn = 0; *(volatile int *)running; turn++) {
        page[turn % 4096] = (char)(turn % 7 == 0 ? 0 : 'a' + turn % 26);
        if (turn % 1000 == 0)
            mprotect(page - 4096, 4096, turn % 2000 == 0 ? PROT_NONE : PROT_READ | PROT_WRITE);
    }
    return NULL;
}

static void hostile(void)
{
    const uintptr_t nowhere[] = {0, 1, 4096, (uintptr_t)-1, (uintptr_t)-4096, (uintptr_t)1 << 63, ((uintptr_t)1 << 47) - 1};
    page = mmap(NULL, 3 * 4096, PROT_READ | PROT_WRITE, MAP_PRIVATE | MAP_ANONYMOUS, -1, 0);
    munmap(page + 2 * 4096, 4096);
    page += 4096;
    long key = add("k", "value", 5, SESSION);
    for (size_t i = 0; i < sizeof nowhere / sizeof *nowhere; i++) {
        const void *at = (const void *)nowhere[i];
        long results[] = {
            syscall(SYS_add_key, at, "n", "v", 1L, SESSION), syscall(SYS_add_key, "user", "n", at, 1L, SESSION), syscall(SYS_request_key, "user", at, NULL, 0L),
            KEYCTL(JOIN, at == NULL ? (void *)1 : at), KEYCTL(SEARCH, SESSION, at, "k", 0L), KEYCTL(INSTANTIATE, key, at, 1L, 0L), KEYCTL(IOV, key, at, 1L, 0L),
        };
        int right = errno == (at == NULL ? EINVAL : EFAULT); /* (parts at NULL are none) */
        for (size_t n = 0; n < sizeof results / sizeof *results; n++)
            right &= results[n] < 0;
        printf("nowhere %d %ld\n", right, at == NULL ? 5L : KEYCTL(READ, key, at, 64L) < 0 ? (long)errno : 0L);
    }
    memset(page, 'a', 4096);
    show("type without end", syscall(SYS_add_key, page, "n", "v", 1L, SESSION));
    show("description without end", syscall(SYS_add_key, "user", page + 100, "v", 1L, SESSION));
    show("description that is too long", syscall(SYS_add_key, "user", memset(page - 4096, 'b', 4096), "v", 1L, SESSION));
    page[4095] = 0;
    show("description to the end of its page", syscall(SYS_add_key, "user", page + 4000, "v", 1L, SESSION));
    page[4095] = 'a';
    show("payload over the end", add("n", page + 4090, 7, SESSION));
    show("payload to the end", add("n", page + 4090, 6, SESSION));
    show("payload of any length", add("n", page, SIZE_MAX, SESSION));
    show("payload of 32768", add("n", page, 32768, SESSION));
    struct iovec parts[2] = {{page, SIZE_MAX}, {page, 1}};
    show("parts", KEYCTL(IOV, key, parts, 2L, 0L));
    show("parts without number", KEYCTL(IOV, key, parts, SIZE_MAX, 0L));
    show("read only", KEYCTL(READ, key, "constant", 64L));
    memset(page, 0, 4096);
    mprotect(page, 4096, PROT_NONE);
    show("unreadable payload", add("n", page, 6, SESSION));
    show("unreadable text", add(page, "v", 1, SESSION));
    show("unreadable buffer", KEYCTL(READ, key, page, 64L));
    show("guarded buffer", KEYCTL(READ, key, page - 4, 64L));
    mprotect(page, 4096, PROT_READ);
    show("readable payload", add("n", page, 6, SESSION));
    show("guarded description", KEYCTL(DESCRIBE, key, page - 4, 64L));
    mprotect(page, 4096, PROT_READ | PROT_WRITE);
    show("writable", KEYCTL(READ, key, page - 4, 64L));
    show("read over the end", KEYCTL(READ, key, page + 4094, 64L));
    int running = 1;
    long counts[2] = {0, 0};
    pthread_t thread;
    pthread_create(&thread, NULL, changes, &running);
    for (int i = 0; i < 2000; i++) {
        long made = syscall(SYS_add_key, "user", page - 100, page - 50, 100L, SESSION);
        counts[made > 0 || errno == EFAULT || errno == EINVAL]++;
    }
    running = 0;
    pthread_join(thread, NULL);
    printf("changing %ld\n", counts[0]);
    show("after", KEYCTL(READ, add("k", "value", 5, SESSION), NULL, 0L));
}

/* ---- processes and rings */

static int pipes[2];

static void pause_for(int descriptor)
{
    char one;
    if (read(descriptor, &one, 1) < 0)
        exit(1);
}

/* A child of before the join is in the ring of before, and one of after in the new one; a name is joined by others. */
static void rings(void)
{
    int status, link[2];
    if (pipe(pipes) < 0 || pipe(link) < 0)
        exit(1);
    long first = KEYCTL(GET_ID, SESSION, 0L);
    pid_t early = fork();
    if (early == 0) {
        pause_for(pipes[0]);
        _exit(KEYCTL(GET_ID, SESSION, 0L) != first);
    }
    long second = KEYCTL(JOIN, NULL);
    pid_t late = fork();
    if (late == 0)
        _exit(KEYCTL(GET_ID, SESSION, 0L) != second || second == first);
    waitpid(late, &status, 0);
    printf("late %d\n", status);
    if (write(pipes[1], "x", 1) != 1)
        exit(1);
    waitpid(early, &status, 0);
    printf("early %d\n", status);
    long named = KEYCTL(JOIN, "a name");
    pid_t other = fork();
    if (other == 0) {
        long new = KEYCTL(JOIN, NULL), again = KEYCTL(JOIN, "a name");
        _exit(new == named || again != named);
    }
    waitpid(other, &status, 0);
    printf("named %d\n", status);
    fflush(stdout);
    long all = 0;
    for (; all < 100 && fork() == 0; all++)
        if (KEYCTL(JOIN, NULL) < 0) {
            printf("quota %s %d\n", strerrorname_np(errno), all >= 20 && all < 32);
            fflush(stdout);
            break;
        }
    if (all > 0) {
        while (wait(NULL) > 0)
            ;
        _exit(0);
    }
    wait(NULL);
    show("name without letters", KEYCTL(JOIN, ""));
    show("name with a dot", KEYCTL(JOIN, ".name"));
}

static void user(void)
{
    char payload[16];
    long key = add("mine", "secret", 6, USER), ring = KEYCTL(GET_ID, SESSION, 0L);
    int status;
    pid_t child = fork();
    if (child == 0) {
        if (setresgid(65534, 65534, 65534) < 0 || setresuid(65534, 65534, 65534) < 0)
            _exit(1);
        show("child dumpable", prctl(PR_SET_DUMPABLE, 1));
        printf("child ring %d\n", KEYCTL(GET_ID, SESSION, 0L) != ring);
        printf("child reads %d\n", KEYCTL(READ, key, payload, sizeof payload) < 0 && (errno == EACCES || errno == ENOKEY));
        show("child adds", add("its", "own", 3, USER));
        fflush(stdout);
        _exit(0);
    }
    waitpid(child, &status, 0);
    printf("child %d\n", status);
    printf("ring %d\n", KEYCTL(GET_ID, SESSION, 0L) == ring);
    show("unlink", KEYCTL(UNLINK, key, USER));
}

static void undumpable(void)
{
    long key = add("k", "value", 5, SESSION);
    prctl(PR_SET_DUMPABLE, 0);
    show("read", KEYCTL(READ, key, NULL, 0L));
    show("add", add("n", "v", 1, SESSION));
    show("revoke", KEYCTL(REVOKE, key));
}

/* ---- waits */

static void caught(int signal)
{
    (void)signal;
}

static void *waits(void *name)
{
    return (void *)request(name, "x", SESSION);
}

/* A caught signal ends no wait, other threads are answered meanwhile, and one that waits for the same key gets it, too. */
static void waiting(void)
{
    /* a call that the supervisor has not taken yet is begun again */
    struct sigaction action = {.sa_handler = caught, .sa_flags = SA_RESTART};
    pthread_t threads[2];
    void *made[2];
    sigaction(SIGUSR1, &action, NULL);
    for (int i = 0; i < 2; i++)
        pthread_create(&threads[i], NULL, waits, "slow:waiting");
    int fifo = open(getenv("FIFO"), O_WRONLY); /* as soon as the handler runs */
    for (int i = 0; i < 2; i++)
        pthread_kill(threads[i], SIGUSR1);
    show("meanwhile", add("n", "v", 1, SESSION));
    pid_t child = fork();
    if (child == 0) {
        request("slow:waiting", "x", SESSION);
        _exit(0);
    }
    usleep(200000);
    kill(child, SIGKILL);
    int status = 0;
    waitpid(child, &status, 0);
    printf("killed %d\n", WIFSIGNALED(status));
    if (write(fifo, "made", 4) != 4)
        exit(1);
    close(fifo);
    for (int i = 0; i < 2; i++)
        pthread_join(threads[i], &made[i]);
    printf("both %d\n", (long)made[0] > 0 && made[0] == made[1]);
}

/* ---- many */

static unsigned wrong;

static void *works(void *of)
{
    unsigned long number = (unsigned long)of;
    char name[64], payload[64];
    for (int turn = 0; turn < 20; turn++) {
        int length = snprintf(name, sizeof name, "%d-%lu-%d", getpid(), number, turn);
        long key = add(name, name, (size_t)length, SESSION);
        long got = KEYCTL(READ, key, payload, sizeof payload);
        if (key < 0 || got != length || memcmp(name, payload, (size_t)length) != 0 || KEYCTL(UNLINK, key, SESSION) < 0)
            __atomic_add_fetch(&wrong, 1, __ATOMIC_RELAXED);
    }
    return NULL;
}

static void many(int processes, int threads)
{
    unsigned faults = 0;
    for (int i = 0; i < processes; i++)
        if (fork() == 0) {
            pthread_t all[threads];
            for (long n = 0; n < threads; n++)
                pthread_create(&all[n], NULL, works, (void *)n);
            for (int n = 0; n < threads; n++)
                pthread_join(all[n], NULL);
            _exit(wrong > 0);
        }
    for (int status; wait(&status) > 0;)
        faults += status != 0;
    printf("many %u\n", faults);
}

/* Calls without an end, whose answers are checked; a parent kills it. Descriptors and processes come and go beside. */
static void toils(int seed)
{
    unsigned turn = (unsigned)seed;
    for (unsigned long count = 0;; count++) {
        char name[64], payload[64];
        turn = turn * 1103515245 + 12345;
        int length = snprintf(name, sizeof name, "%d-%lu", getpid(), count);
        long key = add(name, name, (size_t)length, turn & 65536 ? SESSION : USER);
        if (key < 0 && errno != EDQUOT) {
            printf("add %s\n", strerrorname_np(errno));
            exit(1);
        }
        long got = key < 0 ? 0 : KEYCTL(READ, key, payload, sizeof payload);
        if (key >= 0 && !(got == length && memcmp(name, payload, (size_t)length) == 0)) {
            printf("read %ld %s\n", got, strerrorname_np(errno));
            exit(1);
        }
        if (key >= 0)
            KEYCTL(UNLINK, key, turn & 65536 ? SESSION : USER);
        if ((turn >> 20) % 64 == 0 && KEYCTL(JOIN, NULL) < 0 && errno != EDQUOT) {
            printf("join %s\n", strerrorname_np(errno));
            exit(1);
        }
        if (write(STDOUT_FILENO, ".", 1) != 1)
            exit(0);
    }
}

static void dots(long wanted, int processes)
{
    unsigned turn = 1, faults = 0;
    pid_t children[processes];
    char heard[4096];
    long count = 0;
    int link[2];
    if (pipe(link) < 0)
        exit(1);
    memset(children, 0, sizeof children);
    while (count < wanted) {
        for (int i = 0; i < processes; i++)
            if (children[i] == 0 && (children[i] = fork()) == 0) {
                dup2(link[1], STDOUT_FILENO);
                close(link[0]);
                toils(i + (int)count);
            }
        ssize_t length = read(link[0], heard, sizeof heard);
        for (ssize_t i = 0; i < length; i++)
            if (heard[i] == '.')
                count++;
            else
                faults += fwrite(heard + i, 1, 1, stderr) == 1;
        turn = turn * 1103515245 + 12345;
        int victim = (int)((turn >> 16) % (unsigned)processes);
        if ((turn >> 24) % 4 == 0 && children[victim] > 0) {
            kill(children[victim], SIGKILL);
            waitpid(children[victim], NULL, 0);
            children[victim] = 0;
        }
    }
    for (int i = 0; i < processes; i++)
        if (children[i] > 0) {
            kill(children[i], SIGKILL);
            waitpid(children[i], NULL, 0);
        }
    printf("dots %u\n", faults);
}

/* ---- who else calls */

static void parents(long turns)
{
    struct timespec begun, now;
    clock_gettime(CLOCK_MONOTONIC, &begun);
    for (long i = 0; i < turns; i++)
        syscall(SYS_getppid);
    clock_gettime(CLOCK_MONOTONIC, &now);
    fprintf(stderr, "%.0f\n", ((double)(now.tv_sec - begun.tv_sec) * 1e9 + (double)(now.tv_nsec - begun.tv_nsec)) / (double)turns);
    puts("parents done");
}

/* Calls on each line of input. */
static void lines(void)
{
    for (int next; (next = getchar()) != EOF;)
        if (next == '\n')
            show("add", add("k", "v", 1, SESSION));
        else if (next == 'j')
            show("join", KEYCTL(JOIN, NULL));
}

/* A handler: completes its key, and leaves a child in the background that has left all streams. */
static void handles(int key)
{
    char callout[128];
    long length = KEYCTL(READ, -7L, callout, sizeof callout);
    long inner = request("made:inner", "nested", SESSION);
    show("nested", KEYCTL(READ, inner, NULL, 0L));
    show("authority", KEYCTL(GET_ID, -7L, 0L));
    show("requestor", KEYCTL(GET_ID, -8L, 0L));
    pid_t behind = fork();
    if (behind == 0) {
        for (int i = 0; i < 64; i++)
            close(i);
        sleep(1000);
        _exit(0);
    }
    printf("behind %d\n", behind);
    struct iovec parts[2] = {{"by ", 3}, {callout, (size_t)length}};
    show("instantiate", KEYCTL(IOV, key, parts, 2L, -8L));
    show("again", KEYCTL(INSTANTIATE, key, "v", 1L, 0L));
}

int main(int count, char **words)
{
    const char *subject = count > 1 ? words[1] : "";
    long number = count > 2 ? atol(words[2]) : 0, other = count > 3 ? atol(words[3]) : 0;
    struct {
        const char *name;
        void (*does)(void);
    } subjects[] = {
        {"calls", calls}, {"hostile", hostile}, {"rings", rings}, {"user", user}, {"undumpable", undumpable}, {"waiting", waiting}, {"lines", lines},
    };
    for (size_t i = 0; i < sizeof subjects / sizeof *subjects; i++)
        if (strcmp(subject, subjects[i].name) == 0)
            subjects[i].does();
    if (strcmp(subject, "many") == 0)
        many((int)number, (int)other);
    if (strcmp(subject, "dots") == 0)
        dots(number, (int)other);
    if (strcmp(subject, "parents") == 0)
        parents(number);
    if (strcmp(subject, "handles") == 0)
        handles((int)number);
    return 0;
}
