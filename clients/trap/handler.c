#include "handler.h"

#include "listener.h"

#include <errno.h>
#include <fcntl.h>
#include <pthread.h>
#include <stdio.h>
#include <stdlib.h>
#include <unistd.h>

static pthread_mutex_t turn = PTHREAD_MUTEX_INITIALIZER;

static struct {
    bool begun;
    struct reqkey *session; /* NULL once it is over */
    int input, output;
    int32_t key;
} handler;

/* Copies of the streams that no program gets. The library for keyutils' programs may have moved them, if it was preloaded. */
static void find_streams(void)
{
    int input = STDIN_FILENO, output = STDOUT_FILENO;
    const char *moved = getenv("REQKEYD_STREAMS");
    if (moved == NULL || sscanf(moved, "%d,%d", &input, &output) != 2)
        input = STDIN_FILENO, output = STDOUT_FILENO;
    handler.input = fcntl(input, F_DUPFD_CLOEXEC, 20);
    handler.output = fcntl(output, F_DUPFD_CLOEXEC, 20);
    if (input > STDERR_FILENO && output > STDERR_FILENO) {
        close(input);
        close(output);
    }
    unsetenv("REQKEYD_STREAMS");
    unsetenv("LD_PRELOAD");
}

/* Nothing in the place of standard input, and standard error in that of standard output. */
static void replace_streams(void)
{
    int nothing = open("/dev/null", O_RDONLY | O_CLOEXEC);
    if (nothing >= 0)
        dup2(nothing, STDIN_FILENO);
    if (nothing > STDERR_FILENO)
        close(nothing);
    dup2(STDERR_FILENO, STDOUT_FILENO);
}

int handler_begin(int32_t key)
{
    find_streams();
    replace_streams();
    if (handler.input < 0 || handler.output < 0)
        return -REQKEY_SYSTEM;
    handler.session = reqkey_open(handler.input, handler.output);
    if (handler.session == NULL)
        return -REQKEY_ENOMEM;
    handler.begun = true;
    handler.key = key;
    return reqkey_assume(handler.session, key);
}

bool is_handler(void)
{
    return handler.begun;
}

int32_t handler_key(void)
{
    return handler.key;
}

void handler_assumes(int32_t key)
{
    handler.key = key;
}

struct reqkey *handler_take(void)
{
    if (pthread_mutex_trylock(&turn) != 0) {
        listener_waits();
        pthread_mutex_lock(&turn);
    }
    if (handler.session != NULL)
        return handler.session;
    errno = ECONNRESET;
    pthread_mutex_unlock(&turn);
    return NULL;
}

void handler_give(void)
{
    if (handler.session != NULL)
        reqkey_wipe(handler.session);
    pthread_mutex_unlock(&turn);
}

void handler_end(void)
{
    pthread_mutex_lock(&turn);
    reqkey_free(handler.session);
    handler.session = NULL;
    close(handler.input);
    close(handler.output);
    pthread_mutex_unlock(&turn);
}
