#include "listen.h"

#include "descriptors.h"
#include "listener.h"
#include "passing.h"
#include "sets.h"
#include "state.h"

#include <errno.h>
#include <pthread.h>
#include <signal.h>
#include <stdbool.h>
#include <stdio.h>
#include <stdlib.h>
#include <string.h>
#include <sys/prctl.h>
#include <sys/socket.h>
#include <sys/stat.h>
#include <sys/un.h>
#include <unistd.h>

enum { TEXT = 1 << 16, NAME = 512, WAITING = 64, SECONDS = 10 };

static int failed(const char *path)
{
    fprintf(stderr, "reqkey-trap: %s: %s\n", path, strerror(errno));
    return 1;
}

/* Removes a socket that nobody listens at; false if somebody does, or it is another file. */
static bool is_free(const struct sockaddr_un *address)
{
    struct stat file;
    if (lstat(address->sun_path, &file) < 0)
        return errno == ENOENT;
    int probe = S_ISSOCK(file.st_mode) ? socket(AF_UNIX, SOCK_STREAM | SOCK_CLOEXEC, 0) : -1;
    bool dead = probe >= 0 && connect(probe, (const struct sockaddr *)address, sizeof *address) < 0 && errno == ECONNREFUSED;
    if (probe >= 0)
        close(probe);
    errno = EADDRINUSE;
    return dead && unlink(address->sun_path) == 0;
}

static int bound(const char *path)
{
    struct sockaddr_un address = {.sun_family = AF_UNIX};
    if (path[0] == 0) { /* which would be a name to which anybody may connect (unix(7), "abstract") */
        errno = ENOENT;
        return -1;
    }
    if (strlen(path) >= sizeof address.sun_path) {
        errno = ENAMETOOLONG;
        return -1;
    }
    strcpy(address.sun_path, path);
    int server = is_free(&address) ? socket(AF_UNIX, SOCK_STREAM | SOCK_CLOEXEC, 0) : -1;
    mode_t mask = umask(077);
    bool done = server >= 0 && bind(server, (struct sockaddr *)&address, sizeof address) == 0 && listen(server, WAITING) == 0;
    umask(mask);
    return done ? server : -1;
}

/* A name that no runtime gives, for a container that has said none. */
static void name_it(char *name, size_t room)
{
    static unsigned count;
    snprintf(name, room, "\"%u", __atomic_add_fetch(&count, 1, __ATOMIC_RELAXED));
}

/* Takes what one runtime sends, in a thread of its own, since it may send nothing. */
static void *take(void *of)
{
    int peer = (int)(intptr_t)of;
    char name[NAME], *text = malloc(TEXT);
    struct timeval patience = {SECONDS, 0};
    setsockopt(peer, SOL_SOCKET, SO_RCVTIMEO, &patience, sizeof patience);
    int listener = text == NULL ? -1 : passed(peer, text, TEXT);
    if (listener >= 0 && !state_name(text, name, sizeof name))
        name_it(name, sizeof name);
    bool silent = text != NULL && listener < 0 && text[0] == 0; /* it has given the container up */
    struct set *set = listener < 0 ? NULL : set_begin(name);
    if (set == NULL && listener >= 0)
        close(listener);
    if (!silent && (set == NULL || !listener_begin(listener, set, NULL)))
        fputs("reqkey-trap: a message without a listener, or out of memory\n", stderr);
    close(peer);
    free(text);
    return NULL;
}

int listen_at(const char *path)
{
    int server = bound(path);
    if (server < 0)
        return failed(path);
    signal(SIGPIPE, SIG_IGN);
    prctl(PR_SET_DUMPABLE, 0, 0, 0, 0); /* its memory is for itself: of each container something is in it */
    descriptors_many();
    fputs("reqkey-trap: ready\n", stderr);
    for (;;) {
        pthread_t thread;
        int peer = accept4(server, NULL, NULL, SOCK_CLOEXEC);
        if (peer < 0 && errno != EINTR && errno != ECONNABORTED)
            usleep(10000); /* out of descriptors: some come back when containers end */
        if (peer < 0)
            continue;
        if (pthread_create(&thread, NULL, take, (void *)(intptr_t)peer) == 0)
            pthread_detach(thread);
        else
            close(peer);
    }
}
