#include "loop.h"

#include "client.h"
#include "log.h"
#include "now.h"

#include <errno.h>
#include <signal.h>
#include <string.h>
#include <sys/epoll.h>
#include <sys/signalfd.h>
#include <sys/socket.h>
#include <unistd.h>

enum { EVENTS = 256, ACCEPTS = 64 /* in a row */, LISTENERS = 16, TICK = 100 /* milliseconds */ };

static int events_of = -1;
static struct end signals = {.descriptor = -1};
static struct end listeners[LISTENERS];
static unsigned listener_count;
static bool paused; /* no descriptors are left for those who connect */

bool watch(struct end *end, uint32_t events)
{
    struct epoll_event event = {.events = events, .data.ptr = end};
    if (end->watched && end->events == events)
        return true;
    if (epoll_ctl(events_of, end->watched ? EPOLL_CTL_MOD : EPOLL_CTL_ADD, end->descriptor, &event) < 0)
        return false;
    end->watched = true;
    end->events = events;
    return true;
}

/* A close alone would not do: another process may have the connection, too. */
void unwatch(struct end *end)
{
    if (end->watched)
        epoll_ctl(events_of, EPOLL_CTL_DEL, end->descriptor, NULL);
    end->watched = false;
}

void end_close(struct end *end)
{
    if (end->descriptor < 0)
        return;
    unwatch(end);
    close(end->descriptor);
    end->descriptor = -1;
}

static void listen_again(bool now)
{
    for (unsigned i = 0; i < listener_count; i++)
        watch(&listeners[i], now ? EPOLLIN : 0);
    paused = !now;
}

/* Lets in who has connected, some at a time. */
static void let_in(int socket)
{
    for (unsigned i = 0; i < ACCEPTS; i++) {
        int descriptor = accept4(socket, NULL, NULL, SOCK_CLOEXEC);
        if (descriptor >= 0)
            client_comes(descriptor);
        else if (errno != EINTR && errno != ECONNABORTED) {
            if (errno == EAGAIN)
                return;
            if (log_counts(LOG_ACCEPT))
                log_warning("accept: %s", strerror(errno));
            listen_again(false); /* until some have gone */
            return;
        }
    }
}

bool loop_begin(const int *sockets, unsigned count)
{
    sigset_t ending;
    sigemptyset(&ending);
    sigaddset(&ending, SIGTERM);
    sigaddset(&ending, SIGINT);
    signal(SIGPIPE, SIG_IGN);
    events_of = epoll_create1(EPOLL_CLOEXEC);
    signals.descriptor = sigprocmask(SIG_BLOCK, &ending, NULL) < 0 ? -1 : signalfd(-1, &ending, SFD_CLOEXEC | SFD_NONBLOCK);
    if (events_of < 0 || signals.descriptor < 0 || count > LISTENERS || !watch(&signals, EPOLLIN))
        return false;
    for (listener_count = 0; listener_count < count; listener_count++) {
        listeners[listener_count] = (struct end){.descriptor = sockets[listener_count]};
        if (!watch(&listeners[listener_count], EPOLLIN))
            return false;
    }
    return true;
}

/* What has happened at once; false if the door is to end. */
static bool happened(struct epoll_event *events, int count)
{
    bool goes_on = true;
    for (int i = 0; i < count; i++) {
        struct end *end = events[i].data.ptr;
        if (end == &signals)
            goes_on = false;
        else if (end->client == NULL)
            let_in(end->descriptor);
        else
            client_happens(end, events[i].events);
    }
    clients_bury();
    return goes_on;
}

static void finish(void)
{
    clients_end();
    for (unsigned i = 0; i < listener_count; i++)
        end_close(&listeners[i]);
    end_close(&signals);
    close(events_of);
}

void loop_run(void)
{
    struct epoll_event events[EVENTS];
    int64_t next = now_ms() + TICK;
    for (bool goes_on = true; goes_on;) {
        int found = epoll_wait(events_of, events, EVENTS, clients_wait() || paused ? TICK : -1);
        goes_on = found <= 0 || happened(events, found);
        if (now_ms() < next)
            continue;
        next = now_ms() + TICK;
        if (paused)
            listen_again(true);
        clients_tick();
    }
    finish();
}
