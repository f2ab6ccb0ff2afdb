#include "log.h"

#include "now.h"

#include <poll.h>
#include <stdarg.h>
#include <stdbool.h>
#include <stdint.h>
#include <stdio.h>
#include <stdlib.h>
#include <string.h>
#include <sys/stat.h>
#include <time.h>
#include <unistd.h>

enum { LINES = 10, MINUTE = 60000, LINE = 1024 };

static const char *const NAMES[LOG_KINDS] = {"refusals", "connections to the daemon", "accepts"};

static struct {
    int64_t begun; /* of its minute */
    unsigned lines;
    unsigned long more;
} kinds[LOG_KINDS];

static bool journal;

void log_begin(void)
{
    unsigned long device, inode;
    struct stat file;
    const char *told = getenv("JOURNAL_STREAM");
    journal = told != NULL && sscanf(told, "%lu:%lu", &device, &inode) == 2 && fstat(STDERR_FILENO, &file) == 0 && file.st_dev == device &&
              file.st_ino == inode;
}

/* One write(2), so that lines of several programs do not mix. */
static void put(const char *line, size_t length)
{
    struct pollfd output = {STDERR_FILENO, POLLOUT, 0};
    if (poll(&output, 1, 0) > 0 && (output.revents & POLLOUT) != 0 && write(STDERR_FILENO, line, length) < 0)
        return; /* nobody is there to be told */
}

void log_warning(const char *form, ...)
{
    char line[LINE];
    size_t length = 0;
    time_t seconds = time(NULL);
    struct tm moment;
    if (journal)
        length = (size_t)snprintf(line, sizeof line, "<4>");
    else if (gmtime_r(&seconds, &moment) != NULL)
        length = strftime(line, sizeof line, "%Y-%m-%dT%H:%M:%SZ warn: ", &moment);
    va_list values;
    va_start(values, form);
    int more = vsnprintf(line + length, sizeof line - length - 1, form, values);
    va_end(values);
    if (more > 0)
        length += (size_t)more < sizeof line - length - 1 ? (size_t)more : sizeof line - length - 2;
    line[length++] = '\n';
    put(line, length);
}

bool log_counts(enum log_kind kind)
{
    int64_t now = now_ms();
    if (kinds[kind].lines == 0 || now - kinds[kind].begun >= MINUTE) {
        if (kinds[kind].more > 0)
            log_warning("%s: and %lu more", NAMES[kind], kinds[kind].more);
        kinds[kind].begun = now;
        kinds[kind].lines = 0;
        kinds[kind].more = 0;
    }
    if (kinds[kind].lines < LINES) {
        kinds[kind].lines++;
        return true;
    }
    kinds[kind].more++;
    return false;
}
