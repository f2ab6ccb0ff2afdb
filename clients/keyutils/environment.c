#include "environment.h"

#include <stdlib.h>
#include <string.h>
#include <unistd.h>

/* `NAME=VALUE`, or NULL. */
static char *entry_of(const char *name, const char *value)
{
    size_t length = strlen(name), more = strlen(value);
    char *entry = malloc(length + 1 + more + 1);
    if (entry == NULL)
        return NULL;
    memcpy(entry, name, length);
    entry[length] = '=';
    memcpy(entry + length + 1, value, more + 1);
    return entry;
}

bool environment_set(const char *name, const char *value)
{
    size_t length = strlen(name), count = 0;
    char *entry = entry_of(name, value);
    if (entry == NULL)
        return false;
    for (; environ != NULL && environ[count] != NULL; count++) {
        if (strncmp(environ[count], name, length) != 0 || environ[count][length] != '=')
            continue;
        environ[count] = entry;
        return true;
    }
    char **wider = calloc(count + 2, sizeof *wider);
    if (wider == NULL) {
        free(entry);
        return false;
    }
    if (count > 0)
        memcpy(wider, environ, count * sizeof *wider);
    wider[count] = entry;
    environ = wider;
    return true;
}
