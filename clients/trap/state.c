#include "state.h"

#include <string.h>

static const char *behind_spaces(const char *at)
{
    return at + strspn(at, " \t\r\n");
}

/* Behind a string that begins here; NULL if it has no end. */
static const char *behind_string(const char *at)
{
    for (at++; *at != '"'; at++) {
        if (*at == '\\')
            at++;
        if (*at == 0)
            return NULL;
    }
    return at + 1;
}

/* Behind a value that begins here; NULL if it has no end. What is in it does not matter but for its strings and brackets. */
static const char *behind_value(const char *at)
{
    size_t depth = 0;
    do {
        if (*at == 0)
            return NULL;
        if (*at == '"') {
            at = behind_string(at);
            if (at == NULL)
                return NULL;
        } else {
            depth += *at == '{' || *at == '[';
            depth -= depth > 0 && (*at == '}' || *at == ']');
            at++;
        }
    } while (depth > 0 || strchr(",}]", *at) == NULL);
    return *at == 0 ? NULL : at;
}

/* The value of a field of the object that begins here; NULL if there is none. */
static const char *field(const char *at, const char *name)
{
    size_t length = strlen(name);
    at = behind_spaces(at);
    if (*at != '{')
        return NULL;
    do {
        const char *said = behind_spaces(at + 1), *behind = *said == '"' ? behind_string(said) : NULL, *value;
        if (behind == NULL)
            return NULL;
        value = behind_spaces(behind);
        if (*value != ':')
            return NULL;
        value = behind_spaces(value + 1);
        if ((size_t)(behind - said) == length + 2 && memcmp(said + 1, name, length) == 0)
            return value;
        at = behind_value(value);
    } while (at != NULL && *at == ',');
    return NULL;
}

bool state_name(const char *text, char *name, size_t room)
{
    const char *state = field(text, "state"), *id = state == NULL ? NULL : field(state, "id");
    const char *behind = id == NULL || *id != '"' ? NULL : behind_string(id);
    size_t length = behind == NULL ? 0 : (size_t)(behind - id) - 2;
    if (length == 0 || length >= room)
        return false;
    memcpy(name, id + 1, length);
    name[length] = 0;
    return true;
}
