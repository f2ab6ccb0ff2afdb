/*
 * A plain handler: makes keys whose payload is their callout in capitals, and says for an hour that there is none where the callout is empty.
 *
 * Its line in the configuration: create user capitals:* * /path/of/example_handler %k
 *
 * A key that is to expire gets its time before its payload: reqkey_timeout, and then reqkey_instantiate, after which all is refused (EACCES).
 */
#include "reqkey.h"

#include <ctype.h>
#include <stdlib.h>
#include <string.h>
#include <unistd.h>

/* The text stands in the session, so that it is copied before the next ask. */
static int make(struct reqkey *session, int32_t key)
{
    const char *callout;
    char payload[4096];
    int length = reqkey_callout(session, &callout);
    if (length < 0 || (size_t)length > sizeof payload)
        return -1;
    if (length == 0)
        return reqkey_negate(session, key, 3600, REQKEY_NO_RING);
    for (int i = 0; i < length; i++)
        payload[i] = (char)toupper((unsigned char)callout[i]);
    return reqkey_instantiate(session, key, payload, (size_t)length, REQKEY_NO_RING);
}

int main(int count, char **words)
{
    struct reqkey *session = reqkey_open(STDIN_FILENO, STDOUT_FILENO);
    int32_t key = count == 2 ? (int32_t)atol(words[1]) : 0;
    int done = session != NULL && reqkey_assume(session, key) == 0 && make(session, key) == 0;
    reqkey_free(session);
    return done ? 0 : 1;
}
