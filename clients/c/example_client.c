/*
 * Prints the payload of a key of the daemon; where there is none, the callout is what its handler gets.
 *
 * reqkey_get requests it into the user's ring, so that the next run finds it there: a session ring ends with its session, and each run is one.
 *
 * usage: example_client SOCKET TYPE DESCRIPTION [CALLOUT]
 */
#include "reqkey.h"

#include <stdio.h>
#include <unistd.h>

/* Tells what came of an ask that was not carried out. */
static int failed(const char *what, int result)
{
    fprintf(stderr, "%s: %s: %s\n", what, reqkey_name(result), reqkey_text(result));
    return 1;
}

static int show(struct reqkey *session, char **words)
{
    const void *payload;
    int result = reqkey_hello(session, getuid(), getgid(), 0, 0, NULL);
    if (result < 0)
        return failed("hello", result);
    int length = reqkey_get(session, words[0], words[1], words[2], &payload);
    if (length < 0)
        return failed("get", length);
    fwrite(payload, 1, (size_t)length, stdout);
    putchar('\n');
    return 0;
}

int main(int count, char **words)
{
    if (count != 4 && count != 5) {
        fprintf(stderr, "usage: example_client SOCKET TYPE DESCRIPTION [CALLOUT]\n");
        return 2;
    }
    struct reqkey *session = reqkey_connect(words[1]);
    if (session == NULL) {
        perror(words[1]);
        return 1;
    }
    int status = show(session, words + 2); /* a NULL is behind the last word */
    reqkey_free(session);
    return status;
}
