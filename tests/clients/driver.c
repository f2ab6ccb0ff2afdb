/*
 * Asks what a script says, by clients/c/reqkey.h, and writes a line of what came of each ask.
 *
 * usage: driver client      the script is standard input, the lines go to standard output
 *        driver handler SCRIPT TOLD
 *
 * A line of a script is an ask and its arguments, with one space between them; %XX is a byte, @N so many letters p, a single - no callout. A client also has
 * the line `connect SOCKET`, which begins a session.
 */
#include "reqkey.h"

#include <stdio.h>
#include <stdlib.h>
#include <string.h>
#include <unistd.h>

enum { MOST = 8 };

struct word {
    char *at;
    size_t length;
};

static long number(const struct word *word)
{
    return strtol(word->at, NULL, 10);
}

/* The bytes that a word stands for, and a zero byte, in memory that is kept to the end. */
static struct word read_word(const char *text)
{
    if (text[0] == '@') {
        size_t length = strtoul(text + 1, NULL, 10);
        char *at = malloc(length + 1);
        memset(at, 'p', length);
        at[length] = 0;
        return (struct word){at, length};
    }
    char *at = malloc(strlen(text) + 1), *end = at;
    for (; *text; text++) {
        unsigned byte = (unsigned char)*text;
        if (*text == '%' && sscanf(text + 1, "%2x", &byte) == 1)
            text += 2;
        *end++ = (char)byte;
    }
    *end = 0;
    return (struct word){at, (size_t)(end - at)};
}

static void tell_bytes(FILE *told, const void *bytes, size_t length)
{
    const unsigned char *at = bytes;
    fputs("bytes ", told);
    for (size_t i = 0; i < length; i++)
        fprintf(told, at[i] > ' ' && at[i] <= '~' && at[i] != '%' ? "%c" : "%%%02X", at[i]);
    fputc('\n', told);
}

/* An ask that gives a number. */
static int asked(struct reqkey *session, const char *name, const struct word *w)
{
    if (strcmp(name, "request") == 0)
        return reqkey_request(session, w[0].at, w[1].at, strcmp(w[2].at, "-") == 0 ? NULL : w[2].at, (int32_t)number(w + 3));
    if (strcmp(name, "assume") == 0)
        return reqkey_assume(session, (int32_t)number(w));
    if (strcmp(name, "instantiate") == 0)
        return reqkey_instantiate(session, (int32_t)number(w), w[1].at, w[1].length, (int32_t)number(w + 2));
    if (strcmp(name, "negate") == 0)
        return reqkey_negate(session, (int32_t)number(w), (uint32_t)number(w + 1), (int32_t)number(w + 2));
    if (strcmp(name, "reject") == 0)
        return reqkey_reject(session, (int32_t)number(w), (uint32_t)number(w + 1), (uint32_t)number(w + 2), (int32_t)number(w + 3));
    if (strcmp(name, "revoke") == 0)
        return reqkey_revoke(session, (int32_t)number(w));
    if (strcmp(name, "timeout") == 0)
        return reqkey_timeout(session, (int32_t)number(w), (uint32_t)number(w + 1));
    if (strcmp(name, "link") == 0)
        return reqkey_link(session, (int32_t)number(w), (int32_t)number(w + 1));
    if (strcmp(name, "unlink") == 0)
        return reqkey_unlink(session, (int32_t)number(w), (int32_t)number(w + 1));
    if (strcmp(name, "clear") == 0)
        return reqkey_clear(session, (int32_t)number(w));
    if (strcmp(name, "default") == 0)
        return reqkey_default(session, (int32_t)number(w));
    if (strcmp(name, "add") == 0)
        return reqkey_add(session, w[0].at, w[1].at, w[2].at, w[2].length, (int32_t)number(w + 3));
    abort();
}

static int tell(FILE *told, struct reqkey *session, const char *name, const struct word *w)
{
    struct reqkey_rings rings;
    const void *bytes;
    const char *text;
    int result;
    if (strcmp(name, "hello") == 0) {
        result = reqkey_hello(session, (uint32_t)number(w), (uint32_t)number(w + 1), (unsigned)number(w + 2), (uint32_t)number(w + 3), &rings);
        if (result == 0)
            fprintf(told, "%u %u %u %u\n", rings.thread, rings.process, rings.session, rings.user);
    } else if (strcmp(name, "read") == 0) {
        result = reqkey_read(session, (int32_t)number(w), &bytes);
        if (result >= 0)
            tell_bytes(told, bytes, (size_t)result);
    } else if (strcmp(name, "get") == 0) {
        result = reqkey_get(session, w[0].at, w[1].at, strcmp(w[2].at, "-") == 0 ? NULL : w[2].at, &bytes);
        if (result >= 0)
            tell_bytes(told, bytes, (size_t)result);
    } else if (strcmp(name, "describe") == 0 || strcmp(name, "callout") == 0) {
        result = name[0] == 'd' ? reqkey_describe(session, (int32_t)number(w), &text) : reqkey_callout(session, &text);
        if (result >= 0)
            tell_bytes(told, text, strlen(text));
    } else if ((result = asked(session, name, w)) >= 0) {
        fprintf(told, "%d\n", result);
    }
    return result;
}

/* Cuts the arguments of a line off, and gives how many there are. */
static int read_words(char *line, struct word *words)
{
    int count = 0;
    char *rest = strchr(line, ' ');
    while (rest != NULL && count < MOST) {
        *rest++ = 0;
        char *next = strchr(rest, ' ');
        if (next != NULL)
            *next = 0;
        words[count++] = read_word(rest);
        if (next != NULL)
            *next = ' ';
        rest = next;
    }
    return count;
}

/* Plays a script to its end, and gives the session that is then left. */
static struct reqkey *play(FILE *script, FILE *told, struct reqkey *session)
{
    static char line[65536];
    while (fgets(line, sizeof line, script)) {
        struct word words[MOST] = {{NULL, 0}};
        line[strcspn(line, "\n")] = 0;
        int count = read_words(line, words);
        if (strcmp(line, "connect") == 0) {
            reqkey_free(session);
            session = reqkey_connect(words[0].at);
            fprintf(told, session != NULL ? "connected\n" : "system\n");
        } else {
            int result = tell(told, session, line, words);
            if (result < 0)
                fprintf(told, "%s\n", reqkey_name(result));
        }
        for (int i = 0; i < count; i++)
            free(words[i].at);
    }
    return session;
}

int main(int count, char **words)
{
    FILE *script = stdin, *told = stdout;
    struct reqkey *session = NULL;
    if (count == 4) {
        script = fopen(words[2], "r");
        told = fopen(words[3], "w");
        session = reqkey_open(STDIN_FILENO, STDOUT_FILENO);
        if (session == NULL || script == NULL || told == NULL) {
            perror("driver");
            return 1;
        }
    }
    reqkey_free(play(script, told, session));
    fclose(told);
    fclose(script);
    return 0;
}
