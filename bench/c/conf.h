/* The configuration of reqkeyd.conf(5): its lines, which one a request picks, and the words of its command. */
#ifndef CONF_H
#define CONF_H

#include "machine.h"

struct argument {
    char letter;                     /* of a macro; '{' for a lookup, '=' for a word as it stands */
    struct bytes word, description;  /* of a lookup the type and the description */
};

struct conf_line {
    struct bytes op, type, description, callout, program;
    bool piped;
    struct argument *arguments;
    size_t count;
};

/* The text has to stay where it is. */
struct conf {
    struct conf_line *lines;
    size_t count;
};

/* Reads a text: true, or the number of its first bad line and the code of the rule that it breaks. */
bool conf_read(struct conf *conf, struct bytes text, size_t *line, const char **code);
void conf_free(struct conf *conf);

/* What a command is started for. */
struct subject {
    bool negates; /* the op, create or negate */
    const struct key *key;
    const struct construction *construction;
};

/* Writes the line `start K ..` of the command; false, with nothing written, where no line fits or its words can't be made. */
bool conf_start(const struct conf *conf, struct machine *m, uint64_t now, const struct subject *subject, struct buffer *out, bool *piped);

/* Writes a number in decimal; where there is room for 20 digits, or behind a buffer. */
uint8_t *write_number(uint8_t *to, uint64_t number);
void put_number(struct buffer *out, uint64_t number);

/* The first field of a text behind white space, which is then taken off its front; false where there is none. */
static inline bool cut_field(struct bytes *text, struct bytes *field, const bool space[256])
{
    const uint8_t *at = text->at, *end = text->at + text->len;
    while (at < end && space[*at])
        at++;
    field->at = at;
    while (at < end && !space[*at])
        at++;
    field->len = (size_t)(at - field->at);
    *text = (struct bytes){at, (size_t)(end - at)};
    return field->len > 0;
}

/* The first line of a text, which is then taken off its front; false for the last one. */
static inline bool cut_line(struct bytes *text, struct bytes *line)
{
    const uint8_t *end = text->len ? memchr(text->at, '\n', text->len) : NULL;
    line->at = text->at;
    line->len = end ? (size_t)(end - text->at) : text->len;
    text->at += line->len + (end != NULL);
    text->len -= line->len + (end != NULL);
    return end != NULL;
}

#endif
