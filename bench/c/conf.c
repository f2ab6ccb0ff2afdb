#include "conf.h"

enum { MAX_LINE = 8192, MAX_WORDS = 65536 };

static const bool white[256] = {[' '] = true, ['\t'] = true, ['\v'] = true, ['\f'] = true, ['\r'] = true};

/* ---- reading */

/* Reads `{type:description}`. */
static bool read_lookup(struct bytes field, struct argument *argument)
{
    if (field.len < 2 || field.at[0] != '{' || field.at[field.len - 1] != '}')
        return false;
    struct bytes name = {field.at + 1, field.len - 2};
    const uint8_t *colon = name.len ? memchr(name.at, ':', name.len) : NULL;
    if (!colon)
        return false;
    argument->letter = '{';
    argument->word = (struct bytes){name.at, (size_t)(colon - name.at)};
    argument->description = (struct bytes){colon + 1, (size_t)(name.at + name.len - colon - 1)};
    return !type_fault(argument->word) && !description_fault(argument->description);
}

static bool read_argument(struct bytes field, struct argument *argument)
{
    *argument = (struct argument){.letter = '=', .word = field};
    if (field.at[0] != '%')
        return true;
    field.at++;
    field.len--;
    if (field.len && field.at[0] == '%') {
        argument->word = field;
        return true;
    }
    if (field.len == 1) {
        argument->letter = (char)field.at[0];
        return field.at[0] && strchr("oktdcugTPS", field.at[0]);
    }
    return read_lookup(field, argument);
}

static bool read_arguments(struct bytes text, struct conf_line *line)
{
    struct bytes field;
    for (size_t room = 0; cut_field(&text, &field, white); line->count++) {
        if (line->count == room) {
            room = room ? 2 * room : 8;
            line->arguments = checked(realloc(line->arguments, room * sizeof *line->arguments));
        }
        if (!read_argument(field, &line->arguments[line->count]))
            return false;
    }
    return true;
}

/* The code of the first rule that the line breaks, or null. */
static const char *read_line(struct bytes text, struct conf_line *line)
{
    *line = (struct conf_line){0};
    if (text.len > MAX_LINE)
        return "C4";
    if (!is_text(text.at, text.len))
        return "C6";
    struct bytes *fields[] = {&line->op, &line->type, &line->description, &line->callout, &line->program};
    for (int i = 0; i < 5; i++)
        if (!cut_field(&text, fields[i], white))
            return "C1";
    line->piped = line->program.at[0] == '|';
    line->program.at += line->piped;
    line->program.len -= line->piped;
    if (!line->program.len || line->program.at[0] != '/')
        return "C2";
    return read_arguments(text, line) ? NULL : "C3";
}

static bool is_comment(struct bytes text)
{
    struct bytes field;
    return !cut_field(&text, &field, white) || field.at[0] == '#';
}

bool conf_read(struct conf *conf, struct bytes text, size_t *number, const char **code)
{
    *conf = (struct conf){0};
    *number = 0;
    size_t room = 0;
    for (bool more = true; more;) {
        struct bytes line;
        more = cut_line(&text, &line);
        ++*number;
        if (is_comment(line))
            continue;
        if (conf->count == room) {
            room = room ? 2 * room : 8;
            conf->lines = checked(realloc(conf->lines, room * sizeof *conf->lines));
        }
        *code = read_line(line, &conf->lines[conf->count++]);
        if (*code)
            return false;
    }
    return true;
}

void conf_free(struct conf *conf)
{
    for (size_t i = 0; i < conf->count; i++)
        free(conf->lines[i].arguments);
    free(conf->lines);
}

/* ---- picking */

static bool matches(struct bytes pattern, struct bytes text)
{
    size_t p = 0, t = 0, star = SIZE_MAX, from = 0;
    while (t < text.len) {
        if (p < pattern.len && pattern.at[p] == '*') {
            star = ++p;
            from = t;
        } else if (p < pattern.len && pattern.at[p] == text.at[t]) {
            p++;
            t++;
        } else if (star != SIZE_MAX) {
            p = star;
            t = ++from;
        } else {
            return false;
        }
    }
    while (p < pattern.len && pattern.at[p] == '*')
        p++;
    return p == pattern.len;
}

static struct bytes op_of(const struct subject *subject)
{
    return bytes_of(subject->negates ? "negate" : "create");
}

static struct bytes callout_of(const struct subject *subject)
{
    return (struct bytes){subject->construction->callout, subject->construction->callout_len};
}

static const struct conf_line *pick(const struct conf *conf, const struct subject *subject)
{
    struct bytes op = op_of(subject), callout = callout_of(subject);
    for (size_t i = 0; i < conf->count; i++) {
        const struct conf_line *line = &conf->lines[i];
        if (matches(line->op, op) && matches(line->type, key_type(subject->key))
            && matches(line->description, key_description(subject->key)) && matches(line->callout, callout))
            return line;
    }
    return NULL;
}

/* ---- writing */

uint8_t *write_number(uint8_t *to, uint64_t number)
{
    uint8_t digits[20], *end = digits + sizeof digits, *at = end;
    do
        *--at = (uint8_t)('0' + number % 10);
    while (number /= 10);
    while (at < end)
        *to++ = *at++;
    return to;
}

void put_number(struct buffer *out, uint64_t number)
{
    uint8_t *begin = buffer_end(out, 20);
    out->len += (size_t)(write_number(begin, number) - begin);
}

/* A word behind a space and `=`: what is no visible ASCII, and `%`, as `%` and two digits. */
static void put_word(struct buffer *out, struct bytes word)
{
    static const char digits[] = "0123456789ABCDEF";
    uint8_t *to = buffer_end(out, 2 + 3 * word.len), *begin = to;
    *to++ = ' ';
    *to++ = '=';
    for (size_t i = 0; i < word.len; i++) {
        uint8_t byte = word.at[i];
        if (byte > 0x20 && byte < 0x7f && byte != '%') {
            *to++ = byte;
        } else {
            *to++ = '%';
            *to++ = (uint8_t)digits[byte >> 4];
            *to++ = (uint8_t)digits[byte & 15];
        }
    }
    out->len += (size_t)(to - begin);
}

/* The number of a macro in decimal, in its room. */
static struct bytes decimal(uint32_t number, char room[11])
{
    return (struct bytes){(uint8_t *)room, (size_t)snprintf(room, 11, "%u", number)};
}

/* What an argument stands for; false where a lookup finds no text. */
static bool word_of(struct machine *m, uint64_t now, const struct subject *subject, const struct argument *argument, char room[11], struct bytes *word)
{
    const struct construction *c = subject->construction;
    switch (argument->letter) {
    case 'o': *word = op_of(subject); return true;
    case 'k': *word = decimal(c->key, room); return true;
    case 't': *word = key_type(subject->key); return true;
    case 'd': *word = key_description(subject->key); return true;
    case 'c': *word = callout_of(subject); return true;
    case 'u': *word = decimal(c->context.uid, room); return true;
    case 'g': *word = decimal(c->context.gid, room); return true;
    case 'T': *word = decimal(c->rings[THREAD], room); return true;
    case 'P': *word = decimal(c->rings[PROCESS], room); return true;
    case 'S': *word = decimal(c->rings[SESSION], room); return true;
    case '{': return machine_peek(m, c->key, argument->word, argument->description, now, word) && is_text(word->at, word->len);
    default: *word = argument->word; return true;
    }
}

bool conf_start(const struct conf *conf, struct machine *m, uint64_t now, const struct subject *subject, struct buffer *out, bool *piped)
{
    const struct conf_line *line = pick(conf, subject);
    if (!line)
        return false;
    size_t begin = out->len, used = 0;
    *piped = line->piped && !subject->negates;
    buffer_put(out, "start ", 6);
    put_number(out, subject->construction->key);
    buffer_put(out, *piped ? " piped" : " plain", 6);
    put_word(out, line->program);
    for (size_t i = 0; i < line->count; i++) {
        char room[11];
        struct bytes word;
        if (!word_of(m, now, subject, &line->arguments[i], room, &word) || (used += word.len + 1) > MAX_WORDS) {
            out->len = begin;
            return false;
        }
        put_word(out, word);
    }
    buffer_put(out, "\n", 1);
    return true;
}
