/* Memory: what is asked for, or the end of the program. */
#ifndef MEMORY_H
#define MEMORY_H

#include <stddef.h>
#include <stdint.h>
#include <stdio.h>
#include <stdlib.h>
#include <string.h>

/* Some bytes that stand somewhere else. */
struct bytes {
    const uint8_t *at;
    size_t len;
};

static inline struct bytes bytes_of(const char *text)
{
    return (struct bytes){(const uint8_t *)text, strlen(text)};
}

/* The replay gives up where memory is lacking, before it has written anything; so do the benches. */
static inline void *checked(void *memory)
{
    if (!memory) {
        fputs("reqkeyd: script\n", stderr);
        exit(1);
    }
    return memory;
}

static inline void *make(size_t size)
{
    return checked(malloc(size ? size : 1));
}

static inline void *make_zeroed(size_t count, size_t size)
{
    return checked(calloc(count ? count : 1, size));
}

/* Bytes that grow at their end. */
struct buffer {
    uint8_t *at;
    size_t len, room;
};

static inline void buffer_grow(struct buffer *buffer, size_t more)
{
    size_t room = buffer->room ? buffer->room : 256;
    while (room - buffer->len < more)
        room *= 2;
    buffer->at = checked(realloc(buffer->at, room));
    buffer->room = room;
}

/* Where the next bytes go, `more` of them at least. The caller adds to `len` what it has written. */
static inline uint8_t *buffer_end(struct buffer *buffer, size_t more)
{
    if (buffer->room - buffer->len < more)
        buffer_grow(buffer, more);
    return buffer->at + buffer->len;
}

static inline void buffer_put(struct buffer *buffer, const void *bytes, size_t len)
{
    if (len)
        memcpy(buffer_end(buffer, len), bytes, len);
    buffer->len += len;
}

static inline void buffer_free(struct buffer *buffer)
{
    free(buffer->at);
    *buffer = (struct buffer){0};
}

#endif
