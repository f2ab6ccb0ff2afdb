/*
 * A daemon that is made of a fuzzer's input: what a session reads are the bytes that are left of it, cut anywhere, with signals and errors between. To be
 * included before the code under test, whose reads and writes it takes.
 */
#ifndef STREAM_H
#define STREAM_H

#include <errno.h>
#include <stddef.h>
#include <stdlib.h>
#include <string.h>
#include <sys/socket.h>
#include <sys/types.h>

static const unsigned char *input;
static size_t input_left;
static unsigned turn;

static unsigned next_turn(void)
{
    turn = turn * 1103515245 + 12345;
    return turn >> 16;
}

/* The next byte of the input, 0 after its end. */
static unsigned next_byte(void)
{
    if (input_left == 0)
        return 0;
    input_left--;
    return *input++;
}

__attribute__((unused)) static ssize_t fuzz_read(int descriptor, void *to, size_t size)
{
    unsigned how = next_turn();
    (void)descriptor;
    if (how % 11 == 0 || how % 997 == 1) {
        errno = how % 11 == 0 ? EINTR : EIO;
        return -1;
    }
    size_t length = how % 3 == 0 ? size : 1 + how % 7;
    length = length > size ? size : length;
    length = length > input_left ? input_left : length;
    if (length > 0)
        memcpy(to, input, length);
    input += length;
    input_left -= length;
    return (ssize_t)length;
}

/* Looks at every byte, so that the sanitizer does. */
__attribute__((unused)) static ssize_t fuzz_write(int descriptor, const void *from, size_t size)
{
    unsigned how = next_turn();
    unsigned char seen = 0;
    (void)descriptor;
    for (size_t i = 0; i < size; i++)
        seen ^= ((const unsigned char *)from)[i];
    turn += seen;
    if (how % 11 == 0 || how % 997 == 1) {
        errno = how % 11 == 0 ? EINTR : EPIPE;
        return -1;
    }
    return (ssize_t)(1 + how % size);
}

__attribute__((unused)) static ssize_t fuzz_send(int descriptor, const void *from, size_t size, int flags)
{
    if ((flags & MSG_NOSIGNAL) == 0)
        abort();
    return fuzz_write(descriptor, from, size);
}

#endif
