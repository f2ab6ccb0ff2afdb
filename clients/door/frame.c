#include "frame.h"

#include <string.h>

enum { HELLO = 1, RINGS = 2, REFUSED = 3 }; /* the first bytes of bodies */

static uint32_t number_at(const unsigned char *at)
{
    return (uint32_t)at[0] << 24 | (uint32_t)at[1] << 16 | (uint32_t)at[2] << 8 | at[3];
}

/* The kind of a frame that may be this one, of this length and first byte. */
static enum frame_kind kind_of(const struct frame *frame, uint32_t body, unsigned char first, enum frame_kind kind)
{
    if (frame->had >= HEAD && number_at(frame->bytes) != body)
        return FRAME_OTHER;
    if (frame->had > HEAD && frame->bytes[HEAD] != first)
        return FRAME_OTHER;
    return frame->had == HEAD + body ? kind : FRAME_CUT;
}

enum frame_kind frame_of_client(const struct frame *frame)
{
    return kind_of(frame, HELLO_BODY, HELLO, FRAME_HELLO);
}

enum frame_kind frame_of_daemon(const struct frame *frame)
{
    enum frame_kind kind = kind_of(frame, RINGS_BODY, RINGS, FRAME_RINGS);
    return kind == FRAME_OTHER ? kind_of(frame, REFUSED_BODY, REFUSED, FRAME_REFUSED) : kind;
}

/* A length that no frame here has was found to be another's before. */
size_t frame_lacks(const struct frame *frame)
{
    return frame->had < HEAD ? HEAD - frame->had : HEAD + number_at(frame->bytes) - frame->had;
}

unsigned char *frame_end(struct frame *frame)
{
    return frame->bytes + frame->had;
}

uint32_t hello_uid(const struct frame *hello)
{
    return number_at(hello->bytes + HEAD + 1);
}

uint32_t hello_gid(const struct frame *hello)
{
    return number_at(hello->bytes + HEAD + 5);
}

size_t refusal(unsigned char *to, int error)
{
    const unsigned char bytes[HEAD + REFUSED_BODY] = {0, 0, 0, REFUSED_BODY, REFUSED, (unsigned char)error};
    memcpy(to, bytes, sizeof bytes);
    return sizeof bytes;
}
