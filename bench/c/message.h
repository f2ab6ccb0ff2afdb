/* Asks out of bodies of frames, as docs/PROTOCOL.md has them. */
#ifndef MESSAGE_H
#define MESSAGE_H

#include "memory.h"

#include <stdbool.h>

enum op {
    OP_HELLO = 1, OP_REQUEST, OP_ASSUME, OP_INSTANTIATE, OP_NEGATE, OP_REJECT, OP_READ, OP_DESCRIBE,
    OP_REVOKE, OP_TIMEOUT, OP_LINK, OP_UNLINK, OP_CLEAR, OP_DEFAULT, OP_ADD, OP_CALLOUT,
};

/* The first bytes of replies. */
enum { NUMBER_REPLY, BYTES_REPLY, RINGS_REPLY, REFUSED_REPLY };

enum { MAX_BODY = 65536, MAX_TYPE = 31, MAX_DESCRIPTION = 4095, MAX_CALLOUT = 4095, MAX_PAYLOAD = 32767 };

/* An ask; its texts stand in the body. Only the fields of its op mean something. */
struct ask {
    enum op op;
    bool thread, process; /* HELLO */
    bool has_callout;
    uint32_t uid, gid, join;
    uint32_t seconds, error;
    int32_t key, ring; /* the ring is REQUEST's destination and DEFAULT's setting, too */
    struct bytes type, description, callout, payload;
};

/* Reads a body: 0, or the errno of its first fault from the left. */
int ask_read(struct ask *ask, const uint8_t *body, size_t len);

/* The bytes are UTF-8 without a zero byte. */
bool is_text(const uint8_t *at, size_t len);

/* The errno of a name that breaks a rule, or 0. */
int type_fault(struct bytes name);
int description_fault(struct bytes name);

static inline uint32_t read_u32(const uint8_t *at)
{
    return (uint32_t)at[0] << 24 | (uint32_t)at[1] << 16 | (uint32_t)at[2] << 8 | at[3];
}

static inline uint8_t *write_u32(uint8_t *at, uint32_t number)
{
    at[0] = (uint8_t)(number >> 24);
    at[1] = (uint8_t)(number >> 16);
    at[2] = (uint8_t)(number >> 8);
    at[3] = (uint8_t)number;
    return at + 4;
}

#endif
