#include "message.h"

#include <errno.h>

/* How many bytes behind a first byte of UTF-8 belong to it, or -1; and which the second one may be. */
static int tail_of(uint8_t first, uint8_t *least, uint8_t *greatest)
{
    *least = 0x80;
    *greatest = 0xbf;
    if (first >= 0xc2 && first <= 0xdf)
        return 1;
    if (first >= 0xe0 && first <= 0xef) {
        if (first == 0xe0)
            *least = 0xa0;
        if (first == 0xed)
            *greatest = 0x9f;
        return 2;
    }
    if (first >= 0xf0 && first <= 0xf4) {
        if (first == 0xf0)
            *least = 0x90;
        if (first == 0xf4)
            *greatest = 0x8f;
        return 3;
    }
    return -1;
}

bool is_text(const uint8_t *at, size_t len)
{
    const uint8_t *end = at + len;
    while (at < end) {
        if (*at < 0x80) {
            if (*at++ == 0)
                return false;
            continue;
        }
        uint8_t least, greatest;
        int tail = tail_of(*at++, &least, &greatest);
        if (tail < 0 || end - at < tail || *at < least || *at > greatest)
            return false;
        for (int i = 1; i < tail; i++)
            if ((at[i] & 0xc0) != 0x80)
                return false;
        at += tail;
    }
    return true;
}

int type_fault(struct bytes name)
{
    if (name.len == 0 || name.len > MAX_TYPE)
        return EINVAL;
    if (name.at[0] == '.')
        return EPERM;
    return is_text(name.at, name.len) ? 0 : EINVAL;
}

int description_fault(struct bytes name)
{
    return name.len > 0 && name.len <= MAX_DESCRIPTION && is_text(name.at, name.len) ? 0 : EINVAL;
}

/* What of a body is not read yet. `error` is the first fault; after it nothing counts. */
struct cursor {
    const uint8_t *at, *end;
    int error;
};

static void fail(struct cursor *c, int error)
{
    if (!c->error)
        c->error = error;
    c->at = c->end;
}

static uint8_t take_u8(struct cursor *c)
{
    if (c->at == c->end) {
        fail(c, EINVAL);
        return 0;
    }
    return *c->at++;
}

static uint32_t take_u32(struct cursor *c)
{
    if (c->end - c->at < 4) {
        fail(c, EINVAL);
        return 0;
    }
    c->at += 4;
    return read_u32(c->at - 4);
}

static struct bytes take_block(struct cursor *c)
{
    struct bytes block = {c->at, 0};
    if (c->end - c->at < 2) {
        fail(c, EINVAL);
        return block;
    }
    block.len = (size_t)c->at[0] << 8 | c->at[1];
    block.at = c->at + 2;
    if ((size_t)(c->end - block.at) < block.len) {
        fail(c, EINVAL);
        block.len = 0;
    } else {
        c->at = block.at + block.len;
    }
    return block;
}

static void take_flags(struct cursor *c, struct ask *ask)
{
    uint8_t flags = take_u8(c);
    if (flags > 3)
        fail(c, EINVAL);
    ask->thread = flags & 1;
    ask->process = flags >> 1 & 1;
}

static void take_join(struct cursor *c, struct ask *ask)
{
    ask->join = take_u32(c);
    if (ask->join > INT32_MAX)
        fail(c, EINVAL);
}

static void take_names(struct cursor *c, struct ask *ask)
{
    int fault;
    ask->type = take_block(c);
    if (!c->error && (fault = type_fault(ask->type)))
        fail(c, fault);
    ask->description = take_block(c);
    if (!c->error && (fault = description_fault(ask->description)))
        fail(c, fault);
}

static void take_callout(struct cursor *c, struct ask *ask)
{
    uint8_t given = take_u8(c);
    ask->has_callout = given == 1;
    ask->callout = (struct bytes){c->at, 0};
    if (given > 1) {
        fail(c, EINVAL);
    } else if (given) {
        ask->callout = take_block(c);
        if (!c->error && (ask->callout.len > MAX_CALLOUT || !is_text(ask->callout.at, ask->callout.len)))
            fail(c, EINVAL);
    }
}

static void take_payload(struct cursor *c, struct ask *ask)
{
    ask->payload = take_block(c);
    if (!c->error && (ask->payload.len == 0 || ask->payload.len > MAX_PAYLOAD))
        fail(c, EINVAL);
}

static void take_error(struct cursor *c, struct ask *ask)
{
    ask->error = take_u32(c);
    if (ask->error < ENOKEY || ask->error > EKEYREJECTED)
        fail(c, EINVAL);
}

static void take_fields(struct cursor *c, struct ask *ask)
{
    switch (ask->op) {
    case OP_HELLO:
        ask->uid = take_u32(c);
        ask->gid = take_u32(c);
        take_flags(c, ask);
        take_join(c, ask);
        break;
    case OP_REQUEST:
        take_names(c, ask);
        take_callout(c, ask);
        ask->ring = (int32_t)take_u32(c);
        break;
    case OP_ASSUME:
    case OP_READ:
    case OP_DESCRIBE:
    case OP_REVOKE:
        ask->key = (int32_t)take_u32(c);
        break;
    case OP_INSTANTIATE:
        ask->key = (int32_t)take_u32(c);
        take_payload(c, ask);
        ask->ring = (int32_t)take_u32(c);
        break;
    case OP_NEGATE:
        ask->key = (int32_t)take_u32(c);
        ask->seconds = take_u32(c);
        ask->ring = (int32_t)take_u32(c);
        break;
    case OP_REJECT:
        ask->key = (int32_t)take_u32(c);
        ask->seconds = take_u32(c);
        take_error(c, ask);
        ask->ring = (int32_t)take_u32(c);
        break;
    case OP_TIMEOUT:
        ask->key = (int32_t)take_u32(c);
        ask->seconds = take_u32(c);
        break;
    case OP_LINK:
    case OP_UNLINK:
        ask->key = (int32_t)take_u32(c);
        ask->ring = (int32_t)take_u32(c);
        break;
    case OP_CLEAR:
    case OP_DEFAULT:
        ask->ring = (int32_t)take_u32(c);
        break;
    case OP_ADD:
        take_names(c, ask);
        take_payload(c, ask);
        ask->ring = (int32_t)take_u32(c);
        break;
    case OP_CALLOUT:
        break;
    default:
        fail(c, EINVAL);
    }
}

int ask_read(struct ask *ask, const uint8_t *body, size_t len)
{
    struct cursor c = {body, body + len, 0};
    ask->op = take_u8(&c);
    if (!c.error)
        take_fields(&c, ask);
    if (!c.error && c.at != c.end)
        c.error = EINVAL;
    return c.error;
}
