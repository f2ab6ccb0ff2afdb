/* The reader of replies (clients/c/reqkey.c): whatever comes, each request gives what reqkey.h promises, and no byte is touched that is not there. */
#include <stdint.h>
#include <sys/un.h>
#include <unistd.h>

#include "stream.h"

#define read fuzz_read
#define write fuzz_write
#define send fuzz_send
#include "../../clients/c/reqkey.c"

enum { LONGEST = 70000 };

static char letters[LONGEST];

static void holds(bool promise)
{
    if (!promise)
        abort();
}

/* A result that is 0 or an error, a serial, or the length of a string. */
static int done(int result)
{
    holds(result <= 0);
    return result;
}

static int serial(int result)
{
    holds(result != 0);
    return result;
}

static int text(int result, const char *at)
{
    holds(result < 0 ? at == NULL : strlen(at) == (size_t)result);
    return result;
}

static int asked(struct reqkey *session, unsigned op)
{
    struct reqkey_rings rings = {9, 9, 9, 9};
    const void *payload = NULL;
    const char *string = NULL;
    size_t length = (op >> 5) * 9900;
    bool odd = (op & 16) != 0;
    int result;
    switch (op % 17) {
    case 0:
        result = done(reqkey_hello(session, 1, 2, odd ? 300 : 3, 7, &rings));
        holds(result == 0 || (rings.thread == 9 && rings.user == 9));
        return result;
    case 1:
        return serial(reqkey_request(session, "user", letters + LONGEST - 1 - length, odd ? "callout" : NULL, 0));
    case 2:
        return done(reqkey_assume(session, 5));
    case 3:
        return done(reqkey_instantiate(session, 5, letters, length, 0));
    case 4:
        return done(reqkey_negate(session, 5, 6, 0));
    case 5:
        return done(reqkey_reject(session, 5, 6, 126, 0));
    case 6:
        result = reqkey_read(session, 5, &payload);
        holds(result < 0 ? payload == NULL : ((const char *)payload)[result] == 0);
        return result;
    case 7:
        result = reqkey_describe(session, 5, &string);
        return text(result, string);
    case 8:
        return done(reqkey_revoke(session, 1));
    case 9:
        return done(reqkey_timeout(session, 1, 2));
    case 10:
        return done(reqkey_link(session, 1, 2));
    case 11:
        return done(reqkey_unlink(session, 1, 2));
    case 12:
        return done(reqkey_clear(session, -3));
    case 13:
        result = reqkey_default(session, -1);
        holds(result <= 7 && result != 5 && result != 6);
        return result;
    case 14:
        return serial(reqkey_add(session, "user", "d", letters, length, -3));
    default:
        result = reqkey_callout(session, &string);
        return text(result, string);
    }
}

int LLVMFuzzerTestOneInput(const uint8_t *data, size_t size)
{
    input = data;
    input_left = size;
    turn = next_byte() << 8 | next_byte();
    struct reqkey *session = reqkey_open(3, 4);
    holds(session != NULL);
    session->connected = turn % 2 != 0;
    memset(letters, 'a', LONGEST - 1);
    bool ended = false;
    unsigned ops[12], count = next_byte() % 12;
    for (unsigned i = 0; i < count; i++)
        ops[i] = next_byte();
    for (unsigned i = 0; i < count; i++) {
        int result = asked(session, ops[i]);
        holds(!ended || result == -REQKEY_ENDED);
        holds(result >= 0 || strcmp(reqkey_name(result), "?") != 0);
        ended |= result <= -REQKEY_ENDED;
    }
    session->connected = false; /* it has no descriptor of its own */
    reqkey_free(session);
    return 0;
}
