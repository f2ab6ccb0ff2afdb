/* `reqkeyd replay` in plain C: a script in, what the daemon would do out (docs/SCRIPTS.md). It is the measure for the program of that name. */
#include "conf.h"

#include <unistd.h>

enum { MAX_SCRIPT_LINE = 262144, MAX_READS = 1048576, PIECE = 4096 };

static const bool blank[256] = {[' '] = true, ['\t'] = true};

enum place { TALKS, STARTS, PIPES };

/* What a client or a construction has. */
struct peer {
    uint64_t id; /* of its session, the order of moves */
    enum place place;
    bool piped;           /* the program that is to be started is */
    bool shut;            /* its bytes were no frame */
    bool queued;          /* it stands in the queue of those that may move */
    size_t taken;         /* how many of the bytes were used */
    struct buffer bytes;  /* of its frames, or the output of a piped handler */
    struct session *session;
    struct construction *construction; /* null for a client */
};

struct replay {
    struct machine machine;
    struct conf conf;
    struct buffer out;
    struct buffer decoded; /* the bytes of the line */
    struct peer **queue;   /* a heap by id: those that may move */
    size_t count, room;
};

/* ---- the queue of those that may move */

static void queue_put(struct replay *r, struct peer *peer)
{
    if (peer->queued)
        return;
    if (r->count == r->room) {
        r->room = r->room ? 2 * r->room : 64;
        r->queue = checked(realloc(r->queue, r->room * sizeof *r->queue));
    }
    size_t at = r->count++;
    for (; at && r->queue[(at - 1) / 2]->id > peer->id; at = (at - 1) / 2)
        r->queue[at] = r->queue[(at - 1) / 2];
    r->queue[at] = peer;
    peer->queued = true;
}

static void queue_drop_first(struct replay *r)
{
    r->queue[0]->queued = false;
    struct peer *last = r->queue[--r->count];
    size_t at = 0;
    for (;;) {
        size_t child = 2 * at + 1;
        if (child >= r->count)
            break;
        if (child + 1 < r->count && r->queue[child + 1]->id < r->queue[child]->id)
            child++;
        if (r->queue[child]->id >= last->id)
            break;
        r->queue[at] = r->queue[child];
        at = child;
    }
    r->queue[at] = last;
}

static void woken(void *driver, struct session *session)
{
    queue_put(driver, session->peer);
}

/* ---- what is written */

static uint8_t pairs[256][2]; /* the two digits of a byte */

static uint8_t *write_hex(uint8_t *to, const uint8_t *at, size_t len)
{
    for (size_t i = 0; i < len; i++, to += 2)
        memcpy(to, pairs[at[i]], 2);
    return to;
}

static void put_text(struct replay *r, const char *text)
{
    buffer_put(&r->out, text, strlen(text));
}

/* A line of a word, a number and what is behind it. */
static void put_line(struct replay *r, const char *word, uint64_t number, const char *rest)
{
    put_text(r, word);
    put_number(&r->out, number);
    put_text(r, rest);
}

/* A line of bytes to a client or a handler: a head, and some bytes behind it. */
static void put_bytes(struct replay *r, const struct peer *peer, const uint8_t *head, size_t head_len, struct bytes rest)
{
    /* room for the words and a number, too */
    uint8_t *begin = buffer_end(&r->out, 32 + 2 * (head_len + rest.len)), *to = begin;
    struct bytes word = peer->construction ? bytes_of("tohandler ") : bytes_of("to ");
    memcpy(to, word.at, word.len);
    to = write_number(to + word.len, (uint32_t)peer->id);
    *to++ = ' ';
    to = write_hex(to, head, head_len);
    to = write_hex(to, rest.at, rest.len);
    *to++ = '\n';
    r->out.len += (size_t)(to - begin);
}

static void put_reply(struct replay *r, const struct peer *peer, const struct answer *answer)
{
    uint8_t frame[32], *at = frame + 4;
    struct bytes rest = {NULL, 0};
    *at++ = (uint8_t)answer->kind;
    switch (answer->kind) {
    case NUMBER:
        at = write_u32(at, answer->number);
        break;
    case BYTES:
        *at++ = (uint8_t)(answer->bytes.len >> 8);
        *at++ = (uint8_t)answer->bytes.len;
        rest = answer->bytes;
        break;
    case RINGS:
        for (int place = THREAD; place <= USER; place++)
            at = write_u32(at, answer->rings[place]);
        break;
    case REFUSED:
        *at++ = (uint8_t)answer->number;
        break;
    default:
        return;
    }
    write_u32(frame, (uint32_t)((size_t)(at - frame) - 4 + rest.len));
    put_bytes(r, peer, frame, (size_t)(at - frame), rest);
}

/* ---- peers */

static struct peer *peer_make(uint64_t id, enum place place, struct session *session, struct construction *c)
{
    struct peer *peer = make_zeroed(1, sizeof *peer);
    peer->id = id;
    peer->place = place;
    peer->session = session;
    peer->construction = c;
    session->peer = peer;
    return peer;
}

static void peer_free(struct peer *peer)
{
    buffer_free(&peer->bytes);
    free(peer);
}

/* Puts out the command of a construction, or has its start fail. */
static void start(struct replay *r, uint64_t now, uint32_t key, bool negates)
{
    struct construction *c = machine_construction(&r->machine, key);
    struct subject subject = {negates, map_get(&r->machine.keys, key), c};
    bool piped;
    if (!conf_start(&r->conf, &r->machine, now, &subject, &r->out, &piped)) {
        machine_launched(&r->machine, key, RAN_FAILED, now);
        return;
    }
    struct peer *peer = peer_make(HANDLER_ID | key, STARTS, &c->session, c);
    peer->piped = piped;
    c->peer = peer;
}

/* ---- moves */

/* The next body of a stream: 1, 0 where it has not come whole, -1 for a length that no frame has. */
static int next_body(struct peer *peer, const uint8_t **body, uint32_t *len)
{
    size_t left = peer->bytes.len - peer->taken;
    if (left < 4)
        return 0;
    const uint8_t *at = peer->bytes.at + peer->taken;
    *len = read_u32(at);
    if (*len == 0 || *len > MAX_BODY)
        return -1;
    if (left - 4 < *len)
        return 0;
    *body = at + 4;
    peer->taken += 4 + (size_t)*len;
    return 1;
}

/* The bytes of a stream are no frame. */
static void shut(struct replay *r, struct peer *peer)
{
    queue_drop_first(r);
    if (peer->construction) {
        peer->shut = true;
        put_line(r, "shuthandler ", (uint32_t)peer->id, "\n");
    } else {
        machine_gone(&r->machine, (uint32_t)peer->id);
        put_line(r, "shut ", (uint32_t)peer->id, "\n");
        peer_free(peer);
    }
}

static void carry_out(struct replay *r, struct peer *peer, uint64_t now, const uint8_t *body, uint32_t len)
{
    struct ask ask;
    struct answer answer = {.kind = REFUSED};
    int error = ask_read(&ask, body, len);
    if (error)
        answer.number = (uint32_t)error;
    else
        answer = machine_ask(&r->machine, peer->session, now, &ask);
    if (answer.kind == START)
        start(r, now, answer.number, false);
    else
        put_reply(r, peer, &answer);
}

/* The first session that may move does one thing, or leaves the queue. */
static void move_first(struct replay *r, uint64_t now)
{
    struct peer *peer = r->queue[0];
    if (is_ready(&r->machine, peer->session)) {
        struct answer answer = machine_collect(&r->machine, peer->session);
        put_reply(r, peer, &answer);
        return;
    }
    const uint8_t *body;
    uint32_t len;
    int has_next = peer->session->wait_key || peer->shut ? 0 : next_body(peer, &body, &len);
    if (has_next > 0)
        carry_out(r, peer, now, body, len);
    else if (has_next < 0)
        shut(r, peer);
    else
        queue_drop_first(r);
}

/* ---- what happens */

enum verb { ACCEPT, BYTES_COME, GONE, STARTED, UNSTARTED, OUT, OUTFAULT, ENDED, WAITFAULT };

struct happening {
    uint64_t now;
    enum verb verb;
    uint32_t who;
    bool well; /* ended with status 0 */
};

/* More bytes for a stream or of a piped handler. Used ones give their room back where more is wanted, or all are used. */
static void feed(struct peer *peer, const struct buffer *more)
{
    struct buffer *bytes = &peer->bytes;
    if (peer->taken == bytes->len || (bytes->room - bytes->len < more->len && peer->taken >= bytes->len / 2)) {
        bytes->len -= peer->taken;
        if (bytes->len)
            memmove(bytes->at, bytes->at + peer->taken, bytes->len);
        peer->taken = 0;
    }
    buffer_put(bytes, more->at, more->len);
}

static void accept_client(struct replay *r, uint32_t client)
{
    int error;
    struct session *session = machine_open(&r->machine, client, &error);
    if (session)
        peer_make(client, TALKS, session, NULL);
    else
        put_line(r, "shut ", client, "\n");
}

static void started(struct replay *r, struct peer *peer, uint64_t now)
{
    const struct construction *c = peer->construction;
    machine_launched(&r->machine, c->key, peer->piped ? RAN_PIPED : RAN_PLAIN, now);
    peer->place = peer->piped ? PIPES : TALKS;
    if (peer->piped && c->callout_len)
        put_bytes(r, peer, c->callout, c->callout_len, (struct bytes){NULL, 0});
}

static void ended(struct replay *r, struct peer *peer, uint64_t now, bool well)
{
    uint32_t key = peer->construction->key;
    bool can_be_payload = peer->place == PIPES && peer->bytes.len <= MAX_PAYLOAD;
    struct bytes payload = {peer->bytes.at, can_be_payload ? peer->bytes.len : 0};
    struct answer answer = machine_ended(&r->machine, key, well, payload, now);
    peer_free(peer);
    if (answer.kind == NEGATE)
        start(r, now, key, true);
}

/* Whether a line can happen for a client. */
static bool client_can(struct replay *r, const struct happening *h)
{
    struct session *session = machine_client(&r->machine, h->who);
    if (!session != (h->verb == ACCEPT))
        return false;
    if (h->verb == ACCEPT) {
        accept_client(r, h->who);
    } else if (h->verb == GONE) {
        struct peer *peer = session->peer;
        machine_gone(&r->machine, h->who);
        peer_free(peer);
    } else {
        feed(session->peer, &r->decoded);
        queue_put(r, session->peer);
    }
    return true;
}

/* The same for the handler of a key. */
static bool handler_can(struct replay *r, const struct happening *h)
{
    struct construction *c = machine_construction(&r->machine, h->who);
    bool starts = h->verb == STARTED || h->verb == UNSTARTED;
    if (starts ? !is_to_launch(c) : !is_running(c))
        return false;
    struct peer *peer = c->peer;
    if (h->verb == STARTED) {
        started(r, peer, h->now);
    } else if (h->verb == UNSTARTED) {
        machine_launched(&r->machine, h->who, RAN_FAILED, h->now);
        peer_free(peer);
    } else if (h->verb != OUT) {
        ended(r, peer, h->now, h->verb == ENDED && h->well);
    } else if (!peer->shut) {
        feed(peer, &r->decoded);
        if (peer->place == TALKS)
            queue_put(r, peer);
    }
    return true;
}

/* ---- lines */

/* What a digit says as the high and as the low half of a byte; -1 for what is no digit. */
static int16_t high_digit[256], low_digit[256];

static void fill_digits(void)
{
    static const char lower[] = "0123456789abcdef", upper[] = "0123456789ABCDEF";
    memset(high_digit, -1, sizeof high_digit);
    memset(low_digit, -1, sizeof low_digit);
    for (int i = 0; i < 16; i++) {
        high_digit[(uint8_t)lower[i]] = high_digit[(uint8_t)upper[i]] = (int16_t)(i << 4);
        low_digit[(uint8_t)lower[i]] = low_digit[(uint8_t)upper[i]] = (int16_t)i;
    }
    for (int byte = 0; byte < 256; byte++) {
        pairs[byte][0] = (uint8_t)lower[byte >> 4];
        pairs[byte][1] = (uint8_t)lower[byte & 15];
    }
}

static bool is_blank(uint8_t byte)
{
    return byte == ' ' || byte == '\t';
}

static void skip_blanks(struct bytes *text)
{
    while (text->len && is_blank(*text->at)) {
        text->at++;
        text->len--;
    }
}

/* What was read up to here is a field, and is taken off the text. */
static bool ends_field(struct bytes *text, const uint8_t *end)
{
    text->len -= (size_t)(end - text->at);
    text->at = end;
    return !text->len || is_blank(*end);
}

static bool read_number(struct bytes *text, uint64_t least, uint64_t greatest, size_t longest, uint64_t *number)
{
    skip_blanks(text);
    const uint8_t *at = text->at, *end = at + text->len;
    uint64_t sum = 0;
    for (; at < end; at++) {
        uint8_t digit = (uint8_t)(*at - '0');
        if (digit > 9)
            break;
        if (__builtin_mul_overflow(sum, 10, &sum) || __builtin_add_overflow(sum, digit, &sum))
            return false;
    }
    size_t len = (size_t)(at - text->at);
    *number = sum;
    return len && len <= longest && sum >= least && sum <= greatest && ends_field(text, at);
}

/* Reads the digits that the rest of the line is. */
static bool read_hex(struct bytes *text, struct buffer *decoded)
{
    skip_blanks(text);
    while (text->len && is_blank(text->at[text->len - 1]))
        text->len--;
    const uint8_t *at = text->at;
    size_t len = text->len / 2;
    decoded->len = 0;
    uint8_t *to = buffer_end(decoded, len);
    int bad = 0;
    for (size_t i = 0; i < len; i++, at += 2) {
        int byte = high_digit[at[0]] | low_digit[at[1]];
        bad |= byte;
        to[i] = (uint8_t)byte;
    }
    bool whole = len && text->len % 2 == 0;
    decoded->len = len;
    text->len = 0;
    return whole && bad >= 0;
}

static bool is_word(struct bytes field, const char *word)
{
    return field.len == strlen(word) && memcmp(field.at, word, field.len) == 0;
}

static bool read_how(struct bytes *text, struct happening *h)
{
    struct bytes field;
    uint64_t status = 1;
    if (!cut_field(text, &field, blank))
        return false;
    if (is_word(field, "exit")) {
        if (!read_number(text, 0, 255, SIZE_MAX, &status))
            return false;
    } else if (!is_word(field, "signal")) {
        return false;
    }
    h->well = status == 0;
    return true;
}

static bool read_verb(struct bytes *text, enum verb *verb)
{
    static const char *const words[] = {
        [ACCEPT] = "accept", [BYTES_COME] = "bytes", [GONE] = "gone", [STARTED] = "started", [UNSTARTED] = "unstarted",
        [OUT] = "out", [OUTFAULT] = "outfault", [ENDED] = "ended", [WAITFAULT] = "waitfault",
    };
    struct bytes field;
    if (!cut_field(text, &field, blank))
        return false;
    for (*verb = ACCEPT; *verb <= WAITFAULT; ++*verb)
        if (is_word(field, words[*verb]))
            return true;
    return false;
}

/* Reads a line on which something happens. */
static bool read_happening(struct bytes text, struct happening *h, struct buffer *decoded)
{
    uint64_t who;
    if (!read_number(&text, 0, UINT64_MAX, 20, &h->now) || !read_verb(&text, &h->verb))
        return false;
    bool of_client = h->verb <= GONE;
    if (!read_number(&text, !of_client, of_client ? UINT32_MAX : INT32_MAX, SIZE_MAX, &who))
        return false;
    h->who = (uint32_t)who;
    if ((h->verb == BYTES_COME || h->verb == OUT) && !read_hex(&text, decoded))
        return false;
    if (h->verb == ENDED && !read_how(&text, h))
        return false;
    skip_blanks(&text);
    return !text.len;
}

enum reading { NOTHING, CONF, SECONDS, HAPPENS, WRONG };

/* What a line says on which nothing happens; of `conf` the text behind it, of `negative` the number. */
static enum reading read_setting(struct bytes line, struct bytes *conf, uint64_t *seconds)
{
    struct bytes field;
    if (!line.len || line.at[0] == '#' || !cut_field(&line, &field, blank))
        return NOTHING;
    if (is_word(field, "conf") && line.len && line.at[0] == ' ') {
        *conf = (struct bytes){line.at + 1, line.len - 1};
        return CONF;
    }
    if (!is_word(field, "negative") || !read_number(&line, 0, UINT32_MAX, 20, seconds))
        return WRONG;
    return cut_field(&line, &field, blank) ? WRONG : SECONDS;
}

static enum reading read_line(struct bytes line, struct bytes *conf, uint64_t *seconds, struct happening *h, struct buffer *decoded)
{
    if (line.len > MAX_SCRIPT_LINE)
        return WRONG;
    return read_happening(line, h, decoded) ? HAPPENS : read_setting(line, conf, seconds);
}

static void play(struct replay *r, const struct happening *h, uint64_t number)
{
    if (!(h->verb <= GONE ? client_can(r, h) : handler_can(r, h))) {
        put_line(r, "fault ", number, " S2\n");
        return;
    }
    while (r->count)
        move_first(r, h->now);
}

/* ---- the whole script */

/* What the lines before the first happening set. */
struct settings {
    struct buffer conf;
    uint32_t negative;
};

static bool begin(struct replay *r, const struct settings *settings)
{
    struct bytes text = {settings->conf.at, settings->conf.len};
    size_t line;
    const char *code;
    machine_init(&r->machine, settings->negative, 1, 1);
    r->machine.woken = woken;
    r->machine.driver = r;
    if (!text.len)
        text = bytes_of("create * * * /bin/handler %o %k %u %g %T %P %S");
    if (conf_read(&r->conf, text, &line, &code))
        return true;
    put_line(r, "conf ", line, " ");
    put_text(r, code);
    put_text(r, "\n");
    return false;
}

static void set(struct settings *settings, enum reading reading, struct bytes conf, uint64_t seconds)
{
    if (reading == SECONDS) {
        settings->negative = (uint32_t)seconds;
        return;
    }
    buffer_put(&settings->conf, conf.at, conf.len);
    buffer_put(&settings->conf, "\n", 1);
}

/* Plays all lines; false where the configuration is refused. */
static bool play_all(struct replay *r, struct bytes script, struct settings *settings)
{
    bool begun = false;
    uint64_t number = 1;
    for (bool more = true; more; number++) {
        struct bytes line, conf;
        uint64_t seconds;
        struct happening h;
        more = cut_line(&script, &line);
        enum reading reading = read_line(line, &conf, &seconds, &h, &r->decoded);
        if (reading == HAPPENS && !begun && !begin(r, settings))
            return false;
        begun |= reading == HAPPENS;
        if (reading == HAPPENS)
            play(r, &h, number);
        else if (reading == WRONG || (begun && reading != NOTHING))
            put_line(r, "fault ", number, " S1\n");
        else if (reading != NOTHING)
            set(settings, reading, conf, seconds);
    }
    return begun || begin(r, settings);
}

static bool read_all(struct buffer *script)
{
    for (int reads = 0; reads < MAX_READS; reads++) {
        ssize_t got = read(STDIN_FILENO, buffer_end(script, PIECE), PIECE);
        if (got <= 0)
            return got == 0;
        script->len += (size_t)got;
    }
    return false;
}

static bool write_all(const struct buffer *out)
{
    for (size_t at = 0; at < out->len;) {
        ssize_t put = write(STDOUT_FILENO, out->at + at, out->len - at);
        if (put < 0)
            return false;
        at += (size_t)put;
    }
    return true;
}

static void free_all(struct replay *r)
{
    void *value;
    for (uint32_t at = 0; map_next(&r->machine.clients, &at, &value);)
        peer_free(((struct session *)value)->peer);
    for (uint32_t at = 0; map_next(&r->machine.constructions, &at, &value);)
        peer_free(((struct construction *)value)->peer);
    machine_free(&r->machine);
    conf_free(&r->conf);
    buffer_free(&r->out);
    buffer_free(&r->decoded);
    free(r->queue);
}

int main(int count, char **words)
{
    if (count != 2 || strcmp(words[1], "replay") != 0) {
        fputs("usage: replay replay < SCRIPT\n", stderr);
        return 2;
    }
    struct replay r = {0};
    struct settings settings = {.negative = 60};
    struct buffer script = {0};
    map_seed_draw();
    fill_digits();
    bool fine = read_all(&script);
    if (fine) {
        fine = play_all(&r, (struct bytes){script.at, script.len}, &settings);
        fine &= write_all(&r.out);
    }
    if (!fine)
        fputs("reqkeyd: script\n", stderr);
    free_all(&r);
    buffer_free(&settings.conf);
    buffer_free(&script);
    return fine ? 0 : 1;
}
