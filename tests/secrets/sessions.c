/* Honest sessions with messages both ways, and comparisons that fail. */
#include "secrets.h"

struct session new_session(uint8_t method, uint8_t options)
{
    struct session s = {.method = method, .options = options};
    s.tag = (struct machine){.is_tag = true, .book_len = BOOK_BYTES, .number = 0x778899AABBCC, .room = AREA};
    random_bytes(s.tag.book, BOOK_BYTES);
    for (size_t i = 0; i < RECORDS; i++)
        s.tag.book[RECORD_BYTES * i] = (uint8_t)(4 * i + 1);
    s.reader = s.tag;
    s.reader.is_tag = false;
    s.reader.number = 0x112233445566;
    call(&s.tag, bare(TAG_RESET), only(0));
    call(&s.reader, bare(READER_RESET), only(0));
    return s;
}

static void begin(struct session *s)
{
    struct request r = {.function = READER_BEGIN, .kind = s->method, .options = s->options, .keyid = KEYID};
    call(&s->reader, r, (struct due){0, 64, PUBLIC, 0});
}

void step_0(struct session *s)
{
    struct due due = s->method == TA ? (struct due){0, 120, TAG_PROOF, 0} : (struct due){0, 56, PUBLIC, 0};
    call(&s->tag, request(TAG_COMMAND, AUTH, s->reader.reply), due);
}

void answer(struct session *s)
{
    struct due due = s->method == TA ? (struct due){0, 0, PUBLIC, 1} : (struct due){0, 80, READER_PROOF, 0};
    call(&s->reader, request(READER_REPLIED, 0, s->tag.reply), due);
}

void step_1(struct session *s)
{
    struct due due = s->method == IA ? (struct due){0, 1, PUBLIC, 1} : (struct due){0, 65, MUTUAL_PROOF, 1};
    call(&s->tag, request(TAG_COMMAND, AUTH, s->reader.reply), due);
}

static void confirm(struct session *s)
{
    call(&s->reader, request(READER_REPLIED, 0, s->tag.reply), (struct due){0, 0, PUBLIC, s->method == MA});
}

/* A session after its first steps: TA has three of them, IA and MA have all. */
struct session session_after(uint8_t method, uint8_t options, size_t count)
{
    static void (*const steps[])(struct session *) = {begin, step_0, answer, step_1, confirm};
    struct session s = new_session(method, options);
    for (size_t i = 0; i < count; i++)
        steps[i](&s);
    return s;
}

struct session open_session(uint8_t method, uint8_t options)
{
    return session_after(method, options, method == TA ? 3 : 5);
}

/* ---- messages */

/* One end sends, which gives the message. */
static struct payload sent(struct session *s, bool to_tag, uint8_t kind, struct payload data)
{
    struct due due = {0, data.count + 8 + width_of(&s->reader), MESSAGE, 0};
    if (to_tag)
        call(&s->reader, request(READER_SEND, kind, data), due);
    else
        call(&s->tag, request(TAG_RESPONSE, kind + 3, data), due);
    return to_tag ? s->reader.reply : s->tag.reply;
}

/* The other end's request to take a message in. */
struct request taking(bool to_tag, uint8_t kind, struct payload message)
{
    return request(to_tag ? TAG_COMMAND : READER_RECEIVE, kind, message);
}

static void exchange(struct session *s, bool to_tag, uint8_t kind, size_t count)
{
    struct machine *receiver = to_tag ? &s->tag : &s->reader;
    struct payload data = random_data(count);
    struct payload message = sent(s, to_tag, kind, data);
    call(receiver, taking(to_tag, kind, message), (struct due){0, count, DATA, 1});
    for (size_t i = 0; i < count; i++)
        if (bit_of(data.bytes, i) != bit_of(receiver->reply.bytes, i)) {
            fail("a message of %zu bits came as another", count);
            return;
        }
}

/* Calls `use` for each way and kind of message that the session has. */
void each_way(struct session *s, void (*use)(struct session *, bool, uint8_t))
{
    uint8_t kinds = s->method == MA && (s->options & SECURE_MESSAGES) ? SECURE : COMM;
    for (uint8_t kind = COMM; kind <= kinds; kind++) {
        if (s->method != TA)
            use(s, true, kind);
        if (s->method != IA)
            use(s, false, kind);
    }
}

static void exchange_lengths(struct session *s, bool to_tag, uint8_t kind)
{
    static const size_t lengths[] = {0, 1, 7, 8, 9, 40, 63, 64, 65, 509, 2047, 2048};
    for (size_t i = 0; i < sizeof lengths / sizeof *lengths; i++)
        exchange(s, to_tag, kind, lengths[i]);
}

static void whole_session(uint8_t method, uint8_t options)
{
    struct session s = open_session(method, options);
    each_way(&s, exchange_lengths);
    call(&s.tag, bare(TAG_RESET), only(0));
    call(&s.reader, bare(READER_RESET), only(0));
}

/* ---- failing comparisons */

static const struct due MISMATCH = {10, 0, PUBLIC, 1};

/* The interrogator's proof fails at the tag, which says so in a public bit, and the reader closes on that bit. */
static void fail_step_1(struct session *s, struct payload command)
{
    call(&s->tag, request(TAG_COMMAND, AUTH, command), (struct due){10, 1, PUBLIC, 1});
    call(&s->reader, request(READER_REPLIED, 0, s->tag.reply), only(10));
    call(&s->tag, bare(TAG_ERROR_TYPE), only(2));
}

static void wrong_key(uint8_t method, uint8_t options)
{
    struct session s = new_session(method, options);
    flip(s.tag.book + RECORD_BYTES, 8 * RECORD_BYTES - 1);
    begin(&s);
    step_0(&s);
    if (method == TA) {
        call(&s.reader, request(READER_REPLIED, 0, s.tag.reply), MISMATCH);
        return;
    }
    answer(&s);
    fail_step_1(&s, s.reader.reply);
}

/* One of the 64 keystream bits of the proof that step `count` sent is another when it comes. */
static void wrong_proof(uint8_t method, uint8_t options, size_t count, size_t from_end)
{
    struct session s = session_after(method, options, count);
    if (count == 3)
        fail_step_1(&s, with_flip(s.reader.reply, 79 - from_end));
    else
        call(&s.reader, request(READER_REPLIED, 0, with_flip(s.tag.reply, s.tag.reply.count - 1 - from_end)), MISMATCH);
}

/* The first data bit, or the first or last bit of the MAC, is another when the message comes. */
static void wrong_messages(struct session *s, bool to_tag, uint8_t kind)
{
    struct payload message = sent(s, to_tag, kind, random_data(100));
    const size_t places[] = {0, message.count - message.width, message.count - 1};
    for (size_t i = 0; i < 3; i++) {
        struct machine receiver = to_tag ? s->tag : s->reader;
        call(&receiver, taking(to_tag, kind, with_flip(message, places[i])), MISMATCH);
        if (to_tag)
            call(&receiver, bare(TAG_ERROR_TYPE), only(3));
    }
    call(to_tag ? &s->tag : &s->reader, taking(to_tag, kind, message), (struct due){0, 100, DATA, 1});
}

static void failing_session(uint8_t method, uint8_t options)
{
    struct session s = open_session(method, options);
    each_way(&s, wrong_messages);
    wrong_key(method, options);
    for (size_t from_end = 0; from_end < 64; from_end += 63) {
        wrong_proof(method, options, method == TA ? 2 : 3, from_end);
        if (method == MA)
            wrong_proof(method, options, 4, from_end);
    }
}

void each_session(void (*run)(uint8_t, uint8_t))
{
    for (uint8_t method = TA; method <= MA; method++)
        for (uint8_t options = 0; options < ALL_OPTIONS; options++)
            run(method, options);
}

void whole_sessions(void)
{
    each_session(whole_session);
}

void failing_sessions(void)
{
    each_session(failing_session);
}
