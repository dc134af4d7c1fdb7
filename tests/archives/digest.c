/* A fixed pseudo-random mix of calls of every function in kusarehyon.h: sessions of a tag and a reader, some of them disturbed,
 * stray blocks, books and host frames. It prints the number of calls and one digest of every answer, number, block and buffer
 * that they left, so that two archives which do the same print the same.
 *
 * It includes no header of a C library, so that it compiles for a processor that has none here.
 */
#include "kusarehyon.h"

int printf(const char *format, ...);

enum {
    SESSIONS = 900,
    STRAY_CALLS = 6000,
    FRAMES = 1200,
    BUFFER = 300, /* more than a reply area and the longest payload */
    RECORD_BYTES = 17,
    BOOK_BYTES = 17 * RECORD_BYTES, /* a record more than a book may have */
    RARELY = 60,
    ANSWERS = 25
};

struct machine {
    uint8_t block[KUSAREHYON_READER_BYTES];
    size_t len;
};

static struct machine tag = {.len = KUSAREHYON_TAG_BYTES}, reader = {.len = KUSAREHYON_READER_BYTES};
static uint8_t book[BOOK_BYTES], given[BUFFER], reply[BUFFER];
static size_t book_len, given_count, bits;
static unsigned calls, answered[ANSWERS];
static uint64_t digest = 0xCBF29CE484222325, weyl;

/* ---- the digest, FNV-1a */

static void mix(const uint8_t *bytes, size_t len)
{
    for (size_t i = 0; i < len; i++)
        digest = (digest ^ bytes[i]) * 0x100000001B3;
}

static void mix_number(uint64_t x)
{
    for (int i = 0; i < 8; i++)
        digest = (digest ^ (uint8_t)(x >> 8 * i)) * 0x100000001B3;
}

static void note(uint8_t answer)
{
    calls++;
    if (answer < ANSWERS)
        answered[answer]++;
    mix_number(answer);
}

static void note_reply(uint8_t answer, const struct machine *m)
{
    note(answer);
    mix_number(bits);
    mix(m->block, sizeof m->block);
    mix(reply, BUFFER);
}

/* ---- random numbers, splitmix64 */

static uint64_t random_number(void)
{
    uint64_t z = weyl += 0x9E3779B97F4A7C15;
    z = (z ^ z >> 30) * 0xBF58476D1CE4E5B9;
    z = (z ^ z >> 27) * 0x94D049BB133111EB;
    return z ^ z >> 31;
}

static size_t below(size_t n)
{
    return (size_t)(random_number() % n);
}

static bool once_in(size_t n)
{
    return below(n) == 0;
}

static void random_bytes(uint8_t *bytes, size_t len)
{
    for (size_t i = 0; i < len; i++)
        bytes[i] = (uint8_t)random_number();
}

static void flip(uint8_t *bytes, size_t i)
{
    bytes[i / 8] ^= (uint8_t)(1 << (7 - i % 8));
}

/* Mostly `usual`, rarely another number, `limit` at most. */
static size_t mostly(size_t usual, size_t limit)
{
    return once_in(RARELY) ? below(limit + 1) : usual;
}

/* What the calls have beside their own arguments, mostly as it should be. It is drawn before each call, since C leaves open in
 * which order a call's arguments are computed. */
static struct {
    size_t block_len, given_len, book_len, room;
    uint64_t number;
    uint8_t features;
} drawn;

static void draw(const struct machine *m)
{
    drawn.block_len = mostly(m->len, m->len);
    drawn.given_len = mostly(BUFFER, BUFFER);
    drawn.book_len = mostly(book_len, BOOK_BYTES);
    drawn.room = mostly(BUFFER, BUFFER);
    drawn.number = once_in(RARELY) ? random_number() : random_number() >> 16;
    drawn.features = once_in(6) ? (uint8_t)random_number() : 0x1F;
}

/* ---- calls */

static void reset(struct machine *m)
{
    draw(m);
    if (m == &tag)
        note_reply(kusarehyon_tag_reset(m->block, drawn.block_len, reply, drawn.room, &bits), m);
    else
        note_reply(kusarehyon_reader_reset(m->block, drawn.block_len, reply, drawn.room, &bits), m);
}

static void command(uint8_t kind)
{
    draw(&tag);
    note_reply(kusarehyon_tag_command(tag.block, drawn.block_len, kind, given, drawn.given_len, given_count, drawn.features, book,
                                      drawn.book_len, drawn.number, reply, drawn.room, &bits),
               &tag);
}

static void response(uint8_t kind)
{
    draw(&tag);
    note_reply(kusarehyon_tag_response(tag.block, drawn.block_len, kind, given, drawn.given_len, given_count, reply, drawn.room,
                                       &bits),
               &tag);
}

static void close_tag(void)
{
    draw(&tag);
    note(kusarehyon_tag_close(tag.block, drawn.block_len));
    mix(tag.block, sizeof tag.block);
}

static void error_type(void)
{
    draw(&tag);
    note(kusarehyon_tag_error_type(tag.block, drawn.block_len));
}

static void begin(uint8_t method, uint8_t options, uint8_t keyid)
{
    draw(&reader);
    note_reply(kusarehyon_reader_begin(reader.block, drawn.block_len, method, options, keyid, drawn.number, book, drawn.book_len,
                                       reply, drawn.room, &bits),
               &reader);
}

static void replied(void)
{
    draw(&reader);
    note_reply(kusarehyon_reader_replied(reader.block, drawn.block_len, given, drawn.given_len, given_count, reply, drawn.room,
                                         &bits),
               &reader);
}

static void send(uint8_t kind)
{
    draw(&reader);
    note_reply(kusarehyon_reader_send(reader.block, drawn.block_len, kind, given, drawn.given_len, given_count, reply, drawn.room,
                                      &bits),
               &reader);
}

static void receive(uint8_t kind)
{
    draw(&reader);
    note_reply(kusarehyon_reader_receive(reader.block, drawn.block_len, kind, given, drawn.given_len, given_count, reply,
                                         drawn.room, &bits),
               &reader);
}

static void look_up(uint8_t keyid)
{
    draw(&tag);
    note(kusarehyon_book_sound(book, drawn.book_len));
    note_reply(kusarehyon_book_find(book, drawn.book_len, keyid, reply, drawn.room, &bits), &tag);
}

/* ---- sessions */

/* A book of a few records, rarely of too many, whose KeyIDs mostly rise. */
static void new_book(void)
{
    size_t records = mostly(1 + below(3), 17);
    random_bytes(book, BOOK_BYTES);
    for (size_t i = 0; i < records; i++)
        book[RECORD_BYTES * i] = (uint8_t)(10 * i + mostly(5, 20));
    book_len = RECORD_BYTES * records;
}

/* The reply becomes what the next call is given. Now and then a bit or the count changes on the way. */
static void hand_on(void)
{
    for (size_t i = 0; i < BUFFER; i++)
        given[i] = reply[i];
    given_count = bits;
    if (bits > 0 && once_in(12))
        flip(given, below(bits));
    if (once_in(RARELY))
        given_count = below(8 * BUFFER + 9);
}

/* Data to send: mostly short, at times of any length. */
static void new_data(void)
{
    given_count = once_in(20) ? below(2060) : below(90);
    random_bytes(given, BUFFER);
}

static void authenticate(uint8_t method)
{
    uint8_t options = (uint8_t)mostly(below(4), 20);
    reset(&tag);
    reset(&reader);
    begin(method, options, (uint8_t)mostly(5, 30));
    hand_on();
    command((uint8_t)mostly(0, 5));
    hand_on();
    replied();
    if (method == 0)
        return;
    hand_on();
    command(0);
    hand_on();
    replied();
}

static void exchange(bool to_tag, uint8_t kind)
{
    new_data();
    if (to_tag)
        send(kind);
    else
        response(kind + 3);
    hand_on();
    if (to_tag)
        command(kind);
    else
        receive(kind);
}

static void session(void)
{
    uint8_t method = (uint8_t)mostly(below(3), 4);
    new_book();
    authenticate(method);
    for (size_t messages = below(5); messages > 0; messages--) {
        bool to_tag = method == 2 ? once_in(2) : method == 1;
        exchange(to_tag, (uint8_t)mostly(method == 2 ? 1 + below(2) : 1, 3));
    }
    error_type();
    if (once_in(3))
        close_tag();
    error_type();
}

/* ---- stray calls */

/* A block that mostly spells a state within the rules: words above the width, and those of an empty state, are zero. */
static void new_block(struct machine *m, const uint8_t *head, bool empty, size_t width)
{
    random_bytes(m->block, m->len);
    for (size_t i = 0; i < m->len; i++) {
        bool above = i < 56 ? i >= 40 && i % 8 < 8 - width / 8 : i < 58;
        if (i < 8)
            m->block[i] = head[i];
        else if (empty || above)
            m->block[i] = 0;
    }
    if (once_in(4))
        flip(m->block, below(64));
    if (once_in(16))
        flip(m->block, below(8 * m->len));
}

static uint8_t width_of(bool filled, uint8_t options)
{
    return filled ? (options & 1 ? 64 : 32) : 0;
}

static void new_tag(void)
{
    static const uint8_t rows[][3] = {{0, 0, 0}, {1, 1, 0}, {1, 0, 0}, {1, 0, 1}, {1, 0, 0}, {1, 1, 1}};
    uint8_t name = (uint8_t)below(6), error = once_in(4);
    bool filled = !error && (rows[name][1] || rows[name][2]), empty = error || name == 0;
    uint8_t options = filled ? (uint8_t)below(4) : 0, width = width_of(filled, options);
    const uint8_t head[8] = {name, rows[name][0], rows[name][1], rows[name][2], error, empty ? 0 : 5, options, width};
    new_block(&tag, head, empty, width);
}

static void new_reader(void)
{
    uint8_t stage = (uint8_t)below(5);
    bool filled = stage == 2 || stage == 3, empty = stage == 0 || stage == 4;
    uint8_t options = empty ? 0 : (uint8_t)below(4), width = width_of(filled, options);
    const uint8_t head[8] = {stage, empty ? 0 : (uint8_t)below(3), options, empty ? 0 : 5, width};
    new_block(&reader, head, empty, width);
}

/* A payload with the head of an authentication, or with eight zero bits where a message of some width has them. */
static void new_payload(void)
{
    static const size_t counts[] = {0, 1, 56, 64, 65, 80, 120};
    static const uint8_t heads[] = {0x00, 0x03, 0x40, 0x51, 0x80, 0x93};
    new_data();
    if (once_in(2)) {
        given_count = counts[below(7)];
        given[0] = heads[below(6)];
        given[1] = 5;
        return;
    }
    given_count += once_in(2) ? 40 : 72;
    for (size_t i = 0; i < given_count / 8; i++)
        given[i] = 0;
}

static void stray_call(void)
{
    uint8_t stray_options = (uint8_t)below(5);
    new_tag();
    new_reader();
    new_payload();
    switch (below(8)) {
    case 0:
        command((uint8_t)below(5));
        break;
    case 1:
        response((uint8_t)(3 + below(4)));
        break;
    case 2:
        close_tag();
        break;
    case 3:
        error_type();
        break;
    case 4:
        begin((uint8_t)below(4), stray_options, 5);
        break;
    case 5:
        replied();
        break;
    case 6:
        send((uint8_t)below(4));
        break;
    default:
        receive((uint8_t)below(4));
    }
}

/* ---- host frames */

static void scan(const uint8_t *s, size_t len)
{
    uint8_t kind;
    size_t count, start, end;
    note(kusarehyon_frame_scan(s, len, &kind, &count, &start, &end));
    mix_number(kind);
    mix_number(count);
    mix_number(start);
    mix_number(end);
}

/* A length, at times cut. */
static size_t cut(size_t len)
{
    return once_in(4) ? below(len + 1) : len;
}

/* A frame is written and read again, and then read with a bit of it changed. */
static void frame(void)
{
    size_t count = once_in(4) ? below(2130) : below(130), at = below(20), room = cut(BUFFER), len = cut(BUFFER), next;
    random_bytes(given, BUFFER);
    for (size_t i = count; i % 8 != 0 && !once_in(RARELY); i++)
        if (given[i / 8] >> (7 - i % 8) & 1)
            flip(given, i);
    note(kusarehyon_frame_write(reply, room, at, (uint8_t)below(8), count, given, len, &next));
    mix_number(next);
    mix(reply, BUFFER);
    scan(reply + at, cut(BUFFER - at));
    flip(reply, 8 * at + below(40));
    scan(reply + at, BUFFER - at);
}

int main(void)
{
    for (size_t i = 0; i < SESSIONS; i++) {
        session();
        look_up((uint8_t)mostly(5, 30));
    }
    new_book();
    for (size_t i = 0; i < STRAY_CALLS; i++)
        stray_call();
    for (size_t i = 0; i < FRAMES; i++)
        frame();
    for (size_t i = 0; i < ANSWERS; i++)
        if (answered[i] == 0 && (i < 12 || i >= 20)) {
            printf("no call was answered %u\n", (unsigned)i);
            return 1;
        }
    printf("%u calls, digest %016llx\n", calls, (unsigned long long)digest);
    return 0;
}
