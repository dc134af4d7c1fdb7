/* The key book and host frames. */
#include <string.h>

#include "secrets.h"

static void books(void)
{
    struct machine m = new_session(TA, 0).tag;
    struct request known = {.function = BOOK_FIND, .keyid = KEYID}, unknown = {.function = BOOK_FIND, .keyid = KEYID + 1};
    call(&m, bare(BOOK_SOUND), only(true));
    call(&m, known, (struct due){0, 128, DATA, 0});
    if (memcmp(m.reply.bytes, m.book + RECORD_BYTES + 1, RECORD_BYTES - 1) != 0)
        fail("book_find: another key");
    call(&m, unknown, only(5));
    m.book[0] = KEYID;
    call(&m, bare(BOOK_SOUND), only(false));
    call(&m, known, only(1));
    m.room--;
    call(&m, known, only(2));
}

enum { FRAME_AT = 3, FRAME_ROOM = FRAME_AT + 3 + AREA };

/* The bytes before a frame's payload. */
static size_t head_of(const struct payload *p)
{
    return p->count < 128 ? 2 : 3;
}

/* A frame of data goes from FRAME_AT on. */
static void frame_write(uint8_t *out, size_t room, uint8_t kind, struct payload p, size_t len, uint8_t due)
{
    size_t next, end = FRAME_AT + head_of(&p) + (p.count + 7) / 8;
    hide_payload(p.bytes, &p);
    start_count();
    uint8_t answer = kusarehyon_frame_write(out, room, FRAME_AT, kind, p.count, p.bytes, len, &next);
    count_reports("frame_write", &answer, 0);
    check_defined("frame_write", "the place behind", &next, sizeof next);
    /* Shown again, so that the program may compare the frame with its payload. */
    show(&p, sizeof p);
    show(out, room);
    if (answer != due || next != (due ? 0 : end))
        fail("frame_write: answer %u and place %zu", answer, next);
    if (due == 0 && memcmp(out + FRAME_AT + head_of(&p), p.bytes, (p.count + 7) / 8) != 0)
        fail("frame_write: another payload");
}

/* The frame of `p` in a slice of `len` bytes. */
static void frame_scan(uint8_t *s, size_t len, const struct payload *p, uint8_t due)
{
    uint8_t kind;
    size_t numbers[3];
    hide_payload(s + head_of(p), p);
    start_count();
    uint8_t answer = kusarehyon_frame_scan(s, len, &kind, &numbers[0], &numbers[1], &numbers[2]);
    count_reports("frame_scan", &answer, 0);
    check_defined("frame_scan", "the kind", &kind, sizeof kind);
    check_defined("frame_scan", "a number", numbers, sizeof numbers);
    if (answer != due || (due == 0 && (numbers[0] != p->count || numbers[1] != head_of(p) || numbers[2] != len)))
        fail("frame_scan: answer %u, %zu bits from %zu to %zu", answer, numbers[0], numbers[1], numbers[2]);
}

static void frames_of(size_t count)
{
    uint8_t out[FRAME_ROOM] = {0};
    struct payload p = random_data(count);
    size_t len = head_of(&p) + (count + 7) / 8;
    for (size_t i = count; i % 8 != 0; i++)
        if (bit_of(p.bytes, i))
            flip(p.bytes, i);
    frame_write(out, FRAME_ROOM, SECURE, p, PAYLOAD_BYTES, 0);
    frame_scan(out + FRAME_AT, len, &p, 0);
    frame_scan(out + FRAME_AT, len - 1, &p, 20);
    frame_write(out, FRAME_AT + len - 1, SECURE, p, PAYLOAD_BYTES, 24);
    frame_write(out, FRAME_ROOM, 7, p, PAYLOAD_BYTES, 23);
    if (count % 8 != 0) {
        frame_write(out, FRAME_ROOM, SECURE, p, count / 8, 20);
        frame_write(out, FRAME_ROOM, SECURE, with_flip(p, count), PAYLOAD_BYTES, 22);
    }
    frame_write(out, FRAME_ROOM, SECURE, with_count(p, 2121), PAYLOAD_BYTES, 21);
}

void books_and_frames(void)
{
    static const size_t counts[] = {0, 1, 7, 8, 64, 80, 127, 128, 509, 2120};
    books();
    for (size_t i = 0; i < sizeof counts / sizeof *counts; i++)
        frames_of(counts[i]);
}
