/* The calls on a machine, each under count. */
#include <string.h>

#include "secrets.h"

const char *const function_names[] = {
    "tag_reset",    "tag_command",    "tag_response", "tag_close",      "tag_error_type", "reader_reset",
    "reader_begin", "reader_replied", "reader_send",  "reader_receive", "book_sound",     "book_find",
};

/* Some functions have no reply. */
void no_reply(struct machine *m)
{
    memset(m->reply.bytes, 0, AREA);
    m->bits = 0;
}

static uint8_t tag_call(struct machine *m, const struct request *r)
{
    uint8_t *reply = m->reply.bytes;
    switch (r->function) {
    case TAG_RESET:
        return kusarehyon_tag_reset(m->block, KUSAREHYON_TAG_BYTES, reply, m->room, &m->bits);
    case TAG_COMMAND:
        return kusarehyon_tag_command(m->block, KUSAREHYON_TAG_BYTES, r->kind, r->given.bytes, PAYLOAD_BYTES, r->given.count,
                                      FEATURES, m->book, m->book_len, m->number, reply, m->room, &m->bits);
    case TAG_RESPONSE:
        return kusarehyon_tag_response(m->block, KUSAREHYON_TAG_BYTES, r->kind, r->given.bytes, PAYLOAD_BYTES, r->given.count,
                                       reply, m->room, &m->bits);
    case TAG_CLOSE:
        no_reply(m);
        return kusarehyon_tag_close(m->block, KUSAREHYON_TAG_BYTES);
    default:
        no_reply(m);
        return kusarehyon_tag_error_type(m->block, KUSAREHYON_TAG_BYTES);
    }
}

static uint8_t reader_call(struct machine *m, const struct request *r)
{
    uint8_t *reply = m->reply.bytes;
    switch (r->function) {
    case READER_RESET:
        return kusarehyon_reader_reset(m->block, KUSAREHYON_READER_BYTES, reply, m->room, &m->bits);
    case READER_BEGIN:
        return kusarehyon_reader_begin(m->block, KUSAREHYON_READER_BYTES, r->kind, r->options, r->keyid, m->number, m->book,
                                       m->book_len, reply, m->room, &m->bits);
    case READER_REPLIED:
        return kusarehyon_reader_replied(m->block, KUSAREHYON_READER_BYTES, r->given.bytes, PAYLOAD_BYTES, r->given.count, reply,
                                         m->room, &m->bits);
    case READER_SEND:
        return kusarehyon_reader_send(m->block, KUSAREHYON_READER_BYTES, r->kind, r->given.bytes, PAYLOAD_BYTES, r->given.count,
                                      reply, m->room, &m->bits);
    default:
        return kusarehyon_reader_receive(m->block, KUSAREHYON_READER_BYTES, r->kind, r->given.bytes, PAYLOAD_BYTES,
                                         r->given.count, reply, m->room, &m->bits);
    }
}

static uint8_t book_call(struct machine *m, const struct request *r)
{
    if (r->function == BOOK_FIND)
        return kusarehyon_book_find(m->book, m->book_len, r->keyid, m->reply.bytes, m->room, &m->bits);
    no_reply(m);
    return kusarehyon_book_sound(m->book, m->book_len);
}

void call(struct machine *m, struct request r, struct due due)
{
    begin_call(m, &r.given);
    if (r.function <= TAG_ERROR_TYPE)
        m->answer = tag_call(m, &r);
    else if (r.function <= READER_RECEIVE)
        m->answer = reader_call(m, &r);
    else
        m->answer = book_call(m, &r);
    end_call(function_names[r.function], m, due);
}

struct request request(enum function function, uint8_t kind, struct payload given)
{
    return (struct request){.function = function, .kind = kind, .given = given};
}

struct request bare(enum function function)
{
    return (struct request){.function = function};
}

/* A call without a reply, whose answer may be any number. */
struct due only(uint8_t answer)
{
    return (struct due){answer, 0, PUBLIC, 0};
}
