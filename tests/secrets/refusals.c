/* Refusals in every state, closing and error types. */
#include <string.h>

#include "secrets.h"

static bool is_closed(const struct machine *m)
{
    static const uint8_t zeros[KUSAREHYON_READER_BYTES];
    if (m->is_tag)
        return m->block[4] == 1 && memcmp(m->block + 5, zeros, KUSAREHYON_TAG_BYTES - 5) == 0;
    return m->block[0] == 4 && memcmp(m->block + 1, zeros, KUSAREHYON_READER_BYTES - 1) == 0;
}

/* A refused call on a copy of the machine, so that one state serves many calls. The answers 3 to 6 close it, but for a begin. */
static void refuse(struct machine m, struct request r, uint8_t due)
{
    uint8_t before[KUSAREHYON_READER_BYTES];
    memcpy(before, m.block, sizeof before);
    call(&m, r, only(due));
    if (3 <= due && due <= 6 && r.function != READER_BEGIN) {
        if (!is_closed(&m))
            fail("%s: answered %u and not closed", function_names[r.function], due);
    } else if (memcmp(before, m.block, sizeof before) != 0)
        fail("%s: answered %u and not kept", function_names[r.function], due);
}

enum { TRIES = 8 };

/* What is tried in every state. At a tag: a step 0 command, the other kinds, and the responses; at a reader: a begin, a response
 * of 56 bits, three kinds to send and three to receive. */
static struct request tried(const struct machine *m, uint8_t i)
{
    struct payload message = layout(100, width_of(m) ? width_of(m) : 32);
    if (m->is_tag) {
        if (i == 0)
            return request(TAG_COMMAND, AUTH, (struct payload){.bytes = {0x80, KEYID}, .count = 64});
        return i <= COMM_RESPONSE ? request(TAG_COMMAND, i, message) : request(TAG_RESPONSE, i - 1, random_data(100));
    }
    if (i == 0)
        return (struct request){.function = READER_BEGIN, .kind = MA, .options = 1, .keyid = KEYID};
    if (i == 1)
        return request(READER_REPLIED, 0, (struct payload){.bytes = {FEATURES}, .count = 56});
    return i < 5 ? request(READER_SEND, i - 1, random_data(100)) : request(READER_RECEIVE, i - 4, message);
}

/* Blocks against the rules, a short buffer, counts, numbers and books: every state refuses them alike. */
static void refuse_faults(const struct machine *m, struct request r)
{
    const size_t places[] = {0, m->is_tag ? 6 : 2, m->is_tag ? 7 : 4};
    struct machine other = *m;
    other.room--;
    refuse(other, r, 2);
    for (size_t i = 0; i < 3; i++) {
        other = *m;
        other.block[places[i]] ^= 0x80;
        refuse(other, r, 8);
    }
    if (r.function != READER_BEGIN)
        refuse(*m, request(r.function, r.kind, with_count(r.given, 8 * PAYLOAD_BYTES + 1)), 11);
    if (r.function != READER_BEGIN && r.function != TAG_COMMAND)
        return;
    other = *m;
    other.number = (uint64_t)1 << 48;
    refuse(other, r, 11);
    other = *m;
    other.book_len--;
    refuse(other, r, r.kind == COMM_RESPONSE ? 11 : 1);
    other = *m;
    other.book[0] = KEYID;
    refuse(other, r, r.kind == COMM_RESPONSE ? 11 : 1);
}

static void refuse_tries(const struct machine *m, const uint8_t *answers)
{
    for (uint8_t i = 0; i < TRIES; i++) {
        struct request r = tried(m, i);
        if (answers[i])
            refuse(*m, r, answers[i]);
        refuse_faults(m, r);
    }
    if (m->is_tag)
        refuse(*m, request(TAG_RESPONSE, COMM_RESPONSE, random_data(2049)), 11);
    else
        refuse(*m, request(READER_SEND, COMM, random_data(2049)), 11);
}

/* A state, by the steps that lead to it, and its answers to the tries: 0 where one is not refused, which is for other groups. */
struct state {
    uint8_t method, options;
    size_t steps;
    uint8_t answers[TRIES];
};

static void tag_refusals(const struct state *state)
{
    static const uint8_t closed[TRIES] = {7, 7, 7, 7, 11, 7, 7, 11};
    struct session s = session_after(state->method, state->options, state->steps);
    refuse_tries(&s.tag, state->answers);
    call(&s.tag, bare(TAG_ERROR_TYPE), only(0));
    call(&s.tag, bare(TAG_CLOSE), only(0));
    call(&s.tag, bare(TAG_ERROR_TYPE), only(state->steps == 0 ? 1 : 3));
    refuse_tries(&s.tag, closed);
    call(&s.tag, bare(TAG_RESET), only(0));
}

static void reader_refusals(const struct state *state)
{
    static const uint8_t closed[TRIES] = {9, 9, 9, 9, 11, 9, 9, 11};
    struct session s = session_after(state->method, state->options, state->steps);
    refuse_tries(&s.reader, state->answers);
    memset(s.reader.block, 0, sizeof s.reader.block);
    s.reader.block[0] = 4;
    refuse_tries(&s.reader, closed);
    call(&s.reader, bare(READER_RESET), only(0));
}

static void refusals_by_state(void)
{
    static const struct state tags[] = {
        {TA, 0, 0, {0, 3, 3, 3, 11, 9, 9, 11}}, {TA, 0, 2, {3, 9, 3, 3, 11, 0, 3, 11}}, {TA, 3, 2, {3, 9, 3, 3, 11, 0, 3, 11}},
        {IA, 0, 2, {6, 3, 3, 3, 11, 9, 9, 11}}, {MA, 1, 2, {6, 3, 3, 3, 11, 9, 9, 11}}, {IA, 2, 4, {3, 0, 3, 3, 11, 9, 9, 11}},
        {MA, 0, 4, {3, 0, 3, 3, 11, 0, 3, 11}}, {MA, 3, 4, {3, 0, 0, 3, 11, 0, 0, 11}},
    };
    static const struct state readers[] = {
        {TA, 0, 0, {0, 9, 9, 9, 11, 9, 9, 11}}, {TA, 1, 1, {9, 6, 9, 9, 11, 9, 9, 11}}, {MA, 0, 1, {9, 0, 9, 9, 11, 9, 9, 11}},
        {IA, 0, 3, {9, 6, 9, 9, 11, 9, 9, 11}}, {MA, 3, 3, {9, 6, 9, 9, 11, 9, 9, 11}}, {TA, 1, 3, {9, 9, 9, 9, 11, 0, 9, 11}},
        {IA, 2, 5, {9, 9, 0, 9, 11, 9, 9, 11}}, {MA, 0, 5, {9, 9, 0, 9, 11, 0, 9, 11}}, {MA, 3, 5, {9, 9, 0, 0, 11, 0, 0, 11}},
    };
    for (size_t i = 0; i < sizeof tags / sizeof *tags; i++)
        tag_refusals(&tags[i]);
    for (size_t i = 0; i < sizeof readers / sizeof *readers; i++)
        reader_refusals(&readers[i]);
}

/* Authentication commands refused for method, step, options, KeyID and length, with their keystream bits in them. */
static void refuse_commands(const struct session *s, bool first)
{
    struct payload command = s->reader.reply;
    if (!first)
        refuse(s->tag, request(TAG_COMMAND, AUTH, with_flip(command, 0)), 3);
    refuse(s->tag, request(TAG_COMMAND, AUTH, with_flip(command, 3)), 3);
    refuse(s->tag, request(TAG_COMMAND, AUTH, with_flip(command, 5)), 4);
    refuse(s->tag, request(TAG_COMMAND, AUTH, with_flip(command, 14)), 5);
    refuse(s->tag, request(TAG_COMMAND, AUTH, with_count(command, command.count - 1)), 6);
}

/* Messages refused for their eight bits and their length. */
static void refuse_messages(struct session *s, bool to_tag, uint8_t kind)
{
    size_t width = width_of(&s->reader);
    struct payload message = layout(100, width);
    struct payload wrong[] = {with_flip(message, 100), with_flip(message, 107), with_count(message, 8 + width - 1),
                              layout(2049, width)};
    for (size_t i = 0; i < sizeof wrong / sizeof *wrong; i++)
        refuse(to_tag ? s->tag : s->reader, taking(to_tag, kind, wrong[i]), 6);
}

static void refusing_session(uint8_t method, uint8_t options)
{
    struct session s = session_after(method, options, 1);
    refuse_commands(&s, true);
    step_0(&s);
    struct payload response = s.tag.reply;
    refuse(s.reader, request(READER_REPLIED, 0, with_count(response, response.count - 1)), 6);
    response.bytes[0] = 0;
    refuse(s.reader, request(READER_REPLIED, 0, response), 4);
    /* TA's own feature is bit 0 and IA's bit 1, as their numbers; MA has none. */
    response.bytes[0] = FEATURES ^ 1 << method;
    if (method != MA)
        refuse(s.reader, request(READER_REPLIED, 0, response), 4);
    if (method != TA) {
        answer(&s);
        refuse_commands(&s, false);
        step_1(&s);
        refuse(s.reader, request(READER_REPLIED, 0, with_count(s.tag.reply, 2)), 6);
    }
    if (method == MA)
        refuse(s.reader, request(READER_REPLIED, 0, with_flip(s.tag.reply, 0)), 6);
    s = open_session(method, options);
    each_way(&s, refuse_messages);
}

void refusals(void)
{
    refusals_by_state();
    each_session(refusing_session);
}
