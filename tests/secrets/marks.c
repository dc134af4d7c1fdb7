/* The marks of secrets before a call, the count of memcheck's reports, and what a call must leave. */
#include <stdarg.h>
#include <stdio.h>
#include <string.h>
#include <valgrind/memcheck.h>

#include "secrets.h"

enum { SHOWN_FAILURES = 10 };

bool marking = true;
unsigned failures, calls, comparisons;
static unsigned reports_before;

void fail(const char *format, ...)
{
    if (failures++ >= SHOWN_FAILURES)
        return;
    va_list values;
    va_start(values, format);
    printf("secrets: call %u, ", calls);
    vprintf(format, values);
    printf("\n");
    va_end(values);
}

/* ---- marks */

size_t width_of(const struct machine *m)
{
    return m->is_tag ? m->block[7] : m->block[4];
}

static bool secret_bit(const struct payload *p, size_t i)
{
    switch (p->form) {
    case TAG_PROOF:
        return i >= 56;
    case READER_PROOF:
        return i >= 16;
    case MUTUAL_PROOF:
        return i >= 1;
    case MESSAGE:
        return i + 8 + p->width < p->count || i + p->width >= p->count;
    case DATA:
        return true;
    default:
        return false;
    }
}

static void secret_mask(const struct payload *p, uint8_t *mask)
{
    memset(mask, 0, PAYLOAD_BYTES);
    for (size_t i = 0; i < p->count && i < 8 * PAYLOAD_BYTES; i++)
        if (secret_bit(p, i))
            flip(mask, i);
}

void hide_payload(uint8_t *bytes, const struct payload *p)
{
    uint8_t mask[PAYLOAD_BYTES];
    secret_mask(p, mask);
    if (marking)
        (void)VALGRIND_SET_VBITS(bytes, mask, (p->count + 7) / 8 < PAYLOAD_BYTES ? (p->count + 7) / 8 : PAYLOAD_BYTES);
}

static void hide(void *bytes, size_t len)
{
    if (marking)
        (void)VALGRIND_MAKE_MEM_UNDEFINED(bytes, len);
}

void show(void *bytes, size_t len)
{
    (void)VALGRIND_MAKE_MEM_DEFINED(bytes, len);
}

/* By document 01 a tag that is reset or closed, and a reader that is idle or closed, hold only zeros; and accumulator and shift
 * register have zeros above the width. Those zeros are no secret, and a stored state is tested for them. */
static void hide_block(struct machine *m)
{
    bool closed = m->is_tag ? m->block[4] == 1 : m->block[0] == 4;
    size_t width_bytes = width_of(m) / 8;
    if (m->block[0] == 0 || closed)
        return;
    hide(m->block + 8, 32);
    hide(m->block + 48 - width_bytes, width_bytes);
    hide(m->block + 56 - width_bytes, width_bytes);
}

void start_count(void)
{
    reports_before = VALGRIND_COUNT_ERRORS;
}

void begin_call(struct machine *m, struct payload *given)
{
    for (size_t i = 0; i < RECORDS; i++)
        hide(m->book + RECORD_BYTES * i + 1, RECORD_BYTES - 1);
    hide_block(m);
    hide_payload(given->bytes, given);
    hide(m->reply.bytes, PAYLOAD_BYTES);
    hide(&m->answer, sizeof m->answer);
    hide(&m->bits, sizeof m->bits);
    start_count();
}

/* ---- what a call must leave */

void check_defined(const char *call, const char *what, const void *bytes, size_t len)
{
    if (VALGRIND_CHECK_MEM_IS_DEFINED(bytes, len) != 0)
        fail("%s: %s depends on a secret", call, what);
}

/* A verdict may also be taken without a branch, by a select: then the answer is what depends on it. So an answer that does counts
 * as a report, and either way there is one. */
void count_reports(const char *call, const uint8_t *answer, unsigned due)
{
    unsigned found = VALGRIND_COUNT_ERRORS - reports_before;
    found += VALGRIND_CHECK_MEM_IS_DEFINED(answer, 1) != 0;
    calls++;
    comparisons += due;
    if (found != due)
        fail("%s: %u reports where %u are due", call, found, due);
}

static void check_public(const char *call, const struct machine *m)
{
    uint8_t mask[PAYLOAD_BYTES], found[AREA];
    check_defined(call, "the bit count", &m->bits, sizeof m->bits);
    check_defined(call, "the block's head", m->block, 8);
    if (!m->is_tag)
        check_defined(call, "the reader's number", m->block + 56, 8);
    secret_mask(&m->reply, mask);
    (void)VALGRIND_GET_VBITS(m->reply.bytes, found, AREA);
    for (size_t i = 0; i < m->room; i++)
        if (found[i] & ~mask[i]) {
            fail("%s: a public bit in byte %zu of the reply depends on a secret", call, i);
            return;
        }
}

static void check_results(const char *call, const struct machine *m, struct due due)
{
    if (m->answer != due.answer || m->bits != due.bits)
        fail("%s: answer %u with %zu bits where %u with %zu are due", call, m->answer, m->bits, due.answer, due.bits);
    for (size_t i = due.bits; i < 8 * m->room; i++)
        if (bit_of(m->reply.bytes, i)) {
            fail("%s: the reply has a 1 past its end", call);
            return;
        }
}

/* The program looks at the answer and at the reply itself, and hands the reply on. So what the machine holds is shown again after
 * each call, and the next call marks it anew. */
void end_call(const char *call, struct machine *m, struct due due)
{
    count_reports(call, &m->answer, due.reports);
    m->reply.count = due.bits;
    m->reply.form = due.form;
    m->reply.width = width_of(m);
    if (due.reports == 0)
        check_public(call, m);
    show(m, sizeof *m);
    check_results(call, m, due);
}
