/* The tag and the reader under valgrind's memcheck, with every secret marked as undefined. Memcheck reports each branch and each
 * index that an undefined bit chooses. So a call that compares something is reported once, for the verdict of the whole
 * comparison, and no other call is reported at all.
 *
 * Usage: secrets [branch | index | blind]. A word asks for a control that must fail: a function that leaks in the place of a
 * call, or calls with no secret marked.
 */
#include <stdio.h>
#include <string.h>
#include <valgrind/valgrind.h>

#include "secrets.h"

/* ---- the controls */

static volatile uint8_t noted;

static void leak_by_branch(const uint8_t *key)
{
    if (key[0] & 1)
        noted = 1;
}

static void leak_by_index(const uint8_t *key)
{
    static const volatile uint8_t table[256];
    noted = table[key[0]];
}

/* A leaking function in the place of a call that compares nothing. */
static void leaking_call(void (*leak)(const uint8_t *))
{
    struct machine m = new_session(TA, 0).tag;
    begin_call(&m, &(struct payload){.count = 0});
    leak(m.book + 1);
    no_reply(&m);
    m.answer = 0;
    end_call("leaking_call", &m, only(0));
}

/* ---- groups */

static void group(const char *name, void (*run)(void))
{
    unsigned calls_before = calls, comparisons_before = comparisons;
    run();
    printf("%s: %u calls, %u comparisons\n", name, calls - calls_before, comparisons - comparisons_before);
}

static void groups(void)
{
    group("sessions with messages both ways", whole_sessions);
    group("comparisons that fail", failing_sessions);
    group("refusals, closing and error types", refusals);
    group("key book and host frames", books_and_frames);
}

int main(int argc, char **argv)
{
    const char *control = argc > 1 ? argv[1] : "";
    if (!RUNNING_ON_VALGRIND) {
        printf("secrets: runs under valgrind only\n");
        return 2;
    }
    marking = strcmp(control, "blind") != 0;
    if (strcmp(control, "branch") == 0)
        leaking_call(leak_by_branch);
    else if (strcmp(control, "index") == 0)
        leaking_call(leak_by_index);
    else
        groups();
    if (failures) {
        printf("secrets: %u failures in %u calls\n", failures, calls);
        return 1;
    }
    printf("secrets: %u calls, %u comparisons, one report at each comparison and no other\n", calls, comparisons);
    return 0;
}
