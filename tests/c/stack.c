/* Runs every call of the header on a thread whose stack has just CORKBINGO_STACK_BYTES: short and
 * long files, signed inputs, every path of a continue call, refusals, and wrong layouts. Below the
 * stack stands a page that nothing may touch: a call that takes more ends the program by a signal.
 * Counts what each call writes of the stack beyond what a thread that makes none does, which is at
 * most MOST bytes. Prints the most, with `ok stack: K calls`, or `FAILED stack: what`, and ends with status 1 where
 * something failed. */
#define _DEFAULT_SOURCE
#include "corkbingo.h"

#include <pthread.h>
#include <stdio.h>
#include <stdlib.h>
#include <string.h>
#include <sys/mman.h>

enum { PAGE = 4096, PAINT = 0xa5, MOST = 96 * 1024 };

static unsigned char *stack;
static size_t deepest, own;
static unsigned calls, failures;

/* What the calls work on. */
static uint8_t files[2][CORKBINGO_FILE_BYTES];
static size_t lengths[2];
static uint64_t sizes[CORKBINGO_SIZES_WORDS];
static uint64_t session[CORKBINGO_SESSION_WORDS], answer[CORKBINGO_CONTINUE_WORDS];
static uint64_t out[CORKBINGO_CONTINUE_WORDS], scratch[CORKBINGO_STEPS];
static uint64_t cells[2][4096];
static uint8_t text[CORKBINGO_TEXT_BYTES];
static uint64_t budget, expected;
static size_t session_words = CORKBINGO_SESSION_WORDS;

static void check(const char *what, int holds)
{
    if (holds)
        return;
    failures++;
    printf("FAILED stack: %s\n", what);
}

/* Runs one call on a thread of its own, and answers the bytes of its stack that were written. */
static size_t used(void *(*call)(void *))
{
    pthread_attr_t attributes;
    pthread_t thread;
    size_t untouched = 0;

    memset(stack, PAINT, CORKBINGO_STACK_BYTES);
    pthread_attr_init(&attributes);
    if (pthread_attr_setstack(&attributes, stack, CORKBINGO_STACK_BYTES) != 0
        || pthread_create(&thread, &attributes, call, NULL) != 0
        || pthread_join(thread, NULL) != 0) {
        check("a thread of this size can't be started", 0);
        exit(1);
    }
    pthread_attr_destroy(&attributes);
    while (untouched < CORKBINGO_STACK_BYTES && stack[untouched] == PAINT)
        untouched++;
    return CORKBINGO_STACK_BYTES - untouched;
}

static void run(const char *what, void *(*call)(void *))
{
    size_t bytes = used(call) - own;

    calls++;
    check(what, bytes <= MOST);
    if (bytes > deepest) {
        deepest = bytes;
        printf("%zu bytes: %s\n", deepest, what);
    }
}

static void *by_nothing(void *ignored)
{
    return ignored;
}

static void *by_check(void *ignored)
{
    check("check", corkbingo_check(files[0], lengths[0], out, CORKBINGO_CHECK_WORDS) == 1 && out[0] == 0);
    return ignored;
}

static void *by_operations(void *ignored)
{
    check("operations", corkbingo_operations(files[0], lengths[0], out, CORKBINGO_OPERATIONS_WORDS) == 1);
    return ignored;
}

static void *by_bound(void *ignored)
{
    check("bound", corkbingo_bound(64, out, CORKBINGO_BOUND_WORDS) == 1 && out[CORKBINGO_BOUND_LEAST] == 66);
    return ignored;
}

static void *by_grid(void *ignored)
{
    check("grid", corkbingo_grid(files[0], lengths[0], out, CORKBINGO_GRID_WORDS) == 1 && out[0] == 0);
    return ignored;
}

static void *by_evaluate(void *ignored)
{
    static const uint64_t vector[CORKBINGO_INPUTS] = {1, 1};
    uint32_t returned = corkbingo_evaluate(files[0], lengths[0], vector, sizes[CORKBINGO_SESSION_D], scratch,
                                           CORKBINGO_STEPS, out, CORKBINGO_EVALUATE_WORDS);
    check("evaluate", returned == 1 && out[0] == 0);
    return ignored;
}

static void *by_table(void *ignored)
{
    uint32_t returned = corkbingo_table(files[0], lengths[0], scratch, CORKBINGO_STEPS, cells[0], 4096, out,
                                        CORKBINGO_TABLE_WORDS);
    check("table", returned == 1 && out[0] == 0);
    return ignored;
}

static void *by_sum(void *ignored)
{
    uint32_t returned = corkbingo_sum(sizes, CORKBINGO_SIZES_WORDS, cells[0], 4096, cells[1], 4096, out,
                                      CORKBINGO_SUM_WORDS);
    check("sum", returned == 1 && out[0] == 0);
    returned = corkbingo_difference(sizes, CORKBINGO_SIZES_WORDS, cells[1], 4096, cells[0], 4096, out,
                                    CORKBINGO_DIFFERENCE_WORDS);
    check("difference", returned == 1 && out[0] == 0);
    return ignored;
}

static void *by_open(void *ignored)
{
    uint32_t returned = corkbingo_open(files[0], lengths[0], files[1], lengths[1], session, CORKBINGO_SESSION_WORDS,
                                       out, CORKBINGO_OPEN_WORDS);
    check("open", returned == 1 && out[0] == 0);
    return ignored;
}

static void *by_continue(void *ignored)
{
    uint32_t returned = corkbingo_continue(files[0], lengths[0], files[1], lengths[1], session, session_words, budget,
                                           scratch, CORKBINGO_STEPS, answer, CORKBINGO_CONTINUE_WORDS);
    check("continue", returned == (session_words == CORKBINGO_SESSION_WORDS));
    check("kind of continue", answer[CORKBINGO_ANSWER_KIND] == expected);
    return ignored;
}

static void *by_report(void *ignored)
{
    uint32_t returned = corkbingo_report(files[0], lengths[0], files[1], lengths[1], answer, CORKBINGO_CONTINUE_WORDS,
                                         324, text, CORKBINGO_TEXT_BYTES, out, CORKBINGO_REPORT_WORDS);
    check("report", returned == 1 && out[0] > 0);
    return ignored;
}

/* Sizes with m 16 and d inputs of this width byte. */
static void resize(size_t d, uint64_t width)
{
    memset(sizes, 0, sizeof sizes);
    sizes[CORKBINGO_SESSION_M] = 16;
    sizes[CORKBINGO_SESSION_D] = d;
    for (size_t i = 0; i < d; i++)
        sizes[CORKBINGO_SESSION_WIDTHS + i] = width;
}

/* A file of these sizes and n steps: the first input, the last one, and then sums of the step before
 * with the two in turn. Where `last` is not 0, it is a constant that is added at the end. */
static void fill(int which, size_t n, uint64_t last)
{
    size_t d = sizes[CORKBINGO_SESSION_D], head = CORKBINGO_HEAD_BYTES(d);
    uint8_t *file = files[which], *operations = file + head, *arguments = operations + n;

    lengths[which] = head + 9 * n;
    memset(file, 0, lengths[which]);
    file[0] = sizes[CORKBINGO_SESSION_M];
    file[1] = d;
    file[2] = n % 256;
    file[3] = n / 256;
    for (size_t i = 0; i < d; i++)
        file[4 + i] = sizes[CORKBINGO_SESSION_WIDTHS + i];
    for (size_t k = 0; k < n; k++) {
        uint64_t left = k - 1, right = k % 2, argument = left + (right << 16);

        if (k < 2) {
            operations[k] = 1;
            argument = k * (d - 1);
        } else if (last != 0 && k == n - 2) {
            operations[k] = 2;
            argument = last;
        } else if (last != 0 && k == n - 1) {
            operations[k] = 3;
            argument = (k - 2) + ((k - 1) << 16);
        } else {
            operations[k] = 3 + k % 3;
        }
        for (int i = 0; i < 8; i++)
            arguments[8 * k + i] = argument >> (8 * i) & 255;
    }
}

static void resume(const char *what, uint64_t vectors, uint64_t kind)
{
    budget = vectors;
    expected = kind;
    run(what, by_continue);
}

/* Every call on files of n1 and n2 steps. */
static void all(size_t n1, size_t n2)
{
    printf("%zu and %zu steps, %d inputs of width byte %d\n", n1, n2, (int)sizes[CORKBINGO_SESSION_D],
           (int)sizes[CORKBINGO_SESSION_WIDTHS]);
    fill(0, n1, 0);
    fill(1, n2, 0);
    run("check", by_check);
    run("operations", by_operations);
    run("grid", by_grid);
    run("evaluate", by_evaluate);
    run("table", by_table);
    run("sum and difference", by_sum);
    if (n1 == n2) {
        run("open", by_open);
        resume("continue, 1 vector", 1, CORKBINGO_KIND_SPENT);
        resume("continue, 15 vectors", 15, CORKBINGO_KIND_SPENT);
        resume("continue, 17 vectors", 17, CORKBINGO_KIND_SPENT);
        session_words = CORKBINGO_SESSION_WORDS - 1;
        resume("continue, wrong layout", 1, CORKBINGO_KIND_SPENT);
        session_words = CORKBINGO_SESSION_WORDS;
        resume("continue, to the end", 1000000, CORKBINGO_KIND_EQUIVALENT);
        run("report of equivalent", by_report);
        resume("continue, closed", 1, CORKBINGO_KIND_REFUSED);
        run("report of a refusal", by_report);
    }
    fill(0, n1, 1);
    run("open", by_open);
    resume("continue, no budget", 0, CORKBINGO_KIND_REFUSED);
    resume("continue, to a difference", 1000000, CORKBINGO_KIND_DIFFERS);
    run("report of differs", by_report);
}

int main(void)
{
    static const size_t counts[][2] = {{4, 4}, {64, 64}, {65, 4}, {256, 256}, {257, 257}, {512, 512},
                                       {513, 4}, {1024, 1024}, {4, 1024}, {1024, 257}};
    unsigned char *room = mmap(NULL, PAGE + CORKBINGO_STACK_BYTES, PROT_READ | PROT_WRITE,
                               MAP_PRIVATE | MAP_ANONYMOUS, -1, 0);

    setvbuf(stdout, NULL, _IOLBF, 0);
    if (room == MAP_FAILED || mprotect(room, PAGE, PROT_NONE) != 0) {
        printf("FAILED stack: no memory\n");
        return 1;
    }
    stack = room + PAGE;
    own = used(by_nothing);
    run("bound", by_bound);
    for (size_t i = 0; i < sizeof counts / sizeof counts[0]; i++) {
        resize(2, 16); /* 18 * 18 vectors */
        all(counts[i][0], counts[i][1]);
        resize(2, CORKBINGO_SIGNED + 16); /* as many */
        all(counts[i][0], counts[i][1]);
        resize(CORKBINGO_INPUTS, 1); /* 1,024 */
        all(counts[i][0], counts[i][1]);
    }
    if (failures > 0)
        return 1;
    printf("ok stack: %u calls, at most %zu of %d bytes, and %zu of the thread's own\n", calls, deepest,
           CORKBINGO_STACK_BYTES, own);
    return 0;
}
