/* Calls each function of the header, on the sample files of document 01: a.dp, x1 x2 with m 2 and
 * word lengths 1 and 2, and b.dp, 0 with the same sizes; on files of ten inputs and of a signed one;
 * with slices of wrong lengths; and with empty slices whose pointers are null. Prints `ok header: K comparisons`,
 * or `FAILED header: what`, and ends with status 1 where something failed. */
#include "corkbingo.h"

#include <inttypes.h>
#include <stdio.h>
#include <string.h>

static const uint8_t sample[39] = {
    2, 2, 3, 0, 1, 2, 0, 0, 0, 0, 0, 0,
    1, 1, 5,
    0, 0, 0, 0, 0, 0, 0, 0,
    1, 0, 0, 0, 0, 0, 0, 0,
    0, 0, 1, 0, 0, 0, 0, 0,
};

static unsigned comparisons;
static unsigned failures;

static void same(const char *what, size_t index, uint64_t found, uint64_t expected)
{
    comparisons++;
    if (found == expected)
        return;
    failures++;
    printf("FAILED header: %s, word %zu: %" PRIu64 ", not %" PRIu64 "\n", what, index, found,
           expected);
}

static void answer(const char *what, uint32_t returned, const uint64_t *found,
                   const uint64_t *expected, size_t length)
{
    comparisons++;
    if (returned != 1) {
        failures++;
        printf("FAILED header: %s returned %" PRIu32 "\n", what, returned);
        return;
    }
    for (size_t index = 0; index < length; index++)
        same(what, index, found[index], expected[index]);
}

static void tables(void)
{
    static const uint64_t sizes[CORKBINGO_SIZES_WORDS] = {2, 2, 1, 2};
    static const uint64_t accepted[CORKBINGO_TABLE_WORDS] = {0, 0, 0};
    static const uint64_t cells[9] = {0, 0, 0, 0, 0, 1, 0, 0, 7};
    static const uint64_t outputs[9] = {0, 0, 0, 0, 0, 1, 2, 3, 7};
    static const uint64_t cleared[4] = {0, 0, 0, 7};
    uint64_t scratch[4] = {7, 7, 7, 7};
    uint64_t made[9] = {7, 7, 7, 7, 7, 7, 7, 7, 7};
    uint64_t summed[9] = {7, 7, 7, 7, 7, 7, 7, 7, 7};
    uint64_t differenced[9] = {7, 7, 7, 7, 7, 7, 7, 7, 7};
    uint64_t out[CORKBINGO_TABLE_WORDS];
    uint32_t returned;

    returned = corkbingo_table(sample, sizeof sample, scratch, 4, made, 9, out,
                               CORKBINGO_TABLE_WORDS);
    answer("table", returned, out, accepted, CORKBINGO_TABLE_WORDS);
    answer("cells of table", returned, made, cells, 9);
    answer("scratch of table", returned, scratch, cleared, 4);

    returned = corkbingo_sum(sizes, CORKBINGO_SIZES_WORDS, made, 9, summed, 9, out,
                             CORKBINGO_SUM_WORDS);
    answer("sum", returned, out, accepted, CORKBINGO_SUM_WORDS);
    answer("outputs of sum", returned, summed, outputs, 9);

    returned = corkbingo_difference(sizes, CORKBINGO_SIZES_WORDS, summed, 9, differenced, 9, out,
                                    CORKBINGO_DIFFERENCE_WORDS);
    answer("difference", returned, out, accepted, CORKBINGO_DIFFERENCE_WORDS);
    answer("cells of difference", returned, differenced, cells, 9);
}

static const uint8_t zero[21] = {
    2, 2, 1, 0, 1, 2, 0, 0, 0, 0, 0, 0,
    2,
    0, 0, 0, 0, 0, 0, 0, 0,
};

/* The same with a step more: its operand is the step itself, which is refused by 8 at step 1. */
static const uint8_t wrong[30] = {
    2, 2, 2, 0, 1, 2, 0, 0, 0, 0, 0, 0,
    2, 3,
    0, 0, 0, 0, 0, 0, 0, 0,
    1, 0, 0, 0, 0, 0, 0, 0,
};

static void reported(const uint8_t *text, uint64_t length, const char *lines)
{
    same("length of report", 0, length, strlen(lines));
    for (size_t index = 0; lines[index] != 0; index++)
        same("text of report", index, text[index], (uint8_t)lines[index]);
}

static void sessions(void)
{
    static const uint64_t accepted[CORKBINGO_OPEN_WORDS] = {0, 0, 0};
    static const uint64_t opened[CORKBINGO_SESSION_WORDS] = {2, 2, 1, 2};
    static const uint64_t before[CORKBINGO_SESSION_WORDS] = {
        2, 2, 1, 2, 0, 0, 0, 0, 0, 0, 0, 0, 5, CORKBINGO_MARK_OPEN};
    static const uint64_t after[CORKBINGO_SESSION_WORDS] = {
        2, 2, 1, 2, 0, 0, 0, 0, 0, 0, 0, 0, 6, CORKBINGO_MARK_DIFFER};
    static const uint64_t spent[CORKBINGO_CONTINUE_WORDS] = {0, 0, 0, CORKBINGO_KIND_SPENT, 5};
    static const uint64_t shown[CORKBINGO_CONTINUE_WORDS] = {
        0, 0, 0, CORKBINGO_KIND_DIFFERS, 1, 1, 1, 0, 0, 0, 0, 0, 0, 0, 0, 1, 0};
    static const uint64_t refused[CORKBINGO_CONTINUE_WORDS] = {103};
    static const char lines[] = "grid 2 4 = 8\ndiffer 1 1 : 1 0\nrun 6\n";
    uint8_t text[CORKBINGO_TEXT_BYTES];
    static const uint64_t cleared[4] = {0, 0, 0, 7};
    uint64_t scratch[4] = {7, 7, 7, 7};
    uint64_t session[CORKBINGO_SESSION_WORDS];
    uint64_t out[CORKBINGO_CONTINUE_WORDS];
    uint32_t returned;

    returned = corkbingo_open(sample, sizeof sample, zero, sizeof zero, session,
                              CORKBINGO_SESSION_WORDS, out, CORKBINGO_OPEN_WORDS);
    answer("open", returned, out, accepted, CORKBINGO_OPEN_WORDS);
    answer("session of open", returned, session, opened, CORKBINGO_SESSION_WORDS);

    returned = corkbingo_continue(sample, sizeof sample, zero, sizeof zero, session,
                                  CORKBINGO_SESSION_WORDS, 5, scratch, 4, out,
                                  CORKBINGO_CONTINUE_WORDS);
    answer("spent", returned, out, spent, CORKBINGO_CONTINUE_WORDS);
    answer("session of spent", returned, session, before, CORKBINGO_SESSION_WORDS);
    answer("scratch of spent", returned, scratch, cleared, 4);

    returned = corkbingo_continue(sample, sizeof sample, zero, sizeof zero, session,
                                  CORKBINGO_SESSION_WORDS, UINT64_MAX, scratch, 3, out,
                                  CORKBINGO_CONTINUE_WORDS);
    answer("differs", returned, out, shown, CORKBINGO_CONTINUE_WORDS);
    same("kind", CORKBINGO_ANSWER_KIND, out[CORKBINGO_ANSWER_KIND], CORKBINGO_KIND_DIFFERS);
    same("run", CORKBINGO_ANSWER_RUN, out[CORKBINGO_ANSWER_RUN], 1);
    same("second input", CORKBINGO_ANSWER_VECTOR + 1, out[CORKBINGO_ANSWER_VECTOR + 1], 1);
    same("output 1", CORKBINGO_ANSWER_OUTPUT1, out[CORKBINGO_ANSWER_OUTPUT1], 1);
    same("output 2", CORKBINGO_ANSWER_OUTPUT2, out[CORKBINGO_ANSWER_OUTPUT2], 0);
    answer("session of differs", returned, session, after, CORKBINGO_SESSION_WORDS);

    returned = corkbingo_continue(sample, sizeof sample, zero, sizeof zero, session,
                                  CORKBINGO_SESSION_WORDS, 1, scratch, 3, out,
                                  CORKBINGO_CONTINUE_WORDS);
    answer("refused", returned, out, refused, CORKBINGO_CONTINUE_WORDS);
    answer("session of refused", returned, session, after, CORKBINGO_SESSION_WORDS);
    same("position", CORKBINGO_SESSION_POSITION, session[CORKBINGO_SESSION_POSITION], 6);
    same("mark", CORKBINGO_SESSION_MARK, session[CORKBINGO_SESSION_MARK], CORKBINGO_MARK_DIFFER);
    same("second word length", CORKBINGO_SESSION_WIDTHS + 1, session[CORKBINGO_SESSION_WIDTHS + 1], 2);
    same("m", CORKBINGO_SESSION_M, session[CORKBINGO_SESSION_M], 2);
    same("d", CORKBINGO_SESSION_D, session[CORKBINGO_SESSION_D], 2);

    returned = corkbingo_open(sample, sizeof sample, wrong, sizeof wrong, session, CORKBINGO_SESSION_WORDS,
                              out, CORKBINGO_OPEN_WORDS);
    same("opening of a wrong file", 0, returned, 1);
    same("number", CORKBINGO_REFUSAL_NUMBER, out[CORKBINGO_REFUSAL_NUMBER], 8);
    same("file", CORKBINGO_REFUSAL_FILE, out[CORKBINGO_REFUSAL_FILE], 2);
    same("step", CORKBINGO_REFUSAL_STEP, out[CORKBINGO_REFUSAL_STEP], 1);

    returned = corkbingo_report(sample, sizeof sample, zero, sizeof zero, shown, CORKBINGO_CONTINUE_WORDS, 6,
                                text, CORKBINGO_TEXT_BYTES, out, CORKBINGO_REPORT_WORDS);
    same("report", 0, returned, 1);
    reported(text, out[0], lines);
}

/* x1 x10 with m 2 and ten inputs of 1 bit, and 0 with the same sizes. */
static const uint8_t ten[41] = {
    2, 10, 3, 0, 1, 1, 1, 1, 1, 1, 1, 1, 1, 1,
    1, 1, 5,
    0, 0, 0, 0, 0, 0, 0, 0,
    9, 0, 0, 0, 0, 0, 0, 0,
    0, 0, 1, 0, 0, 0, 0, 0,
};
static const uint8_t zero_ten[23] = {
    2, 10, 1, 0, 1, 1, 1, 1, 1, 1, 1, 1, 1, 1,
    2,
    0, 0, 0, 0, 0, 0, 0, 0,
};

static void ten_inputs(void)
{
    static const uint64_t accepted[CORKBINGO_CHECK_WORDS] = {0, 0, 0};
    static const uint64_t short_file[CORKBINGO_CHECK_WORDS] = {1, 1, 0};
    static const uint64_t stretch[CORKBINGO_OPERATIONS_WORDS] = {14, 3};
    static const uint64_t grid[CORKBINGO_GRID_WORDS] = {0, 0, 0, 2, 2, 2, 2, 2, 2, 2, 2, 2, 2, 1024};
    static const uint64_t vector[CORKBINGO_INPUTS] = {1, 0, 0, 0, 0, 0, 0, 0, 0, 1};
    static const uint64_t output[CORKBINGO_EVALUATE_WORDS] = {0, 0, 0, 1};
    static const uint64_t opened[CORKBINGO_SESSION_WORDS] = {2, 10, 1, 1, 1, 1, 1, 1, 1, 1, 1, 1, 0, 0};
    static const uint64_t after[CORKBINGO_SESSION_WORDS] = {
        2, 10, 1, 1, 1, 1, 1, 1, 1, 1, 1, 1, 514, CORKBINGO_MARK_DIFFER};
    static const uint64_t shown[CORKBINGO_CONTINUE_WORDS] = {
        0, 0, 0, CORKBINGO_KIND_DIFFERS, 514, 1, 0, 0, 0, 0, 0, 0, 0, 0, 1, 1, 0};
    static const char lines[] =
        "grid 2 2 2 2 2 2 2 2 2 2 = 1024\ndiffer 1 0 0 0 0 0 0 0 0 1 : 1 0\nrun 514\n";
    static uint64_t cells[1024], outputs[1024];
    uint64_t scratch[3], session[CORKBINGO_SESSION_WORDS], out[CORKBINGO_CONTINUE_WORDS];
    uint8_t text[CORKBINGO_TEXT_BYTES];
    uint32_t returned;

    returned = corkbingo_check(ten, sizeof ten, out, CORKBINGO_CHECK_WORDS);
    answer("check, ten inputs", returned, out, accepted, CORKBINGO_CHECK_WORDS);
    returned = corkbingo_check(ten, CORKBINGO_HEAD_BYTES(10) - 1, out, CORKBINGO_CHECK_WORDS);
    answer("check, ten inputs, 13 bytes", returned, out, short_file, CORKBINGO_CHECK_WORDS);
    returned = corkbingo_operations(ten, sizeof ten, out, CORKBINGO_OPERATIONS_WORDS);
    answer("operations, ten inputs", returned, out, stretch, CORKBINGO_OPERATIONS_WORDS);
    returned = corkbingo_grid(ten, sizeof ten, out, CORKBINGO_GRID_WORDS);
    answer("grid, ten inputs", returned, out, grid, CORKBINGO_GRID_WORDS);
    same("u10", CORKBINGO_GRID_AXES + 9, out[CORKBINGO_GRID_AXES + 9], 2);
    same("G", CORKBINGO_GRID_SIZE, out[CORKBINGO_GRID_SIZE], 1024);
    returned = corkbingo_evaluate(ten, sizeof ten, vector, CORKBINGO_INPUTS, scratch, 3, out,
                                  CORKBINGO_EVALUATE_WORDS);
    answer("evaluate, ten inputs", returned, out, output, CORKBINGO_EVALUATE_WORDS);

    returned = corkbingo_table(ten, sizeof ten, scratch, 3, cells, 1024, out, CORKBINGO_TABLE_WORDS);
    answer("table, ten inputs", returned, out, accepted, CORKBINGO_TABLE_WORDS);
    for (size_t index = 0; index < 1024; index++)
        same("cells, ten inputs", index, cells[index], index == 513);
    returned = corkbingo_sum(opened, CORKBINGO_SIZES_WORDS, cells, 1024, outputs, 1024, out,
                             CORKBINGO_SUM_WORDS);
    answer("sum, ten inputs", returned, out, accepted, CORKBINGO_SUM_WORDS);
    for (size_t index = 0; index < 1024; index++)
        same("outputs, ten inputs", index, outputs[index], index >= 512 && index % 2 == 1);

    returned = corkbingo_open(ten, sizeof ten, zero_ten, sizeof zero_ten, session,
                              CORKBINGO_SESSION_WORDS, out, CORKBINGO_OPEN_WORDS);
    answer("open, ten inputs", returned, out, accepted, CORKBINGO_OPEN_WORDS);
    answer("session, ten inputs", returned, session, opened, CORKBINGO_SESSION_WORDS);
    returned = corkbingo_continue(ten, sizeof ten, zero_ten, sizeof zero_ten, session,
                                  CORKBINGO_SESSION_WORDS, UINT64_MAX, scratch, 3, out,
                                  CORKBINGO_CONTINUE_WORDS);
    answer("differs, ten inputs", returned, out, shown, CORKBINGO_CONTINUE_WORDS);
    answer("session of differs, ten inputs", returned, session, after, CORKBINGO_SESSION_WORDS);
    returned = corkbingo_report(ten, sizeof ten, zero_ten, sizeof zero_ten, shown, CORKBINGO_CONTINUE_WORDS,
                                514, text, CORKBINGO_TEXT_BYTES, out, CORKBINGO_REPORT_WORDS);
    same("report, ten inputs", 0, returned, 1);
    reported(text, out[0], lines);
}

/* x1 x2 with m 8, a signed input of 8 bits and an unsigned one of 3, and 0 with the same sizes. */
static const uint8_t product_signed[39] = {
    8, 2, 3, 0, CORKBINGO_SIGNED + 8, 3, 0, 0, 0, 0, 0, 0,
    1, 1, 5,
    0, 0, 0, 0, 0, 0, 0, 0,
    1, 0, 0, 0, 0, 0, 0, 0,
    0, 0, 1, 0, 0, 0, 0, 0,
};
static const uint8_t zero_signed[21] = {
    8, 2, 1, 0, CORKBINGO_SIGNED + 8, 3, 0, 0, 0, 0, 0, 0,
    2,
    0, 0, 0, 0, 0, 0, 0, 0,
};

/* The file with another byte at a place is refused so. */
static void refused_with(const char *what, size_t place, uint8_t byte, uint64_t number)
{
    uint8_t file[39];
    uint64_t out[CORKBINGO_CHECK_WORDS];

    memcpy(file, product_signed, sizeof file);
    file[place] = byte;
    same(what, 0, corkbingo_check(file, sizeof file, out, CORKBINGO_CHECK_WORDS), 1);
    same(what, 1, out[CORKBINGO_REFUSAL_NUMBER], number);
}

/* The output at a vector, or the number that refuses it. */
static void valued(const char *what, int64_t x1, uint64_t x2, uint64_t number, uint64_t output)
{
    uint64_t vector[2] = {(uint64_t)x1, x2}, scratch[3], out[CORKBINGO_EVALUATE_WORDS];

    same(what, 0, corkbingo_evaluate(product_signed, sizeof product_signed, vector, 2, scratch, 3, out,
                                     CORKBINGO_EVALUATE_WORDS), 1);
    same(what, 1, out[CORKBINGO_REFUSAL_NUMBER], number);
    same(what, 2, out[3], output);
}

static void signed_input(void)
{
    static const uint64_t accepted[CORKBINGO_CHECK_WORDS] = {0, 0, 0};
    static const uint64_t other_sizes[CORKBINGO_OPEN_WORDS] = {9, 0, 0};
    static const uint64_t grid[CORKBINGO_GRID_WORDS] = {0, 0, 0, 10, 8, 0, 0, 0, 0, 0, 0, 0, 0, 80};
    static const uint64_t opened[CORKBINGO_SESSION_WORDS] = {8, 2, CORKBINGO_SIGNED + 8, 3};
    static const uint64_t after[CORKBINGO_SESSION_WORDS] = {
        8, 2, CORKBINGO_SIGNED + 8, 3, 0, 0, 0, 0, 0, 0, 0, 0, 2, CORKBINGO_MARK_DIFFER};
    static const uint64_t shown[CORKBINGO_CONTINUE_WORDS] = {
        0, 0, 0, CORKBINGO_KIND_DIFFERS, 2, UINT64_MAX - 127, 1, 0, 0, 0, 0, 0, 0, 0, 0, 128, 0};
    static const uint64_t unlike[CORKBINGO_CONTINUE_WORDS] = {101};
    static const char lines[] = "grid 10 8 = 80\ndiffer -128 1 : 128 0\nrun 2\n";
    uint64_t scratch[3], session[CORKBINGO_SESSION_WORDS], out[CORKBINGO_CONTINUE_WORDS];
    uint64_t cells[80], outputs[80];
    uint8_t text[CORKBINGO_TEXT_BYTES], other[21];
    uint32_t returned;

    returned = corkbingo_check(product_signed, sizeof product_signed, out, CORKBINGO_CHECK_WORDS);
    answer("check, signed", returned, out, accepted, CORKBINGO_CHECK_WORDS);
    refused_with("a signed input of 64 bits", 4, CORKBINGO_SIGNED + 64, 0);
    refused_with("a signed input of 0 bits", 4, CORKBINGO_SIGNED, 5);
    refused_with("a signed input of 65 bits", 4, CORKBINGO_SIGNED + 65, 5);
    refused_with("an unused width byte", 6, CORKBINGO_SIGNED, 5);
    returned = corkbingo_grid(product_signed, sizeof product_signed, out, CORKBINGO_GRID_WORDS);
    answer("grid, signed", returned, out, grid, CORKBINGO_GRID_WORDS);
    valued("the lowest value", -128, 1, 0, 128);
    valued("the highest value", 127, 7, 0, 121);
    valued("minus 3 times 5", -3, 5, 0, 241);
    valued("below the lowest value", -129, 0, 14, 0);
    valued("above the highest value", 128, 0, 14, 0);
    valued("the bits of minus 1 alone", 255, 0, 14, 0);
    valued("a negative word of an unsigned input", 0, UINT64_MAX, 14, 0);

    /* (t - 128) x2 is 128 x2 + t x2 modulo 256 */
    returned = corkbingo_table(product_signed, sizeof product_signed, scratch, 3, cells, 80, out,
                               CORKBINGO_TABLE_WORDS);
    answer("table, signed", returned, out, accepted, CORKBINGO_TABLE_WORDS);
    for (size_t index = 0; index < 80; index++)
        same("cells, signed", index, cells[index], index == 1 ? 128 : index == 9);
    returned = corkbingo_sum(opened, CORKBINGO_SIZES_WORDS, cells, 80, outputs, 80, out, CORKBINGO_SUM_WORDS);
    answer("sum, signed", returned, out, accepted, CORKBINGO_SUM_WORDS);
    for (size_t index = 0; index < 80; index++)
        same("outputs, signed", index, outputs[index], (128 + index / 8) * (index % 8) % 256);

    returned = corkbingo_open(product_signed, sizeof product_signed, zero_signed, sizeof zero_signed, session,
                              CORKBINGO_SESSION_WORDS, out, CORKBINGO_OPEN_WORDS);
    answer("open, signed", returned, out, accepted, CORKBINGO_OPEN_WORDS);
    answer("session, signed", returned, session, opened, CORKBINGO_SESSION_WORDS);
    session[CORKBINGO_SESSION_WIDTHS] = CORKBINGO_WORD_LENGTH(session[CORKBINGO_SESSION_WIDTHS]);
    same("word length", 0, session[CORKBINGO_SESSION_WIDTHS], 8);
    returned = corkbingo_continue(product_signed, sizeof product_signed, zero_signed, sizeof zero_signed, session,
                                  CORKBINGO_SESSION_WORDS, 1, scratch, 3, out, CORKBINGO_CONTINUE_WORDS);
    answer("a session of unsigned inputs", returned, out, unlike, CORKBINGO_CONTINUE_WORDS);
    session[CORKBINGO_SESSION_WIDTHS] += CORKBINGO_SIGNED;
    returned = corkbingo_continue(product_signed, sizeof product_signed, zero_signed, sizeof zero_signed, session,
                                  CORKBINGO_SESSION_WORDS, UINT64_MAX, scratch, 3, out, CORKBINGO_CONTINUE_WORDS);
    answer("differs, signed", returned, out, shown, CORKBINGO_CONTINUE_WORDS);
    same("the value shown", 0, (int64_t)out[CORKBINGO_ANSWER_VECTOR] == -128, 1);
    answer("session of differs, signed", returned, session, after, CORKBINGO_SESSION_WORDS);
    returned = corkbingo_report(product_signed, sizeof product_signed, zero_signed, sizeof zero_signed, shown,
                                CORKBINGO_CONTINUE_WORDS, 2, text, CORKBINGO_TEXT_BYTES, out,
                                CORKBINGO_REPORT_WORDS);
    same("report, signed", 0, returned, 1);
    reported(text, out[0], lines);

    memcpy(other, zero_signed, sizeof other);
    other[4] = CORKBINGO_WORD_LENGTH(other[4]);
    returned = corkbingo_open(product_signed, sizeof product_signed, other, sizeof other, session,
                              CORKBINGO_SESSION_WORDS, out, CORKBINGO_OPEN_WORDS);
    answer("open, signed and not", returned, out, other_sizes, CORKBINGO_OPEN_WORDS);
}

/* The names of the header have the figures of the layouts. */
static void names(void)
{
    same("version", 0, CORKBINGO_VERSION, 6);
    same("inputs", 0, CORKBINGO_INPUTS, 10);
    same("signed", 0, CORKBINGO_SIGNED, 128);
    same("word length of a signed input", 0, CORKBINGO_WORD_LENGTH(CORKBINGO_SIGNED + 64), 64);
    same("word length of an unsigned input", 0, CORKBINGO_WORD_LENGTH(64), 64);
    same("head of 1 input", 0, CORKBINGO_HEAD_BYTES(1), 12);
    same("head of 8 inputs", 0, CORKBINGO_HEAD_BYTES(8), 12);
    same("head of 9 inputs", 0, CORKBINGO_HEAD_BYTES(9), 14);
    same("head of 10 inputs", 0, CORKBINGO_HEAD_BYTES(10), 14);
    same("longest file", 0, CORKBINGO_FILE_BYTES, 9230);
    same("sizes", 0, CORKBINGO_SIZES_WORDS, 12);
    same("session", 0, CORKBINGO_SESSION_WORDS, 14);
    same("position", 0, CORKBINGO_SESSION_POSITION, 12);
    same("mark", 0, CORKBINGO_SESSION_MARK, 13);
    same("grid", 0, CORKBINGO_GRID_WORDS, 14);
    same("G", 0, CORKBINGO_GRID_SIZE, 13);
    same("answer of continue", 0, CORKBINGO_CONTINUE_WORDS, 17);
    same("output 1", 0, CORKBINGO_ANSWER_OUTPUT1, 15);
    same("output 2", 0, CORKBINGO_ANSWER_OUTPUT2, 16);
}

/* Makes a call with `length` of each size: it returns 1 at the right one. At the others it returns 0,
 * and has touched neither `out` nor `session`, which hold 1 in every word. */
#define LENGTHS(what, right, call)                                            \
    for (size_t length = 0; length < LONGEST; length++) {                     \
        for (size_t index = 0; index < LONGEST; index++)                      \
            out[index] = session[index] = 1;                                  \
        same(what ", length", length, (call), length == (right));             \
        for (size_t index = 0; index < LONGEST && length != (right); index++) \
            same(what ", touched", index, out[index] + session[index], 2);    \
    }

/* Each slice that has a length of its own, with others; those of earlier versions are among them. */
static void lengths(void)
{
    enum {
        LONGEST = 2 * CORKBINGO_CONTINUE_WORDS,
        SIZES = CORKBINGO_SIZES_WORDS,
        SESSION = CORKBINGO_SESSION_WORDS,
        ANSWER = CORKBINGO_CONTINUE_WORDS
    };
    static const uint64_t given[LONGEST] = {2, 2, 1, 2};
    uint64_t out[LONGEST], session[LONGEST], scratch[3], cells[8] = {0}, room[8];
    uint8_t text[CORKBINGO_TEXT_BYTES];

    LENGTHS("check", 3, corkbingo_check(sample, sizeof sample, out, length))
    LENGTHS("operations", 2, corkbingo_operations(sample, sizeof sample, out, length))
    LENGTHS("bound", 10, corkbingo_bound(2, out, length))
    LENGTHS("grid", 14, corkbingo_grid(sample, sizeof sample, out, length))
    LENGTHS("evaluate", 4, corkbingo_evaluate(sample, sizeof sample, given, 2, scratch, 3, out, length))
    LENGTHS("table", 3, corkbingo_table(sample, sizeof sample, scratch, 3, room, 8, out, length))
    LENGTHS("difference", 3, corkbingo_difference(given, SIZES, cells, 8, room, 8, out, length))
    LENGTHS("sizes of difference", 12, corkbingo_difference(given, length, cells, 8, room, 8, out, 3))
    LENGTHS("sum", 3, corkbingo_sum(given, SIZES, cells, 8, room, 8, out, length))
    LENGTHS("sizes of sum", 12, corkbingo_sum(given, length, cells, 8, room, 8, out, 3))
    LENGTHS("open", 3, corkbingo_open(sample, sizeof sample, zero, sizeof zero, session, SESSION, out, length))
    LENGTHS("session of open", 14,
            corkbingo_open(sample, sizeof sample, zero, sizeof zero, session, length, out, 3))
    LENGTHS("continue", 17, corkbingo_continue(sample, sizeof sample, zero, sizeof zero, session, SESSION, 1,
                                               scratch, 3, out, length))
    LENGTHS("session of continue", 14, corkbingo_continue(sample, sizeof sample, zero, sizeof zero, session, length,
                                                          1, scratch, 3, out, ANSWER))
    LENGTHS("report", 1, corkbingo_report(sample, sizeof sample, zero, sizeof zero, given, ANSWER, 1, text,
                                          sizeof text, out, length))
    LENGTHS("answer of report", 17, corkbingo_report(sample, sizeof sample, zero, sizeof zero, given, length, 1, text,
                                                     sizeof text, out, 1))
}

/* Every call with empty slices whose pointers are null: an answer or a refusal where the slice may
 * have any length, 0 where it has one of its own. */
static void empty(void)
{
    static const uint64_t sizes[CORKBINGO_SIZES_WORDS] = {2, 2, 1, 2};
    static const uint64_t vector[2] = {1, 3};
    static const uint64_t continued[CORKBINGO_CONTINUE_WORDS] = {0, 0, 0, CORKBINGO_KIND_EQUIVALENT};
    uint64_t session[CORKBINGO_SESSION_WORDS], out[CORKBINGO_CONTINUE_WORDS], room[8];
    uint8_t text[CORKBINGO_TEXT_BYTES];

    same("check, no file", 0, corkbingo_check(NULL, 0, out, 3), 1);
    same("check, no file", 1, out[CORKBINGO_REFUSAL_NUMBER], 1);
    same("check, no answer", 0, corkbingo_check(sample, sizeof sample, NULL, 0), 0);
    same("operations, no file", 0, corkbingo_operations(NULL, 0, out, 2), 1);
    same("operations, no answer", 0, corkbingo_operations(sample, sizeof sample, NULL, 0), 0);
    same("bound, no answer", 0, corkbingo_bound(2, NULL, 0), 0);
    same("grid, no file", 0, corkbingo_grid(NULL, 0, out, CORKBINGO_GRID_WORDS), 1);
    same("grid, no answer", 0, corkbingo_grid(sample, sizeof sample, NULL, 0), 0);
    same("evaluate, no file", 0, corkbingo_evaluate(NULL, 0, vector, 2, room, 8, out, 4), 1);
    same("evaluate, no scratch", 0, corkbingo_evaluate(sample, sizeof sample, vector, 2, NULL, 0, out, 4), 1);
    same("evaluate, no scratch", 1, out[CORKBINGO_REFUSAL_NUMBER], 12);
    same("evaluate, no vector", 0, corkbingo_evaluate(sample, sizeof sample, NULL, 0, room, 8, out, 4), 1);
    same("evaluate, no vector", 1, out[CORKBINGO_REFUSAL_NUMBER], 14);
    same("evaluate, nothing", 0, corkbingo_evaluate(NULL, 0, NULL, 0, NULL, 0, NULL, 0), 0);
    same("table, no scratch", 0, corkbingo_table(sample, sizeof sample, NULL, 0, room, 8, out, 3), 1);
    same("table, no scratch", 1, out[CORKBINGO_REFUSAL_NUMBER], 12);
    same("table, no table", 0, corkbingo_table(sample, sizeof sample, room, 8, NULL, 0, out, 3), 1);
    same("table, no table", 1, out[CORKBINGO_REFUSAL_NUMBER], 13);
    same("table, nothing", 0, corkbingo_table(NULL, 0, NULL, 0, NULL, 0, NULL, 0), 0);
    same("difference, no cells", 0, corkbingo_difference(sizes, CORKBINGO_SIZES_WORDS, NULL, 0, NULL, 0, out, 3), 1);
    same("difference, no cells", 1, out[CORKBINGO_REFUSAL_NUMBER], 13);
    same("difference, nothing", 0, corkbingo_difference(NULL, 0, NULL, 0, NULL, 0, NULL, 0), 0);
    same("sum, no cells", 0, corkbingo_sum(sizes, CORKBINGO_SIZES_WORDS, NULL, 0, NULL, 0, out, 3), 1);
    same("sum, no cells", 1, out[CORKBINGO_REFUSAL_NUMBER], 13);
    same("sum, nothing", 0, corkbingo_sum(NULL, 0, NULL, 0, NULL, 0, NULL, 0), 0);
    same("open, no files", 0, corkbingo_open(NULL, 0, NULL, 0, session, CORKBINGO_SESSION_WORDS, out, 3), 1);
    same("open, no files", 1, out[CORKBINGO_REFUSAL_NUMBER], 1);
    same("open, nothing", 0, corkbingo_open(NULL, 0, NULL, 0, NULL, 0, NULL, 0), 0);
    same("continue, no files and no scratch", 0,
         corkbingo_continue(NULL, 0, NULL, 0, session, CORKBINGO_SESSION_WORDS, 1, NULL, 0, out,
                            CORKBINGO_CONTINUE_WORDS), 1);
    same("continue, no files and no scratch", 1, out[CORKBINGO_REFUSAL_NUMBER], 1);
    same("continue, nothing", 0, corkbingo_continue(NULL, 0, NULL, 0, NULL, 0, 1, NULL, 0, NULL, 0), 0);
    same("report, no files", 0,
         corkbingo_report(NULL, 0, NULL, 0, continued, CORKBINGO_CONTINUE_WORDS, 8, text, sizeof text, out, 1), 1);
    same("report, no files", 1, out[0], 0);
    same("report, nothing", 0, corkbingo_report(NULL, 0, NULL, 0, NULL, 0, 8, NULL, 0, NULL, 0), 0);
}

int main(void)
{
    static const uint64_t checked[CORKBINGO_CHECK_WORDS] = {0, 0, 0};
    static const uint64_t stretch[CORKBINGO_OPERATIONS_WORDS] = {12, 3};
    static const uint64_t least[CORKBINGO_BOUND_WORDS] = {0, 0, 0, 18, 9, 4, 2, 1, 0, 0};
    static const uint64_t no_bound[CORKBINGO_BOUND_WORDS] = {2, 0, 0, 0, 0, 0, 0, 0, 0, 0};
    static const uint64_t grid[CORKBINGO_GRID_WORDS] = {0, 0, 0, 2, 4, 0, 0, 0, 0, 0, 0, 0, 0, 8};
    static const uint64_t output[CORKBINGO_EVALUATE_WORDS] = {0, 0, 0, 3};
    static const uint64_t cleared[4] = {0, 0, 0, 7};
    static const uint64_t vector[2] = {1, 3};
    uint64_t scratch[4] = {7, 7, 7, 7};
    uint64_t out[CORKBINGO_GRID_WORDS];
    uint32_t returned;

    returned = corkbingo_check(sample, sizeof sample, out, CORKBINGO_CHECK_WORDS);
    answer("check", returned, out, checked, CORKBINGO_CHECK_WORDS);

    returned = corkbingo_operations(sample, sizeof sample, out, CORKBINGO_OPERATIONS_WORDS);
    answer("operations", returned, out, stretch, CORKBINGO_OPERATIONS_WORDS);

    returned = corkbingo_bound(16, out, CORKBINGO_BOUND_WORDS);
    answer("bound", returned, out, least, CORKBINGO_BOUND_WORDS);
    same("L(16)", 0, out[CORKBINGO_BOUND_LEAST], 18);
    same("the first quotient of L(16)", 0, out[CORKBINGO_BOUND_QUOTIENTS], 9);

    returned = corkbingo_bound(65, out, CORKBINGO_BOUND_WORDS);
    answer("no bound", returned, out, no_bound, CORKBINGO_BOUND_WORDS);

    returned = corkbingo_grid(sample, sizeof sample, out, CORKBINGO_GRID_WORDS);
    answer("grid", returned, out, grid, CORKBINGO_GRID_WORDS);

    returned = corkbingo_evaluate(sample, sizeof sample, vector, 2, scratch, 4, out,
                                  CORKBINGO_EVALUATE_WORDS);
    answer("evaluate", returned, out, output, CORKBINGO_EVALUATE_WORDS);
    answer("scratch of evaluate", returned, scratch, cleared, 4);

    tables();
    sessions();
    ten_inputs();
    signed_input();
    names();
    lengths();
    empty();

    if (failures == 0)
        printf("ok header: %u comparisons\n", comparisons);
    printf("%d passed, %d failed\n", failures == 0, failures != 0);
    return failures != 0;
}
