/* Corkbingo: the C interface of the datapath equivalence checker.
 *
 * An input has a width byte: in the low seven bits its word length n, 1 to 64, and above them
 * CORKBINGO_SIGNED where it is signed. A signed input ranges from -2^(n-1) to 2^(n-1) - 1, an
 * unsigned one from 0 to 2^n - 1. A vector has a word for each input: of a signed one the value in
 * two's complement of 64 bits, which is what the word is as int64_t; of an unsigned one the value
 * itself. Dictionary order is by values, the first input weighing most. Outputs are unsigned.
 *
 * A byte slice is a pointer and a length. A word slice is a pointer to uint64_t and a length in
 * words. Slices that a call writes overlap no other slice of the call; slices that are only read
 * may be the same. Files, vectors, tables and numbers may hold anything; no call reads or writes
 * outside the slices it is lent. Of a slice with length 0 the pointer is not used, and may be null;
 * a null pointer with another length is the caller's error, as any wrong pointer is.
 *
 * A thread whose stack has CORKBINGO_STACK_BYTES free can make every call: a call takes at most 96
 * KiB of it. A call keeps nothing for the next one, so that several threads may call at once, each
 * on slices of its own.
 *
 * Every answer goes into a word slice of a fixed length, which the caller lends. Sizes and
 * sessions are word slices of fixed lengths too:
 *
 *   sizes, 12 words      m, d, ten width bytes (0 past the d-th); each at most 255
 *   session, 14 words    m, d, ten width bytes, each at most 255; position; mark
 *                        (CORKBINGO_MARK_..)
 *
 * A function returns 1 where these lengths are right and the words that it reads of sizes or of a
 * session fit their fields. The answer is then written whole, a refusal too. Otherwise it returns
 * 0 and has touched nothing.
 *
 * The first three words of every answer but those of corkbingo_operations and corkbingo_report are
 * the refusal: number, file, step. The number is 0 where the call is accepted; file and step are
 * then 0 too. Of a refused call all other words of the answer are 0, and every other lent entry is
 * untouched, the session of a continue call too; a refused opening sets the session to zeros.
 * The numbers:
 *
 *    1  a file is under 12 bytes, or under 14 where d is 9 or 10
 *    2  m is not 1 to 64
 *    3  d is not 1 to 10
 *    4  N is not 1 to 1,024
 *    5  a width byte breaks its rule: the low seven bits of the first d are 1 to 64, whether
 *       signed or not, and the others are 0, CORKBINGO_SIGNED too
 *    6  the length is not 12 + 9N, or 14 + 9N where d is 9 or 10
 *    7  an operation byte is not 1 to 5
 *    8  an argument breaks its rule
 *    9  the files differ in m, d or a width byte, be it in CORKBINGO_SIGNED alone
 *   11  the budget is 0
 *   12  the scratch slice has fewer entries than the file has steps, or the longer of two files
 *   13  a slice for a table or for outputs has fewer than G entries, or one of the first G that are
 *       given to be summed or differenced is 2^m or more
 *   14  the vector is not d long, or a value is not in its input's range; so of an unsigned input
 *       of fewer than 64 bits no word of a negative value is taken
 *  101  the session's m, d or width bytes, whole, are not the files'
 *  102  the position does not fit the mark: open needs below G, equal needs G, differ 1 to G
 *  103  the mark is not open
 *
 * Where several hold, the first in this order is given: 11; file 1 by 1 to 6, then step by step 7
 * before 8; file 2 likewise; 9; 12; 13; 14; 101; 102; 103. A call skips what it has no part in.
 * That a file of 9 or 10 inputs is under 14 bytes is judged between 3 and 4, when d is known.
 * In 1 to 8 the file is 1 or 2, a lone file being 1, and 0 where m or sizes are given as numbers.
 * In 7 and 8 the step is the offending one, counted from 0. Otherwise file and step are 0.
 */
#ifndef CORKBINGO_H
#define CORKBINGO_H

#include <stddef.h>
#include <stdint.h>

/* The version of this interface: it grows with every change of a function, of a layout or of the
 * refusal numbers. */
#define CORKBINGO_VERSION 6

/* The stack, in bytes, with which a thread can make every call. */
#define CORKBINGO_STACK_BYTES 106496

/* The most inputs and the most steps that a file may have. */
#define CORKBINGO_INPUTS 10
#define CORKBINGO_STEPS 1024

/* The bit of a signed input in its width byte, and the word length in the other bits. */
#define CORKBINGO_SIGNED 128
#define CORKBINGO_WORD_LENGTH(width) ((width) & 127)

/* The head of a file, the bytes before its operations: m, d, two bytes for N, and width bytes. A
 * file of at most CORKBINGO_SHORT_INPUTS inputs holds so many width bytes, one of more inputs
 * CORKBINGO_INPUTS. The head is followed by 9 bytes for each step. */
#define CORKBINGO_SHORT_INPUTS 8
#define CORKBINGO_HEAD_BYTES(d) \
    (4 + ((d) <= CORKBINGO_SHORT_INPUTS ? CORKBINGO_SHORT_INPUTS : CORKBINGO_INPUTS))

/* The length of the longest file that is accepted, in bytes. */
#define CORKBINGO_FILE_BYTES (CORKBINGO_HEAD_BYTES(CORKBINGO_INPUTS) + 9 * CORKBINGO_STEPS)

/* The lengths of sizes and sessions, in words. */
#define CORKBINGO_SIZES_WORDS (2 + CORKBINGO_INPUTS)
#define CORKBINGO_SESSION_WORDS (CORKBINGO_SIZES_WORDS + 2)

/* The lengths of the answers, in words. */
#define CORKBINGO_CHECK_WORDS 3
#define CORKBINGO_OPERATIONS_WORDS 2
#define CORKBINGO_BOUND_WORDS 10
#define CORKBINGO_GRID_WORDS (4 + CORKBINGO_INPUTS)
#define CORKBINGO_EVALUATE_WORDS 4
#define CORKBINGO_TABLE_WORDS 3
#define CORKBINGO_DIFFERENCE_WORDS 3
#define CORKBINGO_SUM_WORDS 3
#define CORKBINGO_OPEN_WORDS 3
#define CORKBINGO_CONTINUE_WORDS (7 + CORKBINGO_INPUTS)
#define CORKBINGO_REPORT_WORDS 1

/* The least length of a text slice, in bytes: no text of corkbingo_report is longer. */
#define CORKBINGO_TEXT_BYTES 512

/* Where the words of a refusal stand, at the start of an answer. */
#define CORKBINGO_REFUSAL_NUMBER 0
#define CORKBINGO_REFUSAL_FILE 1
#define CORKBINGO_REFUSAL_STEP 2

/* Where the words of an answer of corkbingo_bound stand, after the refusal: L(m), and the first of
 * its six quotients. */
#define CORKBINGO_BOUND_LEAST 3
#define CORKBINGO_BOUND_QUOTIENTS 4

/* Where the words of an answer of corkbingo_grid stand, after the refusal: u1, and G. */
#define CORKBINGO_GRID_AXES 3
#define CORKBINGO_GRID_SIZE (CORKBINGO_GRID_AXES + CORKBINGO_INPUTS)

/* Where the words of a session stand; m, d and the width bytes stand in sizes as here. */
#define CORKBINGO_SESSION_M 0
#define CORKBINGO_SESSION_D 1
#define CORKBINGO_SESSION_WIDTHS 2
#define CORKBINGO_SESSION_POSITION (CORKBINGO_SESSION_WIDTHS + CORKBINGO_INPUTS)
#define CORKBINGO_SESSION_MARK (CORKBINGO_SESSION_POSITION + 1)

/* The mark of a session: its word CORKBINGO_SESSION_MARK. */
#define CORKBINGO_MARK_OPEN 0
#define CORKBINGO_MARK_EQUAL 1
#define CORKBINGO_MARK_DIFFER 2

/* Where the words of an answer of corkbingo_continue stand, after the refusal. */
#define CORKBINGO_ANSWER_KIND 3
#define CORKBINGO_ANSWER_RUN 4
#define CORKBINGO_ANSWER_VECTOR 5
#define CORKBINGO_ANSWER_OUTPUT1 (CORKBINGO_ANSWER_VECTOR + CORKBINGO_INPUTS)
#define CORKBINGO_ANSWER_OUTPUT2 (CORKBINGO_ANSWER_OUTPUT1 + 1)

/* The kind of an answer of corkbingo_continue: its word CORKBINGO_ANSWER_KIND. */
#define CORKBINGO_KIND_REFUSED 0
#define CORKBINGO_KIND_SPENT 1
#define CORKBINGO_KIND_EQUIVALENT 2
#define CORKBINGO_KIND_DIFFERS 3

#ifdef __cplusplus
extern "C" {
#endif

/* Checks a datapath file. Answer, 3 words: the refusal. */
uint32_t corkbingo_check(const uint8_t *file, size_t file_len, uint64_t *out, size_t out_len);

/* Finds the operation bytes of a file. Answer, 2 words: start and length of their stretch in the
 * file, which are the head's length, 12 or 14, and N; 0 and 0 of a refused file, whose number
 * corkbingo_check gives. */
uint32_t corkbingo_operations(const uint8_t *file, size_t file_len, uint64_t *out, size_t out_len);

/* The bound of an output word length m. Answer, 10 words: the refusal (by 2); L(m), the least
 * number whose factorial is divisible by 2^m; L(m) divided by 2, 4, 8, 16, 32 and 64, each rounded
 * down. The six add up to the exponent of two in the factorial of L(m), which is m or more; those
 * of L(m) - 1 add up to less than m. */
uint32_t corkbingo_bound(uint64_t m, uint64_t *out, size_t out_len);

/* The grid of a file. Answer, 14 words: the refusal; u1 to u10, the count of values of each input
 * on the grid, 0 past the d-th; G, their product over the d inputs. The values of an input on the
 * grid are consecutive, from its lowest one up. */
uint32_t corkbingo_grid(const uint8_t *file, size_t file_len, uint64_t *out, size_t out_len);

/* Evaluates a file at a full-width vector. Answer, 4 words: the refusal; the output, the exact
 * integer result of the steps modulo 2^m. After an accepted call the first N entries of the
 * scratch slice are 0 and the others untouched. */
uint32_t corkbingo_evaluate(const uint8_t *file, size_t file_len,
                            const uint64_t *vector, size_t vector_len,
                            uint64_t *scratch, size_t scratch_len,
                            uint64_t *out, size_t out_len);

/* Makes the difference table of a file. Answer, 3 words: the refusal. The first G entries of the
 * table slice get the cells: in dictionary order, the first input weighing most, cell k is the
 * k-fold forward difference of the outputs at the vector of the lowest values, modulo 2^m, for
 * every ki below ui. The others stay untouched. The scratch slice is as after
 * corkbingo_evaluate. */
uint32_t corkbingo_table(const uint8_t *file, size_t file_len,
                         uint64_t *scratch, size_t scratch_len,
                         uint64_t *table, size_t table_len,
                         uint64_t *out, size_t out_len);

/* Makes the difference table of outputs at all grid vectors in dictionary order. Answer, 3 words:
 * the refusal (by 2, 3, 5 or 13). Reads the first G outputs and writes the first G entries of
 * the table slice. */
uint32_t corkbingo_difference(const uint64_t *sizes, size_t sizes_len,
                              const uint64_t *outputs, size_t outputs_len,
                              uint64_t *table, size_t table_len,
                              uint64_t *out, size_t out_len);

/* Sums a difference table back: the output at x is the sum over all cells k of the cell times the
 * binomials (xi choose ki), modulo 2^m, where each xi counts from its input's lowest value. Answer,
 * 3 words: the refusal (by 2, 3, 5 or 13). Reads the first G cells and writes the first G entries
 * of the output slice. */
uint32_t corkbingo_sum(const uint64_t *sizes, size_t sizes_len,
                       const uint64_t *table, size_t table_len,
                       uint64_t *outputs, size_t outputs_len,
                       uint64_t *out, size_t out_len);

/* Opens a session of two files. Answer, 3 words: the refusal. Writes the session: the files' sizes,
 * position 0, mark open; of a refused opening all words are 0. What the slice held is not read. */
uint32_t corkbingo_open(const uint8_t *file1, size_t file1_len,
                        const uint8_t *file2, size_t file2_len,
                        uint64_t *session, size_t session_len,
                        uint64_t *out, size_t out_len);

/* Compares the two files at up to `budget` grid vectors from the session's position on. Answer, 17
 * words: the refusal; the kind; the count of vectors run; the words of x1 to x10; the output of
 * file 1; the output of file 2. By kind:
 *
 *   spent         none of these vectors differs, and more remain; the position grows by the budget
 *   equivalent    none of these differs, and they reach the end of the grid; the position becomes
 *                 G, the mark equal
 *   differs       the first that differs is shown (0 past the d-th) with both outputs; the position
 *                 becomes its place plus 1, the mark differ
 *
 * The vectors run are the new position less the old. Vector and outputs are 0 but in differs. A
 * refused call leaves the session as it was. After an accepted call the first entries of the
 * scratch slice, as many as the longer file has steps, are 0 and the others untouched.
 *
 * What a verdict says of all full-width vectors holds of a session that corkbingo_open gave for
 * these two files in this order, and that only calls of corkbingo_continue with these files in this
 * order, or refused ones, have been given since: equivalent is then said exactly where the outputs
 * are equal at every full-width vector, and the vector shown by differs is the first of all
 * full-width vectors at which they differ. A session whose words the caller made up, or that an
 * accepted call with other files moved on, is answered from its position on, and a verdict then
 * speaks of those places alone.
 */
uint32_t corkbingo_continue(const uint8_t *file1, size_t file1_len,
                            const uint8_t *file2, size_t file2_len,
                            uint64_t *session, size_t session_len,
                            uint64_t budget,
                            uint64_t *scratch, size_t scratch_len,
                            uint64_t *answer, size_t answer_len);

/* Writes the text that the comparing program prints at the start of the text slice, for an answer
 * of corkbingo_continue on these files and `run`, the vectors run over all calls. The answer has
 * CORKBINGO_CONTINUE_WORDS words, whatever they are, and the text slice CORKBINGO_TEXT_BYTES or
 * more; else the call returns 0. Answer, 1 word: the length of the text. By the answer's kind:
 *
 *   refused                 the line of the refusal: refused, number, file, step
 *   equivalent, differs     three lines: the grid, the verdict, the vectors run; no text where
 *                           opening the files is refused
 *   spent, anything else    no text
 *
 * The answer's words are shown as they are: those of signed inputs as int64_t, with a minus sign
 * where they are negative, all others as uint64_t. Bytes past the text stay untouched, and there is
 * no ending zero. The refusal of an opening is got as an answer by continuing its session with a
 * budget above 0. */
uint32_t corkbingo_report(const uint8_t *file1, size_t file1_len,
                          const uint8_t *file2, size_t file2_len,
                          const uint64_t *answer, size_t answer_len,
                          uint64_t run,
                          uint8_t *text, size_t text_len,
                          uint64_t *out, size_t out_len);

#ifdef __cplusplus
}
#endif

#endif
