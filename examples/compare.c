/* Compares two datapath files by the library, from beginning to end, and prints what the comparing
 * program prints. Ends with status 0 for equivalent, 1 for differ, 2 for a refusal or an error.
 *
 *   gcc -Iinclude examples/compare.c target/staticlib/libexports.a -o target/example
 *   target/example crates/compare/data/a.dp crates/compare/data/b.dp
 */
#include "corkbingo.h"

#include <stdio.h>

/* A file longer than any that is accepted is refused by its length, so one byte more than those
 * have is enough to read. */
enum { ROOM = CORKBINGO_FILE_BYTES + 1 };

/* The vectors of one call. Between two calls a program may show its progress, or stop for today:
 * the session's words are all that it has to keep. */
#define BUDGET UINT64_C(1000000)

/* Reads a file into ROOM bytes. One that cannot be read counts as empty. */
static size_t read_file(const char *name, uint8_t *bytes)
{
    size_t length = 0;
    FILE *file = fopen(name, "rb");

    if (file != NULL) {
        length = fread(bytes, 1, ROOM, file);
        if (ferror(file))
            length = 0;
        fclose(file);
    }
    return length;
}

int main(int argc, char **argv)
{
    static uint8_t file1[ROOM], file2[ROOM];
    static uint64_t scratch[CORKBINGO_STEPS];
    uint64_t session[CORKBINGO_SESSION_WORDS], refusal[CORKBINGO_OPEN_WORDS];
    uint64_t answer[CORKBINGO_CONTINUE_WORDS], length[CORKBINGO_REPORT_WORDS], run = 0;
    uint8_t text[CORKBINGO_TEXT_BYTES];
    size_t length1, length2;

    if (argc != 3) {
        fprintf(stderr, "usage: %s FILE1 FILE2\n", argv[0]);
        return 2;
    }
    length1 = read_file(argv[1], file1);
    length2 = read_file(argv[2], file2);

    /* Each call returns 1 here, since every slice has the length of its layout. Where opening is
     * refused, so is the first continue call, by the same number: it gives the refusal as an
     * answer, which the report takes. */
    corkbingo_open(file1, length1, file2, length2, session, CORKBINGO_SESSION_WORDS,
                   refusal, CORKBINGO_OPEN_WORDS);
    do {
        corkbingo_continue(file1, length1, file2, length2, session, CORKBINGO_SESSION_WORDS,
                           BUDGET, scratch, CORKBINGO_STEPS, answer, CORKBINGO_CONTINUE_WORDS);
        run += answer[CORKBINGO_ANSWER_RUN];
    } while (answer[CORKBINGO_ANSWER_KIND] == CORKBINGO_KIND_SPENT);

    corkbingo_report(file1, length1, file2, length2, answer, CORKBINGO_CONTINUE_WORDS, run,
                     text, CORKBINGO_TEXT_BYTES, length, CORKBINGO_REPORT_WORDS);
    if (fwrite(text, 1, length[0], stdout) != length[0] || fflush(stdout) != 0)
        return 2;
    switch (answer[CORKBINGO_ANSWER_KIND]) {
    case CORKBINGO_KIND_EQUIVALENT:
        return 0;
    case CORKBINGO_KIND_DIFFERS:
        return 1;
    default:
        return 2;
    }
}
