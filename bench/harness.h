/* What the C written for a pair hands to the harness, and what bench/session.c adds to a library. */
#include <stddef.h>
#include <stdint.h>

enum { MOST_INPUTS = 10 }; /* of a pair */

struct pair {
    const uint8_t *file[2];
    size_t length[2];
    uint64_t d, lowest[MOST_INPUTS], axes[MOST_INPUTS], grid; /* the lowest value of an input as a word */
    uint64_t first;                        /* the place of the first difference, or grid */
    uint64_t (*form[2])(const uint64_t *); /* the outputs at a vector */
    uint64_t (*first_row)(void);           /* the first place of the first row, a run of the last input, with a difference; or grid */
};

/* Compares the pair's files by opening and continuing with the budget, and gives the place at which the session ends: that of the first
 * difference, or grid; NO_PLACE where a call is refused, or the header is not the library's. */
uint64_t by_session(const struct pair *pair, uint64_t budget, uint64_t *scratch);
#define NO_PLACE UINT64_MAX

extern const uint64_t most_inputs;   /* that the library takes */
extern const uint64_t signed_inputs; /* whether it takes signed ones */
