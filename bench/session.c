/* One comparison by a library, through the C interface. bench/engine compiles it into each library with that library's own header, whose name is
 * HEADER: the layouts may differ between versions. */
#include HEADER
#include "harness.h"

const uint64_t most_inputs = CORKBINGO_INPUTS;
#ifdef CORKBINGO_SIGNED
const uint64_t signed_inputs = 1;
#else
const uint64_t signed_inputs = 0;
#endif

uint64_t by_session(const struct pair *pair, uint64_t budget, uint64_t *scratch) {
    uint64_t session[CORKBINGO_SESSION_WORDS], refusal[CORKBINGO_OPEN_WORDS], answer[CORKBINGO_CONTINUE_WORDS];
    if (!corkbingo_open(pair->file[0], pair->length[0], pair->file[1], pair->length[1], session, CORKBINGO_SESSION_WORDS, refusal,
                        CORKBINGO_OPEN_WORDS))
        return NO_PLACE;
    do
        if (!corkbingo_continue(pair->file[0], pair->length[0], pair->file[1], pair->length[1], session, CORKBINGO_SESSION_WORDS, budget,
                                scratch, CORKBINGO_STEPS, answer, CORKBINGO_CONTINUE_WORDS))
            return NO_PLACE;
    while (answer[CORKBINGO_ANSWER_KIND] == CORKBINGO_KIND_SPENT);
    if (answer[CORKBINGO_ANSWER_KIND] == CORKBINGO_KIND_REFUSED)
        return NO_PLACE;
    return session[CORKBINGO_SESSION_POSITION] - (answer[CORKBINGO_ANSWER_KIND] == CORKBINGO_KIND_DIFFERS);
}
