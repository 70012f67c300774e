/* Compares one pair over its grid in four ways, and times or counts them; bench/engine builds and runs it.
 *
 *   harness times PAIR.so PRODUCT.so EARLIER.so|- BUDGET MILLISECONDS   nanoseconds of a comparison in each way, over so long or longer
 *   harness once PAIR.so PRODUCT.so EARLIER.so|- BUDGET WAY             one comparison, inside `counted`
 *
 * The ways: 0 the product, by opening and continuing with the budget; 1 the plain loop, or the earlier product where one is given; 2 the C
 * called for each vector; 3 the C over the grid. Each comparison must find the pair's first difference, or the exit status is 1. An earlier
 * product that does not take so many inputs, or signed ones, is left out: its time is '-'.
 */
#define _POSIX_C_SOURCE 200809L
#include <dlfcn.h>
#include <stdio.h>
#include <stdlib.h>
#include <string.h>
#include <time.h>

#include "harness.h"

enum { PRODUCT, PLAIN, PER_VECTOR, OVER_GRID, WAYS };
static const char *const names[WAYS] = {"product", "plain loop", "C for each vector", "C over the grid"};

struct library {
    void *handle;
    __typeof__(by_session) *by_session;
    const uint64_t *most_inputs, *signed_inputs;
};

static const struct pair *pair;
static struct library product, earlier;
static uint64_t budget;
static uint64_t scratch[1024];

static void fail(const char *what) {
    fprintf(stderr, "%s\n", what);
    exit(1);
}

/* The vector one place later. */
static void step(uint64_t *vector) {
    for (uint64_t i = pair->d; i-- > 0;) {
        if (++vector[i] - pair->lowest[i] < pair->axes[i])
            return;
        vector[i] = pair->lowest[i];
    }
}

/* The vector at a place. */
static void find(uint64_t *vector, uint64_t place) {
    for (uint64_t i = pair->d; i-- > 0; place /= pair->axes[i])
        vector[i] = pair->lowest[i] + place % pair->axes[i];
}

/* The product. */
static uint64_t by_library(const struct library *l) {
    uint64_t place = l->by_session(pair, budget, scratch);
    if (place == NO_PLACE)
        fail("the pair is refused, or the header is not the library's");
    return place;
}

/* The plain loop: a file's steps interpreted from its bytes. */
static uint64_t le16(const uint8_t *bytes) {
    return bytes[0] | (uint64_t)bytes[1] << 8;
}

static uint64_t le32(const uint8_t *bytes) {
    return le16(bytes) | le16(bytes + 2) << 16;
}

static uint64_t le64(const uint8_t *bytes) {
    return le32(bytes) | le32(bytes + 4) << 32;
}

static uint64_t step_word(const uint8_t *operations, size_t n, const uint64_t *vector, size_t k) {
    uint8_t operation = operations[k];
    uint64_t a = le64(operations + n + 8 * k);
    if (operation == 1)
        return vector[a];
    if (operation == 2)
        return a;
    uint64_t left = scratch[a & 0xffff], right = scratch[a >> 16 & 0xffff];
    if (operation == 3)
        return left + right;
    if (operation == 4)
        return left - right;
    return left * right;
}

static uint64_t output_at(const uint8_t *file, const uint64_t *vector) {
    size_t n = le16(file + 2);
    const uint8_t *operations = file + (file[1] > 8 ? 14 : 12);
    for (size_t k = 0; k < n; k++)
        scratch[k] = step_word(operations, n, vector, k);
    return scratch[n - 1] & UINT64_MAX >> (64 - file[0]);
}

static uint64_t interpreted(void) {
    uint64_t vector[MOST_INPUTS], place = 0;
    find(vector, place);
    for (; place < pair->grid && output_at(pair->file[0], vector) == output_at(pair->file[1], vector); place++)
        step(vector);
    return place;
}

/* The C: the first difference from the vector at a place on. */
static uint64_t compiled_from(uint64_t place) {
    uint64_t vector[MOST_INPUTS];
    find(vector, place);
    for (; place < pair->grid && pair->form[0](vector) == pair->form[1](vector); place++)
        step(vector);
    return place;
}

static uint64_t compare(int way) {
    switch (way) {
    case PRODUCT: return by_library(&product);
    case PLAIN: return earlier.handle ? by_library(&earlier) : interpreted();
    case PER_VECTOR: return compiled_from(0);
    default: return compiled_from(pair->first_row());
    }
}

/* Whether an input of the pair is signed. */
static int has_signed(void) {
    for (uint64_t i = 0; i < pair->d; i++)
        if (pair->lowest[i] != 0)
            return 1;
    return 0;
}

/* Whether the pair can be compared in this way. */
static int can(int way) {
    return way != PLAIN || !earlier.handle || (pair->d <= *earlier.most_inputs && (*earlier.signed_inputs || !has_signed()));
}

/* Runs comparisons in one way; the instructions counted are those inside. */
__attribute__((noipa)) void counted(int way, uint64_t times) {
    while (times-- > 0) {
        uint64_t place = compare(way);
        if (place != pair->first) {
            fprintf(stderr, "%s: place %llu, expected %llu of %llu\n", names[way], (unsigned long long)place,
                    (unsigned long long)pair->first, (unsigned long long)pair->grid);
            exit(1);
        }
    }
}

/* Nanoseconds of a comparison, from twice as many as before until they take long enough. */
static double sample(int way, double least) {
    for (uint64_t times = 1;; times *= 2) {
        struct timespec start, end;
        clock_gettime(CLOCK_MONOTONIC, &start);
        counted(way, times);
        clock_gettime(CLOCK_MONOTONIC, &end);
        double taken = (end.tv_sec - start.tv_sec) * 1e9 + (end.tv_nsec - start.tv_nsec);
        if (taken >= least)
            return taken / times;
    }
}

static void *load(const char *path, const char *symbol, void **handle) {
    *handle = dlopen(path, RTLD_NOW | RTLD_LOCAL);
    void *found = *handle ? dlsym(*handle, symbol) : NULL;
    if (!found)
        fail(dlerror());
    return found;
}

static struct library library(const char *path) {
    struct library l;
    l.by_session = load(path, "by_session", &l.handle);
    l.most_inputs = dlsym(l.handle, "most_inputs");
    l.signed_inputs = dlsym(l.handle, "signed_inputs");
    return l;
}

int main(int count, char **words) {
    void *handle;
    if (count != 7)
        fail("usage: harness times|once PAIR.so PRODUCT.so EARLIER.so|- BUDGET MILLISECONDS|WAY");
    pair = load(words[2], "pair", &handle);
    product = library(words[3]);
    if (strcmp(words[4], "-") != 0)
        earlier = library(words[4]);
    budget = strtoull(words[5], NULL, 10);
    if (strcmp(words[1], "once") == 0) {
        if (can(atoi(words[6])))
            counted(atoi(words[6]), 1);
        return 0;
    }
    for (int way = 0; way < WAYS; way++)
        if (can(way))
            printf("%.3f\n", sample(way, atof(words[6]) * 1e6));
        else
            printf("-\n");
    return 0;
}
