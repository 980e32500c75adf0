/* Normal tables, decisions and plans in words, and layer memory that shows what a call wrote. */
#ifndef PLANS_H
#define PLANS_H

#include "calls.h"
#include "common.h"

enum { RECORD_BYTES = 10 };

/* Takes a written table to its normal form, which goes into a memory of LAPYNDO_NORMAL_BYTES, and any other as it is; false
 * after a refusal. */
static inline bool normal_table(const struct calls *calls, const uint8_t **table, size_t *length, uint8_t *normal) {
    if (*length == 0 || (*table)[0] != LAPYNDO_WRITTEN) {
        return true;
    }
    uint64_t answer = calls->normalise(*table, *length, normal, LAPYNDO_NORMAL_BYTES);
    *table = normal;
    *length = lapyndo_length(answer);
    return !refused("normalise", answer);
}

/* Shows an answer of decide, plan or campaign; false if it is a refusal. */
static inline bool show(const char *call, uint64_t answer) {
    if (refused(call, answer)) {
        return false;
    }
    printf("%s: %s, layers %" PRIu32 "\n", call, lapyndo_no_plan(answer) ? "no plan" : "plan", lapyndo_layers(answer));
    return true;
}

/* How often a record's move is made: 8 bytes, big-endian. */
static inline uint64_t count_of(const uint8_t *record) {
    uint64_t count = 0;
    for (size_t i = 2; i < RECORD_BYTES; i++) {
        count = count << 8 | record[i];
    }
    return count;
}

/* Shows the set of helpful moves, and each record: its move and how often it is made. */
static inline void show_records(const uint8_t *out, uint64_t records, uint64_t helpful) {
    printf("%" PRIu64 " records, helpful moves %016" PRIx64 "\n", records, helpful);
    for (const uint8_t *record = out; record < out + RECORD_BYTES * records; record += RECORD_BYTES) {
        printf("%u %" PRIu64 "\n", (unsigned)record[1], count_of(record));
    }
}

/* A number that no call writes, no layer and no value of one, and another one for each place. */
static inline int64_t unwritten(size_t place) { return INT64_MIN + (int64_t)place; }

/* Fills a memory of LAYER_NUMBERS. */
static inline void fill(int64_t *layers) {
    for (size_t i = 0; i < LAYER_NUMBERS; i++) {
        layers[i] = unwritten(i);
    }
}

/* Whether all numbers behind those that a call uses, lent or not, are as they were filled. Says so if some were lent. */
static inline bool show_behind(const int64_t *layers, size_t used, size_t lent) {
    size_t i = lent < used ? lent : used;
    while (i < LAYER_NUMBERS && layers[i] == unwritten(i)) {
        i++;
    }
    bool kept = i == LAYER_NUMBERS;
    if (lent > used) {
        printf("lent behind the first %zu numbers: %zu, %s\n", used, lent - used, i < lent ? "changed" : "kept");
    }
    if (!kept) {
        fprintf(stderr, "number %zu changed, which the call must not use\n", i);
    }
    return kept;
}

#endif
