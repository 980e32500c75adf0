/* The calls of the whole engine and those of the rig, side by side, so that a program takes the ones or the others. */
#ifndef CALLS_H
#define CALLS_H

#include "lapyndo.h"

#include <string.h>

/* Numbers of layer memory that the programs here have. */
enum { LAYER_NUMBERS = 8192 };

/* Calls, and the memories that they are lent where nothing else is said: bytes of a state and of a plan, and numbers of
 * layer memory. */
struct calls {
    size_t state_bytes, plan_bytes, numbers;
    uint64_t (*read)(const uint8_t *table, size_t table_len);
    uint64_t (*normalise)(const uint8_t *table, size_t table_len, uint8_t *out, size_t out_len);
    uint64_t (*step)(const uint8_t *table, size_t table_len, const uint8_t *state, size_t state_len, uint64_t move,
                     uint8_t *out, size_t out_len);
    uint64_t (*campaign)(const uint8_t *table, size_t table_len, const uint8_t *state, size_t state_len, uint8_t *normal,
                         size_t normal_len, int64_t *layers, size_t layers_len, uint8_t *out, size_t out_len,
                         uint64_t *decision, uint64_t *records, uint64_t *first);
    uint64_t (*block)(const uint8_t *table, size_t table_len, uint64_t block, uint8_t *out, size_t out_len);
    uint64_t (*decide)(const uint8_t *table, size_t table_len, const uint8_t *state, size_t state_len, int64_t *layers,
                       size_t layers_len);
    uint64_t (*plan)(const uint8_t *table, size_t table_len, const uint8_t *state, size_t state_len, int64_t *layers,
                     size_t layers_len, uint8_t *out, size_t out_len, uint64_t *records, uint64_t *first);
};

#ifdef PLANNING
/* Exported for tests. */
uint64_t lapyndo_block(const uint8_t *table, size_t table_len, uint64_t block, uint8_t *out, size_t out_len);
uint64_t lapyndo_decide(const uint8_t *table, size_t table_len, const uint8_t *state, size_t state_len,
                        int64_t *layers, size_t layers_len);
uint64_t lapyndo_plan(const uint8_t *table, size_t table_len, const uint8_t *state, size_t state_len, int64_t *layers,
                      size_t layers_len, uint8_t *out, size_t out_len, uint64_t *records, uint64_t *first);
#endif

static const struct calls full = {
    .state_bytes = LAPYNDO_STATE_BYTES,
    .plan_bytes = 64000,
    .numbers = LAYER_NUMBERS,
    .read = lapyndo_read,
    .normalise = lapyndo_normalise,
    .step = lapyndo_step,
    .campaign = lapyndo_campaign,
#ifdef PLANNING
    .block = lapyndo_block,
    .decide = lapyndo_decide,
    .plan = lapyndo_plan,
#endif
};

static const struct calls rig = {
    .state_bytes = LAPYNDO_RIG_STATE_BYTES,
    .plan_bytes = LAPYNDO_RIG_PLAN_BYTES,
    .numbers = LAPYNDO_RIG_NUMBERS,
    .read = lapyndo_rig_read,
    .normalise = lapyndo_rig_normalise,
    .step = lapyndo_rig_step,
    .campaign = lapyndo_rig_campaign,
    .block = lapyndo_rig_block,
    .decide = lapyndo_rig_decide,
    .plan = lapyndo_rig_plan,
};

/* The rig's calls if the first argument is --rig, which is then taken off; otherwise the full ones. */
static inline const struct calls *chosen(int *argc, char ***argv) {
    if (*argc < 2 || strcmp((*argv)[1], "--rig") != 0) {
        return &full;
    }
    (*argc)--;
    (*argv)++;
    return &rig;
}

#endif
