/* A small host: shows the part of the goal that blocks, of the campaign of a table and a state from files, and the numbers
 * that the layer memory got, up to the last that changed.
 *
 * usage: blocking TABLE STATE [LAYERS]
 *
 * A written table is brought into normal form first. How many numbers of layer memory are lent may be given. With
 * PLANNING the answer and the memory are compared with decide's.
 * Exit status: 0 if the campaign was accepted, 1 after a refusal, 2 if a file or an argument is bad, 3 if a number changed
 * that was not lent, or decide answers otherwise.
 */
#include "plans.h"

/* One byte more than is ever accepted, so that longer files are refused. */
static uint8_t table[LAPYNDO_NORMAL_BYTES + 1];
static uint8_t state[LAPYNDO_STATE_BYTES + 1];

static uint8_t normal[LAPYNDO_NORMAL_BYTES];
static int64_t layers[LAYER_NUMBERS];

static size_t table_len, state_len, layers_len = LAYER_NUMBERS;

/* Shows the offset and the command that stands there; false after a refusal. */
static bool show_part(const uint8_t *bytes, uint64_t answer) {
    if (refused("blocking", answer)) {
        return false;
    }
    size_t offset = lapyndo_offset(answer);
    if (offset == 0) {
        puts("nothing blocks");
    } else {
        printf("blocks: offset %zu, command %02x\n", offset, (unsigned)bytes[offset]);
    }
    return true;
}

/* Shows the numbers up to the last that changed; false if one behind them changed that was not lent. */
static bool show_layers(void) {
    size_t used = LAYER_NUMBERS;
    while (used > 0 && layers[used - 1] == unwritten(used - 1)) {
        used--;
    }
    printf("layers:");
    for (size_t i = 0; i < used; i++) {
        if (layers[i] == INT64_MAX) {
            printf(" unbounded");
        } else {
            printf(" %" PRId64, layers[i]);
        }
    }
    putchar('\n');
    return used <= layers_len;
}

#ifdef PLANNING
/* Whether decide refuses the same, says "no plan" exactly where a part blocks, and leaves the same memory. */
static bool agrees(const uint8_t *bytes, size_t length, uint64_t answer) {
    static int64_t decided[LAYER_NUMBERS];
    fill(decided);
    uint64_t decision = full.decide(bytes, length, state, state_len, decided, layers_len);
    bool same = lapyndo_refusal(answer) != 0
                    ? decision == answer
                    : lapyndo_refusal(decision) == 0 && lapyndo_no_plan(decision) == (lapyndo_offset(answer) != 0);
    return same && memcmp(layers, decided, sizeof layers) == 0;
}
#else
static bool agrees(const uint8_t *bytes, size_t length, uint64_t answer) {
    (void)bytes, (void)length, (void)answer;
    return true;
}
#endif

int main(int argc, char **argv) {
    if (argc != 3 && argc != 4) {
        fputs("usage: blocking TABLE STATE [LAYERS]\n", stderr);
        return 2;
    }
    if (!load(argv[1], table, sizeof table, &table_len) || !load(argv[2], state, sizeof state, &state_len)) {
        return 2;
    }
    if (argc == 4 && !length_of(argv[3], LAYER_NUMBERS, &layers_len)) {
        return 2;
    }
    const uint8_t *bytes = table;
    size_t length = table_len;
    if (!normal_table(&full, &bytes, &length, normal)) {
        return 1;
    }
    fill(layers);
    uint64_t answer = lapyndo_blocking(bytes, length, state, state_len, layers, layers_len);
    bool accepted = show_part(bytes, answer);
    if (!show_layers()) {
        fputs("a number changed that was not lent\n", stderr);
        return 3;
    }
    if (!agrees(bytes, length, answer)) {
        fputs("decide answers otherwise, or leaves another memory\n", stderr);
        return 3;
    }
    return accepted ? 0 : 1;
}
