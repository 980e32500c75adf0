/* A small host: plans the campaign of a table and a state from files, and shows the decision, the plan's records and its
 * helpful moves.
 *
 * usage: campaign [--rig] TABLE STATE [NORMAL LAYERS OUT]
 *
 * The lengths of the memories that are lent may be given: bytes for the normal form, numbers for the layers, and bytes
 * for the records. With --rig by the rig's call; unless lengths are given, with memories of the board's fixed sizes. If
 * more numbers are lent than the board has, it says whether those behind are kept.
 * Exit status: 0 if the campaign was accepted, 1 after a refusal, 2 if a file or an argument is bad, 3 if a number changed
 * that the call must not use.
 */
#include "plans.h"

enum { OUT_BYTES = 64000 };

/* One byte more than is ever accepted, so that longer files are refused. */
static uint8_t table[LAPYNDO_WRITTEN_BYTES + 1];
static uint8_t state[LAPYNDO_STATE_BYTES + 1];

static uint8_t normal[LAPYNDO_NORMAL_BYTES];
static int64_t layers[LAYER_NUMBERS];
static uint8_t out[OUT_BYTES];

static size_t table_len, state_len, normal_len = LAPYNDO_NORMAL_BYTES, layers_len, out_len;

int main(int argc, char **argv) {
    const struct calls *calls = chosen(&argc, &argv);
    if (argc != 3 && argc != 6) {
        fputs("usage: campaign [--rig] TABLE STATE [NORMAL LAYERS OUT]\n", stderr);
        return 2;
    }
    if (!load(argv[1], table, sizeof table, &table_len) ||
        !load(argv[2], state, calls->state_bytes + 1, &state_len)) {
        return 2;
    }
    layers_len = calls->numbers;
    out_len = calls->plan_bytes;
    if (argc == 6 && !(length_of(argv[3], LAPYNDO_NORMAL_BYTES, &normal_len) &&
                       length_of(argv[4], LAYER_NUMBERS, &layers_len) && length_of(argv[5], OUT_BYTES, &out_len))) {
        return 2;
    }
    fill(layers);
    uint64_t decision, records, helpful;
    uint64_t answer = calls->campaign(table, table_len, state, state_len, normal, normal_len, layers, layers_len, out,
                                      out_len, &decision, &records, &helpful);
    show("decide", decision);
    bool accepted = show("plan", answer);
    if (accepted) {
        show_records(out, records, helpful);
    }
    if (!show_behind(layers, calls->numbers, layers_len)) {
        return 3;
    }
    return accepted ? 0 : 1;
}
