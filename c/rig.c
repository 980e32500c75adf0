/* A small host for the rig's board, over the rig's calls, lending memories of the board's fixed sizes unless lengths are
 * given: shows the blocks of a table from a file, decides and plans from a state, and shows the plan's records and its
 * helpful moves.
 *
 * usage: rig TABLE STATE [LAYERS OUT]
 *
 * A written table is brought into normal form first. The lengths of the memories that are lent may be given: numbers for the
 * layers, and bytes for the records. If more numbers are lent than the board has, it says whether those behind are kept.
 * Exit status: 0 if all was accepted, 1 after a refusal, 2 if a file or an argument is bad, 3 if a number changed that a call
 * must not use, or decide and plan leave other numbers.
 */
#include "plans.h"

/* One byte more than is ever accepted, so that longer files are refused. */
static uint8_t table[LAPYNDO_NORMAL_BYTES + 1];
static uint8_t state[LAPYNDO_RIG_STATE_BYTES + 1];

static uint8_t normal[LAPYNDO_NORMAL_BYTES];
static int64_t decided[LAYER_NUMBERS], layers[LAYER_NUMBERS];
static uint8_t out[LAPYNDO_RIG_PLAN_BYTES];

static size_t table_len, state_len, layers_len = LAPYNDO_RIG_NUMBERS, out_len = LAPYNDO_RIG_PLAN_BYTES;

/* Shows every block, and that there is none behind the goal; of a refused table, that its first block is refused too. */
static bool show_blocks(void) {
    uint64_t head = lapyndo_rig_read(table, table_len);
    bool accepted = !refused("read", head);
    uint64_t last = accepted ? lapyndo_moves(head) + UINT64_C(1) : 0;
    for (uint64_t block = 0; block <= last; block++) {
        uint64_t answer = lapyndo_rig_block(table, table_len, block, normal, sizeof normal);
        if (!refused("block", answer)) {
            printf("block %" PRIu64 ": ", block);
            show_bytes(normal, lapyndo_length(answer));
        }
    }
    return accepted;
}

/* Decides and plans from a normal table; the exit status. */
static int plan(const uint8_t *bytes, size_t length) {
    uint64_t records, helpful;
    fill(decided);
    fill(layers);
    show("decide", lapyndo_rig_decide(bytes, length, state, state_len, decided, layers_len));
    uint64_t answer =
        lapyndo_rig_plan(bytes, length, state, state_len, layers, layers_len, out, out_len, &records, &helpful);
    bool accepted = show("plan", answer);
    if (accepted) {
        show_records(out, records, helpful);
    }
    if (!show_behind(layers, LAPYNDO_RIG_NUMBERS, layers_len)) {
        return 3;
    }
    if (memcmp(decided, layers, sizeof layers) != 0) {
        fputs("decide and plan leave other numbers\n", stderr);
        return 3;
    }
    return accepted ? 0 : 1;
}

int main(int argc, char **argv) {
    if (argc != 3 && argc != 5) {
        fputs("usage: rig TABLE STATE [LAYERS OUT]\n", stderr);
        return 2;
    }
    if (!load(argv[1], table, sizeof table, &table_len) || !load(argv[2], state, sizeof state, &state_len)) {
        return 2;
    }
    if (argc == 5 && !(length_of(argv[3], LAYER_NUMBERS, &layers_len) && length_of(argv[4], sizeof out, &out_len))) {
        return 2;
    }
    bool accepted = show_blocks();
    const uint8_t *bytes = table;
    size_t length = table_len;
    if (!normal_table(&rig, &bytes, &length, normal)) {
        return 1;
    }
    int status = plan(bytes, length);
    return accepted || status == 3 ? status : 1;
}
