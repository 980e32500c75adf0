/* A small host: reads a table and a state from files, shows the table's head and its normal form, and makes the moves
 * that are given, one after the other. A refused move leaves the state as it is.
 *
 * usage: host [--rig] TABLE STATE [MOVE..]
 *
 * With --rig by the rig's calls, with memories for states of the board's fixed size.
 * Exit status: 0 if all was accepted, 1 after a refusal, 2 if a file or an argument is bad.
 */
#include "calls.h"
#include "common.h"

/* One byte more than is ever accepted, so that longer files are refused as too long. */
static uint8_t table[LAPYNDO_NORMAL_BYTES + 1];
static uint8_t state[LAPYNDO_STATE_BYTES + 1];
static uint8_t normal[LAPYNDO_NORMAL_BYTES];
static uint8_t after[LAPYNDO_STATE_BYTES];

static size_t table_len, state_len, propositions;
static const struct calls *calls;

static bool show_head(void) {
    uint64_t head = calls->read(table, table_len);
    if (refused("read", head)) {
        return false;
    }
    propositions = lapyndo_propositions(head);
    printf("%s table: %u propositions, %u variables, %u moves\n",
           lapyndo_kind(head) == LAPYNDO_WRITTEN ? "written" : "normal", lapyndo_propositions(head),
           lapyndo_variables(head), lapyndo_moves(head));
    return true;
}

static bool show_normal_form(void) {
    uint64_t answer = calls->normalise(table, table_len, normal, sizeof normal);
    if (refused("normalise", answer)) {
        return false;
    }
    printf("normal form, %zu bytes: ", lapyndo_length(answer));
    show_bytes(normal, lapyndo_length(answer));
    return true;
}

/* A value of a state: four bytes, big-endian, two's complement. */
static int32_t value_at(const uint8_t *four) {
    uint32_t bits = (uint32_t)four[0] << 24 | (uint32_t)four[1] << 16 | (uint32_t)four[2] << 8 | four[3];
    return bits < UINT32_C(0x80000000) ? (int32_t)bits : -(int32_t)(UINT32_MAX - bits) - 1;
}

/* Shows an accepted state: its propositions, then its values. */
static void show_state(uint64_t move) {
    printf("move %" PRIu64 ":", move);
    for (size_t i = 0; i < propositions; i++) {
        printf(" %u", (unsigned)state[i]);
    }
    printf(" |");
    for (size_t i = propositions; i + 4 <= state_len; i += 4) {
        printf(" %" PRId32, value_at(state + i));
    }
    putchar('\n');
}

/* Makes one move and shows the state after it. */
static bool make_move(uint64_t move) {
    char call[40];
    snprintf(call, sizeof call, "move %" PRIu64, move);
    uint64_t answer = calls->step(table, table_len, state, state_len, move, after, calls->state_bytes);
    if (refused(call, answer)) {
        return false;
    }
    memcpy(state, after, lapyndo_length(answer));
    show_state(move);
    return true;
}

int main(int argc, char **argv) {
    calls = chosen(&argc, &argv);
    if (argc < 3) {
        fputs("usage: host [--rig] TABLE STATE [MOVE..]\n", stderr);
        return 2;
    }
    if (!load(argv[1], table, sizeof table, &table_len) ||
        !load(argv[2], state, calls->state_bytes + 1, &state_len)) {
        return 2;
    }
    bool accepted = show_head();
    accepted &= show_normal_form();
    for (int i = 3; i < argc; i++) {
        uint64_t move;
        if (!number_of(argv[i], &move)) {
            return 2;
        }
        accepted &= make_move(move);
    }
    return accepted ? 0 : 1;
}
