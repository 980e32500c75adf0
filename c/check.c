/* A small host: checks a list of moves against a table and a state from files, shows the end state or where the list fails,
 * and looks whether all other bytes and numbers are kept.
 *
 * usage: check TABLE STATE LIST [OUT]
 *
 * The number of bytes that are lent for the end state may be given.
 * Exit status: 0 yes, 1 after a refusal, 2 if a file or an argument is bad, 3 if something changed that is to be kept, 4 if an
 * entry fails or the goal is not met.
 */
#include "common.h"

#include <string.h>

enum { PAINT = 0xA5, LIST_BYTES = 1 << 16 };

/* One byte more than is ever accepted, so that longer files are refused. Of a list as much as there is room for. */
static uint8_t table[LAPYNDO_WRITTEN_BYTES + 1];
static uint8_t state[LAPYNDO_STATE_BYTES + 1];
static uint8_t list[LIST_BYTES];

static uint8_t out[LAPYNDO_STATE_BYTES + 1];

static size_t table_len, state_len, list_len, out_len = sizeof out;

/* A number that no call writes. */
static const uint64_t unwritten = UINT64_C(0xFEDCBA9876543210);

/* Shows an answer, and the index with an entry's fault; the exit status. */
static int show(uint64_t answer, uint64_t index) {
    if (refused("check", answer)) {
        return 1;
    }
    if (lapyndo_check_is_yes(answer)) {
        printf("yes: end state ");
        show_bytes(out, lapyndo_length(answer));
        return 0;
    }
    switch (lapyndo_check_fault(answer)) {
    case 0: puts("no: goal not met"); break;
    case LAPYNDO_NO_SUCH_MOVE: printf("no: entry %" PRIu64 ", there is no such move\n", index); break;
    case LAPYNDO_CONDITIONS_FAIL: printf("no: entry %" PRIu64 ", conditions fail\n", index); break;
    case LAPYNDO_RESULT_RANGE: printf("no: entry %" PRIu64 ", a result is out of range\n", index); break;
    default: puts("an unknown fault");
    }
    return 4;
}

/* Whether the index is written with a fault only, and the end state with yes only. */
static bool kept(uint64_t answer, uint64_t index) {
    bool yes = lapyndo_check_is_yes(answer);
    bool fault = lapyndo_refusal(answer) == 0 && !yes && lapyndo_check_fault(answer) != 0;
    return (fault ? index < list_len : index == unwritten) &&
           holds_only(PAINT, out, yes ? lapyndo_length(answer) : 0, sizeof out);
}

int main(int argc, char **argv) {
    if (argc != 4 && argc != 5) {
        fputs("usage: check TABLE STATE LIST [OUT]\n", stderr);
        return 2;
    }
    if (!load(argv[1], table, sizeof table, &table_len) || !load(argv[2], state, sizeof state, &state_len) ||
        !load(argv[3], list, sizeof list, &list_len)) {
        return 2;
    }
    if (argc == 5 && !length_of(argv[4], sizeof out, &out_len)) {
        return 2;
    }
    memset(out, PAINT, sizeof out);
    uint64_t index = unwritten;
    uint64_t answer = lapyndo_check(table, table_len, state, state_len, list, list_len, out, out_len, &index);
    if (!kept(answer, index)) {
        fputs("something changed that is to be kept\n", stderr);
        return 3;
    }
    return show(answer, index);
}
