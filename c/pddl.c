/* A small host: shows the campaign of a table and a state from files as PDDL text, and looks whether all other bytes of
 * its memory are kept.
 *
 * usage: pddl TABLE STATE [OUT]
 *
 * The number of bytes that are lent for the text may be given.
 * Exit status: 0 if the campaign was accepted, 1 after a refusal, 2 if a file or an argument is bad, 3 if a byte changed
 * that is to be kept.
 */
#include "common.h"

#include <string.h>

enum { PAINT = 0xA5 };

/* One byte more than is ever accepted, so that longer files are refused. */
static uint8_t table[LAPYNDO_WRITTEN_BYTES + 1];
static uint8_t state[LAPYNDO_STATE_BYTES + 1];

static uint8_t out[LAPYNDO_PDDL_BYTES];

static size_t table_len, state_len, out_len = LAPYNDO_PDDL_BYTES;

int main(int argc, char **argv) {
    if (argc != 3 && argc != 4) {
        fputs("usage: pddl TABLE STATE [OUT]\n", stderr);
        return 2;
    }
    if (!load(argv[1], table, sizeof table, &table_len) || !load(argv[2], state, sizeof state, &state_len)) {
        return 2;
    }
    if (argc == 4 && !length_of(argv[3], sizeof out, &out_len)) {
        return 2;
    }
    memset(out, PAINT, sizeof out);
    uint64_t answer = lapyndo_pddl(table, table_len, state, state_len, out, out_len);
    bool accepted = !refused("pddl", answer);
    size_t length = accepted ? lapyndo_length(answer) : 0;
    fwrite(out, 1, length, stdout);
    if (!holds_only(PAINT, out, length, sizeof out)) {
        fputs("a byte changed that is to be kept\n", stderr);
        return 3;
    }
    return accepted ? 0 : 1;
}
