/* A small host: rewrites a stored table from a file, written or normal, shows the moves that are left and the bytes, and
 * looks whether all other bytes of its memory are kept.
 *
 * usage: rewrite TABLE [OUT]
 *
 * The number of bytes that are lent for the rewritten table may be given.
 * Exit status: 0 if the table was accepted, 1 after a refusal, 2 if a file or an argument is bad, 3 if a byte changed that
 * is to be kept, the rewritten table is refused, or rewriting it once more changes it.
 */
#include "common.h"

#include <string.h>

enum { PAINT = 0xA5 };

/* One byte more than is ever accepted, so that longer files are refused. */
static uint8_t table[LAPYNDO_NORMAL_BYTES + 1];

static uint8_t out[LAPYNDO_NORMAL_BYTES], again[LAPYNDO_NORMAL_BYTES];

static size_t table_len, out_len = LAPYNDO_NORMAL_BYTES;

/* Shows the rewritten table; false if it is refused, or changes once more. */
static bool show(size_t length) {
    uint64_t head = lapyndo_read(out, length);
    if (refused("read", head)) {
        return false;
    }
    printf("%u moves are left, in %zu of %zu bytes: ", lapyndo_moves(head), length, table_len);
    show_bytes(out, length);
    return lapyndo_rewrite(out, length, again, sizeof again) == length && memcmp(out, again, length) == 0;
}

int main(int argc, char **argv) {
    if (argc != 2 && argc != 3) {
        fputs("usage: rewrite TABLE [OUT]\n", stderr);
        return 2;
    }
    if (!load(argv[1], table, sizeof table, &table_len) || (argc == 3 && !length_of(argv[2], sizeof out, &out_len))) {
        return 2;
    }
    memset(out, PAINT, sizeof out);
    uint64_t answer = lapyndo_rewrite(table, table_len, out, out_len);
    bool accepted = !refused("rewrite", answer);
    size_t length = accepted ? lapyndo_length(answer) : 0;
    if (!holds_only(PAINT, out, length, sizeof out)) {
        fputs("a byte changed that is to be kept\n", stderr);
        return 3;
    }
    if (accepted && !show(length)) {
        fputs("the rewritten table is refused, or changes once more\n", stderr);
        return 3;
    }
    return accepted ? 0 : 1;
}
