/* A small host: places a list in the windows of a closure, from a file of windows and one of durations, shows the minutes of
 * each entry, and looks whether all other bytes and numbers are kept.
 *
 * usage: place WINDOWS DURATIONS [OUT]
 *
 * The number of bytes that are lent for the starts may be given.
 * Exit status: 0 if the list was placed, 1 after a refusal, 2 if a file or an argument is bad, 3 if something changed that is
 * to be kept, or the length or a refusal's result is wrong.
 */
#include "common.h"

#include <string.h>

enum { PAINT = 0xA5 };

/* One window more than is ever accepted, and one entry more than is ever placed, so that longer files are refused. */
static uint8_t windows[8 * (LAPYNDO_WINDOWS + 1)];
static uint8_t durations[4 * (LAPYNDO_LAST_MINUTE + 1)];

static uint8_t out[sizeof durations];

static size_t windows_len, durations_len, out_len = sizeof out;

/* A number that no call writes. */
static const uint64_t unwritten = UINT64_C(0xFEDCBA9876543210);

static uint32_t minute_at(const uint8_t *four) {
    return (uint32_t)four[0] << 24 | (uint32_t)four[1] << 16 | (uint32_t)four[2] << 8 | four[3];
}

/* Shows each entry: the minute at which it starts, and the one at which it ends. */
static void show_entries(uint32_t end) {
    printf("placed: %zu entries, end minute %" PRIu32 "\n", durations_len / 4, end);
    for (size_t i = 0; i < durations_len; i += 4) {
        uint32_t start = minute_at(out + i);
        printf("%zu: %" PRIu32 " to %" PRIu32 "\n", i / 4, start, start + minute_at(durations + i));
    }
}

int main(int argc, char **argv) {
    if (argc != 3 && argc != 4) {
        fputs("usage: place WINDOWS DURATIONS [OUT]\n", stderr);
        return 2;
    }
    if (!load(argv[1], windows, sizeof windows, &windows_len) ||
        !load(argv[2], durations, sizeof durations, &durations_len)) {
        return 2;
    }
    if (argc == 4 && !length_of(argv[3], sizeof out, &out_len)) {
        return 2;
    }
    memset(out, PAINT, sizeof out);
    uint64_t length = unwritten, place = unwritten;
    uint64_t answer =
        lapyndo_place(windows, windows_len, durations, durations_len, out, out_len, &length, &place);
    uint32_t refusal = lapyndo_refusal(answer);
    bool kept = refusal == 0 ? length == durations_len && place == unwritten
                             : length == unwritten && (uint32_t)answer == 0;
    if (!kept || !holds_only(PAINT, out, refusal == 0 ? durations_len : 0, sizeof out)) {
        fputs("something changed that is to be kept, or the length or the result is wrong\n", stderr);
        return 3;
    }
    if (refusal != 0) {
        printf("place: refusal %" PRIu32 " place %" PRIu64 "\n", refusal, place);
        return 1;
    }
    show_entries(lapyndo_end_minute(answer));
    return 0;
}
