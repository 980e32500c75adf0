/* Measures the stack that each call needs: runs it on a stack painted beforehand, and finds how far the paint is gone.
 * What a call reserves below the last byte that it writes does not show.
 *
 * usage: stack FOLDER..
 *
 * Measured on the campaign of each folder (task.bin, state.bin), on two deep ones, of which one is within the rig's limits,
 * and on each of them with a byte cut off its tables; place on closures of up to 65 windows, check on lists of 100 to 165
 * entries. Prints one line a call: its name and the largest number of bytes. With PLANNING the calls that are exported for tests are measured too.
 * Exit status: 0; 1 if the painted stack was too small; 2 if a file is missing, a campaign is refused, or a deep one has too
 * few records.
 */
#define _XOPEN_SOURCE 700
#include "calls.h"
#include "common.h"

#include <ucontext.h>

enum { STACK_BYTES = 1 << 16, PAINT = 0x5A, DEPTH = 64 };

/* The campaign that is measured. */
static uint8_t written[LAPYNDO_WRITTEN_BYTES], normal[LAPYNDO_NORMAL_BYTES], state[LAPYNDO_STATE_BYTES];
static size_t written_len, normal_len, state_len;

static uint8_t spare[LAPYNDO_NORMAL_BYTES], out[LAPYNDO_PDDL_BYTES];
static int64_t layers[LAYER_NUMBERS];
static uint64_t decision, records, helpful;

/* Whose call is measured, which move or block it is given, and how much of the output. */
static const struct calls *calls;
static uint64_t number;
static size_t room;

static void nothing(void) {}

static void call_read(void) {
    calls->read(written, written_len);
    calls->read(normal, normal_len);
}

static void call_normalise(void) { calls->normalise(written, written_len, out, room); }

static void call_step(void) { calls->step(written, written_len, state, state_len, number, out, room); }

static void call_campaign(void) {
    calls->campaign(written, written_len, state, state_len, spare, sizeof spare, layers, LAYER_NUMBERS, out, room,
                    &decision, &records, &helpful);
}

static void call_pddl(void) { lapyndo_pddl(written, written_len, state, state_len, out, room); }

static void call_blocking(void) { lapyndo_blocking(normal, normal_len, state, state_len, layers, LAYER_NUMBERS); }

/* Also of a table whose first move is dropped. */
static void call_rewrite(void) {
    static const uint8_t idle_first[] = {LAPYNDO_WRITTEN, 1, 0, 2, 0x41, 0x50, 0, 0x41, 0x2B, 0, 0x47, 0x45};
    lapyndo_rewrite(written, written_len, out, room);
    lapyndo_rewrite(normal, normal_len, out, room);
    lapyndo_rewrite(idle_first, sizeof idle_first, out, room);
}

/* In as many windows of two minutes as the number says, one more than is accepted at most: entries that fill them, one more,
 * and both with a byte cut off. */
static void call_place(void) {
    static uint8_t windows[8 * (DEPTH + 1)], durations[8 * (DEPTH + 1) + 4];
    for (size_t i = 0; i <= DEPTH; i++) {
        windows[8 * i + 3] = (uint8_t)(3 * i);
        windows[8 * i + 7] = (uint8_t)(3 * i + 2);
        durations[8 * i + 3] = durations[8 * i + 7] = 1;
    }
    durations[sizeof durations - 1] = 1;
    uint64_t length, place;
    size_t windows_len = 8 * number, entries_len = 8 * number;
    lapyndo_place(windows, windows_len, durations, entries_len, out, room, &length, &place);
    lapyndo_place(windows, windows_len, durations, entries_len + 4, out, room, &length, &place);
    lapyndo_place(windows, windows_len, durations, entries_len + 3, out, room, &length, &place);
    if (number > 0) {
        lapyndo_place(windows, windows_len - 1, durations, entries_len, out, room, &length, &place);
    }
}

/* As many moves in rising order as the number says, one more than there are at most, and then the first 100 times: on a deep
 * campaign this solves where the number is that of its moves. */
static void call_check(void) {
    static uint8_t list[DEPTH + 1 + 100];
    for (size_t i = 0; i < sizeof list; i++) {
        list[i] = i < number ? (uint8_t)i : 0;
    }
    uint64_t index;
    lapyndo_check(written, written_len, state, state_len, list, number + 100, out, room, &index);
}

static void call_block(void) { calls->block(normal, normal_len, number, out, room); }

static void call_decide(void) { calls->decide(normal, normal_len, state, state_len, layers, LAYER_NUMBERS); }

static void call_plan(void) {
    calls->plan(normal, normal_len, state, state_len, layers, LAYER_NUMBERS, out, room, &records, &helpful);
}

static struct {
    const char *name;
    const struct calls *calls;
    void (*run)(void);
    size_t most;
} all[] = {
    {"read", &full, call_read, 0},
    {"normalise", &full, call_normalise, 0},
    {"step", &full, call_step, 0},
    {"campaign", &full, call_campaign, 0},
    {"pddl", &full, call_pddl, 0},
    {"blocking", &full, call_blocking, 0},
    {"rewrite", &full, call_rewrite, 0},
    {"place", &full, call_place, 0},
    {"check", &full, call_check, 0},
#ifdef PLANNING
    {"block", &full, call_block, 0},
    {"decide", &full, call_decide, 0},
    {"plan", &full, call_plan, 0},
#endif
    {"rig_read", &rig, call_read, 0},
    {"rig_normalise", &rig, call_normalise, 0},
    {"rig_step", &rig, call_step, 0},
    {"rig_campaign", &rig, call_campaign, 0},
    {"rig_block", &rig, call_block, 0},
    {"rig_decide", &rig, call_decide, 0},
    {"rig_plan", &rig, call_plan, 0},
};

enum { ALL = sizeof all / sizeof all[0] };

static _Alignas(64) uint8_t stack[STACK_BYTES];
static ucontext_t here, there;
static void (*measured)(void);

static void run_measured(void) { measured(); }

/* The bytes of the painted stack that a function changed. The stack grows downwards. */
static size_t used_by(void (*function)(void)) {
    memset(stack, PAINT, sizeof stack);
    measured = function;
    getcontext(&there);
    there.uc_stack.ss_sp = stack;
    there.uc_stack.ss_size = sizeof stack;
    there.uc_link = &here;
    makecontext(&there, run_measured, 0);
    swapcontext(&here, &there);
    size_t untouched = 0;
    while (untouched < sizeof stack && stack[untouched] == PAINT) {
        untouched++;
    }
    return sizeof stack - untouched;
}

/* Measures every call on the campaign, with all that it may be given beside it. */
static void measure(void) {
    for (size_t i = 0; i < ALL; i++) {
        calls = all[i].calls;
        for (number = 0; number <= DEPTH + 1; number++) {
            for (room = 0; room <= sizeof out; room += sizeof out) {
                size_t used = used_by(all[i].run);
                all[i].most = used > all[i].most ? used : all[i].most;
            }
        }
    }
}

/* Measures every call on an accepted campaign, then on the same with a byte cut off each table. */
static bool measure_whole_and_cut(void) {
    uint64_t answer = lapyndo_normalise(written, written_len, normal, sizeof normal);
    if (lapyndo_refusal(answer) != 0) {
        return false;
    }
    normal_len = lapyndo_length(answer);
    measure();
    written_len--;
    normal_len--;
    measure();
    return true;
}

static bool load_from(const char *folder, const char *name, uint8_t *memory, size_t room, size_t *length) {
    char path[4096];
    snprintf(path, sizeof path, "%s/%s", folder, name);
    return load(path, memory, room, length);
}

static void put(const uint8_t *bytes, size_t length) {
    memcpy(written + written_len, bytes, length);
    written_len += length;
}

/* As many moves, each of which needs what the one before it adds and raises a variable. The goal wants the last proposition
 * and a value above what one move gives. The first move also sets a variable and hands it on to another, which the goal wants
 * too: it is taken in two layers, so that the plan has more records than moves. */
static void make_deep(uint8_t moves, uint8_t variables) {
    const uint8_t set = variables - 2, handed_on = variables - 1;
    const uint8_t head[] = {LAPYNDO_WRITTEN, moves + 1, variables, moves};
    const uint8_t handed[] = {0x46, 0, set, 0, 0, 0, 1, 0x57, set, 0, 1, 0x46, 0, handed_on, 0, 0, 0, 0};
    const uint8_t goal[] = {0x47, 0x50, moves, 0x57, 0, 0, 1, 0x43, 0, 0, 0, 0, 100,
                            0x57, handed_on, 0, 1, 0x43, 0, 0, 0, 0, 1, 0x45};
    written_len = 0;
    put(head, sizeof head);
    for (uint8_t i = 0; i < moves; i++) {
        const uint8_t move[] = {0x41, 0x50, i, 0x2B, i + 1, 0x46, 1, i % variables, 0, 0, 0, 1};
        put(move, sizeof move);
        if (i == 0) put(handed, sizeof handed);
    }
    put(goal, sizeof goal);
    memset(state, 0, sizeof state);
    state[0] = 1;
    state_len = moves + 1 + 4 * variables;
}

/* Measures every call on a deep campaign, which must be within somebody's limits. */
static bool measure_deep(const struct calls *whose, uint8_t moves, uint8_t variables) {
    make_deep(moves, variables);
    calls = whose;
    room = whose->plan_bytes;
    records = 0;
    call_campaign();
    return records > moves && measure_whole_and_cut();
}

/* Prints what each call needs beyond a function that does nothing. */
static int report(void) {
    size_t none = used_by(nothing);
    int status = 0;
    for (size_t i = 0; i < ALL; i++) {
        if (all[i].most == sizeof stack) {
            printf("%-13s the painted stack is too small\n", all[i].name);
            status = 1;
        } else {
            printf("%-13s %6zu bytes of stack\n", all[i].name, all[i].most - none);
        }
    }
    return status;
}

int main(int argc, char **argv) {
    bool accepted = true;
    for (int i = 1; i < argc; i++) {
        accepted = accepted && load_from(argv[i], "task.bin", written, sizeof written, &written_len) &&
                   load_from(argv[i], "state.bin", state, sizeof state, &state_len) && measure_whole_and_cut();
    }
    accepted = accepted && measure_deep(&full, DEPTH, 16);
    accepted = accepted && measure_deep(&rig, LAPYNDO_RIG_MOVES, LAPYNDO_RIG_VARIABLES);
    return accepted ? report() : 2;
}
