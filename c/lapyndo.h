/* The campaign planning engine for hosts in C: planning a campaign, finding the part of the goal that blocks, reading,
 * normalising and stepping, writing PDDL for other planners, rewriting stored tables, placing a list in the windows of a
 * closure, checking a list, and the calls for the rig's board.
 *
 * Every call takes any bytes and answers one 64-bit number:
 *
 *     bits 32..63   the number of the refusal, 0 if the call is accepted
 *     bits  0..31   the place of the refusal, or the result
 *
 * Lists may have any length, so two calls write the number of an entry to a number that they are lent: only lapyndo_place
 * writes the place of a refusal there, and bits 0..31 are 0 then; lapyndo_check writes the entry that fails, which is an
 * answer and no refusal. The functions below the calls take answers apart. A call uses no heap and no state of its own, keeps
 * no pointer, and writes nothing but the memories and numbers that are lent to be written. A memory of length 0 may have any
 * pointer that is not null. A memory or number that is written must not overlap another.
 *
 * Link libengine.a.
 */
#ifndef LAPYNDO_H
#define LAPYNDO_H

#include <stddef.h>
#include <stdint.h>

#ifdef __cplusplus
extern "C" {
#endif

/* Limits, for memories of a fixed size. */
enum {
    LAPYNDO_WRITTEN_BYTES = 32000, /* the longest written table */
    LAPYNDO_NORMAL_BYTES = 64000,  /* the longest normal table: room for every normal form and rewritten table */
    LAPYNDO_STATE_BYTES = 184,     /* the longest state: 120 propositions, 16 values of 4 bytes */
    LAPYNDO_PDDL_BYTES = 330000    /* room for the PDDL text of every table and state */
};

/* The kinds of table. */
enum { LAPYNDO_WRITTEN = 0x54, LAPYNDO_NORMAL = 0x4E };

/* The numbers of refusals, in the order in which the checks are made. */
enum {
    LAPYNDO_TOO_LONG = 1,          /* the table is too long; place 0 */
                                   /* each command, in this order: */
    LAPYNDO_MISPLACED = 3,         /*   unknown, misplaced, wrong head for the call, terms left open, or bytes after 45;
                                        place: the command's offset, or that of the first byte after 45 */
    LAPYNDO_CUT = 2,               /*   operands cut, place: the command's offset; no command where one is due,
                                        place: the table's length */
    LAPYNDO_MOVE_COUNT = 6,        /*   41 beyond the head's count, or 47 before it; place: the command's offset */
    LAPYNDO_IDLE_MOVE = 16,        /*   a move without 2B, 2D or 46, nearly always an unfinished row; place: the offset of
                                        the 41 or 47 that closes it. See lapyndo_rewrite for stored tables */
    LAPYNDO_OPERAND_RANGE = 4,     /*   an operand is out of range; place: the operand's offset. Weights are -1000 to
                                        1000 in a written table, 0 included, and 1 to 1000 in a normal one */
    LAPYNDO_NAMED_AGAIN = 5,       /*   named again, not rising, or a ninth term, terms of weight 0 counted; place: the
                                        command's offset */
    LAPYNDO_CIRCLE = 7,            /* the := effects have a circle, terms of weight 0 left out; place 0 */
    LAPYNDO_BEYOND_RIG = 17,       /* the table has more moves or variables than the rig takes; place 0. The rig's calls
                                      only */
    LAPYNDO_STATE_LENGTH = 8,      /* the state has the wrong length; place 0 */
    LAPYNDO_STATE_RANGE = 9,       /* a byte or value of the state is out of range; place: its offset */
                                   /* no refusals of lapyndo_check, but the faults of an entry: */
    LAPYNDO_NO_SUCH_MOVE = 10,     /*   the table has no such move or block; place 0 */
    LAPYNDO_CONDITIONS_FAIL = 11,  /*   the move's conditions are not all true; place 0 */
    LAPYNDO_RESULT_RANGE = 12,     /*   a result is beyond 1,000,000 or -1,000,000; place 0 */
                                   /* each new layer, in this order: */
    LAPYNDO_LAYER_RANGE = 15,      /*   a finite value is above 1,000,000,000,000; place: the layer */
    LAPYNDO_LAYERS_SHORT = 14,     /*   the layer memory is too short for it; place: the layer */
                                   /* lapyndo_place only: */
    LAPYNDO_CLOSURE_RANGE = 18,    /*   a window is cut, out of order or out of range, or else a duration is cut or out of
                                        range; place: its number in its own list */
    LAPYNDO_NO_PLACEMENT = 19,     /*   no placement exists; place: the first entry up to which the list has none */
    LAPYNDO_OUTPUT_SHORT = 13      /* an output is shorter than the result; place 0 */
};

/* Plans a campaign, from a written table and a state: the call for monitors. lapyndo_rig_campaign is the rig's.
 *
 * Writes the normal form, decides from exactly those bytes, and plans. "No plan": no list of moves, of any length,
 * reaches the goal. A plan solves the relaxed task, in which no proposition is deleted and no signed value (v or -v)
 * falls.
 *
 * Result: "no plan" or a plan, with the reported layers; see lapyndo_no_plan and lapyndo_layers.
 * Refusals, in the order of the checks: 1 to 7 and 16; 13, normal is too short; 8 and 9; 15 and 14; 13, out is too short.
 *
 * state:    see lapyndo_step.
 * normal:   LAPYNDO_NORMAL_BYTES always suffice, and so does twice the length of the table. Once the table is accepted
 *           and normal is long enough: the normal form from the start, and the bytes behind it are kept; otherwise all
 *           bytes are kept.
 * layers:   P + A + N * (layers + 1) numbers suffice. P, V and A are the table's counts, N is 2 * V, and there are at
 *           most (A + N + 1) * (N + 1) layers. Accepted, for each proposition the first layer that has it, for each
 *           move the first layer whose step used it (-1: never), then each layer's N values (INT64_MAX: unbounded), 2i
 *           for variable i and 2i + 1 for its negative; the numbers behind are kept. Refused, the same after 13 for
 *           out, every layer made before after 15, and after 14 with a place above 0; otherwise all numbers are kept.
 * out:      10 bytes a record suffice, none with "no plan". A record is 0x52, the move, and how often it is made:
 *           8 bytes, big-endian. Accepted, the records from the start, and the bytes behind them are kept; refused, all
 *           bytes are kept.
 * decision: always written: what decide answers, which is the result where out is long enough. After 13 it is 13 too if
 *           normal is too short, and no refusal if out is.
 * records:  accepted, the number of records, 0 with "no plan"; refused, kept.
 * first:    accepted, the set of helpful moves, bit b for move b; refused, kept. The conditions of each hold in the state,
 *           and it gives something that the plan wants in layer 1 and the state lacks: it adds a proposition, or raises a
 *           signed variable (v or -v) that has to be larger, by := to what is wanted at least, by += or -= in its
 *           direction. Every move that the plan takes at layer 0 is among them. 0 if the state meets the goal, and with
 *           "no plan". A search over real moves tries helpful moves before all others.
 */
uint64_t lapyndo_campaign(const uint8_t *table, size_t table_len, const uint8_t *state, size_t state_len,
                          uint8_t *normal, size_t normal_len, int64_t *layers, size_t layers_len, uint8_t *out,
                          size_t out_len, uint64_t *decision, uint64_t *records, uint64_t *first);

/* Finds the part of the goal that blocks, from a normal table and a state: where there is "no plan", the first 50 or 43
 * command of the goal, in table order, that the last layer does not meet. No list of moves, of any length, reaches that
 * part alone: while it stays in the goal, giving up other parts does not help.
 *
 * lapyndo_normalise writes the normal table. A written condition with = has two parts there, S >= c and then -S >= -c, and
 * every other one part, in the order of the written goal.
 *
 * Result: the offset of that command in the normal table, of a 43 itself and not of its first term; 0 if nothing blocks,
 * which is so exactly where there is a plan. See lapyndo_offset.
 * Refusals, in the order of the checks: 1 to 7 and 16; 8 and 9; 15 and 14. A normal table may have 64,000 bytes.
 *
 * state:  see lapyndo_step; two signed variables are one variable there.
 * layers: P + A + N * (layers + 1) numbers suffice. P, N and A are the normal table's counts, and there are at most
 *         (A + N + 1) * (N + 1) layers. The call leaves there what lapyndo_campaign leaves. Accepted, the entries and the
 *         values of every layer, and the numbers behind are kept. Refused, every layer made before after 15, and after 14
 *         with a place above 0; otherwise all numbers are kept.
 */
uint64_t lapyndo_blocking(const uint8_t *table, size_t table_len, const uint8_t *state, size_t state_len, int64_t *layers,
                          size_t layers_len);

/* Makes all checks of a written or normal table.
 *
 * Result: the head; see lapyndo_kind and the three counts.
 * Refusals: 1 to 7 and 16.
 * A written table may have 32,000 bytes, one with any other first byte 64,000.
 */
uint64_t lapyndo_read(const uint8_t *table, size_t table_len);

/* Writes the normal form of a written table.
 *
 * A term of weight 0 is no contribution: the normal form drops it, and keeps the condition or effect that it stands in.
 *
 * Result: the length of the normal form, at most 64,000 and at most twice that of the table. An output of twice the
 * table's length spares the engine a walk over the table for the length.
 * Refusals: 1 to 7 and 16; 13.
 * out: accepted, the normal form from the start, and the bytes behind it are kept; refused, all bytes are kept.
 */
uint64_t lapyndo_normalise(const uint8_t *table, size_t table_len, uint8_t *out, size_t out_len);

/* Makes one real move of a written table. Moves are numbered from 0.
 *
 * A state has one byte (0 or 1) a proposition, then one 4-byte value a variable, big-endian two's complement.
 *
 * Result: the length of the state after the move, which is that of the state before it.
 * Refusals: 1 to 13 and 16.
 * out: accepted, the state after the move from the start, and the bytes behind it are kept; refused, all bytes are kept.
 */
uint64_t lapyndo_step(const uint8_t *table, size_t table_len, const uint8_t *state, size_t state_len, uint64_t move,
                      uint8_t *out, size_t out_len);

/* Writes a written table and a state as PDDL 2.1 text: a domain, and then a problem, which begins with the line
 * "(define (problem start)".
 *
 * Proposition, variable and move i are called pi, vi and ai. A list of actions is a plan of the text exactly when the list
 * of moves solves the table from the state. Terms of weight 0 are written out. The text is ASCII, with no 0 byte behind
 * it; docs/PDDL.md describes it.
 *
 * Result: the length of the text.
 * Refusals, in the order of the checks: 1 to 7 and 16; 8 and 9; 13.
 *
 * state: see lapyndo_step.
 * out:   LAPYNDO_PDDL_BYTES always suffice, and so do 10 for each byte of the table and 10,000 more. Accepted, the text
 *        from the start, and the bytes behind it are kept; refused, all bytes are kept.
 */
uint64_t lapyndo_pddl(const uint8_t *table, size_t table_len, const uint8_t *state, size_t state_len, uint8_t *out,
                      size_t out_len);

/* Rewrites a stored table, written or normal: drops its moves without 2B, 2D or 46, which every other call refuses with 16.
 *
 * The other moves are numbered anew, in their order, and the head's count of moves falls. All else is kept byte for byte:
 * the counts of propositions and variables too, so a state of the stored table is a state of the rewritten one. A table
 * without such moves comes out as it is. A move with an effect that changes nothing, such as += 0, is no such move.
 *
 * If a list of moves solves the stored table, it solves the rewritten one once the dropped moves are left out and the others
 * are numbered anew. A list that solves the rewritten table solves the stored one once it is numbered back.
 *
 * Result: the length of the rewritten table, at most that of the stored one.
 * Refusals: 1 to 7; 13. All checks of lapyndo_read but 16 are made, of the moves that are dropped too.
 * A written table may have 32,000 bytes, one with any other first byte 64,000.
 *
 * out: the length of the table always suffices. Accepted, the rewritten table from the start, and the bytes behind it are
 *      kept; refused, all bytes are kept.
 */
uint64_t lapyndo_rewrite(const uint8_t *table, size_t table_len, uint8_t *out, size_t out_len);

/* A closure and the entries that are placed in its windows. */
enum {
    LAPYNDO_WINDOWS = 64,          /* the most windows */
    LAPYNDO_LAST_MINUTE = 1000000, /* the last minute of a closure, which begins at minute 0 */
    LAPYNDO_ENTRY_MINUTES = 1440   /* the longest entry */
};

/* Places a list of moves in the windows of a closure: its entries in order, each wholly inside one window, and none starting
 * before the one before it ends. In every other placement of the list no entry starts earlier.
 *
 * Lent are the windows, and for each entry how many minutes it takes; the moves themselves are not asked for. Of a plan, each
 * record is as many entries in a row as its count says. Every minute is 4 bytes, big-endian. An entry may end at the minute
 * at which its window shuts. Windows that touch stay two: no entry reaches across.
 *
 * Result: the minute at which the last entry ends, 0 if the list is empty; see lapyndo_end_minute. 0 in a refusal.
 * Refusals, in the order of the checks:
 *   18, the first window that is cut, beyond the 64th, out of 0 to 1,000,000, shutting no later than it opens, or opening
 *       before the one before it shuts;
 *   18, the first duration that is cut, or out of 1 to 1,440;
 *   19, no placement exists;
 *   13, out is too short.
 *
 * windows:   8 bytes a window: the minute at which it opens, then the minute at which it shuts.
 * durations: 4 bytes an entry: how many minutes it takes. A list of more than 1,000,000 entries has no placement.
 * out:       4 bytes an entry: the length of durations always suffices. Accepted, the minute at which each entry starts, from
 *            the start, and the bytes behind them are kept; refused, all bytes are kept.
 * length:    accepted, the number of bytes written; refused, kept.
 * place:     refused, the place, counted from 0: with 18 the number of the window or of the duration, with 19 the first entry
 *            up to which the list has no placement, with 13 0. Accepted, kept.
 */
uint64_t lapyndo_place(const uint8_t *windows, size_t windows_len, const uint8_t *durations, size_t durations_len,
                       uint8_t *out, size_t out_len, uint64_t *length, uint64_t *place);

/* Checks a list of moves, from whatever planner, against a written table and a state.
 *
 * Yes: the list solves the table, which is that each move's conditions hold when it is made and the goal holds at the end,
 * and no value on the way is beyond 1,000,000 or -1,000,000. Otherwise the first entry whose move cannot be made, as
 * lapyndo_step would refuse it in the state before it; and if there is none, that the goal is not met.
 *
 * Result: yes with the length of the end state, an entry's fault, or "goal not met"; see lapyndo_check_is_yes,
 * lapyndo_check_fault and lapyndo_length.
 * Refusals, in the order of the checks: 1 to 7 and 16; 8 and 9; 13, last, and only where the answer would be yes.
 *
 * state: see lapyndo_step.
 * list:  a byte a move, its number; any length. No entries are a list too.
 * out:   the length of state always suffices. Yes, the end state from the start, and the bytes behind it are kept;
 *        otherwise all bytes are kept.
 * index: with a fault, the number of the entry, counted from 0; otherwise kept.
 */
uint64_t lapyndo_check(const uint8_t *table, size_t table_len, const uint8_t *state, size_t state_len, const uint8_t *list,
                       size_t list_len, uint8_t *out, size_t out_len, uint64_t *index);

/* The calls for the rig's board: those above that it needs, with the board's limits, and three more, which copy a block,
 * decide and plan.
 *
 * A table with more than LAPYNDO_RIG_MOVES moves or LAPYNDO_RIG_VARIABLES variables (in a normal table, two signed ones for
 * each) is refused with 17, after all checks of the table itself and before any other. Propositions have no limit of their
 * own here. Of layer memory no more than the first LAPYNDO_RIG_NUMBERS numbers are used: a longer one is not refused, and the
 * numbers behind are kept. In all else results, refusals and memories are those of the full call that is lent these numbers,
 * which refuses with 14 where it needs more.
 */
enum {
    LAPYNDO_RIG_MOVES = 16,
    LAPYNDO_RIG_VARIABLES = 8,
    LAPYNDO_RIG_NUMBERS = 2048,     /* with all 2,048 lent, they hold layer 0 to layer L where P + A + N * (L + 1) is
                                       2,048 at most: layer 118 always, and with at most 4 variables every layer */
    LAPYNDO_RIG_STATE_BYTES = 152,  /* the longest state: 120 propositions, 8 values of 4 bytes */
    LAPYNDO_RIG_LAYERS = 225,       /* no answer reports more layers */
    LAPYNDO_RIG_PLAN_BYTES = 36000  /* room for the records of every plan: 16 a layer at most, of 10 bytes each */
};

/* Plans a campaign, as lapyndo_campaign does.
 *
 * Refusals, in the order of the checks: 1 to 7 and 16; 17; 13, normal is too short; 8 and 9; 15 and 14; 13, out is too short.
 */
uint64_t lapyndo_rig_campaign(const uint8_t *table, size_t table_len, const uint8_t *state, size_t state_len,
                              uint8_t *normal, size_t normal_len, int64_t *layers, size_t layers_len, uint8_t *out,
                              size_t out_len, uint64_t *decision, uint64_t *records, uint64_t *first);

/* Makes all checks of a table, as lapyndo_read does.
 *
 * Refusals: 1 to 7 and 16; 17.
 */
uint64_t lapyndo_rig_read(const uint8_t *table, size_t table_len);

/* Copies one block of a written or normal table. Move b is block b, and the goal is the block behind the last move.
 *
 * A block runs from its 41 or 47 up to the next 41, 47 or 45, which is left out.
 *
 * Result: the length of the block, whether it fits or not; see lapyndo_length.
 * Refusals, in the order of the checks: 1 to 7 and 16; 17; 10, there is no such block.
 * out: accepted, the block from the start, as much of it as fits, and the bytes behind it are kept; refused, all bytes are
 *      kept.
 */
uint64_t lapyndo_rig_block(const uint8_t *table, size_t table_len, uint64_t block, uint8_t *out, size_t out_len);

/* Writes the normal form of a written table, as lapyndo_normalise does.
 *
 * Refusals, in the order of the checks: 1 to 7 and 16; 17; 13.
 */
uint64_t lapyndo_rig_normalise(const uint8_t *table, size_t table_len, uint8_t *out, size_t out_len);

/* Makes one real move of a written table, as lapyndo_step does.
 *
 * Refusals, in the order of the checks: 1 to 7 and 16; 17; 8 to 13.
 */
uint64_t lapyndo_rig_step(const uint8_t *table, size_t table_len, const uint8_t *state, size_t state_len, uint64_t move,
                          uint8_t *out, size_t out_len);

/* Decides, from a normal table and a state: the decision of lapyndo_rig_campaign.
 *
 * Result: "no plan" or a plan, with the reported layers; see lapyndo_no_plan and lapyndo_layers.
 * Refusals, in the order of the checks: 1 to 7 and 16; 17; 8 and 9; 15 and 14. A normal table may have 64,000 bytes.
 *
 * state, layers: see lapyndo_blocking.
 */
uint64_t lapyndo_rig_decide(const uint8_t *table, size_t table_len, const uint8_t *state, size_t state_len,
                            int64_t *layers, size_t layers_len);

/* Plans, from a normal table and a state: the plan of lapyndo_rig_campaign.
 *
 * Result: that of lapyndo_rig_decide.
 * Refusals: those of lapyndo_rig_decide, and then 13.
 *
 * state:               see lapyndo_blocking.
 * layers:              after 13 what is there after an accepted call; otherwise see lapyndo_blocking.
 * out, records, first: see lapyndo_campaign.
 */
uint64_t lapyndo_rig_plan(const uint8_t *table, size_t table_len, const uint8_t *state, size_t state_len, int64_t *layers,
                          size_t layers_len, uint8_t *out, size_t out_len, uint64_t *records, uint64_t *first);

/* The functions below take answers apart: those of a call, and of the rig's call of that name. */

/* Of any answer: the number of the refusal, 0 if the call is accepted. */
static inline uint32_t lapyndo_refusal(uint64_t answer) { return (uint32_t)(answer >> 32); }

/* Of a refusal of any call but lapyndo_place: its place. */
static inline uint32_t lapyndo_refusal_place(uint64_t answer) { return (uint32_t)answer; }

/* Of an accepted lapyndo_campaign, of its decision, if that is no refusal, and of an accepted lapyndo_rig_decide or
 * lapyndo_rig_plan: 1 for "no plan", otherwise 0. */
static inline int lapyndo_no_plan(uint64_t answer) { return (int)(answer >> 31 & 1); }

/* Of the same: the reported layers, which are the number of the last layer. */
static inline uint32_t lapyndo_layers(uint64_t answer) { return (uint32_t)answer & 0x7FFFFFFF; }

/* Of an accepted lapyndo_blocking: the offset of the part that blocks, 0 if nothing blocks. */
static inline size_t lapyndo_offset(uint64_t answer) { return (size_t)(uint32_t)answer; }

/* Of any lapyndo_check, refused or not: 1 for yes, otherwise 0. */
static inline int lapyndo_check_is_yes(uint64_t answer) { return answer >> 31 == 0; }

/* Of an accepted lapyndo_check that is no yes: LAPYNDO_NO_SUCH_MOVE, LAPYNDO_CONDITIONS_FAIL or LAPYNDO_RESULT_RANGE, the
 * fault of the entry that index names; 0 for "goal not met". */
static inline uint32_t lapyndo_check_fault(uint64_t answer) { return (uint32_t)answer & 0x7FFFFFFF; }

/* Of an accepted lapyndo_normalise, lapyndo_step, lapyndo_pddl or lapyndo_rewrite, and of lapyndo_check's yes: the number of
 * bytes written; of an accepted lapyndo_rig_block: the length of the block. */
static inline size_t lapyndo_length(uint64_t answer) { return (size_t)(uint32_t)answer; }

/* Of an accepted lapyndo_place: the minute at which the last entry ends, 0 if there is none. */
static inline uint32_t lapyndo_end_minute(uint64_t answer) { return (uint32_t)answer; }

/* Of an accepted lapyndo_read: LAPYNDO_WRITTEN or LAPYNDO_NORMAL. */
static inline unsigned lapyndo_kind(uint64_t answer) { return (unsigned)(answer >> 24 & 0xFF); }

/* Of an accepted lapyndo_read: the number of propositions. */
static inline unsigned lapyndo_propositions(uint64_t answer) { return (unsigned)(answer >> 16 & 0xFF); }

/* Of an accepted lapyndo_read: the number of variables; in a normal table of signed ones, two a variable. */
static inline unsigned lapyndo_variables(uint64_t answer) { return (unsigned)(answer >> 8 & 0xFF); }

/* Of an accepted lapyndo_read: the number of moves. */
static inline unsigned lapyndo_moves(uint64_t answer) { return (unsigned)(answer & 0xFF); }

#ifdef __cplusplus
}
#endif

#endif
