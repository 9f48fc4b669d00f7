/*
 * The six public calls of Liropuva for C: the checks of the three sheets, the replay of a trace, the bounded search, and the
 * join of two orders.
 *
 * docs/SPECIFICATION.md, section 1, says what the sheets are: in an array all tags stand before all values, all moves before
 * all places. docs/REFUSALS.md has each number that a call can answer; docs/CALLING.md has worked examples. Each call answers
 * what the definitions of crates/hgn/specs say, for every input, refusals too: this is proved of crates/capi/src/lib.rt and of
 * crates/capi_c/src/lib.rt, which exports its calls; the contracts stand in both. Any words and any lengths may be passed.
 *
 * What a caller owes, and nothing checks:
 * - A pointer is not null and is aligned for its type, also where its length is 0. Lengths count words, not bytes.
 * - Behind it stand as many words as its length says; behind `answer` and `atoms` as many as their declarations say.
 * - What is written (plan, room, answer, atoms) overlaps nothing else that is passed. The sheets are only read, and may
 *   overlap each other.
 * - Until the call returns, nothing else writes what is passed, and nothing else reads what is written.
 * - A depth is 32 bits wide. C cuts a number of a wider type to 32 bits before the call sees it: test such a number first.
 *
 * All memory stays the caller's: a call keeps no pointer, allocates nothing and frees nothing. What stands in `answer` and
 * `atoms` before the call does not matter; both are written whole by every call, refused or not.
 *
 * There is no global state: calls may run in several threads at once, each on memory of its own; sheets may be shared.
 *
 * Stack, measured and read off the compiled code, since no proof bounds it: under 1 kB for the checks and hgn_join, some 12 kB
 * for hgn_replay, which does not recurse, some 83 kB for hgn_search at depth 32 (2.1 kB for each step of depth).
 * HGN_REPLAY_STACK and HGN_SEARCH_STACK below leave room above that. A frame larger than a page is probed page by page, so
 * that a guard page below the stack is met and not jumped over.
 *
 * A call whose shape changes (its parameters, their widths, how much it writes) gets a new symbol: its name with a number
 * behind it. The old symbol goes, and a macro of this header keeps the plain name for C. So an object that was compiled with
 * an older header, which asks for the old symbol, does not link, rather than misbehave. This holds for every later change. A
 * language that does not read this header declares the symbol with its number. HGN_INTERFACE goes up with each such change, and
 * with each new call.
 * Interface 3: the array `answer` of hgn_replay grew from four words to five, HGN_REPLAY_ANSWER. A caller lends one word more.
 * Interface 4: hgn_join is new. No other call changed, and objects that were compiled with the header of interface 3 link.
 *
 * To link, on x86-64 Linux: `tools/build-capi` proves the crate and writes target/staticlib/libcapi.a, which needs only
 * memcpy and memset of the C library:  cc -Iinclude program.c target/staticlib/libcapi.a
 */
#ifndef LIROPUVA_H
#define LIROPUVA_H

#include <stddef.h>
#include <stdint.h>

#ifdef __cplusplus
extern "C" {
#endif

/* The number of this interface, for code that is compiled with more than one: CHANGES.md says what each number brought. */
#define HGN_INTERFACE 4

/* The words of each answer. */
#define HGN_CHECK_ANSWER 2
#define HGN_REPLAY_ANSWER 5
#define HGN_SEARCH_ANSWER 2
#define HGN_JOIN_ANSWER 2

/* The bytes of a state: as many for every shop, whatever its F. */
#define HGN_ATOMS 256

/* The fifth word of a replay's answer where it names no atom: atoms are below it. */
#define HGN_NO_ATOM 256

/* Bytes of stack that were enough in every measurement: for hgn_replay, hgn_join and the checks; for hgn_search at depth 32. */
#define HGN_REPLAY_STACK 32768
#define HGN_SEARCH_STACK 131072

/* Words of plan that are enough for every trace. */
#define HGN_MOST_PLAN_WORDS 4096

/* The words of the largest sheets: 4 + 2 * 4000, 3 + 2 * 4000, 1 + 2 * 4096. */
#define HGN_MOST_SHOP_WORDS 8004
#define HGN_MOST_ORDER_WORDS 8003
#define HGN_MOST_TRACE_WORDS 8193

/* The deepest search, and the words of room that it asks for: 1 + 2 * depth. */
#define HGN_MOST_DEPTH 32
#define HGN_MOST_SEARCH_WORDS (1 + 2 * HGN_MOST_DEPTH)

/*
 * The checks. answer[0] is the number of the first question whose answer is no, answer[1] its place: the row for 4 to 6 and
 * 14 to 16, the method for 9, else 0. 0 and 0 when passed. Each asks about all its sheets, in the order in which they are
 * passed.
 */
void hgn_check_shop(const uint16_t *shop, size_t shop_words,
                    uint32_t answer[HGN_CHECK_ANSWER]);

void hgn_check_order(const uint16_t *shop, size_t shop_words,
                     const uint16_t *order, size_t order_words,
                     uint32_t answer[HGN_CHECK_ANSWER]);

void hgn_check_trace(const uint16_t *shop, size_t shop_words,
                     const uint16_t *order, size_t order_words,
                     const uint16_t *trace, size_t trace_words,
                     uint32_t answer[HGN_CHECK_ANSWER]);

/*
 * The replay of a trace of L steps. answer is number, place, plan count, cost, unmet atom.
 * Accepted: 0, L, the plan's length and cost, HGN_NO_ATOM. The plan, its action numbers in order, stands in the first words of
 * `plan`, later words are unchanged; atoms[a] is 1 where atom a is in the last state, else 0.
 * Refused: number and place, then 0 and 0, then the unmet atom; every byte of `atoms` is 0, and `plan` is unchanged. The place
 * is what the checks say for 1 to 23, 0 for 24, the step for 25 to 32 and L for 33.
 * The unmet atom is HGN_NO_ATOM, 256, for none; only 29 and 30 fill it. It is the first atom that is not as wanted before the
 * step: for 30 of the rows of the action's or the method's needs, for 29 of the rows of the goal. For a goal with alternatives
 * it is that of the first unmet row of the first alternative, also where another alternative lacks less.
 * A `plan` of fewer than L words is refused with 24, even where the plan is shorter.
 * hgn_replay, without a number, was the symbol of a call whose answer had four words.
 */
#define hgn_replay hgn_replay_2
void hgn_replay_2(const uint16_t *shop, size_t shop_words,
                  const uint16_t *order, size_t order_words,
                  const uint16_t *trace, size_t trace_words,
                  uint16_t *plan, size_t plan_words,
                  uint32_t answer[HGN_REPLAY_ANSWER], uint8_t atoms[HGN_ATOMS]);

/*
 * The search for a trace of at most `depth` steps that the replay accepts: fewest steps first; among equally long ones the
 * first differing step decides, lower place, then lower move.
 * Found: answer is 0 and L, and the trace stands in the first 1 + 2L words of `room`, later words unchanged.
 * Refused: number and place, and `room` is unchanged; 41 at 0: depth above 32; 42 at 0: `room` of fewer than 1 + 2 * depth
 * words; 43 at 0: there is no such trace.
 * The time can grow exponentially with the depth.
 * hgn_search, without a number, was the symbol of a call whose depth was 16 bits wide.
 */
#define hgn_search hgn_search_2
void hgn_search_2(const uint16_t *shop, size_t shop_words,
                  const uint16_t *order, size_t order_words,
                  uint32_t depth,
                  uint16_t *room, size_t room_words,
                  uint32_t answer[HGN_SEARCH_ANSWER]);

/*
 * The join of two orders, written as one order sheet: the first's rows as they stand, then the second's goals, each of which
 * also comes after all goals of the first; the numbers in the second's own 11 rows are raised by the first's number of goals.
 * The second's 12 rows are checked, then dropped: the join does not read them. `first` and `second` may be one sheet.
 * Written: answer is 0 and 0, and the joined sheet of N rows stands in the first 3 + 2N words of `room`, N in room[2]; later
 * words are unchanged. HGN_MOST_ORDER_WORDS words of room are always enough.
 * Refused: number and place, and `room` is unchanged. Behind the shop sheet's questions come those of the first order, then
 * those of the second with the same numbers, so that 11 to 18 can be of either: check the first alone to tell which. Then 81 at
 * 0: the two have more than 64 goals together; 82 at 0: N, the number of rows that come out, is above 4,000; 83 at 0: `room` of
 * fewer than 3 + 2N words.
 */
void hgn_join(const uint16_t *shop, size_t shop_words,
              const uint16_t *first, size_t first_words,
              const uint16_t *second, size_t second_words,
              uint16_t *room, size_t room_words,
              uint32_t answer[HGN_JOIN_ANSWER]);

#ifdef __cplusplus
}
#endif

#endif
