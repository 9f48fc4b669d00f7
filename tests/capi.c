/*
 * Calls the C interface on the long core of document 01 ("One core of sixty centimetres") and on sheets that are refused, and
 * compares what is written, with the words before and after each room, which must stay.
 */
#include "liropuva.h"

#include <stdio.h>
#include <stdlib.h>
#include <string.h>

/* A pointer and a length, as each call takes a sheet. */
#define SHEET(words) words, sizeof(words) / sizeof((words)[0])

/* So many words before and after each room must stay. WORD and BYTE stand in them, and in the rooms before a call. */
#define KEPT 4
#define ROOM HGN_MOST_ORDER_WORDS
#define WORD 0xA55A
#define BYTE 0xA5

static const uint16_t shop[] = {
    4, 4, 1, 28,
    1, 5, 6, 1, 3, 5, 1, 3, 6, 5, 1, 3, 5, 2, 7, 8, 9, 7, 11, 8, 9, 7, 11, 8, 9, 7, 8, 9,
    3, 0, 2, 10, 0, 1, 3, 1, 0, 2, 10, 2, 3, 0, 0, 0, 0, 0, 0, 0, 1, 0, 1, 0, 2, 0, 0, 3,
};
static const uint16_t order[] = {4, 1, 3, 7, 8, 9, 0, 0, 3};
static const uint16_t trace[] = {10, 256, 1, 0, 2, 0, 3, 0, 4, 0, 0, 0, 0, 0, 0, 0, 0, 0, 0, 0, 0};
static const uint16_t plan[] = {1, 2, 3, 4};

/* Where the value of row 2 stands, `6 2`. With 0 it does not rise above the row before it, `5 0`. */
static const size_t falling_value = 4 + 28 + 2;
/* One step: action 4, which needs atom 2; a release of the goal, which wants atom 3; action 1, which is not relevant. */
static const uint16_t unready[] = {1, 4, 0};
static const uint16_t early_release[] = {1, 0, 0};
static const uint16_t irrelevant[] = {1, 1, 0};
/* Without its last step. */
static const uint16_t shorter[] = {9, 256, 1, 0, 2, 0, 3, 0, 4, 0, 0, 0, 0, 0, 0, 0, 0, 0, 0};
/* The goal wants an atom that the shop does not have. */
static const uint16_t foreign_atom[] = {4, 1, 3, 7, 8, 9, 0, 0, 4};

static uint16_t room[KEPT + ROOM + KEPT];
static uint32_t answer[KEPT + HGN_REPLAY_ANSWER + KEPT];
static uint8_t atoms[KEPT + HGN_ATOMS + KEPT];

static void fresh(void) {
    for (size_t i = 0; i < sizeof room / sizeof room[0]; i++)
        room[i] = WORD;
    for (size_t i = 0; i < sizeof answer / sizeof answer[0]; i++)
        answer[i] = WORD;
    memset(atoms, BYTE, sizeof atoms);
}

static void fail(const char *name, const char *what, size_t at) {
    printf("capi: %s: %s differs at %zu\n", name, what, at);
    exit(1);
}

/* The answer is these words, and nothing beside it is written. */
static void same_answer(const char *name, const uint32_t *wanted, size_t count) {
    for (size_t i = 0; i < sizeof answer / sizeof answer[0]; i++)
        if (answer[i] != (KEPT <= i && i - KEPT < count ? wanted[i - KEPT] : WORD))
            fail(name, "the answer", i);
}

/* The room holds these words first; later words, and those beside it, are unchanged. */
static void same_room(const char *name, const uint16_t *wanted, size_t count) {
    for (size_t i = 0; i < sizeof room / sizeof room[0]; i++)
        if (room[i] != (KEPT <= i && i - KEPT < count ? wanted[i - KEPT] : WORD))
            fail(name, "the room", i);
}

/* The atoms from `first` to before `end` are in, no other, and nothing beside the atoms is written. */
static void same_atoms(const char *name, size_t first, size_t end) {
    for (size_t i = 0; i < sizeof atoms / sizeof atoms[0]; i++) {
        int outside = i < KEPT || KEPT + HGN_ATOMS <= i;
        if (atoms[i] != (outside ? BYTE : KEPT + first <= i && i < KEPT + end))
            fail(name, "the atoms", i);
    }
}

static void same_verdict(const char *name, uint32_t number, uint32_t place) {
    const uint32_t wanted[] = {number, place};
    same_answer(name, wanted, HGN_CHECK_ANSWER);
}

static void checks(void) {
    uint16_t bad[sizeof shop / sizeof shop[0]];
    memcpy(bad, shop, sizeof shop);
    bad[falling_value] = 0;

    fresh();
    hgn_check_shop(SHEET(shop), answer + KEPT);
    same_verdict("the shop", 0, 0);
    fresh();
    hgn_check_shop(SHEET(bad), answer + KEPT);
    same_verdict("a row that does not rise", 6, 2);
    fresh();
    hgn_check_shop(shop, 0, answer + KEPT);
    same_verdict("an empty shop", 1, 0);

    fresh();
    hgn_check_order(SHEET(shop), SHEET(order), answer + KEPT);
    same_verdict("the order", 0, 0);
    fresh();
    hgn_check_order(SHEET(shop), SHEET(foreign_atom), answer + KEPT);
    same_verdict("an atom that the shop does not have", 15, 2);

    fresh();
    hgn_check_trace(SHEET(shop), SHEET(order), SHEET(trace), answer + KEPT);
    same_verdict("the trace", 0, 0);
    fresh();
    hgn_check_trace(SHEET(shop), SHEET(order), trace, 20, answer + KEPT);
    same_verdict("a trace one word short", 23, 0);
}

/* The replay of these steps with so many words of room. */
static void replayed(const uint16_t *steps, size_t count, size_t words) {
    fresh();
    hgn_replay(SHEET(shop), SHEET(order), steps, count, room + KEPT, words, answer + KEPT, atoms + KEPT);
}

static void replays(void) {
    const uint32_t accepted[HGN_REPLAY_ANSWER] = {0, 10, 4, 26, HGN_NO_ATOM};
    const uint32_t unfinished[HGN_REPLAY_ANSWER] = {33, 9, 0, 0, HGN_NO_ATOM};
    const uint32_t no_room[HGN_REPLAY_ANSWER] = {24, 0, 0, 0, HGN_NO_ATOM};

    replayed(SHEET(trace), ROOM);
    same_answer("the replay", accepted, HGN_REPLAY_ANSWER);
    same_room("the replay", SHEET(plan));
    same_atoms("the replay", 1, 4);

    replayed(SHEET(trace), 10);
    same_answer("a room of L words", accepted, HGN_REPLAY_ANSWER);
    same_room("a room of L words", SHEET(plan));

    replayed(SHEET(trace), 9);
    same_answer("a room one word short", no_room, HGN_REPLAY_ANSWER);
    same_room("a room one word short", plan, 0);
    same_atoms("a room one word short", 0, 0);

    replayed(SHEET(shorter), ROOM);
    same_answer("a trace without its last step", unfinished, HGN_REPLAY_ANSWER);
    same_room("a trace without its last step", plan, 0);
    same_atoms("a trace without its last step", 0, 0);
}

/* The replay of these steps is refused with this answer. */
static void refused(const char *name, const uint16_t *steps, size_t count, const uint32_t *wanted) {
    replayed(steps, count, ROOM);
    same_answer(name, wanted, HGN_REPLAY_ANSWER);
    same_room(name, plan, 0);
    same_atoms(name, 0, 0);
}

/* Which atom a refused replay names. */
static void unmet(void) {
    const uint32_t need[HGN_REPLAY_ANSWER] = {30, 0, 0, 0, 2};
    const uint32_t goal[HGN_REPLAY_ANSWER] = {29, 0, 0, 0, 3};
    const uint32_t none[HGN_REPLAY_ANSWER] = {31, 0, 0, 0, HGN_NO_ATOM};
    const uint32_t no_shop[HGN_REPLAY_ANSWER] = {1, 0, 0, 0, HGN_NO_ATOM};

    refused("a need that does not hold", SHEET(unready), need);
    refused("a goal that does not hold", SHEET(early_release), goal);
    refused("an action that is not relevant", SHEET(irrelevant), none);

    fresh();
    hgn_replay(shop, 0, SHEET(order), SHEET(trace), room + KEPT, ROOM, answer + KEPT, atoms + KEPT);
    same_answer("a replay of an empty shop", no_shop, HGN_REPLAY_ANSWER);
    same_room("a replay of an empty shop", plan, 0);
    same_atoms("a replay of an empty shop", 0, 0);
}

/* The search of this depth with so many words of room. */
static void searched(uint32_t depth, size_t words) {
    fresh();
    hgn_search(SHEET(shop), SHEET(order), depth, room + KEPT, words, answer + KEPT);
}

static void searches(void) {
    searched(10, ROOM);
    same_verdict("the search", 0, 10);
    same_room("the search", SHEET(trace));

    searched(10, 21);
    same_verdict("a search in a room of 1 + 2D words", 0, 10);
    same_room("a search in a room of 1 + 2D words", SHEET(trace));

    searched(10, 20);
    same_verdict("a search in a room one word short", 42, 0);
    same_room("a search in a room one word short", trace, 0);

    searched(9, ROOM);
    same_verdict("a search of depth 9", 43, 0);
    same_room("a search of depth 9", trace, 0);

    searched(33, ROOM);
    same_verdict("a search of depth 33", 41, 0);
    same_room("a search of depth 33", trace, 0);

    searched(65536, ROOM);
    same_verdict("a search of depth 65536", 41, 0);
    same_room("a search of depth 65536", trace, 0);

    searched(UINT32_MAX, ROOM);
    same_verdict("a search of depth UINT32_MAX", 41, 0);
    same_room("a search of depth UINT32_MAX", trace, 0);
}

/* The order joined with itself: its second goal comes after its first. */
static const uint16_t twice[] = {4, 2, 7, 7, 8, 9, 7, 11, 8, 9, 0, 0, 3, 0, 0, 0, 3};
/* The trace, then the release of the second goal, which holds already. */
static const uint16_t twice_trace[] = {11, 256, 1, 0, 2, 0, 3, 0, 4, 0, 0, 0, 0, 0, 0, 0, 0, 0, 0, 0, 0, 0, 0};
/* Three times: the third goal comes after both others. */
static const uint16_t thrice[] = {4, 3, 12, 7, 8, 9, 7, 11, 8, 9, 7, 11, 11, 8, 9, 0, 0, 3, 0, 0, 0, 3, 0, 0, 1, 0, 3};
/* Start rows 12 0 and 12 2 before the goal, in the second order, then in the first. */
static const uint16_t started[] = {4, 1, 5, 12, 12, 7, 8, 9, 0, 2, 0, 0, 3};
static const uint16_t started_twice[] = {4, 2, 9, 12, 12, 7, 8, 9, 7, 11, 8, 9, 0, 2, 0, 0, 3, 0, 0, 0, 3};

/* The join of these orders with so many words of room. */
static void joined(const uint16_t *first, size_t first_words, const uint16_t *second, size_t second_words, size_t words) {
    fresh();
    hgn_join(SHEET(shop), first, first_words, second, second_words, room + KEPT, words, answer + KEPT);
}

/* The last join wrote this sheet and nothing behind it. */
static void is_joined(const char *name, const uint16_t *sheet, size_t words) {
    same_verdict(name, 0, 0);
    same_room(name, sheet, words);
}

/* The last join is refused so, and wrote nothing. */
static void not_joined(const char *name, uint32_t number, uint32_t place) {
    same_verdict(name, number, place);
    same_room(name, twice, 0);
}

static void joins(void) {
    joined(SHEET(order), SHEET(order), ROOM);
    is_joined("an order joined with itself", SHEET(twice));
    joined(SHEET(order), SHEET(order), 17);
    is_joined("a join in a room of 3 + 2N words", SHEET(twice));
    joined(SHEET(order), SHEET(twice), ROOM);
    is_joined("an 11 row of the second order", SHEET(thrice));
    joined(SHEET(twice), SHEET(order), ROOM);
    is_joined("an 11 row of the first order", SHEET(thrice));
    joined(SHEET(order), SHEET(started), ROOM);
    is_joined("start rows of the second order", SHEET(twice));
    joined(SHEET(started), SHEET(order), ROOM);
    is_joined("start rows of the first order", SHEET(started_twice));
    joined(SHEET(order), SHEET(order), 16);
    not_joined("a join in a room one word short", 83, 0);
    joined(SHEET(order), SHEET(order), 0);
    not_joined("a join in no room", 83, 0);
    joined(SHEET(foreign_atom), order, 0, ROOM);
    not_joined("two orders that are refused", 15, 2);
    joined(SHEET(order), SHEET(foreign_atom), ROOM);
    not_joined("a second order that is refused", 15, 2);
    joined(SHEET(order), order, 0, ROOM);
    not_joined("an empty second order", 11, 0);
    fresh();
    hgn_join(shop, 0, SHEET(order), SHEET(order), room + KEPT, ROOM, answer + KEPT);
    not_joined("a join with an empty shop", 1, 0);
}

/* The trace of both goals is accepted on the sheet that a join wrote. */
static void joined_replay(void) {
    const uint32_t accepted[HGN_REPLAY_ANSWER] = {0, 11, 4, 26, HGN_NO_ATOM};
    uint16_t sheet[sizeof twice / sizeof twice[0]];

    joined(SHEET(order), SHEET(order), ROOM);
    memcpy(sheet, room + KEPT, sizeof sheet);
    fresh();
    hgn_replay(SHEET(shop), SHEET(sheet), SHEET(twice_trace), room + KEPT, ROOM, answer + KEPT, atoms + KEPT);
    same_answer("the replay of a joined order", accepted, HGN_REPLAY_ANSWER);
    same_room("the replay of a joined order", SHEET(plan));
    same_atoms("the replay of a joined order", 1, 4);
}

/* An order of so many goals without literals, one alternative each; the first has more alternatives, to make so many rows. */
static size_t plain_order(uint16_t *words, uint16_t goals, uint16_t rows) {
    uint16_t first_rows = rows - 2 * (goals - 1);
    memset(words, 0, HGN_MOST_ORDER_WORDS * sizeof words[0]);
    words[0] = 4;
    words[1] = goals;
    words[2] = rows;
    for (uint16_t i = 0; i < rows; i++)
        words[3 + i] = i == 0 || (first_rows <= i && (i - first_rows) % 2 == 0) ? 7 : 8;
    return 3 + 2 * (size_t)rows;
}

/* Joins at the limits on goals and rows. */
static void largest_joins(void) {
    static uint16_t large[HGN_MOST_ORDER_WORDS];
    static uint16_t wanted[HGN_MOST_ORDER_WORDS];
    size_t words = plain_order(large, 64, 128);
    joined(large, words, SHEET(order), ROOM);
    not_joined("64 goals and one", 81, 0);
    words = plain_order(large, 33, 66);
    joined(large, words, large, words, 0);
    not_joined("66 goals and no room", 81, 0);

    /* One 11 row comes in. */
    words = plain_order(large, 1, 3997);
    joined(large, words, SHEET(order), ROOM);
    not_joined("4,001 rows", 82, 0);

    words = plain_order(large, 1, 3996);
    memcpy(wanted, large, (3 + 3996) * sizeof wanted[0]);
    wanted[1] = 2;
    wanted[2] = 4000;
    memcpy(wanted + 3 + 3996, twice + 6, 4 * sizeof wanted[0]);
    wanted[HGN_MOST_ORDER_WORDS - 1] = 3;
    joined(large, words, SHEET(order), ROOM);
    is_joined("4,000 rows", wanted, HGN_MOST_ORDER_WORDS);
    joined(large, words, SHEET(order), ROOM - 1);
    not_joined("4,000 rows in a room one word short", 83, 0);
}

int main(void) {
    checks();
    replays();
    unmet();
    searches();
    joins();
    joined_replay();
    largest_joins();
    puts("capi: ok");
    return 0;
}
