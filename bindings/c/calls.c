/* Each call of include/gaplinte.h from C, with answers that documents 01 and 02 give: so that the declarations are those of
 * the library. Prints what differs, and exits with 1 if anything does. It is C++ too. */
#include <inttypes.h>
#include <stdio.h>
#include <string.h>

#include "gaplinte.h"

#define REFUSALS 16

static gaplinte_plan plan;
static int differences;

static void expect(int line, int64_t answer, int64_t expected) {
    if (answer == expected) return;
    printf("calls.c:%d: %" PRId64 " and not %" PRId64 "\n", line, answer, expected);
    differences++;
}

#define EXPECT(answer, expected) expect(__LINE__, answer, expected)
#define EXPECT_SAME(found, expected) EXPECT(memcmp(&(found), &(expected), sizeof(expected)), 0)

static void open_and_close(void) {
    EXPECT(gaplinte_open(&plan, 1, 4), 0);
    EXPECT(gaplinte_open(&plan, 2, 6), 1);
    EXPECT(gaplinte_open(&plan, 3, 8), 2);
    EXPECT(gaplinte_open(&plan, 4, 2), -GAPLINTE_NO_CANDIDATE);
    EXPECT(gaplinte_open(&plan, 4, 12), 3);
    EXPECT(gaplinte_open(&plan, 5, 65548), -GAPLINTE_PERIOD_OUT_OF_RANGE);
    EXPECT(gaplinte_open(&plan, 4, 12), -GAPLINTE_LINE_OPEN);
    EXPECT(gaplinte_open(&plan, 64, 12), -GAPLINTE_LINE_ABOVE_63);
    EXPECT(gaplinte_close(&plan, 3), 0);
    EXPECT(gaplinte_close(&plan, 3), -GAPLINTE_LINE_NOT_OPEN);
    EXPECT(gaplinte_close(&plan, UINT64_MAX), -GAPLINTE_LINE_ABOVE_63);
}

/* Line 3 is closed, so that round 12 is the first owned one after round 8. */
static void ask(void) {
    EXPECT(gaplinte_owner(&plan, 7), 2);
    EXPECT(gaplinte_owner(&plan, 10), GAPLINTE_IDLE_FROM + 2);
    EXPECT(gaplinte_owner(&plan, UINT64_MAX), 4);
}

/* Line 4 has period 12 and start 3: it owns rounds 3, 15, 27 .. 87, 99. */
static void turns(void) {
    EXPECT(gaplinte_turns(&plan, 4, 0, 99), 8);
    EXPECT(gaplinte_turns(&plan, 4, 0, 100), 9);
    EXPECT(gaplinte_turns(&plan, 4, 4, 11), 0);
    EXPECT(gaplinte_turns(&plan, 4, 4, 12), 1);
    EXPECT(gaplinte_turns(&plan, 4, 15, 0), 0);
    EXPECT(gaplinte_turns(&plan, 4, 15, 1), 1);
    EXPECT(gaplinte_turns(&plan, 3, 0, 100), -GAPLINTE_LINE_NOT_OPEN);
    EXPECT(gaplinte_turns(&plan, 3, 0, 0), -GAPLINTE_LINE_NOT_OPEN);
    EXPECT(gaplinte_turns(&plan, 64, 0, 100), -GAPLINTE_LINE_ABOVE_63);
}

/* 2^32 and 2^64 divided by 12 leave 4, and 2^64 divided by 6 too. So line 4 owns 2^32 + 11, 2^64 - 1 and 2^64 + 11, and
 * line 2 (period 6, start 1) owns 2^64 + 3. With rounds cut to 32 or 64 bits they would own others. */
static void turns_past_32_and_64_bits(void) {
    EXPECT(gaplinte_turns(&plan, 4, UINT64_C(4294967296), 11), 0);
    EXPECT(gaplinte_turns(&plan, 4, UINT64_C(4294967296), 12), 1);
    EXPECT(gaplinte_turns(&plan, 4, UINT64_MAX, 1), 1);
    EXPECT(gaplinte_turns(&plan, 4, UINT64_MAX, 12), 1);
    EXPECT(gaplinte_turns(&plan, 4, UINT64_MAX, 13), 2);
    EXPECT(gaplinte_turns(&plan, 2, UINT64_MAX, 4), 0);
    EXPECT(gaplinte_turns(&plan, 2, UINT64_MAX, 5), 1);
}

/* The plan has the path that show gives, and a line that is not open has none. */
static void show(void) {
    const gaplinte_row path[GAPLINTE_ROWS] = {{2, 1}, {3, 1}, {2, 0}}, no_path[GAPLINTE_ROWS] = {{0, 0}};
    gaplinte_shown shown, found;
    EXPECT(gaplinte_show(&plan, 4, &shown), 0);
    EXPECT(shown.period, 12);
    EXPECT(shown.start, 3);
    EXPECT(shown.path[1].weight, 3);
    EXPECT(shown.path[1].edge, 1);
    EXPECT_SAME(shown.path, path);
    EXPECT_SAME(plan.paths[4], path);
    EXPECT_SAME(plan.paths[3], no_path);
    found = shown;
    EXPECT(gaplinte_show(&plan, 3, &shown), -GAPLINTE_LINE_NOT_OPEN);
    EXPECT(gaplinte_show(&plan, 64, &shown), -GAPLINTE_LINE_ABOVE_63);
    EXPECT_SAME(shown, found);
}

static void walk(void) {
    gaplinte_place place = {7, 0};
    EXPECT(gaplinte_walk(&plan, &place), 2);
    EXPECT(gaplinte_walk(&plan, &place), 1);
    EXPECT(gaplinte_walk(&plan, &place), 64 + 3);
    EXPECT((int64_t)place.next, 10);
    EXPECT((int64_t)place.owned, 2);
    place.next = UINT64_MAX;
    EXPECT(gaplinte_walk(&plan, &place), -GAPLINTE_WALKER_AT_END);
    EXPECT(place.next == UINT64_MAX, 1);
    EXPECT((int64_t)place.owned, 2);
}

/* Every round is a turn. */
static void every_round(void) {
    memset(&plan, 0, sizeof plan);
    EXPECT(gaplinte_open(&plan, 63, 1), 0);
    EXPECT(gaplinte_turns(&plan, 63, 0, UINT32_MAX), UINT32_MAX);
    EXPECT(gaplinte_turns(&plan, 63, UINT64_MAX, UINT32_MAX), UINT32_MAX);
    EXPECT(gaplinte_turns(&plan, 63, UINT64_MAX, 0), 0);
    EXPECT(gaplinte_owner(&plan, UINT64_MAX), 63);
}

/* A trial that is not refused writes its three numbers, and the plan stays as found. */
static void expect_tried(int at, uint64_t line, uint64_t period, int start, int added, int split) {
    const gaplinte_plan found = plan;
    gaplinte_tried tried = {9999, 9999, 9999};
    expect(at, gaplinte_trial(&plan, line, period, &tried), 0);
    expect(at, tried.start, start);
    expect(at, tried.added, added);
    expect(at, tried.split, split);
    expect(at, memcmp(&plan, &found, sizeof found), 0);
}

/* A refused trial leaves the three numbers as found, and the plan too. */
static void expect_not_tried(int at, uint64_t line, uint64_t period, int refusal) {
    const gaplinte_plan found = plan;
    const gaplinte_tried lent = {9999, 9998, 9997};
    gaplinte_tried tried = lent;
    expect(at, gaplinte_trial(&plan, line, period, &tried), -refusal);
    expect(at, memcmp(&tried, &lent, sizeof lent), 0);
    expect(at, memcmp(&plan, &found, sizeof found), 0);
}

#define EXPECT_TRIED(line, period, start, added, split) expect_tried(__LINE__, line, period, start, added, split)
#define EXPECT_NOT_TRIED(line, period, refusal) expect_not_tried(__LINE__, line, period, refusal)

/* Marked case A, tried before each open. The 6 splits the root: of weight 4 it becomes one of weight 2, with a node of
 * weight 2 above the 4 and one of weight 3 above the 6. A 2 would split it too, and stand under the root itself. The 8
 * and the 12 add a node of weight 2 each. */
static void trials(void) {
    memset(&plan, 0, sizeof plan);
    EXPECT_TRIED(1, 4, 0, 1, 0);
    EXPECT(gaplinte_open(&plan, 1, 4), 0);
    EXPECT_TRIED(2, 4, 1, 0, 0);
    EXPECT_TRIED(2, 2, 1, 1, 1);
    EXPECT_TRIED(2, 6, 1, 2, 1);
    EXPECT(gaplinte_open(&plan, 2, 6), 1);
    EXPECT_TRIED(3, 8, 2, 1, 0);
    EXPECT(gaplinte_open(&plan, 3, 8), 2);
    EXPECT_NOT_TRIED(4, 2, GAPLINTE_NO_CANDIDATE);
    EXPECT_TRIED(4, 12, 3, 1, 0);
    EXPECT(gaplinte_open(&plan, 4, 12), 3);
}

/* Each refusal, the earlier one where two checks strike. Lines 1 to 4 are open, and no node is a candidate for 2. */
static void refused_trials(void) {
    EXPECT_NOT_TRIED(64, 12, GAPLINTE_LINE_ABOVE_63);
    EXPECT_NOT_TRIED(64, 0, GAPLINTE_LINE_ABOVE_63);
    EXPECT_NOT_TRIED(64, 2, GAPLINTE_LINE_ABOVE_63);
    EXPECT_NOT_TRIED(5, 0, GAPLINTE_PERIOD_OUT_OF_RANGE);
    EXPECT_NOT_TRIED(5, 4096, GAPLINTE_PERIOD_OUT_OF_RANGE);
    EXPECT_NOT_TRIED(4, 0, GAPLINTE_PERIOD_OUT_OF_RANGE);
    EXPECT_NOT_TRIED(4, 4096, GAPLINTE_PERIOD_OUT_OF_RANGE);
    EXPECT_NOT_TRIED(4, 12, GAPLINTE_LINE_OPEN);
    EXPECT_NOT_TRIED(4, 2, GAPLINTE_LINE_OPEN);
    EXPECT_NOT_TRIED(5, 2, GAPLINTE_NO_CANDIDATE);
}

/* Cut to 16 or 32 bits all but the largest would be lines 0 and 5, which are not open, and periods 12 and 4. */
static void trials_of_wide_numbers(void) {
    EXPECT_NOT_TRIED(UINT64_C(4294967296), 12, GAPLINTE_LINE_ABOVE_63);
    EXPECT_NOT_TRIED(UINT64_C(4294967296) + 5, 12, GAPLINTE_LINE_ABOVE_63);
    EXPECT_NOT_TRIED(65541, 12, GAPLINTE_LINE_ABOVE_63);
    EXPECT_NOT_TRIED(UINT64_MAX, 12, GAPLINTE_LINE_ABOVE_63);
    EXPECT_NOT_TRIED(5, 65548, GAPLINTE_PERIOD_OUT_OF_RANGE);
    EXPECT_NOT_TRIED(5, UINT64_C(4294967296) + 12, GAPLINTE_PERIOD_OUT_OF_RANGE);
    EXPECT_NOT_TRIED(5, UINT64_C(4294967296) + 4, GAPLINTE_PERIOD_OUT_OF_RANGE);
    EXPECT_NOT_TRIED(5, UINT64_MAX, GAPLINTE_PERIOD_OUT_OF_RANGE);
}

/* The round is idle and has this rest, or is owned where 0 is expected. The walker gives what owner gives, moves on by
 * the round and counts it where it is owned. */
static void expect_rest(int at, uint64_t round, int rest) {
    gaplinte_place place = {round, 70};
    int64_t owner = gaplinte_owner(&plan, round);
    expect(at, gaplinte_is_idle(owner), rest > 0);
    expect(at, gaplinte_rest(owner), rest);
    expect(at, gaplinte_walk(&plan, &place), owner);
    expect(at, (int64_t)(place.next - round), 1);
    expect(at, (int64_t)place.owned, rest > 0 ? 70 : 71);
}

#define EXPECT_REST(round, rest) expect_rest(__LINE__, round, rest)

/* Marked case A, as trials leaves it: of 24 rounds 5, 6, 9, 11, 14, 17, 21, 22 and 23 are idle, and the next owned ones
 * are 7, 10, 12, 15, 18 and 24. 2^64 divided by 24 leaves 16, so that 2^64 - 2 leaves 14. */
static void rests(void) {
    const int expected[24] = {0, 0, 0, 0, 0, 2, 1, 0, 0, 1, 0, 1, 0, 0, 1, 0, 0, 1, 0, 0, 0, 3, 2, 1};
    EXPECT(gaplinte_owner(&plan, 9), 65);
    for (unsigned round = 0; round < 48; round++) EXPECT_REST(round, expected[round % 24]);
    for (unsigned back = 0; back < 24; back++) EXPECT_REST(UINT64_MAX - 1 - back, expected[(38 - back) % 24]);
}

/* 2^12 divided by 4,095 leaves 1, so 2^64 leaves 16: the line owns 2^64 - 16, and then 2^64 + 4079. */
static void longest_rest(void) {
    memset(&plan, 0, sizeof plan);
    EXPECT(gaplinte_open(&plan, 1, GAPLINTE_LONGEST_PERIOD), 0);
    EXPECT_REST(0, 0);
    EXPECT_REST(1, GAPLINTE_LONGEST_REST);
    EXPECT_REST(4094, 1);
    EXPECT_REST(4095, 0);
    EXPECT_REST(UINT64_MAX - 15, 0);
    EXPECT_REST(UINT64_MAX - 14, 4094);
    EXPECT_REST(UINT64_MAX - 1, 4081);
    EXPECT(gaplinte_owner(&plan, 1), 4158);
    EXPECT(gaplinte_owner(&plan, UINT64_MAX), 64 + 4080);
}

/* The one plan whose rest is 0. */
static void rest_of_the_empty_plan(void) {
    gaplinte_place place = {7, 70};
    memset(&plan, 0, sizeof plan);
    EXPECT(gaplinte_owner(&plan, 0), GAPLINTE_IDLE_FROM);
    EXPECT(gaplinte_owner(&plan, UINT64_MAX), GAPLINTE_IDLE_FROM);
    EXPECT(gaplinte_walk(&plan, &place), GAPLINTE_IDLE_FROM);
    EXPECT((int64_t)place.next, 8);
    EXPECT((int64_t)place.owned, 70);
}

/* Lines and refusals are not idle and have no rest. */
static void rests_in_values(void) {
    const int64_t not_idle[] = {0, 1, 63, -1, -9, INT64_MIN};
    for (size_t which = 0; which < sizeof not_idle / sizeof *not_idle; which++) {
        EXPECT(gaplinte_is_idle(not_idle[which]), 0);
        EXPECT(gaplinte_rest(not_idle[which]), 0);
    }
    for (int rest = 0; rest <= GAPLINTE_LONGEST_REST; rest++) {
        EXPECT(gaplinte_is_idle(64 + rest), 1);
        EXPECT(gaplinte_rest(64 + rest), rest);
    }
}

/* A sheet has these figures, and they add up. All 65 numbers are written, none behind them is, and the plan stays as
 * found. */
static void expect_sheet(int at, uint64_t first, uint16_t rounds, const gaplinte_figures *expected) {
    const gaplinte_plan found = plan;
    gaplinte_figures lent[2];
    memset(lent, 0xee, sizeof lent);
    expect(at, gaplinte_sheet(&plan, first, rounds, lent), 0);
    for (int line = 0; line < GAPLINTE_LINES; line++) expect(at, lent[0].turns[line], expected->turns[line]);
    expect(at, lent[0].idle, expected->idle);
    expect(at, gaplinte_sheet_total(lent), rounds);
    expect(at, lent[1].turns[0], 0xeeee);
    expect(at, memcmp(&plan, &found, sizeof found), 0);
}

/* A sheet of a plan without open lines. */
static void expect_all_idle(int at) {
    const uint16_t counts[] = {0, 1, 7, UINT16_MAX};
    for (size_t which = 0; which < sizeof counts / sizeof *counts; which++) {
        const gaplinte_figures idle = {{0}, counts[which]};
        expect_sheet(at, 0, counts[which], &idle);
        expect_sheet(at, UINT64_MAX, counts[which], &idle);
    }
}

/* The turns of a line as gaplinte_turns gives them, 0 for a closed one. */
static int64_t turns_or_0(uint64_t line, uint64_t first, uint16_t rounds) {
    int64_t answer = gaplinte_turns(&plan, line, first, rounds);
    return answer == -GAPLINTE_LINE_NOT_OPEN ? 0 : answer;
}

/* A sheet of rounds below 2^64 has what gaplinte_owner counts round by round, and the turns of gaplinte_turns. */
static void expect_counted(int at, uint64_t first, uint16_t rounds) {
    gaplinte_figures counted = {{0}, 0};
    for (unsigned after = 0; after < rounds; after++) {
        int64_t owner = gaplinte_owner(&plan, first + after);
        if (gaplinte_is_idle(owner))
            counted.idle++;
        else
            counted.turns[owner]++;
    }
    for (unsigned line = 0; line < GAPLINTE_LINES; line++)
        expect(at, counted.turns[line], turns_or_0(line, first, rounds));
    expect_sheet(at, first, rounds, &counted);
}

#define EXPECT_SHEET(first, rounds, expected) expect_sheet(__LINE__, first, rounds, &(expected))
#define EXPECT_ALL_IDLE() expect_all_idle(__LINE__)
#define EXPECT_COUNTED(first, rounds) expect_counted(__LINE__, first, rounds)

/* Marked case A, with lines 1 to 4 open. Of 24 rounds line 1 owns 0, 4 .. 20, line 2 owns 1, 7, 13 and 19, line 3 owns
 * 2, 10 and 18, and line 4 owns 3 and 15; 9 are idle. Of the rounds 5 to 11 line 2 owns 7, line 1 owns 8 and line 3
 * owns 10. */
static void sheets(void) {
    const gaplinte_figures none = {{0}, 0}, of_24 = {{0, 6, 4, 3, 2}, 9}, from_5 = {{0, 1, 1, 1}, 4};
    memset(&plan, 0, sizeof plan);
    EXPECT(gaplinte_open(&plan, 1, 4), 0);
    EXPECT(gaplinte_open(&plan, 2, 6), 1);
    EXPECT(gaplinte_open(&plan, 3, 8), 2);
    EXPECT(gaplinte_open(&plan, 4, 12), 3);
    EXPECT_SHEET(0, 0, none);
    EXPECT_SHEET(0, 24, of_24);
    EXPECT_SHEET(5, 7, from_5);
}

/* The same plan. 2^64 - 1 leaves 15 when it is divided by 24: it is line 4's, and 2^64, 2^64 + 2, 2^64 + 3, 2^64 + 4 and 2^64 + 8 are
 * those of lines 1, 3, 2, 1 and 1. 65,535 is 24 * 2730 + 15; of the last 15 rounds, which leave 15 to 23 and 0 to 5,
 * the lines own 4, 2, 2 and 2. */
static void sheets_past_64_bits(void) {
    const gaplinte_figures none = {{0}, 0}, of_10 = {{0, 3, 1, 1, 1}, 4};
    const gaplinte_figures of_most = {{0, 16384, 10922, 8192, 5462}, 24575};
    EXPECT_SHEET(UINT64_MAX, 0, none);
    EXPECT_SHEET(UINT64_MAX, 10, of_10);
    EXPECT_SHEET(UINT64_MAX, UINT16_MAX, of_most);
}

/* Case A with a 2 that is refused; then line 3 is closed twice, opened with a 24, and all lines are closed. */
static void sheets_after_each_order(void) {
    const uint8_t orders[][GAPLINTE_ORDER_BYTES] = {
        {0x01, 0x00, 0x40}, {0x02, 0x00, 0x60}, {0x03, 0x00, 0x80}, {0x04, 0x00, 0x20},
        {0x04, 0x00, 0xc0}, {0x43, 0x00, 0x00}, {0x43, 0x00, 0x00}, {0x03, 0x01, 0x80},
        {0x41, 0x00, 0x00}, {0x42, 0x00, 0x00}, {0x43, 0x00, 0x00}, {0x44, 0x00, 0x00},
    };
    uint8_t answer[GAPLINTE_ANSWER_BYTES];
    memset(&plan, 0, sizeof plan);
    for (size_t which = 0; which < sizeof orders / sizeof *orders; which++) {
        EXPECT(gaplinte_run_list(&plan, orders[which], sizeof *orders, answer, sizeof answer), 0);
        EXPECT_COUNTED(which, 100);
        EXPECT_COUNTED(UINT64_MAX - 99, 100);
    }
    EXPECT_ALL_IDLE();
}

/* Every round is a turn. */
static void sheets_of_the_shortest_period(void) {
    gaplinte_figures every = {{0}, 0};
    every.turns[63] = UINT16_MAX;
    memset(&plan, 0, sizeof plan);
    EXPECT(gaplinte_open(&plan, 63, 1), 0);
    EXPECT_SHEET(0, UINT16_MAX, every);
    EXPECT_SHEET(UINT64_MAX, UINT16_MAX, every);
}

/* The line owns 2^64 - 16, and then 2^64 + 4079. 65,535 is 4095 * 16 + 15: of the most rounds 17 are turns where the
 * first one is, and 16 where it is the one after a turn. */
static void sheets_of_the_longest_period(void) {
    const gaplinte_figures from_a_turn = {{17}, 65518}, after_a_turn = {{16}, 65519};
    memset(&plan, 0, sizeof plan);
    EXPECT(gaplinte_open(&plan, 0, GAPLINTE_LONGEST_PERIOD), 0);
    EXPECT_SHEET(0, UINT16_MAX, from_a_turn);
    EXPECT_SHEET(1, UINT16_MAX, after_a_turn);
    EXPECT_SHEET(UINT64_MAX - 15, UINT16_MAX, from_a_turn);
    EXPECT_SHEET(UINT64_MAX - 14, UINT16_MAX, after_a_turn);
}

/* No plan has such figures, and 32 bits still hold their total. */
static void largest_total(void) {
    gaplinte_figures figures;
    memset(&figures, 0xff, sizeof figures);
    EXPECT(gaplinte_sheet_total(&figures), 65 * 65535);
}

/* 63 lines of period 128 under one node. The 64 splits it: its weight becomes 64, and 63 edges lead to a new node of
 * weight 2. The 192 does that too, and adds a node of weight 3 above itself. For the 32 no class is free. */
static void trials_in_a_full_plan(void) {
    memset(&plan, 0, sizeof plan);
    for (int line = 0; line < 63; line++) EXPECT(gaplinte_open(&plan, (uint64_t)line, 128), line);
    EXPECT_TRIED(63, 128, 63, 0, 0);
    EXPECT_TRIED(63, 64, 63, 63, 1);
    EXPECT_TRIED(63, 192, 63, 64, 1);
    EXPECT_NOT_TRIED(63, 32, GAPLINTE_NO_CANDIDATE);
    EXPECT(gaplinte_open(&plan, 63, 192), 63);
    EXPECT_NOT_TRIED(63, 192, GAPLINTE_LINE_OPEN);
}

/* The same plan: of 384 rounds lines 0 to 62 own 3 each, and line 63 owns 2. */
static void sheet_of_a_full_plan(void) {
    gaplinte_figures expected = {{0}, 384 - 63 * 3 - 2};
    for (int line = 0; line < 63; line++) expected.turns[line] = 3;
    expected.turns[63] = 2;
    EXPECT_SHEET(0, 384, expected);
}

/* The root gets weight 4, and each 8 a node of weight 2 below it. When line 4 is opened the root is full, and the nodes
 * offer 5, 6 and 7. Then the root offers 3, and the nodes above lines 4 and 2 offer 1 and 6. */
static void earliest_start(void) {
    memset(&plan, 0, sizeof plan);
    EXPECT(gaplinte_open(&plan, 0, 4), 0);
    EXPECT(gaplinte_open(&plan, 1, 8), 1);
    EXPECT(gaplinte_open(&plan, 2, 8), 2);
    EXPECT(gaplinte_open(&plan, 3, 8), 3);
    EXPECT(gaplinte_open(&plan, 4, 8), 5);
    EXPECT(gaplinte_close(&plan, 1), 0);
    EXPECT(gaplinte_close(&plan, 3), 0);
    EXPECT_TRIED(5, 8, 1, 0, 0);
    EXPECT(gaplinte_open(&plan, 5, 8), 1);
    EXPECT_TRIED(6, 8, 3, 1, 0);
    EXPECT(gaplinte_open(&plan, 6, 8), 3);
    EXPECT_TRIED(7, 8, 6, 0, 0);
    EXPECT(gaplinte_open(&plan, 7, 8), 6);
}

/* What the call answers at a class of a node. It leaves the plan as found, refused or not. */
static void expect_reason(int at, uint64_t period, uint64_t level, uint64_t offset, uint64_t edge_class,
                          int64_t expected) {
    const gaplinte_plan found = plan;
    int64_t reason = gaplinte_reason(&plan, period, level, offset, edge_class);
    expect(at, reason, expected);
    expect(at, gaplinte_step_does_not_divide(reason), expected == GAPLINTE_STEP_DOES_NOT_DIVIDE);
    expect(at, memcmp(&plan, &found, sizeof found), 0);
}

#define EXPECT_REASON(period, level, offset, edge_class, expected) \
    expect_reason(__LINE__, period, level, offset, edge_class, expected)

/* Marked case A up to the 2, which is refused with 5. Root: weight 2. Level 1: at offset 0 a node of weight 2 above the
 * 4 and the node of the 8, at offset 1 one of weight 3 above the 6. Level 2: the node of the 8 has offset 2 and step 4,
 * which does not divide 2. */
static void reasons(void) {
    memset(&plan, 0, sizeof plan);
    EXPECT(gaplinte_open(&plan, 9, 4), 0);
    EXPECT(gaplinte_open(&plan, 2, 6), 1);
    EXPECT(gaplinte_open(&plan, 3, 8), 2);
    EXPECT(gaplinte_open(&plan, 1, 2), -GAPLINTE_NO_CANDIDATE);
    EXPECT_REASON(2, 0, 0, 0, 3);
    EXPECT_REASON(2, 0, 0, 1, 2);
    EXPECT_REASON(2, 1, 0, 0, 3);
    EXPECT_REASON(2, 1, 1, 0, 2);
    EXPECT_REASON(2, 2, 2, 0, GAPLINTE_STEP_DOES_NOT_DIVIDE);
    /* For the 8 the node above the 4 has a class for each edge, and that of the 8 has one free. */
    EXPECT_REASON(8, 1, 0, 0, 9);
    EXPECT_REASON(8, 1, 0, 1, 3);
    EXPECT_REASON(8, 2, 2, 0, 3);
    EXPECT_REASON(8, 2, 2, 1, -GAPLINTE_NO_LINE_IN_CLASS);
}

/* The same plan. Of two checks the earlier one gives the number, and the step comes before the class. */
static void refused_reasons(void) {
    EXPECT_REASON(0, 0, 0, 0, -GAPLINTE_PERIOD_OUT_OF_RANGE);
    EXPECT_REASON(4096, 0, 0, 0, -GAPLINTE_PERIOD_OUT_OF_RANGE);
    EXPECT_REASON(0, 3, 0, 0, -GAPLINTE_PERIOD_OUT_OF_RANGE);
    EXPECT_REASON(4096, 0, 0, 2, -GAPLINTE_PERIOD_OUT_OF_RANGE);
    EXPECT_REASON(2, 0, 1, 0, -GAPLINTE_NO_NODE);
    EXPECT_REASON(2, 1, 2, 0, -GAPLINTE_NO_NODE);
    EXPECT_REASON(2, 2, 0, 0, -GAPLINTE_NO_NODE);
    EXPECT_REASON(2, 3, 2, 0, -GAPLINTE_NO_NODE);
    EXPECT_REASON(3, 3, 2, 9, -GAPLINTE_NO_NODE);
    EXPECT_REASON(2, 0, 1, 2, -GAPLINTE_NO_NODE);
    EXPECT_REASON(2, 0, 0, 2, -GAPLINTE_NO_CLASS);
    EXPECT_REASON(2, 1, 0, 1, -GAPLINTE_NO_CLASS);
    EXPECT_REASON(3, 1, 0, 9, GAPLINTE_STEP_DOES_NOT_DIVIDE);
    EXPECT_REASON(6, 1, 1, 1, -GAPLINTE_NO_LINE_IN_CLASS);
    EXPECT_REASON(6, 1, 1, 3, -GAPLINTE_NO_CLASS);
}

/* The same plan. Cut to 16 or 32 bits all but the largest would be the period 2, level 0 or 1, offset 0 or 1, and class
 * 0 or 1. */
static void reasons_of_wide_numbers(void) {
    const uint64_t multiples[] = {65536, UINT64_C(4294967296)};
    for (size_t which = 0; which < sizeof multiples / sizeof *multiples; which++) {
        uint64_t wide = multiples[which];
        EXPECT_REASON(wide + 2, 0, 0, 0, -GAPLINTE_PERIOD_OUT_OF_RANGE);
        EXPECT_REASON(2, wide, 0, 0, -GAPLINTE_NO_NODE);
        EXPECT_REASON(2, wide + 1, 0, 0, -GAPLINTE_NO_NODE);
        EXPECT_REASON(2, 0, wide, 0, -GAPLINTE_NO_NODE);
        EXPECT_REASON(2, 1, wide + 1, 0, -GAPLINTE_NO_NODE);
        EXPECT_REASON(2, 0, 0, wide, -GAPLINTE_NO_CLASS);
        EXPECT_REASON(2, 0, 0, wide + 1, -GAPLINTE_NO_CLASS);
    }
    EXPECT_REASON(UINT64_MAX, 0, 0, 0, -GAPLINTE_PERIOD_OUT_OF_RANGE);
    EXPECT_REASON(2, UINT64_MAX, 0, 0, -GAPLINTE_NO_NODE);
    EXPECT_REASON(2, 0, UINT64_MAX, 0, -GAPLINTE_NO_NODE);
    EXPECT_REASON(2, 0, 0, UINT64_MAX, -GAPLINTE_NO_CLASS);
    EXPECT_REASON(2, 2, 2, UINT64_MAX, GAPLINTE_STEP_DOES_NOT_DIVIDE);
}

/* The same plan, in which class 1 of the root becomes free: its only line is closed, and the node above it is gone. */
static void reason_taken_away(void) {
    EXPECT(gaplinte_close(&plan, 3), 0);
    EXPECT_REASON(2, 0, 0, 0, 9);
    EXPECT(gaplinte_open(&plan, 1, 2), -GAPLINTE_NO_CANDIDATE);
    EXPECT(gaplinte_close(&plan, 2), 0);
    EXPECT_REASON(2, 0, 0, 1, -GAPLINTE_NO_LINE_IN_CLASS);
    EXPECT_REASON(2, 1, 1, 0, -GAPLINTE_NO_NODE);
    EXPECT(gaplinte_open(&plan, 1, 2), 1);
    EXPECT_REASON(2, 0, 0, 1, 1);
}

/* No node is in an empty plan, and under the root of weight 1 stands a line. */
static void reasons_in_the_smallest_plans(void) {
    memset(&plan, 0, sizeof plan);
    EXPECT_REASON(1, 0, 0, 0, -GAPLINTE_NO_NODE);
    EXPECT_REASON(0, 0, 0, 0, -GAPLINTE_PERIOD_OUT_OF_RANGE);
    EXPECT(gaplinte_open(&plan, 63, 1), 0);
    EXPECT_REASON(1, 0, 0, 0, 63);
    EXPECT_REASON(GAPLINTE_LONGEST_PERIOD, 0, 0, 0, 63);
    EXPECT_REASON(1, 0, 0, 1, -GAPLINTE_NO_CLASS);
    EXPECT_REASON(1, 1, 0, 0, -GAPLINTE_NO_NODE);
}

/* Marked case F: the node at level 10 has offset 1,023 and step 1,024, and its edge 0 leads to the last line. */
static void reasons_in_a_deep_plan(void) {
    memset(&plan, 0, sizeof plan);
    for (unsigned power = 1; power <= 11; power++)
        EXPECT(gaplinte_open(&plan, power, 1u << power), (1 << (power - 1)) - 1);
    EXPECT_REASON(2048, 10, 1023, 0, 11);
    EXPECT_REASON(2048, 10, 1023, 1, -GAPLINTE_NO_LINE_IN_CLASS);
    EXPECT_REASON(1024, 10, 1023, 0, 11);
    EXPECT_REASON(512, 10, 1023, 0, GAPLINTE_STEP_DOES_NOT_DIVIDE);
    EXPECT_REASON(2048, 11, 1023, 0, -GAPLINTE_NO_NODE);
    EXPECT_REASON(2048, 10, 1022, 0, -GAPLINTE_NO_NODE);
    EXPECT_REASON(2, 0, 0, 1, 2);
}

/* The starts of the open lines, -1 for a closed one. */
static int starts[GAPLINTE_LINES];

static void show_starts(void) {
    gaplinte_shown shown;
    for (unsigned line = 0; line < GAPLINTE_LINES; line++)
        starts[line] = gaplinte_show(&plan, line, &shown) == 0 ? shown.start : -1;
}

/* The open line of lowest number that owns rounds which leave so much when they are divided by so much. */
static int64_t lowest_line(int divided_by, int left) {
    for (int line = 0; line < GAPLINTE_LINES; line++)
        if (starts[line] >= 0 && starts[line] % divided_by == left) return line;
    return -GAPLINTE_NO_LINE_IN_CLASS;
}

static int greatest_common_divisor(int a, int b) {
    return b == 0 ? a : greatest_common_divisor(b, a % b);
}

/* Whether a node of this step, offset and weight is a candidate. Each of its classes has the line that the starts
 * tell. */
static int expect_node(int at, int period, unsigned level, int step, int offset, int weight) {
    int classes, is_candidate = 0;
    uint64_t of_offset = (uint64_t)offset, of_period = (uint64_t)period;
    if (period % step != 0) {
        expect_reason(at, of_period, level, of_offset, 0, GAPLINTE_STEP_DOES_NOT_DIVIDE);
        return 0;
    }
    classes = greatest_common_divisor(weight, period / step);
    for (int i = 0; i < classes; i++) {
        int64_t expected = lowest_line(step * classes, offset + i * step);
        expect_reason(at, of_period, level, of_offset, (uint64_t)i, expected);
        if (expected < 0) is_candidate = 1;
    }
    expect_reason(at, of_period, level, of_offset, (uint64_t)classes, -GAPLINTE_NO_CLASS);
    return is_candidate;
}

/* Whether a node on a line's path is a candidate. */
static int expect_path(int at, int period, const gaplinte_row path[GAPLINTE_ROWS]) {
    int step = 1, offset = 0, is_candidate = 0;
    for (unsigned level = 0; level < GAPLINTE_ROWS && path[level].weight > 0; level++) {
        if (expect_node(at, period, level, step, offset, path[level].weight)) is_candidate = 1;
        offset += path[level].edge * step;
        step *= path[level].weight;
    }
    return is_candidate;
}

/* For each period: it is refused with 5 exactly where each class of each node has a reason. */
static void expect_explained(int at) {
    gaplinte_tried tried;
    show_starts();
    for (int period = 1; period <= 300; period++) {
        int is_candidate = 0;
        for (unsigned line = 0; line < GAPLINTE_LINES; line++)
            if (expect_path(at, period, plan.paths[line])) is_candidate = 1;
        expect(at, gaplinte_trial(&plan, 0, (uint64_t)period, &tried), is_candidate ? 0 : -GAPLINTE_NO_CANDIDATE);
    }
}

#define EXPECT_EXPLAINED() expect_explained(__LINE__)

/* Two plans in which some periods are refused with 5 and others are not. */
static void each_class_of_each_node(void) {
    memset(&plan, 0, sizeof plan);
    EXPECT(gaplinte_open(&plan, 63, 4), 0);
    EXPECT(gaplinte_open(&plan, 2, 6), 1);
    EXPECT(gaplinte_open(&plan, 1, 8), 2);
    EXPECT(gaplinte_open(&plan, 4, 12), 3);
    EXPECT_EXPLAINED();
    memset(&plan, 0, sizeof plan);
    EXPECT(gaplinte_open(&plan, 5, 60), 0);
    EXPECT(gaplinte_open(&plan, 4, 60), 1);
    EXPECT(gaplinte_open(&plan, 3, 90), 2);
    EXPECT(gaplinte_open(&plan, 2, 60), 3);
    EXPECT_EXPLAINED();
    EXPECT(gaplinte_close(&plan, 4), 0);
    EXPECT_EXPLAINED();
}

/* A buffer for an image: longer than any is. */
#define ROOM (GAPLINTE_IMAGE_BYTES + 7)

/* The plan has this image. It is written where the buffer has so many bytes or more, and the bytes behind it are left
 * alone. Of a shorter buffer no byte is written. The plan stays as found. */
static void expect_image(int at, const uint8_t *image, size_t length) {
    const gaplinte_plan found = plan;
    const size_t shorter[] = {0, length / 2, length - 1}, rooms[] = {length, length + 1, ROOM};
    uint8_t lent[ROOM], buffer[ROOM];
    memset(lent, 0xee, sizeof lent);
    for (size_t which = 0; which < sizeof shorter / sizeof *shorter; which++) {
        memcpy(buffer, lent, sizeof lent);
        expect(at, gaplinte_write_image(&plan, buffer, shorter[which]), -GAPLINTE_BUFFER_TOO_SHORT);
        expect(at, memcmp(buffer, lent, sizeof lent), 0);
    }
    for (size_t which = 0; which < sizeof rooms / sizeof *rooms; which++) {
        memcpy(buffer, lent, sizeof lent);
        expect(at, gaplinte_write_image(&plan, buffer, rooms[which]), (int64_t)length);
        expect(at, memcmp(buffer, image, length), 0);
        expect(at, memcmp(buffer + length, lent + length, sizeof lent - length), 0);
    }
    expect(at, memcmp(&plan, &found, sizeof found), 0);
}

/* Bytes that are no image leave the plan as found. */
static void expect_not_read(int at, const uint8_t *bytes, size_t length, int refusal) {
    const gaplinte_plan found = plan;
    expect(at, gaplinte_read_image(&plan, bytes, length), -refusal);
    expect(at, memcmp(&plan, &found, sizeof found), 0);
}

/* The plan has the image that it read. Cut short, or with a byte more, it is refused. */
static void expect_read(int at, const uint8_t *image, size_t length) {
    uint8_t longer[ROOM];
    memcpy(longer, image, length);
    longer[length] = 0;
    for (size_t shorter = 0; shorter < length; shorter++)
        expect_not_read(at, image, shorter, GAPLINTE_IMAGE_LENGTH);
    expect_not_read(at, longer, length + 1, GAPLINTE_IMAGE_LENGTH);
    expect(at, gaplinte_read_image(&plan, image, length), 0);
    expect(at, gaplinte_is_tree(&plan), 1);
    expect_image(at, image, length);
}

#define EXPECT_IMAGE(image) expect_image(__LINE__, image, sizeof image)
#define EXPECT_READ(image) expect_read(__LINE__, image, sizeof image)
#define EXPECT_NOT_READ(bytes, length, refusal) expect_not_read(__LINE__, bytes, length, refusal)

static const uint8_t no_lines[] = {0x00};

/* Marked case A. The paths have 2, 2, 3 and 3 rows: 7 + 4 * 10 + 10 * 24 bits are 287, and one more fills 36 bytes. */
static const uint8_t case_a[] = {0x08, 0x09, 0x00, 0x10, 0x00, 0x00, 0x10, 0x00, 0x04, 0x40, 0x04, 0x00,
                                 0x20, 0x06, 0x00, 0x01, 0x98, 0x01, 0x00, 0x00, 0x01, 0x00, 0x08, 0x01,
                                 0x00, 0x00, 0x86, 0x00, 0x40, 0x02, 0x00, 0x60, 0x02, 0x00, 0x40, 0x00};

/* Each image is read where a plan has other lines, or none. */
static void images(void) {
    gaplinte_plan booked;
    memset(&plan, 0, sizeof plan);
    EXPECT_IMAGE(no_lines);
    EXPECT(gaplinte_open(&plan, 1, 4), 0);
    EXPECT(gaplinte_open(&plan, 2, 6), 1);
    EXPECT(gaplinte_open(&plan, 3, 8), 2);
    EXPECT(gaplinte_open(&plan, 4, 12), 3);
    EXPECT_IMAGE(case_a);
    booked = plan;
    EXPECT_READ(case_a);
    EXPECT_SAME(plan, booked);
    EXPECT_READ(no_lines);
    EXPECT(gaplinte_open(&plan, 63, 7), 0);
    EXPECT_READ(case_a);
    EXPECT_SAME(plan, booked);
}

/* The plan that was read is booked further as the one that was written would be. */
static void bookings_go_on(void) {
    EXPECT(gaplinte_open(&plan, 4, 12), -GAPLINTE_LINE_OPEN);
    EXPECT(gaplinte_open(&plan, 5, 2), -GAPLINTE_NO_CANDIDATE);
    EXPECT(gaplinte_open(&plan, 5, 24), 5);
    EXPECT(gaplinte_close(&plan, 5), 0);
    EXPECT_IMAGE(case_a);
    EXPECT(gaplinte_owner(&plan, 7), 2);
    EXPECT(gaplinte_owner(&plan, 9), GAPLINTE_IDLE_FROM + 1);
    EXPECT(gaplinte_turns(&plan, 4, 0, 100), 9);
    for (unsigned line = 1; line <= 4; line++) EXPECT(gaplinte_close(&plan, line), 0);
    EXPECT_IMAGE(no_lines);
    EXPECT_READ(case_a);
}

/* A field of an image: its width in bits, and its number. */
typedef struct field {
    unsigned width;
    unsigned number;
} field;

#define COUNT(lines) {7, lines}
#define LINE(line, rows) {6, line}, {4, rows}
#define ROW(weight, edge) {12, weight}, {12, edge}

/* Fields one behind the other, each from its highest bit on, in bytes that are all 0. Gives how many bytes they are. */
static size_t put_fields(uint8_t *bytes, const field *fields, size_t count) {
    size_t place = 0;
    for (size_t which = 0; which < count; which++) {
        for (unsigned bit = fields[which].width; bit-- > 0; place++)
            if (fields[which].number >> bit & 1) bytes[place / 8] |= (uint8_t)(0x80 >> place % 8);
    }
    return (place + 7) / 8;
}

/* What reading these fields answers. The plan is as found, or has them as its image. */
static void expect_fields(int at, int64_t expected, const field *fields, size_t count) {
    uint8_t bytes[ROOM] = {0};
    size_t length = put_fields(bytes, fields, count);
    if (expected < 0)
        expect_not_read(at, bytes, length, (int)-expected);
    else
        expect_read(at, bytes, length);
}

#define EXPECT_FIELDS(expected, ...) \
    do { \
        const field fields[] = {__VA_ARGS__}; \
        expect_fields(__LINE__, expected, fields, sizeof fields / sizeof *fields); \
    } while (0)

/* The same plan. That a field is cut off comes before its range, and a field out of range before a later one that is
 * cut off. */
static void images_refused_field_by_field(void) {
    const uint8_t most_lines[] = {0x80}, one_line_more[] = {0x82};
    EXPECT_NOT_READ(no_lines, 0, GAPLINTE_IMAGE_LENGTH);
    EXPECT_NOT_READ(most_lines, 1, GAPLINTE_IMAGE_LENGTH);
    EXPECT_NOT_READ(one_line_more, 1, GAPLINTE_IMAGE_FIELD);
    EXPECT_FIELDS(-GAPLINTE_IMAGE_FIELD, COUNT(127));
    EXPECT_FIELDS(-GAPLINTE_IMAGE_LENGTH, COUNT(1));
    EXPECT_FIELDS(-GAPLINTE_IMAGE_FIELD, COUNT(1), LINE(5, 0));
    EXPECT_FIELDS(-GAPLINTE_IMAGE_LENGTH, COUNT(1), LINE(5, 11));
    EXPECT_FIELDS(-GAPLINTE_IMAGE_FIELD, COUNT(1), LINE(5, 12));
    EXPECT_FIELDS(-GAPLINTE_IMAGE_FIELD, COUNT(1), LINE(5, 2), {12, 0});
    EXPECT_FIELDS(-GAPLINTE_IMAGE_FIELD, COUNT(1), LINE(5, 1), ROW(0, 0));
    EXPECT_FIELDS(-GAPLINTE_IMAGE_FIELD, COUNT(1), LINE(5, 2), ROW(2, 1), ROW(0, 0));
    EXPECT_FIELDS(-GAPLINTE_IMAGE_LENGTH, COUNT(1), LINE(5, 2), ROW(2, 1));
    EXPECT_FIELDS(-GAPLINTE_IMAGE_LENGTH, COUNT(2), LINE(5, 1), ROW(2, 2));
}

/* The same plan. Bytes behind the last one come before a 1 behind the last field, and that comes before an illegal
 * tree. Behind the fields of case A one bit is left, and seven behind those of a line under one node. */
static void images_refused_for_their_end(void) {
    const uint8_t bit_set[] = {0x01}, bit_and_byte[] = {0x01, 0x00};
    const uint8_t byte_more[] = {0x00, 0x00}, last_bit_set[] = {0x00, 0x01};
    uint8_t bytes[sizeof case_a];
    memcpy(bytes, case_a, sizeof bytes);
    bytes[sizeof bytes - 1] |= 1;
    EXPECT_NOT_READ(bit_set, 1, GAPLINTE_IMAGE_FIELD);
    EXPECT_NOT_READ(bit_and_byte, 2, GAPLINTE_IMAGE_LENGTH);
    EXPECT_NOT_READ(byte_more, 2, GAPLINTE_IMAGE_LENGTH);
    EXPECT_NOT_READ(last_bit_set, 2, GAPLINTE_IMAGE_LENGTH);
    EXPECT_NOT_READ(bytes, sizeof bytes, GAPLINTE_IMAGE_FIELD);
    EXPECT_NOT_READ(bytes, sizeof bytes - 1, GAPLINTE_IMAGE_LENGTH);
    EXPECT_FIELDS(-GAPLINTE_IMAGE_LENGTH, COUNT(1), LINE(5, 1), ROW(2, 1), {7, 1}, {8, 0});
    for (unsigned bit = 0; bit < 7; bit++)
        EXPECT_FIELDS(-GAPLINTE_IMAGE_FIELD, COUNT(1), LINE(5, 1), ROW(2, 1), {7, 1u << bit});
    EXPECT_FIELDS(-GAPLINTE_IMAGE_LENGTH, COUNT(1), LINE(5, 1), ROW(2, 2), {7, 0}, {8, 0});
}

/* The same plan. Each field is in range, and nothing follows the last one. */
static void images_of_no_legal_tree(void) {
    EXPECT_FIELDS(-GAPLINTE_IMAGE_FIELD, COUNT(1), LINE(5, 1), ROW(2, 2));
    EXPECT_FIELDS(-GAPLINTE_IMAGE_FIELD, COUNT(1), LINE(5, 1), ROW(4095, 4095));
    EXPECT_FIELDS(-GAPLINTE_IMAGE_FIELD, COUNT(1), LINE(5, 2), ROW(2, 0), ROW(2048, 0));
    EXPECT_FIELDS(-GAPLINTE_IMAGE_FIELD, COUNT(1), LINE(5, 1), ROW(1, 1));
    EXPECT_FIELDS(-GAPLINTE_IMAGE_FIELD, COUNT(1), LINE(5, 2), ROW(1, 0), ROW(2, 0));
    EXPECT_FIELDS(-GAPLINTE_IMAGE_FIELD, COUNT(1), LINE(5, 2), ROW(2, 0), ROW(1, 0));
    EXPECT_FIELDS(-GAPLINTE_IMAGE_FIELD, COUNT(2), LINE(5, 1), ROW(1, 0), LINE(6, 1), ROW(1, 0));
    /* line numbers that do not rise */
    EXPECT_FIELDS(-GAPLINTE_IMAGE_FIELD, COUNT(2), LINE(6, 1), ROW(2, 0), LINE(5, 1), ROW(2, 1));
    EXPECT_FIELDS(-GAPLINTE_IMAGE_FIELD, COUNT(2), LINE(5, 1), ROW(2, 0), LINE(5, 1), ROW(2, 1));
    EXPECT_FIELDS(-GAPLINTE_IMAGE_FIELD, COUNT(2), LINE(5, 1), ROW(2, 0), LINE(5, 1), ROW(2, 0));
    /* a line on another's way, or at its place */
    EXPECT_FIELDS(-GAPLINTE_IMAGE_FIELD, COUNT(2), LINE(5, 1), ROW(2, 0), LINE(6, 2), ROW(2, 0), ROW(2, 1));
    EXPECT_FIELDS(-GAPLINTE_IMAGE_FIELD, COUNT(2), LINE(5, 2), ROW(2, 0), ROW(2, 1), LINE(6, 1), ROW(2, 0));
    EXPECT_FIELDS(-GAPLINTE_IMAGE_FIELD, COUNT(2), LINE(5, 1), ROW(2, 0), LINE(6, 1), ROW(2, 0));
    /* two weights at one place */
    EXPECT_FIELDS(-GAPLINTE_IMAGE_FIELD, COUNT(2), LINE(5, 1), ROW(2, 0), LINE(6, 1), ROW(3, 1));
    EXPECT_FIELDS(-GAPLINTE_IMAGE_FIELD, COUNT(2), LINE(5, 2), ROW(2, 0), ROW(2, 0), LINE(6, 2), ROW(2, 0), ROW(3, 1));
}

/* In one of them both edges of the root lead to nodes of one weight, which are joined no sooner than a line closes. */
static void images_of_legal_trees(void) {
    EXPECT_FIELDS(0, COUNT(1), LINE(63, 1), ROW(1, 0));
    EXPECT_FIELDS(0, COUNT(1), LINE(0, 1), ROW(4095, 4094));
    EXPECT_FIELDS(0, COUNT(1), LINE(5, 2), ROW(3, 2), ROW(1365, 1364));
    EXPECT_FIELDS(0, COUNT(2), LINE(5, 2), ROW(2, 0), ROW(2, 1), LINE(6, 2), ROW(2, 1), ROW(2, 0));
    EXPECT_FIELDS(0, COUNT(2), LINE(5, 1), ROW(2, 1), LINE(6, 2), ROW(2, 0), ROW(3, 2));
    /* Line 5 has period 6 and start 5. */
    EXPECT_FIELDS(0, COUNT(1), LINE(5, 2), ROW(2, 1), ROW(3, 2));
    EXPECT(gaplinte_open(&plan, 7, 2), 0);
    EXPECT(gaplinte_owner(&plan, 11), 5);
    EXPECT(gaplinte_owner(&plan, 12), 7);
}

/* The fields of the longest image: a number of lines, and for each a number, a length and 11 rows. */
#define MOST_FIELDS (1 + GAPLINTE_LINES * (2 + 2 * GAPLINTE_ROWS))

/* One more field. */
static void add(field *fields, size_t *count, unsigned width, unsigned number) {
    fields[*count].width = width;
    fields[*count].number = number;
    *count += 1;
}

/* 64 lines, each under 11 nodes of weight 2: its edges are the bits of its number, the least first, over and over. The
 * image is made of their fields. */
static void longest_image(void) {
    field fields[MOST_FIELDS] = {COUNT(GAPLINTE_LINES)};
    size_t count = 1;
    uint8_t image[GAPLINTE_IMAGE_BYTES] = {0};
    gaplinte_plan deep;
    for (unsigned line = 0; line < GAPLINTE_LINES; line++) {
        add(fields, &count, 6, line);
        add(fields, &count, 4, GAPLINTE_ROWS);
        for (unsigned level = 0; level < GAPLINTE_ROWS; level++) {
            const unsigned edge = line >> level % 6 & 1;
            add(fields, &count, 12, 2);
            add(fields, &count, 12, edge);
            plan.paths[line][level].weight = 2;
            plan.paths[line][level].edge = (uint16_t)edge;
        }
    }
    deep = plan;
    EXPECT((int64_t)put_fields(image, fields, count), GAPLINTE_IMAGE_BYTES);
    EXPECT(gaplinte_is_tree(&plan), 1);
    EXPECT_IMAGE(image);
    EXPECT_READ(image);
    EXPECT_SAME(plan, deep);
}

static void images_written_and_read(void) {
    images();
    bookings_go_on();
    images_refused_field_by_field();
    images_refused_for_their_end();
    images_of_no_legal_tree();
    images_of_legal_trees();
    longest_image();
}

/* The plans that are woven, and the one that they are woven to. */
static gaplinte_plan side_a, side_b, woven;

/* Weaves two plans, which stay as found. The third gets the woven plan, whatever it was, or stays as found where the
 * call is refused. */
static void expect_weave(int at, const gaplinte_plan *even, const gaplinte_plan *odd, int64_t expected) {
    const gaplinte_plan found_even = *even, found_odd = *odd;
    gaplinte_plan lents[3], first;
    memset(&lents[0], 0, sizeof *lents);
    memset(&lents[1], 0xee, sizeof *lents);
    lents[2] = *even;
    for (int which = 0; which < 3; which++) {
        woven = lents[which];
        expect(at, gaplinte_weave(even, odd, &woven), expected);
        if (which == 0) first = woven;
        expect(at, memcmp(&woven, expected < 0 ? &lents[which] : &first, sizeof woven), 0);
    }
    if (expected == 0) expect(at, gaplinte_is_tree(&woven), 1);
    expect(at, memcmp(even, &found_even, sizeof found_even), 0);
    expect(at, memcmp(odd, &found_odd, sizeof found_odd), 0);
}

#define EXPECT_WEAVE(even, odd, expected) expect_weave(__LINE__, even, odd, expected)

/* What show gives of a line of the woven plan. Its rows behind these are 0 and 0. */
static void expect_line(int at, uint64_t line, int period, int start, const gaplinte_row *rows, size_t count) {
    gaplinte_row path[GAPLINTE_ROWS] = {{0, 0}};
    gaplinte_shown shown;
    memcpy(path, rows, count * sizeof *rows);
    expect(at, gaplinte_show(&woven, line, &shown), 0);
    expect(at, shown.period, period);
    expect(at, shown.start, start);
    expect(at, memcmp(shown.path, path, sizeof path), 0);
}

#define EXPECT_LINE(line, period, start, ...) \
    do { \
        const gaplinte_row rows[] = {__VA_ARGS__}; \
        expect_line(__LINE__, line, period, start, rows, sizeof rows / sizeof *rows); \
    } while (0)

/* How many lines the woven plan has. */
static int woven_lines(void) {
    int count = 0;
    for (int line = 0; line < GAPLINTE_LINES; line++) count += woven.paths[line][0].weight > 0;
    return count;
}

/* The owner of round t is that of round t div 2 in one of the two plans, of small rounds and of the last ones. */
static void expect_sides(int at) {
    for (uint64_t round = 0; round < 200; round++) {
        const uint64_t rounds[] = {round, UINT64_MAX - round};
        for (size_t which = 0; which < 2; which++) {
            int64_t owner = gaplinte_owner(&woven, rounds[which]);
            int64_t of_side = gaplinte_owner(rounds[which] % 2 == 0 ? &side_a : &side_b, rounds[which] / 2);
            expect(at, gaplinte_is_idle(owner), gaplinte_is_idle(of_side));
            if (!gaplinte_is_idle(owner)) expect(at, owner, of_side);
        }
    }
}

#define EXPECT_SIDES() expect_sides(__LINE__)

/* A plan with so many lines from a first one on, all of one period. */
static void book_side(gaplinte_plan *side, uint64_t first, uint64_t period, int count) {
    memset(side, 0, sizeof *side);
    for (int which = 0; which < count; which++) EXPECT(gaplinte_open(side, first + (uint64_t)which, period), which);
}

/* Case A, and one node of weight 3 with its edge 2 free. */
static void two_sides(void) {
    memset(&side_a, 0, sizeof side_a);
    EXPECT(gaplinte_open(&side_a, 1, 4), 0);
    EXPECT(gaplinte_open(&side_a, 2, 6), 1);
    EXPECT(gaplinte_open(&side_a, 3, 8), 2);
    EXPECT(gaplinte_open(&side_a, 4, 12), 3);
    book_side(&side_b, 62, 3, 2);
    EXPECT_WEAVE(&side_a, &side_b, 0);
    EXPECT(woven_lines(), 6);
    EXPECT_LINE(1, 8, 0, {2, 0}, {2, 0}, {2, 0});
    EXPECT_LINE(2, 12, 2, {2, 0}, {2, 1}, {3, 0});
    EXPECT_LINE(3, 16, 4, {2, 0}, {2, 0}, {2, 1}, {2, 0});
    EXPECT_LINE(4, 24, 6, {2, 0}, {2, 1}, {3, 1}, {2, 0});
    EXPECT_LINE(62, 6, 1, {2, 1}, {3, 0});
    EXPECT_LINE(63, 6, 3, {2, 1}, {3, 1});
    EXPECT_SIDES();
}

/* The same plan. The 6 finds the free edge of the odd side, and the 12 the edge 2 of the node above lines 2 and 4, which
 * has step 4 and offset 2. When all odd lines are closed, the root is joined with the node that is left below it. */
static void bookings_of_a_woven_plan(void) {
    EXPECT(gaplinte_open(&woven, 62, 12), -GAPLINTE_LINE_OPEN);
    EXPECT(gaplinte_open(&woven, 5, 2), -GAPLINTE_NO_CANDIDATE);
    EXPECT(gaplinte_open(&woven, 5, 6), 5);
    EXPECT(gaplinte_open(&woven, 6, 12), 10);
    EXPECT_LINE(5, 6, 5, {2, 1}, {3, 2});
    EXPECT_LINE(6, 12, 10, {2, 0}, {2, 1}, {3, 2});
    EXPECT(gaplinte_close(&woven, 5), 0);
    EXPECT(gaplinte_close(&woven, 62), 0);
    EXPECT_LINE(63, 6, 3, {2, 1}, {3, 1});
    EXPECT(gaplinte_close(&woven, 63), 0);
    EXPECT_LINE(1, 8, 0, {4, 0}, {2, 0});
    EXPECT_LINE(6, 12, 10, {4, 2}, {3, 2});
}

/* The edge of a side without lines is absent, and where a root has weight 1, its line alone stands under the edge. The
 * longest period that can be doubled is 2,047. */
static void sides_without_nodes(void) {
    const gaplinte_plan empty = {{{{0, 0}}}};
    memset(&side_a, 0, sizeof side_a);
    memset(&side_b, 0, sizeof side_b);
    EXPECT_WEAVE(&side_a, &side_b, 0);
    EXPECT_SAME(woven, empty);
    EXPECT_WEAVE(&side_a, &side_a, 0);
    EXPECT_SAME(woven, empty);
    book_side(&side_a, 0, 1, 1);
    EXPECT_WEAVE(&side_a, &side_b, 0);
    EXPECT(woven_lines(), 1);
    EXPECT_LINE(0, 2, 0, {2, 0});
    EXPECT_SIDES();
    book_side(&side_b, 63, 1, 1);
    EXPECT_WEAVE(&side_a, &side_b, 0);
    EXPECT(woven_lines(), 2);
    EXPECT_LINE(0, 2, 0, {2, 0});
    EXPECT_LINE(63, 2, 1, {2, 1});
    EXPECT_SIDES();
    side_a = woven;
    book_side(&side_b, 7, 2047, 2);
    EXPECT_WEAVE(&side_a, &side_b, 0);
    EXPECT(woven_lines(), 4);
    EXPECT_LINE(0, 4, 0, {2, 0}, {2, 0});
    EXPECT_LINE(63, 4, 2, {2, 0}, {2, 1});
    EXPECT_LINE(7, 4094, 1, {2, 1}, {2047, 0});
    EXPECT_LINE(8, 4094, 3, {2, 1}, {2047, 1});
    EXPECT_SIDES();
}

/* From a line of every round to one of every 2,048th, which stands under eleven nodes. */
static void woven_eleven_times(void) {
    gaplinte_row rows[GAPLINTE_ROWS];
    memset(&side_a, 0, sizeof side_a);
    book_side(&side_b, 5, 1, 1);
    for (int times = 1; times <= GAPLINTE_ROWS; times++) {
        rows[times - 1].weight = 2;
        rows[times - 1].edge = 1;
        EXPECT_WEAVE(&side_a, &side_b, 0);
        expect_line(__LINE__, 5, 1 << times, (1 << times) - 1, rows, (size_t)times);
        side_b = woven;
    }
    EXPECT_WEAVE(&side_a, &side_b, -GAPLINTE_DOUBLED_PERIOD_OUT_OF_RANGE);
    EXPECT_WEAVE(&side_b, &side_a, -GAPLINTE_DOUBLED_PERIOD_OUT_OF_RANGE);
}

/* Each line once as the one that is open in both, which comes before the doubled period. */
static void refused_weaves(void) {
    for (uint64_t line = 0; line < GAPLINTE_LINES; line++) {
        book_side(&side_a, line < 3 ? 0 : line - 2, 7, 3);
        book_side(&side_b, line, 2048, 1);
        EXPECT_WEAVE(&side_a, &side_b, -GAPLINTE_OPEN_IN_BOTH);
        EXPECT_WEAVE(&side_b, &side_a, -GAPLINTE_OPEN_IN_BOTH);
        EXPECT_WEAVE(&side_a, &side_a, -GAPLINTE_OPEN_IN_BOTH);
        EXPECT_WEAVE(&side_b, &side_b, -GAPLINTE_OPEN_IN_BOTH);
        memset(&side_a, 0, sizeof side_a);
        EXPECT_WEAVE(&side_a, &side_b, -GAPLINTE_DOUBLED_PERIOD_OUT_OF_RANGE);
        EXPECT_WEAVE(&side_b, &side_a, -GAPLINTE_DOUBLED_PERIOD_OUT_OF_RANGE);
    }
}

/* A plan that is no tree is a side without lines, of which none is open and none has a period. */
static void damaged_sides(void) {
    const gaplinte_plan empty = {{{{0, 0}}}};
    book_side(&side_a, 5, 12, 1);
    side_b = side_a;
    side_b.paths[5][0].edge = 12;
    EXPECT_WEAVE(&side_a, &side_b, 0);
    EXPECT(woven_lines(), 1);
    EXPECT_LINE(5, 24, 0, {2, 0}, {12, 0});
    EXPECT_WEAVE(&side_b, &side_a, 0);
    EXPECT(woven_lines(), 1);
    EXPECT_LINE(5, 24, 1, {2, 1}, {12, 0});
    memset(&side_a, 0xff, sizeof side_a);
    EXPECT_WEAVE(&side_a, &side_b, 0);
    EXPECT_SAME(woven, empty);
    EXPECT_WEAVE(&side_b, &side_b, 0);
    EXPECT_SAME(woven, empty);
}

static void weaves(void) {
    two_sides();
    bookings_of_a_woven_plan();
    sides_without_nodes();
    woven_eleven_times();
    refused_weaves();
    damaged_sides();
}

/* Marked case I. */
static void list(void) {
    const uint8_t orders[] = {0x01, 0x00, 0x60, 0x02, 0x00, 0x20, 0x03, 0x00, 0x30,
                              0x42, 0x00, 0x00, 0x03, 0x00, 0x30, 0x42, 0x00, 0x00};
    const uint8_t expected[] = {0x00, 0x00, 0x00, 0x01, 0x50, 0x00, 0x00, 0x00, 0x00, 0x01, 0x40, 0x00, 0xee};
    const uint8_t lent[] = {0xee, 0xee, 0xee, 0xee, 0xee, 0xee, 0xee, 0xee, 0xee, 0xee, 0xee, 0xee, 0xee};
    const gaplinte_plan empty = {{{{0, 0}}}};
    uint8_t answers[sizeof lent];
    memcpy(answers, lent, sizeof lent);
    plan = empty;
    EXPECT(gaplinte_run_list(&plan, orders, sizeof orders - 1, answers, sizeof answers), -GAPLINTE_LIST_LENGTH);
    EXPECT(gaplinte_run_list(&plan, orders, sizeof orders, answers, 11), -GAPLINTE_BUFFER_TOO_SHORT);
    EXPECT(gaplinte_run_list(&plan, orders, 0, answers, 0), 0);
    EXPECT_SAME(answers, lent);
    EXPECT_SAME(plan, empty);
    EXPECT(gaplinte_run_list(&plan, orders, sizeof orders, answers, sizeof answers), 0);
    EXPECT_SAME(answers, expected);
    EXPECT(gaplinte_owner(&plan, 6), 1);
    EXPECT(gaplinte_owner(&plan, 1), 3);
    EXPECT(gaplinte_owner(&plan, 2), GAPLINTE_IDLE_FROM + 2);
}

static void order(void) {
    const gaplinte_order packed = {{0x03, 0x12, 0x30}};
    gaplinte_order bytes;
    gaplinte_call call, found;
    EXPECT(gaplinte_pack(GAPLINTE_KIND_OPEN, 3, 291, &bytes), 0);
    EXPECT_SAME(bytes, packed);
    EXPECT(gaplinte_read(&bytes, &call), 0);
    EXPECT(call.kind, GAPLINTE_KIND_OPEN);
    EXPECT(call.line, 3);
    EXPECT(call.period, 291);
    found = call;
    EXPECT(gaplinte_pack(GAPLINTE_KIND_CLOSE, 3, 1, &bytes), -GAPLINTE_NO_ORDER);
    EXPECT(gaplinte_pack(GAPLINTE_KIND_OPEN, 64, 4, &bytes), -GAPLINTE_LINE_ABOVE_63);
    EXPECT(gaplinte_pack(GAPLINTE_KIND_OPEN, 3, 65548, &bytes), -GAPLINTE_PERIOD_OUT_OF_RANGE);
    EXPECT_SAME(bytes, packed);
    bytes.bytes[2] |= 1;
    EXPECT(gaplinte_read(&bytes, &call), -GAPLINTE_NO_ORDER);
    EXPECT_SAME(call, found);
}

/* Each refusal once, as a call answers it. */
static void bring_about(int64_t answers[REFUSALS]) {
    const uint8_t orders[GAPLINTE_ORDER_BYTES] = {0x01, 0x00, 0x60};
    gaplinte_place at_end = {UINT64_MAX, 0};
    gaplinte_order packed;
    uint8_t lent[1];
    book_side(&plan, 0, 4, 1);
    book_side(&side_b, 1, 2048, 1);
    answers[0] = gaplinte_open(&plan, 64, 4);
    answers[1] = gaplinte_open(&plan, 1, 0);
    answers[2] = gaplinte_open(&plan, 0, 4);
    answers[3] = gaplinte_close(&plan, 1);
    answers[4] = gaplinte_open(&plan, 1, 3);
    answers[5] = gaplinte_pack(2, 1, 4, &packed);
    answers[6] = gaplinte_run_list(&plan, orders, 2, lent, sizeof lent);
    answers[7] = gaplinte_run_list(&plan, orders, sizeof orders, lent, sizeof lent);
    answers[8] = gaplinte_walk(&plan, &at_end);
    answers[9] = gaplinte_reason(&plan, 4, 1, 0, 0);
    answers[10] = gaplinte_reason(&plan, 4, 0, 0, 4);
    answers[11] = gaplinte_reason(&plan, 4, 0, 0, 1);
    answers[12] = gaplinte_read_image(&plan, orders, 0);
    answers[13] = gaplinte_read_image(&plan, orders, 1);
    answers[14] = gaplinte_weave(&plan, &plan, &woven);
    answers[15] = gaplinte_weave(&plan, &side_b, &woven);
}

/* A refusal is still negative, and the same one, where its answer was kept in a narrower type. */
static void narrowed(void) {
    int64_t answers[REFUSALS];
    bring_about(answers);
    for (int number = 1; number <= REFUSALS; number++) {
        int64_t answer = answers[number - 1];
        int in_int = (int)answer;
        int32_t in_32_bits = (int32_t)answer;
        signed char in_8_bits = (signed char)answer;
        EXPECT(answer, -number);
        EXPECT(in_int < 0 && in_32_bits < 0 && in_8_bits < 0, 1);
        EXPECT(gaplinte_refusal(answer), number);
        EXPECT(gaplinte_refusal(in_int), number);
        EXPECT(gaplinte_refusal(in_32_bits), number);
        EXPECT(gaplinte_refusal(in_8_bits), number);
    }
    EXPECT(gaplinte_refusal(0), 0);
    EXPECT(gaplinte_refusal(4095), 0);
    /* The largest value, which would be -1 in 32 bits. */
    EXPECT(gaplinte_refusal(UINT32_MAX), 0);
}

/* Each refusal has a text of its own; a value has one, and so has every number that no call answers. */
static void texts(void) {
    for (int number = 0; number <= REFUSALS + 1; number++) {
        EXPECT(strlen(gaplinte_refusal_text(-number)) > 0, 1);
        for (int other = 0; other < number; other++)
            EXPECT(strcmp(gaplinte_refusal_text(-number), gaplinte_refusal_text(-other)) != 0, 1);
    }
    EXPECT(strcmp(gaplinte_refusal_text(4095), "not refused"), 0);
    EXPECT(strcmp(gaplinte_refusal_text(-GAPLINTE_LINE_OPEN), "the line is open already"), 0);
    EXPECT(strcmp(gaplinte_refusal_text(INT64_MIN), gaplinte_refusal_text(-REFUSALS - 1)), 0);
}

/* A plan that is no tree is treated as the empty plan, and stays as found up to an open that is not refused. */
static void damaged(void) {
    gaplinte_plan empty, booked, found;
    gaplinte_shown shown;
    gaplinte_place place = {1, 0};
    memset(&empty, 0, sizeof empty);
    booked = empty;
    EXPECT(gaplinte_is_tree(&empty), 1);
    EXPECT(gaplinte_open(&booked, 3, 12), 0);
    EXPECT(gaplinte_is_tree(&booked), 1);
    found = booked;
    found.paths[3][0].edge = 12;
    plan = found;
    EXPECT(gaplinte_is_tree(&plan), 0);
    EXPECT(gaplinte_owner(&plan, 0), GAPLINTE_IDLE_FROM);
    EXPECT(gaplinte_owner(&plan, 1), GAPLINTE_IDLE_FROM);
    EXPECT(gaplinte_owner(&plan, UINT64_MAX), GAPLINTE_IDLE_FROM);
    EXPECT(gaplinte_walk(&plan, &place), GAPLINTE_IDLE_FROM);
    EXPECT(gaplinte_show(&plan, 3, &shown), -GAPLINTE_LINE_NOT_OPEN);
    EXPECT(gaplinte_turns(&plan, 3, 0, 7), -GAPLINTE_LINE_NOT_OPEN);
    EXPECT(gaplinte_close(&plan, 3), -GAPLINTE_LINE_NOT_OPEN);
    EXPECT(gaplinte_open(&plan, 3, 0), -GAPLINTE_PERIOD_OUT_OF_RANGE);
    EXPECT_NOT_TRIED(3, 0, GAPLINTE_PERIOD_OUT_OF_RANGE);
    EXPECT_TRIED(3, 12, 0, 1, 0);
    EXPECT_TRIED(5, 7, 0, 1, 0);
    EXPECT_ALL_IDLE();
    EXPECT_REASON(0, 0, 0, 0, -GAPLINTE_PERIOD_OUT_OF_RANGE);
    EXPECT_REASON(12, 0, 0, 0, -GAPLINTE_NO_NODE);
    EXPECT_IMAGE(no_lines);
    EXPECT_NOT_READ(no_lines, 0, GAPLINTE_IMAGE_LENGTH);
    EXPECT_SAME(plan, found);
    EXPECT(gaplinte_open(&plan, 3, 12), 0);
    EXPECT_SAME(plan, booked);
    plan = found;
    EXPECT_READ(no_lines);
    EXPECT_SAME(plan, empty);
}

int main(void) {
    open_and_close();
    ask();
    turns();
    turns_past_32_and_64_bits();
    show();
    walk();
    every_round();
    trials();
    refused_trials();
    trials_of_wide_numbers();
    rests();
    longest_rest();
    rest_of_the_empty_plan();
    rests_in_values();
    sheets();
    sheets_past_64_bits();
    sheets_after_each_order();
    sheets_of_the_shortest_period();
    sheets_of_the_longest_period();
    largest_total();
    trials_in_a_full_plan();
    sheet_of_a_full_plan();
    earliest_start();
    reasons();
    refused_reasons();
    reasons_of_wide_numbers();
    reason_taken_away();
    reasons_in_the_smallest_plans();
    reasons_in_a_deep_plan();
    each_class_of_each_node();
    images_written_and_read();
    weaves();
    list();
    order();
    narrowed();
    texts();
    damaged();
    return differences == 0 ? 0 : 1;
}
