/* Gaplinte: a plan of rounds for one recorder. The calls of the proved library, for C99 and C++.
 *
 * Answers. Each call answers one number: its value, 0 or more, or minus the number of a refusal, -1 to -16. A refusal
 * stays negative where it is kept in a narrower signed type. A refused call leaves all that it was lent as found.
 *
 * The plan. The caller keeps it and lends it to the calls. For each line it has 11 rows of weight and edge: the nodes
 * above the line, from the root on. Rows that are not used are 0 and 0, and a line that is not open uses none. As
 * numbers of 16 bits, the weight of line L's row k is number 22 L + 2 k, and its edge is the next one. All 0 is the
 * empty plan: `gaplinte_plan plan = {0};` in C, `gaplinte_plan plan{};` in C++. The numbers are in the machine's byte
 * order, so a stored record is for machines of one byte order. An image is for all of them.
 *
 * Images. The image of a plan is a row of numbers in bits, each number from its highest bit on. 7 bits say how many
 * lines are open. Then come the open lines, the lowest first, with 6 bits for the line, 4 for how many rows its path
 * has, and 24 for each row, half of them for the weight and half for the edge. What is left of the last byte is 0. Two
 * plans have the same image if and only if they have the same tree.
 *
 * Nodes. The node of row k of a path has level k, so that the root has level 0. Its step is the product of the weights
 * above it, 1 for the root, and its offset is the sum of the edges above it, each times the step of the node that it
 * belongs to. For a period that the step divides, d is the greatest common divisor of the node's weight and the period
 * divided by the step: the classes are 0 to d - 1, and an edge is of the class that it leaves when it is divided by d.
 *
 * A plan that is no tree (damaged, say, or never written) is treated by each call as the empty plan: owner and the
 * walker answer idle with rest 0, show, turns and close refuse with 4, reason refuses with 10, in a sheet all rounds
 * are idle, a trial tells what an open in the empty plan would do, its image is that of the empty plan, woven it is a
 * side without lines, and an open that is not refused replaces it. gaplinte_is_tree tells.
 *
 * Threads. The library keeps nothing between calls and has no global data, so calls on different records may run in
 * different threads. While one thread changes a record, no other may use it.
 *
 * Pointers. None is null, also where a list, an image or a buffer has no bytes. What is lent to one call does not
 * overlap, except that the two plans which gaplinte_weave reads may be one.
 *
 * Link with libgaplinte.a, which `bash bindings/build` writes to target/staticlib. */
#ifndef GAPLINTE_H
#define GAPLINTE_H

#include <stddef.h>
#include <stdint.h>

/* Lines are 0 to 63. */
#define GAPLINTE_LINES 64
/* A value of owner or of the walker from this on says that the round is idle, and is this plus the rest. */
#define GAPLINTE_IDLE_FROM 64
/* The longest rest; that of an empty plan is 0, and any other is 1 or more. */
#define GAPLINTE_LONGEST_REST 4094
/* A value of reason that is no line: the node's step does not divide the period. */
#define GAPLINTE_STEP_DOES_NOT_DIVIDE 64
/* The longest period; the shortest is 1. */
#define GAPLINTE_LONGEST_PERIOD 4095
/* The rows of a path, used or not. */
#define GAPLINTE_ROWS 11

/* Kinds of orders. */
#define GAPLINTE_KIND_OPEN 0
#define GAPLINTE_KIND_CLOSE 1

/* The bytes of an order, those that it is answered with in a list, and the bytes and orders of the longest list. */
#define GAPLINTE_ORDER_BYTES 3
#define GAPLINTE_ANSWER_BYTES 2
#define GAPLINTE_LIST_BYTES 65535
#define GAPLINTE_LIST_ORDERS 21845

/* The bytes of the longest image: a buffer of so many is never too short. */
#define GAPLINTE_IMAGE_BYTES 2193

/* The numbers of the refusals. */
#define GAPLINTE_LINE_ABOVE_63 1
#define GAPLINTE_PERIOD_OUT_OF_RANGE 2
#define GAPLINTE_LINE_OPEN 3
#define GAPLINTE_LINE_NOT_OPEN 4
#define GAPLINTE_NO_CANDIDATE 5
#define GAPLINTE_NO_ORDER 6
#define GAPLINTE_LIST_LENGTH 7
#define GAPLINTE_BUFFER_TOO_SHORT 8
#define GAPLINTE_WALKER_AT_END 9
#define GAPLINTE_NO_NODE 10
#define GAPLINTE_NO_CLASS 11
#define GAPLINTE_NO_LINE_IN_CLASS 12
#define GAPLINTE_IMAGE_LENGTH 13
#define GAPLINTE_IMAGE_FIELD 14
#define GAPLINTE_OPEN_IN_BOTH 15
#define GAPLINTE_DOUBLED_PERIOD_OUT_OF_RANGE 16

/* So that compilers warn where an answer is thrown away, and a refusal with it. */
#if defined(__cplusplus) && __cplusplus >= 201703L
#define GAPLINTE_NODISCARD [[nodiscard]]
#elif defined(__STDC_VERSION__) && __STDC_VERSION__ >= 202311L
#define GAPLINTE_NODISCARD [[nodiscard]]
#elif defined(__GNUC__)
#define GAPLINTE_NODISCARD __attribute__((warn_unused_result))
#else
#define GAPLINTE_NODISCARD
#endif

#ifdef __cplusplus
extern "C" {
#endif

/* One row of a path: a node's weight, and the edge taken there. */
typedef struct gaplinte_row {
    uint16_t weight;
    uint16_t edge;
} gaplinte_row;

/* A plan: the path of each line. */
typedef struct gaplinte_plan {
    gaplinte_row paths[GAPLINTE_LINES][GAPLINTE_ROWS];
} gaplinte_plan;

/* What trial writes: the start that the open would answer, how many more nodes the plan would have, and 1 where a node
 * would be split, else 0. */
typedef struct gaplinte_tried {
    uint16_t start;
    uint16_t added;
    uint16_t split;
} gaplinte_tried;

/* What show writes: a line's period, its start, and its path from the root on. */
typedef struct gaplinte_shown {
    uint16_t period;
    uint16_t start;
    gaplinte_row path[GAPLINTE_ROWS];
} gaplinte_shown;

/* What sheet writes: the turns of each line, 0 for a closed one, and the idle rounds. */
typedef struct gaplinte_figures {
    uint16_t turns[GAPLINTE_LINES];
    uint16_t idle;
} gaplinte_figures;

/* A walker's place: the next round, and how many of the rounds seen were owned. All 0 is before round 0. */
typedef struct gaplinte_place {
    uint64_t next;
    uint64_t owned;
} gaplinte_place;

/* An order, as it stands in a list. */
typedef struct gaplinte_order {
    uint8_t bytes[GAPLINTE_ORDER_BYTES];
} gaplinte_order;

/* What read writes: the call that an order asks for. A close has period 0. */
typedef struct gaplinte_call {
    uint16_t kind;
    uint16_t line;
    uint16_t period;
} gaplinte_call;

/* The sizes that the library was built with. */
#if defined(__cplusplus) && __cplusplus >= 201103L
#define GAPLINTE_SIZE(type, size) static_assert(sizeof(type) == (size), #type " has another size in the library")
#elif defined(__STDC_VERSION__) && __STDC_VERSION__ >= 201112L
#define GAPLINTE_SIZE(type, size) _Static_assert(sizeof(type) == (size), #type " has another size in the library")
#endif
#ifdef GAPLINTE_SIZE
GAPLINTE_SIZE(gaplinte_plan, 2816);
GAPLINTE_SIZE(gaplinte_tried, 6);
GAPLINTE_SIZE(gaplinte_shown, 48);
GAPLINTE_SIZE(gaplinte_figures, 130);
GAPLINTE_SIZE(gaplinte_place, 16);
GAPLINTE_SIZE(gaplinte_order, 3);
GAPLINTE_SIZE(gaplinte_call, 6);
#undef GAPLINTE_SIZE
#endif

/* The number with which a call was refused, or 0 where its answer is a value. */
static inline unsigned gaplinte_refusal(int64_t answer) {
    return answer < 0 ? (unsigned)(0 - (uint64_t)answer) : 0;
}

/* The refusal of an answer in English, or "not refused" where it is a value. */
static inline const char *gaplinte_refusal_text(int64_t answer) {
    if (answer >= 0) return "not refused";
    switch (answer) {
        case -GAPLINTE_LINE_ABOVE_63: return "the line is above 63";
        case -GAPLINTE_PERIOD_OUT_OF_RANGE: return "the period is not 1 to 4095";
        case -GAPLINTE_LINE_OPEN: return "the line is open already";
        case -GAPLINTE_LINE_NOT_OPEN: return "the line is not open";
        case -GAPLINTE_NO_CANDIDATE: return "no node of the plan is a candidate for the period";
        case -GAPLINTE_NO_ORDER:
            return "no order: the kind is above 1, a close has a period, or one of the last four bits is 1";
        case -GAPLINTE_LIST_LENGTH: return "the list is longer than 65535 bytes or ends inside an order";
        case -GAPLINTE_BUFFER_TOO_SHORT: return "the buffer is too short for the answers or the image";
        case -GAPLINTE_WALKER_AT_END: return "the walker's next round or count is 2^64 - 1";
        case -GAPLINTE_NO_NODE: return "no node has this level and offset";
        case -GAPLINTE_NO_CLASS: return "the node has no such class for the period";
        case -GAPLINTE_NO_LINE_IN_CLASS: return "no line stands in the class";
        case -GAPLINTE_IMAGE_LENGTH: return "bits of the image are missing, or bytes follow its last one";
        case -GAPLINTE_IMAGE_FIELD:
            return "no image: a field is out of range, a bit that fills the last byte is 1, or the tree is not legal";
        case -GAPLINTE_OPEN_IN_BOTH: return "a line is open in both plans";
        case -GAPLINTE_DOUBLED_PERIOD_OUT_OF_RANGE: return "a doubled period is above 4095";
        default: return "no call is refused so";
    }
}

/* Whether a value of owner or of the walker says that the round is idle. Not where it is a line or a refusal. */
static inline int gaplinte_is_idle(int64_t owner) {
    return owner >= GAPLINTE_IDLE_FROM;
}

/* The rest that a value of owner or of the walker has, or 0 where it does not say that the round is idle. */
static inline unsigned gaplinte_rest(int64_t owner) {
    return gaplinte_is_idle(owner) ? (unsigned)(owner - GAPLINTE_IDLE_FROM) : 0;
}

/* Whether a value of reason says that the node's step does not divide the period. Not where it is a line or a
 * refusal. */
static inline int gaplinte_step_does_not_divide(int64_t reason) {
    return reason == GAPLINTE_STEP_DOES_NOT_DIVIDE;
}

/* The turns of all lines and the idle rounds of a sheet, added up: the number of rounds that it was asked for. */
static inline uint32_t gaplinte_sheet_total(const gaplinte_figures *sheet) {
    uint32_t total = sheet->idle;
    for (int line = 0; line < GAPLINTE_LINES; line++) total += sheet->turns[line];
    return total;
}

/* Opens a line with a period of 1 to 4,095 rounds. The value is its start: the smallest that a candidate offers, and 0
 * in an empty plan. Where it splits a node, other lines have longer paths, and keep their periods and starts. Refused
 * with 1, 2, 3 or 5. */
GAPLINTE_NODISCARD int64_t gaplinte_open(gaplinte_plan *plan, uint64_t line, uint64_t period);

/* Tries a line with a period: what the open would do is written, and the plan is only read. The value is 0.
 * Refused with 1, 2, 3 or 5, as the open would be. */
GAPLINTE_NODISCARD int64_t gaplinte_trial(const gaplinte_plan *plan, uint64_t line, uint64_t period,
                                          gaplinte_tried *tried);

/* The reason behind a refusal with 5: what keeps a period from a class of the node at a level and an offset. The value
 * is the open line of lowest number that stands, at any depth, under an edge of the class. Where the node's step does
 * not divide the period it is GAPLINTE_STEP_DOES_NOT_DIVIDE, and the class is not looked at. Refused with 2, with 10
 * where no node has this level and offset, with 11 where the class is not below d, or with 12 where no line stands in
 * the class: the first that applies. On a plan with an open line, an open that passes 1, 2 and 3 is refused with 5 if
 * and only if this call, asked of every level, offset and class, is never refused with 12. */
GAPLINTE_NODISCARD int64_t gaplinte_reason(const gaplinte_plan *plan, uint64_t period, uint64_t level, uint64_t offset,
                                           uint64_t edge_class);

/* Closes a line. The nodes left above it are joined where they can be: other lines can then have shorter paths, and
 * keep their periods and starts. The value is 0. Refused with 1 or 4. */
GAPLINTE_NODISCARD int64_t gaplinte_close(gaplinte_plan *plan, uint64_t line);

/* The owner of a round. The value is a line or, where the round is idle, GAPLINTE_IDLE_FROM plus the rest: how many
 * rounds lie from this one to the next owned one, 1 to GAPLINTE_LONGEST_REST, and 0 for an empty plan only. The value
 * can be 4,158, for which an int8_t is too narrow. Rounds are whole numbers: the next owned one can be past 2^64 - 1,
 * and then no uint64_t holds round + rest. Never refused. */
GAPLINTE_NODISCARD int64_t gaplinte_owner(const gaplinte_plan *plan, uint64_t round);

/* Shows a line: its period, start and path are written. The value is 0. Refused with 1 or 4. */
GAPLINTE_NODISCARD int64_t gaplinte_show(const gaplinte_plan *plan, uint64_t line, gaplinte_shown *shown);

/* The turns of a line. The value is exactly how many rounds the line owns among so many that begin with `first`. It
 * can be 2^32 - 1, for which an int32_t is too narrow. Rounds are whole numbers: those from 2^64 on count too, though
 * no uint64_t holds them. 0 rounds give 0. Refused with 1 or 4. */
GAPLINTE_NODISCARD int64_t gaplinte_turns(const gaplinte_plan *plan, uint64_t line, uint64_t first, uint32_t rounds);

/* The sheet of so many rounds that begin with `first`: the turns of each line, 0 for a closed one, and the idle rounds
 * are written. They add up to `rounds`. Rounds are whole numbers: those from 2^64 on count too, though no uint64_t
 * holds them. C cuts a wider count to 16 bits without a word: for more than 65,535 rounds ask for several sheets. The
 * value is 0. Never refused. */
GAPLINTE_NODISCARD int64_t gaplinte_sheet(const gaplinte_plan *plan, uint64_t first, uint16_t rounds,
                                          gaplinte_figures *sheet);

/* The walker. The value is that of gaplinte_owner for the next round: a line, or GAPLINTE_IDLE_FROM plus the rest. The
 * place moves on by one round, and its count by 1 where the round is owned. Refused with 9 where either number is
 * 2^64 - 1. */
GAPLINTE_NODISCARD int64_t gaplinte_walk(const gaplinte_plan *plan, gaplinte_place *place);

/* Runs a list of orders, 3 bytes each, and writes 2 bytes for each: 4 bits of result, 0 or the number with which the
 * order is refused, and 12 bits of start, 0 unless it opened a line. Later bytes of the buffer are left alone. The
 * value is 0. Refused with 7 or 8. */
GAPLINTE_NODISCARD int64_t gaplinte_run_list(gaplinte_plan *plan, const uint8_t *orders, size_t order_bytes,
                                             uint8_t *answers, size_t answer_bytes);

/* Writes the image of a plan, and leaves later bytes of the buffer alone. The value is the image's length in bytes, 1
 * to GAPLINTE_IMAGE_BYTES. Refused with 8 where the buffer has fewer. */
GAPLINTE_NODISCARD int64_t gaplinte_write_image(const gaplinte_plan *plan, uint8_t *buffer, size_t buffer_bytes);

/* Reads an image: the plan, whatever it was, gets the image's tree. The value is 0. Refused at the first number of the
 * image that cannot be read: with 13 where the bytes end inside it, and with 14 where it says 65 lines or more, no rows
 * or 12 and more, or the weight 0. Where all can be read, refused with 13 if another byte comes behind them, else with
 * 14 if what is left of the last byte is not 0, else with 14 for any of these: a line number that is not above the one
 * before it, an edge that is not below its weight, a period above 4,095, a weight of 1 beside other rows, two weights
 * at one place, a line at another's place or on the way to it. */
GAPLINTE_NODISCARD int64_t gaplinte_read_image(gaplinte_plan *plan, const uint8_t *image, size_t image_bytes);

/* Weaves two plans into one, for a recorder of twice the rate: `woven`, whatever it was, gets the woven tree. Where t
 * is even, the owner of round t is then that of round t / 2 in `a`, and where t is odd, that of round (t - 1) / 2 in
 * `b`. Each period is doubled, and a start s becomes 2 s for a line of `a` and 2 s + 1 for a line of `b`. The root has
 * weight 2, with the tree of `a` under edge 0 and that of `b` under edge 1. The edge of a plan without lines is absent;
 * where both have none, the woven plan is the empty one. Where a root has weight 1, its line alone stands under the
 * edge. `a` and `b` are only read, and may be one plan; `woven` is neither of them. The value is 0. Refused with 15
 * where a line is open in both, else with 16 where a doubled period is above 4,095. */
GAPLINTE_NODISCARD int64_t gaplinte_weave(const gaplinte_plan *a, const gaplinte_plan *b, gaplinte_plan *woven);

/* Packs an order of a kind; a close has period 0. The value is 0. Refused with 6, 1 or 2. */
GAPLINTE_NODISCARD int64_t gaplinte_pack(uint64_t kind, uint64_t line, uint64_t period, gaplinte_order *order);

/* Reads an order: kind, line and period are written. The value is 0. Refused with 6. */
GAPLINTE_NODISCARD int64_t gaplinte_read(const gaplinte_order *order, gaplinte_call *call);

/* Whether a plan is a tree. The value is 1, or 0 where each call treats the plan as the empty one. Never refused. */
GAPLINTE_NODISCARD int64_t gaplinte_is_tree(const gaplinte_plan *plan);

#ifdef __cplusplus
}
#endif

#endif
