/* Marked case A of document 01: periods 4, 6 and 8, then 2, which is refused with 5, then 12. The 6 and the 12 are tried
 * first, and after the refusal each class of each node is asked for its reason. Prints what the library answers; exits
 * with 1 where that differs from documents 01 and 02. */
#include <inttypes.h>
#include <stdio.h>

#include "gaplinte.h"

/* All 0 is the empty plan. */
static gaplinte_plan plan;
static int differences;

/* Opens a line. Document 01 expects this answer: a start, or minus the number of a refusal. */
static void book(uint64_t line, uint64_t period, int64_t expected) {
    int64_t answer = gaplinte_open(&plan, line, period);
    printf("line %" PRIu64 ", period %" PRIu64 ": ", line, period);
    if (answer < 0)
        printf("refused with %u: %s\n", gaplinte_refusal(answer), gaplinte_refusal_text(answer));
    else
        printf("starts at %" PRId64 "\n", answer);
    if (answer != expected) differences++;
}

/* Tells what the open of a line would do. The plan is only read. */
static void tell(uint64_t line, uint64_t period, int start, int added, int split) {
    gaplinte_tried tried = {0, 0, 0};
    int64_t answer = gaplinte_trial(&plan, line, period, &tried);
    printf("line %" PRIu64 ", period %" PRIu64 ": would start at %d, nodes added %d, split %s\n", line, period,
           tried.start, tried.added, tried.split ? "yes" : "no");
    if (answer != 0 || tried.start != start || tried.added != added || tried.split != split) differences++;
}

/* Tells what keeps a period from a class of the node at a level and an offset. */
static void explain(uint64_t period, uint64_t level, uint64_t offset, uint64_t edge_class, int64_t expected) {
    int64_t reason = gaplinte_reason(&plan, period, level, offset, edge_class);
    printf("period %" PRIu64 ", level %" PRIu64 ", offset %" PRIu64 ", class %" PRIu64 ": ", period, level, offset,
           edge_class);
    if (gaplinte_step_does_not_divide(reason))
        printf("the node's step does not divide the period\n");
    else
        printf("line %" PRId64 " stands in the class\n", reason);
    if (reason != expected) differences++;
}

static void ask(uint64_t round, int64_t expected) {
    int64_t owner = gaplinte_owner(&plan, round);
    if (gaplinte_is_idle(owner))
        printf("round %" PRIu64 ": idle, the next owned round is %u later\n", round, gaplinte_rest(owner));
    else
        printf("round %" PRIu64 ": line %" PRId64 "\n", round, owner);
    if (owner != expected) differences++;
}

int main(void) {
    book(1, 4, 0);
    tell(2, 6, 1, 2, 1);
    book(2, 6, 1);
    book(3, 8, 2);
    book(4, 2, -GAPLINTE_NO_CANDIDATE);
    explain(2, 0, 0, 0, 1);
    explain(2, 0, 0, 1, 2);
    explain(2, 1, 0, 0, 1);
    explain(2, 1, 1, 0, 2);
    explain(2, 2, 2, 0, GAPLINTE_STEP_DOES_NOT_DIVIDE);
    tell(4, 12, 3, 1, 0);
    book(4, 12, 3);
    ask(7, 2);
    ask(9, GAPLINTE_IDLE_FROM + 1);
    ask(10, 3);
    return differences == 0 ? 0 : 1;
}
