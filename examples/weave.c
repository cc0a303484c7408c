/* Two hutches on one recorder of twice the rate. Books a plan for each of them, weaves the two into one, and books that
 * one further. Prints the lines that each plan has. */
#include <stdio.h>
#include <stdlib.h>

#include "gaplinte.h"

/* Ends the program where a call was refused. */
static void check(int64_t answer) {
    if (answer >= 0) return;
    fprintf(stderr, "refused with %u: %s\n", gaplinte_refusal(answer), gaplinte_refusal_text(answer));
    exit(1);
}

/* Show refuses a line that is not open. */
static void print_lines(const char *of, const gaplinte_plan *plan) {
    gaplinte_shown shown;
    printf("%s\n", of);
    for (unsigned line = 0; line < GAPLINTE_LINES; line++)
        if (gaplinte_show(plan, line, &shown) >= 0)
            printf("line %u: period %d, start %d\n", line, shown.period, shown.start);
}

int main(void) {
    static gaplinte_plan hutch_a, hutch_b; /* all 0 is the empty plan */
    static gaplinte_plan woven;
    check(gaplinte_open(&hutch_a, 1, 4));
    check(gaplinte_open(&hutch_a, 2, 6));
    check(gaplinte_open(&hutch_b, 3, 3));
    check(gaplinte_open(&hutch_b, 4, 3));
    check(gaplinte_weave(&hutch_a, &hutch_b, &woven));
    check(gaplinte_open(&woven, 5, 12));
    check(gaplinte_open(&woven, 6, 12));
    print_lines("hutch A", &hutch_a);
    print_lines("hutch B", &hutch_b);
    print_lines("both, booked further", &woven);
    return 0;
}
