/* A beamtime sheet. Books the lines of marked case A of document 01, asks for the turns and the idle rounds among 100
 * rounds, and prints them as a table whose last line is their total, the number of rounds. */
#include <inttypes.h>
#include <stdio.h>
#include <stdlib.h>

#include "gaplinte.h"

/* Ends the program where a call was refused. */
static void check(int64_t answer) {
    if (answer >= 0) return;
    fprintf(stderr, "refused with %u: %s\n", gaplinte_refusal(answer), gaplinte_refusal_text(answer));
    exit(1);
}

/* A row for each open line. Show refuses a line that is not open. */
static void print_lines(const gaplinte_plan *plan, const gaplinte_figures *sheet) {
    gaplinte_shown shown;
    for (unsigned line = 0; line < GAPLINTE_LINES; line++)
        if (gaplinte_show(plan, line, &shown) >= 0)
            printf("%-5u  %6d  %5d  %5d\n", line, shown.period, shown.start, sheet->turns[line]);
}

static void print_sheet(const gaplinte_plan *plan, uint64_t first, uint16_t rounds) {
    gaplinte_figures sheet;
    check(gaplinte_sheet(plan, first, rounds, &sheet));
    printf("Beamtime sheet: %d rounds from round %" PRIu64 "\n", rounds, first);
    printf("line   period  start  turns\n");
    print_lines(plan, &sheet);
    printf("idle   %20d\n", sheet.idle);
    printf("total  %20" PRIu32 "\n", gaplinte_sheet_total(&sheet));
}

int main(void) {
    static gaplinte_plan plan; /* all 0 is the empty plan */
    check(gaplinte_open(&plan, 1, 4));
    check(gaplinte_open(&plan, 2, 6));
    check(gaplinte_open(&plan, 3, 8));
    check(gaplinte_open(&plan, 4, 12));
    print_sheet(&plan, 1000, 100);
    return 0;
}
