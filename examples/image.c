/* A plan on its way to another recorder. Books the lines of marked case A of document 01, saves the plan's image in the
 * file that is named, reads it back into another plan, and books that one further. Prints the bytes of the file, and
 * the lines that the other plan has. */
#include <inttypes.h>
#include <stdio.h>
#include <stdlib.h>

#include "gaplinte.h"

/* Ends the program where a call was refused. */
static void check(int64_t answer) {
    if (answer >= 0) return;
    fprintf(stderr, "refused with %u: %s\n", gaplinte_refusal(answer), gaplinte_refusal_text(answer));
    exit(1);
}

/* Ends the program where the file could not be written or read. */
static void check_file(int done, const char *name) {
    if (done) return;
    perror(name);
    exit(1);
}

static void save(const gaplinte_plan *plan, const char *name) {
    uint8_t image[GAPLINTE_IMAGE_BYTES];
    int64_t length = gaplinte_write_image(plan, image, sizeof image);
    check(length);
    FILE *file = fopen(name, "wb");
    check_file(file != NULL, name);
    check_file(fwrite(image, 1, (size_t)length, file) == (size_t)length, name);
    check_file(fclose(file) == 0, name);
}

/* One byte more than the longest image has, so that a file that is longer is refused, and not cut. */
static void load(gaplinte_plan *plan, const char *name) {
    uint8_t image[GAPLINTE_IMAGE_BYTES + 1];
    FILE *file = fopen(name, "rb");
    check_file(file != NULL, name);
    size_t length = fread(image, 1, sizeof image, file);
    check_file(!ferror(file), name);
    fclose(file);
    printf("%zu bytes:", length);
    for (size_t byte = 0; byte < length; byte++) printf(" %02x", image[byte]);
    printf("\n");
    check(gaplinte_read_image(plan, image, length));
}

/* Show refuses a line that is not open. */
static void print_lines(const gaplinte_plan *plan) {
    gaplinte_shown shown;
    for (unsigned line = 0; line < GAPLINTE_LINES; line++)
        if (gaplinte_show(plan, line, &shown) >= 0)
            printf("line %u: period %d, start %d\n", line, shown.period, shown.start);
}

int main(int count, char **arguments) {
    static gaplinte_plan plan, other; /* all 0 is the empty plan */
    if (count != 2) {
        fprintf(stderr, "image: name a file\n");
        return 1;
    }
    check(gaplinte_open(&plan, 1, 4));
    check(gaplinte_open(&plan, 2, 6));
    check(gaplinte_open(&plan, 3, 8));
    check(gaplinte_open(&plan, 4, 12));
    save(&plan, arguments[1]);
    load(&other, arguments[1]);
    check(gaplinte_open(&other, 5, 24));
    print_lines(&other);
    return 0;
}
