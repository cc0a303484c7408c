/* Two versions of the library, loaded side by side: the time of an owner call and, for comparison, of the check of the
   record alone; then of an open with its close. The versions take turns, and the best of the repetitions counts. For an
   idle round a version from before Ask 4 answers 64, and a later one 64 + the rest. A version from before Ask 6 opens at
   another start, and one from before Ask 8 joins nothing when it closes, so that each opens and closes in a plan that it
   has made. */
#define _POSIX_C_SOURCE 200809L
#include <dlfcn.h>
#include <stdint.h>
#include <stdio.h>
#include <stdlib.h>
#include <time.h>

enum { NUMBERS = 1408, ROUNDS = 100, REPETITIONS = 2000, BEFORE = 0, AFTER = 1, OWNED = 0, IDLE = 1 };

typedef struct {
    int64_t (*open)(uint16_t *plan, uint64_t line, uint64_t period);
    int64_t (*close)(uint16_t *plan, uint64_t line);
    int64_t (*owner)(const uint16_t *plan, uint64_t round);
    int64_t (*is_tree)(const uint16_t *plan);
} library;

/* What is measured: a plan, and rounds asked of it. `owner` is the line that owns them all, or less than 0. */
typedef struct {
    const char *name;
    int64_t owner;
    uint16_t plan[NUMBERS];
    uint64_t rounds[ROUNDS];
} question;

/* Lines that are open while one more is opened and closed, in a plan of each version; `deep` as in bench/src/inputs.rs. */
typedef struct {
    const char *name;
    uint64_t lines;
    int deep;
    uint16_t plans[2][NUMBERS];
} change;

static const uint16_t periods[] = {480, 360, 240, 720, 960, 1440, 600, 1200};

static void fail(const char *what) {
    fprintf(stderr, "%s\n", what);
    exit(1);
}

static void *symbol(void *file, const char *name) {
    void *found = dlsym(file, name);
    if (!found) fail(name);
    return found;
}

static library loaded(const char *path) {
    void *file = dlopen(path, RTLD_NOW | RTLD_LOCAL);
    if (!file) fail(dlerror());
    library version;
    *(void **)&version.open = symbol(file, "gaplinte_open");
    *(void **)&version.close = symbol(file, "gaplinte_close");
    *(void **)&version.owner = symbol(file, "gaplinte_owner");
    *(void **)&version.is_tree = symbol(file, "gaplinte_is_tree");
    return version;
}

static void book(const library *version, uint16_t *plan, uint64_t line, uint64_t period) {
    if (version->open(plan, line, period) < 0) fail("a line is not booked");
}

static int is_idle(int64_t answer) {
    return 64 <= answer;
}

/* As in bench/src/inputs.rs: so many lines, and the first rounds of a kind, OWNED or IDLE. */
static question of_lines(const library *version, const char *name, int lines, int kind) {
    question asked = {.name = name, .owner = -1};
    for (int line = 0; line < lines; line++) book(version, asked.plan, line, periods[line % 8]);
    int count = 0;
    for (uint64_t round = 0; count < ROUNDS; round++)
        if (is_idle(version->owner(asked.plan, round)) == kind) asked.rounds[count++] = round;
    return asked;
}

/* Case F, and rounds of the line that has 11 nodes above it: `first` is the number of the first period asked. */
static question under_11_nodes(const library *version, const char *name, uint64_t first) {
    question asked = {.name = name, .owner = 10};
    for (uint64_t line = 0; line < 11; line++) book(version, asked.plan, line, UINT64_C(2) << line);
    for (uint64_t at = 0; at < ROUNDS; at++) asked.rounds[at] = 1023 + 2048 * (first + at);
    return asked;
}

static double now(void) {
    struct timespec time;
    clock_gettime(CLOCK_MONOTONIC, &time);
    return 1e9 * (double)time.tv_sec + (double)time.tv_nsec;
}

/* Nanoseconds of one call, of the owner call or else of the check. */
static double timed(const library *version, const question *asked, int owner) {
    volatile int64_t kept = 0;
    double begin = now();
    for (int at = 0; at < ROUNDS; at++)
        kept += owner ? version->owner(asked->plan, asked->rounds[at]) : version->is_tree(asked->plan);
    return (now() - begin) / ROUNDS;
}

/* The same line, or idle by both: one of the two may answer no rest. */
static int same_owner(int64_t before, int64_t after) {
    return before == after || (is_idle(before) && is_idle(after));
}

static void compare(const library versions[2], const question *asked) {
    for (int at = 0; at < ROUNDS; at++) {
        int64_t before = versions[BEFORE].owner(asked->plan, asked->rounds[at]);
        int64_t after = versions[AFTER].owner(asked->plan, asked->rounds[at]);
        if (!same_owner(before, after)) fail("the owners differ");
        if (0 <= asked->owner && before != asked->owner) fail("not the line that is to be measured");
    }
}

static void measure(const library versions[2], const question *asked) {
    double best[2][2] = {{1e9, 1e9}, {1e9, 1e9}};
    for (int repetition = 0; repetition < REPETITIONS; repetition++)
        for (int version = BEFORE; version <= AFTER; version++)
            for (int owner = 0; owner <= 1; owner++) {
                double time = timed(&versions[version], asked, owner);
                if (time < best[version][owner]) best[version][owner] = time;
            }
    printf("| %s | %.1f | %.1f | %.3f | %.1f | %.1f |\n", asked->name, best[BEFORE][1], best[AFTER][1],
           best[AFTER][1] / best[BEFORE][1], best[BEFORE][0], best[AFTER][0]);
}

static void make_plans(const library versions[2], change *made) {
    for (int version = BEFORE; version <= AFTER; version++)
        for (uint64_t line = 0; line < made->lines; line++) {
            uint64_t period = made->deep ? (line == 0 ? 2 : line == 1 ? 30 : periods[(line - 2) % 8]) : periods[line % 8];
            book(&versions[version], made->plans[version], line, period);
        }
}

/* Nanoseconds of one open with its close. */
static double time_of_change(const library *version, uint16_t *plan, uint64_t line) {
    double begin = now();
    for (int at = 0; at < ROUNDS; at++) {
        book(version, plan, line, 480);
        if (version->close(plan, line) < 0) fail("a line is not closed");
    }
    return (now() - begin) / ROUNDS;
}

static void measure_change(const library versions[2], change *made) {
    double best[2] = {1e9, 1e9};
    make_plans(versions, made);
    for (int repetition = 0; repetition < REPETITIONS; repetition++)
        for (int version = BEFORE; version <= AFTER; version++) {
            double time = time_of_change(&versions[version], made->plans[version], made->lines);
            if (time < best[version]) best[version] = time;
        }
    printf("| %s | %.0f | %.0f | %.3f |\n", made->name, best[BEFORE], best[AFTER], best[AFTER] / best[BEFORE]);
}

static void measure_changes(const library versions[2]) {
    static change made[] = {
        {.name = "1 line", .lines = 0},
        {.name = "16 lines", .lines = 15},
        {.name = "64 lines", .lines = 63},
        {.name = "16 lines, deep plan", .lines = 15, .deep = 1},
        {.name = "64 lines, deep plan", .lines = 63, .deep = 1},
    };
    printf("\n| open with close | before, ns | after, ns | after by before |\n|---|---|---|---|\n");
    for (size_t at = 0; at < sizeof made / sizeof *made; at++) measure_change(versions, &made[at]);
}

int main(int count, char **words) {
    if (count != 3) fail("two shared libraries: before, after");
    library versions[2] = {loaded(words[1]), loaded(words[2])};
    const library *before = &versions[BEFORE];
    question asked[] = {
        under_11_nodes(before, "under 11 nodes", 0),
        under_11_nodes(before, "under 11 nodes, rounds above 2^61", UINT64_C(1) << 50),
        of_lines(before, "1 line, owned round", 1, OWNED),
        of_lines(before, "16 lines, owned round", 16, OWNED),
        of_lines(before, "64 lines, owned round", 64, OWNED),
        of_lines(before, "1 line, idle round", 1, IDLE),
        of_lines(before, "16 lines, idle round", 16, IDLE),
        of_lines(before, "64 lines, idle round", 64, IDLE),
    };
    printf("| owner | before, ns | after, ns | after by before | check before, ns | check after, ns |\n|---|---|---|---|---|---|\n");
    for (size_t at = 0; at < sizeof asked / sizeof *asked; at++) {
        compare(versions, &asked[at]);
        measure(versions, &asked[at]);
    }
    measure_changes(versions);
    return 0;
}
