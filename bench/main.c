/*
 * Times the proved machine beside machine.c: ns a step, medians of interleaved
 * rounds. Each round also compares what the two leave.
 *
 *   bench [ROUNDS [ROUTINE [passes|fails]]]    ROUTINE is arith, events, gox or slices
 */
#include "bench.h"

typedef void Run(const struct hemdroas_layout *, const uint64_t *, uint64_t, struct hemdroas_machine *, uint32_t *, uint64_t, uint32_t,
                 const uint32_t *, uint64_t, uint32_t *, uint64_t, struct hemdroas_run_answer *);
Run run_c;
enum { KINDS = 2 };
static Run *const RUNS[KINDS] = {hemdroas_run, run_c};

enum { BUNDLES = 16, TURNS = 100000 };
/* The bundle where a turn starts. 1: the list does not pass, since its first bundle has all SETs. 4: the list passes. */
static int first = 1;
enum { HIDDEN = 15 };

static uint64_t code[4 * BUNDLES];
static struct hemdroas_machine machine[KINDS];
static struct hemdroas_run_answer answer[KINDS];
static uint32_t memory[KINDS][U], records[KINDS][LOG], readings[READINGS];
static double times[KINDS][MOST_ROUNDS], ratios[MOST_ROUNDS];

static void same(const char *name, size_t cells) {
    if (memcmp(&machine[0], &machine[1], sizeof machine[0]) || memcmp(&answer[0], &answer[1], sizeof answer[0])
        || memcmp(memory[0], memory[1], sizeof memory[0]) || memcmp(records[0], records[1], cells * sizeof records[0][0])) {
        printf("%s: the proved machine and the C machine differ\n", name);
        exit(1);
    }
}

/* Clears the memory and marks every instruction as a landing. A table of zeros allows every event in state 0. */
static void fresh(int i) {
    memset(memory[i], 0, sizeof memory[i]);
    memset(memory[i] + Q, 255, 32 * sizeof memory[i][0]);
    machine[i] = (struct hemdroas_machine){.pc = B};
}

/* The routine and the list to measure, where only one is asked for. */
static const char *only, *list;

static void measure(const char *name, size_t cells, size_t count, int rounds) {
    if (only && strcmp(name, only)) return;
    for (int q = 0; q < rounds; q++) {
        for (int i = 0; i < KINDS; i++) {
            int j = (i + q) % KINDS;
            fresh(j);
            double t = now();
            RUNS[j](&layout, code, 4 * BUNDLES, &machine[j], memory[j], U, 4000000000u, readings, count, records[j], cells, &answer[j]);
            times[j][q] = (now() - t) / (double)answer[j].steps;
        }
        same(name, cells);
        ratios[q] = times[0][q] / times[1][q];
    }
    printf("%-8s %8u steps, ending %u | ns a step: proved %.2f, C %.2f | ratio %.2f\n", name, answer[0].steps, answer[0].ending,
           median(times[0], rounds), median(times[1], rounds), median(ratios, rounds));
}

/* Times runs of four commands, each from where the last one stopped: ns a call. */
static void slices(int rounds) {
    for (int q = 0; q < rounds; q++) {
        for (int i = 0; i < KINDS; i++) {
            int j = (i + q) % KINDS;
            fresh(j);
            double t = now();
            for (int k = 0; k < SLICES; k++)
                RUNS[j](&layout, code, 4 * BUNDLES, &machine[j], memory[j], U, 4, readings, 0, records[j], 0, &answer[j]);
            times[j][q] = (now() - t) / SLICES;
        }
        same("slices", 0);
        ratios[q] = times[0][q] / times[1][q];
    }
    printf("slices   budget 4 | ns a call: proved %.1f, C %.1f | ratio %.2f\n", median(times[0], rounds), median(times[1], rounds), median(ratios, rounds));
}

/* Places SET number i: in the first bundle, or in a bundle of its own. */
static void set(int i, int d, uint32_t v) { code[first == 1 ? i : 4 * i] = word(2, d, 0, 0, 0, v); }

/* A loop: r1 counts from 0 to TURNS by r2 = 1. Bundle `last` of a turn jumps back. HALT follows, and fills a list that passes. */
static void counted(int last) {
    memset(code, 0, sizeof code);
    if (first > 1)
        for (int g = 0; g < BUNDLES; g++) code[4 * g] = 1;
    set(0, 1, 0), set(1, 2, 1), set(2, 3, TURNS);
    if (first > 1) set(3, 6, first);
    last += first - 1;
    code[4 * last - 4] = word(4, 1, 1, 2, 0, 0);
    code[4 * last] = word(14, 0, 1, 3, 2, B + 4 * first);
    code[4 * last + 4] = 1;
}

static void mask(int g) {
    g += first - 1;
    code[4 * g] = word(9, HIDDEN, 1, 0, 0, SH), code[4 * g + 1] = word(10, HIDDEN, HIDDEN, 0, 0, SL);
}

static void event(int g, int n) {
    g += first - 1;
    code[4 * g] = word(16, HIDDEN, 0, 0, 0, n), code[4 * g + 1] = word(17, HIDDEN, 0, 0, 0, 0);
    code[4 * g + 2] = word(19, 0, 0, 0, 0, n), code[4 * g + 3] = word(18, HIDDEN, 0, 0, 0, 0);
}

/* GOX through r6, if r1 is below r3. */
static void gox(int g) {
    g += first - 1;
    code[4 * g] = word(11, HIDDEN, 6, 0, 0, 2), code[4 * g + 1] = word(9, HIDDEN, HIDDEN, 0, 0, first > 1 ? B + 4 * BUNDLES - 1 : 4 * BUNDLES - 4);
    code[4 * g + 2] = word(10, HIDDEN, HIDDEN, 0, 0, B), code[4 * g + 3] = word(15, HIDDEN, 1, 3, 2, 0);
}

/* Times one run of the proved machine by the clock that Lua reads: ns a turn. bench/turn.lua calls it between its own rounds. */
static void turn(void) {
    fresh(0);
    clock_t t = clock();
    hemdroas_run(&layout, code, 4 * BUNDLES, &machine[0], memory[0], U, 4000000000u, readings, 0, records[0], 0, &answer[0]);
    printf("%.2f\n", (double)(clock() - t) * 1e9 / CLOCKS_PER_SEC / TURNS);
}

int main(int argc, char **argv) {
    int rounds = argc > 1 ? atoi(argv[1]) : 101;
    if (rounds < 1 || rounds > MOST_ROUNDS) rounds = 101;
    for (uint32_t i = 0; i < READINGS; i++) readings[i] = i * 2654435761u;

    if (argc > 2) only = argv[2];
    if (argc > 3) list = argv[3];

    for (first = 1; first <= 4; first += 3) {
        if (list && (first > 1) != !strcmp(list, "passes")) continue;
        int at = 4 * (first - 1);
        /* a store, a load, two adds and the jump in each turn: 17 steps */
        counted(5);
        mask(1), code[at + 6] = word(13, 0, HIDDEN, 1, 0, 0);
        mask(2), code[at + 10] = word(12, 4, HIDDEN, 0, 0, 0);
        code[at + 12] = word(4, 5, 5, 4, 0, 0);
        if (argc > 1 && !strcmp(argv[1], "turn")) {
            if (first == 1) continue;
            turn();
            return 0;
        }
        printf(first > 1 ? "a list that passes:\n" : "a list that does not pass:\n");
        measure("arith", 64, 0, rounds);
        if (first > 1 && (!only || !strcmp(only, "slices"))) slices(rounds);

        /* an order and a reading in each turn */
        counted(4);
        event(1, 1), event(2, 9);
        measure("events", LOG, READINGS, rounds);

        /* each turn goes back by a GOX to a landing; r6 also has a bit that its mask drops */
        counted(2);
        if (first == 1) code[3] = word(2, 6, 0, 0, 0, 1 + BUNDLES);
        else code[12] = word(2, 6, 0, 0, 0, first + BUNDLES);
        gox(2);
        measure("gox", 64, 0, rounds);
    }
    return 0;
}
