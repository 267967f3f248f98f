/*
 * Times the proved engine beside engine.c and the proved machine on the same
 * routine: ns an instruction, medians of interleaved rounds. Each round also
 * compares what they leave. Then it times calls of one instruction, for a short
 * and a long routine.
 *
 *   engines [ROUNDS [ROUTINE]]    ROUTINE is arith, events or gox
 */
#include "bench.h"

typedef void Run(const struct hemdroas_layout *, const uint64_t *, uint64_t, struct hemdroas_engine *, uint32_t *, uint64_t, uint32_t,
                 const uint32_t *, uint64_t, uint32_t *, uint64_t, struct hemdroas_engine_answer *);
Run engine_c;
enum { KINDS = 2 };
static Run *const RUNS[KINDS] = {hemdroas_engine_run, engine_c};

enum { WORDS = 16, COMMANDS = 128 };

static uint64_t code[WORDS], commands[COMMANDS];
static size_t length;
static struct hemdroas_engine record[KINDS];
static struct hemdroas_engine_answer answer[KINDS];
static uint32_t memory[KINDS + 1][U], logs[KINDS + 1][LOG], readings[READINGS];
static double times[KINDS + 1][MOST_ROUNDS], ratios[MOST_ROUNDS];

static void same(const char *name, size_t cells) {
    if (memcmp(&record[0], &record[1], sizeof record[0]) || memcmp(&answer[0], &answer[1], sizeof answer[0])
        || memcmp(memory[0], memory[1], sizeof memory[0]) || memcmp(logs[0], logs[1], cells * sizeof logs[0][0])) {
        printf("%s: the proved engine and the C engine differ\n", name);
        exit(1);
    }
}

/* Clears the memory and marks every instruction as a landing. A table of zeros allows every event in state 0. */
static void fresh(int i) {
    memset(memory[i], 0, sizeof memory[i]);
    memset(memory[i] + Q, 255, 32 * sizeof memory[i][0]);
}

/* Times the machine on the same routine: ns for each of the engine's instructions. Registers, memory and log must be the engine's. */
static double machine(const char *name, size_t cells, size_t count) {
    struct hemdroas_machine end = {.pc = B};
    struct hemdroas_run_answer ran;
    struct hemdroas_answer made;
    fresh(KINDS);
    hemdroas_rewrite(&layout, code, length, commands, COMMANDS, &made);
    double t = now();
    hemdroas_run(&layout, commands, made.place, &end, memory[KINDS], U, 4000000000u, readings, count, logs[KINDS], cells, &ran);
    t = now() - t;
    if (made.number || ran.ending != answer[0].ending || memcmp(end.r, record[0].r, sizeof record[0].r)
        || memcmp(memory[KINDS], memory[0], sizeof memory[0]) || memcmp(logs[KINDS], logs[0], cells * sizeof logs[0][0])) {
        printf("%s: engine and machine differ\n", name);
        exit(1);
    }
    return t / (double)answer[0].instructions;
}

/* The routine to measure, where only one is asked for. */
static const char *only;

static void measure(const char *name, int turn, size_t cells, size_t count, int rounds) {
    if (only && strcmp(name, only)) return;
    for (int q = 0; q < rounds; q++) {
        for (int i = 0; i < KINDS; i++) {
            int j = (i + q) % KINDS;
            fresh(j);
            record[j] = (struct hemdroas_engine){0};
            double t = now();
            RUNS[j](&layout, code, length, &record[j], memory[j], U, 4000000000u, readings, count, logs[j], cells, &answer[j]);
            times[j][q] = (now() - t) / (double)answer[j].instructions;
        }
        same(name, cells);
        times[KINDS][q] = machine(name, cells, count);
        ratios[q] = times[0][q] / times[1][q];
    }
    double proved = median(times[0], rounds), by_machine = median(times[KINDS], rounds);
    printf("%-8s %8u instructions, ending %u | ns each: proved %.2f, C %.2f | ratio %.2f | a turn %.1f ns, the machine %.1f\n",
           name, answer[0].instructions, answer[0].ending, proved, median(times[1], rounds), median(ratios, rounds), turn * proved, turn * by_machine);
}

/* A loop: r1 counts from 0 to 100,000 by r2 = 1. A turn starts at instruction 3 and ends with the jump at `last`. HALT follows. */
static void counted(int last) {
    memset(code, 0, sizeof code);
    length = last + 1;
    code[0] = word(1, 2, 0, 0, 0, 1), code[1] = word(1, 3, 0, 0, 0, 100000), code[2] = word(1, 6, 0, 0, 0, 3 + 16 * 7);
    code[last - 1] = word(3, 1, 1, 2, 0, 0);
    code[last] = word(10, 0, 1, 3, 2, 3);
}

/* Times calls of one instruction each, in a routine of n words that adds and jumps back. */
static double slice(Run *run, uint64_t n, int rounds) {
    static uint64_t adds[HEMDROAS_MOST_WORDS];
    for (uint64_t i = 0; i < n; i++) adds[i] = i + 1 < n ? word(3, 1, 1, 2, 0, 0) : word(10, 0, 0, 0, 0, 0);
    fresh(0);
    record[0] = (struct hemdroas_engine){0};
    for (int q = 0; q < rounds; q++) {
        double t = now();
        for (int k = 0; k < SLICES; k++) run(&layout, adds, n, &record[0], memory[0], U, 1, readings, 0, logs[0], 0, &answer[0]);
        times[0][q] = (now() - t) / SLICES;
        if (answer[0].ending != HEMDROAS_ENDING_SPENT) printf("a slice was not spent\n"), exit(1);
    }
    return median(times[0], rounds);
}

static void slices(int rounds) {
    static const uint64_t LENGTHS[] = {10, HEMDROAS_MOST_WORDS};
    for (int i = 0; i < 2; i++)
        printf("slices   budget 1, %4u words | ns a call: engine_run %.1f, engine_continue %.1f\n", (unsigned)LENGTHS[i],
               slice(hemdroas_engine_run, LENGTHS[i], rounds < 11 ? rounds : 11), slice(hemdroas_engine_continue, LENGTHS[i], rounds));
}

int main(int argc, char **argv) {
    int rounds = argc > 1 ? atoi(argv[1]) : 101;
    if (rounds < 1 || rounds > MOST_ROUNDS) rounds = 101;
    if (argc > 2) only = argv[2];
    for (uint32_t i = 0; i < READINGS; i++) readings[i] = i * 2654435761u;

    /* a store, a load and two adds in each turn */
    counted(7);
    code[3] = word(9, 0, 1, 1, 0, 0), code[4] = word(8, 4, 1, 0, 0, 0), code[5] = word(3, 5, 5, 4, 0, 0);
    measure("arith", 5, 64, 0, rounds);

    /* an order and a reading in each turn */
    counted(6);
    code[3] = word(12, 0, 0, 0, 0, 1), code[4] = word(12, 0, 0, 0, 0, 9);
    measure("events", 4, LOG, READINGS, rounds);

    /* each turn goes back by a GOX through r6 */
    counted(4);
    code[4] = word(11, 6, 1, 3, 2, 0);
    measure("gox", 2, 64, 0, rounds);

    if (!only) slices(rounds);
    return 0;
}
