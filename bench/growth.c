/*
 * How the cost of each call grows: ns for each instruction, step or state at
 * four sizes, the least of some rounds. A linear cost shows about the same
 * figure in each column.
 */
#include "hemdroas.h"
#include <stdio.h>
#include <stdlib.h>
#include <time.h>

enum { U = 4096, ROUNDS = 200, SIZES = 4 };

static uint8_t bytes[16 * HEMDROAS_MOST_WORDS], table[HEMDROAS_MOST_TABLE], made[HEMDROAS_MOST_TABLE];
static uint64_t words[HEMDROAS_MOST_WORDS], commands[HEMDROAS_MOST_COMMANDS];
static uint32_t memory[U];
static uint16_t arrows[256];
static struct hemdroas_layout layout = {U, 2048, 4095, 0, 16, 16, 0, 512, {9, 9, 9, 9, 9, 9, 9, 9}};
static struct hemdroas_answer answer;
static struct hemdroas_machine machine;
static struct hemdroas_engine engine;
static struct hemdroas_run_answer ran;
static struct hemdroas_engine_answer stepped;
static struct hemdroas_determinise_answer drawn;
static struct hemdroas_policy policy, merged;
static size_t size, length;
static uint32_t budget, counted;

static void write_(void) { hemdroas_write(words, size, bytes, sizeof bytes, &answer); }
static void read_(void) { hemdroas_read(bytes, length, words, HEMDROAS_MOST_WORDS, &answer); }
static void rewrite(void) { hemdroas_rewrite(&layout, words, size, commands, HEMDROAS_MOST_COMMANDS, &answer); }
static void check(void) { hemdroas_check(&layout, commands, 4 * (size + 1), &answer); }
static void run(void) {
    machine = (struct hemdroas_machine){{0}, 0, 0};
    hemdroas_run(&layout, commands, 4 * (size + 1), &machine, memory, U, budget, 0, 0, 0, 0, &ran), counted = ran.steps;
}
static void run_engine(void) {
    engine = (struct hemdroas_engine){{0}, 0, 0};
    hemdroas_engine_run(&layout, words, size, &engine, memory, U, budget, 0, 0, 0, 0, &stepped), counted = stepped.instructions;
}
static void install(void) {
    layout.states = size;
    hemdroas_install(&layout, size, 0, table, 16 * size, 0, 0, memory, U, &machine, &answer);
}
static void determinise(void) { hemdroas_determinise(size, 1, arrows, 16 * size, made, sizeof made, &drawn); }
static void merge(void) {
    policy.states = size;
    hemdroas_merge(&policy, table, 16 * size, &policy, table, 16 * size, made, sizeof made, &merged, &answer);
}

static double least(void (*call)(void)) {
    double best = 1e18;
    for (int i = 0; i < ROUNDS; i++) {
        struct timespec a, b;
        clock_gettime(CLOCK_MONOTONIC, &a), call(), clock_gettime(CLOCK_MONOTONIC, &b);
        double t = (double)(b.tv_sec - a.tv_sec) * 1e9 + (double)(b.tv_nsec - a.tv_nsec);
        if (t < best) best = t;
    }
    return best;
}

static void row(const char *name, double t[SIZES], const char *unit) {
    printf("%-12s", name);
    for (int i = 0; i < SIZES; i++) printf(" %9.2f", t[i]);
    printf("  ns %s\n", unit);
}

int main(void) {
    static const size_t ROUTINES[SIZES] = {127, 255, 511, 1023}, STATES[SIZES] = {2, 4, 8, 16};
    static const uint32_t BUDGETS[SIZES] = {1000, 10000, 100000, 1000000};
    double t[6][SIZES];
    /* adds, and a jump back to the first: the budget ends a run */
    for (int i = 0; i < SIZES; i++) {
        size = ROUTINES[i];
        for (size_t j = 0; j < size; j++) words[j] = j + 1 < size ? 3 | 1 << 8 | 1 << 12 | 2 << 16 : 10;
        double n = (double)size;
        t[0][i] = least(write_) / n, length = answer.place;
        t[1][i] = least(read_) / n, t[2][i] = least(rewrite) / n, t[3][i] = least(check) / n;
        if (answer.number) return printf("refused: %s\n", hemdroas_refusal_text(answer.number)), 1;
    }
    printf("%zu, %zu, %zu and %zu instructions:\n", ROUTINES[0], ROUTINES[1], ROUTINES[2], ROUTINES[3]);
    row("write", t[0], "an instruction"), row("read", t[1], "an instruction");
    row("rewrite", t[2], "an instruction"), row("check", t[3], "an instruction");
    for (int i = 0; i < SIZES; i++) {
        budget = BUDGETS[i];
        t[0][i] = least(run) / counted, t[1][i] = least(run_engine) / counted;
    }
    printf("budgets of %u, %u, %u and %u, of 1,023 instructions:\n", BUDGETS[0], BUDGETS[1], BUDGETS[2], BUDGETS[3]);
    row("run", t[0], "a step"), row("engine", t[1], "an instruction");
    /* each event leads one state on */
    for (int i = 0; i < SIZES; i++) {
        size = STATES[i];
        for (size_t s = 0; s < size; s++)
            for (size_t e = 0; e < 16; e++) table[16 * s + e] = (uint8_t)((s + 1) % size), arrows[16 * s + e] = (uint16_t)(1u << (s + 1) % size);
        double n = (double)size;
        t[0][i] = least(install) / n, t[1][i] = least(determinise) / n, t[2][i] = least(merge) / n;
    }
    printf("%zu, %zu, %zu and %zu states:\n", STATES[0], STATES[1], STATES[2], STATES[3]);
    row("install", t[0], "a state"), row("determinise", t[1], "a state"), row("merge", t[2], "a state");
    return 0;
}
