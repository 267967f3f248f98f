/*
 * A controller in a few kilobytes. It polls the probe one reading at a time, runs
 * the routine for a few steps at each tick, and drains a log of four events. The
 * drum is a model: gas warms the beans. The routine then runs again as it is
 * written, by the engine, and must give the same orders. A damaged routine is
 * refused.
 */
#include "hemdroas.h"

#include <inttypes.h>
#include <stdio.h>
#include <string.h>

enum { GAS = 0, DOOR = 2, CHARGE = 3, PROBE = 8 };
enum { STATE_CELL = 0, PURGE_TIMER = 4, LANDINGS = 16, TABLE = 64, STATES = 8, LOW = 256, HIGH = 319, CELLS = 320 };
enum { STEPS_A_TICK = 24, LOG = 8, MOST_EVENTS = 64, MOST_TICKS = 1000, PURGE_SECONDS = 600 };
enum { WORDS = 20, COMMANDS = 128, BYTES = 160 };
enum { COLD = 1500, WANTED = 1900, MOST_GAS = 60 };

/* ---- the routine: warms the beans by a quarter of what is missing, then opens the door */

enum { SET = 1, MOVE = 2, SUB = 4, SAR = 7, STORE = 9, GOIF = 10, GOX = 11, EVENT = 12 };
enum { ALWAYS = 0, LESS = 3 };
#define WORD(kind, d, a, b, c, v) \
    ((uint64_t)(kind) | (uint64_t)(d) << 8 | (uint64_t)(a) << 12 | (uint64_t)(b) << 16 | (uint64_t)(c) << 20 | (uint64_t)(v) << 32)

static const uint64_t routine[WORDS] = {
    WORD(SET, 1, 0, 0, 0, WANTED),      /*  0 */
    WORD(SET, 7, 0, 0, 0, PURGE_TIMER), /*  1 */
    WORD(SET, 0, 0, 0, 0, 1),           /*  2 */
    WORD(EVENT, 0, 0, 0, 0, CHARGE),    /*  3 */
    WORD(EVENT, 0, 0, 0, 0, PROBE),     /*  4 a landing: r0 becomes the reading */
    WORD(SUB, 2, 1, 0, 0, 0),           /*  5 */
    WORD(SAR, 2, 2, 0, 0, 2),           /*  6 */
    WORD(SET, 3, 0, 0, 0, 0),           /*  7 */
    WORD(GOIF, 0, 3, 2, LESS, 11),      /*  8 */
    WORD(SET, 6, 0, 0, 0, 14),          /*  9 warm enough */
    WORD(GOX, 6, 0, 0, ALWAYS, 0),      /* 10 to instruction 14 */
    WORD(MOVE, 0, 2, 0, 0, 0),          /* 11 */
    WORD(EVENT, 0, 0, 0, 0, GAS),       /* 12 */
    WORD(GOIF, 0, 0, 0, ALWAYS, 4),     /* 13 */
    WORD(SET, 0, 0, 0, 0, 0),           /* 14 a landing */
    WORD(EVENT, 0, 0, 0, 0, GAS),       /* 15 */
    WORD(STORE, 0, 7, 0, 0, 0),         /* 16 at the purge timer, it thinks */
    WORD(SET, 0, 0, 0, 0, 1),           /* 17 */
    WORD(EVENT, 0, 0, 0, 0, DOOR),      /* 18 */
    WORD(GOIF, 0, 0, 0, ALWAYS, 20),    /* 19 to the end */
};
static const uint32_t landings[] = {4, 14};
enum { LANDINGS_LISTED = sizeof landings / sizeof landings[0] };

/* ---- the drum */

static struct hemdroas_layout layout = {CELLS, LOW, HIGH, STATE_CELL, TABLE, STATES, 0, LANDINGS, HEMDROAS_NO_CEILINGS};
static uint32_t memory[CELLS];
static uint8_t table[HEMDROAS_EVENTS * STATES];
static uint8_t bytes[BYTES];
static uint64_t commands[COMMANDS];

struct roast {
    uint32_t temperature, ticks, count;
    uint32_t events[2 * MOST_EVENTS];
};
static struct roast by_machine, by_engine;

static int refused(const char *what, uint32_t number, uint32_t place)
{
    if (number != HEMDROAS_TAKEN)
        printf("%s: refused as %s (%" PRIu32 ") at %" PRIu32 "\n", what, hemdroas_refusal_text(number), number, place);
    return number != HEMDROAS_TAKEN;
}

/* Charge before gas, gas before the door. */
static int make_policy(void)
{
    static const uint8_t pairs[] = {CHARGE, GAS, GAS, DOOR};
    struct hemdroas_precedence_answer made;
    hemdroas_precedence(pairs, sizeof pairs, table, sizeof table, &made);
    return refused("policy", made.number, made.place) || made.states != STATES;
}

/* Takes the events of a run off the log. The beans warm with each order of gas. */
static void drain(struct roast *roast, const uint32_t *log, uint32_t pairs)
{
    for (uint32_t i = 0; i < pairs && roast->count < MOST_EVENTS; i++, roast->count++) {
        memcpy(&roast->events[2 * roast->count], &log[2 * i], 2 * sizeof log[0]);
        if (log[2 * i] == GAS)
            roast->temperature += log[2 * i + 1];
    }
}

static int load(const uint8_t *from, uint32_t n, uint32_t *length, struct hemdroas_machine *machine)
{
    struct hemdroas_answer answer;
    hemdroas_load(&layout, STATES, 0, table, sizeof table, landings, LANDINGS_LISTED, from, n, commands, COMMANDS, memory, CELLS,
                  machine, &answer);
    *length = answer.place;
    return refused("routine", answer.number, answer.place);
}

static uint32_t roast_by_machine(uint32_t length, struct hemdroas_machine *machine)
{
    uint32_t log[LOG];
    struct hemdroas_run_answer ran = {0, 0, 0, 0};
    by_machine.temperature = COLD;
    do {
        uint64_t polled = ran.ending == HEMDROAS_ENDING_PROBE_SILENT;
        hemdroas_run(&layout, commands, length, machine, memory, CELLS, STEPS_A_TICK, polled ? &by_machine.temperature : NULL, polled,
                     log, LOG, &ran);
        drain(&by_machine, log, ran.pairs);
    } while (machine->status == HEMDROAS_STATUS_RUNNING && ++by_machine.ticks < MOST_TICKS);
    return ran.ending;
}

static uint32_t roast_by_engine(void)
{
    uint32_t log[LOG];
    struct hemdroas_engine engine = {{0}, 0, 0};
    struct hemdroas_engine_answer ran = {0, 0, 0, 0, 0};
    by_engine.temperature = COLD;
    do {
        uint64_t polled = ran.ending == HEMDROAS_ENDING_PROBE_SILENT;
        hemdroas_engine_run(&layout, routine, WORDS, &engine, memory, CELLS, STEPS_A_TICK, polled ? &by_engine.temperature : NULL, polled,
                            log, LOG, &ran);
        drain(&by_engine, log, ran.pairs);
    } while (engine.status == HEMDROAS_STATUS_RUNNING && ++by_engine.ticks < MOST_TICKS);
    return ran.ending;
}

static void print_roast(const char *by, uint32_t ending, const struct roast *roast)
{
    printf("%s: %s (%" PRIu32 "), %" PRIu32 " events, beans at %" PRIu32 "\n", by, hemdroas_ending_text(ending), ending, roast->count,
           roast->temperature);
}

int main(void)
{
    struct hemdroas_answer answer;
    struct hemdroas_machine machine;
    uint32_t n, length;
    printf("hemdroas %s\n", HEMDROAS_VERSION);
    memory[PURGE_TIMER] = PURGE_SECONDS;
    layout.ceilings[GAS] = MOST_GAS;
    hemdroas_write(routine, WORDS, bytes, BYTES, &answer);
    n = answer.place;
    if (refused("writing", answer.number, answer.place) || make_policy() || load(bytes, n, &length, &machine))
        return 1;
    print_roast("machine", roast_by_machine(length, &machine), &by_machine);

    hemdroas_install(&layout, STATES, 0, table, sizeof table, landings, LANDINGS_LISTED, memory, CELLS, &machine, &answer);
    if (refused("policy", answer.number, answer.place))
        return 1;
    print_roast("engine", roast_by_engine(), &by_engine);
    if (by_machine.count != by_engine.count || memcmp(by_machine.events, by_engine.events, sizeof by_machine.events) != 0)
        return printf("the two gave different orders\n"), 1;

    printf("purge timer: %" PRIu32 "\n", memory[PURGE_TIMER]);
    bytes[2] ^= 0x40; /* a map of 64 or more */
    return load(bytes, n, &length, &machine) ? 0 : 1;
}
