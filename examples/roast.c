/*
 * A fuller host: a drum that roasts two lots with a stranger's routine.
 *
 * The host keeps its purge timer and its batch record in the same memory. The
 * routine tries to write the timer. The host shows that no cell outside the
 * sandbox changed but the state cell. Before each run a preview shows what the
 * run will do. The routine pauses when the log is full or the probe has no
 * reading. For lot 2 the host merges its policy with that of the coffee's
 * exporter and installs the merged one.
 *
 * Install the library with 'tools/install PREFIX', then build:
 *   gcc -std=c11 -Wall -Wextra examples/roast.c $(pkg-config --cflags --libs hemdroas) -o target/roast
 */
#include "hemdroas.h"

#include <inttypes.h>
#include <stdio.h>
#include <stdlib.h>
#include <string.h>

/* Where things lie in memory. The purge timer and the batch record are in cells
 * that neither the sandbox nor the policy uses. The table, cells 16 to 127, has
 * room for 7 states. */
enum { STATE_CELL = 0, PURGE = 8, BATCH_LOT = 9, BATCH_WEIGHT = 10, BATCH_EVENTS = 11, TABLE = 16, LANDINGS = 128, LOW = 256, HIGH = 511, CELLS = 1024 };

enum { GAS = 0, AIR = 1, DOOR = 2, CHARGE = 3, PROBE = 8 };
enum { BUDGET = 1000, LOG = 8 };

/* The exporter's routine: charges the drum, heats until the beans have 200 degrees, then opens the door. */
static const uint8_t routine[] = {
    0x0D, 0x00,                                     /*     13 instructions; HALT follows the last */
    0x23, 0x01, 0x01, 0xD0, 0x07, 0x00, 0x00,       /*  0  SET r1, 2000 */
    0x23, 0x01, 0x02, 0x08, 0x00, 0x00, 0x00,       /*  1  SET r2, 8 */
    0x0D, 0x09, 0x02, 0x01,                         /*  2  STORE r2, r1: tries to set the purge timer */
    0x21, 0x01, 0x01, 0x00, 0x00, 0x00,             /*  3  SET r0, 1 */
    0x21, 0x0C, 0x03, 0x00, 0x00, 0x00,             /*  4  EVENT charge */
    0x21, 0x01, 0x78, 0x00, 0x00, 0x00,             /*  5  SET r0, 120: above the ceiling */
    0x01, 0x0C,                                     /*  6  EVENT gas */
    0x21, 0x0C, 0x08, 0x00, 0x00, 0x00,             /*  7  EVENT probe: r0 becomes the reading */
    0x39, 0x0A, 0x01, 0x02, 0x05, 0x00, 0x00, 0x00, /*  8  GOIF r0, r1, below, 5 */
    0x01, 0x01,                                     /*  9  SET r0, 0 */
    0x01, 0x0C,                                     /* 10  EVENT gas */
    0x21, 0x01, 0x01, 0x00, 0x00, 0x00,             /* 11  SET r0, 1 */
    0x21, 0x0C, 0x02, 0x00, 0x00, 0x00,             /* 12  EVENT door */
};

/* Where a GOX may go: instruction 0. This routine has no GOX. */
static const uint32_t landings[] = {0};
enum { LANDINGS_LISTED = sizeof landings / sizeof landings[0] };

/* fit_layout sets states and ceilings to those of the policy. */
static struct hemdroas_layout layout = {
    .cells = CELLS,
    .low = LOW,
    .high = HIGH,
    .state_cell = STATE_CELL,
    .table = TABLE,
    .states = 1,
    .base = 0x10000,
    .landings = LANDINGS,
    .ceilings = HEMDROAS_NO_CEILINGS,
};

static uint64_t commands[HEMDROAS_MOST_COMMANDS];
static size_t length; /* commands of the routine */
static uint32_t memory[CELLS];
static struct hemdroas_machine machine;

static void fail(const char *what, const char *why, uint32_t place)
{
    fprintf(stderr, "%s: %s, at %" PRIu32 "\n", what, why, place);
    exit(1);
}

static void must(const char *what, struct hemdroas_answer answer)
{
    if (answer.number != HEMDROAS_TAKEN)
        fail(what, hemdroas_refusal_text(answer.number), answer.place);
}

/* ---- policies */

struct policy {
    struct hemdroas_policy numbers;
    uint8_t table[HEMDROAS_MOST_TABLE];
};

static size_t table_length(const struct policy *p)
{
    return (size_t)HEMDROAS_EVENTS * p->numbers.states;
}

static void arrow(struct policy *p, uint32_t from, uint32_t event, uint8_t to)
{
    p->table[HEMDROAS_EVENTS * from + event] = to;
}

/* A policy that allows every event in every state, and gas up to most_gas. */
static void start_policy(struct policy *p, uint32_t states, uint32_t most_gas)
{
    const struct hemdroas_policy open = {.states = states, .start = 0, .ceilings = HEMDROAS_NO_CEILINGS};
    p->numbers = open;
    p->numbers.ceilings[GAS] = most_gas;
    for (uint32_t state = 0; state < states; state++)
        memset(p->table + HEMDROAS_EVENTS * state, (int)state, HEMDROAS_EVENTS);
}

/* The roastery's policy: no gas once the door is open. */
static void roastery(struct policy *p)
{
    start_policy(p, 2, 100);
    arrow(p, 0, DOOR, 1);
    arrow(p, 1, GAS, HEMDROAS_NO_ARROW);
}

/* The exporter's policy: charge before gas and door, and at most two orders of gas. */
static void exporter(struct policy *p)
{
    start_policy(p, 4, 80);
    arrow(p, 0, GAS, HEMDROAS_NO_ARROW);
    arrow(p, 0, DOOR, HEMDROAS_NO_ARROW);
    arrow(p, 0, CHARGE, 1);
    arrow(p, 1, GAS, 2);
    arrow(p, 2, GAS, 3);
    arrow(p, 3, GAS, HEMDROAS_NO_ARROW);
}

static void fit_layout(const struct policy *p)
{
    layout.states = p->numbers.states;
    memcpy(layout.ceilings, p->numbers.ceilings, sizeof layout.ceilings);
}

static void load(const struct policy *p)
{
    struct hemdroas_answer answer;
    fit_layout(p);
    hemdroas_load(&layout, p->numbers.states, p->numbers.start, p->table, table_length(p), landings, LANDINGS_LISTED,
                  routine, sizeof routine, commands, HEMDROAS_MOST_COMMANDS, memory, CELLS, &machine, &answer);
    must("loading", answer);
    length = answer.place;
}

/* Installs another policy for the same commands. The layout changes, so they are checked again. */
static void swap_policy(const struct policy *p)
{
    struct hemdroas_answer answer;
    fit_layout(p);
    hemdroas_check(&layout, commands, length, &answer);
    must("checking", answer);
    hemdroas_install(&layout, p->numbers.states, p->numbers.start, p->table, table_length(p), landings, LANDINGS_LISTED,
                     memory, CELLS, &machine, &answer);
    must("installing", answer);
}

/* ---- runs */

static const char *event_name(uint32_t event)
{
    switch (event) {
    case GAS: return "gas";
    case AIR: return "air";
    case DOOR: return "door";
    case CHARGE: return "charge";
    case PROBE: return "probe";
    default: return "event";
    }
}

static void print_answer(const char *what, const struct hemdroas_run_answer *answer)
{
    printf("  %-8s %s: steps %" PRIu32 ", events %" PRIu32 ", readings %" PRIu32 "\n",
           what, hemdroas_ending_text(answer->ending), answer->steps, answer->pairs, answer->readings);
}

/* Previews a run, then runs. Fails if the run differs from its preview, or changes
 * a cell outside the sandbox other than the state cell. */
static struct hemdroas_run_answer stretch(const uint32_t *readings, size_t count)
{
    uint32_t before[CELLS], work[CELLS], foreseen[LOG] = {0}, log[LOG] = {0};
    struct hemdroas_machine after;
    struct hemdroas_run_answer preview, ran;

    hemdroas_preview(&layout, commands, length, &machine, memory, CELLS, work, CELLS, BUDGET, readings, count, foreseen, LOG,
                     &after, &preview);
    print_answer("preview", &preview);

    memcpy(before, memory, sizeof memory);
    hemdroas_run(&layout, commands, length, &machine, memory, CELLS, BUDGET, readings, count, log, LOG, &ran);
    print_answer("run", &ran);
    if (ran.ending == HEMDROAS_BAD_LAYOUT)
        fail("running", hemdroas_ending_text(ran.ending), 0);
    for (uint32_t pair = 0; pair < ran.pairs; pair++)
        printf("    %s %" PRIu32 "\n", event_name(log[2 * pair]), log[2 * pair + 1]);

    if (memcmp(&preview, &ran, sizeof ran) != 0 || memcmp(&after, &machine, sizeof machine) != 0 || memcmp(foreseen, log, sizeof log) != 0
        || memcmp(work, memory, sizeof work) != 0)
        fail("running", "not as previewed", machine.pc);
    for (uint32_t cell = 0; cell < CELLS; cell++)
        if ((cell < LOW || HIGH < cell) && cell != STATE_CELL && memory[cell] != before[cell])
            fail("running", "a cell outside the sandbox moved", cell);
    return ran;
}

/* Roasts a lot to its end. The probe has its first readings at once, the others only after a pause. */
static void roast(uint32_t lot, uint32_t weight, const uint32_t *readings, size_t first, size_t count)
{
    printf("lot %" PRIu32 ": policy of %" PRIu32 " states, gas up to %" PRIu32 "\n", lot, layout.states, layout.ceilings[GAS]);
    memory[BATCH_LOT] = lot;
    memory[BATCH_WEIGHT] = weight;
    memory[BATCH_EVENTS] = 0;
    size_t used = 0, given = first;
    struct hemdroas_run_answer ran;
    do {
        memory[PURGE]--; /* the host's own timer; no run can read it */
        ran = stretch(readings + used, given - used);
        used += ran.readings;
        memory[BATCH_EVENTS] += ran.pairs;
        if (ran.ending == HEMDROAS_ENDING_PROBE_SILENT) {
            if (given == count)
                fail("roasting", "no more readings", lot);
            given = count;
        }
    } while (machine.status == HEMDROAS_STATUS_RUNNING);
    printf("lot %" PRIu32 ": %s, %" PRIu32 " events\n", lot, hemdroas_ending_text(ran.ending), memory[BATCH_EVENTS]);
}

int main(void)
{
    static const uint32_t lot1[] = {1500, 1720, 1880, 2010}, lot2[] = {1490, 1700, 1890, 2030};
    static struct policy ours, theirs, both;
    struct hemdroas_answer merged;
    roastery(&ours);
    exporter(&theirs);
    hemdroas_merge(&ours.numbers, ours.table, table_length(&ours), &theirs.numbers, theirs.table, table_length(&theirs),
                   both.table, sizeof both.table, &both.numbers, &merged);
    must("merging", merged);

    memory[PURGE] = 600;
    load(&ours);
    roast(1, 60, lot1, 2, 4);
    swap_policy(&both);
    roast(2, 45, lot2, 4, 4);

    printf("purge timer %" PRIu32 ", batch record: lot %" PRIu32 ", %" PRIu32 " kg, %" PRIu32 " events; the routine's %" PRIu32 " went to cell %d\n",
           memory[PURGE], memory[BATCH_LOT], memory[BATCH_WEIGHT], memory[BATCH_EVENTS],
           memory[(PURGE & HIGH) | LOW], (PURGE & HIGH) | LOW);
    return 0;
}
