/*
 * A small host: loads a routine of 18 bytes, runs it and prints its events.
 *
 * Install the library with 'tools/install PREFIX', then build:
 *   gcc -std=c11 -Wall -Wextra examples/host.c $(pkg-config --cflags --libs hemdroas) -o target/host
 */
#include "hemdroas.h"

#include <inttypes.h>
#include <stdio.h>
#include <string.h>

enum { CELLS = 1024, STATE_CELL = 0, STATES = 2, LOG = 64 };
enum { GAS = 0, DOOR = 2 };

static const struct hemdroas_layout layout = {
    .cells = CELLS,
    .low = 256,
    .high = 511,
    .state_cell = STATE_CELL,
    .table = 16,
    .states = STATES,
    .base = 4096,
    .landings = 64,
    .ceilings = HEMDROAS_NO_CEILINGS,
};

/* Orders gas at 70, opens the door and orders gas again. The policy forbids that. */
static const uint8_t routine[] = {0x04, 0x00,
                                  0x21, 0x01, 0x46, 0x00, 0x00, 0x00,
                                  0x01, 0x0C,
                                  0x21, 0x0C, 0x02, 0x00, 0x00, 0x00,
                                  0x01, 0x0C};

static const uint32_t readings[] = {1800, 1950, 2100};

/* Where a GOX may go: instruction 0. This routine has no GOX. */
static const uint32_t landings[] = {0};

static uint64_t commands[HEMDROAS_MOST_COMMANDS];
static uint32_t memory[CELLS];

int main(void)
{
    /* State 0: the door is shut, and everything is allowed. State 1: the door is
     * open, and gas is not allowed. No event leads back to state 0. */
    uint8_t table[HEMDROAS_EVENTS * STATES];
    memset(table, 0, HEMDROAS_EVENTS);
    memset(table + HEMDROAS_EVENTS, 1, HEMDROAS_EVENTS);
    table[DOOR] = 1;
    table[HEMDROAS_EVENTS + GAS] = HEMDROAS_NO_ARROW;

    struct hemdroas_machine machine;
    struct hemdroas_answer loaded;
    hemdroas_load(&layout, STATES, 0, table, sizeof table,
                  landings, sizeof landings / sizeof landings[0], routine, sizeof routine,
                  commands, HEMDROAS_MOST_COMMANDS, memory, CELLS, &machine, &loaded);
    printf("answer %" PRIu32 "\n", loaded.number);
    if (loaded.number != HEMDROAS_TAKEN) {
        fprintf(stderr, "loading: %s at %" PRIu32 "\n", hemdroas_refusal_text(loaded.number), loaded.place);
        return 1;
    }

    uint32_t log[LOG];
    struct hemdroas_run_answer ran;
    hemdroas_run(&layout, commands, loaded.place, &machine, memory, CELLS, 1000,
                 readings, sizeof readings / sizeof readings[0], log, LOG, &ran);
    if (ran.ending == HEMDROAS_BAD_LAYOUT) {
        fprintf(stderr, "running: %s\n", hemdroas_ending_text(ran.ending));
        return 1;
    }
    for (uint32_t pair = 0; pair < ran.pairs; pair++)
        printf("event %" PRIu32 " %" PRIu32 "\n", log[2 * pair], log[2 * pair + 1]);
    printf("end %" PRIu32 " steps %" PRIu32 " state %" PRIu32 "\n", ran.ending, ran.steps, memory[STATE_CELL]);
    return 0;
}
