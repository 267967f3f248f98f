/*
 * Random calls of every function of the library, the same calls on every
 * machine: routines, command lists, layouts, records and policies, right and
 * damaged. Every answer, every buffer lent and the eight elements past it go
 * into a hash, by their values and not by their bytes. Two builds of the library
 * agree if they print the same. An empty buffer is always lent as NULL.
 *
 * A new function takes a line of FUNCTIONS, a function under 'calls' and a place
 * in 'turn'.
 */
#include "hemdroas.h"

#ifdef BARE
void put_text(const char *text, uint32_t length); /* of the machine's own file */
#else
#include <stdio.h>
static void put_text(const char *text, uint32_t length)
{
    fwrite(text, 1, length, stdout);
    fflush(stdout);
}
#endif

#ifndef CALLS
#define CALLS 200000
#endif

/* Its name in this file, its name in C, and whether it takes buffers. */
#define FUNCTIONS(X) \
    X(READ, "hemdroas_read", 1) \
    X(WRITE, "hemdroas_write", 1) \
    X(REWRITE, "hemdroas_rewrite", 1) \
    X(CHECK, "hemdroas_check", 1) \
    X(FORWARD, "hemdroas_forward", 1) \
    X(CHECK_FORWARD, "hemdroas_check_forward", 1) \
    X(WORD_RIGHT, "hemdroas_word_right", 0) \
    X(INSTALL, "hemdroas_install", 1) \
    X(LOAD, "hemdroas_load", 1) \
    X(RUN, "hemdroas_run", 1) \
    X(PREVIEW, "hemdroas_preview", 1) \
    X(ENGINE_RUN, "hemdroas_engine_run", 1) \
    X(ENGINE_CONTINUE, "hemdroas_engine_continue", 1) \
    X(PRECEDENCE, "hemdroas_precedence", 1) \
    X(DETERMINISE, "hemdroas_determinise", 1) \
    X(MERGE, "hemdroas_merge", 1)

#define MEMBER(member, name, buffers) member,
#define NAME(member, name, buffers) name,
#define BUFFERS(member, name, buffers) buffers,
enum function { FUNCTIONS(MEMBER) HOW_MANY };
static const char *const names[HOW_MANY] = {FUNCTIONS(NAME)};
static const uint8_t takes_buffers[HOW_MANY] = {FUNCTIONS(BUFFERS)};

enum { CALLS_A_LINE = 10000, PAST = 8, ODD = 4 };
enum { SELDOM = 4, SOMETIMES = 30, OFTEN = 50, MOSTLY = 90 }; /* percent */
enum { COUNT_BYTES = 2, MOST_BYTES_A_WORD = 9 };
enum { WORDS = HEMDROAS_MOST_WORDS + 1, BYTES = MOST_BYTES_A_WORD * WORDS, TABLE = HEMDROAS_MOST_TABLE + 4, PAIRS = 16, READINGS = 8, LOG = 8 };
enum { STATES = HEMDROAS_MOST_STATES, EVENTS = HEMDROAS_EVENTS, ARROWS = STATES * EVENTS, BUNDLE = 4, LANDING_CELLS = 32 };

static uint8_t bytes_lent[BYTES + ODD + PAST], pairs[PAIRS + PAST];
static uint8_t table_lent[TABLE + ODD + PAST], other_table[TABLE + PAST], made_table[TABLE + PAST];
static uint64_t words[WORDS + PAST], words_read[WORDS + PAST], commands[HEMDROAS_MOST_COMMANDS + PAST];
static uint32_t memory[HEMDROAS_MOST_CELLS + PAST], work[HEMDROAS_MOST_CELLS + PAST];
static uint32_t readings[READINGS + PAST], event_log[LOG + PAST], landings[HEMDROAS_MOST_LANDINGS + PAST];
static uint16_t arrows[ARROWS + PAST];
static struct hemdroas_layout layout;
static struct hemdroas_machine machine, after;
static struct hemdroas_engine engine;
static struct hemdroas_policy one, other, merged;
static uint32_t words_made, bytes_made, commands_made, landings_made;

/* ---- chance. C leaves the order within a statement open: one call of 'any' in each */

static uint64_t seed = 1;

static uint32_t any(void)
{
    uint64_t z = (seed += 0x9E3779B97F4A7C15u); /* splitmix64 */
    z = (z ^ z >> 30) * 0xBF58476D1CE4E5B9u;
    z = (z ^ z >> 27) * 0x94D049BB133111EBu;
    return (uint32_t)((z ^ z >> 31) >> 32);
}

static uint32_t below(uint32_t bound) { return (uint32_t)((uint64_t)any() * bound >> 32); }
static uint32_t at_most(uint32_t most) { return below(most + 1); }
static int chance(uint32_t percent) { return below(100) < percent; }

enum { SMALL = 20, ABOVE_ALL_CELLS = 5000, FEW = 12, SOME = 64 };

/* Small, near 2^32, about a cell's address, or any. */
static uint32_t number(void)
{
    uint32_t way = below(4), x = any();
    switch (way) {
    case 0: return x % SMALL;
    case 1: return 0u - x % SMALL;
    case 2: return x % ABOVE_ALL_CELLS;
    default: return x;
    }
}

/* Two thirds few, a third some, the rest any. */
static uint32_t size(uint32_t most)
{
    uint32_t way = below(100), top = way < 65 ? FEW : way < 95 ? SOME : most;
    return at_most(top < most ? top : most);
}

/* Mostly enough, sometimes all there is, sometimes too little. */
static uint32_t room_for(uint32_t need, uint32_t most)
{
    uint32_t way = below(8), more = below(4), enough = need + more < most ? need + more : most;
    return way == 0 ? at_most(enough) : way == 1 ? most : enough;
}

static void fill(uint32_t *numbers, uint32_t n)
{
    for (uint32_t i = 0; i < n; i++)
        numbers[i] = number();
}

static void damage(void *numbers, uint32_t n, uint32_t percent)
{
    if (chance(percent)) {
        uint32_t which = below(n);
        ((uint32_t *)numbers)[which] = number();
    }
}

/* ---- what is printed */

static void print(const char *text)
{
    uint32_t n = 0;
    while (text[n])
        n++;
    put_text(text, n);
}

static void print_number(uint64_t x, uint32_t base, uint32_t digits)
{
    char text[20];
    uint32_t at = sizeof text;
    do
        text[--at] = "0123456789abcdef"[x % base], x /= base;
    while (x || sizeof text - at < digits);
    put_text(text + at, (uint32_t)sizeof text - at);
}

static void print_times(const char *name, const char *space, uint32_t times)
{
    print(name), print(space), print(": "), print_number(times, 10, 1), print(" times\n");
}

/* ---- the hash, and how often each function gave each number */

enum { NUMBERS = 32 }; /* above all answers */
static uint64_t hash = 0xCBF29CE484222325u; /* FNV-1a's */
static uint32_t calls, tallies[HOW_MANY][NUMBERS], nulls[HOW_MANY], nulls_lent;

static void mix(uint32_t x)
{
    hash = (hash ^ x) * 0x100000001B3u;
    hash ^= hash >> 29;
}

static void mix_record(const void *numbers, uint32_t size)
{
    for (uint32_t i = 0; i < size / sizeof(uint32_t); i++)
        mix(((const uint32_t *)numbers)[i]);
}

#define MIX_LENT(name, type) \
    static void name(const type *elements, uint32_t n) \
    { \
        for (uint32_t i = 0; i < n + PAST; i++) \
            mix((uint32_t)elements[i]), mix((uint32_t)((uint64_t)elements[i] >> 32)); \
    }
MIX_LENT(mix_bytes, uint8_t)
MIX_LENT(mix_maps, uint16_t)
MIX_LENT(mix_cells, uint32_t)
MIX_LENT(mix_words, uint64_t)

static int is_empty(uint32_t n)
{
    nulls_lent += n == 0;
    return n == 0;
}
#define LENT(buffer, n) (is_empty(n) ? 0 : (buffer)), (n)

static void called(enum function function, uint32_t number)
{
    tallies[function][number < NUMBERS ? number : NUMBERS - 1]++;
    nulls[function] += nulls_lent;
    nulls_lent = 0;
    mix(function), mix(number);
    if (++calls % CALLS_A_LINE == 0)
        print_number(calls, 10, 1), print(" calls "), print_number(hash, 16, 16), print("\n");
}

static void answered(enum function function, struct hemdroas_answer answer)
{
    mix(answer.place);
    called(function, answer.number);
}

/* ---- inputs */

enum { FIELD_D = 1, FIELD_A = 2, FIELD_B = 4, FIELD_C = 8, FIELD_V = 16, ALL_FIELDS = 31 };
enum { SHIFT_D = 8, SHIFT_A = 12, SHIFT_B = 16, SHIFT_C = 20, SHIFT_V = 32 };
enum { REGISTERS = 15, CONDITIONS = 4, SHIFTS = 32 };
enum { HALT, SET, MOVE, ADD, SUB, AND, OR, SAR, LOADS, STORE, GOIF, GOX, EVENT, KINDS };
static const uint8_t fields_of[KINDS] = {
    [SET] = FIELD_D | FIELD_V,
    [MOVE] = FIELD_D | FIELD_A,
    [ADD] = FIELD_D | FIELD_A | FIELD_B,
    [SUB] = FIELD_D | FIELD_A | FIELD_B,
    [AND] = FIELD_D | FIELD_A | FIELD_B,
    [OR] = FIELD_D | FIELD_A | FIELD_B,
    [SAR] = FIELD_D | FIELD_A | FIELD_V,
    [LOADS] = FIELD_D | FIELD_A,
    [STORE] = FIELD_A | FIELD_B,
    [GOIF] = FIELD_A | FIELD_B | FIELD_C | FIELD_V,
    [GOX] = FIELD_D | FIELD_A | FIELD_B | FIELD_C,
    [EVENT] = FIELD_V,
};

static uint32_t field_v(uint32_t kind, uint32_t at, int forwards)
{
    uint32_t v = number();
    switch (kind) {
    case SAR: return v % SHIFTS;
    case GOIF: return forwards ? at + 1 + v % (words_made - at) : v % (words_made + 1);
    case EVENT: return v % EVENTS;
    default: return v;
    }
}

static uint64_t make_word(uint32_t kind, uint32_t at, int forwards, uint32_t harm)
{
    uint32_t d = below(REGISTERS), a = below(REGISTERS), b = below(REGISTERS), c = below(CONDITIONS), v = field_v(kind, at, forwards);
    uint32_t fields = chance(harm) ? ALL_FIELDS : fields_of[kind];
    uint64_t word = kind;
    if (fields & FIELD_D) word |= d << SHIFT_D;
    if (fields & FIELD_A) word |= a << SHIFT_A;
    if (fields & FIELD_B) word |= b << SHIFT_B;
    if (fields & FIELD_C) word |= c << SHIFT_C;
    if (fields & FIELD_V) word |= (uint64_t)v << SHIFT_V;
    if (chance(harm)) word ^= (uint64_t)1 << below(64);
    return word;
}

/* A routine: sometimes one that always finishes, sometimes without jumps and events, sometimes harmed. */
static void make_words(void)
{
    words_made = chance(1) ? WORDS : size(WORDS);
    int forwards = chance(OFTEN), quiet = chance(SOMETIMES);
    uint32_t harm = chance(SOMETIMES) ? SELDOM : 0;
    for (uint32_t i = 0; i < words_made; i++) {
        uint32_t kind = quiet ? SET + below(STORE) : below(KINDS);
        words[i] = make_word(forwards && kind == GOX ? EVENT : kind, i, forwards, harm);
    }
}

static uint32_t bundles_made(void)
{
    uint32_t bundles = 1;
    while (bundles <= words_made)
        bundles *= 2;
    return bundles;
}

/* Table, landing cells and state cell behind the sandbox, in any order. */
static uint32_t place_parts(uint32_t at)
{
    static const uint8_t orders[6][3] = {{0, 1, 2}, {0, 2, 1}, {1, 0, 2}, {1, 2, 0}, {2, 0, 1}, {2, 1, 0}};
    uint32_t order = below(6);
    for (uint32_t i = 0; i < 3; i++) {
        at += below(4);
        switch (orders[order][i]) {
        case 0: layout.table = at, at += EVENTS * layout.states; break;
        case 1: layout.landings = at, at += LANDING_CELLS; break;
        default: layout.state_cell = at++;
        }
    }
    return at;
}

static void make_layout(void)
{
    uint32_t sandbox = 1u << below(chance(MOSTLY) ? 8 : 12), first = sandbox * (1 + below(2));
    uint32_t commands_needed = BUNDLE * bundles_made();
    layout.low = first;
    layout.high = first + sandbox - 1;
    layout.states = 1 + below(chance(OFTEN) ? 4 : STATES);
    layout.cells = place_parts(first + sandbox);
    layout.cells += below(9);
    if (layout.cells > HEMDROAS_MOST_CELLS) layout.cells = HEMDROAS_MOST_CELLS;
    if (chance(SOMETIMES)) layout.state_cell = below(layout.low);
    layout.base = number() / commands_needed * commands_needed;
    fill(layout.ceilings, HEMDROAS_ORDERS);
    damage(&layout, 8, 12);
}

static void make_table(uint8_t *table, uint32_t states)
{
    uint32_t filled = OFTEN + at_most(OFTEN);
    for (uint32_t i = 0; i < EVENTS * states; i++) {
        uint32_t state = below(states);
        table[i] = chance(filled) ? (uint8_t)state : HEMDROAS_NO_ARROW;
    }
    if (chance(SELDOM)) {
        uint32_t where = below(EVENTS * states);
        table[where] = (uint8_t)any();
    }
}

static void make_landings(void)
{
    uint32_t share = at_most(100), most = chance(MOSTLY) ? 16 : HEMDROAS_MOST_LANDINGS;
    landings_made = 0;
    for (uint32_t i = 0; i < most; i++)
        if (chance(share)) landings[landings_made++] = i;
    if (landings_made) damage(landings, landings_made, SELDOM);
}

static uint32_t cells_lent(void)
{
    uint32_t right = layout.cells <= HEMDROAS_MOST_CELLS ? layout.cells : HEMDROAS_MOST_CELLS;
    return chance(SELDOM) ? size(HEMDROAS_MOST_CELLS) : right;
}

/* A policy to be installed: mostly of the layout's states. */
struct installed {
    uint32_t states, start, length;
};

static struct installed make_installed(uint8_t *table)
{
    uint32_t states = layout.states >= 1 && layout.states <= STATES ? layout.states : 1;
    struct installed policy = {states, below(states), EVENTS * states};
    make_table(table, states);
    damage(&policy.states, 1, SELDOM), damage(&policy.start, 1, SELDOM);
    if (chance(SELDOM)) policy.length = chance(OFTEN) ? 0 : at_most(TABLE);
    return policy;
}

enum { SHORT_RUN = 40, LONG_RUN = 3000 };

/* What a run is lent beside machine and memory. */
struct lent {
    uint32_t cells, budget, readings, log;
};

static struct lent make_lent(void)
{
    struct lent lent;
    lent.cells = cells_lent();
    lent.budget = below(chance(OFTEN) ? SHORT_RUN : LONG_RUN);
    lent.readings = at_most(READINGS);
    lent.log = at_most(LOG);
    fill(readings, lent.readings);
    return lent;
}

/* ---- calls */

static void harm_bytes(uint8_t *bytes)
{
    uint32_t way = below(4), by = below(4), where = below(bytes_made), bit = below(8);
    if (way == 0) bytes_made -= by < bytes_made ? by : 0;
    else if (way == 1) bytes_made += by;
    else bytes[where] ^= (uint8_t)(1u << bit);
}

static void call_write_and_read(uint8_t *bytes)
{
    struct hemdroas_answer answer;
    uint32_t room = room_for(COUNT_BYTES + MOST_BYTES_A_WORD * words_made, BYTES);
    hemdroas_write(LENT(words, words_made), LENT(bytes, room), &answer);
    answered(WRITE, answer), mix_bytes(bytes, room);
    if (answer.number) {
        bytes_made = at_most(40);
        for (uint32_t i = 0; i < bytes_made; i++)
            bytes[i] = (uint8_t)(any() % (KINDS + 1));
    } else {
        bytes_made = answer.place;
        if (chance(SOMETIMES)) harm_bytes(bytes);
    }
    room = room_for(words_made, WORDS);
    hemdroas_read(LENT(bytes, bytes_made), LENT(words_read, room), &answer);
    answered(READ, answer), mix_words(words_read, room);
}

static void call_load(const uint8_t *bytes)
{
    struct hemdroas_answer answer;
    uint8_t *table = table_lent + below(ODD);
    struct installed policy = make_installed(table);
    uint32_t cells = cells_lent(), room = room_for(BUNDLE * bundles_made(), HEMDROAS_MOST_COMMANDS);
    hemdroas_load(&layout, policy.states, policy.start, LENT(table, policy.length), LENT(landings, landings_made),
                  LENT(bytes, bytes_made), LENT(commands, room), LENT(memory, cells), &machine, &answer);
    answered(LOAD, answer), mix_words(commands, room), mix_cells(memory, cells), mix_record(&machine, sizeof machine);
    commands_made = answer.number ? 0 : answer.place;
}

static void call_preview_and_run(void)
{
    struct lent lent = make_lent();
    struct hemdroas_run_answer answer;
    uint32_t spare = chance(SELDOM) ? size(HEMDROAS_MOST_CELLS) : lent.cells;
    damage(&machine, sizeof machine / sizeof(uint32_t), SELDOM);
    hemdroas_preview(&layout, LENT(commands, commands_made), &machine, LENT(memory, lent.cells), LENT(work, spare), lent.budget,
                     LENT(readings, lent.readings), LENT(event_log, lent.log), &after, &answer);
    mix_record(&answer, sizeof answer), mix_record(&after, sizeof after), mix_cells(event_log, lent.log);
    mix_cells(memory, lent.cells), mix_cells(work, spare), called(PREVIEW, answer.ending);
    hemdroas_run(&layout, LENT(commands, commands_made), &machine, LENT(memory, lent.cells), lent.budget,
                 LENT(readings, lent.readings), LENT(event_log, lent.log), &answer);
    mix_record(&answer, sizeof answer), mix_record(&machine, sizeof machine), mix_cells(event_log, lent.log);
    mix_cells(memory, lent.cells), called(RUN, answer.ending);
}

static void call_runs(uint32_t times)
{
    do
        call_preview_and_run();
    while (commands_made && --times);
}

static void call_rewrite(void)
{
    struct hemdroas_answer answer;
    uint32_t room = room_for(BUNDLE * bundles_made(), HEMDROAS_MOST_COMMANDS);
    hemdroas_rewrite(&layout, LENT(words, words_made), LENT(commands, room), &answer);
    answered(REWRITE, answer), mix_words(commands, room);
    commands_made = answer.number == HEMDROAS_TAKEN ? answer.place : chance(SOMETIMES) ? (uint32_t)BUNDLE << below(4) : at_most(40);
    if (commands_made && chance(SOMETIMES)) {
        uint32_t where = below(commands_made), bit = below(64), from = below(commands_made);
        commands[where] = chance(MOSTLY) ? commands[where] ^ (uint64_t)1 << bit : commands[from];
    }
}

static void call_checks(void)
{
    struct hemdroas_answer answer;
    hemdroas_check(&layout, LENT(commands, commands_made), &answer);
    answered(CHECK, answer);
    hemdroas_check_forward(&layout, LENT(commands, commands_made), &answer);
    answered(CHECK_FORWARD, answer), mix_words(commands, commands_made);
    hemdroas_forward(LENT(words, words_made), &answer);
    answered(FORWARD, answer), mix_words(words, words_made);
}

static void call_install(void)
{
    struct hemdroas_answer answer;
    struct installed policy = make_installed(other_table);
    uint32_t cells = cells_lent();
    hemdroas_install(&layout, policy.states, policy.start, LENT(other_table, policy.length), LENT(landings, landings_made),
                     LENT(memory, cells), &machine, &answer);
    answered(INSTALL, answer), mix_cells(memory, cells), mix_record(&machine, sizeof machine);
}

static void call_word_right(void)
{
    uint32_t states = chance(MOSTLY) ? at_most(STATES + 1) : any(), word = 0;
    for (uint32_t i = 0; i < sizeof word; i++) {
        uint32_t way = below(4), x = any() & 255;
        word = word << 8 | (way == 0 ? x : way == 1 ? HEMDROAS_NO_ARROW : x % (STATES + 1));
    }
    called(WORD_RIGHT, hemdroas_word_right(states, word));
}

/* Calls either entry of the engine, with the record as the last call left it. */
static void call_engine(uint32_t times)
{
    struct hemdroas_engine_answer answer;
    engine = (struct hemdroas_engine){{0}, 0, 0};
    while (times--) {
        struct lent lent = make_lent();
        enum function entry = chance(OFTEN) ? ENGINE_RUN : ENGINE_CONTINUE;
        damage(&engine, sizeof engine / sizeof(uint32_t), SELDOM);
        if (entry == ENGINE_RUN)
            hemdroas_engine_run(&layout, LENT(words, words_made), &engine, LENT(memory, lent.cells), lent.budget,
                                LENT(readings, lent.readings), LENT(event_log, lent.log), &answer);
        else
            hemdroas_engine_continue(&layout, LENT(words, words_made), &engine, LENT(memory, lent.cells), lent.budget,
                                     LENT(readings, lent.readings), LENT(event_log, lent.log), &answer);
        mix_record(&answer, sizeof answer), mix_record(&engine, sizeof engine), mix_cells(event_log, lent.log);
        mix_cells(memory, lent.cells), called(entry, answer.ending);
    }
}

static uint32_t table_room(void) { return chance(MOSTLY) ? HEMDROAS_MOST_TABLE : size(TABLE); }

static void call_precedence(void)
{
    struct hemdroas_precedence_answer made;
    uint32_t n = chance(MOSTLY) ? 2 * at_most(6) : at_most(PAIRS), room = table_room(), first = below(13), span = chance(MOSTLY) ? 4 : 17;
    for (uint32_t i = 0; i < n; i++)
        pairs[i] = (uint8_t)(first + below(span));
    hemdroas_precedence(LENT(pairs, n), LENT(made_table, room), &made);
    mix_record(&made, sizeof made), mix_bytes(pairs, n), mix_bytes(made_table, room), called(PRECEDENCE, made.number);
}

static void make_arrows(uint32_t states)
{
    uint32_t dense = below(40), in_range = states < STATES ? (1u << states) - 1 : 65535;
    for (uint32_t i = 0; i < ARROWS; i++) {
        uint32_t map = any();
        map &= any();
        if (chance(dense)) map |= any();
        arrows[i] = (uint16_t)(chance(OFTEN) ? map & in_range : 0);
    }
    if (chance(SELDOM)) {
        uint32_t where = below(ARROWS);
        arrows[where] = (uint16_t)any();
    }
}

static void call_determinise(void)
{
    struct hemdroas_determinise_answer made;
    uint32_t states = chance(OFTEN) ? 1 + below(5) : at_most(STATES + 1), room = table_room();
    uint32_t starts = below(1u << (states < STATES ? states : STATES)), n = EVENTS * states;
    make_arrows(states);
    if (chance(SELDOM)) starts = any();
    if (chance(SELDOM) || n > ARROWS) n = at_most(ARROWS);
    hemdroas_determinise(states, starts, LENT(arrows, n), LENT(made_table, room), &made);
    mix_record(&made, sizeof made), mix_bytes(made_table, room), mix_maps(arrows, n), called(DETERMINISE, made.number);
}

static uint32_t make_side(struct hemdroas_policy *policy, uint8_t *table)
{
    uint32_t length = EVENTS * (policy->states = 1 + below(6));
    policy->start = below(policy->states);
    fill(policy->ceilings, HEMDROAS_ORDERS);
    make_table(table, policy->states);
    damage(policy, 2, SELDOM);
    return chance(SELDOM) ? size(TABLE) : length;
}

static void call_merge(void)
{
    struct hemdroas_answer answer;
    uint32_t length = make_side(&one, table_lent), other_length = make_side(&other, other_table), room = table_room();
    hemdroas_merge(&one, LENT(table_lent, length), &other, LENT(other_table, other_length), LENT(made_table, room), &merged, &answer);
    answered(MERGE, answer), mix_record(&merged, sizeof merged), mix_bytes(made_table, room);
}

/* ---- all of it */

static void turn(void)
{
    uint8_t *bytes = bytes_lent + below(ODD);
    make_words(), make_layout(), make_landings();
    call_write_and_read(bytes), call_load(bytes), call_runs(3);
    call_rewrite(), call_checks(), call_install(), call_word_right(), call_runs(4), call_engine(4);
    call_precedence(), call_determinise(), call_merge();
    if (chance(SELDOM)) fill(memory, HEMDROAS_MOST_CELLS);
}

/* Prints how often each function gave each number and was lent NULL. 1 if one never was. */
static int print_tallies(void)
{
    int missing = 0;
    for (uint32_t function = 0; function < HOW_MANY; function++) {
        for (uint32_t number = 0; number < NUMBERS; number++)
            if (tallies[function][number]) {
                print(names[function]), print(" "), print_number(number, 10, 1);
                print_times("", "", tallies[function][number]);
            }
        if (takes_buffers[function]) print_times(names[function], " NULL", nulls[function]);
        missing |= takes_buffers[function] && nulls[function] == 0;
    }
    return missing;
}

int main(void)
{
    while (calls < CALLS)
        turn();
    return print_tallies();
}
