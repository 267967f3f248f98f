/*
 * Measures the stack of each call. It paints the stack below the caller, calls,
 * and counts the bytes that are no longer painted. Inputs are the largest there
 * are, right and refused. It fails if a call takes more than it may. It runs on
 * a PC, by tools/run-everywhere on a Cortex-M4, and by hand on others.
 */
#include "hemdroas.h"
#include <stdio.h>
#include <string.h>

#if defined(__x86_64__)
#define STACK_POINTER "mov %%rsp, %0"
#elif defined(__arm__) || defined(__aarch64__)
#define STACK_POINTER "mov %0, sp"
#elif defined(__riscv)
#define STACK_POINTER "mv %0, sp"
#elif defined(__s390x__)
#define STACK_POINTER "lgr %0, %%r15"
#else
#error "say how this machine gives its stack pointer"
#endif

/* The most bytes that a call may take. */
#if defined(__x86_64__)
enum { MOST = 1100 };
#elif defined(__ARM_ARCH_7EM__)
enum { MOST = 1200 };
#else
enum { MOST = 1500 };
#endif

enum { DEEP = 1 << 16, PAINT = 0xA5 };
enum { CELLS = HEMDROAS_MOST_CELLS, WORDS = HEMDROAS_MOST_WORDS, COMMANDS = HEMDROAS_MOST_COMMANDS, STATES = HEMDROAS_MOST_STATES };
enum { BYTES = 16 * WORDS, TABLE = HEMDROAS_MOST_TABLE, LANDINGS = HEMDROAS_MOST_LANDINGS, EVENTS = HEMDROAS_EVENTS };
enum { LOG = 64, READINGS = 32, BUDGET = 100000, LAST_BUNDLE = COMMANDS - 4 };

static struct hemdroas_layout layout;
static struct hemdroas_policy policy, other, merged;
static struct hemdroas_machine machine, after;
static struct hemdroas_engine engine;
static uint8_t bytes[BYTES], table[TABLE], other_table[TABLE], made_table[TABLE], pairs[8];
static uint64_t words[WORDS + 1], words_read[WORDS], commands[COMMANDS];
static uint32_t memory[CELLS], work[CELLS], event_log[LOG], readings[READINGS], landings[LANDINGS];
static uint16_t arrows[EVENTS * STATES];
static uint64_t word_count, byte_count, command_count, pair_count, room, cells;
static struct hemdroas_answer answer;
static struct hemdroas_run_answer ran;
static struct hemdroas_engine_answer stepped;
static struct hemdroas_precedence_answer ordered;
static struct hemdroas_determinise_answer drawn;

/* ---- the calls */

static uint64_t room_of(uint64_t most) { return room < most ? room : most; }

static void call_write(void) { hemdroas_write(words, word_count, bytes, room_of(BYTES), &answer); }
static void call_read(void) { hemdroas_read(bytes, byte_count, words_read, room_of(WORDS), &answer); }
static void call_rewrite(void) { hemdroas_rewrite(&layout, words, word_count, commands, room_of(COMMANDS), &answer); }
static void call_check(void) { hemdroas_check(&layout, commands, command_count, &answer); }
static void call_forward(void) { hemdroas_forward(words, word_count, &answer); }
static void call_check_forward(void) { hemdroas_check_forward(&layout, commands, command_count, &answer); }
static void call_word_right(void) { answer.number = hemdroas_word_right(STATES, 0); }
static void call_install(void)
{
    hemdroas_install(&layout, STATES, 0, table, TABLE, landings, LANDINGS, memory, cells, &machine, &answer);
}
static void call_load(void)
{
    hemdroas_load(&layout, STATES, 0, table, TABLE, landings, LANDINGS, bytes, byte_count, commands, room_of(COMMANDS), memory, cells,
                  &machine, &answer);
}
static void call_run(void)
{
    hemdroas_run(&layout, commands, command_count, &machine, memory, cells, BUDGET, readings, READINGS, event_log, LOG, &ran);
}
static void call_preview(void)
{
    hemdroas_preview(&layout, commands, command_count, &machine, memory, cells, work, cells, BUDGET, readings, READINGS, event_log, LOG,
                     &after, &ran);
}
static void call_engine_run(void)
{
    hemdroas_engine_run(&layout, words, word_count, &engine, memory, cells, BUDGET, readings, READINGS, event_log, LOG, &stepped);
}
static void call_engine_continue(void)
{
    hemdroas_engine_continue(&layout, words, word_count, &engine, memory, cells, BUDGET, readings, READINGS, event_log, LOG, &stepped);
}
static void call_precedence(void) { hemdroas_precedence(pairs, pair_count, made_table, room_of(TABLE), &ordered); }
static void call_determinise(void)
{
    hemdroas_determinise(STATES, 1, arrows, EVENTS * STATES, made_table, room_of(TABLE), &drawn);
}
static void call_merge(void)
{
    hemdroas_merge(&policy, table, EVENTS * policy.states, &other, other_table, EVENTS * other.states, made_table, room_of(TABLE), &merged,
                   &answer);
}

/* ---- inputs */

enum { ADD = 3, SAR = 7, LOAD = 8, STORE = 9, GOIF = 10, GOX = 11, EVENT = 12, NO_KIND = 13, ORDER = 1, PROBE = 9 };
#define KIND(kind) ((uint64_t)(kind))
#define V(v) ((uint64_t)(v) << 32)

static void fill_words(const uint64_t *turn, uint32_t n)
{
    for (uint32_t i = 0; i < WORDS; i++) words[i] = turn[i % n];
}

/* Loads the words and clears the engine. */
static void bring(void)
{
    call_write(), byte_count = answer.place;
    call_load();
    memset(&engine, 0, sizeof engine);
}

/* Inputs that every call takes: orders, readings and adds in turn, 16 states, every instruction a landing. */
static void right(void)
{
    const struct hemdroas_layout drum = {CELLS, CELLS / 2, CELLS - 1, 0, 16, STATES, 0, 512, HEMDROAS_NO_CEILINGS};
    const struct hemdroas_policy two = {2, 0, HEMDROAS_NO_CEILINGS}, eight = {8, 0, HEMDROAS_NO_CEILINGS};
    static const uint8_t before[] = {1, 2, 2, 3, 3, 4, 4, 1};
    const uint64_t turn[] = {KIND(EVENT) | V(ORDER), KIND(EVENT) | V(PROBE), KIND(ADD)};
    layout = drum, policy = two, other = eight;
    word_count = WORDS, room = BYTES, cells = CELLS, pair_count = sizeof before, command_count = COMMANDS;
    for (uint32_t i = 0; i < LANDINGS; i++) landings[i] = i;
    for (uint32_t i = 0; i < TABLE; i++) table[i] = (uint8_t)(i / EVENTS + 1) % 2, other_table[i] = (uint8_t)(i / EVENTS + 1) % 8;
    for (uint32_t i = 0; i < EVENTS * STATES; i++) arrows[i] = (uint16_t)(1u << (i / EVENTS + 1) % STATES);
    memcpy(pairs, before, sizeof before);
    fill_words(turn, 3);
    bring();
}
/* Loads, stores, shifts and adds in a loop without end. */
static void endless(void)
{
    const uint64_t turn[] = {KIND(LOAD), KIND(STORE), KIND(SAR), KIND(ADD)};
    right();
    fill_words(turn, 4);
    words[WORDS - 1] = KIND(GOX);
    bring();
}
/* The same loop in a list that does not pass: its last bundle has a second command that is no NOP. */
static void unchecked(void)
{
    endless();
    commands[LAST_BUNDLE + 1] = commands[0];
}
static void forwards(void)
{
    const uint64_t turn[] = {KIND(ADD), KIND(EVENT) | V(ORDER)};
    right();
    fill_words(turn, 2);
    bring();
}
static void wrong_layout(void) { right(), layout.high--; }
static void wrong_cells(void) { right(), cells--; }
static void small_room(void) { right(), room = 10; }
static void wrong_base(void) { right(), layout.base = 4; }
static void wrong_kind(void) { right(), words[WORDS - 1] = KIND(NO_KIND); }
static void wrong_first(void) { right(), words[0] = KIND(NO_KIND); }
static void wrong_bits(void) { right(), words[WORDS - 1] = KIND(ADD) | V(1); }
static void wrong_jump(void) { right(), words[WORDS - 1] = KIND(GOIF) | V(WORDS + 1), call_write(), byte_count = answer.place; }
static void too_many(void) { right(), words[WORDS] = 0, word_count = WORDS + 1; }
static void few_bytes(void) { right(), byte_count--; }
static void more_bytes(void) { right(), byte_count++; }
static void wrong_map(void) { right(), bytes[byte_count - 2] = 64; }
static void wrong_bundle(void) { right(), commands[LAST_BUNDLE - 1] = commands[0]; }
static void wrong_count(void) { right(), command_count--; }
static void wrong_table(void) { right(), table[TABLE - 1] = STATES; }
static void wrong_landings(void) { right(), landings[LANDINGS - 1] = LANDINGS; }
static void wrong_pair(void) { right(), pairs[7] = EVENTS; }
static void no_arrows(void) { right(), memset(arrows, 0xFF, sizeof arrows), arrows[0] = 0; }
static void wrong_side(void) { right(), table[EVENTS * policy.states - 1] = STATES; }
/* A drawing and two policies that reach more sets and pairs than there may be states. */
static void many_states(void)
{
    right();
    for (uint32_t i = 0; i < EVENTS * STATES; i++) {
        uint32_t state = i / EVENTS, event = i % EVENTS;
        arrows[i] = (uint16_t)(1u << (2 * state + event) % STATES | 1u << (3 * state + event) % STATES);
        table[i] = (uint8_t)((2 * state + event) % 3), other_table[i] = (uint8_t)((state + event) % 8);
    }
    policy.states = 3;
}

/* ---- what is measured */

/* A call, where it writes its number, what prepares its input and which number it must give. */
struct row {
    const char *name;
    void (*call)(void);
    const uint32_t *number;
    void (*prepare)(void);
    uint32_t expected;
};

static const struct row rows[] = {
    {"write", call_write, &answer.number, right, HEMDROAS_TAKEN},
    {"write", call_write, &answer.number, wrong_kind, HEMDROAS_UNKNOWN_VARIETY},
    {"write", call_write, &answer.number, wrong_bits, HEMDROAS_FOREIGN_MATTER},
    {"write", call_write, &answer.number, too_many, HEMDROAS_OVERSIZE},
    {"write", call_write, &answer.number, small_room, HEMDROAS_SMALL_HOPPER},
    {"read", call_read, &answer.number, right, HEMDROAS_TAKEN},
    {"read", call_read, &answer.number, few_bytes, HEMDROAS_SHORT_WEIGHT},
    {"read", call_read, &answer.number, wrong_map, HEMDROAS_FOREIGN_MATTER},
    {"read", call_read, &answer.number, more_bytes, HEMDROAS_OVERWEIGHT},
    {"read", call_read, &answer.number, small_room, HEMDROAS_SMALL_HOPPER},
    {"rewrite", call_rewrite, &answer.number, right, HEMDROAS_TAKEN},
    {"rewrite", call_rewrite, &answer.number, wrong_layout, HEMDROAS_BAD_LAYOUT},
    {"rewrite", call_rewrite, &answer.number, wrong_kind, HEMDROAS_UNKNOWN_VARIETY},
    {"rewrite", call_rewrite, &answer.number, wrong_jump, HEMDROAS_BAD_LANDING},
    {"rewrite", call_rewrite, &answer.number, wrong_base, HEMDROAS_BAD_BASE},
    {"rewrite", call_rewrite, &answer.number, small_room, HEMDROAS_SMALL_HOPPER},
    {"check", call_check, &answer.number, right, HEMDROAS_TAKEN},
    {"check", call_check, &answer.number, endless, HEMDROAS_TAKEN},
    {"check", call_check, &answer.number, wrong_layout, HEMDROAS_BAD_LAYOUT},
    {"check", call_check, &answer.number, wrong_count, HEMDROAS_BAD_COUNT},
    {"check", call_check, &answer.number, wrong_base, HEMDROAS_BAD_BASE},
    {"check", call_check, &answer.number, wrong_bundle, HEMDROAS_BAD_BUNDLE},
    {"forward", call_forward, &answer.number, forwards, HEMDROAS_TAKEN},
    {"forward", call_forward, &answer.number, wrong_kind, HEMDROAS_UNKNOWN_VARIETY},
    {"forward", call_forward, &answer.number, endless, HEMDROAS_NOT_FORWARD},
    {"check_forward", call_check_forward, &answer.number, forwards, HEMDROAS_TAKEN},
    {"check_forward", call_check_forward, &answer.number, wrong_bundle, HEMDROAS_BAD_BUNDLE},
    {"check_forward", call_check_forward, &answer.number, endless, HEMDROAS_NOT_FORWARD},
    {"word_right", call_word_right, &answer.number, right, 1},
    {"install", call_install, &answer.number, right, HEMDROAS_TAKEN},
    {"install", call_install, &answer.number, wrong_cells, HEMDROAS_BAD_LAYOUT},
    {"install", call_install, &answer.number, wrong_table, HEMDROAS_BAD_POLICY},
    {"install", call_install, &answer.number, wrong_landings, HEMDROAS_BAD_LANDING_LIST},
    {"load", call_load, &answer.number, right, HEMDROAS_TAKEN},
    {"load", call_load, &answer.number, endless, HEMDROAS_TAKEN},
    {"load", call_load, &answer.number, few_bytes, HEMDROAS_SHORT_WEIGHT},
    {"load", call_load, &answer.number, wrong_layout, HEMDROAS_BAD_LAYOUT},
    {"load", call_load, &answer.number, wrong_jump, HEMDROAS_BAD_LANDING},
    {"load", call_load, &answer.number, wrong_base, HEMDROAS_BAD_BASE},
    {"load", call_load, &answer.number, small_room, HEMDROAS_SMALL_HOPPER},
    {"load", call_load, &answer.number, wrong_table, HEMDROAS_BAD_POLICY},
    {"load", call_load, &answer.number, wrong_landings, HEMDROAS_BAD_LANDING_LIST},
    {"run", call_run, &ran.ending, right, HEMDROAS_ENDING_LOG_FULL},
    {"run", call_run, &ran.ending, forwards, HEMDROAS_ENDING_LOG_FULL},
    {"run", call_run, &ran.ending, endless, HEMDROAS_ENDING_SPENT},
    {"run", call_run, &ran.ending, unchecked, HEMDROAS_ENDING_SPENT},
    {"run", call_run, &ran.ending, wrong_layout, HEMDROAS_BAD_LAYOUT},
    {"preview", call_preview, &ran.ending, right, HEMDROAS_ENDING_LOG_FULL},
    {"preview", call_preview, &ran.ending, endless, HEMDROAS_ENDING_SPENT},
    {"preview", call_preview, &ran.ending, unchecked, HEMDROAS_ENDING_SPENT},
    {"preview", call_preview, &ran.ending, wrong_cells, HEMDROAS_BAD_LAYOUT},
    {"engine_run", call_engine_run, &stepped.ending, right, HEMDROAS_ENDING_LOG_FULL},
    {"engine_run", call_engine_run, &stepped.ending, endless, HEMDROAS_ENDING_SPENT},
    {"engine_run", call_engine_run, &stepped.ending, wrong_layout, HEMDROAS_BAD_LAYOUT},
    {"engine_run", call_engine_run, &stepped.ending, wrong_kind, HEMDROAS_UNKNOWN_VARIETY},
    {"engine_run", call_engine_run, &stepped.ending, wrong_jump, HEMDROAS_BAD_LANDING},
    {"engine_continue", call_engine_continue, &stepped.ending, right, HEMDROAS_ENDING_LOG_FULL},
    {"engine_continue", call_engine_continue, &stepped.ending, endless, HEMDROAS_ENDING_SPENT},
    {"engine_continue", call_engine_continue, &stepped.ending, wrong_layout, HEMDROAS_BAD_LAYOUT},
    {"engine_continue", call_engine_continue, &stepped.ending, wrong_first, HEMDROAS_ENDING_FAULT},
    {"precedence", call_precedence, &ordered.number, right, HEMDROAS_TAKEN},
    {"precedence", call_precedence, &ordered.number, wrong_pair, HEMDROAS_BAD_PAIR},
    {"precedence", call_precedence, &ordered.number, small_room, HEMDROAS_SMALL_HOPPER},
    {"determinise", call_determinise, &drawn.number, right, HEMDROAS_TAKEN},
    {"determinise", call_determinise, &drawn.number, no_arrows, HEMDROAS_TAKEN},
    {"determinise", call_determinise, &drawn.number, many_states, HEMDROAS_TOO_MANY_STATES},
    {"determinise", call_determinise, &drawn.number, small_room, HEMDROAS_SMALL_HOPPER},
    {"merge", call_merge, &answer.number, right, HEMDROAS_TAKEN},
    {"merge", call_merge, &answer.number, many_states, HEMDROAS_TOO_MANY_STATES},
    {"merge", call_merge, &answer.number, wrong_side, HEMDROAS_BAD_POLICY},
    {"merge", call_merge, &answer.number, small_room, HEMDROAS_SMALL_HOPPER},
};
enum { ROWS = sizeof rows / sizeof rows[0] };

/* Paints what lies below this frame, calls, and finds the lowest byte that lost its paint. */
static __attribute__((noinline)) long stack_of(void (*call)(void))
{
    volatile unsigned char *top, *p;
    __asm volatile(STACK_POINTER : "=r"(top));
    for (p = top - DEEP; p < top; p++) *p = PAINT;
    call();
    for (p = top - DEEP; p < top && *p == PAINT; p++)
        ;
    return top - p;
}

static int is_refusal(const struct row *row)
{
    return row->call != call_word_right && row->expected != HEMDROAS_TAKEN && row->expected < HEMDROAS_ENDING_ENDED;
}

/* The most bytes over one call's rows, those taken or those refused; below 0 if an answer is not the expected one. */
static long measure(const struct row *first, int refused)
{
    long most = 0;
    for (const struct row *row = first; row < rows + ROWS && row->call == first->call; row++) {
        row->prepare();
        long bytes_taken = stack_of(row->call);
        if (*row->number != row->expected)
            return printf("hemdroas_%s answered %u, not %u\n", row->name, (unsigned)*row->number, (unsigned)row->expected), -1;
        if (is_refusal(row) == refused && bytes_taken > most) most = bytes_taken;
    }
    return most;
}

int main(void)
{
    int failed = 0;
    printf("%-24s %8s %8s\n", "bytes of stack", "taken", "refused");
    for (const struct row *row = rows; row < rows + ROWS; row++) {
        if (row > rows && row[-1].call == row->call) continue;
        long taken = measure(row, 0), refused = measure(row, 1);
        printf("hemdroas_%-15s %8ld %8ld\n", row->name, taken, refused);
        failed |= taken < 0 || taken > MOST || refused > MOST;
    }
    if (failed) printf("a call answered otherwise, or takes more than %d bytes\n", MOST);
    return failed;
}
