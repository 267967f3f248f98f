/*
 * Hemdroas runs small programs from strangers, called routines, on the
 * controller of a coffee roasting drum. A routine can write only its own part of
 * memory, the sandbox. It can send only the events that a policy allows. A run
 * changes one other cell, the state cell, which holds the policy's state.
 *
 * Terms
 *   cell      32 bits of the drum's memory; memory is an array of cells
 *   layout    where sandbox, policy and code lie; a struct that the host fills in
 *   word      one instruction of a routine, in 64 bits
 *   command   one instruction of the machine, in 64 bits
 *   bundle    the four commands that one word becomes
 *   event     an order to the drum (0 to 7) or a reading of a probe (8 to 15)
 *   log       where a run records each event and its value
 *   policy    a table that says in which state which events are allowed
 *   arrow     an entry of that table: the state that follows an allowed event
 *   ceiling   the largest value that an order records
 *   GOIF      a routine's jump to a fixed instruction
 *   GOX       a routine's jump to an instruction whose number is in a register
 *   landing   an instruction that GOX may go to
 * docs/ROUTINES.md explains all instructions, and shows how to write a routine.
 *
 * How to use it. Call hemdroas_load once. Then call hemdroas_run as often as the
 * routine needs. hemdroas_load does four things, and each has a call of its own:
 * it reads the bytes into words, rewrites the words into commands, checks the
 * commands and installs the policy.
 *
 * Only checked commands are safe to run. hemdroas_load checks its own. Check any
 * others with hemdroas_check before you run them.
 *
 * What you may change. After loading, keep layout, commands and machine as the
 * calls left them. In memory, change only free cells. A cell is free if it is not
 * the state cell, and not in the sandbox, the policy's table or the 32 landing
 * cells. No routine can read or write a free cell.
 *
 * Buffers. Each pointer to a buffer comes with the number of its elements, and
 * no call reaches past it. Lengths are 64-bit numbers on every machine. NULL is
 * allowed where the length is 0, and nowhere else. A buffer of uint64_t must be
 * aligned to 8 bytes, of uint32_t to 4, of uint16_t to 2. A buffer or struct that
 * a call writes must not overlap any other of its arguments. Two that it only
 * reads may be the same.
 *
 * Memory. No call allocates memory or keeps a pointer. A call takes at most 1.1 KB
 * of stack on x86-64 and 1.2 KB on Cortex-M4. docs/MACHINES.md lists the other
 * machines on which it was measured.
 *
 * Threads. The library has no global state. Calls on different buffers may run
 * at the same time. Two calls may share a buffer if neither writes it.
 *
 * Refusals. A call that cannot do its work is refused, and answers with a number
 * that says why. A refused call changes no buffer. A refused run also leaves its
 * machine or engine as it was. If hemdroas_load or hemdroas_install is refused,
 * the machine is set to zeros and to faulted (status 3). A call that succeeds
 * writes only its result: the rest of an output buffer stays as it was. Below,
 * 'refused as X, then Y' means that the call tests for X first.
 *
 * Changing the policy. The number of states and the ceilings are part of the
 * layout. Change them there, call hemdroas_check on the commands again, then
 * hemdroas_install.
 */
#ifndef HEMDROAS_H
#define HEMDROAS_H

#include <stdint.h>

#define HEMDROAS_VERSION_MAJOR 0
#define HEMDROAS_VERSION_MINOR 2
#define HEMDROAS_VERSION_PATCH 0
#define HEMDROAS_VERSION "0.2.0"

#ifdef __cplusplus
extern "C" {
#endif

/* ---- numbers */

enum {
    HEMDROAS_EVENTS = 16,          /* 0 to 7 are orders, 8 to 15 readings */
    HEMDROAS_ORDERS = 8,
    HEMDROAS_NO_ARROW = 255,       /* in a policy's table: the event is not allowed */
    HEMDROAS_MOST_STATES = 16,     /* the most states of a policy */
    HEMDROAS_MOST_TABLE = 256,     /* a buffer of so many bytes holds any policy's table */
    HEMDROAS_MOST_WORDS = 1023,    /* a buffer of so many words holds any routine */
    HEMDROAS_MOST_COMMANDS = 4096, /* a buffer of so many commands holds any routine */
    HEMDROAS_MOST_LANDINGS = 1024,
    HEMDROAS_MOST_CELLS = 4096     /* the largest memory */
};

/* Why a call was refused; taken (0) is success. */
enum hemdroas_refusal {
    HEMDROAS_TAKEN = 0,
    HEMDROAS_SHORT_WEIGHT = 1,      /* the bytes end too early */
    HEMDROAS_FOREIGN_MATTER = 2,    /* a present field is 0, or this kind has no such field, or a stray bit is set */
    HEMDROAS_UNKNOWN_VARIETY = 3,   /* the instruction's kind is above 12 */
    HEMDROAS_OFF_GRADE = 4,         /* a register, condition, shift or event is out of range */
    HEMDROAS_OVERSIZE = 5,          /* more than 1023 instructions */
    HEMDROAS_OVERWEIGHT = 6,        /* bytes follow the last instruction */
    HEMDROAS_BAD_LAYOUT = 7,        /* the layout is not right, or memory has another length than layout.cells */
    HEMDROAS_BAD_LANDING = 8,       /* a GOIF jumps past the end of the routine */
    HEMDROAS_SMALL_HOPPER = 9,      /* the output buffer is too short */
    HEMDROAS_BAD_POLICY = 10,       /* the policy is not right, or does not fit the layout */
    HEMDROAS_BAD_BUNDLE = 11,       /* four commands that are no allowed bundle, or the last bundle is not HALT */
    HEMDROAS_BAD_COUNT = 12,        /* the number of commands is not 4, 8, 16, ... or 4096 */
    HEMDROAS_BAD_BASE = 13,         /* the base is not a multiple of the number of commands */
    HEMDROAS_BAD_LANDING_LIST = 14, /* the landings are not strictly rising, or one is above 1023 */
    HEMDROAS_TOO_MANY_STATES = 15,  /* the policy would have more than 16 states */
    HEMDROAS_BAD_DRAWING = 16,      /* see hemdroas_determinise: no start, not 1 to 16 states, not 16 entries for each, or a bit for a missing state */
    HEMDROAS_BAD_PAIR = 17,         /* an event above 15, an odd number of events, or more than four different ones */
    HEMDROAS_NOT_FORWARD = 18       /* a GOX, or a GOIF that jumps to itself or back */
};

/* How a run ended. A refused run answers the refusal's number instead. */
enum hemdroas_ending {
    HEMDROAS_ENDING_ENDED = 20,        /* the routine finished */
    HEMDROAS_ENDING_NO_ARROW = 21,     /* the policy stopped the routine: the event was not allowed */
    HEMDROAS_ENDING_FAULT = 22,        /* bad address or bad command; checked commands never fault if you change only free cells */
    HEMDROAS_ENDING_LOG_FULL = 23,     /* pause: run again with an empty log */
    HEMDROAS_ENDING_PROBE_SILENT = 24, /* pause: run again with new readings; tested before log full (23) */
    HEMDROAS_ENDING_SPENT = 25,        /* pause: run again with a new budget */
    HEMDROAS_ENDING_NO_LANDING = 26    /* stopped: a GOX to an instruction that is no landing */
};

/* The status of a machine or engine. A number above 4 counts as faulted (3). */
enum hemdroas_status {
    HEMDROAS_STATUS_RUNNING = 0,
    HEMDROAS_STATUS_ENDED = 1,
    HEMDROAS_STATUS_STOPPED = 2, /* the policy stopped it */
    HEMDROAS_STATUS_FAULTED = 3,
    HEMDROAS_STATUS_STRAYED = 4  /* stopped at a GOX to an instruction that is no landing */
};

/* A refusal's name, for messages. */
static inline const char *hemdroas_refusal_text(uint32_t number)
{
    switch (number) {
    case HEMDROAS_TAKEN: return "taken";
    case HEMDROAS_SHORT_WEIGHT: return "short weight";
    case HEMDROAS_FOREIGN_MATTER: return "foreign matter";
    case HEMDROAS_UNKNOWN_VARIETY: return "unknown variety";
    case HEMDROAS_OFF_GRADE: return "off grade";
    case HEMDROAS_OVERSIZE: return "oversize";
    case HEMDROAS_OVERWEIGHT: return "overweight";
    case HEMDROAS_BAD_LAYOUT: return "bad layout";
    case HEMDROAS_BAD_LANDING: return "bad landing";
    case HEMDROAS_SMALL_HOPPER: return "small hopper";
    case HEMDROAS_BAD_POLICY: return "bad policy";
    case HEMDROAS_BAD_BUNDLE: return "bad bundle";
    case HEMDROAS_BAD_COUNT: return "bad count";
    case HEMDROAS_BAD_BASE: return "bad base";
    case HEMDROAS_BAD_LANDING_LIST: return "bad landing list";
    case HEMDROAS_TOO_MANY_STATES: return "too many states";
    case HEMDROAS_BAD_DRAWING: return "bad drawing";
    case HEMDROAS_BAD_PAIR: return "bad pair";
    case HEMDROAS_NOT_FORWARD: return "not forward";
    default: return "no such number";
    }
}

/* An ending's name, for messages; for a refused run, the refusal's name. */
static inline const char *hemdroas_ending_text(uint32_t number)
{
    switch (number) {
    case HEMDROAS_ENDING_ENDED: return "ended";
    case HEMDROAS_ENDING_NO_ARROW: return "no arrow";
    case HEMDROAS_ENDING_FAULT: return "fault";
    case HEMDROAS_ENDING_LOG_FULL: return "log full";
    case HEMDROAS_ENDING_PROBE_SILENT: return "probe silent";
    case HEMDROAS_ENDING_SPENT: return "spent";
    case HEMDROAS_ENDING_NO_LANDING: return "no landing";
    default: return hemdroas_refusal_text(number);
    }
}

/* ---- structs: 32-bit numbers only, without padding */

/* Initialises the ceilings of a layout or a policy so that no order is limited. */
#define HEMDROAS_NO_CEILINGS \
    {UINT32_MAX, UINT32_MAX, UINT32_MAX, UINT32_MAX, UINT32_MAX, UINT32_MAX, UINT32_MAX, UINT32_MAX}

/* Where things lie in a drum's memory. The letters beside the fields are their
 * names in docs/. A layout is right if all of these hold:
 * - cells is 1 to 4096, and states is 1 to 16;
 * - low <= high < cells, state_cell < cells, table + 16 * states <= cells and
 *   landings + 32 <= cells;
 * - high - low + 1 is a power of two, and low is a multiple of it;
 * - sandbox, state cell, table and landing cells share no cell.
 * Sums here do not wrap. Any other layout is refused as bad layout (7). */
struct hemdroas_layout {
    uint32_t cells;                     /* U: memory cells, 1 to 4096 */
    uint32_t low;                       /* SL: first cell of the sandbox */
    uint32_t high;                      /* SH: last cell of the sandbox */
    uint32_t state_cell;                /* M: cell of the policy's state */
    uint32_t table;                     /* P: first cell of the policy's table, 16 cells per state */
    uint32_t states;                    /* S: policy states, 1 to 16 */
    uint32_t base;                      /* B: address of the first command */
    uint32_t landings;                  /* Q: first of 32 cells with a bit for each instruction, set if it is a landing */
    /* Order e records r0, but at most ceilings[e]. Do not leave the ceilings out:
     * they would all be 0. If there are none, use HEMDROAS_NO_CEILINGS. */
    uint32_t ceilings[HEMDROAS_ORDERS];
};

/* A machine runs commands. Between runs this struct holds its whole state, except
 * memory. A run of a machine whose status is above 4 changes nothing. Its ending
 * is bad layout (7) if the run is refused, else fault (22); steps, pairs and
 * readings are 0. */
struct hemdroas_machine {
    uint32_t r[16];  /* registers; no routine can name r15 */
    uint32_t pc;     /* address of the next command */
    uint32_t status; /* enum hemdroas_status */
};

/* An engine runs words, without rewriting them. Set it to zeros before its first run. */
struct hemdroas_engine {
    uint32_t r[15];  /* registers */
    uint32_t index;  /* number of the next instruction */
    uint32_t status; /* enum hemdroas_status */
};

/* A policy's numbers. Its table is a buffer of its own: table[16 * s + e] is the
 * state after event e in state s, or HEMDROAS_NO_ARROW. */
struct hemdroas_policy {
    uint32_t states; /* 1 to 16 */
    uint32_t start;  /* below states */
    uint32_t ceilings[HEMDROAS_ORDERS]; /* as in a layout */
};

/* What most calls answer. If the number is taken (0), place is how many words,
 * bytes or commands were written; a check or an installation has place 0. If the
 * call is refused, place is
 * - the number of the bad instruction, for short weight (1), foreign matter (2),
 *   unknown variety (3), off grade (4), bad landing (8) and, from
 *   hemdroas_forward, not forward (18);
 * - the number of the bad bundle, for bad bundle (11) and, from
 *   hemdroas_check_forward, not forward (18);
 * - 0 for any other refusal, and for short weight (1) if even the count of the
 *   instructions is cut short. */
struct hemdroas_answer {
    uint32_t number; /* enum hemdroas_refusal */
    uint32_t place;
};

/* What a run answers. If it is refused as bad layout (7), the other numbers are 0. */
struct hemdroas_run_answer {
    uint32_t ending;   /* enum hemdroas_ending, or HEMDROAS_BAD_LAYOUT */
    uint32_t steps;    /* commands executed */
    uint32_t pairs;    /* events recorded; each takes two log cells, event and value */
    uint32_t readings; /* readings used */
};

/* What a run of the engine answers. If it is refused, the last three are 0. */
struct hemdroas_engine_answer {
    uint32_t ending;       /* enum hemdroas_ending, or enum hemdroas_refusal */
    uint32_t place;        /* number of the refused word, else 0 */
    uint32_t instructions; /* instructions executed */
    uint32_t pairs;        /* events recorded; each takes two log cells, event and value */
    uint32_t readings;     /* readings used */
};

/* What hemdroas_precedence answers. If it is refused, the other numbers are 0. */
struct hemdroas_precedence_answer {
    uint32_t number; /* enum hemdroas_refusal */
    uint32_t place;  /* bytes of the table written */
    uint32_t states; /* states of the policy; it starts in state 0 */
    uint32_t never;  /* bit e is set if event e can never be allowed, for instance if pairs form a ring */
};

/* What hemdroas_determinise answers. If it is refused, the other numbers are 0. */
struct hemdroas_determinise_answer {
    uint32_t number; /* enum hemdroas_refusal */
    uint32_t place;  /* bytes of the table written */
    uint32_t states;
    uint32_t start; /* always 0 */
};

/* The library reads each struct as an array of 32-bit numbers. If a compiler pads
 * one, the next lines do not compile. */
#define HEMDROAS_NUMBERS(name, count) \
    typedef char name##_has_no_gaps[sizeof(struct name) == (count) * sizeof(uint32_t) ? 1 : -1]
HEMDROAS_NUMBERS(hemdroas_layout, 16);
HEMDROAS_NUMBERS(hemdroas_machine, 18);
HEMDROAS_NUMBERS(hemdroas_engine, 17);
HEMDROAS_NUMBERS(hemdroas_policy, 10);
HEMDROAS_NUMBERS(hemdroas_answer, 2);
HEMDROAS_NUMBERS(hemdroas_run_answer, 4);
HEMDROAS_NUMBERS(hemdroas_engine_answer, 5);
HEMDROAS_NUMBERS(hemdroas_precedence_answer, 4);
HEMDROAS_NUMBERS(hemdroas_determinise_answer, 4);
#undef HEMDROAS_NUMBERS

/* ---- from bytes to an installed machine */

/* Reads a routine of n bytes into words. room is the length of words. Refused as
 * short weight (1) if the count of the instructions is cut short, then oversize
 * (5), then small hopper (9). Then the first bad instruction is refused as short
 * weight (1), foreign matter (2), unknown variety (3) or off grade (4). If none is
 * bad, bytes after the last instruction are refused as overweight (6). */
void hemdroas_read(const uint8_t *bytes, uint64_t n, uint64_t *words, uint64_t room, struct hemdroas_answer *answer);

/* Writes n words as a routine's bytes: the inverse of hemdroas_read. room is the
 * length of bytes. More than 1023 words are refused as oversize (5). Then the first
 * bad word is refused as unknown variety (3), foreign matter (2) or off grade (4).
 * If no word is bad, too little room is refused as small hopper (9). */
void hemdroas_write(const uint64_t *words, uint64_t n, uint8_t *bytes, uint64_t room, struct hemdroas_answer *answer);

/* Rewrites n words into bundles of 4 commands, with HALT after the last word. The
 * number of bundles is the smallest power of two above n. room is the length of
 * commands. Refused as bad layout (7), then oversize (5). Then the first bad word is
 * refused as unknown variety (3), foreign matter (2), off grade (4) or bad landing
 * (8). If no word is bad, it may be refused as bad base (13), then small hopper (9). */
void hemdroas_rewrite(const struct hemdroas_layout *layout, const uint64_t *words, uint64_t n,
                      uint64_t *commands, uint64_t room, struct hemdroas_answer *answer);

/* Checks that n commands are bundles of the allowed shapes, and that the last
 * bundle is HALT. Commands that pass cannot leave the sandbox or break the policy
 * when they run under this layout, whoever made them. Refused as bad layout (7),
 * then bad count (12), then bad base (13), then bad bundle (11). */
void hemdroas_check(const struct hemdroas_layout *layout, const uint64_t *commands, uint64_t n,
                    struct hemdroas_answer *answer);

/* Checks that n words are a forward routine, one that always finishes: it has no
 * GOX, and each GOIF goes to a higher instruction. More than 1023 words are
 * refused as oversize (5). Then the first bad word is refused as unknown variety
 * (3), foreign matter (2), off grade (4) or bad landing (8). If no word is bad, the
 * first instruction that is not forward is refused as not forward (18).
 *
 * Once it is rewritten into N bundles and installed, such a routine ends or stops
 * within 4 * (N - 1) + 1 steps, counted over all its runs. This holds if the host
 * resumes it after each pause, always with two free log cells and a reading, and
 * if the budgets suffice for so many steps. A pause leaves the rest of its budget
 * unused. */
void hemdroas_forward(const uint64_t *words, uint64_t n, struct hemdroas_answer *answer);

/* Checks n commands as hemdroas_check does, then that they are a forward routine.
 * If all bundles pass, the first that is not forward is refused as not forward
 * (18). */
void hemdroas_check_forward(const struct hemdroas_layout *layout, const uint64_t *commands, uint64_t n,
                            struct hemdroas_answer *answer);

/* Tests four bytes of a policy's table. Here word is a 32-bit number that holds
 * them, not an instruction. It returns 1 if states is 1 to 16 and each byte is
 * below states or HEMDROAS_NO_ARROW, else 0. hemdroas_install applies the same
 * test to the whole table. */
uint32_t hemdroas_word_right(uint32_t states, uint32_t word);

/* Installs a policy: writes its start state, its table and the landing bits to the
 * cells that the layout names. It changes no other cell. It sets machine to start
 * at the first command. states must equal layout->states, and len must be 16 times
 * that. landings lists the instructions that a GOX may go to, in rising order and
 * each once. The list may be empty. Refused as bad layout (7), then bad policy
 * (10), then bad landing list (14). */
void hemdroas_install(const struct hemdroas_layout *layout, uint32_t states, uint32_t start,
                      const uint8_t *table, uint64_t len, const uint32_t *landings, uint64_t count,
                      uint32_t *memory, uint64_t cells,
                      struct hemdroas_machine *machine, struct hemdroas_answer *answer);

/* Loads a routine of n bytes: reads, rewrites and checks it, then installs the
 * policy. It answers the first refusal of these four calls, with its place. So
 * damaged bytes are refused before a bad layout (7). If it is taken (0), place is
 * the number of commands written to the start of commands. */
void hemdroas_load(const struct hemdroas_layout *layout, uint32_t states, uint32_t start,
                   const uint8_t *table, uint64_t len, const uint32_t *landings, uint64_t count,
                   const uint8_t *bytes, uint64_t n, uint64_t *commands, uint64_t room,
                   uint32_t *memory, uint64_t cells,
                   struct hemdroas_machine *machine, struct hemdroas_answer *answer);

/* ---- running */

/* Runs n commands until the routine ends, stops or pauses. It pauses at the
 * latest after budget commands. A machine whose status is not running (0) stays
 * as it was, and answers its ending again, with 0 steps. Each event is written to
 * the log as two numbers, event and value, from log[0] on. Readings are used from
 * readings[0] on. r is the length of readings, g that of log.
 *
 * To resume after a pause, call again with the same machine and memory. After log
 * full (23) or probe silent (24) the state cell holds the policy's state after
 * all recorded events. After spent (25) it may be one event behind: the next run
 * then stores the new state first. */
void hemdroas_run(const struct hemdroas_layout *layout, const uint64_t *commands, uint64_t n,
                  struct hemdroas_machine *machine, uint32_t *memory, uint64_t cells, uint32_t budget,
                  const uint32_t *readings, uint64_t r, uint32_t *log, uint64_t g, struct hemdroas_run_answer *answer);

/* Shows what hemdroas_run would do with these readings, but changes neither
 * machine nor memory. Answer and log are those of that run. It leaves the new
 * machine in after and the new memory in work. cells is the length of memory,
 * spare that of work; both must equal layout->cells. If it is refused as bad
 * layout (7), work stays as it was, and after becomes a copy of machine. */
void hemdroas_preview(const struct hemdroas_layout *layout, const uint64_t *commands, uint64_t n,
                      const struct hemdroas_machine *machine, const uint32_t *memory, uint64_t cells,
                      uint32_t *work, uint64_t spare, uint32_t budget,
                      const uint32_t *readings, uint64_t r, uint32_t *log, uint64_t g,
                      struct hemdroas_machine *after, struct hemdroas_run_answer *answer);

/* Runs a routine's n words directly, without rewriting them. The policy and the
 * landings are those that hemdroas_install or hemdroas_load wrote to memory. Log
 * and readings are as for hemdroas_run. The budget counts instructions, so budget
 * 1 executes one.
 *
 * All words are tested first. The run may be refused as bad layout (7), then as
 * oversize (5). Then the first bad word is refused as unknown variety (3),
 * foreign matter (2), off grade (4) or bad landing (8). An engine whose status is
 * not running (0) stays as it was, and answers its ending again. */
void hemdroas_engine_run(const struct hemdroas_layout *layout, const uint64_t *words, uint64_t n,
                         struct hemdroas_engine *engine, uint32_t *memory, uint64_t cells, uint32_t budget,
                         const uint32_t *readings, uint64_t r, uint32_t *log, uint64_t g,
                         struct hemdroas_engine_answer *answer);

/* Does what hemdroas_engine_run does, but does not test all words first. So its
 * cost depends on the instructions executed, not on n. On words that
 * hemdroas_engine_run accepts, both calls do the same, and you may mix them.
 *
 * Each word is tested when its turn comes. Words that were never tested before
 * are safe too: the first one that is no instruction ends the run in fault (22).
 * A run may be refused as bad layout (7), then as oversize (5). */
void hemdroas_engine_continue(const struct hemdroas_layout *layout, const uint64_t *words, uint64_t n,
                              struct hemdroas_engine *engine, uint32_t *memory, uint64_t cells, uint32_t budget,
                              const uint32_t *readings, uint64_t r, uint32_t *log, uint64_t g,
                              struct hemdroas_engine_answer *answer);

/* ---- making policies */

/* Makes a policy from n / 2 pairs of events: event pairs[2 * i + 1] is allowed
 * only after event pairs[2 * i] has been recorded. n is the length of pairs,
 * room that of table. The state tells which events of the pairs have been
 * recorded: its bit 0 stands for the smallest of these events, bit 1 for the next,
 * and so on. An event that is in no pair is always allowed and does not change the
 * state. Refused as bad pair (17), then small hopper (9). */
void hemdroas_precedence(const uint8_t *pairs, uint64_t n, uint8_t *table, uint64_t room,
                         struct hemdroas_precedence_answer *made);

/* Makes a policy from a drawing, in which a state may have several arrows for one
 * event, and several states may be starts. Bit s of starts is set if state s is
 * a start. Bit t of arrows[16 * s + e] is set if event e leads from state s to
 * state t. n is the length of arrows, room that of table. The policy allows a
 * list of events exactly if the drawing has a path of arrows for these events, in
 * this order, that begins at a start.
 *
 * This is the subset construction: each state of the policy is a nonempty set of
 * the drawing's states. After a list of events, the policy is in the set of all
 * states that the drawing can be in. Sets that no list leads to are left out.
 * State 0 is the set of starts. A breadth-first search numbers the others as it
 * finds them: it follows the events 0 to 15 of state 0, then those of state 1,
 * and so on.
 * Refused as bad drawing (16), then too many states (15), then small hopper (9). */
void hemdroas_determinise(uint32_t states, uint32_t starts, const uint16_t *arrows, uint64_t n,
                          uint8_t *table, uint64_t room, struct hemdroas_determinise_answer *made);

/* Merges two policies into one that allows a list of events exactly if both do.
 * Each table must have 16 bytes for each state of its policy. Each byte must be
 * below the number of states or HEMDROAS_NO_ARROW. Either policy may come first:
 * the result is the same. Each ceiling is the smaller of the two.
 *
 * Each state of the merged policy is a pair of states, one of each policy, that
 * some list of events leads to. State 0 is the pair of starts. The others are
 * numbered as in hemdroas_determinise. The answer's place is the number of
 * bytes written to table. Refused as bad policy (10), then too many states
 * (15), then small hopper (9). If it is refused, merged is set to zeros. */
void hemdroas_merge(const struct hemdroas_policy *one, const uint8_t *table1, uint64_t len1,
                    const struct hemdroas_policy *other, const uint8_t *table2, uint64_t len2,
                    uint8_t *table, uint64_t room, struct hemdroas_policy *merged, struct hemdroas_answer *answer);

#ifdef __cplusplus
}
#endif

#endif
