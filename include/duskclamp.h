/* Duskclamp: lock words, monitors and single steps of a runtime, over a table that the caller lends as bytes. docs/REFERENCE.md of the repository says
 * what each number, phase and word means and which tables are sound.
 *
 * Link liblock_engine_c.a, which `tools/build.sh library` writes to target/staticlib, or install it as libduskclamp.a by `make install`.
 * Of other libraries it needs memcpy and memset alone. It is built for x86-64. This header is C99, and C++11.
 *
 * A table is DUSKCLAMP_TABLE_SIZE bytes, which the caller owns, keeps and may copy. No call keeps a pointer, allocates, or blocks. Two calls on
 * one table at the same time are a data race, as on any other memory: the caller sees to it that there is one at a time.
 *
 * `bytes` must point to `length` bytes that may be read and, where they are not const, written. That is all that is asked of a caller, with what
 * duskclamp_fresh_given is given, the events and the room for answers of duskclamp_run and the scripts, records and room for a trace of
 * duskclamp_dispatch: any bytes and any numbers are answered.
 * A refused event stores nothing in the table, save that 18 and 19 make the thread's record that of an idle one. What each call answers, and which bytes
 * it leaves, is proved of the library; this declaration of it is not checked against its source.
 *
 * What bytes are no table, and are answered 11 by every call that takes a table:
 *  - any number of bytes but DUSKCLAMP_TABLE_SIZE;
 *  - an operation above 6, a phase above 15, or a contention flag above 1 in any of the 96 records;
 *  - a phase that a queued thread carries (phase 5) that is not 6, 10, 12 or 15, or a carried phase other than 0 in any other phase.
 * All other bytes are a table. It may still not be sound: then events are answered 11 too, and questions by what its records say.
 *
 * An answer is not its returned number: bit 16 is set beside 18 and 19, beside most 1s, and beside some 0s and 2s, and bits 32 to 63 of an accepted
 * event's answer say who was unparked. Keep an answer in a uint64_t, compare
 *     DUSKCLAMP_RETURNED(answer) == DUSKCLAMP_FINISHED
 * and never `answer == DUSKCLAMP_FINISHED`.
 *
 * Stack: a dispatch needs up to 11.4 KB, a run 9.0 KB, a step and a tick 7.6 KB, a begin and a question 5.4 KB, a fresh table 5.1 KB, beside what memcpy
 * and memset need. So measured by bench/stack.c, on a stack filled with a pattern, over a long schedule; no function calls itself.
 */
#ifndef DUSKCLAMP_H
#define DUSKCLAMP_H

#include <stddef.h>
#include <stdint.h>

#ifdef __cplusplus
extern "C" {
#endif

/* The version of the library that this header declares; duskclamp_version gives that of the library which is linked. */
#define DUSKCLAMP_VERSION_MAJOR 0
#define DUSKCLAMP_VERSION_MINOR 5
#define DUSKCLAMP_VERSION_PATCH 0
#define DUSKCLAMP_VERSION ((DUSKCLAMP_VERSION_MAJOR << 16) | (DUSKCLAMP_VERSION_MINOR << 8) | DUSKCLAMP_VERSION_PATCH)

/* The version of the bytes of a table. It rises whenever they change; a table that is kept or sent should go with it. */
#define DUSKCLAMP_LAYOUT_VERSION 3

/* How many bytes a table has: two of sizes, 32 thread records of 14 bytes each and 64 object records of 11. */
#define DUSKCLAMP_TABLE_SIZE 1154

/* The most threads and objects of a table. Both are numbered from 1; 0 means none. */
#define DUSKCLAMP_THREADS 32
#define DUSKCLAMP_OBJECTS 64

/* The longest limit of a timed wait, in ticks; the shortest is 1. */
#define DUSKCLAMP_TICKS 65535

/* The highest rank of a thread; the lowest is 0. */
#define DUSKCLAMP_RANKS 3

/* The most steps that a thread takes of its own from beginning an operation, or from being unparked, until it finishes, is refused or parks, in whatever
 * order the events of the others come; duskclamp_step has more. */
#define DUSKCLAMP_STEPS 6

/* The most steps of a turn of duskclamp_dispatch; the fewest is 1. */
#define DUSKCLAMP_QUANTUM 100

/* The operations; an idle thread has 0. */
#define DUSKCLAMP_ENTER 1
#define DUSKCLAMP_EXIT 2
#define DUSKCLAMP_WAIT 3
#define DUSKCLAMP_NOTIFY 4
#define DUSKCLAMP_NOTIFY_ALL 5
#define DUSKCLAMP_TIMED_WAIT 6 /* a wait that runs out after so many ticks */

/* The phases of a thread. */
#define DUSKCLAMP_PHASE_IDLE 0        /* at no operation */
#define DUSKCLAMP_PHASE_LOOK 1        /* about to do what the lock word allows */
#define DUSKCLAMP_PHASE_STORE 2       /* about to store the reserved word that it keeps, with its count changed */
#define DUSKCLAMP_PHASE_CANCEL 3      /* about to cancel the object's reservation */
#define DUSKCLAMP_PHASE_GO_IN 4       /* about to become the monitor's holder, or queue for it; an exit finishes if the contention flag is down */
#define DUSKCLAMP_PHASE_QUEUED 5      /* parked in the entry chain, until handed the monitor or, an exit, let out */
#define DUSKCLAMP_PHASE_CHECK 6       /* holder, about to check the word */
#define DUSKCLAMP_PHASE_TRY 7         /* holder, about to try the word once more, the contention flag up */
#define DUSKCLAMP_PHASE_CONTENDING 8  /* parked in the contention chain, until the flat lock's owner tells */
#define DUSKCLAMP_PHASE_TEST 9        /* the word is free, about to test the contention flag */
#define DUSKCLAMP_PHASE_TELL 10       /* holder, about to tell the first contender */
#define DUSKCLAMP_PHASE_LEAVE 11      /* holder, about to hand the monitor on */
#define DUSKCLAMP_PHASE_INFLATE 12    /* holder, about to make its flat lock a monitor, to wait on it */
#define DUSKCLAMP_PHASE_GIVE_UP 13    /* holder, about to save its depth and wait */
#define DUSKCLAMP_PHASE_WAITING 14    /* parked in the waiting chain */
#define DUSKCLAMP_PHASE_RESUME 15     /* holder, about to take its saved depth back */

/* The kinds of a lock word, by duskclamp_word_kind. */
#define DUSKCLAMP_WORD_FREE 0      /* nobody owns the object */
#define DUSKCLAMP_WORD_FLAT 1      /* the thread that it names owns the object */
#define DUSKCLAMP_WORD_ANONYMOUS 2 /* reserved for whoever enters first */
#define DUSKCLAMP_WORD_RESERVED 3  /* reserved for the thread that it names, which owns the object if duskclamp_depth is above 0 */
#define DUSKCLAMP_WORD_FAT 4       /* the monitor says the rest */
#define DUSKCLAMP_WORD_NONE 5      /* no lock word: the table is not sound */

/* The returned numbers. From 11 up nothing is changed, save that 18 and 19 make the thread idle. */
#define DUSKCLAMP_GONE_ON 0             /* begun, or gone on */
#define DUSKCLAMP_FINISHED 1            /* the operation is finished, and the thread idle */
#define DUSKCLAMP_PARKED 2              /* parked until another's step or a tick lets the thread go on, or another's step lets its exit out (duskclamp_step) */
#define DUSKCLAMP_NOT_SOUND 11          /* no table, or one that is not sound */
#define DUSKCLAMP_NO_SUCH_THREAD 12     /* the thread is not one of the table's */
#define DUSKCLAMP_NO_SUCH_OBJECT 13     /* the object is not one of the table's */
#define DUSKCLAMP_NOT_IDLE 14           /* begin: the thread is at an operation */
#define DUSKCLAMP_THREAD_IDLE 15        /* step: the thread is at no operation; its exit may have been let out */
#define DUSKCLAMP_THREAD_PARKED 16      /* step: the thread is parked */
#define DUSKCLAMP_NO_SUCH_OPERATION 17  /* begin: the operation is not 1 to 6 */
#define DUSKCLAMP_NOT_OWNER 18          /* exit, wait or notify of a thread that does not own the object */
#define DUSKCLAMP_TOO_DEEP 19           /* enter at depth 65,535 */
#define DUSKCLAMP_NO_RULE 20            /* the step has no rule; never from a fresh table on */
#define DUSKCLAMP_SIZE_OUT_OF_RANGE 22  /* fresh: threads not 1 to 32, or objects not 1 to 64 */
#define DUSKCLAMP_LIMIT_OUT_OF_RANGE 23 /* begin of a timed wait: the limit is not 1 to DUSKCLAMP_TICKS */
#define DUSKCLAMP_QUANTUM_OUT_OF_RANGE 25 /* dispatch: the steps of a turn are not 1 to DUSKCLAMP_QUANTUM */
#define DUSKCLAMP_SCRIPT_UNKNOWN 26     /* dispatch: not a record for each thread, or one whose script is not as duskclamp_dispatch has it */
#define DUSKCLAMP_RANK_OUT_OF_RANGE 27  /* fresh: a rank above DUSKCLAMP_RANKS */

/* An event's answer, of 64 bits: the returned number in bits 0 to 7; the woken number in bits 8 to 15: with 1, how many threads a notify woke, or, of a
 * timed wait, 1 if it ran out, else 0; in bit 16 whether the step committed its operation; in bits 32 to 63 the set of threads that the event unparked. */
#define DUSKCLAMP_RETURNED(answer) ((uint32_t)((answer) & 0xff))
#define DUSKCLAMP_WOKEN(answer) ((uint32_t)(((answer) >> 8) & 0xff))
#define DUSKCLAMP_COMMITS(answer) ((uint32_t)(((answer) >> 16) & 1))

/* The set: bit n - 1 says that thread n was parked before the event and is not after it, so run it again. All other bits are 0. A step or a tick may unpark
 * several threads, a begin unparks nobody, and a refused event carries no set: its answer is below 2^32.
 *
 * A run queue kept from answers and sets alone:
 *  - a thread whose begin is accepted goes in;
 *  - a thread whose step returns 1, 2, 18 or 19, or is refused with 15, goes out;
 *  - every thread in a set goes in.
 * Every other refusal changes nothing in the queue. From a fresh table on it then holds every thread that is neither idle nor parked, and besides these
 * only threads whose exit was let out (duskclamp_step) and which have neither stepped nor begun since. No phase has to be asked for. */
#define DUSKCLAMP_UNPARKED(answer) ((uint32_t)((answer) >> 32))

/* A question's answer: DUSKCLAMP_RETURNED, and where that is 0 the value above it. */
#define DUSKCLAMP_VALUE(answer) ((uint32_t)((answer) >> 8))

/* DUSKCLAMP_VERSION, DUSKCLAMP_LAYOUT_VERSION and DUSKCLAMP_TABLE_SIZE, by the library. */
uint32_t duskclamp_version(void);
uint32_t duskclamp_layout_version(void);
size_t duskclamp_table_size(void);

/* Makes a fresh table: every thread idle and of rank 0, every word free, or anonymously reserved where `reserved` is not 0.
 * 0; or 11 if `length` is not DUSKCLAMP_TABLE_SIZE; or 22. */
uint32_t duskclamp_fresh(uint8_t *bytes, size_t length, uint32_t threads, uint32_t objects, uint32_t reserved);

/* What a fresh table may be given. All fields are arrays of bytes, so that there is no padding; later versions of the library add theirs at the end. A byte
 * of 0 is in each what duskclamp_fresh gives: set the struct to zeros, and then what is to differ.
 *
 * A rank, 0 to DUSKCLAMP_RANKS, says where its thread joins an object's entry chain: ahead of all threads of a lower rank, behind those of its own and of
 * higher ones. So a screen of rank 3 passes the reports of rank 0 that are queued for the same object. That holds in whatever way the thread comes there:
 * by its own step, told by an exit, notified, moved by a step that inflates, or by a tick. A thread keeps its rank for as long as the table exists.
 *
 * A rank does no more than that:
 *  - the thread still waits for the object's owner and the monitor's holder, whatever their ranks, and they are not raised to its own meanwhile;
 *  - the contention and the waiting chain are kept by time: an exit tells the first contender, and a notify wakes the longest waiter, of whatever rank;
 *  - a thread that finds the word free takes it, of whatever rank, and passes all who are queued;
 *  - nothing keeps a thread of a low rank from starving in the entry chain, while others of a higher one keep joining it. */
typedef struct duskclamp_given {
    uint8_t rank[DUSKCLAMP_THREADS]; /* of thread n at n - 1 */
} duskclamp_given;

/* Makes a fresh table with what it is given. `given` points to `given_length` bytes, sizeof(duskclamp_given), and does not overlap the table. What lies
 * past them is as duskclamp_fresh has it, so a program that was compiled with an earlier header gets the table that it got then. Ranks past `threads`
 * are not read.
 * 0; or the first of 11 (`length` is not DUSKCLAMP_TABLE_SIZE), 22 and 27 that applies, and the bytes stay as they are. */
uint32_t duskclamp_fresh_given(uint8_t *bytes, size_t length, uint32_t threads, uint32_t objects, uint32_t reserved, const duskclamp_given *given,
                               size_t given_length);

/* The thread begins the operation on the object. Returned: 0, or the first of 11, 12, 17, 13, 14, 23 that applies; 23 of a timed wait, which has no
 * limit here. */
uint64_t duskclamp_begin(uint8_t *bytes, size_t length, uint32_t thread, uint32_t operation, uint32_t object);

/* The thread begins a timed wait on the object: a wait that runs out after `limit` ticks in the waiting chain. Returned: 0, or the first of 11, 12, 13,
 * 14, 23 that applies. */
uint64_t duskclamp_timed_wait(uint8_t *bytes, size_t length, uint32_t thread, uint32_t object, uint32_t limit);

/* The thread takes one step of its operation. Returned: 0, 1, 2, or the first of 11, 12, 15, 16, 18, 19, 20 that applies.
 * An operation ends with the step that returns 1, 18 or 19, save that an exit which has parked, in phase 5, may be let out: a step of another thread
 * that inflates the lock ends it, and has its thread in the set. That thread is idle then: its phase is 0, its next begin is accepted, and its next step
 * returns 15, which is the exit's 1 with the woken number 0.
 * No thread spins. On a table that came from a fresh one by events alone a thread takes at most DUSKCLAMP_STEPS steps that return 0, 1, 2, 18 or 19
 * from beginning an enter, an exit or a wait, 1 from beginning a notify, 2 from being unparked, or 1 if it is to resume; with the last that it may
 * take the step returns 1, 2, 18 or 19. Other bytes may be a sound table that no events lead to, and there it may take more. */
uint64_t duskclamp_step(uint8_t *bytes, size_t length, uint32_t thread);

/* One tick of the clock, taken from every timed wait that is in a waiting chain. Those with none left run out: they join the entry chain, from the lowest
 * object up and who waited longest first, each by its rank, and a monitor without a holder is handed to the first there, who is then in the set. A wait
 * that ran out finishes with the woken number 1. Returned: 0 or 11. */
uint64_t duskclamp_tick(uint8_t *bytes, size_t length);

/* An event of duskclamp_run, eight bytes; a tick reads the kind alone, a step the kind and the thread. */
typedef struct duskclamp_event {
    uint8_t kind;
    uint8_t thread;
    uint8_t operation;
    uint8_t object;
    uint32_t limit; /* of a timed wait, in bytes 4 to 7, the lowest first; no other operation looks at it */
} duskclamp_event;

/* The kinds of an event. Any other is the begin of no operation: 17, unless 11 or 12 applies. */
#define DUSKCLAMP_KIND_BEGIN 0
#define DUSKCLAMP_KIND_STEP 1
#define DUSKCLAMP_KIND_TICK 2

/* How many bytes an event has. */
#define DUSKCLAMP_EVENT_SIZE 8

/* Runs the events one behind the other on the table, as calls of duskclamp_begin, duskclamp_timed_wait, duskclamp_step and duskclamp_tick would, and
 * writes the answer of each, as such a call gives it. `events` points to `events_length` bytes, DUSKCLAMP_EVENT_SIZE for each event, and `answers` has
 * room for `answers_length` answers; neither overlaps the table or the other. As many events are run as there are whole ones and as there is room for, and
 * that number is given back; no other answer is written. A refused event does not end the run.
 * The table is read, tested for soundness and written back once, not for each event: a sound table stays sound, and one that is not stays as it is. If
 * all events are refused with other numbers than 18 and 19, nothing is stored in it. An accepted tick writes it back also where nobody waits. */
size_t duskclamp_run(uint8_t *bytes, size_t length, const uint8_t *events, size_t events_length, uint64_t *answers, size_t answers_length);

/* The same for an array of `count` events, with room for as many answers. On x86-64 an event lies in memory as its eight bytes do. The array type tests
 * the offsets: it has a negative length if a compiler lays the struct out in another way. */
typedef char duskclamp_event_is_its_bytes[sizeof(duskclamp_event) == DUSKCLAMP_EVENT_SIZE && offsetof(duskclamp_event, thread) == 1
                                                  && offsetof(duskclamp_event, operation) == 2 && offsetof(duskclamp_event, object) == 3
                                                  && offsetof(duskclamp_event, limit) == 4
                                              ? 1
                                              : -1];
static inline size_t duskclamp_run_events(uint8_t *bytes, size_t length, const duskclamp_event *events, size_t count, uint64_t *answers) {
    return duskclamp_run(bytes, length, (const uint8_t *)events, count * DUSKCLAMP_EVENT_SIZE, answers, count);
}

/* A thread's script, twelve bytes: `length` operations of those that are lent, from operation `start` on, which is counted from 0. `cursor` of them have
 * been begun; at `length` the thread is at its script's end. */
typedef struct duskclamp_script {
    uint32_t start;
    uint32_t length;
    uint32_t cursor;
} duskclamp_script;

/* How many bytes an operation that is lent has: its number, 1 to 5, and its object. */
#define DUSKCLAMP_OPERATION_SIZE 2

/* Runs the threads by their scripts, for a kiosk that has no interpreter: thread 1 first, then the others in rising number, then thread 1 again, each
 * for a turn of at most `quantum` steps. A thread at no operation first begins the next of its script, which is no step and moves its cursor on. A turn
 * ends before `quantum` steps with a step that returns 2, at the script's end, and where the thread is parked or its step has no rule (20, never from
 * a fresh table on). 18 and 19 are steps: the operation is over, and the script goes on. After a round without a step the run ends. Then nobody can
 * go on; threads may be parked for good, as in a deadlock or a wait that nobody notifies. Nobody is kept waiting: on a table that came from
 * a fresh one by events alone an unparked thread with an operation to finish or to begin gets its step before the others have taken more than
 * `quantum` times their number, all together. The clock does not tick.
 *
 * `scripts` points to `scripts_length` bytes, DUSKCLAMP_OPERATION_SIZE for each operation; a last odd byte is none. `cursors` points to
 * `cursors_length` records, that of thread 1 first. Scripts may overlap or be the same, and threads of the table may be at an operation already: they
 * finish it first. `trace` has room for `trace_length` entries, one for each step: as many are written as there are steps and as there is room for.
 * None of these overlaps the table or another.
 *
 * Returned: 0, or the first of 11, 25, 26 that applies; then table, records and trace stay as they are, and in table and trace
 * nothing is stored. 26 if there are not as many records as the
 * table has threads, or if of one of them `start` + `length` is above the number of operations that are lent, `cursor` is above `length`, or an operation
 * of its script, one before the cursor too, has not a number from 1 to 5 and an object of the table. A timed wait is none of a script's operations.
 * DUSKCLAMP_STEPS_TAKEN of the answer is the number of steps, also of those that the trace had no room for; 0 where the call is refused. On every sound
 * table a run ends, with at most 205 steps for each operation that is not begun and for each thread. */
uint64_t duskclamp_dispatch(uint8_t *bytes, size_t length, uint32_t quantum, const uint8_t *scripts, size_t scripts_length, duskclamp_script *cursors,
                            size_t cursors_length, uint64_t *trace, size_t trace_length);
#define DUSKCLAMP_STEPS_TAKEN(answer) ((uint64_t)(answer) >> 8)

/* An entry of a trace is the step's answer, for DUSKCLAMP_RETURNED and the others, and has in bits 24 to 31 the thread, and in bit 17 whether the thread
 * began its operation just before the step. */
#define DUSKCLAMP_TRACE_THREAD(entry) ((uint32_t)(((entry) >> 24) & 0xff))
#define DUSKCLAMP_TRACE_BEGAN(entry) ((uint32_t)(((entry) >> 17) & 1))

/* Questions. Of bytes that are no table 11; then 12 or 13 if there is no such thread or object. They are answered of a table that is not sound
 * too, by what its records say, so a number there need not be that of a thread: a loop along a chain of such a table counts its turns. */

/* How many threads and objects the table has. */
uint64_t duskclamp_thread_count(const uint8_t *bytes, size_t length);
uint64_t duskclamp_object_count(const uint8_t *bytes, size_t length);

/* The thread's operation, the object that it is at, and its phase; 0, 0 and 0 for idle. Phases 5, 8 and 14 are parked. */
uint64_t duskclamp_operation(const uint8_t *bytes, size_t length, uint32_t thread);
uint64_t duskclamp_object(const uint8_t *bytes, size_t length, uint32_t thread);
uint64_t duskclamp_phase(const uint8_t *bytes, size_t length, uint32_t thread);

/* The phase that a queued thread goes on with when it is handed the monitor, 6, 10, 12 or 15; 0 for any other. */
uint64_t duskclamp_onward(const uint8_t *bytes, size_t length, uint32_t thread);

/* The lock word that a thread in phase 2 is about to store, with its count changed; 0 in any other phase. */
uint64_t duskclamp_kept(const uint8_t *bytes, size_t length, uint32_t thread);

/* The depth that a wait gave up, in phases 14 and 15 and queued for 15; else 0. */
uint64_t duskclamp_saved_depth(const uint8_t *bytes, size_t length, uint32_t thread);

/* The thread behind this one in the chain it is in, 0 for none. */
uint64_t duskclamp_next(const uint8_t *bytes, size_t length, uint32_t thread);

/* The ticks that a timed wait has left. They fall only while it is in the waiting chain; 0 when it ran out, and for any other operation. */
uint64_t duskclamp_ticks(const uint8_t *bytes, size_t length, uint32_t thread);

/* The rank that the thread was given, 0 to DUSKCLAMP_RANKS in a sound table; the same in every phase, idle too. */
uint64_t duskclamp_rank(const uint8_t *bytes, size_t length, uint32_t thread);

/* Who keeps a thread that is parked for entry, in phase 5 or 8, which is always another: of an exit the monitor's holder; of any other operation the
 * thread that owns its object by the lock word, or, where nobody else does, the holder, which is on its way in or out. 0 for nobody, and in any other
 * phase. DUSKCLAMP_IS_HOLDER tells a holder from an owner. In a table that began as a fresh one the holder that an exit waits for is not parked and at
 * depth 0, and its operation is on that object. */
uint64_t duskclamp_blocker(const uint8_t *bytes, size_t length, uint32_t thread);
#define DUSKCLAMP_BLOCKER(answer) (DUSKCLAMP_VALUE(answer) & 0xffff)
#define DUSKCLAMP_IS_HOLDER(answer) ((DUSKCLAMP_VALUE(answer) >> 16) & 1)

/* The object's lock word. */
uint64_t duskclamp_word(const uint8_t *bytes, size_t length, uint32_t object);

/* What the word says, so that nobody need take its bits apart: its kind, one of DUSKCLAMP_WORD_FREE to DUSKCLAMP_WORD_NONE, and the thread that a flat
 * or reserved word names, 0 for any other word. A reserved word names its thread also while nobody owns the object. */
uint64_t duskclamp_word_kind(const uint8_t *bytes, size_t length, uint32_t object);
uint64_t duskclamp_word_thread(const uint8_t *bytes, size_t length, uint32_t object);

/* The thread that owns the object and how deep it does; 0 and 0 for nobody. */
uint64_t duskclamp_owner(const uint8_t *bytes, size_t length, uint32_t object);
uint64_t duskclamp_depth(const uint8_t *bytes, size_t length, uint32_t object);

/* The object's contention flag, 0 or 1. */
uint64_t duskclamp_flag(const uint8_t *bytes, size_t length, uint32_t object);

/* The object's monitor: its holder, its depth, which is the object's only where the word is fat, and the first thread of each chain, behind which
 * duskclamp_next leads to the others. 0 for none. */
uint64_t duskclamp_holder(const uint8_t *bytes, size_t length, uint32_t object);
uint64_t duskclamp_monitor_depth(const uint8_t *bytes, size_t length, uint32_t object);
uint64_t duskclamp_entry_first(const uint8_t *bytes, size_t length, uint32_t object);
uint64_t duskclamp_contention_first(const uint8_t *bytes, size_t length, uint32_t object);
uint64_t duskclamp_waiting_first(const uint8_t *bytes, size_t length, uint32_t object);

/* Names, for messages. A number that is none of theirs is "unknown". */
static inline const char *duskclamp_returned_name(uint32_t returned) {
    switch (returned) {
    case DUSKCLAMP_GONE_ON: return "gone on";
    case DUSKCLAMP_FINISHED: return "finished";
    case DUSKCLAMP_PARKED: return "parked";
    case DUSKCLAMP_NOT_SOUND: return "table not sound";
    case DUSKCLAMP_NO_SUCH_THREAD: return "no such thread";
    case DUSKCLAMP_NO_SUCH_OBJECT: return "no such object";
    case DUSKCLAMP_NOT_IDLE: return "thread not idle";
    case DUSKCLAMP_THREAD_IDLE: return "thread idle";
    case DUSKCLAMP_THREAD_PARKED: return "thread parked";
    case DUSKCLAMP_NO_SUCH_OPERATION: return "no such operation";
    case DUSKCLAMP_NOT_OWNER: return "not the owner";
    case DUSKCLAMP_TOO_DEEP: return "too deep";
    case DUSKCLAMP_NO_RULE: return "no rule for the step";
    case DUSKCLAMP_SIZE_OUT_OF_RANGE: return "size out of range";
    case DUSKCLAMP_LIMIT_OUT_OF_RANGE: return "limit out of range";
    case DUSKCLAMP_QUANTUM_OUT_OF_RANGE: return "quantum out of range";
    case DUSKCLAMP_SCRIPT_UNKNOWN: return "script unknown";
    case DUSKCLAMP_RANK_OUT_OF_RANGE: return "rank out of range";
    default: return "unknown";
    }
}

static inline const char *duskclamp_operation_name(uint32_t operation) {
    switch (operation) {
    case 0: return "none";
    case DUSKCLAMP_ENTER: return "enter";
    case DUSKCLAMP_EXIT: return "exit";
    case DUSKCLAMP_WAIT: return "wait";
    case DUSKCLAMP_NOTIFY: return "notify";
    case DUSKCLAMP_NOTIFY_ALL: return "notify all";
    case DUSKCLAMP_TIMED_WAIT: return "timed wait";
    default: return "unknown";
    }
}

static inline const char *duskclamp_phase_name(uint32_t phase) {
    switch (phase) {
    case DUSKCLAMP_PHASE_IDLE: return "idle";
    case DUSKCLAMP_PHASE_LOOK: return "look";
    case DUSKCLAMP_PHASE_STORE: return "store";
    case DUSKCLAMP_PHASE_CANCEL: return "cancel";
    case DUSKCLAMP_PHASE_GO_IN: return "go in";
    case DUSKCLAMP_PHASE_QUEUED: return "queued";
    case DUSKCLAMP_PHASE_CHECK: return "check";
    case DUSKCLAMP_PHASE_TRY: return "try";
    case DUSKCLAMP_PHASE_CONTENDING: return "contending";
    case DUSKCLAMP_PHASE_TEST: return "test";
    case DUSKCLAMP_PHASE_TELL: return "tell";
    case DUSKCLAMP_PHASE_LEAVE: return "leave";
    case DUSKCLAMP_PHASE_INFLATE: return "inflate";
    case DUSKCLAMP_PHASE_GIVE_UP: return "give up";
    case DUSKCLAMP_PHASE_WAITING: return "waiting";
    case DUSKCLAMP_PHASE_RESUME: return "resume";
    default: return "unknown";
    }
}

static inline const char *duskclamp_word_kind_name(uint32_t kind) {
    switch (kind) {
    case DUSKCLAMP_WORD_FREE: return "free";
    case DUSKCLAMP_WORD_FLAT: return "flat";
    case DUSKCLAMP_WORD_ANONYMOUS: return "anonymous";
    case DUSKCLAMP_WORD_RESERVED: return "reserved";
    case DUSKCLAMP_WORD_FAT: return "monitor";
    case DUSKCLAMP_WORD_NONE: return "no lock word";
    default: return "unknown";
    }
}

/* Whether a thread in this phase is parked: its steps are answered 16 until another's step or a tick lets it go on, or a step lets its exit out. */
static inline int duskclamp_phase_is_parked(uint32_t phase) {
    return phase == DUSKCLAMP_PHASE_QUEUED || phase == DUSKCLAMP_PHASE_CONTENDING || phase == DUSKCLAMP_PHASE_WAITING;
}

#ifdef __cplusplus
}
#endif

#endif
