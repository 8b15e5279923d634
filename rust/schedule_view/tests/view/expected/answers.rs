//! Words for the last line of a schedule. Schedules are in the short form of `common`.

/// A schedule in parts, and the words for its last line.
pub type Row = (&'static [&'static str], &'static str);

const FRESH: &str = "L 3 1 0";
/// Thread 1 owns the object by a flat word.
const FLAT: &str = "L 3 1 0, E 1 1, S 1";
const RESERVED: &str = "L 3 1 1, E 1 1, S 1";
/// Thread 2 is at its check, its try, and in the contention chain.
const HOLDING: &str = "L 3 1 0, E 1 1, S 1, E 2 1, S 2 x2";
const TRYING: &str = "L 3 1 0, E 1 1, S 1, E 2 1, S 2 x3";
const CONTENDED: &str = "L 3 1 0, E 1 1, S 1, E 2 1, S 2 x4";
/// Thread 2 owns the object by its monitor.
const MONITOR: &str = "L 3 1 0, E 1 1, S 1, E 2 1, S 2 x4, X 1 1, S 1 x5, S 2 x2";
/// Thread 1 waits, without a limit and with one.
const WAITING: &str = "L 3 1 0, E 1 1, S 1, W 1 1, S 1 x4";
const TIMED: &str = "L 3 1 0, E 1 1, S 1, V 1 1 2, S 1 x4";
/// Thread 1's exit is in the entry chain, and thread 2 at its try.
const EXIT_PARKED: &str = "L 3 1 0, E 1 1, S 1, E 2 1, S 2 x3, X 1 1, S 1 x3";

pub const ROWS: &[Row] = &[
    // Begins, and every kind of word.
    (
        &[FRESH, "E 1 1"],
        "Thread 1 begins to enter object 1; next is look (1). The word of object 1 is free.",
    ),
    (
        &[FLAT, "X 1 1"],
        "Thread 1 begins to leave object 1; next is look (1). The word of object 1 is flat, thread 1 at depth 1.",
    ),
    (
        &[FLAT, "W 1 1"],
        "Thread 1 begins to wait at object 1; next is look (1). The word of object 1 is flat, thread 1 at depth 1.",
    ),
    (
        &[FLAT, "V 1 1 1"],
        "Thread 1 begins to wait at object 1 for at most 1 tick; next is look (1). The word of object 1 is flat, thread 1 at depth 1.",
    ),
    (
        &[FLAT, "N 1 1"],
        "Thread 1 begins to notify the longest waiter at object 1; next is look (1). The word of object 1 is flat, thread 1 at depth 1.",
    ),
    (
        &[FLAT, "A 1 1"],
        "Thread 1 begins to notify all who wait at object 1; next is look (1). The word of object 1 is flat, thread 1 at depth 1.",
    ),
    (
        &["L 3 1 1", "E 1 1"],
        "Thread 1 begins to enter object 1; next is look (1). The word of object 1 is reserved for nobody yet.",
    ),
    (
        &[RESERVED, "E 1 1"],
        "Thread 1 begins to enter object 1; next is look (1). The word of object 1 is reserved, thread 1 at depth 1.",
    ),
    (
        &[RESERVED, "X 1 1, S 1 x2, E 2 1"],
        "Thread 2 begins to enter object 1; next is look (1). The word of object 1 is reserved for thread 1, owned by nobody.",
    ),
    (
        &[MONITOR, "E 3 1"],
        "Thread 3 begins to enter object 1; next is look (1). The word of object 1 is a monitor, thread 2 at depth 1.",
    ),
    (
        &[WAITING, "E 3 1"],
        "Thread 3 begins to enter object 1; next is look (1). The word of object 1 is a monitor, owned by nobody.",
    ),
    // Phase 1, look.
    (
        &[FRESH, "E 1 1, S 1"],
        "Thread 1, in its enter of object 1, looks at the word (phase 1) and has finished: it owns object 1 at depth 1. The word of object 1 was free, and is flat, thread 1 at depth 1.",
    ),
    (
        &[FLAT, "E 1 1, S 1"],
        "Thread 1, in its enter of object 1, looks at the word (phase 1) and has finished: it owns object 1 at depth 2. The word of object 1 was flat, thread 1 at depth 1, and is flat, thread 1 at depth 2.",
    ),
    (
        &[FLAT, "E 2 1, S 2"],
        "Thread 2, in its enter of object 1, looks at the word (phase 1); next is go in (4). The word of object 1 is flat, thread 1 at depth 1.",
    ),
    (
        &["L 3 1 1", "E 1 1, S 1"],
        "Thread 1, in its enter of object 1, looks at the word (phase 1) and has finished: it owns object 1 at depth 1. The word of object 1 was reserved for nobody yet, and is reserved, thread 1 at depth 1.",
    ),
    (
        &[RESERVED, "E 1 1, S 1"],
        "Thread 1, in its enter of object 1, looks at the word (phase 1); next is store (2). The word of object 1 is reserved, thread 1 at depth 1.",
    ),
    (
        &[RESERVED, "E 2 1, S 2"],
        "Thread 2, in its enter of object 1, looks at the word (phase 1); next is cancel (3). The word of object 1 is reserved, thread 1 at depth 1.",
    ),
    (
        &[FLAT, "E 1 1, S 1, X 1 1, S 1"],
        "Thread 1, in its exit from object 1, looks at the word (phase 1) and has finished: it is still inside at depth 1. The word of object 1 was flat, thread 1 at depth 2, and is flat, thread 1 at depth 1.",
    ),
    (
        &[FLAT, "X 1 1, S 1"],
        "Thread 1, in its exit from object 1, looks at the word (phase 1); next is test (9). The word of object 1 was flat, thread 1 at depth 1, and is free.",
    ),
    (
        &[MONITOR, "E 2 1, S 2 x2, X 2 1, S 2"],
        "Thread 2, in its exit from object 1, looks at the word (phase 1) and has finished: it is still inside at depth 1. The word of object 1 was a monitor, thread 2 at depth 2, and is a monitor, thread 2 at depth 1.",
    ),
    (
        &[MONITOR, "X 2 1, S 2"],
        "Thread 2, in its exit from object 1, looks at the word (phase 1); next is leave (11). The word of object 1 was a monitor, thread 2 at depth 1, and is free.",
    ),
    (
        &[WAITING, "E 2 1, S 2 x3, X 2 1, S 2"],
        "Thread 2, in its exit from object 1, looks at the word (phase 1); next is leave (11). The word of object 1 was a monitor, thread 2 at depth 1, and is a monitor, owned by nobody.",
    ),
    (
        &[FLAT, "W 1 1, S 1"],
        "Thread 1, in its wait at object 1, looks at the word (phase 1); next is go in (4). The word of object 1 is flat, thread 1 at depth 1.",
    ),
    (
        &[RESERVED, "W 1 1, S 1"],
        "Thread 1, in its wait at object 1, looks at the word (phase 1); next is cancel (3). The word of object 1 is reserved, thread 1 at depth 1.",
    ),
    (
        &[MONITOR, "W 2 1, S 2"],
        "Thread 2, in its wait at object 1, looks at the word (phase 1); next is give up (13). The word of object 1 is a monitor, thread 2 at depth 1.",
    ),
    (
        &[FLAT, "N 1 1, S 1"],
        "Thread 1, in its notify at object 1, looks at the word (phase 1) and has finished: nobody was woken. The word of object 1 is flat, thread 1 at depth 1.",
    ),
    (
        &[RESERVED, "A 1 1, S 1"],
        "Thread 1, in its notify all at object 1, looks at the word (phase 1) and has finished: nobody was woken. The word of object 1 is reserved, thread 1 at depth 1.",
    ),
    (
        &[MONITOR, "A 2 1, S 2"],
        "Thread 2, in its notify all at object 1, looks at the word (phase 1) and has finished: nobody was woken. The word of object 1 is a monitor, thread 2 at depth 1.",
    ),
    (
        &[WAITING, "E 2 1, S 2 x3, N 2 1, S 2"],
        "Thread 2, in its notify at object 1, looks at the word (phase 1) and has finished: 1 thread woken. Thread 1 moves from the waiting chain to the entry chain, and stays parked. The word of object 1 is a monitor, thread 2 at depth 1.",
    ),
    (
        &[WAITING, "E 2 1, S 2 x3, W 2 1, S 2 x2, E 3 1, S 3 x3, N 3 1, S 3"],
        "Thread 3, in its notify at object 1, looks at the word (phase 1) and has finished: 1 thread woken. Thread 1 moves from the waiting chain to the entry chain, and stays parked. The word of object 1 is a monitor, thread 3 at depth 1.",
    ),
    (
        &[WAITING, "E 2 1, S 2 x3, W 2 1, S 2 x2, E 3 1, S 3 x3, A 3 1, S 3"],
        "Thread 3, in its notify all at object 1, looks at the word (phase 1) and has finished: 2 threads woken. Thread 1 moves from the waiting chain to the entry chain, and stays parked. Thread 2 moves from the waiting chain to the entry chain, and stays parked. The word of object 1 is a monitor, thread 3 at depth 1.",
    ),
    // Phase 2, store.
    (
        &[RESERVED, "E 1 1, S 1 x2"],
        "Thread 1, in its enter of object 1, stores the word that it kept, with its count changed (phase 2) and has finished: it owns object 1 at depth 2. The word of object 1 was reserved, thread 1 at depth 1, and is reserved, thread 1 at depth 2.",
    ),
    (
        &[RESERVED, "X 1 1, S 1 x2"],
        "Thread 1, in its exit from object 1, stores the word that it kept, with its count changed (phase 2) and has finished: it has left. The word of object 1 was reserved, thread 1 at depth 1, and is reserved for thread 1, owned by nobody.",
    ),
    (
        &[RESERVED, "E 1 1, S 1 x2, X 1 1, S 1 x2"],
        "Thread 1, in its exit from object 1, stores the word that it kept, with its count changed (phase 2) and has finished: it is still inside at depth 1. The word of object 1 was reserved, thread 1 at depth 2, and is reserved, thread 1 at depth 1.",
    ),
    // Phase 3, cancel.
    (
        &[RESERVED, "E 2 1, S 2 x2"],
        "Thread 2, in its enter of object 1, cancels the reservation (phase 3); next is look (1). The word of object 1 was reserved, thread 1 at depth 1, and is flat, thread 1 at depth 1.",
    ),
    (
        &[RESERVED, "W 1 1, S 1 x2"],
        "Thread 1, in its wait at object 1, cancels the reservation (phase 3); next is look (1). The word of object 1 was reserved, thread 1 at depth 1, and is flat, thread 1 at depth 1.",
    ),
    (
        &[RESERVED, "E 1 1, S 1, E 2 1, S 2 x2"],
        "Thread 2, in its enter of object 1, cancels the reservation (phase 3); next is look (1). Thread 1 is sent back from store (2) to look (1). The word of object 1 was reserved, thread 1 at depth 1, and is flat, thread 1 at depth 1.",
    ),
    (
        &[RESERVED, "X 1 1, S 1 x2, E 2 1, S 2 x2"],
        "Thread 2, in its enter of object 1, cancels the reservation (phase 3); next is look (1). The word of object 1 was reserved for thread 1, owned by nobody, and is free.",
    ),
    (
        &[RESERVED, "E 2 1, S 2, E 3 1, S 3, S 2, S 3"],
        "Thread 3, in its enter of object 1, finds no reservation to cancel (phase 3); next is look (1). The word of object 1 is flat, thread 1 at depth 1.",
    ),
    // Phase 4, go in.
    (
        &[FLAT, "E 2 1, S 2 x2"],
        "Thread 2, in its enter of object 1, goes in (phase 4); next is check (6). Thread 2 holds the monitor of object 1 now. The word of object 1 is flat, thread 1 at depth 1.",
    ),
    (
        &[CONTENDED, "X 1 1, S 1 x3"],
        "Thread 1, in its exit from object 1, goes in (phase 4); next is tell (10). Thread 1 holds the monitor of object 1 now. The word of object 1 is free.",
    ),
    (
        &[FLAT, "W 1 1, S 1 x2"],
        "Thread 1, in its wait at object 1, goes in (phase 4); next is inflate (12). Thread 1 holds the monitor of object 1 now. The word of object 1 is flat, thread 1 at depth 1.",
    ),
    (
        &[TRYING, "X 1 1, S 1 x2, S 2, S 1"],
        "Thread 1, in its exit from object 1, need not go in (phase 4) and has finished: it has left. The word of object 1 is a monitor, thread 2 at depth 1.",
    ),
    (
        &[MONITOR, "E 2 1, S 2 x2"],
        "Thread 2, in its enter of object 1, goes in (phase 4) and has finished: it owns object 1 at depth 2. The word of object 1 was a monitor, thread 2 at depth 1, and is a monitor, thread 2 at depth 2.",
    ),
    (
        &[HOLDING, "E 3 1, S 3 x2"],
        "Thread 3, in its enter of object 1, cannot go in (phase 4) and parks in the entry chain (5), kept by thread 1, which owns the object. The word of object 1 is flat, thread 1 at depth 1.",
    ),
    (
        &[MONITOR, "E 1 1, S 1 x2, E 3 1, S 3 x2"],
        "Thread 3, in its enter of object 1, cannot go in (phase 4) and parks in the entry chain (5) behind thread 1, kept by thread 2, which owns the object. The word of object 1 is a monitor, thread 2 at depth 1.",
    ),
    (
        &[WAITING, "E 2 1, S 2 x2, E 3 1, S 3 x2"],
        "Thread 3, in its enter of object 1, cannot go in (phase 4) and parks in the entry chain (5), kept by thread 2, which holds the monitor. The word of object 1 is a monitor, owned by nobody.",
    ),
    (
        &[HOLDING, "W 1 1, S 1 x2"],
        "Thread 1, in its wait at object 1, cannot go in (phase 4) and parks in the entry chain (5), kept by thread 2, which holds the monitor. The word of object 1 is flat, thread 1 at depth 1.",
    ),
    (
        &[TRYING, "X 1 1, S 1 x3"],
        "Thread 1, in its exit from object 1, cannot go in (phase 4) and parks in the entry chain (5), kept by thread 2, which holds the monitor. The word of object 1 is free.",
    ),
    // Phase 6, check.
    (
        &[HOLDING, "S 2"],
        "Thread 2, in its enter of object 1, checks the word, as holder (phase 6); next is try (7). The contention flag goes up. The word of object 1 is flat, thread 1 at depth 1.",
    ),
    (
        &[WAITING, "E 2 1, S 2 x3"],
        "Thread 2, in its enter of object 1, checks the word, as holder (phase 6) and has finished: it owns object 1 at depth 1. The word of object 1 was a monitor, owned by nobody, and is a monitor, thread 2 at depth 1.",
    ),
    (
        &[FLAT, "E 1 1 + S 1 x63, E 1 1, S 1 x3"],
        "Thread 1, in its enter of object 1, checks the word, as holder (phase 6) and has finished: it owns object 1 at depth 65. The word of object 1 was flat, thread 1 at depth 64, and is a monitor, thread 1 at depth 65.",
    ),
    // Phase 7, try.
    (
        &[TRYING, "S 2"],
        "Thread 2, in its enter of object 1, tries the word once more (phase 7) and parks in the contention chain (8), kept by thread 1, which owns the object. Nobody holds the monitor of object 1 any more. The word of object 1 is flat, thread 1 at depth 1.",
    ),
    (
        &[CONTENDED, "E 3 1, S 3 x4"],
        "Thread 3, in its enter of object 1, tries the word once more (phase 7) and parks in the contention chain (8) behind thread 2, kept by thread 1, which owns the object. Nobody holds the monitor of object 1 any more. The word of object 1 is flat, thread 1 at depth 1.",
    ),
    (
        &[TRYING, "E 3 1, S 3 x2, S 2"],
        "Thread 2, in its enter of object 1, tries the word once more (phase 7) and parks in the contention chain (8), kept by thread 1, which owns the object. Thread 3 is unparked and handed the monitor; next is check (6). The word of object 1 is flat, thread 1 at depth 1.",
    ),
    (
        &[CONTENDED, "X 1 1, S 1 x5, S 2 x2"],
        "Thread 2, in its enter of object 1, tries the word once more (phase 7) and has finished: it owns object 1 at depth 1. The contention flag comes down. The word of object 1 was free, and is a monitor, thread 2 at depth 1.",
    ),
    (
        &[CONTENDED, "E 3 1, S 3 x4, X 1 1, S 1 x5, S 2 x2"],
        "Thread 2, in its enter of object 1, tries the word once more (phase 7) and has finished: it owns object 1 at depth 1. Thread 3 moves from the contention chain to the entry chain, and stays parked. The contention flag comes down. The word of object 1 was free, and is a monitor, thread 2 at depth 1.",
    ),
    (
        &[EXIT_PARKED, "S 2"],
        "Thread 2, in its enter of object 1, tries the word once more (phase 7) and has finished: it owns object 1 at depth 1. Thread 1 is unparked: its exit from object 1 is let out, and finished. The contention flag comes down. The word of object 1 was free, and is a monitor, thread 2 at depth 1.",
    ),
    (
        &[EXIT_PARKED, "E 3 1, S 3, S 2"],
        "Thread 2, in its enter of object 1, tries the word once more (phase 7) and parks in the contention chain (8), kept by thread 3, which owns the object. Thread 1 is unparked and handed the monitor; next is tell (10). The word of object 1 is flat, thread 3 at depth 1.",
    ),
    (
        &[HOLDING, "W 1 1, S 1 x2, S 2 x2"],
        "Thread 2, in its enter of object 1, tries the word once more (phase 7) and parks in the contention chain (8), kept by thread 1, which owns the object. Thread 1 is unparked and handed the monitor; next is inflate (12). The word of object 1 is flat, thread 1 at depth 1.",
    ),
    // Phase 9, test.
    (
        &[FLAT, "X 1 1, S 1 x2"],
        "Thread 1, in its exit from object 1, tests the contention flag (phase 9) and has finished: it has left. The word of object 1 is free.",
    ),
    (
        &[CONTENDED, "X 1 1, S 1 x2"],
        "Thread 1, in its exit from object 1, tests the contention flag (phase 9); next is go in (4). The word of object 1 is free.",
    ),
    // Phase 10, tell.
    (
        &[CONTENDED, "X 1 1, S 1 x4"],
        "Thread 1, in its exit from object 1, tells the first contender (phase 10); next is leave (11). Thread 2 moves from the contention chain to the entry chain, and stays parked. The word of object 1 is free.",
    ),
    (
        &["L 4 1 0", "E 1 1, S 1, E 2 1, S 2 x3, X 1 1, S 1 x3, E 3 1, S 3, X 3 1, S 3 x3, E 4 1, S 4, S 2, S 1 x2, S 3"],
        "Thread 3, in its exit from object 1, has no contender to tell (phase 10); next is leave (11). The word of object 1 is flat, thread 4 at depth 1.",
    ),
    // Phase 11, leave.
    (
        &[CONTENDED, "X 1 1, S 1 x5"],
        "Thread 1, in its exit from object 1, leaves the monitor (phase 11) and has finished: it has left. Thread 2 is unparked and handed the monitor; next is check (6). The word of object 1 is free.",
    ),
    (
        &[MONITOR, "X 2 1, S 2 x2"],
        "Thread 2, in its exit from object 1, leaves the monitor (phase 11) and has finished: it has left. Nobody holds the monitor of object 1 any more. The word of object 1 is free.",
    ),
    (
        &[WAITING, "E 2 1, S 2 x3, N 2 1, S 2, X 2 1, S 2 x2"],
        "Thread 2, in its exit from object 1, leaves the monitor (phase 11) and has finished: it has left. Thread 1 is unparked and handed the monitor; next is resume (15). The word of object 1 is a monitor, owned by nobody.",
    ),
    // Phase 12, inflate.
    (
        &[FLAT, "W 1 1, S 1 x3"],
        "Thread 1, in its wait at object 1, inflates its flat lock (phase 12); next is give up (13). The word of object 1 was flat, thread 1 at depth 1, and is a monitor, thread 1 at depth 1.",
    ),
    (
        &[CONTENDED, "W 1 1, S 1 x3"],
        "Thread 1, in its wait at object 1, inflates its flat lock (phase 12); next is give up (13). Thread 2 moves from the contention chain to the entry chain, and stays parked. The contention flag comes down. The word of object 1 was flat, thread 1 at depth 1, and is a monitor, thread 1 at depth 1.",
    ),
    (
        &["L 3 1 0", "E 1 1, S 1, E 2 1, S 2 x4, X 1 1, S 1 x2, E 3 1, S 3, W 3 1, S 3 x2, S 1, S 3"],
        "Thread 3, in its wait at object 1, inflates its flat lock (phase 12); next is give up (13). Thread 1 is unparked: its exit from object 1 is let out, and finished. Thread 2 moves from the contention chain to the entry chain, and stays parked. The contention flag comes down. The word of object 1 was flat, thread 3 at depth 1, and is a monitor, thread 3 at depth 1.",
    ),
    // Phase 13, give up.
    (
        &[FLAT, "W 1 1, S 1 x4"],
        "Thread 1, in its wait at object 1, gives up the object (phase 13) and parks in the waiting chain (14). Nobody holds the monitor of object 1 any more. The word of object 1 was a monitor, thread 1 at depth 1, and is a monitor, owned by nobody.",
    ),
    (
        &[WAITING, "E 2 1, S 2 x3, W 2 1, S 2 x2"],
        "Thread 2, in its wait at object 1, gives up the object (phase 13) and parks in the waiting chain (14) behind thread 1. Nobody holds the monitor of object 1 any more. The word of object 1 was a monitor, thread 2 at depth 1, and is a monitor, owned by nobody.",
    ),
    (
        &[MONITOR, "E 1 1, S 1 x2, W 2 1, S 2 x2"],
        "Thread 2, in its wait at object 1, gives up the object (phase 13) and parks in the waiting chain (14). Thread 1 is unparked and handed the monitor; next is check (6). The word of object 1 was a monitor, thread 2 at depth 1, and is a monitor, owned by nobody.",
    ),
    // Phase 15, resume.
    (
        &[WAITING, "E 2 1, S 2 x3, N 2 1, S 2, X 2 1, S 2 x2, S 1"],
        "Thread 1, in its wait at object 1, resumes (phase 15) and has finished: it owns object 1 at depth 1. The word of object 1 was a monitor, owned by nobody, and is a monitor, thread 1 at depth 1.",
    ),
    (
        &[TIMED, "E 2 1, S 2 x3, N 2 1, S 2, X 2 1, S 2 x2, S 1"],
        "Thread 1, in its timed wait at object 1, resumes (phase 15) and has finished, notified: it owns object 1 at depth 1. The word of object 1 was a monitor, owned by nobody, and is a monitor, thread 1 at depth 1.",
    ),
    (
        &[TIMED, "C x2, S 1"],
        "Thread 1, in its timed wait at object 1, resumes (phase 15) and has finished, run out: it owns object 1 at depth 1. The word of object 1 was a monitor, owned by nobody, and is a monitor, thread 1 at depth 1.",
    ),
    (
        &[FLAT, "E 1 1, S 1, W 1 1, S 1 x4, E 2 1, S 2 x3, A 2 1, S 2, X 2 1, S 2 x2, S 1"],
        "Thread 1, in its wait at object 1, resumes (phase 15) and has finished: it owns object 1 at depth 2. The word of object 1 was a monitor, owned by nobody, and is a monitor, thread 1 at depth 2.",
    ),
    // Ticks.
    (
        &[FRESH, "C"],
        "The clock ticks. No wait loses a tick.",
    ),
    (
        &[WAITING, "C"],
        "The clock ticks. No wait loses a tick.",
    ),
    (
        &[TIMED, "C"],
        "The clock ticks. Thread 1 has 1 tick left.",
    ),
    (
        &[TIMED, "C x2"],
        "The clock ticks. Thread 1's wait runs out: it is unparked and handed the monitor; next is resume (15).",
    ),
    (
        &[TIMED, "E 2 1, S 2 x3, C x2"],
        "The clock ticks. Thread 1's wait runs out: it moves from the waiting chain to the entry chain, and stays parked.",
    ),
    (
        &[TIMED, "E 2 1, S 2 x3, V 2 1 2, S 2 x2, C x2"],
        "The clock ticks. Thread 1's wait runs out: it is unparked and handed the monitor; next is resume (15). Thread 2's wait runs out: it moves from the waiting chain to the entry chain, and stays parked.",
    ),
    (
        &["L 2 2 0", "E 1 1, S 1, V 1 1 3, S 1 x4, E 2 2, S 2, V 2 2 4, S 2 x4, C"],
        "The clock ticks. Thread 1 has 2 ticks left. Thread 2 has 3 ticks left.",
    ),
    // Refusals that leave the table as it was.
    (
        &[FRESH, "E 4 1"],
        "Refused (12): there is no thread 4; this table has threads 1 to 3.",
    ),
    (
        &[FRESH, "S 0"],
        "Refused (12): there is no thread 0; this table has threads 1 to 3.",
    ),
    (
        &["L 1 1 0", "S 2"],
        "Refused (12): there is no thread 2; this table has thread 1 alone.",
    ),
    (
        &[FRESH, "E 1 2"],
        "Refused (13): there is no object 2; this table has object 1 alone.",
    ),
    (
        &["L 1 1 0", "W 1 0"],
        "Refused (13): there is no object 0; this table has object 1 alone.",
    ),
    (
        &[FRESH, "E 1 1, E 1 1"],
        "Refused (14): thread 1 is not idle: it is in its enter of object 1, at look (1).",
    ),
    (
        &[CONTENDED, "X 2 1"],
        "Refused (14): thread 2 is not idle: it is in its enter of object 1, at contending (8).",
    ),
    (
        &[HOLDING, "W 1 1, S 1 x2, N 1 1"],
        "Refused (14): thread 1 is not idle: it is in its wait at object 1, at queued (5), then inflate (12).",
    ),
    (
        &[FRESH, "S 1"],
        "Refused (15): thread 1 is idle, so it has no step to take. It has to begin an operation first.",
    ),
    (
        &[EXIT_PARKED, "S 2, S 1"],
        "Refused (15): thread 1 is idle: its exit was let out before, and has finished.",
    ),
    (
        &[HOLDING, "E 3 1, S 3 x3"],
        "Refused (16): thread 3 is parked, in its enter of object 1, in the entry chain (5), kept by thread 1, which owns the object.",
    ),
    (
        &[CONTENDED, "S 2"],
        "Refused (16): thread 2 is parked, in its enter of object 1, in the contention chain (8), kept by thread 1, which owns the object.",
    ),
    (
        &[WAITING, "S 1"],
        "Refused (16): thread 1 is parked, in its wait at object 1, in the waiting chain (14).",
    ),
    (
        &[WAITING, "E 2 1, S 2 x2, E 3 1, S 3 x3"],
        "Refused (16): thread 3 is parked, in its enter of object 1, in the entry chain (5), kept by thread 2, which holds the monitor.",
    ),
    (
        &[EXIT_PARKED, "S 1"],
        "Refused (16): thread 1 is parked, in its exit from object 1, in the entry chain (5), kept by thread 2, which holds the monitor.",
    ),
    (
        &[EXIT_PARKED, "E 3 1, S 3, S 1"],
        "Refused (16): thread 1 is parked, in its exit from object 1, in the entry chain (5), kept by thread 2, which holds the monitor.",
    ),
    (
        &[FLAT, "V 1 1 0"],
        "Refused (23): a timed wait has a limit of 1 to 65535 ticks.",
    ),
    (
        &[EXIT_PARKED, "S 2, S 1 x2"],
        "Refused (15): thread 1 is idle, so it has no step to take. It has to begin an operation first.",
    ),
    (
        &[WAITING, "E 2 1, S 2 x3, N 2 1, S 2, S 1"],
        "Refused (16): thread 1 is parked, in its wait at object 1, in the entry chain (5), kept by thread 2, which owns the object.",
    ),
    // Refusals that make the thread idle.
    (
        &[FRESH, "X 1 1, S 1"],
        "Refused (18): thread 1 does not own object 1; nobody does. Its exit has ended, and it is idle. The word of object 1 is free.",
    ),
    (
        &[FLAT, "X 2 1, S 2"],
        "Refused (18): thread 2 does not own object 1; thread 1 does. Its exit has ended, and it is idle. The word of object 1 is flat, thread 1 at depth 1.",
    ),
    (
        &[FLAT, "W 2 1, S 2"],
        "Refused (18): thread 2 does not own object 1; thread 1 does. Its wait has ended, and it is idle. The word of object 1 is flat, thread 1 at depth 1.",
    ),
    (
        &[FLAT, "V 2 1 5, S 2"],
        "Refused (18): thread 2 does not own object 1; thread 1 does. Its timed wait has ended, and it is idle. The word of object 1 is flat, thread 1 at depth 1.",
    ),
    (
        &[FLAT, "N 2 1, S 2"],
        "Refused (18): thread 2 does not own object 1; thread 1 does. Its notify has ended, and it is idle. The word of object 1 is flat, thread 1 at depth 1.",
    ),
    (
        &[MONITOR, "A 1 1, S 1"],
        "Refused (18): thread 1 does not own object 1; thread 2 does. Its notify all has ended, and it is idle. The word of object 1 is a monitor, thread 2 at depth 1.",
    ),
    (
        &[RESERVED, "X 1 1, S 1 x2, X 1 1, S 1"],
        "Refused (18): thread 1 does not own object 1; nobody does. Its exit has ended, and it is idle. The word of object 1 is reserved for thread 1, owned by nobody.",
    ),
    (
        &[FLAT, "E 1 1 + S 1 x63, E 1 1, S 1 x3, E 1 1 + S 1 + S 1 x65470, E 1 1, S 1 x2"],
        "Refused (19): thread 1 owns the object at depth 65535 already, the deepest that there is. It is idle now. The word of object 1 is a monitor, thread 1 at depth 65535.",
    ),
];
