//! The calls of `include/duskclamp.h` on borrowed bytes, with their packed answers. Any bytes and any numbers are answered.
//!
//! An event's answer has the returned number in bits 0 to 7; in bits 8 to 15, with 1, how many threads a notify woke, or, of a timed wait, 1 if it ran
//! out, else 0; in bit 16 whether the step commits; and in bits 32 to 63 the set of threads that the event unparked, bit 32 for thread 1. A question's
//! answer has the returned number in bits 0 to 7 and, where that is 0, the value above.

use crate::script::ScriptCursor;

mod declared {
    use super::ScriptCursor;

    extern "C" {
        pub fn duskclamp_version() -> u32;
        pub fn duskclamp_layout_version() -> u32;
        pub fn duskclamp_table_size() -> usize;
        pub fn duskclamp_fresh(
            bytes: *mut u8,
            length: usize,
            threads: u32,
            objects: u32,
            reserved: u32,
        ) -> u32;
        pub fn duskclamp_fresh_given(
            bytes: *mut u8,
            length: usize,
            threads: u32,
            objects: u32,
            reserved: u32,
            given: *const u8,
            given_length: usize,
        ) -> u32;
        pub fn duskclamp_begin(
            bytes: *mut u8,
            length: usize,
            thread: u32,
            operation: u32,
            object: u32,
        ) -> u64;
        pub fn duskclamp_timed_wait(
            bytes: *mut u8,
            length: usize,
            thread: u32,
            object: u32,
            limit: u32,
        ) -> u64;
        pub fn duskclamp_step(bytes: *mut u8, length: usize, thread: u32) -> u64;
        pub fn duskclamp_tick(bytes: *mut u8, length: usize) -> u64;
        pub fn duskclamp_run(
            bytes: *mut u8,
            length: usize,
            events: *const u8,
            events_length: usize,
            answers: *mut u64,
            answers_length: usize,
        ) -> usize;
        pub fn duskclamp_dispatch(
            bytes: *mut u8,
            length: usize,
            quantum: u32,
            scripts: *const u8,
            scripts_length: usize,
            cursors: *mut ScriptCursor,
            cursors_length: usize,
            trace: *mut u64,
            trace_length: usize,
        ) -> u64;
        pub fn duskclamp_thread_count(bytes: *const u8, length: usize) -> u64;
        pub fn duskclamp_object_count(bytes: *const u8, length: usize) -> u64;
        pub fn duskclamp_operation(bytes: *const u8, length: usize, thread: u32) -> u64;
        pub fn duskclamp_object(bytes: *const u8, length: usize, thread: u32) -> u64;
        pub fn duskclamp_phase(bytes: *const u8, length: usize, thread: u32) -> u64;
        pub fn duskclamp_onward(bytes: *const u8, length: usize, thread: u32) -> u64;
        pub fn duskclamp_kept(bytes: *const u8, length: usize, thread: u32) -> u64;
        pub fn duskclamp_saved_depth(bytes: *const u8, length: usize, thread: u32) -> u64;
        pub fn duskclamp_next(bytes: *const u8, length: usize, thread: u32) -> u64;
        pub fn duskclamp_ticks(bytes: *const u8, length: usize, thread: u32) -> u64;
        pub fn duskclamp_rank(bytes: *const u8, length: usize, thread: u32) -> u64;
        pub fn duskclamp_blocker(bytes: *const u8, length: usize, thread: u32) -> u64;
        pub fn duskclamp_word(bytes: *const u8, length: usize, object: u32) -> u64;
        pub fn duskclamp_word_kind(bytes: *const u8, length: usize, object: u32) -> u64;
        pub fn duskclamp_word_thread(bytes: *const u8, length: usize, object: u32) -> u64;
        pub fn duskclamp_owner(bytes: *const u8, length: usize, object: u32) -> u64;
        pub fn duskclamp_depth(bytes: *const u8, length: usize, object: u32) -> u64;
        pub fn duskclamp_flag(bytes: *const u8, length: usize, object: u32) -> u64;
        pub fn duskclamp_holder(bytes: *const u8, length: usize, object: u32) -> u64;
        pub fn duskclamp_monitor_depth(bytes: *const u8, length: usize, object: u32) -> u64;
        pub fn duskclamp_entry_first(bytes: *const u8, length: usize, object: u32) -> u64;
        pub fn duskclamp_contention_first(bytes: *const u8, length: usize, object: u32) -> u64;
        pub fn duskclamp_waiting_first(bytes: *const u8, length: usize, object: u32) -> u64;
    }
}

// SAFETY, of every call below: the library reads and writes only the bytes, answers, records and entries of the lengths beside the pointers, which the
// borrows lend for the call, and keeps no pointer. Its functions have no precondition.

/// The library's version: major, minor and patch number in a byte each, the patch number lowest.
pub fn version() -> u32 {
    unsafe { declared::duskclamp_version() }
}

/// The version of the bytes of a table.
pub fn layout_version() -> u32 {
    unsafe { declared::duskclamp_layout_version() }
}

/// How many bytes a table has.
pub fn table_size() -> usize {
    unsafe { declared::duskclamp_table_size() }
}

/// Makes a fresh table, with every rank 0: 0, or 11 or 22 and the bytes stay.
pub fn fresh(bytes: &mut [u8], threads: u32, objects: u32, reserved: u32) -> u32 {
    unsafe {
        declared::duskclamp_fresh(bytes.as_mut_ptr(), bytes.len(), threads, objects, reserved)
    }
}

/// Makes a fresh table with what it is given, a byte for the rank of each thread from the first on: 0, or 11, 22 or 27 and the bytes stay. What is not
/// given is as [`fresh`] has it. Ranks past `threads` are not read, nor what lies behind that of the last thread that there can be.
pub fn fresh_given(
    bytes: &mut [u8],
    threads: u32,
    objects: u32,
    reserved: u32,
    given: &[u8],
) -> u32 {
    unsafe {
        declared::duskclamp_fresh_given(
            bytes.as_mut_ptr(),
            bytes.len(),
            threads,
            objects,
            reserved,
            given.as_ptr(),
            given.len(),
        )
    }
}

/// The thread begins the operation on the object. A timed wait is refused with 23 for want of a limit: [`timed_wait`] takes one.
pub fn begin(bytes: &mut [u8], thread: u32, operation: u32, object: u32) -> u64 {
    unsafe { declared::duskclamp_begin(bytes.as_mut_ptr(), bytes.len(), thread, operation, object) }
}

/// The thread begins a wait on the object that runs out after so many ticks.
pub fn timed_wait(bytes: &mut [u8], thread: u32, object: u32, limit: u32) -> u64 {
    unsafe {
        declared::duskclamp_timed_wait(bytes.as_mut_ptr(), bytes.len(), thread, object, limit)
    }
}

/// The thread takes a step. A step of another thread may end an exit that has parked: its thread is in that step's set and idle, and its next step is
/// answered 15.
pub fn step(bytes: &mut [u8], thread: u32) -> u64 {
    unsafe { declared::duskclamp_step(bytes.as_mut_ptr(), bytes.len(), thread) }
}

/// One tick of the clock.
pub fn tick(bytes: &mut [u8]) -> u64 {
    unsafe { declared::duskclamp_tick(bytes.as_mut_ptr(), bytes.len()) }
}

/// How many bytes an event of [`run`] has: kind (0 begin, 1 step, 2 tick), thread, operation, object, and four of a timed wait's limit, the lowest first.
pub const EVENT_SIZE: usize = 8;

/// Runs as many events as there are whole ones and as there is room for answers, and gives back how many those were.
pub fn run(bytes: &mut [u8], events: &[u8], answers: &mut [u64]) -> usize {
    unsafe {
        declared::duskclamp_run(
            bytes.as_mut_ptr(),
            bytes.len(),
            events.as_ptr(),
            events.len(),
            answers.as_mut_ptr(),
            answers.len(),
        )
    }
}

/// How many bytes an operation of a script has: its number and its object.
pub const OPERATION_SIZE: usize = 2;

/// Runs the threads by their scripts, in turns of at most so many steps: in bits 0 to 7 the returned number, 0 or 11, 25 or 26, and above it the number of
/// steps. An entry of the trace, for which as many are written as there is room for, is the step's answer with the thread in bits 24 to 31, and with bit
/// 17 set where the thread began its operation just before.
pub fn dispatch(
    bytes: &mut [u8],
    quantum: u32,
    scripts: &[u8],
    cursors: &mut [ScriptCursor],
    trace: &mut [u64],
) -> u64 {
    unsafe {
        declared::duskclamp_dispatch(
            bytes.as_mut_ptr(),
            bytes.len(),
            quantum,
            scripts.as_ptr(),
            scripts.len(),
            cursors.as_mut_ptr(),
            cursors.len(),
            trace.as_mut_ptr(),
            trace.len(),
        )
    }
}

/// How many threads the table has.
pub fn thread_count(bytes: &[u8]) -> u64 {
    unsafe { declared::duskclamp_thread_count(bytes.as_ptr(), bytes.len()) }
}

/// How many objects the table has.
pub fn object_count(bytes: &[u8]) -> u64 {
    unsafe { declared::duskclamp_object_count(bytes.as_ptr(), bytes.len()) }
}

/// The thread's operation, 0 for idle.
pub fn operation(bytes: &[u8], thread: u32) -> u64 {
    unsafe { declared::duskclamp_operation(bytes.as_ptr(), bytes.len(), thread) }
}

/// The object that the thread is at, 0 for idle.
pub fn object(bytes: &[u8], thread: u32) -> u64 {
    unsafe { declared::duskclamp_object(bytes.as_ptr(), bytes.len(), thread) }
}

/// The thread's phase.
pub fn phase(bytes: &[u8], thread: u32) -> u64 {
    unsafe { declared::duskclamp_phase(bytes.as_ptr(), bytes.len(), thread) }
}

/// The phase that a queued thread goes on with, 0 for any other.
pub fn onward(bytes: &[u8], thread: u32) -> u64 {
    unsafe { declared::duskclamp_onward(bytes.as_ptr(), bytes.len(), thread) }
}

/// The word that a thread in phase 2 is about to store, 0 in any other.
pub fn kept(bytes: &[u8], thread: u32) -> u64 {
    unsafe { declared::duskclamp_kept(bytes.as_ptr(), bytes.len(), thread) }
}

/// The depth that a wait gave up, else 0.
pub fn saved_depth(bytes: &[u8], thread: u32) -> u64 {
    unsafe { declared::duskclamp_saved_depth(bytes.as_ptr(), bytes.len(), thread) }
}

/// The thread behind this one in its chain, 0 for none.
pub fn next(bytes: &[u8], thread: u32) -> u64 {
    unsafe { declared::duskclamp_next(bytes.as_ptr(), bytes.len(), thread) }
}

/// The ticks that a timed wait has left, 0 when it ran out; 0 for any other operation.
pub fn ticks(bytes: &[u8], thread: u32) -> u64 {
    unsafe { declared::duskclamp_ticks(bytes.as_ptr(), bytes.len(), thread) }
}

/// The rank that the thread was given.
pub fn rank(bytes: &[u8], thread: u32) -> u64 {
    unsafe { declared::duskclamp_rank(bytes.as_ptr(), bytes.len(), thread) }
}

/// Who keeps a thread parked for entry: a thread in bits 0 to 15 of the value, and in bit 16 whether it is the monitor's holder and not the owner.
pub fn blocker(bytes: &[u8], thread: u32) -> u64 {
    unsafe { declared::duskclamp_blocker(bytes.as_ptr(), bytes.len(), thread) }
}

/// The object's lock word.
pub fn word(bytes: &[u8], object: u32) -> u64 {
    unsafe { declared::duskclamp_word(bytes.as_ptr(), bytes.len(), object) }
}

/// The kind of the object's lock word: 0 free, 1 flat, 2 anonymous, 3 reserved, 4 fat, 5 no lock word.
pub fn word_kind(bytes: &[u8], object: u32) -> u64 {
    unsafe { declared::duskclamp_word_kind(bytes.as_ptr(), bytes.len(), object) }
}

/// The thread that a flat or reserved word names, 0 for any other word.
pub fn word_thread(bytes: &[u8], object: u32) -> u64 {
    unsafe { declared::duskclamp_word_thread(bytes.as_ptr(), bytes.len(), object) }
}

/// The thread that owns the object, 0 for nobody.
pub fn owner(bytes: &[u8], object: u32) -> u64 {
    unsafe { declared::duskclamp_owner(bytes.as_ptr(), bytes.len(), object) }
}

/// How deep the object is owned, 0 if nobody owns it.
pub fn depth(bytes: &[u8], object: u32) -> u64 {
    unsafe { declared::duskclamp_depth(bytes.as_ptr(), bytes.len(), object) }
}

/// The object's contention flag.
pub fn flag(bytes: &[u8], object: u32) -> u64 {
    unsafe { declared::duskclamp_flag(bytes.as_ptr(), bytes.len(), object) }
}

/// The holder of the object's monitor, 0 for nobody.
pub fn holder(bytes: &[u8], object: u32) -> u64 {
    unsafe { declared::duskclamp_holder(bytes.as_ptr(), bytes.len(), object) }
}

/// The depth of the object's monitor, which is the object's only where the word is fat.
pub fn monitor_depth(bytes: &[u8], object: u32) -> u64 {
    unsafe { declared::duskclamp_monitor_depth(bytes.as_ptr(), bytes.len(), object) }
}

/// The first thread of the entry chain, 0 for none.
pub fn entry_first(bytes: &[u8], object: u32) -> u64 {
    unsafe { declared::duskclamp_entry_first(bytes.as_ptr(), bytes.len(), object) }
}

/// The first thread of the contention chain, 0 for none.
pub fn contention_first(bytes: &[u8], object: u32) -> u64 {
    unsafe { declared::duskclamp_contention_first(bytes.as_ptr(), bytes.len(), object) }
}

/// The first thread of the waiting chain, 0 for none.
pub fn waiting_first(bytes: &[u8], object: u32) -> u64 {
    unsafe { declared::duskclamp_waiting_first(bytes.as_ptr(), bytes.len(), object) }
}
