//! A table in memory that may only be read, and the library's events on it: a store there ends the process.

use duskclamp::ScriptCursor;
use std::ffi::{c_int, c_void};
use std::ptr;

const PROT_READ: c_int = 1;
const PROT_WRITE: c_int = 2;
const MAP_PRIVATE: c_int = 2;
const MAP_ANONYMOUS: c_int = 32;

// The values above are Linux's on x86-64, the one system that the library is built for.
extern "C" {
    fn mmap(
        address: *mut c_void,
        length: usize,
        protection: c_int,
        flags: c_int,
        descriptor: c_int,
        offset: i64,
    ) -> *mut c_void;
    fn mprotect(address: *mut c_void, length: usize, protection: c_int) -> c_int;
    fn munmap(address: *mut c_void, length: usize) -> c_int;
}

// By pointer and length: a `&mut` to memory that may not be written would be a lie.
extern "C" {
    fn duskclamp_fresh(
        bytes: *mut u8,
        length: usize,
        threads: u32,
        objects: u32,
        reserved: u32,
    ) -> u32;
    fn duskclamp_fresh_given(
        bytes: *mut u8,
        length: usize,
        threads: u32,
        objects: u32,
        reserved: u32,
        given: *const u8,
        given_length: usize,
    ) -> u32;
    fn duskclamp_begin(
        bytes: *mut u8,
        length: usize,
        thread: u32,
        operation: u32,
        object: u32,
    ) -> u64;
    fn duskclamp_timed_wait(
        bytes: *mut u8,
        length: usize,
        thread: u32,
        object: u32,
        limit: u32,
    ) -> u64;
    fn duskclamp_step(bytes: *mut u8, length: usize, thread: u32) -> u64;
    fn duskclamp_tick(bytes: *mut u8, length: usize) -> u64;
    fn duskclamp_run(
        bytes: *mut u8,
        length: usize,
        events: *const u8,
        events_length: usize,
        answers: *mut u64,
        answers_length: usize,
    ) -> usize;
    fn duskclamp_dispatch(
        bytes: *mut u8,
        length: usize,
        quantum: u32,
        scripts: *const u8,
        scripts_length: usize,
        cursors: *mut ScriptCursor,
        cursors_length: usize,
        trace: *mut u64,
        trace_length: usize,
    ) -> u64;
}

pub struct ReadOnly {
    start: *mut u8,
    length: usize,
}

impl ReadOnly {
    /// Pages of their own with these bytes, from now on only to be read. A mapping has at least a byte.
    pub fn new(bytes: &[u8]) -> ReadOnly {
        let length = bytes.len();
        let mapped_length = length.max(1);
        // SAFETY: the mapping is new and no shorter than the bytes; it is written before it is protected, and only read from then on.
        unsafe {
            let mapped = mmap(
                ptr::null_mut(),
                mapped_length,
                PROT_READ | PROT_WRITE,
                MAP_PRIVATE | MAP_ANONYMOUS,
                -1,
                0,
            );
            assert!(mapped as isize != -1, "no memory was mapped");
            ptr::copy_nonoverlapping(bytes.as_ptr(), mapped.cast(), length);
            assert_eq!(
                mprotect(mapped, mapped_length, PROT_READ),
                0,
                "not protected"
            );
            ReadOnly {
                start: mapped.cast(),
                length,
            }
        }
    }

    pub fn bytes(&self) -> &[u8] {
        // SAFETY: the mapping has this length, was written in `new`, and lives as long as `self`.
        unsafe { std::slice::from_raw_parts(self.start, self.length) }
    }

    // SAFETY, of the eight calls: the bytes may be read, and the library is expected to store nothing; if it does, the process ends.

    pub fn fresh(&self, threads: u32, objects: u32) -> u32 {
        unsafe { duskclamp_fresh(self.start, self.length, threads, objects, 0) }
    }

    pub fn fresh_given(&self, threads: u32, objects: u32, given: &[u8]) -> u32 {
        let (bytes, length) = (given.as_ptr(), given.len());
        unsafe {
            duskclamp_fresh_given(self.start, self.length, threads, objects, 0, bytes, length)
        }
    }

    pub fn begin(&self, thread: u32, operation: u32, object: u32) -> u64 {
        unsafe { duskclamp_begin(self.start, self.length, thread, operation, object) }
    }

    pub fn timed_wait(&self, thread: u32, object: u32, limit: u32) -> u64 {
        unsafe { duskclamp_timed_wait(self.start, self.length, thread, object, limit) }
    }

    pub fn step(&self, thread: u32) -> u64 {
        unsafe { duskclamp_step(self.start, self.length, thread) }
    }

    pub fn tick(&self) -> u64 {
        unsafe { duskclamp_tick(self.start, self.length) }
    }

    pub fn run(&self, events: &[u8], answers: &mut [u64]) -> usize {
        unsafe {
            duskclamp_run(
                self.start,
                self.length,
                events.as_ptr(),
                events.len(),
                answers.as_mut_ptr(),
                answers.len(),
            )
        }
    }

    /// With the trace in such memory too. The records are written back also where nothing changes, so they may be written.
    pub fn dispatch(
        &self,
        quantum: u32,
        scripts: &[u8],
        cursors: &mut [ScriptCursor],
        trace: &ReadOnly,
    ) -> u64 {
        unsafe {
            duskclamp_dispatch(
                self.start,
                self.length,
                quantum,
                scripts.as_ptr(),
                scripts.len(),
                cursors.as_mut_ptr(),
                cursors.len(),
                trace.start.cast(),
                trace.length / size_of::<u64>(),
            )
        }
    }
}

impl Drop for ReadOnly {
    fn drop(&mut self) {
        // SAFETY: the mapping is this one's own, and nothing borrows it any more.
        unsafe { munmap(self.start.cast(), self.length.max(1)) };
    }
}
