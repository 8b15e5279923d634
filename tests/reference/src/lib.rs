//! A second implementation of the lock engine, its replay, its report and the checks made with them.
//! Written from the specification alone, so that agreement with the proved one says something. In comments "document 01" is the specification, and
//! "request L1", "request L2" and "request L3" the customer's requests for timed waits, on exits that waited for a stranger, and to be told which
//! threads an event unparked, which amend it; "request L4" is that for a report on many schedules, "request L5" the one that bounds a thread's
//! own steps by six, "request L6" that for a dispatcher, which runs scripts of operations, and "request L8" the one that gives threads ranks, by which
//! they queue up.

pub mod aim;
pub mod aimed_exits;
pub mod aimed_steps;
pub mod aimed_ticks;
pub mod aimed_told;
pub mod arguments;
pub mod chain_order;
pub mod checked;
pub mod dispatch;
pub mod dispatch_check;
pub mod engine;
pub mod enters;
pub mod enters_check;
pub mod exits;
pub mod generate;
pub mod given;
pub mod happened;
pub mod long_cases;
pub mod met;
pub mod outcome;
pub mod own_steps;
pub mod plain;
pub mod program;
pub mod questions;
pub mod random;
pub mod recount;
pub mod replay;
pub mod report;
pub mod report_inputs;
pub mod report_long_cases;
pub mod run_queue;
pub mod script_inputs;
pub mod seen;
pub mod shrink;
pub mod sound;
pub mod stored;
pub mod suite;
pub mod table;
pub mod tally;
pub mod thread_set;
pub mod unparked;
pub mod word;
