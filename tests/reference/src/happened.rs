//! What the runs of a dispatcher are to meet often enough: how they begin, what befalls their threads, and how they end.

use crate::tally::{kinds, Listed, Named};

#[derive(Clone, Copy, Debug, PartialEq, Eq)]
pub enum Happened {
    /// Runs on tables and with turns of these sizes.
    OneThread,
    AllThreads,
    ShortestTurn,
    LongestTurn,
    /// Runs that begin so.
    EmptyScript,
    CursorInTheMiddle,
    CursorAtTheEnd,
    OverlappingScripts,
    UnfinishedAtTheStart,
    ParkedAtTheStart,
    /// Runs in which this came up.
    WholeTurn,
    Park,
    HandOver,
    LetOut,
    Woken,
    PassedByRank,
    NotOwner,
    /// Moments at which an unparked thread with work left has seen as many steps of others as it may, of two threads or more.
    LongestWait,
    /// Runs that end so.
    WithoutAStep,
    AllDone,
    Deadlock,
    WaitWithoutEnd,
    /// Runs in which this came up, which takes a table that no schedule, or none so short, leads to.
    TooDeep,
    NoRule,
}

const KINDS: usize = 24;
const LEAST: u64 = 20;

/// Each with its name, and how many of it a whole run has at least.
const NAMED: [Named<Happened>; KINDS] = [
    (Happened::OneThread, "runs of one thread", LEAST),
    (Happened::AllThreads, "runs of 32 threads", LEAST),
    (Happened::ShortestTurn, "runs with turns of one step", LEAST),
    (Happened::LongestTurn, "runs with turns of 100 steps", LEAST),
    (Happened::EmptyScript, "runs with an empty script", LEAST),
    (
        Happened::CursorInTheMiddle,
        "runs with a cursor in the middle",
        LEAST,
    ),
    (
        Happened::CursorAtTheEnd,
        "runs with a cursor at the end",
        LEAST,
    ),
    (
        Happened::OverlappingScripts,
        "runs with scripts that overlap",
        LEAST,
    ),
    (
        Happened::UnfinishedAtTheStart,
        "runs that begin with an unfinished operation",
        LEAST,
    ),
    (
        Happened::ParkedAtTheStart,
        "runs that begin with a parked thread",
        LEAST,
    ),
    (
        Happened::WholeTurn,
        "runs with a turn of all its steps, more than one",
        LEAST,
    ),
    (Happened::Park, "runs with a park", LEAST),
    (
        Happened::HandOver,
        "runs with a hand-over of a monitor",
        LEAST,
    ),
    (Happened::LetOut, "runs with an exit let out", LEAST),
    (
        Happened::Woken,
        "runs with a waiting thread notified",
        LEAST,
    ),
    (
        Happened::PassedByRank,
        "runs with a thread that passed others by its rank",
        LEAST,
    ),
    (Happened::NotOwner, "runs with an 18", LEAST),
    (
        Happened::LongestWait,
        "waits of just (T - 1) times q steps of the others",
        LEAST,
    ),
    (Happened::WithoutAStep, "runs without a step", LEAST),
    (
        Happened::AllDone,
        "runs of a step or more that end with all scripts done",
        LEAST,
    ),
    (Happened::Deadlock, "runs that end in a deadlock", LEAST),
    (Happened::WaitWithoutEnd, "runs that end with a wait", LEAST),
    (Happened::TooDeep, "runs with a 19", LEAST),
    (Happened::NoRule, "runs with a 20", LEAST),
];

impl Happened {
    pub const ALL: [Happened; KINDS] = kinds(&NAMED);

    /// All but those that need a table which no generated schedule leads to.
    pub fn from_schedules() -> &'static [Happened] {
        &Happened::ALL[..Happened::TooDeep as usize]
    }
}

impl Listed for Happened {
    const LIST: &'static [Named<Happened>] = &NAMED;

    fn index(self) -> usize {
        self as usize
    }
}
