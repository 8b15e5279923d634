//! What a run of report inputs is to meet often enough: each way to finish an enter, and each kind of input.

use crate::tally::{kinds, Listed, Named};

#[derive(Clone, Copy, Debug, PartialEq, Eq)]
pub enum Seen {
    /// Enters, by the way they finished; the places are the ways'.
    AnonymousReservation,
    ReservedStore,
    FreeWord,
    NestingInAFlatWord,
    ThroughTheMonitor,
    /// Enters through the monitor, by the phase they finished in.
    InGoIn,
    InCheckOnFat,
    InCheckOnFlat,
    InTry,
    /// Inputs that have these lines; the events below bad headers could go on in the schedule before.
    SeveralSizes,
    BelowBadForm,
    BelowBadSizes,
    BeforeTheFirst,
    LongHeader,
    LongLine,
    Malformed,
    Refused,
    Timed,
    LastObject,
    /// Inputs that end or lack this.
    UnendedLine,
    UnendedHeader,
    NoGoodHeader,
    /// Inputs with just as many lines as may be, or one too many, and headers between.
    Full,
    TooManyInASchedule,
    TooManyBehind,
    TooManyUnended,
}

const KINDS: usize = 26;

/// Each with its name, and how many of it a whole run has at least.
const NAMED: [Named<Seen>; KINDS] = [
    (
        Seen::AnonymousReservation,
        "enters by anonymous reservation",
        1_000,
    ),
    (Seen::ReservedStore, "enters by a reserved store", 3_000),
    (Seen::FreeWord, "enters by a free word", 5_000),
    (
        Seen::NestingInAFlatWord,
        "enters by nesting in a flat word",
        20_000,
    ),
    (
        Seen::ThroughTheMonitor,
        "enters through the monitor",
        30_000,
    ),
    (Seen::InGoIn, "enters finished in phase 4", 20_000),
    (
        Seen::InCheckOnFat,
        "enters finished in phase 6 on a fat word",
        10_000,
    ),
    (
        Seen::InCheckOnFlat,
        "enters finished in phase 6 on a flat word",
        300,
    ),
    (Seen::InTry, "enters finished in phase 7", 1_000),
    (
        Seen::SeveralSizes,
        "inputs with good headers of several sizes",
        100,
    ),
    (
        Seen::BelowBadForm,
        "inputs with events below a malformed header in the middle",
        50,
    ),
    (
        Seen::BelowBadSizes,
        "inputs with events below a header of bad sizes in the middle",
        40,
    ),
    (
        Seen::BeforeTheFirst,
        "inputs with events before the first header",
        30,
    ),
    (
        Seen::LongHeader,
        "inputs with a line beyond 1,000 bytes that begins with L",
        15,
    ),
    (
        Seen::LongLine,
        "inputs with another line beyond 1,000 bytes",
        30,
    ),
    (
        Seen::Malformed,
        "inputs with a malformed line below a good header",
        100,
    ),
    (
        Seen::Refused,
        "inputs with a refused line below a good header",
        100,
    ),
    (Seen::Timed, "inputs with timed waits and ticks", 100),
    (Seen::LastObject, "inputs with object 64", 40),
    (Seen::UnendedLine, "inputs with an unended last line", 20),
    (
        Seen::UnendedHeader,
        "inputs with an unended last header",
        10,
    ),
    (Seen::NoGoodHeader, "inputs without a good header", 15),
    (Seen::Full, "inputs of 60,000 lines", 15),
    (
        Seen::TooManyInASchedule,
        "inputs of 60,001 lines, the last in a good schedule",
        5,
    ),
    (
        Seen::TooManyBehind,
        "inputs of 60,001 lines, the last behind the good schedules",
        5,
    ),
    (
        Seen::TooManyUnended,
        "inputs of 60,001 lines, the last unended",
        5,
    ),
];

impl Seen {
    pub const ALL: [Seen; KINDS] = kinds(&NAMED);
}

impl Listed for Seen {
    const LIST: &'static [Named<Seen>] = &NAMED;

    fn index(self) -> usize {
        self as usize
    }
}
