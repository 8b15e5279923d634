//! How a schedule ends, in words. Schedules are in the short form of `common`.

/// A schedule, and all lines about its end.
pub type Row = (&'static str, &'static [&'static str]);

pub const ROWS: &[Row] = &[
    // Nobody does anything.
    (
        "L 2 2 0",
        &[
            "2 objects are owned by nobody, and nobody is at them.",
            "2 threads are idle and own nothing.",
        ],
    ),
    (
        "L 1 1 0",
        &[
            "1 object is owned by nobody, and nobody is at it.",
            "1 thread is idle and owns nothing.",
        ],
    ),
    // An owner, who waits in the contention chain for it, and who holds the monitor without owning the object.
    (
        "L 3 1 0, E 1 1, S 1, E 2 1, S 2 x4",
        &[
            "Object 1: flat, thread 1 at depth 1; thread 2 in the contention chain.",
            "Thread 1, which owns object 1 at depth 1: idle.",
            "Thread 2: in its enter of object 1, parked in the contention chain (8), kept by thread 1, which owns the object.",
            "1 thread is idle and owns nothing.",
            "No thread can take a step: each is idle or parked.",
        ],
    ),
    (
        "L 3 1 0, E 1 1, S 1, E 2 1, S 2 x2",
        &[
            "Object 1: flat, thread 1 at depth 1; thread 2 holds its monitor.",
            "Thread 1, which owns object 1 at depth 1: idle.",
            "Thread 2: in its enter of object 1, next is check (6).",
            "1 thread is idle and owns nothing.",
        ],
    ),
    // Chains in their order, which is not that of the numbers.
    (
        "L 6 1 0, E 1 1, S 1, E 2 1, S 2 x4, E 3 1, S 3 x4, E 4 1, S 4 x2, E 6 1, S 6 x2, E 5 1, S 5 x2",
        &[
            "Object 1: flat, thread 1 at depth 1; thread 4 holds its monitor; threads 6 and 5 in the entry chain; threads 2 and 3 in the contention chain.",
            "Thread 1, which owns object 1 at depth 1: idle.",
            "Thread 2: in its enter of object 1, parked in the contention chain (8), kept by thread 1, which owns the object.",
            "Thread 3: in its enter of object 1, parked in the contention chain (8) behind thread 2, kept by thread 1, which owns the object.",
            "Thread 4: in its enter of object 1, next is check (6).",
            "Thread 5: in its enter of object 1, parked in the entry chain (5) behind thread 6, kept by thread 1, which owns the object.",
            "Thread 6: in its enter of object 1, parked in the entry chain (5), kept by thread 1, which owns the object.",
        ],
    ),
    // Ticks left, of those who wait with a limit.
    (
        "L 4 1 0, E 1 1, S 1, W 1 1, S 1 x4, E 3 1, S 3 x3, V 3 1 7, S 3 x2, E 2 1, S 2 x3, V 2 1 1, S 2 x2",
        &[
            "Object 1: a monitor, owned by nobody; threads 1, 3 and 2 in the waiting chain.",
            "Thread 1: in its wait at object 1, parked in the waiting chain (14).",
            "Thread 2: in its timed wait at object 1, parked in the waiting chain (14) behind thread 3, with 1 tick left.",
            "Thread 3: in its timed wait at object 1, parked in the waiting chain (14) behind thread 1, with 7 ticks left.",
            "1 thread is idle and owns nothing.",
            "No thread can take a step: each is idle or parked.",
        ],
    ),
    (
        "L 4 1 0, E 1 1, S 1, V 1 1 9, S 1 x4, E 3 1, S 3 x3, E 4 1, S 4 x2, E 2 1, S 2 x2",
        &[
            "Object 1: a monitor, thread 3 at depth 1; threads 4 and 2 in the entry chain; thread 1 in the waiting chain.",
            "Thread 1: in its timed wait at object 1, parked in the waiting chain (14), with 9 ticks left.",
            "Thread 2: in its enter of object 1, parked in the entry chain (5) behind thread 4, kept by thread 3, which owns the object.",
            "Thread 3, which owns object 1 at depth 1: idle.",
            "Thread 4: in its enter of object 1, parked in the entry chain (5), kept by thread 3, which owns the object.",
            "No thread can take a step: each is idle or parked.",
        ],
    ),
    // A wait that was notified has no ticks to count any more.
    (
        "L 2 1 0, E 1 1, S 1, V 1 1 9, S 1 x4, E 2 1, S 2 x3, N 2 1, S 2",
        &[
            "Object 1: a monitor, thread 2 at depth 1; thread 1 in the entry chain.",
            "Thread 1: in its timed wait at object 1, parked in the entry chain (5), kept by thread 2, which owns the object.",
            "Thread 2, which owns object 1 at depth 1: idle.",
            "No thread can take a step: each is idle or parked.",
        ],
    ),
    // A thread may own several objects.
    (
        "L 1 3 1, E 1 2, S 1, E 1 3, S 1, E 1 3, S 1 x2",
        &[
            "Object 2: reserved, thread 1 at depth 1.",
            "Object 3: reserved, thread 1 at depth 2.",
            "1 object is owned by nobody, and nobody is at it.",
            "Thread 1, which owns object 2 at depth 1 and object 3 at depth 2: idle.",
        ],
    ),
    // Deadlocks: of two, of three, two of two, with others behind one, and of a wait that was notified.
    (
        "L 2 2 0, E 1 1, S 1, E 2 2, S 2, E 1 2, S 1 x4, E 2 1, S 2 x4",
        &[
            "Object 1: flat, thread 1 at depth 1; thread 2 in the contention chain.",
            "Object 2: flat, thread 2 at depth 1; thread 1 in the contention chain.",
            "Thread 1, which owns object 1 at depth 1: in its enter of object 2, parked in the contention chain (8), kept by thread 2, which owns the object.",
            "Thread 2, which owns object 2 at depth 1: in its enter of object 1, parked in the contention chain (8), kept by thread 1, which owns the object.",
            "Deadlock: thread 1 waits for object 2, which thread 2 owns; thread 2 waits for object 1, which thread 1 owns. None of them will get its object.",
            "No thread can take a step: each is idle or parked.",
        ],
    ),
    (
        "L 3 3 0, E 1 1, S 1, E 2 2, S 2, E 3 3, S 3, E 1 3, S 1 x4, E 3 2, S 3 x4, E 2 1, S 2 x4",
        &[
            "Object 1: flat, thread 1 at depth 1; thread 2 in the contention chain.",
            "Object 2: flat, thread 2 at depth 1; thread 3 in the contention chain.",
            "Object 3: flat, thread 3 at depth 1; thread 1 in the contention chain.",
            "Thread 1, which owns object 1 at depth 1: in its enter of object 3, parked in the contention chain (8), kept by thread 3, which owns the object.",
            "Thread 2, which owns object 2 at depth 1: in its enter of object 1, parked in the contention chain (8), kept by thread 1, which owns the object.",
            "Thread 3, which owns object 3 at depth 1: in its enter of object 2, parked in the contention chain (8), kept by thread 2, which owns the object.",
            "Deadlock: thread 1 waits for object 3, which thread 3 owns; thread 3 waits for object 2, which thread 2 owns; thread 2 waits for object 1, which thread 1 owns. None of them will get its object.",
            "No thread can take a step: each is idle or parked.",
        ],
    ),
    (
        "L 4 4 0, E 1 1, S 1, E 2 2, S 2, E 3 3, S 3, E 4 4, S 4, E 1 4, S 1 x4, E 4 1, S 4 x4, E 2 3, S 2 x4, E 3 2, S 3 x4",
        &[
            "Object 1: flat, thread 1 at depth 1; thread 4 in the contention chain.",
            "Object 2: flat, thread 2 at depth 1; thread 3 in the contention chain.",
            "Object 3: flat, thread 3 at depth 1; thread 2 in the contention chain.",
            "Object 4: flat, thread 4 at depth 1; thread 1 in the contention chain.",
            "Thread 1, which owns object 1 at depth 1: in its enter of object 4, parked in the contention chain (8), kept by thread 4, which owns the object.",
            "Thread 2, which owns object 2 at depth 1: in its enter of object 3, parked in the contention chain (8), kept by thread 3, which owns the object.",
            "Thread 3, which owns object 3 at depth 1: in its enter of object 2, parked in the contention chain (8), kept by thread 2, which owns the object.",
            "Thread 4, which owns object 4 at depth 1: in its enter of object 1, parked in the contention chain (8), kept by thread 1, which owns the object.",
            "Deadlock: thread 1 waits for object 4, which thread 4 owns; thread 4 waits for object 1, which thread 1 owns. None of them will get its object.",
            "Deadlock: thread 2 waits for object 3, which thread 3 owns; thread 3 waits for object 2, which thread 2 owns. None of them will get its object.",
            "No thread can take a step: each is idle or parked.",
        ],
    ),
    (
        "L 5 3 0, E 1 1, S 1, E 2 2, S 2, E 3 3, S 3, E 1 2, S 1 x4, E 2 1, S 2 x4, E 3 1, S 3 x4, E 4 3, S 4 x4",
        &[
            "Object 1: flat, thread 1 at depth 1; threads 2 and 3 in the contention chain.",
            "Object 2: flat, thread 2 at depth 1; thread 1 in the contention chain.",
            "Object 3: flat, thread 3 at depth 1; thread 4 in the contention chain.",
            "Thread 1, which owns object 1 at depth 1: in its enter of object 2, parked in the contention chain (8), kept by thread 2, which owns the object.",
            "Thread 2, which owns object 2 at depth 1: in its enter of object 1, parked in the contention chain (8), kept by thread 1, which owns the object.",
            "Thread 3, which owns object 3 at depth 1: in its enter of object 1, parked in the contention chain (8) behind thread 2, kept by thread 1, which owns the object.",
            "Thread 4: in its enter of object 3, parked in the contention chain (8), kept by thread 3, which owns the object.",
            "1 thread is idle and owns nothing.",
            "Deadlock: thread 1 waits for object 2, which thread 2 owns; thread 2 waits for object 1, which thread 1 owns. None of them will get its object, nor will threads 3 and 4 behind them.",
            "No thread can take a step: each is idle or parked.",
        ],
    ),
    (
        "L 2 2 0, E 1 2, S 1, E 1 1, S 1, W 1 1, S 1 x4, E 2 1, S 2 x3, N 2 1, S 2, E 2 2, S 2 x4",
        &[
            "Object 1: a monitor, thread 2 at depth 1; thread 1 in the entry chain.",
            "Object 2: flat, thread 1 at depth 1; thread 2 in the contention chain.",
            "Thread 1, which owns object 2 at depth 1: in its wait at object 1, parked in the entry chain (5), kept by thread 2, which owns the object.",
            "Thread 2, which owns object 1 at depth 1: in its enter of object 2, parked in the contention chain (8), kept by thread 1, which owns the object.",
            "Deadlock: thread 1 waits for object 1, which thread 2 owns; thread 2 waits for object 2, which thread 1 owns. None of them will get its object.",
            "No thread can take a step: each is idle or parked.",
        ],
    ),
    // None yet, since one can still take a step.
    (
        "L 2 2 0, E 1 1, S 1, E 2 2, S 2, E 1 2, S 1 x4, E 2 1, S 2 x3",
        &[
            "Object 1: flat, thread 1 at depth 1; thread 2 holds its monitor.",
            "Object 2: flat, thread 2 at depth 1; thread 1 in the contention chain.",
            "Thread 1, which owns object 1 at depth 1: in its enter of object 2, parked in the contention chain (8), kept by thread 2, which owns the object.",
            "Thread 2, which owns object 2 at depth 1: in its enter of object 1, next is try (7).",
        ],
    ),
    // None, since an exit waits for the holder, though the object's owner waits for a thing of the exit's thread.
    (
        "L 3 2 0, E 1 1, S 1, E 1 2, S 1, E 2 1, S 2 x3, X 1 1, S 1 x3, E 3 1, S 3, E 3 2, S 3 x4",
        &[
            "Object 1: flat, thread 3 at depth 1; thread 2 holds its monitor; thread 1 in the entry chain.",
            "Object 2: flat, thread 1 at depth 1; thread 3 in the contention chain.",
            "Thread 1, which owns object 2 at depth 1: in its exit from object 1, parked in the entry chain (5), kept by thread 2, which holds the monitor.",
            "Thread 2: in its enter of object 1, next is try (7).",
            "Thread 3, which owns object 1 at depth 1: in its enter of object 2, parked in the contention chain (8), kept by thread 1, which owns the object.",
        ],
    ),
    // None, since who waits is to be notified.
    (
        "L 2 1 0, E 1 1, S 1, W 1 1, S 1 x4, E 2 1, S 2 x3, W 2 1, S 2 x2",
        &[
            "Object 1: a monitor, owned by nobody; threads 1 and 2 in the waiting chain.",
            "Thread 1: in its wait at object 1, parked in the waiting chain (14).",
            "Thread 2: in its wait at object 1, parked in the waiting chain (14) behind thread 1.",
            "No thread can take a step: each is idle or parked.",
        ],
    ),
    (
        "L 2 2 0, E 1 2, S 1, E 1 1, S 1, W 1 1, S 1 x4, E 2 1, S 2 x3, E 2 2, S 2 x4",
        &[
            "Object 1: a monitor, thread 2 at depth 1; thread 1 in the waiting chain.",
            "Object 2: flat, thread 1 at depth 1; thread 2 in the contention chain.",
            "Thread 1, which owns object 2 at depth 1: in its wait at object 1, parked in the waiting chain (14).",
            "Thread 2, which owns object 1 at depth 1: in its enter of object 2, parked in the contention chain (8), kept by thread 1, which owns the object.",
            "No thread can take a step: each is idle or parked.",
        ],
    ),
];
