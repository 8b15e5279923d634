//! Makes inputs of the dispatcher from a seed: threads that nest, contend, wait for each other, notify and make mistakes, by scripts that lie apart, are
//! shared or overlap; and such inputs spoiled, so that they are refused.

use crate::dispatch::{Input, Script, MAX_QUANTUM, OPERATION_SIZE};
use crate::engine::apply;
use crate::generate::{given_schedule, size, some_of, UNTIMED};
use crate::given::{draw_given, read_given};
use crate::outcome::Returned;
use crate::random::Random;
use crate::replay::{open_given, Line};
use crate::table::{Given, Operation, Table, MAX_OBJECTS, MAX_THREADS};
use crate::word::MAX_COUNT;

/// Sizes up to which most tables go.
const FEW_THREADS: u64 = 5;
const FEW_OBJECTS: u64 = 3;
/// In percent of inputs, how often a generated schedule has run before, and how many of its events at most.
const REACHED: u64 = 40;
const MOST_EVENTS: u64 = 300;

/// One operation of a script: its number and its object.
type Operations = Vec<[u8; OPERATION_SIZE]>;

/// The input of a seed, on a fresh table or on one that a schedule has led to.
pub fn input(seed: u64) -> Input {
    let mut random = Random::new(seed);
    let reached = match random.percent(REACHED) {
        true => reached_table(&mut random),
        false => None,
    };
    let table = reached.unwrap_or_else(|| fresh_table(&mut random, draw_given));
    input_on(&mut random, table)
}

/// The input of a seed on a fresh table that was given nothing, as the replay has it.
pub fn fresh_input(seed: u64) -> Input {
    let mut random = Random::new(seed);
    let table = fresh_table(&mut random, |_, _| Given::default());
    input_on(&mut random, table)
}

fn fresh_table(random: &mut Random, draw_given: fn(&mut Random, u8) -> Given) -> Table {
    let threads = size(random, FEW_THREADS, MAX_THREADS);
    let objects = size(random, FEW_OBJECTS, MAX_OBJECTS);
    let reserved = random.percent(50);
    let given = draw_given(random, threads);
    Table::fresh_given(threads.into(), objects.into(), reserved, &given)
        .expect("sizes and ranks in range")
}

/// The table behind some events of a generated schedule; nothing where that has no good header.
fn reached_table(random: &mut Random) -> Option<Table> {
    let text = given_schedule(random.draw());
    let (mut table, lines) = open_given(&text, &read_given(&text))?;
    let length = random.between(1, MOST_EVENTS) as usize;
    for line in lines.take(length) {
        if let Some(Line::Event(event)) = line {
            apply(&mut table, event);
        }
    }
    Some(table)
}

/// What the scripts of an input are to be like. Chances are in percent of their pieces.
struct Plan {
    /// The objects that they use.
    objects: Vec<u8>,
    most_pieces: u64,
    waits: u64,
    /// How often two objects are entered, one in the other.
    pairs: u64,
    deep: u64,
    /// How often an operation of a piece is left out: an exit, so that its object is kept, or an enter, so that its exit is by no owner.
    slips: u64,
}

impl Plan {
    fn draw(random: &mut Random, table: &Table) -> Plan {
        let most_objects = random.pick(&[1, 2, 2, FEW_OBJECTS as u8, table.objects]);
        Plan {
            objects: objects_to_use(random, table, most_objects),
            most_pieces: random.pick(&[1, 2, 3, 4, 6, 20]),
            waits: random.pick(&[0, 0, 10, 40]),
            pairs: random.pick(&[0, 20, 60]),
            deep: random.pick(&[0, 0, 1]),
            slips: random.pick(&[0, 0, 5, 20]),
        }
    }
}

/// Mostly some of all objects; on a table with threads at work also those that they are at.
fn objects_to_use(random: &mut Random, table: &Table, most: u8) -> Vec<u8> {
    let in_use = table.thread_records.iter().map(|record| record.object);
    let in_use: Vec<u8> = in_use.filter(|object| *object != 0).collect();
    match in_use.is_empty() || random.percent(50) {
        true => some_of(random, table.objects, 1, most),
        false => in_use,
    }
}

/// An input on this table, which is not refused if that is sound.
pub fn input_on(random: &mut Random, table: Table) -> Input {
    let plan = Plan::draw(random, &table);
    let written: Vec<Operations> = (0..table.threads)
        .map(|_| script(random, &plan, &table))
        .collect();
    let (scripts, cursors) = lay_out(random, &written);
    let any = random.between(1, MAX_QUANTUM.into()) as u32;
    Input {
        table,
        quantum: random.pick(&[1, 1, 2, 3, 10, MAX_QUANTUM, any, any]),
        scripts,
        cursors,
    }
}

fn script(random: &mut Random, plan: &Plan, table: &Table) -> Operations {
    let mut script = Vec::new();
    for _ in 0..random.between(0, plan.most_pieces) {
        let mut piece = piece(random, plan, table);
        if random.percent(plan.slips) {
            piece.remove(random.between(0, piece.len() as u64 - 1) as usize);
        }
        let numbers = piece.into_iter();
        script.extend(numbers.map(|(operation, object)| [operation.number(), object]));
    }
    script
}

/// An object entered and left, with something between.
fn piece(random: &mut Random, plan: &Plan, table: &Table) -> Vec<(Operation, u8)> {
    let (outer, inner) = (random.pick(&plan.objects), random.pick(&plan.objects));
    let mut piece = vec![(Operation::Enter, outer)];
    if random.percent(plan.pairs) {
        piece.extend([(Operation::Enter, inner), (Operation::Exit, inner)]);
    }
    if random.percent(plan.waits) {
        piece.push((random.pick(&WAITING), outer));
    }
    if random.percent(plan.slips) {
        let anywhere = random.between(1, table.objects.into()) as u8;
        piece.push((random.pick(&UNTIMED), anywhere));
    }
    let depth = match random.percent(plan.deep) {
        true => u64::from(MAX_COUNT) + random.between(0, 3),
        false => random.pick(&[0, 0, 0, 1, 2]),
    };
    for operation in [Operation::Enter, Operation::Exit] {
        piece.extend((0..depth).map(|_| (operation, outer)));
    }
    piece.push((Operation::Exit, outer));
    piece
}

const WAITING: [Operation; 5] = [
    Operation::Wait,
    Operation::Wait,
    Operation::Notify,
    Operation::Notify,
    Operation::NotifyAll,
];

/// The scripts in one piece of memory, with a record for each thread.
fn lay_out(random: &mut Random, written: &[Operations]) -> (Vec<u8>, Vec<Script>) {
    let (mut lent, mut cursors) = match random.between(1, 10) {
        1..=2 => shared(written),
        3..=5 => overlapping(random, written),
        _ => apart(random, written),
    };
    for script in &mut cursors {
        let middle = random.between(0, script.length.into()) as u32;
        script.cursor = random.pick(&[0, 0, 0, 0, 0, 0, middle, script.length]);
    }
    if random.percent(20) {
        lent.push(random.draw() as u8);
    }
    (lent, cursors)
}

fn record(start: usize, length: usize) -> Script {
    Script {
        start: start as u32,
        length: length as u32,
        cursor: 0,
    }
}

/// All threads have the script of the first.
fn shared(written: &[Operations]) -> (Vec<u8>, Vec<Script>) {
    let script = &written[0];
    (
        script.concat(),
        vec![record(0, script.len()); written.len()],
    )
}

/// Each has as many operations as its own script, from anywhere in all of them.
fn overlapping(random: &mut Random, written: &[Operations]) -> (Vec<u8>, Vec<Script>) {
    let all = written.concat();
    let cursors = written.iter().map(|script| {
        let last = all.len() - script.len();
        record(random.between(0, last as u64) as usize, script.len())
    });
    (all.concat(), cursors.collect())
}

/// One behind the other, at times with something between that is no operation.
fn apart(random: &mut Random, written: &[Operations]) -> (Vec<u8>, Vec<Script>) {
    let gaps = random.pick(&[0, 0, 30]);
    let mut lent = Operations::new();
    let mut cursors = Vec::new();
    for script in written {
        if random.percent(gaps) {
            lent.push(random.pick(&[[0, 0], [6, 1], [1, 0], [0xff, 0xff]]));
        }
        cursors.push(record(lent.len(), script.len()));
        lent.extend(script);
    }
    (lent.concat(), cursors)
}

/// Makes an input on a sound table one that is refused, and gives the number.
pub fn spoil(random: &mut Random, input: &mut Input) -> Returned {
    let spoils_quantum = random.percent(30);
    if spoils_quantum {
        // The last two look good to whoever cuts them off at eight or sixteen bits.
        input.quantum = random.pick(&[0, MAX_QUANTUM + 1, u32::MAX, 256 + 5, 65_536 + 5]);
    }
    if !spoils_quantum || random.percent(50) {
        spoil_scripts(random, input);
    }
    match spoils_quantum {
        true => Returned::QuantumOutOfRange,
        false => Returned::ScriptUnknown,
    }
}

fn spoil_scripts(random: &mut Random, input: &mut Input) {
    let place = random.between(0, input.cursors.len() as u64 - 1) as usize;
    let lent = input.lent() as u32;
    let script = &mut input.cursors[place];
    match random.between(1, 7) {
        1 => input.cursors.push(Script::default()),
        2 => drop(input.cursors.pop()),
        3 => input.cursors.clear(),
        4 => script.cursor = random.pick(&[script.length + 1, u32::MAX]),
        5 => *script = random.pick(&past_the_end(lent)),
        _ => spoil_operation(random, input, place),
    }
}

/// Records that go beyond so many operations, the last two only if start and length are added in more than 32 bits.
fn past_the_end(lent: u32) -> [Script; 5] {
    [
        (lent + 1, 0),
        (lent, 1),
        (0, lent + 1),
        (u32::MAX, 1),
        (2, u32::MAX - 1),
    ]
    .map(|(start, length)| Script {
        start,
        length,
        cursor: 0,
    })
}

/// An operation of the thread's script, which gets one if it has none, is made unknown, or its object.
fn spoil_operation(random: &mut Random, input: &mut Input, place: usize) {
    if input.cursors[place].length == 0 {
        let end = input.lent();
        input.scripts.truncate(end * OPERATION_SIZE);
        input.scripts.extend([Operation::Enter.number(), 1]);
        input.cursors[place] = record(end, 1);
    }
    let script = input.cursors[place];
    let unknown = random.between(0, u64::from(script.length) - 1) as usize;
    let at = (script.start as usize + unknown) * OPERATION_SIZE;
    match random.percent(50) {
        true => input.scripts[at] = random.pick(&[0, 6, 7, u8::MAX]),
        false => input.scripts[at + 1] = random.pick(&[0, input.table.objects + 1, u8::MAX]),
    }
}
