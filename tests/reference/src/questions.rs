//! Schedules with questions between their lines, as an input of their own: ranks right behind the header, `dump`, which prints the table, and `say`, from
//! which on the answers to events are printed as the replay prints them.

use crate::engine::{apply, Event};
use crate::given::{read_given, read_rank};
use crate::outcome::Outcome;
use crate::replay::{place_of, print_answer, read_ended_line, split_lines, Line};
use crate::table::{Given, ObjectRecord, Operation, Phase, Table, ThreadRecord};
use std::io::{self, Write};

/// What answers such a schedule.
pub trait Engine: Sized {
    /// Nothing where the fresh table is refused.
    fn fresh(threads: u16, objects: u16, reserved: bool, given: &Given) -> Option<Self>;

    fn apply(&mut self, event: Event) -> Outcome;

    fn table(&self) -> Table;
}

impl Engine for Table {
    fn fresh(threads: u16, objects: u16, reserved: bool, given: &Given) -> Option<Table> {
        Table::fresh_given(threads, objects, reserved, given).ok()
    }

    fn apply(&mut self, event: Event) -> Outcome {
        apply(self, event)
    }

    fn table(&self) -> Table {
        self.clone()
    }
}

/// All that an engine has to say to a schedule; an error where a line is none of its form.
pub fn answers<E: Engine>(input: &[u8]) -> Result<Vec<u8>, String> {
    let mut lines = split_lines(input);
    let header = lines.next().and_then(read_ended_line);
    let Some(Line::Header {
        threads,
        objects,
        reserved,
    }) = header
    else {
        return Err("there is no header".to_string());
    };
    let fresh = E::fresh(threads, objects, reserved, &read_given(input));
    let mut engine = fresh.ok_or("the fresh table is refused")?;
    let (mut output, mut says) = (Vec::new(), false);
    for line in lines.skip_while(|line| read_rank(line).is_some()) {
        match (line, read_ended_line(line)) {
            (b"say\n", _) => says = true,
            (b"dump\n", _) => dump(&engine.table(), &mut output).expect("a vector takes any text"),
            (_, Some(Line::Event(event))) => {
                let place = place_of(&engine.table(), event);
                let outcome = engine.apply(event);
                if says {
                    print_answer(place, outcome, &engine.table(), &mut output);
                }
            }
            _ => return Err(format!("{} is no question", line.escape_ascii())),
        }
    }
    Ok(output)
}

fn dump(table: &Table, output: &mut Vec<u8>) -> io::Result<()> {
    let used = usize::from(table.threads);
    for (number, record) in (1..).zip(&table.thread_records[..used]) {
        dump_thread(number, record, output)?;
    }
    let used = usize::from(table.objects);
    for (number, record) in (1..).zip(&table.object_records[..used]) {
        dump_object(number, record, output)?;
    }
    Ok(())
}

/// With a label, which no thread has: a later request adds it.
fn dump_thread(number: u8, record: &ThreadRecord, output: &mut Vec<u8>) -> io::Result<()> {
    let ThreadRecord {
        object,
        kept_word,
        saved_depth,
        next,
        ticks,
        rank,
        ..
    } = record;
    let operation = record.operation.map_or(0, Operation::number);
    let onward = match record.phase {
        Phase::Queued(onward) => onward.phase().number(),
        _ => 0,
    };
    let phase = record.phase.number();
    write!(
        output,
        "  t{number}: op{operation} o{object} ph{phase}/{onward} kept{kept_word:06x} "
    )?;
    writeln!(
        output,
        "saved{saved_depth} next{next} ticks{ticks} rank{rank} label{:016x}",
        0
    )
}

/// With a class and a number of parked threads, which no object has: later requests add them.
fn dump_object(number: u8, record: &ObjectRecord, output: &mut Vec<u8>) -> io::Result<()> {
    let (word, flag, monitor) = (
        record.word,
        u8::from(record.contention_flag),
        record.monitor,
    );
    write!(
        output,
        "  o{number}: w{word:08x} flag{flag} holder{} ",
        monitor.holder
    )?;
    write!(output, "depth{} entry{} ", monitor.depth, monitor.entry)?;
    writeln!(
        output,
        "cont{} wait{} class0 parked0",
        monitor.contention, monitor.waiting
    )
}
