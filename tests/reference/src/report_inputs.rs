//! Makes inputs of the report from a seed: several generated schedules, with whatever a branch may send between them.

use crate::enters::MOST_LINES;
use crate::generate::schedule;
use crate::random::Random;
use crate::replay::{open_schedule, split_lines};

/// Of so many inputs with seeds in a row one is full, one has a line too many and one has no good header.
const TURN: u64 = 20;

/// The input of a seed.
pub fn report_input(seed: u64) -> Vec<u8> {
    let mut random = Random::new(seed);
    match seed % TURN {
        0 => full(&mut random),
        1 => one_too_many(&mut random, seed / TURN % 3),
        2 => without_header(&mut random),
        _ => mixed(&mut random),
    }
}

fn mixed(random: &mut Random) -> Vec<u8> {
    let mut text = first_part(random);
    for _ in 0..random.between(0, 5) {
        text.extend(part(random));
    }
    match random.between(1, 20) {
        1..=3 => drop(text.pop()),
        4..=5 => text.extend(random.pick(&LAST_HEADERS).as_bytes()),
        _ => {}
    }
    text
}

/// Bad headers are left in it.
fn without_header(random: &mut Random) -> Vec<u8> {
    only(&mixed(random), |line| open_schedule(line).is_none())
}

/// The lines that are wanted.
fn only(text: &[u8], is_wanted: impl Fn(&[u8]) -> bool) -> Vec<u8> {
    let wanted = split_lines(text).filter(|line| is_wanted(line));
    wanted.flatten().copied().collect()
}

/// As many lines as may be, the last at times unended, and at times with another header behind.
fn full(random: &mut Random) -> Vec<u8> {
    let mut text = of_lines(random, MOST_LINES);
    match random.between(1, 4) {
        1 => drop(text.pop()),
        2 => text.extend(random.pick(&LAST_HEADERS).as_bytes()),
        3 => text.extend(b"L 1 1 0\n"),
        _ => {}
    }
    text
}

/// The one is in a good schedule, behind all good ones, or a piece that is no whole line.
fn one_too_many(random: &mut Random, place: u64) -> Vec<u8> {
    let behind = random.between(0, 3) as usize;
    let mut text = of_lines(random, MOST_LINES - behind);
    match place {
        0 => text.extend(b"L 1 1 0\n"),
        1 => write_bad_header(random, &mut text),
        _ => {}
    }
    for _ in 0..=behind {
        text.extend(b"E 1 1\n");
    }
    if place == 2 {
        text.pop();
    }
    text
}

/// Generated schedules up to just so many lines; headers do not count.
fn of_lines(random: &mut Random, number: usize) -> Vec<u8> {
    let mut text = Vec::new();
    let mut left = number;
    let mut next = first_part(random);
    while left > 0 {
        for line in split_lines(&next) {
            if left > 0 {
                text.extend(line);
                left -= usize::from(!line.starts_with(b"L"));
            }
        }
        next = part(random);
    }
    text
}

/// Three in ten have no header.
fn first_part(random: &mut Random) -> Vec<u8> {
    let part = part(random);
    match random.percent(30) {
        true => only(&part, |line| !line.starts_with(b"L")),
        false => part,
    }
}

/// A generated schedule, at times with bad headers and long lines in its midst; what is behind a bad header would go on with the schedule.
fn part(random: &mut Random) -> Vec<u8> {
    let mut schedule = schedule(random.draw());
    if !schedule.ends_with(b"\n") {
        schedule.push(b'\n');
    }
    let length = split_lines(&schedule).count() as u64;
    let mut bad_header = place(random, 25, length);
    let mut long_line = place(random, 8, length);
    let mut text = Vec::new();
    for (number, line) in (0..).zip(split_lines(&schedule)) {
        if bad_header.take_if(|place| *place == number).is_some() {
            write_bad_header(random, &mut text);
        }
        if long_line.take_if(|place| *place == number).is_some() {
            write_long_line(random, &mut text);
        }
        text.extend(line);
    }
    text
}

/// At times one of so many places.
fn place(random: &mut Random, chance: u64, places: u64) -> Option<u64> {
    random
        .percent(chance)
        .then(|| random.between(0, places - 1))
}

fn write_bad_header(random: &mut Random, text: &mut Vec<u8>) {
    match random.between(1, 10) {
        1 => {
            text.extend(b"L 2 2 0");
            write_filling(random, text);
        }
        2..=5 => text.extend(random.pick(&BAD_SIZES).as_bytes()),
        _ => text.extend(random.pick(&BAD_FORMS).as_bytes()),
    }
    text.push(b'\n');
}

/// One that is no header, though it may have headers in it.
fn write_long_line(random: &mut Random, text: &mut Vec<u8>) {
    text.extend(random.pick(&["x", "S 1", "E 1 1 ", " L 1 1 0 "]).as_bytes());
    write_filling(random, text);
    text.push(b'\n');
}

/// Thousands of bytes.
fn write_filling(random: &mut Random, text: &mut Vec<u8>) {
    let filling = random.pick(&["0", "L", " ", "L 1 1 0 ", "\r"]);
    let times = random.between(1_000, 9_000) as usize;
    text.extend(filling.repeat(times).as_bytes());
}

/// Without their newline: they are no good headers.
const LAST_HEADERS: [&str; 4] = ["L 1 1 0", "L 32 64 1", "L", "L 33 1 0"];

const BAD_SIZES: [&str; 8] = [
    "L 33 9 0",
    "L 33 64 1",
    "L 0 1 0",
    "L 1 0 0",
    "L 1 65 0",
    "L 0 0 0",
    "L 65535 65535 1",
    "L 32 256 1",
];

const BAD_FORMS: [&str; 16] = [
    "L",
    "Lx",
    "L ",
    "LL 1 1 0",
    "L 1 1",
    "L 1 1 2",
    "L 33 65 2",
    "L 1 1 0 ",
    "L 1 1 0 0",
    "L 1 1 00",
    "L 01 1 0",
    "L 65536 1 0",
    "L  1 1 0",
    "L\t1 1 0",
    "L 1 1 0\r",
    "L1 1 0",
];
