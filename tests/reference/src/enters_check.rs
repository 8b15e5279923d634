//! Holds a report to what its input's events say by themselves, and its numbers to each other.

use crate::enters::{report, MOST_LINES, WAYS, WHOLE};
use crate::recount::{recount, Recount};
use crate::seen::Seen;
use crate::tally::Tally;

/// Number, figures, shares and remainders.
const NUMBERS: usize = 1 + 3 * WAYS;
const TOO_MANY_LINES: &[u8] = b"24\n";

/// Describes the first line of the reference's report that is wrong; else gives what was met in the input.
pub fn check_report(input: &[u8]) -> Result<Tally<Seen>, String> {
    let recount = recount(input);
    let figures = check_output(&report(input), &recount)?;
    let mut seen = recount.seen;
    for (place, figure) in figures.into_iter().enumerate() {
        seen.add(Seen::ALL[place], figure);
    }
    Ok(seen)
}

/// Describes the first line of a report that is wrong; else gives the figures of its last line, none where there are too many lines.
pub fn check_output(output: &[u8], recount: &Recount) -> Result<[u64; WAYS], String> {
    if recount.lines > MOST_LINES {
        return match output == TOO_MANY_LINES {
            true => Ok([0; WAYS]),
            false => Err(format!("{} lines, but a report", recount.lines)),
        };
    }
    let lines = read_lines(output)?;
    let numbers: Vec<u64> = lines.iter().map(|line| line.number).collect();
    let expected: Vec<u64> = (1..=u64::from(recount.objects)).chain([0]).collect();
    if numbers != expected {
        return Err(format!("lines for the numbers {numbers:?}"));
    }
    let mut total = [0; WAYS];
    let Some((last, objects)) = lines.split_last() else {
        return Err("no line".to_string());
    };
    for line in objects {
        line.check(recount.enters[line.number as usize])?;
        for (sum, figure) in total.iter_mut().zip(line.figures) {
            *sum += figure;
        }
    }
    last.check(recount.enters.iter().sum())?;
    match total == last.figures {
        true => Ok(total),
        false => Err(format!("the objects' figures add up to {total:?}")),
    }
}

struct Line {
    number: u64,
    figures: [u64; WAYS],
    shares: [u64; WAYS],
    remainders: [u64; WAYS],
}

fn read_lines(output: &[u8]) -> Result<Vec<Line>, String> {
    let text = std::str::from_utf8(output).map_err(|error| error.to_string())?;
    let wrong = || format!("no report: {}", output.escape_ascii());
    let text = text.strip_suffix('\n').ok_or_else(wrong)?;
    text.split('\n')
        .map(|line| read_line(line).ok_or_else(wrong))
        .collect()
}

fn read_line(line: &str) -> Option<Line> {
    let numbers: Vec<u32> = line
        .split(' ')
        .map_while(|number| number.parse().ok())
        .collect();
    // Written again they must be the same line: no sign, no leading zero.
    let again: Vec<String> = numbers.iter().map(u32::to_string).collect();
    if numbers.len() != NUMBERS || again.join(" ") != line {
        return None;
    }
    let five = |place: usize| std::array::from_fn(|way| numbers[1 + place * WAYS + way].into());
    Some(Line {
        number: numbers[0].into(),
        figures: five(0),
        shares: five(1),
        remainders: five(2),
    })
}

impl Line {
    /// Holds the line to the enters that finished, as they were counted from the events.
    fn check(&self, enters: u64) -> Result<(), String> {
        let sum: u64 = self.figures.iter().sum();
        let number = self.number;
        if sum != enters {
            return Err(format!(
                "{sum} enters of number {number}, by events {enters}"
            ));
        }
        for way in 0..WAYS {
            let (share, remainder) = (self.shares[way], self.remainders[way]);
            let is_right = match sum {
                0 => share == 0 && remainder == 0,
                _ => {
                    remainder < sum
                        && share * sum + remainder == u64::from(WHOLE) * self.figures[way]
                }
            };
            if !is_right {
                return Err(format!(
                    "way {way} of number {number} has share {share} and remainder {remainder} of {sum}"
                ));
            }
        }
        Ok(())
    }
}
