//! What the reference is held to, by itself or beside another program: cases with a known output, then generated inputs.

use crate::arguments::{number, DEFAULT_SEED};
use crate::report::{compare_outputs, Report};
use crate::stored::{read_folder, Case};
use crate::tally::{Kind, Tally};
use crate::{checked, generate, long_cases, met, program, replay};
use crate::{enters, enters_check, report_inputs, report_long_cases, seen};
use std::path::Path;
use std::process::ExitCode;

/// One of the reference's programs, with all that it is checked by.
pub struct Suite<K: 'static> {
    /// What an input is called.
    pub input: &'static str,
    /// All that the reference prints for an input.
    pub output: fn(&[u8]) -> Vec<u8>,
    pub long_cases: fn() -> Vec<Case>,
    /// For the reference alone, and for another program beside it.
    pub alone: Generated<K>,
    pub beside: Generated<K>,
    /// What must hold of the reference's run on an input, and what was met there.
    pub demand: &'static str,
    pub check: fn(&[u8]) -> Result<Tally<K>, String>,
}

/// Inputs made from seeds.
pub struct Generated<K: 'static> {
    /// The input of a seed.
    pub input: fn(u64) -> Vec<u8>,
    /// What a run of as many inputs as by default must have met.
    pub kinds: &'static [K],
}

/// The replay's suite. The reference alone is also given ranks, which no program takes.
pub const REPLAY: Suite<met::Rare> = Suite {
    input: "schedule",
    output: replay::replay,
    long_cases: long_cases::cases,
    alone: Generated {
        input: generate::given_schedule,
        kinds: &met::Rare::ALL,
    },
    beside: Generated {
        input: generate::schedule,
        kinds: met::Rare::without_ranks(),
    },
    demand: "demand 3",
    check: checked::check_schedule,
};

/// The report's suite.
pub const REPORT: Suite<seen::Seen> = Suite {
    input: "report input",
    output: enters::report,
    long_cases: report_long_cases::cases,
    alone: REPORT_INPUTS,
    beside: REPORT_INPUTS,
    demand: "sums",
    check: enters_check::check_report,
};

const REPORT_INPUTS: Generated<seen::Seen> = Generated {
    input: report_inputs::report_input,
    kinds: &seen::Seen::ALL,
};

/// Holds the reference alone to a suite: `NAME CASES_DIR [COUNT] [SEED]`.
pub fn selfcheck<K: Kind>(suite: &Suite<K>, default_count: u64) -> ExitCode {
    let Some(call) = Call::<1>::read("CASES_DIR", default_count) else {
        return ExitCode::FAILURE;
    };
    let [folder] = &call.words;
    let mut run = Run::new(suite, None);
    run.check_cases(folder);
    run.check_generated(call.count, call.seed, default_count);
    run.report.finish()
}

/// Holds a program against the reference: `NAME PROGRAM CASES_DIR [COUNT] [SEED]`.
pub fn crosscheck<K: Kind>(suite: &Suite<K>, default_count: u64) -> ExitCode {
    let Some(call) = Call::<2>::read("PROGRAM CASES_DIR", default_count) else {
        return ExitCode::FAILURE;
    };
    let [program, folder] = &call.words;
    let mut run = Run::new(suite, Some(program));
    run.check_cases(folder);
    run.check_generated(call.count, call.seed, default_count);
    run.report.finish()
}

/// The arguments of a check: some words, then a count and a seed that may be left out.
struct Call<const WORDS: usize> {
    words: [String; WORDS],
    count: u64,
    seed: u64,
}

impl<const WORDS: usize> Call<WORDS> {
    /// Prints the seed, so that a run can be made again; or what the call should have been.
    fn read(names: &str, default_count: u64) -> Option<Call<WORDS>> {
        let mut arguments = std::env::args();
        let program = arguments.next().unwrap_or_default();
        let arguments: Vec<String> = arguments.collect();
        let words = arguments.get(..WORDS).map(<[String]>::to_vec);
        let (Some(words), Ok(count), Ok(seed)) = (
            words.and_then(|words| words.try_into().ok()),
            number(&arguments, WORDS, default_count),
            number(&arguments, WORDS + 1, DEFAULT_SEED),
        ) else {
            eprintln!("usage: {program} {names} [COUNT] [SEED]");
            return None;
        };
        println!("seed {seed}");
        Some(Call { words, count, seed })
    }
}

/// A run of a suite, with another program beside the reference or without.
struct Run<'a, K: 'static> {
    suite: &'a Suite<K>,
    program: Option<&'a str>,
    report: Report,
}

impl<'a, K: Kind> Run<'a, K> {
    fn new(suite: &'a Suite<K>, program: Option<&'a str>) -> Run<'a, K> {
        Run {
            suite,
            program,
            report: Report::default(),
        }
    }

    fn check_cases(&mut self, folder: &str) {
        match read_folder(Path::new(folder)) {
            Ok(cases) => cases.iter().for_each(|case| self.check_case(case)),
            Err(error) => self.report.check("stored cases", Err(error.to_string())),
        }
        for case in (self.suite.long_cases)() {
            self.check_case(&case);
        }
    }

    /// Both programs by their output; the reference alone also by the demand.
    fn check_case(&mut self, case: &Case) {
        let suite = self.suite;
        let result = compare_outputs(&(suite.output)(&case.input), &case.expected);
        self.report
            .check(&format!("{}, reference", case.name), result);
        match self.program {
            Some(program) => {
                let result = program::run(program, &case.input)
                    .and_then(|output| compare_outputs(&output, &case.expected));
                self.report
                    .check(&format!("{}, program", case.name), result);
            }
            None => {
                let name = format!("{}, {}", case.name, suite.demand);
                self.report.check_schedule(&name, &case.input, suite.check);
            }
        }
    }

    /// Each generated input has a seed of its own, so that one that fails can be made again alone.
    fn check_generated(&mut self, count: u64, seed: u64, default_count: u64) {
        let kinds = self.generated().kinds;
        let mut met = Tally::default();
        for place in 0..count {
            met.add_all(&self.check_seed(seed.wrapping_add(place)));
        }
        met.print(kinds);
        if count >= default_count {
            met.check(kinds, &mut self.report);
        }
    }

    fn generated(&self) -> &'a Generated<K> {
        match self.program {
            Some(_) => &self.suite.beside,
            None => &self.suite.alone,
        }
    }

    /// The program by the reference's output, the reference by the demand. Gives what was met.
    fn check_seed(&mut self, seed: u64) -> Tally<K> {
        let suite = self.suite;
        let input = (self.generated().input)(seed);
        let name = format!("generated {} of seed {seed}", suite.input);
        if let Some(program) = self.program {
            let name = format!("{name}, program");
            self.report.check_schedule(&name, &input, |input| {
                program::run(program, input)
                    .and_then(|output| compare_outputs(&output, &(suite.output)(input)))
            });
        }
        let name = format!("{name}, {} on the reference", suite.demand);
        let met = self.report.check_schedule(&name, &input, suite.check);
        met.unwrap_or_default()
    }
}
