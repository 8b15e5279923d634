//! Inputs of the dispatcher, with the bytes of their tables: from fresh and reached tables, from sound ones that no schedule reaches, and such as are
//! refused.

use crate::construct::sound_table;
use crate::damage::Field;
use crate::layout::{decode, encode};
use crate::made::{damage_fields, random_bytes};
use reference::dispatch::Input;
use reference::dispatch_check::Origin;
use reference::random::Random;
use reference::script_inputs::{input, input_on, spoil};

/// Kinds of inputs, by turns.
const KINDS: u64 = 8;

pub struct Drawn {
    pub bytes: Vec<u8>,
    /// Whether the bytes are a table; then it is the input's.
    pub is_table: bool,
    pub input: Input,
    pub origin: Origin,
}

impl Drawn {
    /// With the bytes of the input's own table.
    pub fn of(input: Input, origin: Origin) -> Drawn {
        Drawn {
            bytes: encode(&input.table),
            is_table: true,
            input,
            origin,
        }
    }

    /// The input of a seed, with the random numbers of that seed. Kinds by turns: three of eight from a fresh table or a schedule, two from a sound table made
    /// by construction; one spoiled, one with fields of its table damaged and one with random bytes for a table, of which some are spoiled too.
    pub fn any(random: &mut Random, fields: &[Field], seed: u64) -> Drawn {
        match seed % KINDS {
            0..=2 => Drawn::of(input(random.draw()), Origin::Schedule),
            3..=4 => constructed(random),
            5 => spoiled(random),
            6 => {
                let mut drawn = constructed(random);
                let number = random.between(1, 2) as usize;
                damage_fields(random, fields, &mut drawn.bytes, seed / KINDS, number);
                with_bytes(random, drawn)
            }
            _ => {
                let drawn = Drawn {
                    bytes: random_bytes(random),
                    ..constructed(random)
                };
                with_bytes(random, drawn)
            }
        }
    }
}

fn constructed(random: &mut Random) -> Drawn {
    let table = sound_table(random);
    Drawn::of(input_on(random, table), Origin::Construction)
}

fn spoiled(random: &mut Random) -> Drawn {
    let mut drawn = match random.percent(50) {
        true => Drawn::of(input(random.draw()), Origin::Schedule),
        false => constructed(random),
    };
    spoil(random, &mut drawn.input);
    drawn
}

/// The same with the table that its bytes are by now, if they are one, and at times spoiled.
fn with_bytes(random: &mut Random, mut drawn: Drawn) -> Drawn {
    if random.percent(50) {
        spoil(random, &mut drawn.input);
    }
    let table = decode(&drawn.bytes);
    drawn.is_table = table.is_some();
    drawn.input.table = table.unwrap_or(drawn.input.table);
    drawn
}
