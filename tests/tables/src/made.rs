//! Bytes to be tried: sound tables, damaged ones, and random bytes.

use crate::construct::sound_table;
use crate::damage::{damage, raise, Field, FIRST_FIELDS};
use crate::layout::{encode, TABLE_SIZE};
use reference::random::Random;
use reference::sound::is_sound;

/// Kinds of tables, by turns.
pub const KINDS: u64 = 8;
/// In percent of the tables with one field damaged, how often it is a rank at a link of a chain instead.
const RAISED: u64 = 30;

/// Kinds of tables by turns: sound, one field damaged or the ranks of a chain made to rise, two fields damaged, random bytes.
pub fn any_bytes(random: &mut Random, fields: &[Field], place: u64) -> Vec<u8> {
    match place % KINDS {
        0..=2 => sound_bytes(random),
        3..=4 if random.percent(RAISED) => raised_bytes(random),
        3..=4 => damaged_bytes(random, fields, place, 1),
        5..=6 => damaged_bytes(random, fields, place, 2),
        _ => random_bytes(random),
    }
}

fn sound_bytes(random: &mut Random) -> Vec<u8> {
    let table = sound_table(random);
    assert!(is_sound(&table), "a table made to be sound is not");
    encode(&table)
}

fn raised_bytes(random: &mut Random) -> Vec<u8> {
    let mut table = sound_table(random);
    raise(random, &mut table);
    encode(&table)
}

/// The first field damaged goes through all of them in turn.
fn damaged_bytes(random: &mut Random, fields: &[Field], place: u64, number: usize) -> Vec<u8> {
    let mut bytes = sound_bytes(random);
    damage_fields(random, fields, &mut bytes, place / KINDS, number);
    bytes
}

/// Damages so many fields of a table, the first of them the one at a place among all.
pub fn damage_fields(
    random: &mut Random,
    fields: &[Field],
    bytes: &mut [u8],
    place: u64,
    number: usize,
) {
    let first = place as usize % fields.len();
    damage(random, bytes, fields[first]);
    for _ in 1..number {
        // Fields of the first records are the ones that matter most.
        let last = random.pick(&[fields.len(), FIRST_FIELDS]);
        let other = random.between(0, last as u64 - 1) as usize;
        damage(random, bytes, fields[other]);
    }
}

pub fn random_bytes(random: &mut Random) -> Vec<u8> {
    let any = random.between(0, 2 * TABLE_SIZE as u64) as usize;
    let near = TABLE_SIZE - 1 + random.between(0, 2) as usize;
    let length = random.pick(&[TABLE_SIZE, TABLE_SIZE, near, any]);
    let largest = random.pick(&[1, 2, 6, 15, 255]);
    let chance = random.pick(&[1, 10, 100]);
    let mut bytes = vec![0; length];
    for byte in &mut bytes {
        if random.percent(chance) {
            *byte = random.between(0, largest) as u8;
        }
    }
    bytes
}
