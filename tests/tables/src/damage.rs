//! The fields of a table by their places in its bytes, and damage done to one of them; and chains whose ranks are made to rise.

use crate::layout::{OBJECTS_START, OBJECT_SIZE, THREADS_START, THREAD_SIZE};
use reference::random::Random;
use reference::table::{Chain, Table, MAX_OBJECTS, MAX_RANK, MAX_THREADS};

#[derive(Clone, Copy, Debug)]
pub struct Field {
    pub at: usize,
    pub width: usize,
}

/// Offset and width of the fields of a thread's and of an object's record.
const THREAD_FIELDS: [(usize, usize); 9] = [
    (0, 1),
    (1, 1),
    (2, 1),
    (3, 1),
    (4, 4),
    (8, 2),
    (10, 1),
    (11, 2),
    (13, 1),
];
const OBJECT_FIELDS: [(usize, usize); 7] =
    [(0, 4), (4, 1), (5, 1), (6, 2), (8, 1), (9, 1), (10, 1)];

/// How many fields the two sizes and the first four threads have.
pub const FIRST_FIELDS: usize = 2 + 4 * THREAD_FIELDS.len();

/// All fields: the two sizes, then those of each record.
pub fn fields() -> Vec<Field> {
    let mut fields = vec![Field { at: 0, width: 1 }, Field { at: 1, width: 1 }];
    for place in 0..MAX_THREADS {
        let record = THREADS_START + place * THREAD_SIZE;
        fields.extend(THREAD_FIELDS.map(|field| field_at(record, field)));
    }
    for place in 0..MAX_OBJECTS {
        let record = OBJECTS_START + place * OBJECT_SIZE;
        fields.extend(OBJECT_FIELDS.map(|field| field_at(record, field)));
    }
    fields
}

fn field_at(record: usize, (offset, width): (usize, usize)) -> Field {
    Field {
        at: record + offset,
        width,
    }
}

/// Gives a field another value: a neighbour, a small number, an end of its range, or anything.
pub fn damage(random: &mut Random, bytes: &mut [u8], field: Field) {
    let place = field.at..field.at + field.width;
    let mut old = [0; 8];
    old[..field.width].copy_from_slice(&bytes[place.clone()]);
    let old = u64::from_le_bytes(old);
    let small = random.between(0, 70);
    let any = random.draw();
    let word = random.between(0, 4) << 8 | random.between(0, 255);
    let choices = [
        old + 1,
        old.wrapping_sub(1),
        small,
        small,
        word,
        0,
        u64::MAX,
        any,
    ];
    let new = random.pick(&choices).to_le_bytes();
    bytes[place].copy_from_slice(&new[..field.width]);
}

/// Makes the ranks rise at one link of a chain, if one has two threads: in an entry chain that is damage, in the others not.
pub fn raise(random: &mut Random, table: &mut Table) {
    let chains = (1..=table.objects).flat_map(|object| Chain::ALL.map(|chain| (object, chain)));
    let links: Vec<(u8, u8)> = chains
        .flat_map(|(object, chain)| {
            let threads: Vec<u8> = table.chain(object, chain).collect();
            threads
                .windows(2)
                .map(|pair| (pair[0], pair[1]))
                .collect::<Vec<_>>()
        })
        .collect();
    if links.is_empty() {
        return;
    }
    let (before, behind) = random.pick(&links);
    let low = random.between(0, u64::from(MAX_RANK) - 1) as u8;
    table.thread_mut(before).rank = low;
    table.thread_mut(behind).rank = random.between(u64::from(low) + 1, MAX_RANK.into()) as u8;
}
