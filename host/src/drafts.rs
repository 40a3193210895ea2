//! Cases made from a seed: a draft with some faults, two tables files that know something of it, and the rooms lent.
//!
//! The same seed makes the same case on every machine.

#[path = "drafts/clean.rs"]
pub mod clean;
#[path = "drafts/edits.rs"]
mod edits;
#[path = "drafts/lists.rs"]
pub mod lists;
#[path = "drafts/pools.rs"]
mod pools;
#[path = "drafts/random.rs"]
pub mod random;
#[path = "drafts/rows.rs"]
pub mod rows;
#[path = "drafts/shapes.rs"]
mod shapes;

use random::Random;

/// How much room a case lends for records, beside what the answer needs.
#[derive(Clone, Copy, Debug)]
pub enum Room {
    Ample,
    /// Just enough.
    Needed,
    /// One record too few, if any is needed.
    OneShort,
    Records(usize),
}

pub struct Case {
    pub document: Vec<u8>,
    pub tables: Vec<u8>,
    pub more_tables: Vec<u8>,
    /// Bytes of scratch.
    pub scratch: usize,
    pub elements: Room,
    pub findings: Room,
    /// Numbers lent behind the last whole record.
    pub odd_numbers: usize,
}

/// The case of a seed.
pub fn case(seed: u64) -> Case {
    let random = &mut Random::new(seed);
    let (document, facts) = document(random);
    let mut files = [0, 1].map(|_| facts.file(random));
    if random.in_100(6) {
        let file = random.below(2);
        edits::edit_tables(random, &mut files[file]);
    }
    let [tables, more_tables] = files;
    let scratch = if random.in_100(2) { random.below(4_097) } else { 4_096 + random.below(20) };
    Case { document, tables, more_tables, scratch, elements: room(random), findings: room(random), odd_numbers: random.below(4) }
}

/// The document of a seed's case alone.
pub fn document_of(seed: u64) -> Vec<u8> {
    document(&mut Random::new(seed)).0
}

fn document(random: &mut Random) -> (Vec<u8>, rows::Facts) {
    let (mut root, facts) = clean::draft(random);
    if random.in_100(3) {
        return (shapes::at_a_limit(random), facts);
    }
    if random.in_100(75) {
        for _ in 0..random.below(7) {
            edits::edit_tree(random, &mut root);
        }
    }
    let mut document = clean::render(random, &root);
    if random.in_100(25) {
        for _ in 0..=random.below(3) {
            edits::edit_bytes(random, &mut document);
        }
    }
    (document, facts)
}

fn room(random: &mut Random) -> Room {
    match random.below(24) {
        0 | 1 => Room::Needed,
        2 => Room::OneShort,
        3 => Room::Records(random.below(12)),
        _ => Room::Ample,
    }
}
