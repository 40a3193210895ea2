//! An independent reading of document 01, to hold the proved product against.
//!
//! It takes the long way round on purpose: a document becomes text, the text a tree, the tree a set of findings.
//! Nothing here is fast, and nothing was taken from the product.

#[path = "reference/grammar.rs"]
pub mod grammar;
#[path = "reference/known.rs"]
pub mod known;
#[path = "reference/merging.rs"]
pub mod merging;
#[path = "reference/procedures.rs"]
pub mod procedures;
#[path = "reference/tables.rs"]
pub mod tables;
#[path = "reference/tree.rs"]
pub mod tree;
#[path = "reference/values.rs"]
pub mod values;

use grammar::limits;
use std::collections::BTreeSet;
use tables::Tables;
use tree::Tree;

pub use merging::merge;
pub use values::{value, Shown};

/// A refusal: its number in document 01, and what it returns.
#[derive(Clone, Copy, Debug, PartialEq, Eq)]
pub struct Refusal {
    pub number: u32,
    pub value: usize,
}

impl Refusal {
    pub fn new(number: u32, value: usize) -> Refusal {
        Refusal { number, value }
    }
}

/// A finding. The order of the fields is the order of the list: first byte, then procedure.
#[derive(Clone, Copy, Debug, PartialEq, Eq, PartialOrd, Ord)]
pub struct Finding {
    pub start: u32,
    pub procedure: u32,
    pub after: u32,
}

/// Numbers in one record of the findings list and of the element table.
pub const FINDING: usize = 3;
pub const ROW: usize = 4;

/// Bytes of the scratch area that the check uses, and leaves zero.
pub const SCRATCH: usize = 4_096;

/// The check: 0 and the number of findings, or the number of the refusal and what it returns.
pub fn check(document: &[u8], tables: &[u8], scratch: &mut [u8], elements: &mut [u32], findings: &mut [u32]) -> (u32, u32) {
    let read = read_all(document, tables, scratch.len());
    let (tree, tables) = match read {
        Ok(both) => both,
        Err(refusal) => return (refusal.number, refusal.value as u32),
    };
    if elements.len() / ROW < tree.nodes.len() {
        return (9, tree.nodes.len() as u32);
    }

    // From here on the element table and the scratch area end the same way, whatever the answer.
    for (number, (node, row)) in tree.nodes.iter().zip(elements.chunks_exact_mut(ROW)).enumerate() {
        row.copy_from_slice(&[number as u32, node.parent.unwrap_or(0) as u32, node.start as u32, node.after as u32]);
    }
    scratch[..SCRATCH].fill(0);

    if let Some(place) = tree.overlong_value() {
        return (10, place as u32);
    }
    let found = procedures::judge(&tree, &tables);
    if findings.len() / FINDING < found.len() {
        return (11, found.len() as u32);
    }
    write_list(&found, findings);
    (0, found.len() as u32)
}

/// Everything that refusals 1 to 8 stand for, in their order.
fn read_all<'a>(document: &'a [u8], tables: &'a [u8], scratch: usize) -> Result<(Tree<'a>, Tables<'a>), Refusal> {
    if document.len() > limits::LENGTH {
        return Err(Refusal::new(1, document.len()));
    }
    if tables.len() > limits::LENGTH {
        return Err(Refusal::new(2, tables.len()));
    }
    if scratch < SCRATCH {
        return Err(Refusal::new(3, SCRATCH));
    }
    let tables = Tables::parse(tables).map_err(|place| Refusal::new(4, place))?;
    let text = grammar::text_of(document).map_err(|place| Refusal::new(5, place))?;
    Ok((Tree::build(text)?, tables))
}

/// Puts the findings, in order, to the front of a lent list that has room for them.
pub(crate) fn write_list(found: &BTreeSet<Finding>, list: &mut [u32]) {
    for (finding, record) in found.iter().zip(list.chunks_exact_mut(FINDING)) {
        record.copy_from_slice(&[finding.procedure, finding.start, finding.after]);
    }
}
