//! The merge of two lists.

use crate::{write_list, Finding, Refusal, FINDING};
use std::collections::{BTreeMap, BTreeSet};

const LAST_PROCEDURE: u32 = 38;

/// When a finding of a procedure is in the merged list.
enum Stays {
    /// The procedure asks for a row: more rows can only mend it.
    InBoth,
    /// The procedure asks for no row: more rows can only break it.
    InEither,
    /// The tables have no say, so lists of one document have it both or neither.
    Always,
}

fn stays(procedure: u32) -> Stays {
    match procedure {
        8 | 18 | 34 => Stays::InBoth,
        6 | 12 | 21 | 22 => Stays::InEither,
        _ => Stays::Always,
    }
}

/// The merge: 0 and the number of records, or the number of the refusal and what it returns.
pub fn merge(a: &[u32], b: &[u32], out: &mut [u32]) -> (u32, u32) {
    match merged(a, b) {
        Err(refusal) => (refusal.number, refusal.value as u32),
        Ok(found) if out.len() / FINDING < found.len() => (11, found.len() as u32),
        Ok(found) => {
            write_list(&found, out);
            (0, found.len() as u32)
        }
    }
}

fn merged(a: &[u32], b: &[u32]) -> Result<BTreeSet<Finding>, Refusal> {
    let (a, b) = (records(a)?, records(b)?);
    let mut found = BTreeSet::new();
    let keys: BTreeSet<_> = a.keys().chain(b.keys()).copied().collect();
    for (start, procedure) in keys {
        let ends = [&a, &b].map(|list| list.get(&(start, procedure)).copied());
        let after = match ends {
            [Some(x), Some(y)] if x == y => Some(x),
            [Some(_), Some(_)] => return Err(Refusal::new(13, start as usize)),
            [one, other] => match stays(procedure) {
                Stays::InBoth => None,
                Stays::InEither => one.or(other),
                Stays::Always => return Err(Refusal::new(13, start as usize)),
            },
        };
        found.extend(after.map(|after| Finding { start, procedure, after }));
    }
    Ok(found)
}

/// The ends of a list's records by first byte and procedure, or the refusal of its first bad record.
fn records(list: &[u32]) -> Result<BTreeMap<(u32, u32), u32>, Refusal> {
    let mut ends = BTreeMap::new();
    for (number, record) in list.chunks(FINDING).enumerate() {
        let &[procedure, start, after] = record else { return Err(Refusal::new(12, number)) };
        let in_order = ends.last_key_value().is_none_or(|(&last, _)| last < (start, procedure));
        if !in_order || procedure < 1 || procedure > LAST_PROCEDURE || start >= after {
            return Err(Refusal::new(12, number));
        }
        ends.insert((start, procedure), after);
    }
    Ok(ends)
}
