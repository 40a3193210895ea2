//! Lists of findings that no check made, for the merge, and questions for the value reader.

use crate::pools;
use crate::random::Random;

/// Two lists of one made-up document, sometimes with a fault.
pub fn two_lists(random: &mut Random) -> [Vec<u32>; 2] {
    let mut lists = [Vec::new(), Vec::new()];
    let mut start = random.below(3) as u32;
    for _ in 0..random.below(8) {
        let mut procedure = 0;
        let after = start + 1 + random.below(9) as u32;
        for _ in 0..=random.below(3) {
            procedure += 1 + random.below(14) as u32;
            if procedure > 38 {
                break;
            }
            let by_tables = [6, 8, 12, 18, 21, 22, 34].contains(&procedure);
            let in_which = if by_tables { 1 + random.below(3) } else { 3 };
            for (number, list) in lists.iter_mut().enumerate() {
                if in_which & (1 << number) > 0 {
                    list.extend([procedure, start, after]);
                }
            }
        }
        start += 1 + random.below(9) as u32;
    }
    if random.in_100(50) {
        let list = &mut lists[random.below(2)];
        for _ in 0..=random.below(2) {
            spoil(random, list);
        }
    }
    lists
}

/// One fault in a list of findings.
pub fn spoil(random: &mut Random, list: &mut Vec<u32>) {
    if list.is_empty() {
        return list.push(random.below(40) as u32);
    }
    let at = random.below(list.len());
    let record = at / 3 * 3;
    match random.below(9) {
        0 => drop(list.remove(at)),
        1 => list.insert(at, random.below(60) as u32),
        2 => list[at] = list[at].wrapping_add(1),
        3 => list[at] = list[at].wrapping_sub(1),
        4 => list[at] = random.pick(&[0, 1, 38, 39, u32::MAX, u32::MAX - 1, 1 << 31]),
        5 => list.truncate(at),
        6 => drop(list.drain(record..(record + 3).min(list.len()))),
        7 => {
            let copy = list[record..(record + 3).min(list.len())].to_vec();
            list.splice(record..record, copy);
        }
        _ => {
            let other = random.below(list.len());
            list.swap(at, other);
        }
    }
}

/// Some name of an attribute to ask for; empty for the text.
pub fn asked_name(random: &mut Random) -> Vec<u8> {
    match random.below(20) {
        0..=6 => Vec::new(),
        7 => pools::value(random, "", "").as_bytes().to_vec(),
        8 => vec![b'n'; 60 + random.below(10)],
        _ => random.pick(pools::ATTRIBUTES).as_bytes().to_vec(),
    }
}
