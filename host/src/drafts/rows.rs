//! Tables files that know something of a draft.

use crate::pools;
use crate::random::Random;

/// One file in so many has very many rows.
const CROWDED: usize = 250;

/// What tables could know of a draft.
pub struct Facts {
    pub kind: &'static str,
    pub document: String,
    pub set: String,
    pub version: u32,
    /// The labeler code, or the registrant's DUNS number.
    pub key: String,
    pub codes: Vec<[String; 3]>,
    pub firms: Vec<[String; 2]>,
}

impl Facts {
    pub fn new(random: &mut Random) -> Facts {
        let version = 1 + random.below(6) as u32;
        let (document, set) = (random.guid(), random.guid());
        Facts { kind: "", document, set, version, key: String::new(), codes: Vec::new(), firms: Vec::new() }
    }

    /// A firm of the register.
    pub fn firm(&mut self, random: &mut Random) -> (String, String) {
        let firm = [format!("1{}", random.digits(8)), random.pick(pools::NAMES).to_string()];
        self.firms.push(firm.clone());
        firm.into()
    }

    /// A tables file that has some of the facts, and some rows that are near to them.
    pub fn file(&self, random: &mut Random) -> Vec<u8> {
        let knows = random.pick(&[100, 100, 90, 50, 0]);
        let mut codes: Vec<Vec<String>> = Vec::new();
        for [code, system, name] in &self.codes {
            if random.in_100(knows) {
                let name = if random.in_100(50) { swapped_case(random, name) } else { name.clone() };
                codes.push(vec![code.clone(), system.clone(), name]);
            }
            if random.in_100(10) {
                let near = pools::value(random, "code", "code").replace(['\t', '\r', '\n'], "?") + "?";
                let mut row = vec![code.clone(), system.clone(), name.clone()];
                row[random.below(3)] = near;
                codes.push(row);
            }
        }
        let mut register = Vec::new();
        for firm in &self.firms {
            if random.in_100(knows) {
                register.push(firm.to_vec());
            }
            if random.in_100(10) {
                register.push(vec![firm[0].clone(), random.pick(pools::NAMES).to_string()]);
            }
        }
        let mut history = Vec::new();
        for _ in 0..random.pick(&[0, 0, 0, 1, 2, 4]) {
            history.push(self.past(random));
        }
        let mut sections = [codes, register, history];
        if random.below(CROWDED) == 0 {
            let size = 300_000 + random.below(500_000);
            self.crowd(random, &mut sections, size);
        }
        let mut bytes = Vec::new();
        for section in &mut sections {
            random.shuffle(section);
            write_section(section, &mut bytes);
        }
        bytes
    }

    /// Adds rows that have some fields of the draft, until there are so many bytes of them: enough for the product to look
    /// them up otherwise than by a walk along all rows.
    fn crowd(&self, random: &mut Random, sections: &mut [Vec<Vec<String>>; 3], size: usize) {
        let mut added = 0;
        while added < size {
            let mut section = random.below(3);
            let mut row = match section {
                0 if !self.codes.is_empty() => self.codes[random.below(self.codes.len())].to_vec(),
                1 if !self.firms.is_empty() => self.firms[random.below(self.firms.len())].to_vec(),
                _ => {
                    section = 2;
                    vec![self.kind.to_string(), self.set.clone(), self.version.to_string(), random.guid(), self.key.clone()]
                }
            };
            // Each row is one of the draft's, with some of its fields replaced; a history's version stays a number.
            for (at, field) in row.iter_mut().enumerate() {
                if (at != 2 || section == 0) && random.in_100(60) {
                    *field = random.digits(9);
                }
            }
            added += row.iter().map(|field| field.len() + 1).sum::<usize>();
            sections[section].push(row);
        }
    }

    /// A row of the history, each field that of the draft or another.
    fn past(&self, random: &mut Random) -> Vec<String> {
        let other_kind = random.pick(&["51725-0", "51726-8", "34391-3"]).to_string();
        let kind = if random.in_100(70) { self.kind.to_string() } else { other_kind };
        let set = if random.in_100(50) { self.set.clone() } else { random.guid() };
        let version = (self.version + random.below(4) as u32).saturating_sub(2).max(1);
        let version = match random.below(100) {
            0 => random.pick(&["0", "000000000", "0000000001", "1000000000", "1a", "+1", "-1", " 1"]).to_string(),
            1..15 => format!("{version:09}"),
            _ => version.to_string(),
        };
        let document = if random.in_100(15) { self.document.clone() } else { random.guid() };
        let key = if random.in_100(60) { self.key.clone() } else { random.digits(4) };
        vec![kind, set, version, document, key]
    }
}

fn swapped_case(random: &mut Random, name: &str) -> String {
    let swap = |c: char| if c.is_ascii_lowercase() { c.to_ascii_uppercase() } else { c.to_ascii_lowercase() };
    name.chars().map(|c| if random.in_100(40) { swap(c) } else { c }).collect()
}

pub fn write_section(rows: &[Vec<String>], bytes: &mut Vec<u8>) {
    bytes.extend(format!("{}\n", rows.len()).bytes());
    for row in rows {
        bytes.extend(row.join("\t").bytes());
        bytes.push(b'\n');
    }
}
