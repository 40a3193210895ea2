//! The tables file.

use crate::grammar::limits;

/// The rows of each section, each row its fields.
#[derive(Clone, Debug, Default, PartialEq, Eq)]
pub struct Tables<'a> {
    pub codes: Vec<Vec<&'a [u8]>>,
    pub register: Vec<Vec<&'a [u8]>>,
    pub history: Vec<Vec<&'a [u8]>>,
}

/// Fields of a row in each section, and the most rows that a section has.
const CODE_FIELDS: usize = 3;
const REGISTER_FIELDS: usize = 2;
const HISTORY_FIELDS: usize = 5;
const ROWS: usize = 65_535;
const VERSION_FIELD: usize = 2;

impl<'a> Tables<'a> {
    /// The rows of a tables file, or the place of refusal 4.
    pub fn parse(bytes: &'a [u8]) -> Result<Tables<'a>, usize> {
        let mut lines = Lines { bytes, at: 0 };
        let tables = Tables {
            codes: lines.section(CODE_FIELDS)?,
            register: lines.section(REGISTER_FIELDS)?,
            history: lines.section(HISTORY_FIELDS)?,
        };
        if lines.at < bytes.len() {
            return Err(lines.at);
        }
        Ok(tables)
    }

    /// The bytes of the file that has these rows.
    pub fn render(&self) -> Vec<u8> {
        let mut bytes = Vec::new();
        for section in [&self.codes, &self.register, &self.history] {
            bytes.extend(format!("{}\n", section.len()).bytes());
            for row in section {
                bytes.extend(row.join(&b'\t'));
                bytes.push(b'\n');
            }
        }
        bytes
    }

    /// In each section the rows of this file before those of the other.
    pub fn join(&self, other: &Tables<'a>) -> Tables<'a> {
        Tables {
            codes: [self.codes.as_slice(), &other.codes].concat(),
            register: [self.register.as_slice(), &other.register].concat(),
            history: [self.history.as_slice(), &other.history].concat(),
        }
    }

    /// Whether the code list has a row of these, ASCII case ignored in the display name.
    pub fn has_code(&self, code: &str, system: &str, display_name: &str) -> bool {
        self.codes.iter().any(|row| {
            row[0] == code.as_bytes() && row[1] == system.as_bytes() && row[2].eq_ignore_ascii_case(display_name.as_bytes())
        })
    }

    pub fn has_registered(&self, duns: &str, name: &str) -> bool {
        self.register.iter().any(|row| row[0] == duns.as_bytes() && row[1] == name.as_bytes())
    }

    pub fn past(&self) -> impl Iterator<Item = Past<'a>> + '_ {
        self.history.iter().map(|row| Past {
            kind: row[0],
            set: row[1],
            version: version_of(row[2]).expect("versions are looked at when a row is read"),
            document: row[3],
            key: row[4],
        })
    }
}

/// A row of the history.
pub struct Past<'a> {
    pub kind: &'a [u8],
    pub set: &'a [u8],
    pub version: u32,
    pub document: &'a [u8],
    pub key: &'a [u8],
}

/// The number that 1 to 9 digits give, if it is above 0.
pub fn version_of(digits: &[u8]) -> Option<u32> {
    if digits.len() > 9 || !digits.iter().all(u8::is_ascii_digit) {
        return None;
    }
    std::str::from_utf8(digits).ok()?.parse().ok().filter(|&version| version > 0)
}

/// What is left of the file.
struct Lines<'a> {
    bytes: &'a [u8],
    at: usize,
}

impl<'a> Lines<'a> {
    /// Reads a line that `good` makes something of, or gives the place of refusal 4.
    fn line<T>(&mut self, good: impl Fn(&'a [u8]) -> Option<T>) -> Result<T, usize> {
        let rest = &self.bytes[self.at..];
        let length = rest.iter().position(|&b| b == b'\n').ok_or(self.bytes.len())?;
        let made = good(&rest[..length]).ok_or(self.at)?;
        self.at += length + 1;
        Ok(made)
    }

    fn section(&mut self, fields: usize) -> Result<Vec<Vec<&'a [u8]>>, usize> {
        let count = self.line(count_of)?;
        (0..count).map(|_| self.line(|row| fields_of(row, fields))).collect()
    }
}

fn count_of(line: &[u8]) -> Option<usize> {
    let count: usize = std::str::from_utf8(line).ok()?.parse().ok()?;
    // Writing the number again shows up a sign or a leading zero.
    (count <= ROWS && count.to_string().as_bytes() == line).then_some(count)
}

fn fields_of(row: &[u8], fields: usize) -> Option<Vec<&[u8]>> {
    if row.len() > limits::VALUE || row.contains(&b'\r') {
        return None;
    }
    let found: Vec<_> = row.split(|&b| b == b'\t').collect();
    let bad_version = fields == HISTORY_FIELDS && found.len() == fields && version_of(found[VERSION_FIELD]).is_none();
    (found.len() == fields && !found.iter().any(|field| field.is_empty()) && !bad_version).then_some(found)
}
