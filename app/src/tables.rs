//! Tables files: which rule a refused one breaks, in words, and the join of two. Whether a file is accepted, the proved check says.

use crate::engine::{Engine, Refusal, LENGTH_LIMIT};
use crate::files::{self, Input};
use crate::text::{complain, counted, shown};
use crate::Status;
use std::fmt;
use std::io::{self, Write};
use std::os::unix::ffi::OsStrExt;
use std::path::{Path, PathBuf};

/// The most rows that a section has, and the most bytes before the line feed of a row.
const ROWS_LIMIT: usize = 65_535;
const ROW_LIMIT: usize = 4_096;

/// The sections in their order: what a row is called, and how many fields it has.
const SECTIONS: [(&str, usize); 3] = [("code list", 3), ("register", 2), ("history", 5)];
const HISTORY: usize = 2;
const VERSION_FIELD: usize = 2;

/// Why a tables file is refused: its line, from 1, where it is one line's fault, and the rule that it breaks.
#[derive(Debug, PartialEq, Eq)]
pub struct TablesFault {
    pub refusal: Refusal,
    pub line: Option<usize>,
    pub words: String,
}

impl fmt::Display for TablesFault {
    /// As it stands behind the file's name.
    fn fmt(&self, text: &mut fmt::Formatter) -> fmt::Result {
        match self.line {
            Some(line) => write!(text, ":{line}: {}", self.words),
            None => write!(text, ": {}", self.words),
        }
    }
}

/// A document that is judged only to see whether the tables are accepted.
const SMALL: &[u8] = b"<a/>";

/// Whether the tables are accepted.
pub fn check(tables: &[u8], engine: &mut Engine) -> Result<(), TablesFault> {
    engine.check(SMALL, tables).map(|_| ()).map_err(|refusal| fault_of(refusal, tables))
}

/// Why a tables file cannot be used.
pub enum Rejected {
    Unread(io::Error),
    Refused(TablesFault),
}

impl Rejected {
    /// Says it in one line, and gives the status.
    pub fn told(&self, path: &Path) -> Status {
        let name = shown(path.as_os_str().as_bytes());
        match self {
            Rejected::Unread(why) => {
                complain(&format!("{name}: cannot be read: {why}"));
                Status::Failed
            }
            Rejected::Refused(fault) => {
                complain(&format!("{name}{fault}"));
                Status::Refused
            }
        }
    }
}

/// The bytes of a tables file that is accepted.
pub fn read(path: &Path, engine: &mut Engine) -> Result<Vec<u8>, Rejected> {
    let tables = files::read(path).map_err(Rejected::Unread)?;
    match files::judge(engine, &Input { bytes: SMALL.to_vec(), length: SMALL.len() }, &tables) {
        Ok(_) => Ok(tables.bytes),
        Err(refusal) => Err(Rejected::Refused(fault_of(refusal, &tables.bytes))),
    }
}

/// The same; where there are none, one line says why.
pub fn read_accepted(path: &Path, engine: &mut Engine) -> Result<Vec<u8>, Status> {
    read(path, engine).map_err(|rejected| rejected.told(path))
}

fn fault_of(refusal: Refusal, tables: &[u8]) -> TablesFault {
    if refusal.number == 2 {
        let words = format!("the tables have {} bytes, over the limit of {LENGTH_LIMIT}", refusal.place);
        return TablesFault { refusal, line: None, words };
    }
    let (line, words) = fault_at(tables, refusal.place);
    TablesFault { refusal, line: Some(line), words }
}

/// The line that starts at the place of refusal 4, or lacks its line feed there, with the rule that it breaks.
fn fault_at(tables: &[u8], place: usize) -> (usize, String) {
    let mut lines = tables.split_inclusive(|&byte| byte == b'\n').enumerate();
    let mut start = 0;
    // The lines before the place are good, so each count is one.
    for (section, &(name, fields)) in SECTIONS.iter().enumerate() {
        let mut due = None;
        while due != Some(0) {
            let Some((number, line)) = lines.next() else {
                let missing = match due {
                    None => format!("the count of the {name}"),
                    Some(rows) => counted(rows, &format!("more {name} row")),
                };
                return (tables.iter().filter(|&&byte| byte == b'\n').count() + 1, format!("the file ends where {missing} should follow"));
            };
            let Some(text) = line.strip_suffix(b"\n") else {
                return (number + 1, "the line does not end in a line feed".to_string());
            };
            if start == place {
                return (number + 1, if due.is_none() { bad_count(name) } else { bad_row(text, section, name, fields) });
            }
            start += line.len();
            due = Some(match due {
                None => count_of(text),
                Some(rows) => rows - 1,
            });
        }
    }
    (lines.next().map_or(0, |(number, _)| number) + 1, "something follows the last section".to_string())
}

fn bad_count(name: &str) -> String {
    format!("the count of the {name} is not a number from 0 to {ROWS_LIMIT} without leading zeros")
}

fn bad_row(row: &[u8], section: usize, name: &str, fields: usize) -> String {
    let found: Vec<_> = row.split(|&byte| byte == b'\t').collect();
    if row.len() > ROW_LIMIT {
        format!("a {name} row has {} bytes, over the limit of {ROW_LIMIT}", row.len())
    } else if row.contains(&b'\r') {
        format!("a {name} row has a carriage return")
    } else if found.len() != fields {
        format!("a {name} row has {}, not {fields}", counted(found.len(), "field"))
    } else if let Some(empty) = found.iter().position(|field| field.is_empty()) {
        format!("field {} of a {name} row is empty", empty + 1)
    } else if section == HISTORY {
        format!("field {} of a {name} row, the version, is not 1 to 9 digits above 0", VERSION_FIELD + 1)
    } else {
        format!("a {name} row breaks a rule")
    }
}

fn count_of(line: &[u8]) -> usize {
    std::str::from_utf8(line).ok().and_then(|digits| digits.parse().ok()).unwrap_or(0)
}

/// The file that has, in each section, the first file's rows before the second's. Both are accepted.
pub fn join(a: &[u8], b: &[u8]) -> Result<Vec<u8>, String> {
    let (mut a, mut b) = (a, b);
    let mut joined = Vec::with_capacity(a.len() + b.len());
    for (name, _) in SECTIONS {
        let (a_count, a_rows) = section(&mut a);
        let (b_count, b_rows) = section(&mut b);
        let count = a_count + b_count;
        if count > ROWS_LIMIT {
            return Err(format!("the {name} would have {count} rows, over the limit of {ROWS_LIMIT}"));
        }
        joined.extend(format!("{count}\n").bytes());
        joined.extend(a_rows);
        joined.extend(b_rows);
    }
    if joined.len() > LENGTH_LIMIT {
        return Err(format!("the file would have {} bytes, over the limit of {LENGTH_LIMIT}", joined.len()));
    }
    Ok(joined)
}

/// Takes a section from the front of an accepted file: its count, and the lines of its rows.
fn section<'a>(rest: &mut &'a [u8]) -> (usize, &'a [u8]) {
    let count = count_of(lines_from(rest, 1).trim_ascii_end());
    (count, lines_from(rest, count))
}

/// Takes so many lines from the front.
fn lines_from<'a>(rest: &mut &'a [u8], count: usize) -> &'a [u8] {
    let length = rest.split_inclusive(|&byte| byte == b'\n').take(count).map(<[u8]>::len).sum();
    let (lines, after) = rest.split_at(length);
    *rest = after;
    lines
}

/// `tables check T`: one line, with how many rows each section has.
pub fn run_check(path: &Path) -> io::Result<Status> {
    let tables = match read_accepted(path, &mut Engine::new()) {
        Ok(tables) => tables,
        Err(status) => return Ok(status),
    };
    let mut rest = tables.as_slice();
    let rows = SECTIONS.map(|(name, _)| counted(section(&mut rest).0, &format!("{name} row")));
    writeln!(io::stdout(), "{}: accepted: {}", shown(path.as_os_str().as_bytes()), rows.join(", "))?;
    Ok(Status::Clean)
}

/// `tables join A B`: the joined file, to a file or to standard output.
pub fn run_join(a: &Path, b: &Path, out: Option<&PathBuf>) -> io::Result<Status> {
    let mut engine = Engine::new();
    let (a, b) = match (read_accepted(a, &mut engine), read_accepted(b, &mut engine)) {
        (Ok(a), Ok(b)) => (a, b),
        (a, b) => return Ok(a.err().max(b.err()).unwrap_or(Status::Failed)),
    };
    // The join is written by the program, so the proved check is asked of it too.
    let joined = match join(&a, &b).and_then(|joined| check(&joined, &mut engine).map_err(|fault| fault.words).map(|()| joined)) {
        Ok(joined) => joined,
        Err(why) => {
            complain(&format!("not joined: {why}"));
            return Ok(Status::Refused);
        }
    };
    match out {
        Some(path) => {
            if let Err(why) = files::write_whole(path, &joined) {
                complain(&format!("{}: cannot be written: {why}", shown(path.as_os_str().as_bytes())));
                return Ok(Status::Failed);
            }
        }
        None => io::stdout().write_all(&joined)?,
    }
    Ok(Status::Clean)
}

#[cfg(test)]
mod tests {
    use super::*;
    use crate::engine::on_stack;

    /// The line and the words of a refused file.
    fn fault(tables: &[u8]) -> (Option<usize>, String) {
        let fault = on_stack(|| check(tables, &mut Engine::new())).unwrap().unwrap().unwrap_err();
        (fault.line, fault.words)
    }

    #[test]
    fn each_rule_has_its_words_and_its_line() {
        let row = |length: usize| [b"1\nC\tS\t".as_slice(), &vec![b'n'; length - 4], b"\n0\n0\n"].concat();
        let cases: [(&[u8], usize, &str); 18] = [
            (b"", 1, "the file ends where the count of the code list should follow"),
            (b"0\n", 2, "the file ends where the count of the register should follow"),
            (b"0\n0\n2\nt\ts\t1\td\tk\n", 5, "the file ends where 1 more history row should follow"),
            (b"3\nC\tS\tn\n", 3, "the file ends where 2 more code list rows should follow"),
            (b"0\n0\n0", 3, "the line does not end in a line feed"),
            (b"0\n1\n123\tName", 3, "the line does not end in a line feed"),
            (b"00\n0\n0\n", 1, "the count of the code list is not a number from 0 to 65535 without leading zeros"),
            (b"0\n65536\n0\n", 2, "the count of the register is not a number from 0 to 65535 without leading zeros"),
            (b"0\n0\n-1\n", 3, "the count of the history is not a number from 0 to 65535 without leading zeros"),
            (b"0\n0\n0\r\n", 3, "the count of the history is not a number from 0 to 65535 without leading zeros"),
            (b"0\n0\n1\nt\ts\t1\td\n", 4, "a history row has 4 fields, not 5"),
            (b"0\n1\n123\n0\n", 3, "a register row has 1 field, not 2"),
            (b"1\nC\t\tn\n0\n0\n", 2, "field 2 of a code list row is empty"),
            (b"1\nC\tS\tn\r\n0\n0\n", 2, "a code list row has a carriage return"),
            (b"0\n0\n1\nt\ts\t0\td\tk\n", 4, "field 3 of a history row, the version, is not 1 to 9 digits above 0"),
            (b"0\n0\n1\nt\ts\t1234567890\td\tk\n", 4, "field 3 of a history row, the version, is not 1 to 9 digits above 0"),
            (b"0\n0\n0\n0\n", 4, "something follows the last section"),
            (b"0\n0\n0\nx", 4, "something follows the last section"),
        ];
        for (tables, line, words) in cases {
            assert_eq!(fault(tables), (Some(line), words.to_string()), "{}", shown(tables));
        }
        assert_eq!(fault(&row(4_097)), (Some(2), "a code list row has 4097 bytes, over the limit of 4096".to_string()));
        assert_eq!(on_stack(|| check(&row(4_096), &mut Engine::new())).unwrap(), Some(Ok(())));
        let long = vec![b'0'; LENGTH_LIMIT + 1];
        assert_eq!(fault(&long), (None, "the tables have 1048577 bytes, over the limit of 1048576".to_string()));
    }

    #[test]
    fn a_join_has_the_rows_of_the_first_before_those_of_the_second() {
        let a = b"1\na\ts\tn\n0\n2\nt\ts\t1\td\tk\nt\ts\t2\te\tk\n";
        let b = b"2\nb\ts\tn\na\ts\tn\n1\n1\tName \n1\nt\tz\t007\td\tk\n";
        let joined = b"3\na\ts\tn\nb\ts\tn\na\ts\tn\n1\n1\tName \n3\nt\ts\t1\td\tk\nt\ts\t2\te\tk\nt\tz\t007\td\tk\n";
        assert_eq!(join(a, b).as_deref(), Ok(joined.as_slice()));
        let none = b"0\n0\n0\n";
        assert_eq!(join(none, none).as_deref(), Ok(none.as_slice()));
        assert_eq!(join(none, b).as_deref(), Ok(b.as_slice()));
        assert_eq!(join(b, none).as_deref(), Ok(b.as_slice()));
    }

    #[test]
    fn a_join_past_a_limit_is_refused() {
        let rows = |count: usize| format!("0\n{count}\n{}0\n", "1\t2\n".repeat(count)).into_bytes();
        assert!(join(&rows(65_000), &rows(535)).is_ok());
        let why = "the register would have 65536 rows, over the limit of 65535";
        assert_eq!(join(&rows(65_000), &rows(536)), Err(why.to_string()));

        // Two files of 256 rows of 2,048 bytes; one byte more than the limit, then just the limit.
        let file = |last: usize| {
            let row = |length: usize| format!("1\t{}\n", "n".repeat(length - 3));
            format!("0\n256\n{}{}0\n", row(2_048).repeat(255), row(last)).into_bytes()
        };
        let joined_to = |total: usize| join(&file(2_048), &file(total - 511 * 2_048 - "0\n512\n0\n".len()));
        let why = "the file would have 1048577 bytes, over the limit of 1048576";
        assert_eq!(joined_to(LENGTH_LIMIT + 1), Err(why.to_string()));
        assert_eq!(joined_to(LENGTH_LIMIT).map(|joined| joined.len()), Ok(LENGTH_LIMIT));
    }
}
