//! Holds the reference and the product against the vectors.
//!
//! `vectors FOLDER MERGES` reads `expected.txt`, `own.txt` where it is there, and the documents and tables of the folder, and the file of
//! merges, and says which answers of either differ from the printed ones.

use std::fmt::Write;
use std::path::Path;
use std::process::ExitCode;

/// The rooms of the small program whose answers the vectors print.
const BYTES: usize = 65_536;
const RECORDS: usize = 1_024;

fn main() -> ExitCode {
    let (Some(folder), Some(merges)) = (std::env::args().nth(1), std::env::args().nth(2)) else {
        eprintln!("usage: vectors FOLDER MERGES");
        return ExitCode::from(2);
    };
    let folder = Path::new(&folder);
    let read = |name: &str| std::fs::read(folder.join(name)).unwrap_or_else(|error| panic!("{name}: {error}"));
    let mut expected = read("expected.txt");
    if folder.join("own.txt").exists() {
        expected.extend(read("own.txt"));
    }
    let expected = String::from_utf8(expected).expect("a text file");
    let merges = std::fs::read_to_string(&merges).unwrap_or_else(|error| panic!("{merges}: {error}"));

    let sides = [
        Side { name: "reference", check: reference::check, merge: reference::merge },
        Side { name: "product", check: binding::check, merge: binding::merge },
    ];
    let mut differ = 0;
    for side in &sides {
        let mut tally = Tally::default();
        for block in expected.split("== ").skip(1) {
            let (name, expected) = block.split_once('\n').expect("a name on a line of its own");
            let answer = side.printed_check(&read(&format!("{name}.xml")), &read(&format!("{name}.tables")));
            tally.compare(name, &answer, expected);
        }
        println!("vectors, {}: {} documents agree, {} differ", side.name, tally.agree, tally.differ);
        differ += tally.differ;

        tally = Tally::default();
        for (number, block) in merges.split("\n\n").filter(|block| !block.trim().is_empty()).enumerate() {
            let mut lines = block.trim_start_matches('\n').splitn(4, '\n');
            let mut numbers = |key: &str| -> Vec<u32> {
                let line = lines.next().and_then(|line| line.strip_prefix(key)).expect("a line for each of a, b and room");
                line.split_whitespace().map(|word| word.parse().expect("a number")).collect()
            };
            let (a, b, room) = (numbers("a"), numbers("b"), numbers("room")[0] as usize);
            let answer = side.printed_merge(&a, &b, room);
            tally.compare(&format!("merge {number}"), &answer, lines.next().expect("an answer"));
        }
        println!("vectors, {}: {} merges agree, {} differ", side.name, tally.agree, tally.differ);
        differ += tally.differ;
    }
    ExitCode::from(u8::from(differ > 0))
}

#[derive(Default)]
struct Tally {
    agree: usize,
    differ: usize,
}

impl Tally {
    fn compare(&mut self, name: &str, answer: &str, expected: &str) {
        if answer.trim_end() == expected.trim_end() {
            self.agree += 1;
        } else {
            self.differ += 1;
            println!("{name}:\n  printed in the vectors:\n{expected}  given:\n{answer}");
        }
    }
}

/// One of the two implementations.
struct Side {
    name: &'static str,
    check: fn(&[u8], &[u8], &mut [u8], &mut [u32], &mut [u32]) -> (u32, u32),
    merge: fn(&[u32], &[u32], &mut [u32]) -> (u32, u32),
}

impl Side {
    /// What the small program prints for a document and a tables file.
    fn printed_check(&self, document: &[u8], tables: &[u8]) -> String {
        for (bytes, number) in [(document, 1), (tables, 2)] {
            if bytes.len() > BYTES {
                return format!("refused {number} at {BYTES}\n");
            }
        }
        let mut elements = vec![0; RECORDS * reference::ROW];
        let mut findings = vec![0; RECORDS * reference::FINDING];
        let answer = (self.check)(document, tables, &mut [0; reference::SCRATCH], &mut elements, &mut findings);
        printed(answer, &findings)
    }

    fn printed_merge(&self, a: &[u32], b: &[u32], room: usize) -> String {
        let mut out = vec![0; room * reference::FINDING];
        let answer = (self.merge)(a, b, &mut out);
        printed(answer, &out)
    }
}

fn printed((refusal, value): (u32, u32), list: &[u32]) -> String {
    if refusal > 0 {
        return format!("refused {refusal} at {value}\n");
    }
    let mut text = format!("findings {value}\n");
    for record in list.chunks(reference::FINDING).take(value as usize) {
        writeln!(text, "{} {} {}", record[0], record[1], record[2]).expect("a string takes all");
    }
    text
}
