//! Made-up nights, from the harness's generator, with what its reference finds of each draft.
//!
//! `nights FIRST AFTER FOLDER` makes those of the seeds from FIRST to before AFTER, each in a folder of its own:
//!
//! - `drafts/`, `tables.txt`, and files that come later: `1.later`, `2.later`, and so on;
//! - `0.expected` for the night, `1.expected` after the first of these, and so on: `accepted` or `refused`, which the file is, and a line for each
//!   draft, its name and its findings or its refusal;
//! - `changed/` with one draft that is another after all of them, and `changed.expected`.

use drafts::random::Random;
use reference::tables::Tables;
use reference::FINDING;
use std::path::{Path, PathBuf};
use std::process::ExitCode;
use std::{fs, io};

/// The limits of document 01, and as much room as any document within them needs.
const LENGTH: usize = 1_048_576;
const ROWS: usize = 65_535;
const ELEMENTS: usize = 16_384;
const PROCEDURES: usize = 38;

fn main() -> ExitCode {
    let arguments: Vec<_> = std::env::args().skip(1).collect();
    let number = |at: usize| arguments.get(at).and_then(|argument| argument.parse::<u64>().ok());
    let (Some(first), Some(after), Some(folder)) = (number(0), number(1), arguments.get(2)) else {
        eprintln!("usage: nights FIRST AFTER FOLDER");
        return ExitCode::from(3);
    };
    for seed in first..after {
        if let Err(error) = write_night(seed, &PathBuf::from(folder).join(seed.to_string())) {
            eprintln!("night {seed}: {error}");
            return ExitCode::from(3);
        }
    }
    ExitCode::SUCCESS
}

fn write_night(seed: u64, folder: &Path) -> io::Result<()> {
    let random = &mut Random::new(!seed);
    let count = 1 + random.below(6);
    let cases: Vec<_> = (0..=count as u64).map(|number| drafts::case(seed * 1_000 + number)).collect();
    let (others, cases) = cases.split_at(1);

    // The night's tables know something of each draft, and so do the files that come later, each of some drafts. A refused file comes alone.
    let mut tables = b"0\n0\n0\n".to_vec();
    let mut later = vec![tables.clone(); random.below(4)];
    let mut refused = Vec::new();
    for case in cases {
        tables = joined(&tables, &case.tables).unwrap_or(tables);
        let at = random.below(later.len() + 1);
        match (Tables::parse(&case.more_tables), later.get_mut(at)) {
            (Ok(_), Some(file)) => *file = joined(file, &case.more_tables).unwrap_or_else(|| file.clone()),
            (Ok(_), None) => {}
            (Err(_), _) => refused.push(case.more_tables.clone()),
        }
    }
    for file in refused {
        later.insert(random.below(later.len() + 1), file);
    }

    let mut documents: Vec<_> = cases.iter().map(|case| case.document.clone()).collect();
    for part in ["drafts", "changed"] {
        fs::create_dir_all(folder.join(part))?;
    }
    for (number, document) in documents.iter().enumerate() {
        fs::write(folder.join("drafts").join(name(number)), document)?;
    }
    fs::write(folder.join("tables.txt"), &tables)?;
    fs::write(folder.join("0.expected"), expected(true, &documents, &tables))?;
    for (number, file) in later.iter().enumerate() {
        let both = joined(&tables, file);
        let accepted = both.is_some();
        tables = both.unwrap_or(tables);
        fs::write(folder.join(format!("{}.later", number + 1)), file)?;
        fs::write(folder.join(format!("{}.expected", number + 1)), expected(accepted, &documents, &tables))?;
    }
    let changed = random.below(documents.len());
    documents[changed] = others[0].document.clone();
    fs::write(folder.join("changed").join(name(changed)), &documents[changed])?;
    fs::write(folder.join("changed.expected"), expected(true, &documents, &tables))
}

fn name(number: usize) -> String {
    format!("{number}.xml")
}

/// The file that joins two, if both are accepted and it is within the limits.
fn joined(a: &[u8], b: &[u8]) -> Option<Vec<u8>> {
    let both = Tables::parse(a).ok()?.join(&Tables::parse(b).ok()?);
    let within = [&both.codes, &both.register, &both.history].iter().all(|rows| rows.len() <= ROWS);
    let bytes = both.render();
    (within && bytes.len() <= LENGTH).then_some(bytes)
}

fn expected(accepted: bool, documents: &[Vec<u8>], tables: &[u8]) -> String {
    let mut text = String::from(if accepted { "accepted\n" } else { "refused\n" });
    for (number, document) in documents.iter().enumerate() {
        text += &format!("{} {}\n", name(number), found(document, tables));
    }
    text
}

/// The reference's answer: `refused 7 212`, or `found` and a triple for each finding.
fn found(document: &[u8], tables: &[u8]) -> String {
    let mut scratch = vec![0; reference::SCRATCH];
    let mut elements = vec![0; ELEMENTS * reference::ROW];
    let mut list = vec![0; ELEMENTS * PROCEDURES * FINDING];
    match reference::check(document, tables, &mut scratch, &mut elements, &mut list) {
        (0, count) => {
            let triples = list.chunks(FINDING).take(count as usize).map(|record| format!(" {},{},{}", record[0], record[1], record[2]));
            format!("found{}", triples.collect::<String>())
        }
        (refusal, value) => format!("refused {refusal} {value}"),
    }
}
