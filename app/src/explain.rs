//! `explain`: a procedure or a refusal in words.

use crate::text::{complain, shown};
use crate::words::{self, Procedure, RefusalWords};
use crate::Status;
use std::io::{self, Write};

/// Where the text behind a label begins, and how wide it is.
const INDENT: usize = 12;
const WIDTH: usize = 100;

/// What the words behind `explain` name: nothing is all; `12` or `procedure 12` a procedure; `r7` or `refusal 7` a refusal.
enum Asked {
    All,
    Procedure(u32),
    Refusal(u32),
}

pub fn run(asked: &[String]) -> io::Result<Status> {
    let answer = match parse(asked) {
        Some(Asked::All) => Some(all()),
        Some(Asked::Procedure(number)) => words::procedure(number).map(procedure),
        Some(Asked::Refusal(number)) => words::refusal(number).map(refusal),
        None => None,
    };
    let Some(answer) = answer else {
        let asked = shown(asked.join(" ").as_bytes());
        complain(&format!("there is no `{asked}` to explain: procedures are 1 to 38, refusals r1 to r13"));
        return Ok(Status::Failed);
    };
    io::stdout().write_all(answer.as_bytes())?;
    Ok(Status::Clean)
}

fn parse(asked: &[String]) -> Option<Asked> {
    let asked: Vec<_> = asked.iter().map(String::as_str).collect();
    let number = |digits: &str| if digits.starts_with('+') { None } else { digits.parse().ok() };
    match asked.as_slice() {
        [] => Some(Asked::All),
        ["procedure", digits] => number(digits).map(Asked::Procedure),
        ["refusal", digits] => number(digits).map(Asked::Refusal),
        [word] => match word.strip_prefix(['r', 'R']) {
            Some(digits) => number(digits).map(Asked::Refusal),
            None => number(word).map(Asked::Procedure),
        },
        _ => None,
    }
}

/// One line for each.
fn all() -> String {
    let words = words::all();
    let procedures = words.procedures.iter().map(|procedure| format!("{:>3}  {}\n", procedure.number, procedure.asks));
    let refusals = words.refusals.iter().map(|refusal| format!("{:>3}  {}\n", format!("r{}", refusal.number), refusal.says));
    procedures.chain(refusals).collect()
}

fn procedure(words: &Procedure) -> String {
    let lines = [
        ("What to do", words.todo.clone()),
        ("Found at", words.found.clone()),
        ("Table", words.table.clone()),
        ("Merge", format!("keeps it where {}", words.merge)),
        ("Printed in", printed(&words.printed)),
    ];
    described(&format!("Procedure {}", words.number), &words.asks, &lines)
}

fn refusal(words: &RefusalWords) -> String {
    let lines = [("What to do", words.todo.clone()), ("Returns", words.value.clone())];
    described(&format!("Refusal {}", words.number), &words.says, &lines)
}

fn described(title: &str, says: &str, lines: &[(&str, String)]) -> String {
    let lines: String = lines.iter().map(|(label, text)| format!("  {label:<INDENT$}{}\n", wrapped(text))).collect();
    format!("{title}\n\n  {says}\n\n{lines}")
}

/// A text in lines of at most `WIDTH` characters, or one word, which begin below each other.
fn wrapped(text: &str) -> String {
    let mut lines = vec![String::new()];
    for word in text.split(' ') {
        match lines.last_mut() {
            Some(line) if !line.is_empty() && line.len() + word.len() < WIDTH => {
                line.push(' ');
                line.push_str(word);
            }
            Some(line) if line.is_empty() => line.push_str(word),
            _ => lines.push(word.to_string()),
        }
    }
    lines.join(&format!("\n{:INDENT$}  ", ""))
}

/// `002 1.1, 1.3; 000 2.1.1.2` with the names of the two documents.
fn printed(sections: &str) -> String {
    let named = sections.split("; ").map(|part| match part.split_once(' ') {
        Some(("002", sections)) => format!("the validation procedures (002) {sections}"),
        Some(("000", sections)) => format!("the implementation guide (000) {sections}"),
        _ => part.to_string(),
    });
    named.collect::<Vec<_>>().join("; ")
}
