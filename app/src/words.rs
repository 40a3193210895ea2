//! What each procedure and refusal says in words: `words.json`, which is part of the program. docs/PROCEDURES.md is checked against it.

use crate::engine::{Refusal, LENGTH_LIMIT};
use serde::Deserialize;
use std::sync::OnceLock;

#[derive(Deserialize)]
pub struct Procedure {
    pub number: u32,
    /// What is wrong where it is broken, for one line.
    pub short: String,
    /// What it asks.
    pub asks: String,
    /// What to do where it is broken.
    pub todo: String,
    /// The sections of 002 (the validation procedures) and 000 (the implementation guide) that print it.
    pub printed: String,
    /// The element at which it is found.
    pub found: String,
    /// The table that it asks.
    pub table: String,
    /// When a merge of two lists keeps it.
    pub merge: String,
}

#[derive(Deserialize)]
pub struct RefusalWords {
    pub number: u32,
    /// What is wrong, for one line.
    pub short: String,
    /// What it says.
    pub says: String,
    /// What to do about it.
    pub todo: String,
    /// What the number is that it returns.
    pub value: String,
}

#[derive(Deserialize)]
pub struct Words {
    pub procedures: Vec<Procedure>,
    pub refusals: Vec<RefusalWords>,
}

/// All of them. The file is part of the program, and a test reads it: that it cannot be read cannot come to a user.
pub fn all() -> &'static Words {
    static WORDS: OnceLock<Words> = OnceLock::new();
    WORDS.get_or_init(|| serde_json::from_str(include_str!("../words.json")).expect("words.json is read by a test"))
}

pub fn procedure(number: u32) -> Option<&'static Procedure> {
    all().procedures.iter().find(|procedure| procedure.number == number)
}

pub fn refusal(number: u32) -> Option<&'static RefusalWords> {
    all().refusals.iter().find(|refusal| refusal.number == number)
}

/// Whether what a refusal returns is a place in the document.
pub fn is_in_document(refusal: Refusal) -> bool {
    matches!(refusal.number, 5..=8 | 10)
}

/// What is wrong with a draft of this length that is refused, for one line.
pub fn refused(refused: Refusal, length: usize) -> String {
    let short = refusal(refused.number).map_or("", |words| &words.short);
    match refused.number {
        1 => format!("{short}: {} bytes, over the limit of {LENGTH_LIMIT}", refused.place),
        7 if refused.place == length => format!("{short}: at its end elements are left open, or there is no root"),
        _ => short.to_string(),
    }
}

#[cfg(test)]
mod tests {
    use super::*;

    #[test]
    fn every_procedure_and_refusal_has_its_words() {
        let words = all();
        assert!(words.procedures.iter().map(|words| words.number).eq(1..=38));
        assert!(words.refusals.iter().map(|words| words.number).eq(1..=13));
        for words in &words.procedures {
            for text in [&words.short, &words.asks, &words.todo, &words.printed, &words.found, &words.table, &words.merge] {
                assert!(!text.is_empty() && !text.contains('\n'), "procedure {}", words.number);
            }
        }
        for words in &words.refusals {
            for text in [&words.short, &words.says, &words.todo, &words.value] {
                assert!(!text.is_empty() && !text.contains('\n'), "refusal {}", words.number);
            }
        }
    }
}
