//! The forms in which `check` prints its answers.

mod csv;
mod human;
mod json;
mod plain;
mod sarif;

use crate::check::{Draft, Summary};
use crate::element::{self, Paths};
use crate::engine::{Finding, Judged, Refusal};
use crate::text::Lines;
use crate::words::{self, Procedure};
use clap::ValueEnum;
use std::io::{self, IsTerminal};
use std::os::unix::ffi::OsStrExt;
use std::path::Path;

#[derive(Clone, Copy, PartialEq, Eq, ValueEnum)]
pub enum FormatName {
    /// For each finding a line, an excerpt with a caret and the element's path
    Human,
    /// For each finding the line alone
    Concise,
    /// Numbers alone: `findings 6` and their records, or `refused 7 at 212`
    Plain,
    /// One JSON document with everything
    Json,
    /// SARIF 2.1.0, for tools that collect findings
    Sarif,
    /// A table for a spreadsheet (RFC 4180)
    Csv,
}

/// One form. What is said of a draft is made on the thread that judged it.
pub trait Format: Sync {
    fn begin(&self) -> Vec<u8> {
        Vec::new()
    }

    fn draft(&self, draft: &Draft) -> io::Result<Vec<u8>>;

    /// Stands between what is said of two drafts, where anything is.
    fn between(&self) -> &'static [u8] {
        &[]
    }

    fn end(&self, _summary: &Summary) -> Vec<u8> {
        Vec::new()
    }
}

pub fn format(name: FormatName, tables_path: &Path, tables: &[u8], drafts: usize) -> Box<dyn Format> {
    match name {
        FormatName::Human => Box::new(human::Human { excerpts: true, colours: wants_colours() }),
        FormatName::Concise => Box::new(human::Human { excerpts: false, colours: wants_colours() }),
        FormatName::Plain => Box::new(plain::Plain { headings: drafts > 1 }),
        FormatName::Json => Box::new(json::Json::new(tables_path, tables)),
        FormatName::Sarif => Box::new(sarif::Sarif),
        FormatName::Csv => Box::new(csv::Csv),
    }
}

/// Colours only for a terminal, and none where the variable NO_COLOR says something.
fn wants_colours() -> bool {
    io::stdout().is_terminal() && std::env::var_os("NO_COLOR").is_none_or(|value| value.is_empty())
}

/// A judged document, made ready to say where its findings are.
pub struct Reading<'a> {
    document: &'a [u8],
    judged: &'a Judged,
    pub lines: Lines,
    paths: Paths<'a>,
}

/// A finding with what is said of it: its words, the lines and columns of its element's first byte and of the byte after its end, and
/// the element's path and name.
pub struct Found<'a> {
    pub finding: Finding,
    words: Option<&'static Procedure>,
    pub start: (usize, usize),
    end: (usize, usize),
    pub path: String,
    pub name: &'a str,
}

impl<'a> Reading<'a> {
    pub fn of(document: &'a [u8], judged: &'a Judged) -> Reading<'a> {
        Reading { document, judged, lines: Lines::of(document), paths: Paths::of(document, &judged.elements) }
    }

    /// The findings in their order.
    pub fn found(&self) -> impl Iterator<Item = Found<'_>> {
        self.judged.findings.iter().map(|&finding| {
            let number = element::at(&self.judged.elements, finding.first);
            Found {
                finding,
                words: words::procedure(finding.procedure),
                start: self.lines.place(self.document, finding.first as usize),
                end: self.lines.place(self.document, finding.after as usize),
                path: number.map(|number| self.paths.path(number)).unwrap_or_default(),
                name: number.map_or("", |number| self.paths.name(number)),
            }
        })
    }
}

impl Found<'_> {
    pub fn short(&self) -> &'static str {
        self.words.map_or("", |words| &words.short)
    }

    pub fn todo(&self) -> &'static str {
        self.words.map_or("", |words| &words.todo)
    }

    pub fn printed(&self) -> &'static str {
        self.words.map_or("", |words| &words.printed)
    }
}

/// The line and column of a refusal that has a place in the document.
pub fn place_of(document: &[u8], refusal: Refusal) -> Option<(usize, usize)> {
    words::is_in_document(refusal).then(|| Lines::of(document).place(document, refusal.place))
}

/// A path as a reference of RFC 3986: relative as it is relative, and every byte that is no plain character escaped.
fn uri(path: &Path) -> String {
    let bytes = path.as_os_str().as_bytes().iter();
    let escaped: String = bytes
        .map(|&byte| match byte {
            b'A'..=b'Z' | b'a'..=b'z' | b'0'..=b'9' | b'-' | b'.' | b'_' | b'~' | b'/' => char::from(byte).to_string(),
            _ => format!("%{byte:02X}"),
        })
        .collect();
    if path.is_absolute() {
        format!("file://{escaped}")
    } else {
        escaped
    }
}
