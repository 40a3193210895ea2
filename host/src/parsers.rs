//! Holds what the product takes as well formed against expat and libxml2.
//!
//! `parsers FIRST AFTER FOLDER` asks all three about the documents of those seeds. They may differ only where document
//! 01 narrows XML: each narrowing is named below, with a test of the place at which the product refused.

use reference::grammar::{self, limits, Piece};
use std::collections::BTreeMap;
use std::path::Path;
use std::process::ExitCode;

const NO_ROWS: &[u8] = b"0\n0\n0\n";

/// A document that the product refuses and a parser takes.
struct Refused<'a> {
    document: &'a [u8],
    number: u32,
    place: usize,
}

/// The narrowings of document 01. A refusal that none of them explains is a difference.
const NARROWINGS: &[(&str, fn(&Refused) -> bool)] = &[
    ("a document over length", |r| r.number == 1 && r.document.len() > limits::LENGTH),
    ("a leading byte order mark", |r| r.number == 5 && r.place == 0 && r.document.starts_with(b"\xEF\xBB\xBF")),
    ("an encoding other than UTF-8", |r| {
        (r.number == 5 || r.number == 7 && r.place == 0)
            && declared(r.document, "encoding").is_some_and(|encoding| !encoding.eq_ignore_ascii_case("UTF-8"))
    }),
    ("a version other than 1.0", |r| {
        r.number == 7 && r.place == 0 && declared(r.document, "version").is_some_and(|version| version != "1.0")
    }),
    ("a document type declaration", |r| r.number == 6 && r.piece().starts_with(b"<!DOCTYPE")),
    ("a CDATA section", |r| r.number == 6 && r.piece().starts_with(b"<![CDATA[")),
    ("a name that is not ASCII", |r| r.number == 7 && r.names().iter().any(|name| !name.is_ascii())),
    ("a colon in an element name", |r| {
        r.number == 7 && !r.piece().starts_with(b"<?") && r.names().first().is_some_and(|name| name.contains(&b':'))
    }),
    ("a name over length", |r| r.number == 8 && r.names().iter().any(|name| name.len() > limits::NAME)),
    ("too many attributes", |r| r.number == 8 && r.names().len() > 1 + limits::ATTRIBUTES),
    ("an attribute value over length", |r| {
        r.number == 8 && r.piece().split(|b| b"\"'".contains(b)).any(|value| value.len() > limits::VALUE)
    }),
    ("too many elements", |r| r.number == 8 && before(r).elements >= limits::ELEMENTS),
    ("too deep", |r| r.number == 8 && before(r).depth >= limits::DEPTH),
    ("content over length", |r| r.number == 8 && r.piece().starts_with(b"</") && r.place - before(r).last_start > limits::VALUE),
];

/// Where libxml2 takes what XML forbids; expat must refuse it too.
const LIBXML2_TAKES_TOO: &[(&str, fn(&Refused) -> bool)] = &[
    ("a NUL behind the root, read as the end", |r| {
        r.number == 5 && r.document[r.place] == 0 && xmllibs::libxml2_takes(&r.document[..r.place])
    }),
    ("a namespace declared twice, first as empty", |r| {
        let piece = String::from_utf8_lossy(r.piece());
        r.number == 7 && piece.matches("xmlns:").count() > 1 && (piece.contains("\"\"") || piece.contains("''"))
    }),
];

impl Refused<'_> {
    /// The piece of markup at the place: up to the first `>` that is not in quotes.
    fn piece(&self) -> &[u8] {
        let rest = &self.document[self.place..];
        let mut quote = None;
        for (at, &byte) in rest.iter().enumerate() {
            match (quote, byte) {
                (None, b'>') => return &rest[..=at],
                (None, b'"' | b'\'') => quote = Some(byte),
                (Some(open), _) if open == byte => quote = None,
                _ => {}
            }
        }
        rest
    }

    /// The names in the piece of markup at the place: of a tag and its attributes, or of an instruction's target.
    fn names(&self) -> Vec<Vec<u8>> {
        let piece = self.piece();
        if !piece.starts_with(b"<") || piece.starts_with(b"<!") {
            return Vec::new();
        }
        let mut quote = None;
        let unquoted = piece.iter().copied().filter(|&byte| {
            let outside = quote.is_none();
            match quote {
                None if byte == b'"' || byte == b'\'' => quote = Some(byte),
                Some(open) if open == byte => quote = None,
                _ => {}
            }
            // What closes the quotes stays, to part one attribute from the next.
            outside || quote.is_none()
        });
        let unquoted: Vec<u8> = unquoted.collect();
        let names = unquoted.split(|b| b" \t\r\n=/<>?\"'".contains(b)).filter(|name| !name.is_empty()).map(<[u8]>::to_vec);
        names.take(if piece.starts_with(b"<?") { 1 } else { usize::MAX }).collect()
    }
}

/// What the XML declaration says of a name.
fn declared<'a>(document: &'a [u8], name: &str) -> Option<&'a str> {
    let declaration = document.strip_prefix(b"<?xml")?;
    let end = declaration.windows(2).position(|pair| pair == b"?>")?;
    let (_, from) = std::str::from_utf8(&declaration[..end]).ok()?.split_once(name)?;
    let value = from.trim_start().strip_prefix('=')?.trim_start();
    let quote = value.chars().next()?;
    Some(value[1..].split_once(quote)?.0)
}

/// The elements before a place, how many of them are open there, and where the content of the last begins.
struct Before {
    elements: usize,
    depth: usize,
    last_start: usize,
}

fn before(refused: &Refused) -> Before {
    let mut before = Before { elements: 0, depth: 0, last_start: 0 };
    let Ok(text) = std::str::from_utf8(refused.document) else { return before };
    let mut at = 0;
    while at < refused.place {
        let Ok(cut) = grammar::cut(text, at) else { return before };
        match cut.piece {
            Piece::Start(tag) => {
                before.elements += 1;
                before.depth += usize::from(!tag.empty);
                before.last_start = cut.after;
            }
            Piece::End(_) => before.depth -= 1,
            Piece::Text(_) | Piece::Aside => {}
        }
        at = cut.after;
    }
    before
}

/// The product's refusal of a document for its own sake, under tables and rooms that give no other.
fn refusal<'a>(document: &'a [u8], rooms: &mut Rooms) -> Option<Refused<'a>> {
    let (number, place) =
        binding::check(document, NO_ROWS, &mut rooms.scratch, &mut rooms.elements, &mut rooms.findings);
    (number > 0).then_some(Refused { document, number, place: place as usize })
}

struct Rooms {
    scratch: Vec<u8>,
    elements: Vec<u32>,
    findings: Vec<u32>,
}

fn main() -> ExitCode {
    let arguments: Vec<String> = std::env::args().skip(1).collect();
    let number = |at: usize| arguments.get(at).and_then(|argument| argument.parse::<u64>().ok());
    let (Some(first), Some(after), Some(folder)) = (number(0), number(1), arguments.get(2)) else {
        eprintln!("usage: parsers FIRST AFTER FOLDER");
        return ExitCode::from(2);
    };
    let mut rooms = Rooms {
        scratch: vec![0; reference::SCRATCH],
        elements: vec![0; limits::ELEMENTS * reference::ROW],
        findings: vec![0; limits::ELEMENTS * 38 * reference::FINDING],
    };
    let mut explained: BTreeMap<String, u64> = BTreeMap::new();
    let (mut taken, mut differ) = (0, 0);
    for seed in first..after {
        let document = drafts::document_of(seed);
        let refused = refusal(&document, &mut rooms);
        taken += u64::from(refused.is_none());
        let by_expat = xmllibs::expat_takes(&document);
        let by_libxml2 = xmllibs::libxml2_takes(&document);
        for (parser, takes, lenient) in [("expat", by_expat, false), ("libxml2", by_libxml2, !by_expat)] {
            let difference = match (&refused, takes) {
                (None, true) | (Some(_), false) => continue,
                (None, false) => "the product takes it".to_string(),
                (Some(refused), true) => {
                    let more = if lenient { LIBXML2_TAKES_TOO } else { &[] };
                    if let Some((name, _)) = NARROWINGS.iter().chain(more).find(|(_, explains)| explains(refused)) {
                        *explained.entry(format!("{name} ({parser})")).or_default() += 1;
                        continue;
                    }
                    format!("the product refuses it with {} at {}", refused.number, refused.place)
                }
            };
            differ += 1;
            println!("seed {seed}: {difference}, {parser} does not agree");
            keep(Path::new(folder), seed, &document);
        }
    }
    println!("parsers: {} documents from seed {first}, {taken} taken, {differ} differ", after.saturating_sub(first));
    for (name, count) in explained {
        println!("  {count} times: {name}");
    }
    ExitCode::from(u8::from(differ > 0))
}

fn keep(folder: &Path, seed: u64, document: &[u8]) {
    let kept = std::fs::create_dir_all(folder).and_then(|()| std::fs::write(folder.join(format!("{seed}.xml")), document));
    if let Err(error) = kept {
        println!("the document could not be kept: {error}");
    }
}
