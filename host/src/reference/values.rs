//! The value reader.

use crate::grammar;
use crate::tree::Tree;
use crate::SCRATCH;

/// Where a value is shown.
#[derive(Clone, Copy, Debug, PartialEq, Eq)]
pub enum Shown {
    Document { start: usize, length: usize },
    Scratch { length: usize },
}

/// An empty part of the document, for a value that is absent or cannot be read.
const NOTHING: Shown = Shown::Document { start: 0, length: 0 };

/// The value of the attribute of that name, or for an empty name the text, of the element in a range of the document.
pub fn value(document: &[u8], scratch: &mut [u8], first: usize, after: usize, name: &[u8]) -> Shown {
    if scratch.len() < SCRATCH {
        return NOTHING;
    }
    let Some(range) = document.get(first..after) else { return NOTHING };
    let read = if name.is_empty() { text(range) } else { attribute(range, name) };
    let Some(read) = read else { return NOTHING };
    match read.decoded {
        None => Shown::Document { start: first + read.start, length: read.length },
        Some(decoded) => {
            scratch[..decoded.len()].copy_from_slice(decoded.as_bytes());
            Shown::Scratch { length: decoded.len() }
        }
    }
}

/// The raw place of a value in its range, and what it says if that is not what is written there.
struct Read {
    start: usize,
    length: usize,
    decoded: Option<String>,
}

/// Only the first piece is read, so what cannot be text behind it does no harm.
fn attribute(range: &[u8], name: &[u8]) -> Option<Read> {
    let (tag, _) = grammar::start_tag(grammar::text_prefix(range), 0)?;
    if grammar::tag_over(&tag) {
        return None;
    }
    let attribute = tag.attributes.iter().find(|a| a.name.as_bytes() == name)?;
    let decoded = if attribute.raw.contains('&') { grammar::decode(attribute.raw) } else { None };
    Some(Read { start: attribute.place, length: attribute.raw.len(), decoded })
}

/// The range must be one element as a document of its own would be.
fn text(range: &[u8]) -> Option<Read> {
    let tree = Tree::build(grammar::text_of(range).ok()?).ok()?;
    let root = &tree.nodes[0];
    if (root.start, root.after) != (0, range.len()) {
        return None;
    }
    let text = root.text()?;
    let decoded = (root.dropped || root.runs.iter().any(|run| run.contains('&'))).then_some(text);
    Some(Read { start: root.content.0, length: root.content.1 - root.content.0, decoded })
}
