//! XML 1.0 as document 01 narrows it: characters, names, references, and the pieces of markup.
//!
//! All parsing is on suffixes of the document's text, so the place of a suffix is the document's length less its own.

use std::collections::HashSet;

/// The limits that document 01 sets the reader.
pub mod limits {
    pub const LENGTH: usize = 1_048_576;
    pub const ELEMENTS: usize = 16_384;
    pub const DEPTH: usize = 32;
    pub const ATTRIBUTES: usize = 16;
    pub const NAME: usize = 64;
    pub const VALUE: usize = 4_096;
}

/// One piece of a document: a run of text, or one piece of markup.
pub enum Piece<'a> {
    Text(&'a str),
    Start(Tag<'a>),
    End(&'a str),
    /// A comment, an instruction or the XML declaration.
    Aside,
}

/// A start tag or an empty-element tag.
pub struct Tag<'a> {
    pub name: &'a str,
    pub attributes: Vec<Attribute<'a>>,
    pub empty: bool,
}

/// An attribute with its value as it is written, and the place of that value.
pub struct Attribute<'a> {
    pub name: &'a str,
    pub raw: &'a str,
    pub place: usize,
}

/// A well-formed piece, the place after it, and whether it passes one of the limits that a piece can pass by itself.
pub struct Cut<'a> {
    pub piece: Piece<'a>,
    pub after: usize,
    pub over: bool,
}

/// Whether a character is a `Char` of XML 1.0. A Rust character is no surrogate already.
fn is_char(c: char) -> bool {
    matches!(c, '\t' | '\n' | '\r' | '\u{20}'..='\u{FFFD}' | '\u{10000}'..='\u{10FFFF}')
}

fn is_space(c: char) -> bool {
    matches!(c, ' ' | '\t' | '\r' | '\n')
}

pub fn all_space(text: &str) -> bool {
    text.chars().all(is_space)
}

/// The longest front that is UTF-8 and has only characters that XML allows.
pub fn text_prefix(bytes: &[u8]) -> &str {
    let text = match std::str::from_utf8(bytes) {
        Ok(text) => text,
        Err(error) => std::str::from_utf8(&bytes[..error.valid_up_to()]).expect("a front that was found valid"),
    };
    &text[..text.find(|c| !is_char(c)).unwrap_or(text.len())]
}

/// A document as text, or the first byte of what is no character or a leading byte order mark.
pub fn text_of(bytes: &[u8]) -> Result<&str, usize> {
    let text = text_prefix(bytes);
    if text.starts_with('\u{FEFF}') {
        Err(0)
    } else if text.len() < bytes.len() {
        Err(text.len())
    } else {
        Ok(text)
    }
}

/// What a raw value says, or nothing if a reference in it is malformed.
pub fn decode(raw: &str) -> Option<String> {
    let mut decoded = String::new();
    let mut rest = raw;
    while let Some((before, from)) = rest.split_once('&') {
        let (body, after) = from.split_once(';')?;
        decoded.push_str(before);
        decoded.push(referred(body)?);
        rest = after;
    }
    decoded.push_str(rest);
    Some(decoded)
}

/// The character that a reference stands for; `body` is what is between `&` and `;`.
fn referred(body: &str) -> Option<char> {
    match body {
        "lt" => return Some('<'),
        "gt" => return Some('>'),
        "amp" => return Some('&'),
        "apos" => return Some('\''),
        "quot" => return Some('"'),
        _ => {}
    }
    let number = body.strip_prefix('#')?;
    let (digits, radix) = match number.strip_prefix('x') {
        Some(hexadecimal) => (hexadecimal, 16),
        None => (number, 10),
    };
    if digits.is_empty() || !digits.chars().all(|c| c.is_digit(radix)) {
        return None;
    }
    // Zeros in front say nothing; a number too long for 32 bits is past every character.
    let significant = digits.trim_start_matches('0');
    let code = if significant.is_empty() { 0 } else { u32::from_str_radix(significant, radix).ok()? };
    char::from_u32(code).filter(|&c| is_char(c))
}

/// The piece that begins at a place, or the refusal 6 or 7.
pub fn cut(document: &str, at: usize) -> Result<Cut<'_>, u32> {
    let here = &document[at..];
    let (piece, rest, over) = if here.starts_with("<!DOCTYPE") || here.starts_with("<![CDATA[") {
        return Err(6);
    } else if let Some(comment) = here.strip_prefix("<!--") {
        (Piece::Aside, comment_end(comment).ok_or(7u32)?, false)
    } else if let Some(instruction) = here.strip_prefix("<?") {
        let (target, rest) = instruction_end(instruction, at == 0).ok_or(7u32)?;
        (Piece::Aside, rest, target.len() > limits::NAME)
    } else if let Some(end) = here.strip_prefix("</") {
        let (name, rest) = end_tag(end).ok_or(7u32)?;
        (Piece::End(name), rest, false)
    } else if here.starts_with('<') {
        let (tag, rest) = start_tag(document, at).ok_or(7u32)?;
        let over = tag_over(&tag);
        (Piece::Start(tag), rest, over)
    } else {
        let (run, rest) = here.split_at(here.find('<').unwrap_or(here.len()));
        if run.contains("]]>") || decode(run).is_none() {
            return Err(7);
        }
        (Piece::Text(run), rest, false)
    };
    Ok(Cut { piece, after: document.len() - rest.len(), over })
}

/// What follows a comment: the first two hyphens in it must be its end.
fn comment_end(comment: &str) -> Option<&str> {
    comment.split_once("--")?.1.strip_prefix('>')
}

/// The target of an instruction, or of the XML declaration at the front, and what follows it.
fn instruction_end(instruction: &str, front: bool) -> Option<(&str, &str)> {
    let (target, rest) = split_name(instruction)?;
    if target == "xml" && front {
        return Some((target, declaration_end(rest)?));
    }
    if target.eq_ignore_ascii_case("xml") {
        return None;
    }
    if let Some(after) = rest.strip_prefix("?>") {
        return Some((target, after));
    }
    Some((target, some_space(rest)?.split_once("?>")?.1))
}

/// What follows the XML declaration, given what follows its `<?xml`.
fn declaration_end(rest: &str) -> Option<&str> {
    let (version, mut rest) = pseudo_attribute(rest, "version")?;
    if version != "1.0" {
        return None;
    }
    if let Some((encoding, after)) = pseudo_attribute(rest, "encoding") {
        if !encoding.eq_ignore_ascii_case("UTF-8") {
            return None;
        }
        rest = after;
    }
    if let Some((standalone, after)) = pseudo_attribute(rest, "standalone") {
        if standalone != "yes" && standalone != "no" {
            return None;
        }
        rest = after;
    }
    skip_space(rest).strip_prefix("?>")
}

/// White space, then the given name with a quoted value.
fn pseudo_attribute<'a>(rest: &'a str, name: &str) -> Option<(&'a str, &'a str)> {
    quoted_after_equals(some_space(rest)?.strip_prefix(name)?)
}

fn end_tag(rest: &str) -> Option<(&str, &str)> {
    let (name, rest) = split_name(rest)?;
    Some((name, skip_space(rest).strip_prefix('>')?))
}

/// The start tag at a place and what follows it, if it is one within the range of the text.
pub fn start_tag(document: &str, at: usize) -> Option<(Tag<'_>, &str)> {
    let (name, mut rest) = split_name(document[at..].strip_prefix('<')?)?;
    if name.contains(':') {
        return None;
    }
    let mut attributes = Vec::new();
    let mut names = HashSet::new();
    loop {
        let next = skip_space(rest);
        for (close, empty) in [(">", false), ("/>", true)] {
            if let Some(after) = next.strip_prefix(close) {
                return Some((Tag { name, attributes, empty }, after));
            }
        }
        let (name, after) = split_name(some_space(rest)?)?;
        let (raw, after) = quoted_after_equals(after)?;
        if !names.insert(name) || raw.contains('<') || decode(raw).is_none() {
            return None;
        }
        // One byte, the quote, stands between the value and what follows.
        let place = document.len() - after.len() - 1 - raw.len();
        attributes.push(Attribute { name, raw, place });
        rest = after;
    }
}

/// Whether a tag passes a limit that has nothing to do with where it stands.
pub fn tag_over(tag: &Tag) -> bool {
    tag.name.len() > limits::NAME
        || tag.attributes.len() > limits::ATTRIBUTES
        || tag.attributes.iter().any(|a| a.name.len() > limits::NAME || a.raw.len() > limits::VALUE)
}

fn split_name(text: &str) -> Option<(&str, &str)> {
    let begins = |c: char| c.is_ascii_alphabetic() || c == '_' || c == ':';
    let goes_on = |c: char| begins(c) || c.is_ascii_digit() || c == '-' || c == '.';
    if !text.starts_with(begins) {
        return None;
    }
    Some(text.split_at(text.find(|c| !goes_on(c)).unwrap_or(text.len())))
}

fn skip_space(text: &str) -> &str {
    text.trim_start_matches(is_space)
}

/// What follows at least one character of white space.
fn some_space(text: &str) -> Option<&str> {
    text.starts_with(is_space).then(|| skip_space(text))
}

/// The value in `= "value"` and what follows, white space allowed around the equals sign.
fn quoted_after_equals(text: &str) -> Option<(&str, &str)> {
    let quoted = skip_space(skip_space(text).strip_prefix('=')?);
    let quote = quoted.chars().next().filter(|&c| c == '"' || c == '\'')?;
    quoted[1..].split_once(quote)
}
