//! Faults put into drafts and tables files.

use crate::clean::{Content, Element};
use crate::pools;
use crate::random::Random;

/// One edit of an element, an attribute or a value.
pub fn edit_tree(random: &mut Random, root: &mut Element) {
    match random.below(20) {
        0 | 1 => drop(take(random, root)),
        2 => {
            if let Some(element) = take(random, root) {
                put(random, root, element.clone());
                put(random, root, element);
            }
        }
        3 => {
            if let Some(element) = take(random, root) {
                put(random, root, element);
            }
        }
        4 | 5 => duplicate(random, root),
        6 => some_element(random, root).name = random.pick(pools::ELEMENTS).to_string(),
        7 => {
            // The element is put into a new one in its place.
            let name = random.pick(pools::ELEMENTS);
            let element = some_element(random, root);
            let inner = std::mem::replace(element, Element::new(name, &[], Vec::new()));
            element.children().push(inner);
        }
        8 => {
            let element = Element::new(random.pick(pools::ELEMENTS), &[], Vec::new());
            put(random, root, element);
        }
        9 => edit_attribute(random, root, |random, element, at| {
            if random.in_100(70) {
                element.attributes.remove(at);
            } else {
                element.attributes[at].1.clear();
            }
        }),
        10 => edit_attribute(random, root, |random, element, at| {
            let mut attribute = element.attributes[at].clone();
            if random.in_100(80) {
                attribute.0 = random.pick(pools::ATTRIBUTES).to_string();
            }
            element.attributes.push(attribute);
        }),
        11 => {
            let name = random.pick(pools::ATTRIBUTES);
            let element = some_element(random, root);
            let attribute = (name.to_string(), value(random, &element.name, name));
            element.attributes.push(attribute);
        }
        12..=14 => edit_attribute(random, root, change_value),
        15 | 16 => {
            // The children of the root have rules of their own, and would seldom be met among all elements.
            let children = root.children();
            if !children.is_empty() {
                let child = random.below(children.len());
                edit_attribute_of(random, &mut children[child], change_value);
            }
        }
        _ => {
            // Some tries find an element that has a text already.
            for _ in 0..20 {
                let element = some_element(random, root);
                if matches!(element.content, Content::Text(_)) || random.in_100(2) {
                    element.content = Content::Text(value(random, &element.name, ""));
                    return;
                }
            }
        }
    }
}

fn change_value(random: &mut Random, element: &mut Element, at: usize) {
    element.attributes[at].1 = value(random, &element.name, &element.attributes[at].0);
}

/// A raw value for an attribute, or for the text if the attribute is empty, of an element.
fn value(random: &mut Random, element: &str, attribute: &str) -> String {
    match random.below(40) {
        0 => random.pick(pools::MALFORMED).to_string(),
        1 => {
            let length = 4_095 + random.below(3);
            random.pick(&["x", "é", "&#65;"]).chars().cycle().take(length).collect()
        }
        2 => format!("{}{}", pools::value(random, element, attribute), pools::value(random, element, attribute)),
        _ => pools::value(random, element, attribute).to_string(),
    }
}

fn some_element<'a>(random: &mut Random, root: &'a mut Element) -> &'a mut Element {
    let number = random.below(root.count());
    root.nth(number).ok().expect("a number below the count")
}

/// Takes an element that is not the root out of the draft.
fn take(random: &mut Random, root: &mut Element) -> Option<Element> {
    let children = some_children(random, root)?;
    let at = random.below(children.len());
    Some(children.remove(at))
}

fn put(random: &mut Random, root: &mut Element, element: Element) {
    let children = some_element(random, root).children();
    let at = random.below(children.len() + 1);
    children.insert(at, element);
}

/// An element beside its copy: the way in which a wrong number comes about most often.
fn duplicate(random: &mut Random, root: &mut Element) {
    if let Some(children) = some_children(random, root) {
        let at = random.below(children.len());
        let copy = children[at].clone();
        children.insert(at, copy);
    }
}

/// The children of some element that has any.
fn some_children<'a>(random: &mut Random, root: &'a mut Element) -> Option<&'a mut Vec<Element>> {
    let count = root.count();
    let has_children = |element: &Element| matches!(&element.content, Content::Children(children) if !children.is_empty());
    let first = random.below(count);
    let number = (0..count).map(|step| (first + step) % count).find(|&number| root.nth(number).is_ok_and(|e| has_children(e)))?;
    root.nth(number).ok().map(Element::children)
}

/// Edits an attribute of some element.
fn edit_attribute(random: &mut Random, root: &mut Element, edit: fn(&mut Random, &mut Element, usize)) {
    for _ in 0..20 {
        let element = some_element(random, root);
        if !element.attributes.is_empty() {
            return edit_attribute_of(random, element, edit);
        }
    }
}

/// Edits an attribute of an element, if it has any.
fn edit_attribute_of(random: &mut Random, element: &mut Element, edit: fn(&mut Random, &mut Element, usize)) {
    if !element.attributes.is_empty() {
        let at = random.below(element.attributes.len());
        edit(random, element, at);
    }
}

/// One edit of a document's bytes.
pub fn edit_bytes(random: &mut Random, bytes: &mut Vec<u8>) {
    let at = random.below(bytes.len() + 1);
    match random.below(12) {
        0 if at < bytes.len() => bytes[at] ^= 1 << random.below(8),
        1 if at < bytes.len() => bytes[at] = random.number() as u8,
        2 => {
            let after = (at + 1 + random.below(12)).min(bytes.len());
            bytes.drain(at.min(after)..after);
        }
        3 => bytes.truncate(at),
        4 => {
            let front = if random.in_100(60) { random.pick(pools::BAD_FRONTS) } else { random.pick(pools::FRONTS) };
            bytes.splice(0..0, front.bytes());
        }
        5 => bytes.extend_from_slice(random.pick(pools::SNIPPETS)),
        6 => {
            // Markup is where one byte more or less tells, so the place is moved to the next of it.
            let mark = bytes[at..].iter().position(|b| b"<>=\"'&/".contains(b)).map_or(at, |step| at + step);
            bytes.splice(mark..mark, random.pick(pools::SNIPPETS).iter().copied());
        }
        7 => {
            let mark = bytes[at..].iter().position(|b| b"<>=\"'&/ ".contains(b)).map_or(at, |step| at + step);
            if mark < bytes.len() {
                bytes.remove(mark);
            }
        }
        8 => {
            let text_end = bytes[at..].windows(2).position(|pair| pair == b"</").map_or(at, |step| at + step);
            let snippet = if random.in_100(50) { pools::value(random, "", "") } else { random.pick(pools::MALFORMED) };
            bytes.splice(text_end..text_end, snippet.bytes());
        }
        9 | 10 => {
            let piece = bytes[at..].iter().position(|&b| b == b'<').map_or(at, |step| at + step);
            bytes.splice(piece..piece, random.pick(pools::PIECES).iter().copied());
        }
        _ => {
            bytes.splice(at..at, random.pick(pools::SNIPPETS).iter().copied());
        }
    }
}

/// One edit of a tables file's bytes.
pub fn edit_tables(random: &mut Random, bytes: &mut Vec<u8>) {
    let at = random.below(bytes.len() + 1);
    match random.below(200) {
        0 => bytes.resize(1_048_576 + random.below(2), b'z'),
        1..20 => bytes.truncate(at),
        20..40 => bytes.extend_from_slice(random.pick(&[b"\n".as_slice(), b"0\n", b"x", b"\t", b"1"])),
        40..60 => {
            bytes.splice(0..0, random.pick(&[b"0".as_slice(), b"1", b"+", b" ", b"\n", b"65536\n", b"65535\n"]).iter().copied());
        }
        60..80 if at < bytes.len() => {
            bytes.remove(at);
        }
        80..100 if at < bytes.len() => bytes[at] = random.number() as u8,
        100..120 => {
            // The row at the place is filled up to the limit of its length, or nearly.
            let start = bytes[..at].iter().rposition(|&b| b == b'\n').map_or(0, |feed| feed + 1);
            let end = bytes[at..].iter().position(|&b| b == b'\n').map_or(bytes.len(), |step| at + step);
            let more = (4_095 + random.below(3)).saturating_sub(end - start);
            bytes.splice(end..end, std::iter::repeat_n(b'y', more));
        }
        120..140 => {
            bytes.splice(at..at, random.pick(&[*b"\xFF\xC3", *b"\x00\x01", *b"\r\n", *b"\t\t", *b"\n\n"]));
        }
        _ => {
            let line = bytes[at..].iter().position(|&b| b == b'\n').map_or(bytes.len(), |step| at + step);
            bytes.splice(line..line, random.pick(&[b"\r".as_slice(), b"\t", b"\tx", b"0", b"\n", b" "]).iter().copied());
        }
    }
}
