//! The path of an element, from the element table and the names in the document.

use crate::engine::Element;
use std::collections::HashMap;

/// The paths of a document's elements, with the siblings of one name counted once.
pub struct Paths<'a> {
    elements: &'a [Element],
    names: Vec<&'a str>,
    /// Which of the siblings of its name an element is, from 1; 0 where it is the only one.
    indexes: Vec<usize>,
}

impl<'a> Paths<'a> {
    pub fn of(document: &'a [u8], elements: &'a [Element]) -> Paths<'a> {
        let names: Vec<_> = elements.iter().map(|element| name(document, element)).collect();
        let mut counts = HashMap::new();
        let mut indexes = Vec::with_capacity(elements.len());
        for (element, name) in elements.iter().zip(&names) {
            let count = counts.entry((element.parent, *name)).or_insert(0);
            // The root is its own parent in the table; its children count from anew.
            if element.number > 0 {
                *count += 1;
            }
            indexes.push(*count);
        }
        for ((element, name), index) in elements.iter().zip(&names).zip(&mut indexes) {
            if counts.get(&(element.parent, *name)) == Some(&1) {
                *index = 0;
            }
        }
        Paths { elements, names, indexes }
    }

    /// The name of the element of this number.
    pub fn name(&self, number: usize) -> &'a str {
        self.names[number]
    }

    /// The path of the element of this number, as `/document/author/assignedEntity[2]`: an index only where siblings share the name.
    pub fn path(&self, number: usize) -> String {
        let mut line = Vec::new();
        let mut at = number;
        while let Some(element) = self.elements.get(at) {
            line.push(at);
            if at == 0 {
                break;
            }
            at = element.parent as usize;
        }
        let steps = line.iter().rev().map(|&at| match self.indexes[at] {
            0 => format!("/{}", self.names[at]),
            index => format!("/{}[{index}]", self.names[at]),
        });
        steps.collect()
    }
}

/// The number of the element that starts at this byte.
pub fn at(elements: &[Element], first: u32) -> Option<usize> {
    elements.binary_search_by_key(&first, |element| element.first).ok()
}

/// The name of an element, as it stands in its tag: letters, digits and a few signs of ASCII.
fn name<'a>(document: &'a [u8], element: &Element) -> &'a str {
    let tag = document.get(element.first as usize + 1..element.after as usize).unwrap_or_default();
    let length = tag.iter().position(|byte| matches!(byte, b' ' | b'\t' | b'\r' | b'\n' | b'/' | b'>')).unwrap_or(tag.len());
    std::str::from_utf8(&tag[..length]).unwrap_or_default()
}

#[cfg(test)]
mod tests {
    use super::*;

    /// The element table of a document whose tags have no attributes, in the order of its start tags.
    fn table(document: &[u8]) -> Vec<Element> {
        let mut elements: Vec<Element> = Vec::new();
        let mut open = Vec::new();
        for first in (0..document.len()).filter(|&place| document[place] == b'<') {
            let after = first + document[first..].iter().position(|&byte| byte == b'>').unwrap() + 1;
            if document[first + 1] == b'/' {
                let number: usize = open.pop().unwrap();
                elements[number].after = after as u32;
                continue;
            }
            let number = elements.len();
            let parent = open.last().copied().unwrap_or(0) as u32;
            elements.push(Element { number: number as u32, parent, first: first as u32, after: after as u32 });
            if document[after - 2] != b'/' {
                open.push(number);
            }
        }
        elements
    }

    #[test]
    fn an_index_stands_only_where_siblings_share_the_name() {
        let document = b"<document><id/><document/><author><id/><id\t/><time></time></author><author/><id/></document>";
        let elements = table(document);
        let paths = Paths::of(document, &elements);
        let all: Vec<_> = (0..elements.len()).map(|number| paths.path(number)).collect();
        let expected = [
            "/document",
            "/document/id[1]",
            "/document/document",
            "/document/author[1]",
            "/document/author[1]/id[1]",
            "/document/author[1]/id[2]",
            "/document/author[1]/time",
            "/document/author[2]",
            "/document/id[2]",
        ];
        assert_eq!(all, expected);
        assert_eq!(paths.name(5), "id");
        assert_eq!(paths.path(elements.len()), "");
        assert_eq!(at(&elements, elements[6].first), Some(6));
        assert_eq!(at(&elements, elements[6].first + 1), None);
    }
}
