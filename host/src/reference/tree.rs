//! The tree of a document's elements.

use crate::grammar::{self, limits, Attribute, Piece};
use crate::Refusal;

/// An element. Its number is its place in `Tree::nodes`, which is document order.
pub struct Node<'a> {
    pub name: &'a str,
    pub attributes: Vec<Attribute<'a>>,
    pub parent: Option<usize>,
    pub children: Vec<usize>,
    pub start: usize,
    pub after: usize,
    /// Where the content begins and ends; for an empty-element tag both are the place after it.
    pub content: (usize, usize),
    /// The runs of text that stand directly in the element.
    pub runs: Vec<&'a str>,
    /// Whether a comment or an instruction stands directly in the element.
    pub dropped: bool,
}

pub struct Tree<'a> {
    pub nodes: Vec<Node<'a>>,
}

impl<'a> Tree<'a> {
    /// The tree, or the refusal 6, 7 or 8 of the first piece that has one.
    pub fn build(document: &'a str) -> Result<Tree<'a>, Refusal> {
        let mut tree = Tree { nodes: Vec::new() };
        let mut open = Vec::new();
        let mut at = 0;
        while at < document.len() {
            let after = tree.add_piece(document, at, &mut open).map_err(|number| Refusal::new(number, at))?;
            at = after;
        }
        if tree.nodes.is_empty() || !open.is_empty() {
            return Err(Refusal::new(7, document.len()));
        }
        Ok(tree)
    }

    /// Adds the piece at a place and gives the place after it. `open` has the numbers of the open elements.
    fn add_piece(&mut self, document: &'a str, at: usize, open: &mut Vec<usize>) -> Result<usize, u32> {
        let cut = grammar::cut(document, at)?;
        let parent = open.last().copied();
        match cut.piece {
            Piece::Text(run) => match parent {
                Some(parent) => self.nodes[parent].runs.push(run),
                None if !grammar::all_space(run) => return Err(7),
                None => {}
            },
            Piece::Aside => {
                if cut.over {
                    return Err(8);
                }
                if let Some(parent) = parent {
                    self.nodes[parent].dropped = true;
                }
            }
            Piece::Start(tag) => {
                let number = self.nodes.len();
                if parent.is_none() && number > 0 {
                    return Err(7);
                }
                if cut.over || number >= limits::ELEMENTS || open.len() >= limits::DEPTH {
                    return Err(8);
                }
                if let Some(parent) = parent {
                    self.nodes[parent].children.push(number);
                }
                if !tag.empty {
                    open.push(number);
                }
                self.nodes.push(Node {
                    name: tag.name,
                    attributes: tag.attributes,
                    parent,
                    children: Vec::new(),
                    start: at,
                    after: cut.after,
                    content: (cut.after, cut.after),
                    runs: Vec::new(),
                    dropped: false,
                });
            }
            Piece::End(name) => {
                let node = parent.map(|number| &mut self.nodes[number]).filter(|node| node.name == name).ok_or(7u32)?;
                if node.children.is_empty() && at - node.content.0 > limits::VALUE {
                    return Err(8);
                }
                node.content.1 = at;
                node.after = cut.after;
                open.pop();
            }
        }
        Ok(cut.after)
    }

    /// The first raw byte of the first value that is longer decoded than a value may be.
    pub fn overlong_value(&self) -> Option<usize> {
        self.nodes
            .iter()
            .flat_map(|node| {
                let attributes = node.attributes.iter().map(|a| (a.place, decoded(a.raw)));
                attributes.chain(node.text().map(|text| (node.content.0, text)))
            })
            .find(|(_, value)| value.len() > limits::VALUE)
            .map(|(place, _)| place)
    }
}

impl Node<'_> {
    /// What an attribute says; an absent attribute says nothing, as an empty one does.
    pub fn attribute(&self, name: &str) -> String {
        let attribute = self.attributes.iter().find(|a| a.name == name);
        attribute.map_or(String::new(), |a| decoded(a.raw))
    }

    /// The text of an element without child elements.
    pub fn text(&self) -> Option<String> {
        self.children.is_empty().then(|| self.runs.iter().map(|run| decoded(run)).collect())
    }
}

fn decoded(raw: &str) -> String {
    grammar::decode(raw).expect("references are looked at when a piece is cut")
}
