//! Clean drafts of both types, as trees, and their bytes.

use crate::pools;
use crate::random::Random;
use crate::rows::Facts;
use std::fmt::Write;

/// An element of a draft. Attribute values and text are raw.
#[derive(Clone)]
pub struct Element {
    pub name: String,
    pub attributes: Vec<(String, String)>,
    pub content: Content,
}

#[derive(Clone)]
pub enum Content {
    Text(String),
    Children(Vec<Element>),
}

pub const DUNS: &str = "1.3.6.1.4.1.519.1";
pub const LABELER_CODES: &str = "2.16.840.1.113883.6.69";
pub const DOCUMENT_TYPES: &str = "2.16.840.1.113883.6.1";
pub const NCI: &str = "2.16.840.1.113883.3.26.1.1";

impl Element {
    pub fn new(name: &str, attributes: &[(&str, &str)], children: Vec<Element>) -> Element {
        let attributes = attributes.iter().map(|(name, value)| (name.to_string(), value.to_string())).collect();
        Element { name: name.to_string(), attributes, content: Content::Children(children) }
    }

    pub fn text(name: &str, text: &str) -> Element {
        Element { name: name.to_string(), attributes: Vec::new(), content: Content::Text(text.to_string()) }
    }

    pub fn children(&mut self) -> &mut Vec<Element> {
        if let Content::Text(_) = self.content {
            self.content = Content::Children(Vec::new());
        }
        match &mut self.content {
            Content::Children(children) => children,
            Content::Text(_) => unreachable!("the content was just made children"),
        }
    }

    /// The number of elements here and below.
    pub fn count(&self) -> usize {
        match &self.content {
            Content::Text(_) => 1,
            Content::Children(children) => 1 + children.iter().map(Element::count).sum::<usize>(),
        }
    }

    /// The element of a number in document order, or how far past the last that number is.
    pub fn nth(&mut self, mut number: usize) -> Result<&mut Element, usize> {
        if number == 0 {
            return Ok(self);
        }
        number -= 1;
        if let Content::Children(children) = &mut self.content {
            for child in children {
                match child.nth(number) {
                    Ok(found) => return Ok(found),
                    Err(left) => number = left,
                }
            }
        }
        Err(number)
    }
}

/// Whom an establishment has below it.
#[derive(Clone, Copy, PartialEq, Eq)]
pub enum Below {
    /// A foreign one has an agent and perhaps importers, one in the USA has none.
    Fitting,
    /// Any, whatever the country.
    Any,
}

/// A draft of either type, clean but for whom establishments have below them, and what tables would have to know of it.
pub fn draft(random: &mut Random) -> (Element, Facts) {
    let mut facts = Facts::new(random);
    let root = if random.in_100(55) {
        request(random, &mut facts)
    } else {
        let establishments = 1 + random.below(3);
        let below = random.pick(&[Below::Fitting, Below::Fitting, Below::Fitting, Below::Any]);
        registration(random, &mut facts, establishments, below)
    };
    (root, facts)
}

pub fn request(random: &mut Random, facts: &mut Facts) -> Element {
    facts.kind = "51726-8";
    let five = random.in_100(30);
    facts.key = if five { format!("{}{}", 1 + random.below(9), random.digits(4)) } else { format!("2{}", random.digits(3)) };
    let (duns, name) = facts.firm(random);
    let mut labeler = vec![id(&duns, DUNS), id(&facts.key, LABELER_CODES)];
    if random.in_100(20) {
        labeler.swap(0, 1);
    }
    labeler.push(Element::text("name", &escaped(random, &name)));
    let country = country(random);
    labeler.push(contact_party(random, country));
    document(random, facts, "NDC labeler code request", labeler)
}

pub fn registration(random: &mut Random, facts: &mut Facts, establishments: usize, below: Below) -> Element {
    facts.kind = "51725-0";
    let (duns, name) = facts.firm(random);
    facts.key = duns.clone();
    let mut registrant = vec![id(&duns, DUNS), Element::text("name", &escaped(random, &name))];
    let at_home = country(random);
    registrant.push(contact_party(random, at_home));
    for _ in 0..establishments {
        registrant.push(establishment(random, facts, below));
    }
    let registrant = Element::new("assignedEntity", &[], vec![Element::new("assignedOrganization", &[], registrant)]);
    document(random, facts, "Establishment registration", vec![registrant])
}

fn document(random: &mut Random, facts: &mut Facts, display_name: &str, labeler: Vec<Element>) -> Element {
    facts.codes.push([facts.kind, DOCUMENT_TYPES, display_name].map(String::from));
    let labeler = Element::new("representedOrganization", &[], labeler);
    let mut author = vec![Element::new("assignedEntity", &[], vec![labeler])];
    if random.in_100(30) {
        author.insert(0, Element::new("time", &[], Vec::new()));
    }
    let day = format!("{}{:02}{:02}", 1990 + random.below(40), 1 + random.below(12), 1 + random.below(28));
    let mut children = vec![
        Element::new("id", &[("root", &facts.document)], Vec::new()),
        Element::new("code", &[("code", facts.kind), ("codeSystem", DOCUMENT_TYPES), ("displayName", display_name)], Vec::new()),
        Element::new("title", &[], Vec::new()),
        Element::new("effectiveTime", &[("value", &day)], Vec::new()),
        Element::new("setId", &[("root", &facts.set)], Vec::new()),
        Element::new("versionNumber", &[("value", &facts.version.to_string())], Vec::new()),
        Element::new("author", &[], author),
    ];
    if random.in_100(20) {
        children.push(Element::new("component", &[], vec![Element::new("structuredBody", &[], Vec::new())]));
    }
    let references = [
        ("xmlns", "urn:hl7-org:v3"),
        ("xmlns:xsi", "http://www.w3.org/2001/XMLSchema-instance"),
        ("xsi:schemaLocation", "urn:hl7-org:v3 http://www.accessdata.fda.gov/spl/schema/spl.xsd"),
    ];
    Element::new("document", &references, children)
}

fn establishment(random: &mut Random, facts: &mut Facts, below: Below) -> Element {
    let country = country(random);
    let (duns, name) = facts.firm(random);
    let mut organisation = vec![id(&duns, DUNS)];
    if random.in_100(30) {
        organisation.push(Element::new("id", &[("extension", "123456")], Vec::new()));
    }
    organisation.push(Element::text("name", &escaped(random, &name)));
    organisation.push(addr(random, country));
    organisation.push(contact_party(random, country));
    let (agents, importers) = match below {
        Below::Any => (random.below(2), random.below(2)),
        Below::Fitting if country == "USA" => (0, 0),
        Below::Fitting => (1, random.below(3)),
    };
    for _ in 0..agents {
        organisation.push(level_4(random, facts, "C73330", "United States agent"));
    }
    for _ in 0..importers {
        organisation.push(level_4(random, facts, "C73599", "import"));
    }
    let mut entity = vec![Element::new("assignedOrganization", &[], organisation)];
    for _ in 0..=random.below(3) {
        let (code, name) = random.pick(pools::OPERATIONS);
        entity.push(performance(facts, code, name));
    }
    Element::new("assignedEntity", &[], entity)
}

fn level_4(random: &mut Random, facts: &mut Facts, code: &str, display_name: &str) -> Element {
    let (duns, name) = facts.firm(random);
    let organisation = vec![
        id(&duns, DUNS),
        Element::text("name", &escaped(random, &name)),
        Element::new("telecom", &[("value", "tel:+1-800-555-1212")], Vec::new()),
        Element::new("telecom", &[("value", "mailto:contact@usagent.com")], Vec::new()),
    ];
    let organisation = Element::new("assignedOrganization", &[], organisation);
    Element::new("assignedEntity", &[], vec![organisation, performance(facts, code, display_name)])
}

fn performance(facts: &mut Facts, code: &str, display_name: &str) -> Element {
    facts.codes.push([code, NCI, display_name].map(String::from));
    let code = Element::new("code", &[("code", code), ("codeSystem", NCI), ("displayName", display_name)], Vec::new());
    Element::new("performance", &[], vec![Element::new("actDefinition", &[], vec![code])])
}

fn contact_party(random: &mut Random, country: &str) -> Element {
    let extension = if random.in_100(40) { ";ext=112" } else { "" };
    let telephone = format!("tel:+1-800-555-{}{extension}", random.digits(4));
    let person = vec![Element::text("name", "Bob Jones")];
    let children = vec![
        addr(random, country),
        Element::new("telecom", &[("value", &telephone)], Vec::new()),
        Element::new("telecom", &[("value", "mailto:Bob.Jones@acme.com")], Vec::new()),
        Element::new("contactPerson", &[], person),
    ];
    Element::new("contactParty", &[], children)
}

fn addr(random: &mut Random, country: &str) -> Element {
    let mut children = vec![Element::text("streetAddressLine", "1625 29th street")];
    if random.in_100(20) {
        children.push(Element::text("streetAddressLine", "Building 4"));
    }
    children.push(Element::text("city", "Camden"));
    if country == "USA" || random.in_100(30) {
        children.push(Element::text("state", "NJ"));
        children.push(Element::text("postalCode", "08101"));
    }
    children.push(Element::text("country", country));
    Element::new("addr", &[], children)
}

fn id(extension: &str, root: &str) -> Element {
    Element::new("id", &[("extension", extension), ("root", root)], Vec::new())
}

fn country(random: &mut Random) -> &'static str {
    random.pick(&["USA", "USA", "IRL", "DEU"])
}

/// A text as a document may write it: some characters must be references, any may be.
fn escaped(random: &mut Random, text: &str) -> String {
    let mut raw = String::new();
    for c in text.chars() {
        match c {
            '&' => raw.push_str(random.pick(&["&amp;", "&#38;", "&#x26;"])),
            '<' => raw.push_str(random.pick(&["&lt;", "&#60;", "&#x3C;"])),
            '\'' if random.in_100(30) => raw.push_str("&apos;"),
            _ if random.in_100(2) => write!(raw, "&#x{:x};", u32::from(c)).expect("a string takes all"),
            _ => raw.push(c),
        }
    }
    raw
}

/// The bytes of a draft, with the freedom that XML leaves in writing it.
pub fn render(random: &mut Random, root: &Element) -> Vec<u8> {
    let mut text = String::new();
    if random.in_100(40) {
        text.push_str(random.pick(pools::FRONTS));
    }
    // Some documents are written plainly, so that the others need not be.
    let plain = random.in_100(40);
    write_element(random, root, plain, &mut text);
    text.push_str(random.pick(&["", "\n", "<!-- end -->", "<?p?>\n"]));
    text.into_bytes()
}

/// The bytes of a draft with no freedom taken.
pub fn render_plainly(root: &Element) -> Vec<u8> {
    let mut text = String::new();
    write_element(&mut Random::new(0), root, true, &mut text);
    text.into_bytes()
}

fn write_element(random: &mut Random, element: &Element, plain: bool, text: &mut String) {
    text.push('<');
    text.push_str(&element.name);
    for (name, value) in &element.attributes {
        let [space, equals] = if plain { [" ", "="] } else {
            [random.pick(&[" ", " ", "  ", "\t", "\n", "\r\n"]), random.pick(&["=", "=", " = ", "= "])]
        };
        let double = if value.contains('"') { false } else { value.contains('\'') || plain || random.in_100(70) };
        let quote = if double { '"' } else { '\'' };
        write!(text, "{space}{name}{equals}{quote}{value}{quote}").expect("a string takes all");
    }
    let empty = match &element.content {
        Content::Text(content) => content.is_empty(),
        Content::Children(children) => children.is_empty(),
    };
    if empty && (plain || random.in_100(70)) {
        text.push_str(if plain { "/>" } else { random.pick(&["/>", " />"]) });
        return;
    }
    text.push_str(if plain { ">" } else { random.pick(&[">", ">", " >"]) });
    match &element.content {
        Content::Text(content) => write_text(random, content, plain, text),
        Content::Children(children) => {
            for child in children {
                text.push_str(gap(random, plain));
                write_element(random, child, plain, text);
            }
            if !empty {
                text.push_str(gap(random, plain));
            }
        }
    }
    write!(text, "</{}{}>", element.name, if plain || random.in_100(80) { "" } else { " " }).expect("a string takes all");
}

fn write_text(random: &mut Random, content: &str, plain: bool, text: &mut String) {
    if plain || random.in_100(85) {
        text.push_str(content);
        return;
    }
    let middle = (0..=content.len()).filter(|&at| content.is_char_boundary(at)).collect::<Vec<_>>();
    // A part may be cut out of a reference; then the document is malformed, which is as good.
    let (before, after) = content.split_at(random.pick(&middle));
    write!(text, "{before}{}{after}", random.pick(&["<!-- c -->", "<?p d?>", "<!---->", "<?p?>"])).expect("a string takes all");
}

fn gap(random: &mut Random, plain: bool) -> &'static str {
    if plain {
        return "\n";
    }
    random.pick(&["", "", "\n", "\n  ", "\r\n", "\t", "<!-- note -->", "<?note x?>"])
}
