//! The 38 procedures, judged on the tree.

use crate::known::{self, Kind, Role};
use crate::tables::{version_of, Tables};
use crate::tree::{Node, Tree};
use crate::Finding;
use std::collections::BTreeSet;

const DUNS: &str = "1.3.6.1.4.1.519.1";
const LABELER_CODES: &str = "2.16.840.1.113883.6.69";
const DOCUMENT_TYPES: &str = "2.16.840.1.113883.6.1";
const NCI: &str = "2.16.840.1.113883.3.26.1.1";
const AGENT: &str = "C73330";
const IMPORT: &str = "C73599";
const REFERENCES: [(&str, &str); 3] = [
    ("xmlns", "urn:hl7-org:v3"),
    ("xmlns:xsi", "http://www.w3.org/2001/XMLSchema-instance"),
    ("xsi:schemaLocation", "urn:hl7-org:v3 http://www.accessdata.fda.gov/spl/schema/spl.xsd"),
];

/// The root's number.
const ROOT: usize = 0;

/// The findings of a document under tables.
pub fn judge(tree: &Tree, tables: &Tables) -> BTreeSet<Finding> {
    let mut judge = Judge { tree, tables, kind: None, roles: known::roles(tree, None), found: BTreeSet::new() };
    // The children of the root are known whatever the type, so the type can be read before what depends on it.
    judge.kind = judge.document_type();
    judge.roles = known::roles(tree, judge.kind);

    judge.every_element();
    let set = judge.header();
    if let Some(kind) = judge.kind {
        judge.organisations(kind, set.as_deref());
    }
    judge.found
}

struct Judge<'a> {
    tree: &'a Tree<'a>,
    tables: &'a Tables<'a>,
    kind: Option<Kind>,
    roles: Vec<Option<Role>>,
    found: BTreeSet<Finding>,
}

impl<'a> Judge<'a> {
    fn node(&self, number: usize) -> &'a Node<'a> {
        &self.tree.nodes[number]
    }

    /// The known children of an element that have a role.
    fn children(&self, number: usize, role: Role) -> Vec<usize> {
        let children = &self.node(number).children;
        children.iter().copied().filter(|&child| self.roles[child] == Some(role)).collect()
    }

    /// The one child of a role, if there is exactly one.
    fn only(&self, number: usize, role: Role) -> Option<usize> {
        one(&self.children(number, role))
    }

    /// All known elements of a role, in document order.
    fn all(&self, role: Role) -> Vec<usize> {
        (0..self.roles.len()).filter(|&number| self.roles[number] == Some(role)).collect()
    }

    fn attribute(&self, number: usize, name: &str) -> String {
        self.node(number).attribute(name)
    }

    /// The text of an element, empty if it has none.
    fn text(&self, number: usize) -> String {
        self.node(number).text().unwrap_or_default()
    }

    fn find(&mut self, procedure: u32, number: usize) {
        let node = self.node(number);
        self.found.insert(Finding { start: node.start as u32, procedure, after: node.after as u32 });
    }

    fn find_unless(&mut self, holds: bool, procedure: u32, number: usize) {
        if !holds {
            self.find(procedure, number);
        }
    }

    /// A procedure of the form "one child; it is good": the wrong number is found at the parent, a fault at the child.
    /// The child, if the procedure holds.
    fn one_good(&mut self, procedure: u32, parent: usize, role: Role, good: impl Fn(&Self, usize) -> bool) -> Option<usize> {
        let Some(child) = self.only(parent, role) else {
            self.find(procedure, parent);
            return None;
        };
        let holds = good(self, child);
        self.find_unless(holds, procedure, child);
        holds.then_some(child)
    }

    /// The document's type, if it has one.
    fn document_type(&self) -> Option<Kind> {
        let code = self.only(ROOT, Role::Code)?;
        (self.attribute(code, "codeSystem") == DOCUMENT_TYPES).then(|| Kind::of_code(&self.attribute(code, "code")))?
    }

    /// Whether the code list has a code element's code, system and display name.
    fn code_is_row(&self, code: usize) -> bool {
        let [code, system, name] = ["code", "codeSystem", "displayName"].map(|name| self.attribute(code, name));
        self.tables.has_code(&code, &system, &name)
    }

    /// Procedures 2 to 4.
    fn every_element(&mut self) {
        for number in 0..self.roles.len() {
            let node = self.node(number);
            if let Some(role) = self.roles[number] {
                let unlisted = node.attributes.iter().any(|a| !a.raw.is_empty() && !role.attributes().contains(&a.name));
                self.find_unless(!unlisted, 3, number);
                let spaced = ["code", "extension"].iter().any(|name| node.attribute(name).contains(' '));
                self.find_unless(!spaced, 4, number);
                continue;
            }
            let parent = node.parent.and_then(|parent| self.roles[parent]);
            let judged = parent != Some(Role::Author) || self.kind.is_some();
            self.find_unless(parent.is_none() || !judged, 2, number);
        }
    }

    /// Procedures 1 and 5 to 13. The set id, if 10 holds.
    fn header(&mut self) -> Option<String> {
        let as_printed = REFERENCES.iter().all(|(name, value)| self.attribute(ROOT, name) == *value);
        self.find_unless(self.node(ROOT).name == "document" && as_printed, 1, ROOT);

        if let Some(id) = self.one_good(5, ROOT, Role::Id, |judge, id| is_guid(&judge.attribute(id, "root"))) {
            let document = self.attribute(id, "root");
            let known = self.tables.past().any(|past| past.document == document.as_bytes());
            self.find_unless(!known, 6, id);
        }

        let kind = self.kind;
        if let Some(code) = self.one_good(7, ROOT, Role::Code, |_, _| kind.is_some()) {
            self.find_unless(self.code_is_row(code), 8, code);
        }

        self.one_good(9, ROOT, Role::EffectiveTime, |judge, time| is_day(&judge.attribute(time, "value")));

        let set = self.one_good(10, ROOT, Role::SetId, |judge, id| is_guid(&judge.attribute(id, "root")));
        let set = set.map(|id| self.attribute(id, "root"));

        let version = |judge: &Self, number| version_of(judge.attribute(number, "value").as_bytes());
        let numbered = self.one_good(11, ROOT, Role::VersionNumber, |judge, number| version(judge, number).is_some());
        if let (Some(set), Some(number)) = (&set, numbered) {
            let current = version(self, number);
            let overtaken = self.tables.past().any(|past| past.set == set.as_bytes() && Some(past.version) >= current);
            self.find_unless(!overtaken, 12, number);
        }

        if kind.is_some() {
            self.find_unless(self.all(Role::Organisation(1)).len() == 1, 13, ROOT);
        }
        set
    }

    /// Procedures 14 to 38, for a document of a type.
    fn organisations(&mut self, kind: Kind, set: Option<&str>) {
        for level in 1..=4 {
            for entity in self.all(Role::Entity(level)) {
                self.find_unless(self.only(entity, Role::Organisation(level)).is_some(), 14, entity);
            }
            for organisation in self.all(Role::Organisation(level)) {
                self.organisation(kind, set, level, organisation);
            }
        }
        for party in self.all(Role::ContactParty) {
            self.address(party);
            self.telecoms(party);
        }
        for organisation in self.all(Role::Organisation(4)) {
            self.telecoms(organisation);
        }
        for telecom in self.all(Role::Telecom) {
            let value = self.attribute(telecom, "value");
            self.find_unless(value.strip_prefix("tel:").is_none_or(is_telephone), 29, telecom);
        }
        if kind == Kind::Registration {
            self.registration();
        }
    }

    /// Procedures 15 to 23 and 30 for one organisation.
    fn organisation(&mut self, kind: Kind, set: Option<&str>, level: u8, organisation: usize) {
        let labeler_of_request = level == 1 && kind == Kind::Request;
        if level > 1 || labeler_of_request {
            let ids = self.children(organisation, Role::Id).len();
            let right = match level {
                1 => ids == 2,
                3 => ids == 1 || ids == 2,
                _ => ids == 1,
            };
            self.find_unless(right, 15, organisation);

            let duns = self.id_of(organisation, DUNS);
            self.find_unless(duns.is_some(), 16, organisation);
            let name = self.one_good(17, organisation, Role::Name, |judge, name| !judge.text(name).is_empty());
            if let (Some((_, duns)), Some(name)) = (&duns, name) {
                self.find_unless(self.tables.has_registered(duns, &self.text(name)), 18, name);
            }
            if let (Some((id, duns)), Some(set), 2) = (&duns, set, level) {
                self.key_elsewhere(kind, set, *id, duns);
            }
        }
        if labeler_of_request {
            let coded = self.id_of(organisation, LABELER_CODES);
            self.find_unless(coded.is_some(), 19, organisation);
            if let Some((id, code)) = coded {
                self.find_unless(is_labeler_code(&code), 20, id);
                if let Some(set) = set {
                    self.key_elsewhere(kind, set, id, &code);
                    let mut past = self.tables.past();
                    let other_key = past.any(|past| {
                        past.kind == kind.code().as_bytes() && past.set == set.as_bytes() && past.key != code.as_bytes()
                    });
                    self.find_unless(!other_key, 22, id);
                }
            }
        }
        if labeler_of_request || level == 2 || level == 3 {
            if let Some(party) = self.one_good(23, organisation, Role::ContactParty, |_, _| true) {
                let person = self.only(party, Role::ContactPerson);
                let name = person.and_then(|person| self.only(person, Role::Name));
                self.find_unless(name.is_some_and(|name| !self.text(name).is_empty()), 30, party);
            }
        }
    }

    /// The one id of an organisation with a root, and its extension, if it has one.
    fn id_of(&self, organisation: usize, root: &str) -> Option<(usize, String)> {
        let mut ids = self.children(organisation, Role::Id);
        ids.retain(|&id| self.attribute(id, "root") == root);
        let id = one(&ids)?;
        let extension = self.attribute(id, "extension");
        (!extension.is_empty()).then_some((id, extension))
    }

    /// Procedure 21.
    fn key_elsewhere(&mut self, kind: Kind, set: &str, id: usize, key: &str) {
        let elsewhere = self.tables.past().any(|past| {
            past.kind == kind.code().as_bytes() && past.key == key.as_bytes() && past.set != set.as_bytes()
        });
        self.find_unless(!elsewhere, 21, id);
    }

    /// Procedures 24 and 25 for a contactParty or an establishment. The country, if 24 holds.
    fn address(&mut self, holder: usize) -> Option<String> {
        let Some((addr, country)) = self.full_address(holder) else {
            self.find(24, holder);
            return None;
        };
        if country == "USA" {
            let state_and_code = [Role::State, Role::PostalCode].iter().all(|&role| self.only_text(addr, role).is_some());
            self.find_unless(state_and_code, 25, addr);
        }
        Some(country)
    }

    /// The addr and the country of a holder that meets procedure 24.
    fn full_address(&self, holder: usize) -> Option<(usize, String)> {
        let addr = self.only(holder, Role::Addr)?;
        self.only_text(addr, Role::City)?;
        let country = self.only_text(addr, Role::Country)?;
        let lines = self.children(addr, Role::StreetAddressLine);
        let full = !lines.is_empty() && lines.iter().all(|&line| !self.text(line).is_empty());
        full.then_some((addr, country))
    }

    /// The text of the one child of a role, if it is not empty.
    fn only_text(&self, parent: usize, role: Role) -> Option<String> {
        let text = self.text(self.only(parent, role)?);
        (!text.is_empty()).then_some(text)
    }

    /// Procedures 26 to 28 for a contactParty or a level 4 organisation.
    fn telecoms(&mut self, holder: usize) {
        let telecoms = self.children(holder, Role::Telecom);
        let values: Vec<_> = telecoms.iter().map(|&telecom| self.attribute(telecom, "value")).collect();
        self.find_unless(values.len() >= 2, 26, holder);
        self.find_unless(values.iter().any(|value| value.starts_with("tel:")), 27, holder);
        self.find_unless(values.iter().any(|value| value.starts_with("mailto:")), 28, holder);
    }

    /// Procedures 24 and 25 for establishments, and 31 to 38.
    fn registration(&mut self) {
        for labeler in self.all(Role::Organisation(1)) {
            self.find_unless(self.below(labeler, 2).len() == 1, 31, labeler);
        }
        for registrant in self.all(Role::Organisation(2)) {
            self.find_unless(!self.below(registrant, 3).is_empty(), 32, registrant);
        }
        for establishment in self.all(Role::Organisation(3)) {
            let Some(country) = self.address(establishment) else { continue };
            let below = self.children(establishment, Role::Entity(4));
            let codes: Vec<_> = below.iter().flat_map(|&entity| self.operation_codes(entity)).collect();
            let has = |sought: &str| codes.iter().any(|&code| self.attribute(code, "code") == sought);
            if country == "USA" {
                self.find_unless(!has(AGENT) && !has(IMPORT), 36, establishment);
            } else {
                self.find_unless(has(AGENT), 35, establishment);
            }
        }
        for entity in self.all(Role::Entity(3)) {
            let codes = self.operation_codes(entity);
            self.code_rows(&codes);
            if self.children(entity, Role::Organisation(3)).is_empty() {
                continue;
            }
            self.find_unless(!codes.is_empty(), 37, entity);
            for code in codes {
                self.find_unless(self.attribute(code, "codeSystem") == NCI, 38, code);
            }
        }
        for entity in self.all(Role::Entity(4)) {
            let codes = self.operation_codes(entity);
            self.code_rows(&codes);
            let good = one(&codes).is_some_and(|code| {
                self.attribute(code, "codeSystem") == NCI && [AGENT, IMPORT].contains(&self.attribute(code, "code").as_str())
            });
            self.find_unless(good, 33, entity);
        }
    }

    /// The organisations of a level in the entities directly in an organisation.
    fn below(&self, organisation: usize, level: u8) -> Vec<usize> {
        let entities = self.children(organisation, Role::Entity(level));
        entities.iter().flat_map(|&entity| self.children(entity, Role::Organisation(level))).collect()
    }

    /// The code elements in the performances of an entity.
    fn operation_codes(&self, entity: usize) -> Vec<usize> {
        let performances = self.children(entity, Role::Performance);
        let definitions = performances.iter().flat_map(|&performance| self.children(performance, Role::ActDefinition));
        definitions.flat_map(|definition| self.children(definition, Role::Code)).collect()
    }

    /// Procedure 34.
    fn code_rows(&mut self, codes: &[usize]) {
        for &code in codes {
            self.find_unless(self.code_is_row(code), 34, code);
        }
    }
}

fn one(numbers: &[usize]) -> Option<usize> {
    match numbers {
        [number] => Some(*number),
        _ => None,
    }
}

fn all_digits(text: &str) -> bool {
    !text.is_empty() && text.bytes().all(|b| b.is_ascii_digit())
}

/// Lower case hexadecimal digits in groups of 8, 4, 4, 4 and 12.
pub fn is_guid(text: &str) -> bool {
    let groups: Vec<_> = text.split('-').collect();
    let hexadecimal = |group: &&str| group.bytes().all(|b| matches!(b, b'0'..=b'9' | b'a'..=b'f'));
    groups.iter().map(|group| group.len()).eq([8, 4, 4, 4, 12]) && groups.iter().all(hexadecimal)
}

/// Eight digits that name a day of the Gregorian calendar in a year above 0.
pub fn is_day(text: &str) -> bool {
    if text.len() != 8 || !all_digits(text) {
        return false;
    }
    let number = |part: &str| part.parse::<u32>().expect("digits");
    let (year, month, day) = (number(&text[..4]), number(&text[4..6]), number(&text[6..]));
    let leap = year % 4 == 0 && (year % 100 != 0 || year % 400 == 0);
    let days = match month {
        2 if leap => 29,
        2 => 28,
        4 | 6 | 9 | 11 => 30,
        1..=12 => 31,
        _ => 0,
    };
    year > 0 && (1..=days).contains(&day)
}

pub fn is_labeler_code(text: &str) -> bool {
    let form = text.len() == 4 || text.len() == 5 && !text.starts_with('0');
    all_digits(text) && form && !["0000", "0001", "1500", "1800", "1900"].contains(&text)
}

/// What follows `tel:`: `+`, digits, two or more groups of hyphen and digits, at most one `;ext=` with digits.
pub fn is_telephone(text: &str) -> bool {
    let Some(number) = text.strip_prefix('+') else { return false };
    let (number, extension) = match number.split_once(";ext=") {
        Some((number, extension)) => (number, Some(extension)),
        None => (number, None),
    };
    let groups: Vec<_> = number.split('-').collect();
    groups.len() >= 3 && groups.iter().all(|group| all_digits(group)) && extension.is_none_or(all_digits)
}
