//! Which elements are known, and as what.

use crate::tree::Tree;

/// The two document types that are judged.
#[derive(Clone, Copy, Debug, PartialEq, Eq)]
pub enum Kind {
    Registration,
    Request,
}

impl Kind {
    pub fn of_code(code: &str) -> Option<Kind> {
        [Kind::Registration, Kind::Request].into_iter().find(|kind| kind.code() == code)
    }

    pub fn code(self) -> &'static str {
        match self {
            Kind::Registration => "51725-0",
            Kind::Request => "51726-8",
        }
    }
}

/// What a known element is. Entities and organisations have a level: 1 the labeler's, 2 the registrant's, 3 an
/// establishment's, 4 an agent's or importer's.
#[derive(Clone, Copy, Debug, PartialEq, Eq)]
pub enum Role {
    Document,
    Id,
    Code,
    Title,
    Br,
    EffectiveTime,
    SetId,
    VersionNumber,
    Author,
    Component,
    StructuredBody,
    Time,
    Entity(u8),
    Organisation(u8),
    Name,
    ContactParty,
    ContactPerson,
    Telecom,
    Addr,
    StreetAddressLine,
    City,
    State,
    PostalCode,
    Country,
    Performance,
    ActDefinition,
}

impl Role {
    /// What an element of this name is in a known element of this role, in a document of this type.
    fn lists(self, name: &str, kind: Option<Kind>) -> Option<Role> {
        let listed = match (self, name) {
            (Role::Document, "id") => Role::Id,
            (Role::Document, "code") => Role::Code,
            (Role::Document, "title") => Role::Title,
            (Role::Document, "effectiveTime") => Role::EffectiveTime,
            (Role::Document, "setId") => Role::SetId,
            (Role::Document, "versionNumber") => Role::VersionNumber,
            (Role::Document, "author") => Role::Author,
            (Role::Document, "component") => Role::Component,
            (Role::Title, "br") => Role::Br,
            (Role::Component, "structuredBody") => Role::StructuredBody,
            (Role::Author, "time") if kind.is_some() => Role::Time,
            (Role::Author, "assignedEntity") if kind.is_some() => Role::Entity(1),
            (Role::Entity(1), "representedOrganization") => Role::Organisation(1),
            (Role::Entity(level @ 2..), "assignedOrganization") => Role::Organisation(level),
            (Role::Entity(3..), "performance") => Role::Performance,
            (Role::Organisation(_), "id") => Role::Id,
            (Role::Organisation(_), "name") => Role::Name,
            (Role::Organisation(1), "contactParty") if kind == Some(Kind::Request) => Role::ContactParty,
            (Role::Organisation(1), "assignedEntity") if kind == Some(Kind::Registration) => Role::Entity(2),
            (Role::Organisation(2 | 3), "contactParty") => Role::ContactParty,
            (Role::Organisation(level @ (2 | 3)), "assignedEntity") => Role::Entity(level + 1),
            (Role::Organisation(3), "addr") => Role::Addr,
            (Role::Organisation(4), "telecom") => Role::Telecom,
            (Role::ContactParty, "addr") => Role::Addr,
            (Role::ContactParty, "telecom") => Role::Telecom,
            (Role::ContactParty, "contactPerson") => Role::ContactPerson,
            (Role::ContactPerson, "name") => Role::Name,
            (Role::Addr, "streetAddressLine") => Role::StreetAddressLine,
            (Role::Addr, "city") => Role::City,
            (Role::Addr, "state") => Role::State,
            (Role::Addr, "postalCode") => Role::PostalCode,
            (Role::Addr, "country") => Role::Country,
            (Role::Performance, "actDefinition") => Role::ActDefinition,
            (Role::ActDefinition, "code") => Role::Code,
            _ => return None,
        };
        Some(listed)
    }

    /// The attributes that document 01 lists for an element of this role.
    pub fn attributes(self) -> &'static [&'static str] {
        match self {
            Role::Document => &["xmlns", "xmlns:xsi", "xsi:schemaLocation"],
            Role::Id => &["root", "extension"],
            Role::SetId => &["root"],
            Role::Code => &["code", "codeSystem", "displayName"],
            Role::EffectiveTime | Role::VersionNumber | Role::Telecom => &["value"],
            Role::Title => &["mediaType"],
            _ => &[],
        }
    }
}

/// The role of each element, by number; none for an element that is not known.
pub fn roles(tree: &Tree, kind: Option<Kind>) -> Vec<Option<Role>> {
    let mut roles: Vec<Option<Role>> = Vec::new();
    for node in &tree.nodes {
        let role = match node.parent {
            None => Some(Role::Document),
            Some(parent) => roles[parent].and_then(|role| role.lists(node.name, kind)),
        };
        roles.push(role);
    }
    roles
}
