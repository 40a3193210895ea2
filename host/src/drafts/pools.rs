//! Values and names that are right, or nearly so. Values are raw: as they stand in a document.

use crate::random::Random;

pub const NAMES: &[&str] = &[
    "Acme drug company", "Mann's drug Store", "Müller & Söhne", "Ōsaka \"Pharma\"", "Simmons Reps Company",
    "Waytogo importers", "A<B> 🧪", " ", "x",
];

pub const ELEMENTS: &[&str] = &[
    "document", "id", "code", "title", "br", "effectiveTime", "setId", "versionNumber", "author", "component",
    "structuredBody", "time", "assignedEntity", "representedOrganization", "assignedOrganization", "name", "contactParty",
    "addr", "telecom", "contactPerson", "streetAddressLine", "city", "state", "postalCode", "country", "performance",
    "actDefinition", "Id", "ids", "i", "names", "section", "_", "a-b.c1",
];

pub const ATTRIBUTES: &[&str] = &[
    "root", "extension", "code", "codeSystem", "displayName", "value", "mediaType", "xmlns", "xmlns:xsi",
    "xsi:schemaLocation", "Root", "cod", "codes", "xsi:type", ":", "_x",
];

/// Ids of documents and sets.
const GUIDS: &[&str] = &[
    "0a5d2f34-6baa-9455-e3e7-0682c2094cac", "0A5d2f34-6baa-9455-e3e7-0682c2094cac", "0a5d2f346baa-9455-e3e7-0682-c2094cac",
    "0a5d2f34-6baa-9455-e3e7-0682c2094cag", "0a5d2f34-6baa-9455-e3e7-0682c2094ca", "0a5d2f34-6baa-9455-e3e7-0682c2094cacc",
    "&#x30;a5d2f34-6baa-9455-e3e7-0682c2094cac", "0a5d2f34-6baa-9455-e3e7-0682c2094cac ", "{0a5d2f34-6baa-9455-e3e7-0682c2094cac}",
];

/// Days.
const DAYS: &[&str] = &[
    "20240229", "20230229", "19000229", "20000229", "00000101", "00010101", "20241301", "20240001", "20240100", "20240131",
    "20240132", "20240430", "20240431", "20240631", "20241131", "20241231", "2024022", "202402290", "2024O229", "2024&#48;229",
    "20240229 ", "99991231", "20240930", "20240931", "+2024022",
];

/// Versions.
const VERSIONS: &[&str] = &[
    "1", "0", "007", "000000001", "000000000", "999999999", "1000000000", "0000000001", "+1", "-1", "1.0", "&#49;", "2", "3", "4", "5",
];

/// Telephone numbers and other telecoms.
const TELECOMS: &[&str] = &[
    "tel:+1-800-555-1213;ext=112", "tel:+18005551213", "tel:+1-800", "tel:+1-800-555", "tel:1-800-555-1213", "tel:+1-800-555-1213;ext=",
    "tel:+1-800-555-1213;ext=1;ext=2", "tel:+1--555-1213", "tel:+1-800-555-12a3", "tel:+-800-555", "tel:+1-800-555-", "tel:", "TEL:+1-800-555-1213",
    "tel:+1-800-555-1213;EXT=1", "tel:+1-800-555-1213 ", "tel:&#43;1-800-555-1213", "tel:+1-800;ext=1-555", "mailto:a@b.c", "mailto:", "Mailto:a@b.c",
    " tel:+1-800-555-1213", "mailt&#111;:a@b.c", "tel:+1-800-555;", "tel:+1-800-555-1213;ext=1a", "te", "tel",
];

/// Codes and systems.
const CODES: &[&str] = &[
    "51725-0", "51726-8", "51725-1", "51726-8 ", "34391-3", "2.16.840.1.113883.6.1", "2.16.840.1.113883.6.11", "1.3.6.1.4.1.519.1",
    "1.3.6.1.4.1.519.1 ", "2.16.840.1.113883.6.69", "2.16.840.1.113883.3.26.1.1", "C73330", "C73599", "c73330", "C43360", "&#67;73330",
    "51726&#x2d;8", "C73330&#x20;", "C7 3330",
];

/// Labeler codes.
const LABELER_CODES: &[&str] = &[
    "1234", "01234", "0001", "0000", "1500", "1800", "1900", "12345", "123", "123456", "12a4", "0002", "10000", "1&#50;34", "00000",
];

/// Text, references and white space.
const TEXTS: &[&str] = &[
    "", " ", "\t", "\n", "\r\n", "a b", "Establishment registration",
    "ESTABLISHMENT REGISTRATION", "NDC labeler code request", "import", "IMPORT", "&amp;", "&lt;&gt;&quot;&apos;", "&#x41;", "&#xe9;", "é", "€", "🧪",
    "\u{feff}", "x\ry", "&#13;", "&#9;", "\u{85}", "&#x10FFFF;", "&#32;",
];

/// The references of the root.
const REFERENCES: &[&str] = &[
    "urn:hl7-org:v3", "urn:hl7-org:v3 http://www.accessdata.fda.gov/spl/schema/spl.xsd",
    "urn:hl7-org:v3  http://www.accessdata.fda.gov/spl/schema/spl.xsd", "urn:hl7-org:v3\nhttp://www.accessdata.fda.gov/spl/schema/spl.xsd",
    "urn:hl7-org:v3&#32;http://www.accessdata.fda.gov/spl/schema/spl.xsd", "http://www.w3.org/2001/XMLSchema-instance",
    "&#117;rn:hl7-org:v3",
];

/// Countries.
const COUNTRIES: &[&str] = &["USA", "USA", "IRL", "usa", "US", "USA ", "&#85;SA", "U&#x53;A", "", "DEU"];

const ALL: &[&[&str]] = &[GUIDS, DAYS, VERSIONS, TELECOMS, CODES, LABELER_CODES, TEXTS, REFERENCES, COUNTRIES];

/// Some value, mostly of the kind that suits an attribute of an element, or the text of an element if the attribute is empty.
pub fn value(random: &mut Random, element: &str, attribute: &str) -> &'static str {
    let suiting: &[&[&str]] = match (element, attribute) {
        ("effectiveTime", "value") => &[DAYS],
        ("versionNumber", "value") => &[VERSIONS],
        ("telecom", "value") => &[TELECOMS],
        ("setId", "root") => &[GUIDS],
        (_, "root") => &[GUIDS, CODES],
        (_, "extension") => &[LABELER_CODES],
        (_, "code" | "codeSystem") => &[CODES],
        (_, "xmlns" | "xmlns:xsi" | "xsi:schemaLocation") => &[REFERENCES],
        ("country", "") => &[COUNTRIES],
        _ => &[TEXTS],
    };
    let kinds = if random.in_100(85) { suiting } else { ALL };
    let kind = random.pick(kinds);
    random.pick(kind)
}

/// Values that make the tag or the text malformed.
pub const MALFORMED: &[&str] = &[
    "&", "&;", "&a;", "&amp", "&#;", "&#x;", "&#X41;", "&#x0;", "&#0;", "&#xD800;", "&#xFFFE;", "&#xFFFF;", "&#x110000;",
    "&#99999999999999999999;", "&#4294967361;", "<", "]]>", "&AMP;", "&#x41", "&#4a;", "& amp;", "&#x 41;", "&lt", "&#-1;",
];

/// Things to put between two pieces.
pub const PIECES: &[&[u8]] = &[
    b"<!DOCTYPE document>", b"<!DOCTYPE", b"<!doctype a>", b"<![CDATA[x]]>", b"<![CDATA[", b"<![cdata[x]]>", b"<!-- -->", b"<!---->", b"<!--->",
    b"<!-- -- -->", b"<!-- --->", b"<!--", b"<!-", b"<!", b"<!>", b"<?p?>", b"<?p d?>", b"<?p", b"<?p d", b"<??>", b"<? p?>", b"<?p?d?>", b"<?p:q d?>",
    b"<?xml version=\"1.0\"?>", b"<?XML version='1.0'?>", b"<?xml-stylesheet a?>", b"<?xml?>", b"]]>", b"&amp;", b"&#x41;", b"&x;", b"<a/>", b"<a>",
    b"</a>", b"<a:b/>", b"<:a/>", b"<1/>", b"<a b='1' b='2'/>", b"<a b=1/>", b"<a b/>", b"<a b='1'c='2'/>", b"<a b = '1'/>", b"<a / >", b"<\xC3\xA9/>",
    b"<a \xC3\xA9='1'/>", b"<a b='<'/>", b"<a b='>'/>", b"< a/>", b"</ a>", b"</document>", b"</document\n>", b"<?\xC3\xA9?>", b"<a:b></a:b>", b"\xEF\xBB\xBF",
];

/// Things to put anywhere among the bytes.
pub const SNIPPETS: &[&[u8]] = &[
    b"\xEF\xBB\xBF", b"]]>", b"]]", b"&", b"&amp;", b"&#x41;", b";", b"<", b">", b"/", b"/>", b"</", b"\"", b"'", b"=", b" ", b"\t", b"\r", b"\n", b"\r\n",
    b"\x00", b"\x01", b"\x7f", b"\x80", b"\xC0\x80", b"\xC3\xA9", b"\xC3", b"\xE2\x82\xAC", b"\xE2\x82", b"\xED\xA0\x80", b"\xEF\xBF\xBE", b"\xEF\xBF\xBF",
    b"\xEF\xBF\xBD", b"\xF0\x9F\xA7\xAA", b"\xF4\x90\x80\x80", b"\xF5", b"\xFF", b"\xF0\x80\x80\x80", b"\xE0\x80\x80", b"x", b"-", b"?", b"!", b":", b"\x0B", b"\x1F",
];

/// Fronts of a document.
pub const FRONTS: &[&str] = &[
    "<?xml version=\"1.0\" encoding=\"UTF-8\"?>", "<?xml version='1.0' encoding='utf-8'?>\n", "<?xml version='1.0'?>", "<?xml  version = '1.0'\tencoding\n= \"Utf-8\" ?>",
    "<?xml version=\"1.0\" standalone=\"yes\"?>", "<?xml version=\"1.0\" encoding=\"UTF-8\" standalone='no' ?>",
    "<?xml version=\"1.0\"?>\n<?xml-stylesheet href=\"http://www.accessdata.fda.gov/spl/stylesheet/spl.xml\" type=\"text/xsl\"?>\n", "\n", "<!-- c -->", "<?p?>",
];

pub const BAD_FRONTS: &[&str] = &[
    "<?xml version=\"1.1\"?>", "<?xml version=\"1.0\" encoding=\"ISO-8859-1\"?>", "<?xml version=\"1.0\" encoding=\"UTF8\"?>", "<?xml encoding=\"UTF-8\"?>",
    "<?xml encoding=\"UTF-8\" version=\"1.0\"?>", "<?xml version=\"1.0\"encoding=\"UTF-8\"?>", "<?xml version=\"1.0\" standalone=\"YES\"?>",
    "<?xml version=\"1.0\" standalone=\"no\" encoding=\"UTF-8\"?>", " <?xml version=\"1.0\"?>", "<?xml version=1.0?>", "<?xml version=\"1.0' ?>", "<?XML version=\"1.0\"?>",
    "<?xml version=\"1.0\" ?", "<?xml version=\"1.0\" encoding=\"\"?>", "\u{feff}", "x", "&#32;", "<?xml version=\"1.0\" a=\"b\"?>", "<?xml\u{a0}version=\"1.0\"?>",
    "<?xml version=\"1.0\"?><?xml version=\"1.0\"?>", "<?xml version=\"1.0\"/>", "<!DOCTYPE document>", "<?xml version=\"1.\"?>", "<?xml version=\" 1.0\"?>",
];

/// Operations with their display names in the code list.
pub const OPERATIONS: &[(&str, &str)] =
    &[("C43360", "manufacture"), ("C82401", "api manufacture"), ("C25391", "analysis"), ("C84731", "pack"), ("C73606", "relabel")];
