//! Documents at the limits of the reader: each just within or just past one of them.

use crate::random::Random;

/// A document that is within a limit, or one past it.
pub fn at_a_limit(random: &mut Random) -> Vec<u8> {
    let past = random.below(3).saturating_sub(1);
    let text = match random.below(60) {
        // The large ones are seldom, since they take long.
        0 => return long_document(past),
        1 => elements(16_384 + past),
        2..=11 => nested(random, 32 + past),
        12..=21 => attributes(random, 16 + past),
        22..=31 => name(random, 64 + past),
        32..=41 => attribute_value(random, 4_096 + past),
        42..=51 => content(random, 4_096 + past),
        _ => nested_in_one(random, 31 + past),
    };
    text.into_bytes()
}

fn long_document(past: usize) -> Vec<u8> {
    let mut bytes = b"<a/>".to_vec();
    bytes.resize(1_048_576 + past, b' ');
    bytes
}

fn elements(count: usize) -> String {
    format!("<a>{}</a>", "<b/>".repeat(count - 1))
}

fn nested(random: &mut Random, depth: usize) -> String {
    let inner = if random.in_100(50) { "<a/>" } else { "<a>x</a>" };
    format!("{}{inner}{}", "<a>".repeat(depth - 1), "</a>".repeat(depth - 1))
}

/// Elements beside one another at the deepest level, so that depth falls and rises.
fn nested_in_one(random: &mut Random, depth: usize) -> String {
    let siblings = "<b></b>".repeat(1 + random.below(3));
    format!("{}{siblings}<c/>{}", "<a>".repeat(depth), "</a>".repeat(depth))
}

fn attributes(random: &mut Random, count: usize) -> String {
    let mut tag = String::from("<a");
    let again = random.in_100(20);
    for number in 0..count {
        let number = if again && number == count - 1 { 0 } else { number };
        tag.push_str(&format!(" b{number}='{}'", random.pick(&["", "x", "&amp;"])));
    }
    tag + random.pick(&["/>", "></a>", "", "/ >", "></b>"])
}

fn name(random: &mut Random, length: usize) -> String {
    let name = "n".repeat(length);
    let other = "n".repeat(length - 1);
    match random.below(7) {
        0 => format!("<{name}/>"),
        1 => format!("<{name}></{name}>"),
        2 => format!("<a {name}=''/>"),
        3 => format!("<?{name}?><a/>"),
        4 => format!("<a/><?{name} x"),
        5 => format!("<a></{name}>"),
        _ => format!("<{name}><b/></{other}>"),
    }
}

fn attribute_value(random: &mut Random, length: usize) -> String {
    let value = filled(random, length);
    match random.below(4) {
        0 => format!("<a b='{value}'/>"),
        1 => format!("<a b='{value}' b=''/>"),
        2 => format!("<a b='{value}'>"),
        _ => format!("<document><title mediaType=\"{value}\">x</title></document>"),
    }
}

fn content(random: &mut Random, length: usize) -> String {
    let value = filled(random, length);
    let comment = format!("<!--{}-->", "c".repeat(length - 7));
    match random.below(7) {
        0 => format!("<a>{value}</a>"),
        1 => format!("<a>{comment}</a>"),
        2 => format!("<a>{value}</b>"),
        3 => format!("<a>{value}<b/></a>"),
        4 => format!("<a>{value}"),
        5 => format!("<document><title>{value}</title></document>"),
        _ => format!("<a><b/>{value}</a>"),
    }
}

/// A value of so many bytes, with references at its end or without.
fn filled(random: &mut Random, length: usize) -> String {
    let tail = random.pick(&["", "&amp;", "&#x10000;", "é", "🧪", " \t\r\n"]);
    "v".repeat(length - tail.len()) + tail
}
