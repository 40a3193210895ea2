//! Places in a document as lines and columns, excerpts, and text as it is shown on a terminal.

use std::io::Write;
use std::ops::Range;

/// Bytes between two places whose characters are counted beforehand, so that no column is found by a walk along a long line.
const STRIDE: usize = 512;

/// The most characters of a line that an excerpt has before and after the place that it is about.
const BEFORE: usize = 60;
const AFTER: usize = 100;

/// Stands for the part of a line that an excerpt leaves out.
const CUT: &str = "…";

/// Where the lines of a document start. A line ends at LF, CR LF or CR.
pub struct Lines {
    starts: Vec<usize>,
    /// Characters before each `STRIDE`th byte.
    characters: Vec<usize>,
}

impl Lines {
    pub fn of(document: &[u8]) -> Lines {
        let ends = |&place: &usize| match document[place] {
            b'\n' => true,
            b'\r' => document.get(place + 1) != Some(&b'\n'),
            _ => false,
        };
        let after_ends = (0..document.len()).filter(ends).map(|place| place + 1);
        let starts = std::iter::once(0).chain(after_ends).collect();
        let strides = document.chunks(STRIDE).scan(0, |before, stride| {
            let count = *before;
            *before += count_characters(stride);
            Some(count)
        });
        Lines { starts, characters: strides.collect() }
    }

    /// The line and the column of a byte, both from 1; columns count characters. The document's length has a place too.
    pub fn place(&self, document: &[u8], byte: usize) -> (usize, usize) {
        let (line, start) = self.line_at(byte);
        (line, self.before(document, byte) - self.before(document, start) + 1)
    }

    /// The bytes of a line, numbered from 1, without its end; none of a line that is not there.
    pub fn line_text<'a>(&self, document: &'a [u8], line: usize) -> &'a [u8] {
        let Some(&start) = line.checked_sub(1).and_then(|index| self.starts.get(index)) else { return &[] };
        let after = self.starts.get(line).copied().unwrap_or(document.len());
        let text = document.get(start..after).unwrap_or_default();
        let text = text.strip_suffix(b"\n").unwrap_or(text);
        text.strip_suffix(b"\r").unwrap_or(text)
    }

    /// The line of a byte, from 1, and the byte at which it starts.
    fn line_at(&self, byte: usize) -> (usize, usize) {
        let line = self.starts.partition_point(|&start| start <= byte);
        (line, self.starts[line - 1])
    }

    /// How many characters stand before a byte.
    fn before(&self, document: &[u8], byte: usize) -> usize {
        let byte = byte.min(document.len());
        let stride = (byte / STRIDE).min(self.characters.len().saturating_sub(1));
        self.characters.get(stride).map_or(0, |count| count + count_characters(&document[stride * STRIDE..byte]))
    }
}

/// A character is counted at its first byte, so a byte that only carries one on is not counted.
fn count_characters(bytes: &[u8]) -> usize {
    bytes.iter().filter(|&&byte| !carries_on(byte)).count()
}

fn carries_on(byte: u8) -> bool {
    byte & 0xC0 == 0x80
}

/// A part of a line, made to be shown: `text` has no control or format character but the tab, and its bytes `mark` are what it is about.
pub struct Excerpt {
    pub line: usize,
    pub column: usize,
    pub text: String,
    pub mark: Range<usize>,
}

/// The line around `length` bytes from a place on. A long line is cut, so that no excerpt is long.
pub fn excerpt(document: &[u8], lines: &Lines, first: usize, length: usize) -> Excerpt {
    let (line, column) = lines.place(document, first);
    let whole = lines.line_text(document, line);
    let at = (first - lines.line_at(first).1).min(whole.len());
    let start = (0..at).rev().filter(|&place| !carries_on(whole[place])).take(BEFORE).last().unwrap_or(at);
    let after = (at..whole.len()).filter(|&place| !carries_on(whole[place])).nth(AFTER).unwrap_or(whole.len());
    let marked = (at + length).min(after);

    let mut text = String::new();
    if start > 0 {
        text.push_str(CUT);
    }
    show(&whole[start..at], true, &mut text);
    let mark = text.len();
    show(&whole[at..marked], true, &mut text);
    let mark = mark..text.len();
    show(&whole[marked..after], true, &mut text);
    if after < whole.len() {
        text.push_str(CUT);
    }
    Excerpt { line, column, text, mark }
}

/// Bytes for a terminal: characters as they are, but control and format characters and bytes that are no UTF-8 as visible escapes.
pub fn shown(bytes: &[u8]) -> String {
    let mut text = String::with_capacity(bytes.len());
    show(bytes, false, &mut text);
    text
}

fn show(bytes: &[u8], keep_tabs: bool, text: &mut String) {
    for chunk in bytes.utf8_chunks() {
        for character in chunk.valid().chars() {
            if (character.is_control() && !(keep_tabs && character == '\t')) || is_format(character) {
                text.extend(character.escape_default());
            } else {
                text.push(character);
            }
        }
        for byte in chunk.invalid() {
            text.push_str(&format!("\\x{byte:02x}"));
        }
    }
}

/// Characters that are not seen but change how others are: Unicode's format characters and the line and paragraph separators.
fn is_format(character: char) -> bool {
    matches!(character, '\u{AD}' | '\u{600}'..='\u{605}' | '\u{61C}' | '\u{6DD}' | '\u{70F}' | '\u{890}'..='\u{891}' | '\u{8E2}')
        || matches!(character, '\u{180E}' | '\u{200B}'..='\u{200F}' | '\u{2028}'..='\u{202E}' | '\u{2060}'..='\u{206F}' | '\u{FEFF}')
        || matches!(character, '\u{FFF9}'..='\u{FFFB}' | '\u{110BD}' | '\u{110CD}' | '\u{13430}'..='\u{1343F}' | '\u{1BCA0}'..='\u{1BCA3}')
        || matches!(character, '\u{1D173}'..='\u{1D17A}' | '\u{E0000}'..='\u{E007F}')
}

/// `1 draft`, `2 drafts`.
pub fn counted(count: usize, what: &str) -> String {
    format!("{count} {what}{}", if count == 1 { "" } else { "s" })
}

/// One line on standard error. Where that is closed there is nobody to tell.
pub fn complain(line: &str) {
    let _ = writeln!(std::io::stderr(), "{line}");
}

#[cfg(test)]
mod tests {
    use super::*;

    #[test]
    fn lines_end_at_lf_crlf_and_cr() {
        let document = b"ab\ncd\r\nef\rgh\r\r\n";
        let lines = Lines::of(document);
        let texts: Vec<_> = (1..=7).map(|line| lines.line_text(document, line)).collect();
        assert_eq!(texts, [&b"ab"[..], b"cd", b"ef", b"gh", b"", b"", b""]);
        let places: Vec<_> = [0, 1, 2, 3, 5, 6, 7, 10, 13, 14, 15, 99].iter().map(|&byte| lines.place(document, byte)).collect();
        let expected = [(1, 1), (1, 2), (1, 3), (2, 1), (2, 3), (2, 4), (3, 1), (4, 1), (5, 1), (5, 2), (6, 1), (6, 1)];
        assert_eq!(places, expected);
        assert_eq!(lines.line_text(document, 0), b"");
        assert_eq!(Lines::of(b"").place(b"", 0), (1, 1));
    }

    #[test]
    fn columns_count_characters() {
        let document = "aé漢𝄞b".as_bytes();
        let lines = Lines::of(document);
        let places: Vec<_> = [0, 1, 3, 6, 10, 11].iter().map(|&byte| lines.place(document, byte)).collect();
        assert_eq!(places, [(1, 1), (1, 2), (1, 3), (1, 4), (1, 5), (1, 6)]);
    }

    #[test]
    fn columns_of_a_long_line_are_those_of_a_walk() {
        let document = "é<b/>漢\n".repeat(700) + &"xé".repeat(3_000);
        let lines = Lines::of(document.as_bytes());
        let (mut line, mut column) = (1, 1);
        for (byte, character) in document.char_indices() {
            assert_eq!(lines.place(document.as_bytes(), byte), (line, column));
            (line, column) = if character == '\n' { (line + 1, 1) } else { (line, column + 1) };
        }
        assert_eq!(lines.place(document.as_bytes(), document.len()), (line, column));
    }

    #[test]
    fn nothing_that_moves_a_terminal_is_shown_raw() {
        assert_eq!(shown("plain é漢 'text'".as_bytes()), "plain é漢 'text'");
        assert_eq!(shown(b"\x1b[2J\x07\t\r\n\x7f"), "\\u{1b}[2J\\u{7}\\t\\r\\n\\u{7f}");
        assert_eq!(shown(b"a\xff\xc3b"), "a\\xff\\xc3b");
        assert_eq!(
            shown("\u{9b}31m\u{202e}\u{200b}\u{feff}\u{2028}\u{e0041}".as_bytes()),
            "\\u{9b}31m\\u{202e}\\u{200b}\\u{feff}\\u{2028}\\u{e0041}"
        );
    }

    #[test]
    fn an_excerpt_marks_its_place_and_is_never_long() {
        let document = b"<a>\n\t<b x='1'/>\x85\n</a>";
        let lines = Lines::of(document);
        let found = excerpt(document, &lines, 5, 2);
        assert_eq!((found.line, found.column, found.text.as_str(), found.mark), (2, 2, "\t<b x='1'/>\\x85", 1..3));
        // A place at the end of a line, or of the document, marks nothing.
        let found = excerpt(document, &lines, document.len(), 1);
        assert_eq!((found.line, found.column, found.text.as_str(), found.mark), (3, 5, "</a>", 4..4));

        let long = "é".repeat(500_000);
        let lines = Lines::of(long.as_bytes());
        let found = excerpt(long.as_bytes(), &lines, 400_000, 2);
        assert_eq!((found.line, found.column), (1, 200_001));
        assert_eq!(found.text, format!("…{}…", "é".repeat(BEFORE + AFTER)));
        assert_eq!(&found.text[..found.mark.start], format!("…{}", "é".repeat(BEFORE)));
        assert_eq!(&found.text[found.mark], "é");
    }

    #[test]
    fn one_is_singular() {
        assert_eq!([0, 1, 2].map(|count| counted(count, "draft")), ["0 drafts", "1 draft", "2 drafts"]);
    }
}
