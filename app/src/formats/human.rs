//! For readers: a line for each finding, with or without an excerpt.

use super::{Format, Reading};
use crate::check::{Draft, Summary, Verdict};
use crate::engine::Refusal;
use crate::text::{excerpt, Excerpt, Lines};
use crate::words;
use codespan_reporting::diagnostic::{Diagnostic, Label};
use codespan_reporting::files::{Error, Files};
use codespan_reporting::term::termcolor::{Buffer, Color, ColorSpec, WriteColor};
use codespan_reporting::term::{self, Config};
use std::io::{self, Write};
use std::ops::Range;

pub struct Human {
    pub excerpts: bool,
    pub colours: bool,
}

impl Format for Human {
    fn draft(&self, draft: &Draft) -> io::Result<Vec<u8>> {
        let name = draft.name();
        let mut out = self.buffer();
        match &draft.verdict {
            Verdict::Judged(_, judged) if judged.findings.is_empty() => {
                write!(out, "{name}: ")?;
                coloured(&mut out, Color::Green, "clean\n")?;
            }
            Verdict::Judged(document, judged) => {
                let reading = Reading::of(&document.bytes, judged);
                let mut all = reading.found().peekable();
                while let Some(found) = all.next() {
                    let (line, column) = found.start;
                    write!(out, "{name}:{line}:{column}: ")?;
                    coloured(&mut out, Color::Red, &found.finding.procedure.to_string())?;
                    writeln!(out, " {}", found.short())?;
                    // What is found at one element shares its excerpt.
                    let first = found.finding.first;
                    if self.excerpts && all.peek().is_none_or(|next| next.finding.first != first) {
                        let excerpt = excerpt(&document.bytes, &reading.lines, first as usize, 1 + found.name.len());
                        self.write_excerpt(&mut out, &excerpt, Some(found.path))?;
                    }
                }
            }
            Verdict::Refused(document, refusal) => self.write_refusal(&mut out, &name, &document.bytes, document.length, *refusal)?,
            // It is complained of elsewhere.
            Verdict::Unread(_) => {}
        }
        Ok(out.into_inner())
    }

    fn end(&self, summary: &Summary) -> Vec<u8> {
        format!("{}\n", summary.line()).into_bytes()
    }
}

impl Human {
    fn buffer(&self) -> Buffer {
        if self.colours {
            Buffer::ansi()
        } else {
            Buffer::no_color()
        }
    }

    fn write_refusal(&self, out: &mut Buffer, name: &str, document: &[u8], length: usize, refusal: Refusal) -> io::Result<()> {
        let excerpt = words::is_in_document(refusal).then(|| excerpt(document, &Lines::of(document), refusal.place, 1));
        match &excerpt {
            Some(excerpt) => write!(out, "{name}:{}:{}: ", excerpt.line, excerpt.column)?,
            None => write!(out, "{name}: ")?,
        }
        coloured(out, Color::Yellow, &format!("refused {}", refusal.number))?;
        writeln!(out, " {}", words::refused(refusal, length))?;
        match excerpt {
            Some(excerpt) if self.excerpts => self.write_excerpt(out, &excerpt, None),
            _ => Ok(()),
        }
    }

    /// The excerpt with a caret below what it is about, then the path.
    fn write_excerpt(&self, out: &mut Buffer, excerpt: &Excerpt, path: Option<String>) -> io::Result<()> {
        let label = Label::primary((), excerpt.mark.clone());
        let diagnostic = Diagnostic::error().with_labels(vec![label]).with_notes(path.into_iter().collect());
        let mut whole = self.buffer();
        term::emit(&mut whole, &Config::default(), &Shown(excerpt), &diagnostic).map_err(io::Error::other)?;
        // Its first two lines say what ours has said: the severity and the place.
        let body = whole.as_slice().split_inclusive(|&byte| byte == b'\n').skip(2);
        body.into_iter().try_for_each(|line| out.write_all(line))
    }
}

fn coloured(out: &mut Buffer, colour: Color, text: &str) -> io::Result<()> {
    out.set_color(ColorSpec::new().set_fg(Some(colour)).set_bold(true))?;
    out.write_all(text.as_bytes())?;
    out.reset()
}

/// An excerpt as the only line of a file, which has its number all the same.
struct Shown<'a>(&'a Excerpt);

impl<'a> Files<'a> for Shown<'a> {
    type FileId = ();
    type Name = &'a str;
    type Source = &'a str;

    fn name(&'a self, _: ()) -> Result<&'a str, Error> {
        Ok("")
    }

    fn source(&'a self, _: ()) -> Result<&'a str, Error> {
        Ok(&self.0.text)
    }

    fn line_index(&'a self, _: (), _: usize) -> Result<usize, Error> {
        Ok(0)
    }

    fn line_number(&'a self, _: (), _: usize) -> Result<usize, Error> {
        Ok(self.0.line)
    }

    fn line_range(&'a self, _: (), _: usize) -> Result<Range<usize>, Error> {
        Ok(0..self.0.text.len())
    }
}
