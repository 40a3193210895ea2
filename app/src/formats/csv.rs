//! A table for a spreadsheet (RFC 4180): a line for each finding, clean draft, refusal and file that cannot be read.

use super::{place_of, Format, Reading};
use crate::check::{Draft, Verdict};
use crate::words;
use std::io;

pub struct Csv;

const HEADER: [&str; 13] =
    ["file", "verdict", "number", "line", "column", "end line", "end column", "first", "after", "path", "words", "todo", "printed"];

impl Format for Csv {
    fn begin(&self) -> Vec<u8> {
        row(HEADER.map(String::from))
    }

    fn draft(&self, draft: &Draft) -> io::Result<Vec<u8>> {
        let empty = String::new;
        let file = draft.name();
        let short = |verdict: &str, words: String| {
            let [file, verdict] = [file.clone(), verdict.to_string()];
            row([file, verdict, empty(), empty(), empty(), empty(), empty(), empty(), empty(), empty(), words, empty(), empty()])
        };
        Ok(match &draft.verdict {
            Verdict::Judged(_, judged) if judged.findings.is_empty() => short("clean", empty()),
            Verdict::Judged(document, judged) => {
                let reading = Reading::of(&document.bytes, judged);
                let rows = reading.found().flat_map(|found| {
                    row([
                        file.clone(),
                        "finding".to_string(),
                        found.finding.procedure.to_string(),
                        found.start.0.to_string(),
                        found.start.1.to_string(),
                        found.end.0.to_string(),
                        found.end.1.to_string(),
                        found.finding.first.to_string(),
                        found.finding.after.to_string(),
                        found.path.clone(),
                        found.short().to_string(),
                        found.todo().to_string(),
                        found.printed().to_string(),
                    ])
                });
                rows.collect()
            }
            Verdict::Refused(document, refusal) => {
                let place = place_of(&document.bytes, *refusal);
                row([
                    file,
                    "refused".to_string(),
                    refusal.number.to_string(),
                    place.map(|place| place.0.to_string()).unwrap_or_default(),
                    place.map(|place| place.1.to_string()).unwrap_or_default(),
                    empty(),
                    empty(),
                    refusal.place.to_string(),
                    empty(),
                    empty(),
                    words::refused(*refusal, document.length),
                    words::refusal(refusal.number).map(|words| words.todo.clone()).unwrap_or_default(),
                    empty(),
                ])
            }
            Verdict::Unread(why) => short("unread", why.clone()),
        })
    }
}

fn row(fields: [String; HEADER.len()]) -> Vec<u8> {
    format!("{}\r\n", fields.map(|text| field(&text)).join(",")).into_bytes()
}

/// A field, quoted where it has to be. One that a spreadsheet would take for a formula gets an apostrophe before it, so that nothing is run.
fn field(text: &str) -> String {
    let guard = if text.starts_with(['=', '+', '-', '@']) { "'" } else { "" };
    if text.contains(['"', ',', '\r', '\n']) {
        format!("\"{guard}{}\"", text.replace('"', "\"\""))
    } else {
        format!("{guard}{text}")
    }
}
