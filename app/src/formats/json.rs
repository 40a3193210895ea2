//! One JSON document with everything.

use super::{place_of, uri, Format, Found, Reading};
use crate::check::{Draft, Summary, Verdict};
use crate::files::Input;
use crate::words;
use serde_json::{json, Value};
use sha2::{Digest, Sha256};
use std::io;
use std::path::Path;

pub struct Json {
    tables: Value,
}

impl Json {
    pub fn new(path: &Path, tables: &[u8]) -> Json {
        Json { tables: json!({ "file": path.to_string_lossy(), "uri": uri(path), "bytes": tables.len(), "sha256": sha256(tables) }) }
    }
}

impl Format for Json {
    fn begin(&self) -> Vec<u8> {
        format!("{{\"benchdowel\":\"{}\",\"tables\":{},\"drafts\":[\n", env!("CARGO_PKG_VERSION"), self.tables).into_bytes()
    }

    fn draft(&self, draft: &Draft) -> io::Result<Vec<u8>> {
        let verdict = match &draft.verdict {
            Verdict::Judged(document, judged) => {
                let reading = Reading::of(&document.bytes, judged);
                let findings: Vec<_> = reading.found().map(finding).collect();
                let verdict = if findings.is_empty() { "clean" } else { "findings" };
                json!({ "verdict": verdict, "bytes": document.length, "sha256": sha256(&document.bytes), "findings": findings })
            }
            Verdict::Refused(document, refusal) => {
                let place = place_of(&document.bytes, *refusal);
                let refusal = json!({
                    "number": refusal.number,
                    "value": refusal.place,
                    "line": place.map(|place| place.0),
                    "column": place.map(|place| place.1),
                    "words": words::refused(*refusal, document.length),
                    "todo": words::refusal(refusal.number).map(|words| &words.todo),
                });
                json!({ "verdict": "refused", "bytes": document.length, "sha256": whole(document).map(sha256), "refusal": refusal })
            }
            Verdict::Unread(why) => json!({ "verdict": "unread", "error": why }),
        };
        let mut object = json!({ "file": draft.path.to_string_lossy(), "uri": uri(draft.path) });
        if let (Value::Object(object), Value::Object(verdict)) = (&mut object, verdict) {
            object.extend(verdict);
        }
        Ok(object.to_string().into_bytes())
    }

    fn between(&self) -> &'static [u8] {
        b",\n"
    }

    fn end(&self, summary: &Summary) -> Vec<u8> {
        let summary = json!({
            "drafts": summary.drafts(),
            "clean": summary.clean,
            "broken": summary.broken,
            "findings": summary.findings,
            "refused": summary.refused,
            "unread": summary.unread,
        });
        format!("\n],\"summary\":{summary}}}\n").into_bytes()
    }
}

fn finding(found: Found) -> Value {
    json!({
        "procedure": found.finding.procedure,
        "first": found.finding.first,
        "after": found.finding.after,
        "line": found.start.0,
        "column": found.start.1,
        "end_line": found.end.0,
        "end_column": found.end.1,
        "path": found.path,
        "words": found.short(),
        "todo": found.todo(),
        "printed": found.printed(),
    })
}

/// The bytes of a file that was read whole.
fn whole(document: &Input) -> Option<&[u8]> {
    (document.bytes.len() == document.length).then_some(&document.bytes)
}

fn sha256(bytes: &[u8]) -> String {
    Sha256::digest(bytes).iter().map(|byte| format!("{byte:02x}")).collect()
}
