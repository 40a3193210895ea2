//! SARIF 2.1.0, for tools that collect findings of many checkers.

use super::{place_of, uri, Format, Found, Reading};
use crate::check::{Draft, Summary, Verdict};
use crate::engine::Refusal;
use crate::files::Input;
use crate::words;
use serde_json::{json, Value};
use std::io;
use std::path::Path;

pub struct Sarif;

/// The rule of a file that cannot be read.
const UNREAD: &str = "unread";

impl Format for Sarif {
    fn begin(&self) -> Vec<u8> {
        let words = words::all();
        let procedures = words.procedures.iter().map(|words| rule(&format!("procedure-{}", words.number), &words.asks, &words.todo));
        let refusals = words.refusals.iter().map(|words| rule(&format!("refusal-{}", words.number), &words.says, &words.todo));
        let unread = rule(UNREAD, "The file can be read.", "Look whether it is there and may be read.");
        let rules: Vec<_> = procedures.chain(refusals).chain([unread]).collect();
        let driver = json!({ "name": "Benchdowel", "version": env!("CARGO_PKG_VERSION"), "rules": rules });
        let schema = "https://docs.oasis-open.org/sarif/sarif/v2.1.0/os/schemas/sarif-schema-2.1.0.json";
        let text = format!(
            "{{\"$schema\":\"{schema}\",\"version\":\"2.1.0\",\"runs\":[{{\"tool\":{{\"driver\":{driver}}},\"columnKind\":\"unicodeCodePoints\",\"results\":[\n"
        );
        text.into_bytes()
    }

    fn draft(&self, draft: &Draft) -> io::Result<Vec<u8>> {
        let results = match &draft.verdict {
            Verdict::Judged(document, judged) => {
                Reading::of(&document.bytes, judged).found().map(|found| finding(draft.path, &found).to_string()).collect()
            }
            Verdict::Refused(document, refusal) => vec![refused(draft.path, document, *refusal).to_string()],
            Verdict::Unread(why) => vec![result(UNREAD, &format!("The file cannot be read: {why}"), location(draft.path)).to_string()],
        };
        Ok(results.join(",\n").into_bytes())
    }

    fn between(&self) -> &'static [u8] {
        b",\n"
    }

    fn end(&self, summary: &Summary) -> Vec<u8> {
        format!("\n],\"invocations\":[{{\"executionSuccessful\":{}}}]}}]}}\n", summary.unread == 0).into_bytes()
    }
}

fn rule(id: &str, asks: &str, todo: &str) -> Value {
    json!({ "id": id, "shortDescription": { "text": asks }, "help": { "text": todo }, "defaultConfiguration": { "level": "error" } })
}

fn result(rule: &str, message: &str, location: Value) -> Value {
    json!({ "ruleId": rule, "level": "error", "message": { "text": message }, "locations": [location] })
}

fn location(path: &Path) -> Value {
    json!({ "physicalLocation": { "artifactLocation": { "uri": uri(path) } } })
}

fn finding(path: &Path, found: &Found) -> Value {
    let mut location = location(path);
    location["physicalLocation"]["region"] = json!({
        "startLine": found.start.0,
        "startColumn": found.start.1,
        "endLine": found.end.0,
        "endColumn": found.end.1,
        "byteOffset": found.finding.first,
        "byteLength": found.finding.after - found.finding.first,
    });
    location["logicalLocations"] = json!([{ "fullyQualifiedName": found.path, "kind": "element" }]);
    let message = format!("{} {}", found.finding.procedure, found.short());
    result(&format!("procedure-{}", found.finding.procedure), &message, location)
}

fn refused(path: &Path, document: &Input, refusal: Refusal) -> Value {
    let mut location = location(path);
    if let Some((line, column)) = place_of(&document.bytes, refusal) {
        location["physicalLocation"]["region"] = json!({
            "startLine": line,
            "startColumn": column,
            "endLine": line,
            "endColumn": column,
            "byteOffset": refusal.place,
            "byteLength": 0,
        });
    }
    let message = format!("refused {} {}", refusal.number, words::refused(refusal, document.length));
    result(&format!("refusal-{}", refusal.number), &message, location)
}
