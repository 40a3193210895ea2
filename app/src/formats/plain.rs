//! The printed form of document 01: numbers alone.

use super::Format;
use crate::check::{Draft, Verdict};
use std::io;

/// Where there are several drafts, the name of each stands on a line before its answer.
pub struct Plain {
    pub headings: bool,
}

impl Format for Plain {
    fn draft(&self, draft: &Draft) -> io::Result<Vec<u8>> {
        let mut text = if self.headings { format!("{}:\n", draft.name()) } else { String::new() };
        match &draft.verdict {
            Verdict::Judged(_, judged) => {
                text.push_str(&format!("findings {}\n", judged.findings.len()));
                for finding in &judged.findings {
                    text.push_str(&format!("{} {} {}\n", finding.procedure, finding.first, finding.after));
                }
            }
            Verdict::Refused(_, refusal) => text.push_str(&format!("refused {} at {}\n", refusal.number, refusal.place)),
            // It is complained of elsewhere.
            Verdict::Unread(_) => text.clear(),
        }
        Ok(text.into_bytes())
    }
}
