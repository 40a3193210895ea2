//! `check`: judges drafts under the tables and prints what was found, in the order of the paths.

use crate::engine::{self, Engine, Judged, Refusal};
use crate::files::{self, Input, Unread};
use crate::formats::{self, Format, FormatName};
use crate::tables::{self, Rejected};
use crate::text::{complain, counted, shown};
use crate::Status;
use clap::Args;
use indicatif::{ProgressBar, ProgressFinish, ProgressStyle};
use std::io::{self, Write};
use std::num::NonZeroUsize;
use std::os::unix::ffi::OsStrExt;
use std::path::{Path, PathBuf};

/// Drafts that are judged before their answers are printed: so that memory stays small, whatever the drafts are.
const BATCH: usize = 32;

#[derive(Args)]
pub struct CheckArgs {
    /// The tables file that the drafts are judged under
    #[arg(long, value_name = "FILE")]
    tables: PathBuf,
    /// How the answers are printed
    #[arg(long, value_enum, default_value = "human")]
    format: FormatName,
    /// Drafts that are judged at the same time [default: one for each processor]
    #[arg(long, value_name = "NUMBER")]
    threads: Option<NonZeroUsize>,
    /// Drafts, and folders of drafts (all files ending in .xml in them)
    #[arg(required = true, value_name = "PATH")]
    paths: Vec<PathBuf>,
}

/// A draft and what is said of it.
pub struct Draft<'a> {
    pub path: &'a Path,
    pub verdict: Verdict,
}

impl Draft<'_> {
    /// Its path, as it is shown.
    pub fn name(&self) -> String {
        shown(self.path.as_os_str().as_bytes())
    }
}

pub enum Verdict {
    Judged(Input, Judged),
    Refused(Input, Refusal),
    Unread(String),
}

/// How many drafts were how.
#[derive(Default)]
pub struct Summary {
    pub clean: usize,
    pub broken: usize,
    pub findings: usize,
    pub refused: usize,
    pub unread: usize,
}

impl Summary {
    fn of(verdict: &Verdict) -> Summary {
        match verdict {
            Verdict::Judged(_, judged) if judged.findings.is_empty() => Summary { clean: 1, ..Summary::default() },
            Verdict::Judged(_, judged) => Summary { broken: 1, findings: judged.findings.len(), ..Summary::default() },
            Verdict::Refused(..) => Summary { refused: 1, ..Summary::default() },
            Verdict::Unread(_) => Summary { unread: 1, ..Summary::default() },
        }
    }

    fn add(&mut self, other: &Summary) {
        self.clean += other.clean;
        self.broken += other.broken;
        self.findings += other.findings;
        self.refused += other.refused;
        self.unread += other.unread;
    }

    pub fn drafts(&self) -> usize {
        self.clean + self.broken + self.refused + self.unread
    }

    /// `4 drafts: 1 clean, 1 with 6 findings, 1 refused, 1 not read`: what there is none of is left out.
    pub fn line(&self) -> String {
        let parts = [
            (self.clean, format!("{} clean", self.clean)),
            (self.broken, format!("{} with {}", self.broken, counted(self.findings, "finding"))),
            (self.refused, format!("{} refused", self.refused)),
            (self.unread, format!("{} not read", self.unread)),
        ];
        let said: Vec<_> = parts.into_iter().filter(|&(count, _)| count > 0).map(|(_, words)| words).collect();
        let between = if said.is_empty() { "" } else { ": " };
        format!("{}{between}{}", counted(self.drafts(), "draft"), said.join(", "))
    }

    pub fn status(&self) -> Status {
        match self {
            Summary { unread: 1.., .. } => Status::Failed,
            Summary { refused: 1.., .. } => Status::Refused,
            Summary { broken: 1.., .. } => Status::Findings,
            _ => Status::Clean,
        }
    }
}

/// The draft of a path, judged.
fn judge<'a>(engine: &mut Engine, tables: &Input, found: &'a Result<PathBuf, Unread>) -> Draft<'a> {
    let (path, document) = match found {
        Ok(path) => (path, files::read(path).map_err(|why| why.to_string())),
        Err(unread) => (&unread.path, Err(unread.why.to_string())),
    };
    let verdict = match document {
        Err(why) => Verdict::Unread(why),
        Ok(document) => match files::judge(engine, &document, tables) {
            Ok(judged) => Verdict::Judged(document, judged),
            Err(refusal) => Verdict::Refused(document, refusal),
        },
    };
    Draft { path, verdict }
}

/// What a thread hands back of a draft: how it counts, what is printed of it, and one line of complaint where it cannot be read.
struct Answer {
    summary: Summary,
    printed: io::Result<Vec<u8>>,
    complaint: Option<String>,
}

fn answer(engine: &mut Engine, tables: &Input, found: &Result<PathBuf, Unread>, format: &dyn Format) -> Answer {
    let draft = judge(engine, tables, found);
    let complaint = match &draft.verdict {
        Verdict::Unread(why) => Some(format!("{}: cannot be read: {why}", draft.name())),
        _ => None,
    };
    Answer { summary: Summary::of(&draft.verdict), printed: format.draft(&draft), complaint }
}

/// An error is one of standard output.
pub fn run(args: &CheckArgs) -> io::Result<Status> {
    let tables = match tables::read(&args.tables, &mut Engine::new()) {
        Ok(bytes) => Input { length: bytes.len(), bytes },
        Err(rejected) => {
            // The plain form has a line for it, besides the words.
            if let (FormatName::Plain, Rejected::Refused(fault)) = (args.format, &rejected) {
                writeln!(io::stdout(), "refused {} at {}", fault.refusal.number, fault.refusal.place)?;
            }
            return Ok(rejected.told(&args.tables));
        }
    };
    let drafts = files::drafts(&args.paths);
    if drafts.is_empty() {
        complain("there is no draft: no file in what is named ends in .xml");
        return Ok(Status::Failed);
    }
    let format = formats::format(args.format, &args.tables, &tables.bytes, drafts.len());
    let threads = args.threads.or(std::thread::available_parallelism().ok()).map_or(1, NonZeroUsize::get);
    let progress = progress(drafts.len());
    let mut out = io::stdout().lock();
    let mut summary = Summary::default();
    let mut between: &[u8] = &[];

    out.write_all(&format.begin())?;
    for batch in drafts.chunks(BATCH) {
        let work = |engine: &mut Engine, found: &_| answer(engine, &tables, found, format.as_ref());
        let answers = engine::on_all(batch, threads, work, || progress.inc(1));
        // Nothing is printed in the middle of a line of progress.
        progress.suspend(|| {
            answers.into_iter().try_for_each(|answer| {
                summary.add(&answer.summary);
                answer.complaint.iter().for_each(|line| complain(line));
                let printed = answer.printed?;
                if !printed.is_empty() {
                    out.write_all(between)?;
                    between = format.between();
                }
                out.write_all(&printed)
            })
        })?;
    }
    progress.finish_and_clear();
    out.write_all(&format.end(&summary))?;
    Ok(summary.status())
}

/// Progress on standard error, shown only where that is a terminal.
pub fn progress(drafts: usize) -> ProgressBar {
    let style = ProgressStyle::with_template("{bar:40} {pos} of {len} drafts, {eta} left").unwrap_or_else(|_| ProgressStyle::default_bar());
    ProgressBar::new(drafts as u64).with_style(style).with_finish(ProgressFinish::AndClear)
}
