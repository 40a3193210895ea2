//! The night and what comes after it: `night` judges drafts and keeps them, `add` takes in rows that came later, `verify` judges all afresh.
//!
//! A verdict stands for the files that the store has taken in: the night's tables and those that were added. It is made by a check under
//! each file alone and the merge of the lists, which is the list under the joined files.

use crate::check::{self, Summary};
use crate::engine::{self, Engine, Finding};
use crate::files::{self, Input, Unread};
use crate::formats;
use crate::store::{self, Access, Answer, Digest, Draft, Listed, Standing, Store, TableFile, Verdict, Verdicts};
use crate::text::{complain, counted, shown, Lines};
use crate::{tables, words, Status};
use clap::Args;
use indicatif::ProgressBar;
use std::collections::{BTreeSet, HashSet};
use std::io::{self, Write};
use std::num::NonZeroUsize;
use std::os::unix::ffi::OsStrExt;
use std::path::{Path, PathBuf};
use std::time::SystemTime;

/// Bytes of drafts that are in memory at a time, or one draft.
const BATCH: usize = 64 * 1_048_576;

#[derive(Args)]
pub struct NightArgs {
    /// The store; one is made where there is none
    #[arg(long, value_name = "FILE")]
    store: PathBuf,
    /// The tables file that the drafts are judged under
    #[arg(long, value_name = "FILE")]
    tables: PathBuf,
    /// Drafts, and folders of drafts (all files ending in .xml in them)
    #[arg(required = true, value_name = "PATH")]
    paths: Vec<PathBuf>,
}

#[derive(Args)]
pub struct AddArgs {
    /// The store of a night
    #[arg(long, value_name = "FILE")]
    store: PathBuf,
    /// The rows, as a tables file
    #[arg(value_name = "ROWS")]
    rows: PathBuf,
}

#[derive(Args)]
pub struct VerifyArgs {
    /// The store of a night
    #[arg(long, value_name = "FILE")]
    store: PathBuf,
}

/// Why a command ends early: a line that is still to be said, or one that was, and the status.
enum Stop {
    Fault(String),
    Told(Status),
}

impl From<String> for Stop {
    fn from(line: String) -> Stop {
        Stop::Fault(line)
    }
}

impl From<Status> for Stop {
    fn from(status: Status) -> Stop {
        Stop::Told(status)
    }
}

/// What a command says on standard output, line by line, and its status.
struct Said {
    lines: Vec<String>,
    status: Status,
}

fn say(said: Result<Said, Stop>) -> io::Result<Status> {
    match said {
        Ok(said) => {
            let mut out = io::stdout().lock();
            said.lines.iter().try_for_each(|line| writeln!(out, "{line}"))?;
            out.flush()?;
            Ok(said.status)
        }
        Err(Stop::Fault(line)) => {
            complain(&line);
            Ok(Status::Failed)
        }
        Err(Stop::Told(status)) => Ok(status),
    }
}

/// An error is one of standard output.
pub fn run_night(args: &NightArgs) -> io::Result<Status> {
    say(night(&args.store, &args.tables, &args.paths))
}

pub fn run_add(args: &AddArgs) -> io::Result<Status> {
    say(add(&args.store, &args.rows))
}

pub fn run_verify(args: &VerifyArgs) -> io::Result<Status> {
    say(verify(&args.store))
}

/// Judges the drafts of a night under its tables. The store then has these drafts and no others.
///
/// Where the tables are those of the last night, the files that were added since still count, and drafts that did not change keep their verdicts.
fn night(store: &Path, tables: &Path, paths: &[PathBuf]) -> Result<Said, Stop> {
    let base = take_in(tables)?;
    let drafts = named(paths);
    if drafts.is_empty() {
        return Err("there is no draft in what is named: nothing was changed".to_string().into());
    }
    let store = Store::open(store, Access::Make)?;
    let mut lines = Vec::new();
    let mut files = store.files()?;
    if files.first().map(|file| file.digest) != Some(base.digest) {
        store.put_night(&base)?;
        let before = std::mem::replace(&mut files, vec![base]);
        if before.len() > 1 {
            let added: Vec<_> = before[1..].iter().map(|file| shown(&file.name)).collect();
            lines.push(format!("the tables are new: what was added to the last ones no longer counts: {}", added.join(", ")));
        }
    }

    let had_drafts = !store.drafts()?.is_empty();
    let before = store.verdicts()?;
    let taken = take_all(&store, drafts, &files, &before)?;
    // Where nothing can be read, a name is wrong rather than a draft: what the store has is not given up for it.
    let nothing = taken.new + taken.afresh == taken.unread.len() && taken.kept == 0;
    let end = if nothing { ": nothing was changed" } else { "" };
    taken.unread.iter().for_each(|line| complain(&format!("{line}{end}")));
    if nothing {
        return Err(Status::Failed.into());
    }
    let status = tell_verdicts(&store, &before, &mut lines)?;
    if had_drafts {
        let Taken { new, afresh, kept, gone, .. } = taken;
        lines.push(format!("since the last night: {new} new, {afresh} judged afresh, {kept} as before, {gone} no longer there"));
    }
    store.commit(now())?;
    Ok(Said { lines, status })
}

/// How many drafts of a night were how, against those that the store had; and a line for each that could not be read.
#[derive(Default)]
struct Taken {
    new: usize,
    afresh: usize,
    kept: usize,
    gone: usize,
    unread: Vec<String>,
}

/// Takes the drafts into the store, judged, in the place of those that it had.
fn take_all(store: &Store, drafts: Vec<Named>, files: &[TableFile], verdicts: &Verdicts) -> Result<Taken, String> {
    let mut before: HashSet<_> = store.drafts()?.into_iter().map(|draft| draft.name).collect();
    let mut all = Taken::default();
    let progress = check::progress(drafts.len());
    let size = |draft: &Named| draft.as_ref().ok().and_then(|path| path.metadata().ok()).map_or(0, |known| known.len() as usize);
    for batch in batches(drafts, size) {
        let taken = on_all(&batch, &progress, |engine, draft| take(engine, draft, files, verdicts));
        for (draft, taken) in batch.iter().zip(taken) {
            let (name, was_there) = (name_of(draft), before.remove(name_of(draft)));
            let Some(draft) = taken.map_err(|what| store.damaged(&what))? else {
                all.kept += 1;
                continue;
            };
            if let Draft::Unread(why) = &draft {
                all.unread.push(format!("{}: cannot be read: {why}", shown(name)));
            }
            store.put_draft(name, &draft)?;
            *(if was_there { &mut all.afresh } else { &mut all.new }) += 1;
        }
    }
    for name in &before {
        store.remove_draft(name)?;
    }
    all.gone = before.len();
    Ok(all)
}

/// The path of a draft, or a path that cannot be read.
type Named = Result<PathBuf, Unread>;

/// The drafts that paths name, each once.
fn named(paths: &[PathBuf]) -> Vec<Named> {
    let mut seen = HashSet::new();
    let mut drafts = files::drafts(paths);
    drafts.retain(|draft| seen.insert(name_of(draft).to_vec()));
    drafts
}

/// A draft's name in the store: its path, as it was given.
fn name_of(draft: &Named) -> &[u8] {
    files::path_of(draft).as_os_str().as_bytes()
}

/// Reads a draft and judges it under the files; nothing where the store has its verdict already, for the same bytes under the same files.
fn take(engine: &mut Engine, draft: &Named, files: &[TableFile], verdicts: &Verdicts) -> Result<Option<Draft>, String> {
    let read = match draft {
        Ok(path) => files::read(path).map_err(|why| why.to_string()),
        Err(unread) => Err(unread.why.to_string()),
    };
    let document = match read {
        Ok(document) => document,
        Err(why) => return Ok(Some(Draft::Unread(why))),
    };
    let name = name_of(draft);
    let stands_for = Standing { draft: store::digest(&document), files: digests(files) };
    if verdicts.get(name).is_some_and(|verdict| verdict.stands_for == stands_for) {
        return Ok(None);
    }
    let (first, added) = files.split_first().ok_or("it has no tables")?;
    let mut answer = under(engine, &document, &first.tables);
    for file in added {
        let later = under(engine, &document, &file.tables);
        answer = merged(engine, name, &answer, &later)?;
    }
    Ok(Some(Draft::Judged { document, verdict: Verdict { stands_for, answer } }))
}

/// Takes in rows that came later: every draft of the store is checked under them alone, and its list merged with the stored one.
fn add(store: &Path, rows: &Path) -> Result<Said, Stop> {
    let added = take_in(rows)?;
    let store = Store::open(store, Access::Change)?;
    let files = store.files()?;
    if let Some(same) = files.iter().find(|file| file.digest == added.digest) {
        let (name, taken) = (shown(&same.name), store.clock(same.taken)?);
        let line = format!("these rows are in the store already, since {taken} as {name}: nothing was changed");
        return Ok(Said { lines: vec![line], status: Status::Clean });
    }
    let tables = joined(&files).map_err(|why| store.damaged(&why))?;
    tables::join(&tables, &added.tables.bytes).map_err(|why| {
        complain(&format!("{}: joined with what the store has, {why}: nothing was changed", shown(&added.name)));
        Status::Refused
    })?;
    store.put_file(&added)?;

    let mut lines = Vec::new();
    let (mut changed, mut as_before, mut new, mut gone) = (0, 0, 0, 0);
    let listed = store.drafts()?;
    let progress = check::progress(listed.len());
    for batch in batches(listed, |draft| draft.size) {
        let drafts = loaded(&store, batch)?;
        let answers = on_all(&drafts, &progress, |engine, (name, draft)| match draft {
            Draft::Unread(_) => Ok(None),
            Draft::Judged { document, verdict } => {
                let later = under(engine, document, &added.tables);
                merged(engine, name, &verdict.answer, &later).map(Some)
            }
        });
        for ((name, draft), answer) in drafts.iter().zip(answers) {
            let (Draft::Judged { document, verdict }, Some(answer)) = (draft, answer.map_err(|what| store.damaged(&what))?) else {
                as_before += 1;
                continue;
            };
            let change = Change::from(&verdict.answer, &answer);
            if change.is_none() {
                as_before += 1;
            } else {
                changed += 1;
                new += change.new.len();
                gone += change.gone.len();
                lines.push(format!("{}: was {}, now {}", shown(name), word(&verdict.answer), word(&answer)));
                change.tell(document, "new", "gone", &mut lines);
            }
            let files = [&verdict.stands_for.files[..], &[added.digest]].concat();
            store.put_verdict(name, &Verdict { stands_for: Standing { files, ..verdict.stands_for }, answer })?;
        }
    }
    store.commit(added.taken)?;
    lines.push(match changed {
        0 => format!("no draft changed; {as_before} as before"),
        _ => format!("{} changed: {}, {gone} gone; {as_before} as before", counted(changed, "draft"), counted(new, "new finding")),
    });
    Ok(Said { lines, status: if new == 0 { Status::Clean } else { Status::Findings } })
}

/// Judges every draft of the store afresh under the joined files, and says where the store has another verdict.
fn verify(store: &Path) -> Result<Said, Stop> {
    let store = Store::open(store, Access::Read)?;
    let files = store.files()?;
    let bytes = joined(&files).map_err(|why| store.damaged(&why))?;
    let tables = Input { length: bytes.len(), bytes };
    let digests = digests(&files);
    let (mut lines, mut judged, mut differ, mut unread) = (Vec::new(), 0, 0, 0);
    let listed = store.drafts()?;
    let progress = check::progress(listed.len());
    for batch in batches(listed, |draft| draft.size) {
        let drafts = loaded(&store, batch)?;
        let answers = on_all(&drafts, &progress, |engine, (_, draft)| match draft {
            Draft::Unread(_) => None,
            Draft::Judged { document, .. } => Some(under(engine, document, &tables)),
        });
        for ((name, draft), afresh) in drafts.iter().zip(answers) {
            let (Draft::Judged { document, verdict }, Some(afresh)) = (draft, afresh) else {
                unread += 1;
                continue;
            };
            judged += 1;
            let change = Change::from(&verdict.answer, &afresh);
            if verdict.stands_for.files == digests && change.is_none() {
                continue;
            }
            differ += 1;
            let name = shown(name);
            if verdict.stands_for.files != digests {
                lines.push(format!("{name}: the stored verdict stands for other files than the store has"));
            }
            if !change.is_none() {
                lines.push(format!("{name}: {} in the store, {} judged afresh", word(&verdict.answer), word(&afresh)));
                change.tell(document, "missing", "too many", &mut lines);
            }
        }
    }
    if unread > 0 {
        let them = if unread == 1 { "it" } else { "them" };
        lines.push(format!("{} without a verdict, since the night could not read {them}", counted(unread, "draft")));
    }
    let judged = format!("{} judged afresh under {}", counted(judged, "draft"), counted(files.len(), "tables file"));
    lines.push(match differ {
        0 => format!("{judged}: no difference"),
        1 => format!("{judged}: 1 differs"),
        _ => format!("{judged}: {differ} differ"),
    });
    Ok(Said { lines, status: if differ == 0 { Status::Clean } else { Status::Findings } })
}

/// `work` on every item, on all processors.
fn on_all<T: Sync, R: Send>(items: &[T], progress: &ProgressBar, work: impl Fn(&mut Engine, &T) -> R + Sync) -> Vec<R> {
    let threads = std::thread::available_parallelism().map_or(1, NonZeroUsize::get);
    engine::on_all(items, threads, work, || progress.inc(1))
}

/// The drafts of a batch with their names.
fn loaded(store: &Store, batch: Vec<Listed>) -> Result<Vec<(Vec<u8>, Draft)>, String> {
    batch.into_iter().map(|listed| store.draft(&listed.name).map(|draft| (listed.name, draft))).collect()
}

/// Reads a tables file that is to be taken in. One that is refused is told of here.
fn take_in(path: &Path) -> Result<TableFile, Status> {
    let bytes = tables::read_accepted(path, &mut Engine::new())?;
    let tables = Input { length: bytes.len(), bytes };
    Ok(TableFile { digest: store::digest(&tables), name: path.as_os_str().as_bytes().to_vec(), taken: now(), tables })
}

fn digests(files: &[TableFile]) -> Vec<Digest> {
    files.iter().map(|file| file.digest).collect()
}

/// The answer for a draft under one tables file.
fn under(engine: &mut Engine, document: &Input, tables: &Input) -> Answer {
    match files::judge(engine, document, tables) {
        Ok(judged) => Answer::Found(judged.findings),
        Err(refusal) => Answer::Refused(refusal),
    }
}

/// The answer under joined tables, from the answers under each. A refused draft is refused under all tables.
fn merged(engine: &mut Engine, name: &[u8], a: &Answer, b: &Answer) -> Result<Answer, String> {
    let differ = || format!("the list of {} is none of this draft", shown(name));
    match (a, b) {
        (Answer::Found(a), Answer::Found(b)) => engine.merge(a, b).map(Answer::Found).map_err(|_| differ()),
        (Answer::Refused(a), Answer::Refused(b)) if a == b => Ok(Answer::Refused(*a)),
        _ => Err(differ()),
    }
}

/// The tables file that joins them all, or why there is none.
fn joined(files: &[TableFile]) -> Result<Vec<u8>, String> {
    let (first, others) = files.split_first().ok_or("there are no tables")?;
    others.iter().try_fold(first.tables.bytes.clone(), |joined, file| tables::join(&joined, &file.tables.bytes))
}

/// How one list of findings became another.
#[derive(Default)]
struct Change {
    new: BTreeSet<Finding>,
    gone: BTreeSet<Finding>,
    /// One of the two is a refusal, and the other is not the same.
    refusal: bool,
}

impl Change {
    fn from(before: &Answer, after: &Answer) -> Change {
        let (Answer::Found(before), Answer::Found(after)) = (before, after) else {
            return Change { refusal: before != after, ..Change::default() };
        };
        let [before, after] = [before, after].map(|list| list.iter().copied().collect::<BTreeSet<_>>());
        Change { new: &after - &before, gone: &before - &after, refusal: false }
    }

    fn is_none(&self) -> bool {
        self.new.is_empty() && self.gone.is_empty() && !self.refusal
    }

    /// A line for each finding that is new or gone, under these words.
    fn tell(&self, document: &Input, new: &str, gone: &str, lines: &mut Vec<String>) {
        let places = Lines::of(&document.bytes);
        for (word, findings) in [(new, &self.new), (gone, &self.gone)] {
            lines.extend(findings.iter().map(|finding| {
                let (line, column) = places.place(&document.bytes, finding.first as usize);
                let short = words::procedure(finding.procedure).map_or("", |procedure| &procedure.short);
                format!("    {word} at {line}:{column}: {} {short}", finding.procedure)
            }));
        }
    }
}

/// A line for each draft that is not clean, or that was otherwise before, and one for all.
fn tell_verdicts(store: &Store, before: &Verdicts, lines: &mut Vec<String>) -> Result<Status, String> {
    let mut summary = Summary::default();
    for Listed { name, .. } in store.drafts()? {
        let Draft::Judged { document, verdict } = store.draft(&name)? else {
            summary.unread += 1;
            continue;
        };
        let (shown, word_now) = (shown(&name), word(&verdict.answer));
        let was = before.get(&name).map(|verdict| word(&verdict.answer)).filter(|was| *was != word_now);
        let was = was.map_or(String::new(), |was| format!(", was {was}"));
        match &verdict.answer {
            Answer::Found(findings) => {
                summary.clean += usize::from(findings.is_empty());
                summary.broken += usize::from(!findings.is_empty());
                summary.findings += findings.len();
                if !findings.is_empty() || !was.is_empty() {
                    lines.push(format!("{shown}: {word_now}{was}"));
                }
            }
            Answer::Refused(refusal) => {
                summary.refused += 1;
                let place = formats::place_of(&document.bytes, *refusal).map(|(line, column)| format!(":{line}:{column}"));
                let said = words::refused(*refusal, document.length);
                lines.push(format!("{shown}{}: refused {} {said}{was}", place.unwrap_or_default(), refusal.number));
            }
        }
    }
    lines.push(summary.line());
    Ok(summary.status())
}

/// An answer in a few words.
fn word(answer: &Answer) -> String {
    match answer {
        Answer::Found(findings) if findings.is_empty() => "clean".to_string(),
        Answer::Found(findings) => format!("broken ({})", counted(findings.len(), "finding")),
        Answer::Refused(refusal) => format!("refused {} at {}", refusal.number, refusal.place),
    }
}

/// Items in batches of at most so many bytes, or one item.
fn batches<T>(items: Vec<T>, size: impl Fn(&T) -> usize) -> Vec<Vec<T>> {
    let (mut batches, mut room) = (Vec::new(), 0);
    for item in items {
        let size = size(&item);
        match batches.last_mut() {
            Some(batch) if size <= room => {
                room -= size;
                Vec::push(batch, item);
            }
            _ => {
                room = BATCH.saturating_sub(size);
                batches.push(vec![item]);
            }
        }
    }
    batches
}

/// Seconds since 1970.
pub fn now() -> i64 {
    let since = SystemTime::now().duration_since(SystemTime::UNIX_EPOCH).unwrap_or_default();
    since.as_secs().try_into().unwrap_or(i64::MAX)
}

#[cfg(test)]
mod tests {
    use super::*;

    #[test]
    fn batches_are_full_or_one_item() {
        let sizes = |items: &[usize]| batches(items.to_vec(), |&size| size).iter().map(Vec::len).collect::<Vec<_>>();
        assert!(sizes(&[]).is_empty());
        assert_eq!(sizes(&[BATCH / 2, BATCH / 2, 1]), [2, 1]);
        assert_eq!(sizes(&[BATCH + 1, 0, 1]), [2, 1]);
        assert_eq!(sizes(&[0, BATCH, BATCH, 1]), [2, 1, 1]);
    }

    #[test]
    fn a_change_is_what_one_list_has_and_the_other_has_not() {
        let finding = |procedure, after| Finding { first: 3, procedure, after };
        let change =
            Change::from(&Answer::Found(vec![finding(8, 9), finding(18, 9)]), &Answer::Found(vec![finding(18, 9), finding(21, 9)]));
        assert_eq!((change.new, change.gone, change.refusal), ([finding(21, 9)].into(), [finding(8, 9)].into(), false));
    }
}
