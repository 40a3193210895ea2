//! The store: one SQLite file with the drafts of a night, the table files that were taken in, and what was found of each draft.
//!
//! A command reads and changes it in one transaction, so a run that is killed, a full disk or a power cut leaves it as before or after.
//! Whatever is read from it is held against its digest, so bytes that changed in it are told from bytes that were stored.

use crate::engine::{Finding, Refusal};
use crate::files::Input;
use crate::text;
use rusqlite::{params, Connection, ErrorCode, OpenFlags, OptionalExtension, Row};
use sha2::{Digest as _, Sha256};
use std::collections::HashMap;
use std::os::unix::ffi::OsStrExt;
use std::path::Path;
use std::time::Duration;

/// Tells a store from other SQLite files: `Bdwl`.
const APPLICATION: i32 = 0x4264_776C;
const VERSION: i32 = 1;

/// How long a command waits for another one that writes; and, when its work is done and is to be kept, for those that read.
const PATIENCE: Duration = Duration::from_secs(10);
const LONG_PATIENCE: Duration = Duration::from_secs(600);

/// A finding in the store: procedure, first byte and byte after, each a 32-bit number with its lowest byte first.
const RECORD: usize = 12;
const DIGEST: usize = 32;

const SCHEMA: &str = "
    CREATE TABLE store (touched INTEGER NOT NULL);
    INSERT INTO store VALUES (0);
    -- The night's tables first, then the added files in the order in which they came.
    CREATE TABLE file (
        number INTEGER PRIMARY KEY,
        digest BLOB NOT NULL UNIQUE,
        name BLOB NOT NULL,
        taken INTEGER NOT NULL,
        bytes BLOB NOT NULL
    );
    -- Either bytes with their digest and the length of the file (which is more, where it is too long to be judged), or why there are none.
    CREATE TABLE draft (
        name BLOB PRIMARY KEY NOT NULL,
        digest BLOB,
        length INTEGER,
        unread TEXT,
        bytes BLOB,
        CHECK ((unread IS NULL) = (bytes IS NOT NULL AND digest IS NOT NULL AND length IS NOT NULL))
    );
    -- Of the draft of this digest, under the files of these digests: a refusal, or else the findings.
    CREATE TABLE verdict (
        name BLOB PRIMARY KEY NOT NULL REFERENCES draft (name) ON DELETE CASCADE,
        digest BLOB NOT NULL,
        files BLOB NOT NULL,
        refusal INTEGER,
        place INTEGER,
        findings BLOB NOT NULL,
        CHECK ((refusal IS NULL) = (place IS NULL) AND (refusal IS NULL OR length(findings) = 0))
    );
";

pub type Digest = [u8; DIGEST];

/// The digest of a file: SHA-256 of its bytes; where these are not all, of its length too.
pub fn digest(input: &Input) -> Digest {
    let mut hash = Sha256::new();
    hash.update(&input.bytes);
    if input.length != input.bytes.len() {
        hash.update(input.length.to_le_bytes());
    }
    hash.finalize().into()
}

/// A tables file that was taken in.
pub struct TableFile {
    pub digest: Digest,
    pub name: Vec<u8>,
    /// When, in seconds since 1970.
    pub taken: i64,
    pub tables: Input,
}

/// What the proved functions said of a draft.
#[derive(Clone, PartialEq, Eq, Debug)]
pub enum Answer {
    Found(Vec<Finding>),
    Refused(Refusal),
}

/// What a verdict stands for: the draft that was judged, and the table files under which it was, in the order in which they came.
#[derive(Clone, PartialEq, Eq)]
pub struct Standing {
    pub draft: Digest,
    pub files: Vec<Digest>,
}

pub struct Verdict {
    pub stands_for: Standing,
    pub answer: Answer,
}

/// Verdicts by the names of their drafts.
pub type Verdicts = HashMap<Vec<u8>, Verdict>;

/// A draft with its verdict, or why it could not be read.
pub enum Draft {
    Unread(String),
    Judged { document: Input, verdict: Verdict },
}

/// A draft that the store has, and how many bytes of it.
pub struct Listed {
    pub name: Vec<u8>,
    pub size: usize,
}

/// What a command is about to do with a store.
#[derive(Clone, Copy, PartialEq, Eq)]
pub enum Access {
    Read,
    Change,
    /// As `Change`, and where there is no store one is made.
    Make,
}

/// An open store, in a transaction that `commit` alone makes last.
pub struct Store {
    connection: Connection,
    /// Its path, as it is shown.
    shown: String,
}

impl Store {
    pub fn open(path: &Path, access: Access) -> Result<Store, String> {
        let shown = text::shown(path.as_os_str().as_bytes());
        if access != Access::Make && !path.exists() {
            return Err(format!("there is no store {shown}: `benchdowel night` makes one"));
        }
        let mut flags = OpenFlags::SQLITE_OPEN_READ_WRITE | OpenFlags::SQLITE_OPEN_NO_MUTEX;
        flags.set(OpenFlags::SQLITE_OPEN_CREATE, access == Access::Make);
        // SQLite has a meaning of its own for some names, but for none that begins with a folder.
        let connection = Connection::open_with_flags(Path::new(".").join(path), flags).map_err(|error| fault(&shown, &error))?;
        let store = Store { connection, shown };
        store.begin(path, access).map_err(|error| fault(&store.shown, &error))??;
        Ok(store)
    }

    /// Begins the transaction, and refuses what is no store or one of another version before anything is written.
    fn begin(&self, path: &Path, access: Access) -> rusqlite::Result<Result<(), String>> {
        let connection = &self.connection;
        connection.busy_timeout(PATIENCE)?;
        // A commit is on the disk, with the folder that its journal was taken from. Pages wait in memory (at most 256 MiB), so that
        // readers are kept out for the commit alone.
        connection.execute_batch(
            "PRAGMA synchronous = EXTRA; PRAGMA foreign_keys = ON; PRAGMA trusted_schema = OFF; PRAGMA cell_size_check = ON;
             PRAGMA cache_size = -262144;",
        )?;
        connection.execute_batch(if access == Access::Read { "BEGIN" } else { "BEGIN IMMEDIATE" })?;
        if access != Access::Read {
            connection.busy_timeout(LONG_PATIENCE)?;
        }
        let number = |pragma| connection.pragma_query_value(None, pragma, |row| row.get::<_, i32>(0));
        let (application, version) = (number("application_id")?, number("user_version")?);
        // As the file is now, since what an earlier run left unfinished in it is undone.
        let empty = path.metadata().is_ok_and(|known| known.len() == 0);
        if empty && access == Access::Make {
            connection.pragma_update(None, "application_id", APPLICATION)?;
            connection.pragma_update(None, "user_version", VERSION)?;
            connection.execute_batch(SCHEMA)?;
            return Ok(Ok(()));
        }
        Ok(match (application, version) {
            (APPLICATION, VERSION) => Ok(()),
            (APPLICATION, other) => Err(format!("the store {} has version {other}; this program knows version {VERSION}", self.shown)),
            _ if empty => Err(format!("{} is empty and no store yet: `benchdowel night` makes one", self.shown)),
            _ => Err(no_store(&self.shown)),
        })
    }

    /// When a night or an added file last changed it, in seconds since 1970.
    pub fn touched(&self) -> Result<i64, String> {
        self.asked(self.connection.query_row("SELECT touched FROM store", [], |row| row.get(0)))
    }

    /// The table files that it has taken in: the night's first, then the added ones in the order in which they came.
    pub fn files(&self) -> Result<Vec<TableFile>, String> {
        let rows = self.all("SELECT digest, name, taken, bytes FROM file ORDER BY number", |row| {
            Ok((row.get::<_, Vec<u8>>(0)?, row.get::<_, Vec<u8>>(1)?, row.get(2)?, row.get::<_, Vec<u8>>(3)?))
        })?;
        let files = rows.into_iter().map(|(stored, name, taken, bytes)| {
            let tables = Input { length: bytes.len(), bytes };
            let digest = digest(&tables);
            if stored != digest {
                return Err(self.damaged(&format!("the tables {} are not those that were taken in", text::shown(&name))));
            }
            Ok(TableFile { digest, name, taken, tables })
        });
        files.collect()
    }

    /// Its drafts, in the order of their names.
    pub fn drafts(&self) -> Result<Vec<Listed>, String> {
        let names = "SELECT name, coalesce(length(bytes), 0) FROM draft ORDER BY name";
        self.all(names, |row| Ok(Listed { name: row.get(0)?, size: row.get(1)? }))
    }

    /// A draft by its name.
    pub fn draft(&self, name: &[u8]) -> Result<Draft, String> {
        type Stored = (Option<String>, Option<Vec<u8>>, Option<usize>, Option<Vec<u8>>);
        let query = "SELECT unread, digest, length, bytes FROM draft WHERE name = ?";
        let columns = |row: &Row| Ok::<Stored, _>((row.get(0)?, row.get(1)?, row.get(2)?, row.get(3)?));
        let found = self.connection.prepare_cached(query).and_then(|mut statement| statement.query_row([name], columns));
        let damaged = |what: &str| Err(self.damaged(&format!("the draft {} {what}", text::shown(name))));
        let (stored, document) = match self.asked(found)? {
            (Some(reason), ..) => return Ok(Draft::Unread(reason)),
            (None, Some(stored), Some(length), Some(bytes)) => (stored, Input { bytes, length }),
            _ => return damaged("has no bytes"),
        };
        if *stored != digest(&document) {
            return damaged("is not the one that was taken in");
        }
        match self.verdict(name)? {
            Some(verdict) if *stored == verdict.stands_for.draft && fits(&verdict, &document) => Ok(Draft::Judged { document, verdict }),
            Some(_) => damaged("has the verdict of another"),
            None => damaged("has no verdict"),
        }
    }

    /// The verdicts of all judged drafts.
    pub fn verdicts(&self) -> Result<Verdicts, String> {
        let names = self.all("SELECT name FROM verdict", |row| row.get::<_, Vec<u8>>(0))?;
        let verdicts = names.into_iter().map(|name| match self.verdict(&name)? {
            Some(verdict) => Ok((name, verdict)),
            None => Err(self.damaged("its verdicts cannot be read")),
        });
        verdicts.collect()
    }

    /// The verdict of a draft, if there is a draft of this name that was judged.
    fn verdict(&self, name: &[u8]) -> Result<Option<Verdict>, String> {
        let query = "SELECT digest, files, refusal, place, findings FROM verdict WHERE name = ?";
        let found = self.connection.prepare_cached(query).and_then(|mut statement| statement.query_row([name], stored_verdict).optional());
        let Some(stored) = self.asked(found)? else { return Ok(None) };
        match stored.into_verdict() {
            Some(verdict) => Ok(Some(verdict)),
            None => Err(self.damaged(&format!("what is stored for {} is no verdict", text::shown(name)))),
        }
    }

    /// Takes in the tables of a night: the files that it had before are gone.
    pub fn put_night(&self, file: &TableFile) -> Result<(), String> {
        self.asked(self.connection.execute("DELETE FROM file", []))?;
        self.put_file(file)
    }

    /// Takes in one more tables file.
    pub fn put_file(&self, file: &TableFile) -> Result<(), String> {
        let row = params![&file.digest[..], file.name, file.taken, file.tables.bytes];
        self.asked(self.connection.execute("INSERT INTO file (digest, name, taken, bytes) VALUES (?, ?, ?, ?)", row)).map(|_| ())
    }

    /// Takes in a draft, in the place of one of the same name.
    pub fn put_draft(&self, name: &[u8], draft: &Draft) -> Result<(), String> {
        self.remove_draft(name)?;
        match draft {
            Draft::Unread(reason) => {
                let put = self.connection.execute("INSERT INTO draft (name, unread) VALUES (?, ?)", params![name, reason]);
                self.asked(put).map(|_| ())
            }
            Draft::Judged { document, verdict } => {
                let row = params![name, &verdict.stands_for.draft[..], document.length, document.bytes];
                self.asked(self.connection.execute("INSERT INTO draft (name, digest, length, bytes) VALUES (?, ?, ?, ?)", row))?;
                self.put_verdict(name, verdict)
            }
        }
    }

    /// The verdict of a draft that it has, in the place of an earlier one.
    pub fn put_verdict(&self, name: &[u8], verdict: &Verdict) -> Result<(), String> {
        let (refusal, findings) = match &verdict.answer {
            Answer::Found(findings) => (None, findings.iter().flat_map(record).collect::<Vec<u8>>()),
            Answer::Refused(refusal) => (Some(refusal), Vec::new()),
        };
        let (number, place) = (refusal.map(|refusal| refusal.number), refusal.map(|refusal| refusal.place));
        let put = "INSERT OR REPLACE INTO verdict (name, digest, files, refusal, place, findings) VALUES (?, ?, ?, ?, ?, ?)";
        let row = params![name, &verdict.stands_for.draft[..], verdict.stands_for.files.concat(), number, place, findings];
        self.asked(self.connection.execute(put, row)).map(|_| ())
    }

    pub fn remove_draft(&self, name: &[u8]) -> Result<(), String> {
        self.asked(self.connection.execute("DELETE FROM draft WHERE name = ?", [name])).map(|_| ())
    }

    /// Makes all that was put and removed last, as of `now`.
    pub fn commit(self, now: i64) -> Result<(), String> {
        self.asked(self.connection.execute("UPDATE store SET touched = ?", [now]))?;
        self.asked(self.connection.execute_batch("COMMIT"))
    }

    /// A time as the clocks here have it.
    pub fn clock(&self, seconds: i64) -> Result<String, String> {
        let local = "SELECT strftime('%Y-%m-%d %H:%M', ?1, 'unixepoch', 'localtime')";
        self.asked(self.connection.query_row(local, [seconds], |row| row.get(0)))
    }

    /// How far the clocks here are from UTC at a time, as `UTC+01:00`.
    pub fn zone(&self, seconds: i64) -> Result<String, String> {
        let local = "SELECT strftime('%s', ?1, 'unixepoch', 'localtime') - ?1";
        let ahead: i64 = self.asked(self.connection.query_row(local, [seconds], |row| row.get(0)))?;
        let sign = if ahead < 0 { '-' } else { '+' };
        Ok(format!("UTC{sign}{:02}:{:02}", ahead.abs() / 3600, ahead.abs() / 60 % 60))
    }

    fn all<R>(&self, query: &str, read: impl FnMut(&Row) -> rusqlite::Result<R>) -> Result<Vec<R>, String> {
        self.asked(self.connection.prepare(query).and_then(|mut statement| statement.query_map([], read)?.collect()))
    }

    fn asked<R>(&self, answer: rusqlite::Result<R>) -> Result<R, String> {
        answer.map_err(|error| fault(&self.shown, &error))
    }

    /// The line for a store whose content cannot be what was put into it.
    pub fn damaged(&self, what: &str) -> String {
        damaged(&self.shown, what)
    }
}

fn no_store(shown: &str) -> String {
    format!("{shown} is no store of benchdowel")
}

fn damaged(shown: &str, what: &str) -> String {
    format!("the store {shown} is damaged: {what}")
}

/// What SQLite said, in one line.
fn fault(shown: &str, error: &rusqlite::Error) -> String {
    let said = text::shown(error.to_string().as_bytes());
    match error.sqlite_error_code() {
        Some(ErrorCode::NotADatabase) => no_store(shown),
        Some(ErrorCode::DatabaseBusy | ErrorCode::DatabaseLocked) => format!("the store {shown} is in use by another run: try again later"),
        Some(ErrorCode::DiskFull) => format!("the disk of the store {shown} is full: the store is as it was"),
        Some(ErrorCode::ReadOnly | ErrorCode::PermissionDenied) => format!("the store {shown} cannot be written: {said}"),
        Some(ErrorCode::CannotOpen) => format!("the store {shown} cannot be opened: {said}"),
        Some(ErrorCode::SystemIoFailure) => format!("the store {shown} cannot be read or written: {said}"),
        _ => damaged(shown, &said),
    }
}

/// A row of the verdicts as it is stored.
struct StoredVerdict {
    draft: Vec<u8>,
    files: Vec<u8>,
    refusal: Option<u32>,
    place: Option<usize>,
    findings: Vec<u8>,
}

fn stored_verdict(row: &Row) -> rusqlite::Result<StoredVerdict> {
    Ok(StoredVerdict { draft: row.get(0)?, files: row.get(1)?, refusal: row.get(2)?, place: row.get(3)?, findings: row.get(4)? })
}

impl StoredVerdict {
    fn into_verdict(self) -> Option<Verdict> {
        let whole = self.files.len() % DIGEST == 0 && self.findings.len() % RECORD == 0;
        let answer = match (self.refusal, self.place) {
            (Some(number), Some(place)) => Answer::Refused(Refusal { number, place }),
            (None, None) => Answer::Found(self.findings.chunks_exact(RECORD).filter_map(finding).collect()),
            _ => return None,
        };
        let files = self.files.chunks_exact(DIGEST).filter_map(|digest| digest.try_into().ok()).collect();
        whole.then_some(Verdict { stands_for: Standing { draft: self.draft.try_into().ok()?, files }, answer })
    }
}

/// Whether a verdict can be one of a draft: places outside the draft would be shown of nothing.
fn fits(verdict: &Verdict, document: &Input) -> bool {
    let length = document.bytes.len();
    match &verdict.answer {
        Answer::Found(findings) => findings.iter().all(|finding| finding.first < finding.after && finding.after as usize <= length),
        Answer::Refused(_) => true,
    }
}

fn record(finding: &Finding) -> Vec<u8> {
    [finding.procedure, finding.first, finding.after].map(u32::to_le_bytes).concat()
}

fn finding(record: &[u8]) -> Option<Finding> {
    let number = |at: usize| record.get(at..at + 4)?.try_into().ok().map(u32::from_le_bytes);
    Some(Finding { procedure: number(0)?, first: number(4)?, after: number(8)? })
}
