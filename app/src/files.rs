//! Files as they are read and written: which drafts the words of a command name, what of a file is read, and how one is written whole.

use crate::engine::{Engine, Judged, Refusal, LENGTH_LIMIT};
use std::ffi::OsString;
use std::fs::{self, File};
use std::io::{self, Read, Write};
use std::path::{Path, PathBuf};

/// A file's bytes: all of them, or, of one that is longer than any that is accepted, one more than that, which shows it; and its length.
pub struct Input {
    pub bytes: Vec<u8>,
    pub length: usize,
}

/// Reads a file. One that is too long is not kept in memory, however long it is.
pub fn read(path: &Path) -> io::Result<Input> {
    let mut file = File::open(path)?;
    let mut bytes = Vec::new();
    let kept = LENGTH_LIMIT + 1;
    (&mut file).take(kept as u64).read_to_end(&mut bytes)?;
    let mut length = bytes.len();
    if length == kept {
        let known = file.metadata()?;
        // What is no file, such as a pipe, has its length only by reading on.
        let all = if known.is_file() { known.len() } else { kept as u64 + io::copy(&mut file, &mut io::sink())? };
        length = usize::try_from(all).unwrap_or(usize::MAX).max(kept);
    }
    Ok(Input { bytes, length })
}

/// Writes a file that is then there whole or, where that fails, as it was before: beside its place, and renamed.
pub fn write_whole(path: &Path, bytes: &[u8]) -> io::Result<()> {
    // Links are followed. Nothing takes the place of what is no file, such as a pipe: that is written as it is.
    let path = fs::canonicalize(path).unwrap_or_else(|_| path.to_path_buf());
    let known = fs::metadata(&path).ok();
    if known.as_ref().is_some_and(|known| !known.is_file()) {
        return fs::write(path, bytes);
    }
    let mut beside = OsString::from(".");
    beside.push(path.file_name().ok_or(io::ErrorKind::InvalidInput)?);
    beside.push(format!(".{}", std::process::id()));
    let beside = path.with_file_name(beside);
    // What an ended run of the same number left is taken away; nothing that is put there meanwhile is written to.
    let _ = fs::remove_file(&beside);
    let write = || {
        let mut file = File::create_new(&beside)?;
        if let Some(known) = known {
            file.set_permissions(known.permissions())?;
        }
        file.write_all(bytes)?;
        file.sync_all()?;
        fs::rename(&beside, &path)
    };
    write().inspect_err(|_| {
        let _ = fs::remove_file(&beside);
    })
}

/// The check of a document under the tables. Of a file that is too long, refusals 1 and 2 return the file's own length.
pub fn judge(engine: &mut Engine, document: &Input, tables: &Input) -> Result<Judged, Refusal> {
    engine.check(&document.bytes, &tables.bytes).map_err(|refusal| match refusal.number {
        1 => Refusal { place: document.length, ..refusal },
        2 => Refusal { place: tables.length, ..refusal },
        _ => refusal,
    })
}

/// A path that cannot be read, and why.
pub struct Unread {
    pub path: PathBuf,
    pub why: io::Error,
}

/// The drafts that paths name, in this order: a file as it is, whatever its name; of a folder and the folders in it every file whose name ends
/// in `.xml`, in any case, sorted by their paths. A link to a folder is followed only where it is named itself, so that no walk goes round.
pub fn drafts(paths: &[PathBuf]) -> Vec<Result<PathBuf, Unread>> {
    let mut found = Vec::new();
    for path in paths {
        if path.is_dir() {
            let mut inside = Vec::new();
            walk(path, &mut inside);
            inside.sort_by(|a, b| path_of(a).cmp(path_of(b)));
            found.extend(inside);
        } else {
            found.push(Ok(path.clone()));
        }
    }
    found
}

pub fn path_of(found: &Result<PathBuf, Unread>) -> &Path {
    match found {
        Ok(path) => path,
        Err(unread) => &unread.path,
    }
}

fn walk(folder: &Path, found: &mut Vec<Result<PathBuf, Unread>>) {
    let unread = |why| Unread { path: folder.to_path_buf(), why };
    let entries = match fs::read_dir(folder) {
        Ok(entries) => entries,
        Err(why) => return found.push(Err(unread(why))),
    };
    for entry in entries {
        let (path, kind) = match entry.and_then(|entry| Ok((entry.path(), entry.file_type()?))) {
            Ok(known) => known,
            Err(why) => {
                found.push(Err(unread(why)));
                continue;
            }
        };
        if kind.is_dir() {
            walk(&path, found);
        } else if path.extension().is_some_and(|ending| ending.eq_ignore_ascii_case("xml")) && may_be_read(&path) {
            found.push(Ok(path));
        }
    }
}

/// A file, or a link to one. What is neither, such as a pipe, is no draft; what cannot be looked at is told of when it is read.
fn may_be_read(path: &Path) -> bool {
    fs::metadata(path).map_or(true, |known| known.is_file())
}
