//! The proved functions. Every verdict, list and merge of the program comes from here, and all unsafe code is here.
//!
//! `host/benchdowel.h` says what the functions take, return and leave in the memory that is lent to them.

#![allow(unsafe_code)]

use std::io;
use std::sync::atomic::{AtomicUsize, Ordering};
use std::sync::{Mutex, MutexGuard, PoisonError};
use std::thread;

/// The limits of document 01 and the widths of the records, as `host/benchdowel.h` has them.
pub const LENGTH_LIMIT: usize = 1_048_576;
const ELEMENTS_LIMIT: usize = 16_384;
const SCRATCH: usize = 4_096;
const ELEMENT_NUMBERS: usize = 4;
const FINDING_NUMBERS: usize = 3;
const PROCEDURES: usize = 38;

/// The interface that this program knows, as the header numbers it.
const INTERFACE: u32 = 2;

/// What a thread that calls the proved functions has: twice what the header asks for, the rest for the program's own frames.
const STACK: usize = 8 * 1_048_576;

/// Stands in the element table where no element was written: no element has this number.
const NO_ELEMENT: u32 = u32::MAX;

/// A finding. The order of the fields is the order of a list: first byte, then procedure.
#[derive(Clone, Copy, PartialEq, Eq, PartialOrd, Ord, Debug)]
pub struct Finding {
    pub first: u32,
    pub procedure: u32,
    pub after: u32,
}

/// A refusal: its number in document 01, and what it returns.
#[derive(Clone, Copy, PartialEq, Eq, Debug)]
pub struct Refusal {
    pub number: u32,
    pub place: usize,
}

/// A row of the element table.
#[derive(Clone, Copy, PartialEq, Eq, Debug)]
pub struct Element {
    pub number: u32,
    pub parent: u32,
    pub first: u32,
    pub after: u32,
}

/// What an accepted check leaves.
pub struct Judged {
    pub findings: Vec<Finding>,
    pub elements: Vec<Element>,
}

/// `bd_numbers` of the header: a refusal's number with what it returns, or 0 with a count.
#[repr(C)]
struct Numbers {
    refusal: u32,
    value: usize,
}

/// `bd_finding` of the header.
#[repr(C)]
struct Record {
    procedure: u32,
    first: u32,
    after: u32,
}

extern "C" {
    fn bd_version() -> u32;
    fn bd_check(
        document: *const u8,
        document_length: usize,
        tables: *const u8,
        tables_length: usize,
        scratch: *mut u8,
        scratch_length: usize,
        elements: *mut u32,
        elements_length: usize,
        list: *mut u32,
        list_length: usize,
    ) -> Numbers;
    fn bd_merge(a: *const Record, a_count: usize, b: *const Record, b_count: usize, out: *mut u32, out_length: usize) -> Numbers;
}

/// Whether the functions have the interface that this program knows.
pub fn is_known() -> bool {
    // It takes nothing and reads nothing.
    unsafe { bd_version() == INTERFACE }
}

/// The memory that is lent to the proved functions: enough for every document within the limits, so that refusals 3, 9 and 11 never come.
/// One for each thread, and only on a thread with the program's stack: the one of `on_stack`, or one of `on_all`.
pub struct Engine {
    scratch: Vec<u8>,
    elements: Vec<u32>,
    list: Vec<u32>,
}

impl Engine {
    pub fn new() -> Engine {
        Engine {
            scratch: vec![0; SCRATCH],
            elements: vec![NO_ELEMENT; ELEMENTS_LIMIT * ELEMENT_NUMBERS],
            list: vec![0; ELEMENTS_LIMIT * PROCEDURES * FINDING_NUMBERS],
        }
    }

    /// The findings and elements of a document under the tables, or the refusal.
    pub fn check(&mut self, document: &[u8], tables: &[u8]) -> Result<Judged, Refusal> {
        // Every pointer is given with the length of its slice, the lent ones are this engine's own, and none is kept.
        let numbers = unsafe {
            bd_check(
                document.as_ptr(),
                document.len(),
                tables.as_ptr(),
                tables.len(),
                self.scratch.as_mut_ptr(),
                self.scratch.len(),
                self.elements.as_mut_ptr(),
                self.elements.len(),
                self.list.as_mut_ptr(),
                self.list.len(),
            )
        };
        let elements = self.take_elements();
        let count = numbers.count()?;
        Ok(Judged { findings: findings_of(&self.list, count), elements })
    }

    /// The merge of two lists of one document, or the refusal.
    pub fn merge(&mut self, a: &[Finding], b: &[Finding]) -> Result<Vec<Finding>, Refusal> {
        let (a, b) = (records_of(a), records_of(b));
        // As above; a merge is never longer than its two lists together.
        self.list.resize(self.list.len().max((a.len() + b.len()) * FINDING_NUMBERS), 0);
        let numbers = unsafe { bd_merge(a.as_ptr(), a.len(), b.as_ptr(), b.len(), self.list.as_mut_ptr(), self.list.len()) };
        Ok(findings_of(&self.list, numbers.count()?))
    }

    /// The rows that a check wrote, which become unwritten again for the next one.
    fn take_elements(&mut self) -> Vec<Element> {
        let rows = self.elements.chunks_exact_mut(ELEMENT_NUMBERS).take_while(|row| row[0] != NO_ELEMENT);
        rows.map(|row| {
            let element = Element { number: row[0], parent: row[1], first: row[2], after: row[3] };
            row[0] = NO_ELEMENT;
            element
        })
        .collect()
    }
}

impl Numbers {
    fn count(self) -> Result<usize, Refusal> {
        match self.refusal {
            0 => Ok(self.value),
            number => Err(Refusal { number, place: self.value }),
        }
    }
}

fn findings_of(list: &[u32], count: usize) -> Vec<Finding> {
    let records = list.chunks_exact(FINDING_NUMBERS).take(count);
    records.map(|record| Finding { procedure: record[0], first: record[1], after: record[2] }).collect()
}

fn records_of(findings: &[Finding]) -> Vec<Record> {
    findings.iter().map(|&Finding { procedure, first, after }| Record { procedure, first, after }).collect()
}

/// Runs the program's work on a thread with the stack that the proved functions need. Without an answer the work panicked.
pub fn on_stack<R: Send>(work: impl FnOnce() -> R + Send) -> io::Result<Option<R>> {
    thread::scope(|scope| Ok(thread::Builder::new().stack_size(STACK).spawn_scoped(scope, work)?.join().ok()))
}

/// Engines of threads that have ended. They are used again: to clear the memory of a new one takes longer than a small check.
fn idle() -> MutexGuard<'static, Vec<Engine>> {
    static IDLE: Mutex<Vec<Engine>> = Mutex::new(Vec::new());
    IDLE.lock().unwrap_or_else(PoisonError::into_inner)
}

/// Runs `work` on every item, on `threads` threads each with an Engine; answers come in the order of the items. `done` is told of each
/// that is finished. The calling thread is one of them, so it has the program's stack; where no more can be started, it does all.
pub fn on_all<T: Sync, R: Send>(items: &[T], threads: usize, work: impl Fn(&mut Engine, &T) -> R + Sync, done: impl Fn() + Sync) -> Vec<R> {
    let next = AtomicUsize::new(0);
    let worker = || {
        let mut engine = idle().pop().unwrap_or_else(Engine::new);
        let mut answers = Vec::new();
        loop {
            let number = next.fetch_add(1, Ordering::Relaxed);
            let Some(item) = items.get(number) else { break };
            answers.push((number, work(&mut engine, item)));
            done();
        }
        idle().push(engine);
        answers
    };
    let mut answers = thread::scope(|scope| {
        let start = |_| thread::Builder::new().stack_size(STACK).spawn_scoped(scope, worker).ok();
        let others: Vec<_> = (1..threads.min(items.len())).map_while(start).collect();
        let mut answers = worker();
        for other in others {
            answers.extend(other.join().unwrap_or_else(|fault| std::panic::resume_unwind(fault)));
        }
        answers
    });
    answers.sort_unstable_by_key(|&(number, _)| number);
    answers.into_iter().map(|(_, answer)| answer).collect()
}

#[cfg(test)]
mod tests {
    use super::*;

    /// A number that the header defines.
    fn defined(name: &str) -> usize {
        let header = include_str!("../../host/benchdowel.h");
        let start = format!("#define {name} ");
        let line = header.lines().find_map(|line| line.strip_prefix(&start)).expect("the header defines it");
        line.parse().expect("a number")
    }

    #[test]
    fn the_rooms_are_those_of_the_header() {
        assert_eq!(LENGTH_LIMIT, defined("BD_DOCUMENT_LIMIT"));
        assert_eq!(LENGTH_LIMIT, defined("BD_TABLES_LIMIT"));
        assert_eq!(ELEMENTS_LIMIT, defined("BD_ELEMENTS_LIMIT"));
        assert_eq!(SCRATCH, defined("BD_SCRATCH"));
        assert_eq!(ELEMENT_NUMBERS, defined("BD_ELEMENT_NUMBERS"));
        assert_eq!(FINDING_NUMBERS, defined("BD_FINDING_NUMBERS"));
        assert_eq!(PROCEDURES, defined("BD_PROCEDURES"));
        assert!(STACK >= defined("BD_STACK"));
        assert_eq!(INTERFACE as usize, defined("BD_VERSION"));
        assert!(is_known());
    }

    const NO_ROWS: &[u8] = b"0\n0\n0\n";

    #[test]
    fn a_check_takes_its_own_elements_alone() {
        let judged = on_stack(|| {
            let mut engine = Engine::new();
            let large = engine.check(b"<a><b/><b><c/></b></a>", NO_ROWS).map(|judged| judged.elements);
            let refused = engine.check(b"<a><b></a>", NO_ROWS).map(|judged| judged.elements);
            let small = engine.check(b"<a><b/></a>", NO_ROWS).map(|judged| judged.elements);
            (large, refused, small)
        });
        let (large, refused, small) = judged.unwrap().unwrap();
        let rows =
            |rows: &[[u32; 4]]| rows.iter().map(|&[number, parent, first, after]| Element { number, parent, first, after }).collect();
        assert_eq!(large, Ok(rows(&[[0, 0, 0, 22], [1, 0, 3, 7], [2, 0, 7, 18], [3, 2, 10, 14]])));
        assert_eq!(refused, Err(Refusal { number: 7, place: 6 }));
        assert_eq!(small, Ok(rows(&[[0, 0, 0, 11], [1, 0, 3, 7]])));
    }

    #[test]
    fn answers_come_in_the_order_of_the_items() {
        let items: Vec<_> = (0..500).map(|number| format!("<a{number}/>")).collect();
        let finished = AtomicUsize::new(0);
        let first_of = |engine: &mut Engine, item: &String| engine.check(item.as_bytes(), NO_ROWS).map(|judged| judged.elements[0].after);
        let done = || _ = finished.fetch_add(1, Ordering::Relaxed);
        let answers = on_stack(|| on_all(&items, 3, first_of, done)).unwrap().unwrap();
        let expected: Vec<_> = items.iter().map(|item| Ok(item.len() as u32)).collect();
        assert_eq!(answers, expected);
        assert_eq!(finished.into_inner(), items.len());
    }

    #[test]
    fn no_document_within_the_limits_lacks_room() {
        let many = format!("<a>{}</a>", "<b/>".repeat(ELEMENTS_LIMIT - 1));
        let more = format!("<a>{}</a>", "<b/>".repeat(ELEMENTS_LIMIT));
        let (many, more) = on_stack(|| {
            let mut engine = Engine::new();
            (engine.check(many.as_bytes(), NO_ROWS), engine.check(more.as_bytes(), NO_ROWS).map(|_| ()))
        })
        .unwrap()
        .unwrap();
        let many = many.unwrap_or_else(|refusal| panic!("{refusal:?}"));
        assert_eq!(many.elements.len(), ELEMENTS_LIMIT);
        assert_eq!(many.findings.len(), 6 + ELEMENTS_LIMIT - 1);
        assert_eq!(more, Err(Refusal { number: 8, place: 3 + 4 * (ELEMENTS_LIMIT - 1) }));
    }

    #[test]
    fn a_merge_keeps_what_document_01_says() {
        let finding = |procedure, first| Finding { first, procedure, after: first + 4 };
        let merged = on_stack(|| {
            let mut engine = Engine::new();
            let kept = engine.merge(&[finding(1, 0), finding(8, 5), finding(12, 9)], &[finding(1, 0), finding(18, 5)]);
            let other = engine.merge(&[finding(1, 0)], &[]);
            (kept, other)
        });
        let (kept, other) = merged.unwrap().unwrap();
        assert_eq!(kept, Ok(vec![finding(1, 0), finding(12, 9)]));
        assert_eq!(other, Err(Refusal { number: 13, place: 0 }));
    }
}
