//! Holds the product against the reference on made-up cases.
//!
//! `compare FIRST AFTER FOLDER SECONDS [trace]` runs the cases of the seeds from FIRST to before AFTER, for at most so
//! many seconds. A case in which the two differ is named and its files are put into FOLDER. With `trace` every seed is
//! named before it runs, which shows the one that ends the program.

use drafts::random::Random;
use drafts::{lists, Case, Room};
use reference::grammar;
use reference::tables::Tables;
use reference::tree::Tree;
use reference::{Shown, FINDING, ROW, SCRATCH};
use std::panic::{catch_unwind, AssertUnwindSafe};
use std::path::Path;
use std::process::ExitCode;
use std::time::{Duration, Instant};

/// After so many differing cases there is nothing more to learn from further ones.
const ENOUGH: usize = 20;

/// Cases from one line on the way to the next: a program that ends without a word ended after the last of them.
const PROGRESS: u64 = 50_000;

/// Tables of so many bytes have very many rows.
const CROWD: usize = 300_000;

/// Records lent where nothing says how many are needed.
const AMPLE: usize = 40;

fn main() -> ExitCode {
    let arguments: Vec<String> = std::env::args().skip(1).collect();
    let number = |at: usize| arguments.get(at).and_then(|argument| argument.parse::<u64>().ok());
    let (Some(first), Some(after), Some(folder), Some(seconds)) = (number(0), number(1), arguments.get(2), number(3)) else {
        eprintln!("usage: compare FIRST AFTER FOLDER SECONDS [trace]");
        return ExitCode::from(2);
    };
    let trace = arguments.get(4).is_some_and(|argument| argument == "trace");

    let (begin, limit) = (Instant::now(), Duration::from_secs(seconds));
    let mut tally = Tally { refusals: [0; 14], procedures: [0; 39], crowded: 0, joined: 0, values: [0; 3] };
    let mut differ = 0;
    let mut ran = 0u64;
    for seed in first..after {
        if trace {
            println!("seed {seed}");
        }
        let case = drafts::case(seed);
        let compared = catch_unwind(AssertUnwindSafe(|| compare_case(seed, &case, &mut tally)));
        if let Err(difference) = compared.unwrap_or_else(|_| Err("the harness itself failed".to_string())) {
            println!("seed {seed}: {difference}");
            keep(Path::new(folder), seed, &case, &difference);
            differ += 1;
        }
        ran += 1;
        if ran % PROGRESS == 0 {
            eprintln!("compare: {ran} cases, at seed {seed}");
        }
        if begin.elapsed() >= limit || differ >= ENOUGH {
            break;
        }
    }
    println!("compare: {ran} cases from seed {first} in {} s, {differ} differ", begin.elapsed().as_secs());
    tally.print();
    ExitCode::from(u8::from(differ > 0))
}

/// How often each answer came, to show what the cases reach.
struct Tally {
    refusals: [u64; 14],
    procedures: [u64; 39],
    crowded: u64,
    joined: u64,
    values: [u64; 3],
}

impl Tally {
    fn answer(&mut self, (refusal, count): (u32, u32), tables: &[u8], list: &[u32]) {
        self.refusals[refusal as usize] += 1;
        if refusal == 0 {
            self.crowded += u64::from(tables.len() >= CROWD);
            for record in list.chunks(FINDING).take(count as usize) {
                self.procedures[record[0] as usize] += 1;
            }
        }
    }

    fn print(&self) {
        println!("  accepted {}; refused, by number: {:?}", self.refusals[0], &self.refusals[1..]);
        println!("  findings, by procedure: {:?}", &self.procedures[1..]);
        println!("  accepted under tables of very many rows: {}", self.crowded);
        println!("  lists merged and held against joined tables: {}", self.joined);
        println!("  values in the document, in scratch, empty: {:?}", self.values);
    }
}

/// Memory lent to the product, with as much around it that it must not touch.
#[derive(Clone, PartialEq)]
struct Lent<T> {
    all: Vec<T>,
    length: usize,
}

/// Items before and behind what is lent.
const GUARD: usize = 16;

impl<T: Clone + PartialEq> Lent<T> {
    fn new(length: usize, mut item: impl FnMut() -> T) -> Lent<T> {
        Lent { all: (0..length + 2 * GUARD).map(|_| item()).collect(), length }
    }

    fn of(items: &[T], guard: T) -> Lent<T> {
        let guards = vec![guard; GUARD];
        Lent { all: [&guards, items, &guards].concat(), length: items.len() }
    }

    fn lent(&mut self) -> &mut [T] {
        &mut self.all[GUARD..GUARD + self.length]
    }
}

fn differs(what: &str, product: impl std::fmt::Debug, reference: impl std::fmt::Debug) -> String {
    format!("{what}: product {product:?}, reference {reference:?}")
}

/// The first numbers that differ, if any do.
fn same<T: Clone + PartialEq + std::fmt::Debug>(what: &str, product: &Lent<T>, reference: &Lent<T>) -> Result<(), String> {
    match product.all.iter().zip(&reference.all).position(|(x, y)| x != y) {
        None => Ok(()),
        Some(at) => {
            let place = at as i64 - GUARD as i64;
            Err(differs(&format!("{what}, at {place} of {}", product.length), &product.all[at], &reference.all[at]))
        }
    }
}

/// All that is compared for one seed.
fn compare_case(seed: u64, case: &Case, tally: &mut Tally) -> Result<(), String> {
    // The case took its numbers from the seed itself; what is asked here must not repeat them.
    let random = &mut Random::new(!seed);
    check(random, case, &case.tables, tally)?;
    joined(random, case, tally)?;
    for _ in 0..2 {
        let [a, b] = lists::two_lists(random);
        merge(random, &a, &b, tally)?;
    }
    let questions = questions(&case.document);
    for _ in 0..6 {
        value(random, &case.document, &questions, tally)?;
    }
    Ok(())
}

/// The check with the rooms of the case.
fn check(random: &mut Random, case: &Case, tables: &[u8], tally: &mut Tally) -> Result<(), String> {
    let needs = needed(&case.document, tables);
    let records = |room: Room, need: Option<usize>| match (room, need) {
        (Room::Records(records), _) => records,
        (_, None) => AMPLE,
        (Room::Ample, Some(need)) => need + 8,
        (Room::Needed, Some(need)) => need,
        (Room::OneShort, Some(need)) => need.saturating_sub(1),
    };
    let elements = records(case.elements, needs.map(|(elements, _)| elements)) * ROW + case.odd_numbers;
    let findings = records(case.findings, needs.map(|(_, findings)| findings)) * FINDING + case.odd_numbers % FINDING;
    let (answer, list) = check_both(random, &case.document, tables, case.scratch, elements, findings)?;
    tally.answer(answer, tables, &list);
    Ok(())
}

/// The numbers of elements and of findings, if the document is not refused.
fn needed(document: &[u8], tables: &[u8]) -> Option<(usize, usize)> {
    let tables = Tables::parse(tables).ok()?;
    let tree = Tree::build(grammar::text_of(document).ok()?).ok()?;
    Some((tree.nodes.len(), reference::procedures::judge(&tree, &tables).len()))
}

/// Product and reference on the same input and the same lent memory. The answer and the findings list.
fn check_both(
    random: &mut Random, document: &[u8], tables: &[u8], scratch: usize, elements: usize, findings: usize,
) -> Result<((u32, u32), Vec<u32>), String> {
    let inputs = [document, tables].map(|bytes| Lent::of(bytes, b'<'));
    let [mut document, mut tables] = inputs.clone();
    let mut scratch = Lent::new(scratch, || random.number() as u8);
    let mut elements = Lent::new(elements, || random.number() as u32);
    let mut findings = Lent::new(findings, || random.number() as u32);
    let (mut scratch_too, mut elements_too, mut findings_too) = (scratch.clone(), elements.clone(), findings.clone());

    let product = binding::check(document.lent(), tables.lent(), scratch.lent(), elements.lent(), findings.lent());
    let reference =
        reference::check(document.lent(), tables.lent(), scratch_too.lent(), elements_too.lent(), findings_too.lent());

    if product != reference {
        return Err(differs("answer", product, reference));
    }
    same("findings list", &findings, &findings_too)?;
    same("element table", &elements, &elements_too)?;
    same("scratch", &scratch, &scratch_too)?;
    same("document", &document, &inputs[0])?;
    same("tables", &tables, &inputs[1])?;
    Ok((product, findings.lent().to_vec()))
}

/// The list under joined tables is the merge of the lists under each: both read from the product alone.
fn joined(random: &mut Random, case: &Case, tally: &mut Tally) -> Result<(), String> {
    let (Ok(first), Ok(second)) = (Tables::parse(&case.tables), Tables::parse(&case.more_tables)) else { return Ok(()) };
    let both = first.join(&second).render();
    let Some((elements, _)) = needed(&case.document, &both) else { return Ok(()) };

    let mut found = Vec::new();
    for tables in [&case.tables, &case.more_tables, &both] {
        let Some((_, findings)) = needed(&case.document, tables) else { return Ok(()) };
        let room = findings * FINDING;
        let ((refusal, count), list) = check_both(random, &case.document, tables, SCRATCH, elements * ROW, room)?;
        if refusal > 0 {
            return Ok(());
        }
        tally.answer((refusal, count), tables, &list);
        found.push(list);
    }
    let mut out = vec![0; found[2].len()];
    let answer = binding::merge(&found[0], &found[1], &mut out);
    if answer != (0, (found[2].len() / FINDING) as u32) || out != found[2] {
        return Err(format!("the merge of two lists is not the list under the joined tables: {answer:?} {out:?}, {:?}", found[2]));
    }
    tally.joined += 1;
    lists::spoil(random, &mut found[0]);
    merge(random, &found[0], &found[1], tally)
}

fn merge(random: &mut Random, a: &[u32], b: &[u32], tally: &mut Tally) -> Result<(), String> {
    let inputs = [a, b].map(|list| Lent::of(list, 7));
    let [mut a, mut b] = inputs.clone();
    let most = (a.length + b.length) / FINDING + 1;
    let records = if random.in_100(70) { most } else { random.below(most) };
    let mut out = Lent::new(records * FINDING + random.below(FINDING), || random.number() as u32);
    let mut out_too = out.clone();

    let product = binding::merge(a.lent(), b.lent(), out.lent());
    let reference = reference::merge(a.lent(), b.lent(), out_too.lent());
    let lists = || format!("merge of {:?} and {:?}", inputs[0].clone().lent(), inputs[1].clone().lent());
    if product != reference {
        return Err(differs(&lists(), product, reference));
    }
    same(&lists(), &out, &out_too)?;
    same("first list", &a, &inputs[0])?;
    same("second list", &b, &inputs[1])?;
    tally.refusals[product.0 as usize] += u64::from(product.0 > 0);
    Ok(())
}

/// What the value reader can be asked: the range of an element, and the name of one of its attributes or none.
type Question = (usize, usize, Vec<u8>);

/// The values of a document, or of the tags in it if it is refused: the value reader may still read those.
fn questions(document: &[u8]) -> Vec<Question> {
    let text = grammar::text_prefix(document);
    let ask = |start: usize, after: usize, name: &str| (start, after, name.as_bytes().to_vec());
    let Some(tree) = Tree::build(text).ok().filter(|_| text.len() == document.len()) else {
        let tags = text.match_indices('<').filter_map(|(at, _)| Some((at, grammar::start_tag(text, at)?)));
        let asked = tags.flat_map(|(at, (tag, rest))| {
            let after = text.len() - rest.len();
            tag.attributes.into_iter().map(move |attribute| ask(at, after, attribute.name))
        });
        return asked.collect();
    };
    let attributes = tree.nodes.iter().flat_map(|node| node.attributes.iter().map(move |a| ask(node.start, node.after, a.name)));
    let leaves = tree.nodes.iter().filter(|node| node.children.is_empty());
    attributes.chain(leaves.map(|node| ask(node.start, node.after, ""))).collect()
}

/// One question to the value reader: of a value that is there, of a range near one, or of any range.
fn value(random: &mut Random, document: &[u8], questions: &[Question], tally: &mut Tally) -> Result<(), String> {
    let length = document.len();
    let (mut first, mut after, mut name) = match random.below(10) {
        0 => (random.below(length + 2), random.below(length + 2), lists::asked_name(random)),
        1..=7 if !questions.is_empty() => questions[random.below(questions.len())].clone(),
        _ => {
            // From some piece of markup on.
            let from = random.below(length + 1);
            let first = document[from..].iter().position(|&b| b == b'<').map_or(from, |step| from + step);
            (first, first + random.below(length - first + 1), lists::asked_name(random))
        }
    };
    if random.in_100(10) {
        name = lists::asked_name(random);
    }
    match random.below(30) {
        0 => first += 1,
        1 => after += 1,
        2 => after = after.saturating_sub(1),
        3 => first = first.saturating_sub(1),
        4 => after = usize::MAX,
        _ => {}
    }
    let scratch = if random.in_100(3) { random.below(SCRATCH) } else { SCRATCH + random.below(3) };
    let mut scratch = Lent::new(scratch, || random.number() as u8);
    let mut scratch_too = scratch.clone();

    let (in_scratch, start, length) = binding::value(document, scratch.lent(), first, after, &name);
    let reference = reference::value(document, scratch_too.lent(), first, after, &name);
    // Every empty part of the document is the same answer, wherever it stands.
    let agree = match reference {
        Shown::Document { length: 0, .. } => !in_scratch && length == 0 && start <= document.len(),
        Shown::Document { start: its_start, length: its_length } => !in_scratch && (start, length) == (its_start, its_length),
        Shown::Scratch { length: its_length } => in_scratch && (start, length) == (0, its_length),
    };
    let question = || format!("value of {:?} in {first}..{after}", String::from_utf8_lossy(&name));
    if !agree {
        return Err(differs(&question(), (in_scratch, start, length), reference));
    }
    tally.values[if in_scratch { 1 } else if length > 0 { 0 } else { 2 }] += 1;
    same(&question(), &scratch, &scratch_too)
}

/// Puts the files of a case into a folder.
fn keep(folder: &Path, seed: u64, case: &Case, difference: &str) {
    let write = |ending: &str, bytes: &[u8]| std::fs::write(folder.join(format!("{seed}.{ending}")), bytes);
    let rooms = format!("scratch {}\nelements {:?}\nfindings {:?}\n", case.scratch, case.elements, case.findings);
    let written = std::fs::create_dir_all(folder)
        .and_then(|()| write("xml", &case.document))
        .and_then(|()| write("tables", &case.tables))
        .and_then(|()| write("more.tables", &case.more_tables))
        .and_then(|()| write("txt", format!("{difference}\n{rooms}").as_bytes()));
    if let Err(error) = written {
        println!("the case could not be kept: {error}");
    }
}
