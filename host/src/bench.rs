//! The time of the product's whole check, as ratios to what expat and libxml2 take to read the same document.
//!
//! `bench [emulated]` prints a line for each input: how many times expat's bare parse (no handlers) and libxml2's tree
//! the check takes, medians of several warm runs, and the check's answer. Then how time grows with size, and which of the
//! worst inputs stay under a second. All times are those of the processor, which other programs on the machine hardly
//! change. With `emulated` no times are printed, since an emulator's say nothing, and there are fewer runs.
//!
//! `bench files FOLDER` measures nothing: it writes each input to `NUMBER.xml` and `NUMBER.tables` there, for `count`, and prints a
//! line with its number and its name.

use drafts::clean::{self, Below, Element, DUNS, LABELER_CODES, NCI};
use drafts::random::Random;
use drafts::rows::{write_section, Facts};
use reference::grammar::limits;
use std::ffi::c_int;
use std::hint::black_box;
use std::io::{Read, Write};
use std::iter::repeat_n;
use std::os::unix::net::UnixStream;

/// The most bytes of a tables file that is called full, and of one that is half full.
const FULL: usize = limits::LENGTH;
const HALF: usize = limits::LENGTH / 2;

/// The most rows of a section.
const ROWS: usize = 65_535;

/// Tables without rows.
const NO_ROWS: &[u8] = b"0\n0\n0\n";

/// About as many establishments as a registration without faults can have: each has 24 elements, or 36 with an agent.
const MOST_ESTABLISHMENTS: usize = 400;

/// How often and how long an input is measured; times are in seconds.
struct Patience {
    /// The most and the least rounds, and the time after which there are only the least.
    most: usize,
    least: usize,
    enough: f64,
    /// The time after which a check is given up.
    limit: u64,
}

const DIRECT: Patience = Patience { most: 31, least: 3, enough: 2.0, limit: 120 };
const EMULATED: Patience = Patience { most: 5, least: 1, enough: 1.0, limit: 8 };

/// A run that takes so long needs no other before it to be warm.
const LONG: f64 = 0.1;

fn main() {
    let words: Vec<String> = std::env::args().skip(1).collect();
    let bench = &mut match &words.iter().map(String::as_str).collect::<Vec<_>>()[..] {
        ["files", folder] => Bench::new(false, Some(folder.to_string())),
        words => Bench::new(words == ["emulated"], None),
    };
    if bench.folder.is_none() {
        bench.heading();
    }

    let (request, request_facts) = request();
    let (small, small_facts) = registration(40);
    let (half, half_facts) = registration(MOST_ESTABLISHMENTS / 2);
    let (large, large_facts) = registration(MOST_ESTABLISHMENTS);
    let (bare, bare_facts) = bare_registration(1_500);
    bench.line("request, small tables", &request, &tables(&request_facts, 0));
    bench.line("request, full tables", &request, &tables(&request_facts, FULL));
    bench.line("40 establishments, small tables", &small, &tables(&small_facts, 0));
    bench.line("40 establishments, full tables", &small, &tables(&small_facts, FULL));
    bench.line("200 establishments, small tables", &half, &tables(&half_facts, 0));
    bench.line("200 establishments, full tables", &half, &tables(&half_facts, FULL));
    bench.line("400 establishments, small tables", &large, &tables(&large_facts, 0));
    bench.line("400 establishments, half full tables", &large, &tables(&large_facts, HALF));
    bench.line("400 establishments, full tables", &large, &tables(&large_facts, FULL));
    bench.line("1,500 bare establishments, small tables", &bare, &tables(&bare_facts, 0));
    bench.line("1,500 bare establishments, full tables", &bare, &tables(&bare_facts, FULL));

    bench.part();
    worst_readings(bench);
    worst_siblings(bench);
    worst_codes(bench);
    worst_order(bench);
    worst_register(bench);
    worst_histories(bench);

    bench.part();
    if bench.folder.is_some() {
        return;
    }
    bench.growth("document, small tables", (&half, &tables(&half_facts, 0)), (&large, &tables(&large_facts, 0)));
    bench.growth("document, full tables", (&half, &tables(&half_facts, FULL)), (&large, &tables(&large_facts, FULL)));
    bench.growth("tables", (&large, &tables(&large_facts, HALF)), (&large, &tables(&large_facts, FULL)));
    bench.seconds();
}

/// Documents that are long to read, whatever is asked of them.
fn worst_readings(bench: &mut Bench) {
    bench.worst("200,000 attributes in a tag, few names", &many_attributes(200_000, 1), NO_ROWS);
    bench.worst("10,000 attributes in a tag, all names distinct", &many_attributes(10_000, 3), NO_ROWS);
    // libxml2 compares each name with each before it, for half a minute: it is not asked.
    bench.measure("140,000 attributes in a tag, all names distinct", &many_attributes(140_000, 3), NO_ROWS, true, false);
    bench.worst("16,384 elements, most at depth 32", &deep(), NO_ROWS);
    bench.worst("texts of references", &references(), NO_ROWS);
}

/// Many children of one parent, some put before its own children and some behind them: where a procedure asks for the
/// others of the same parent, each of many children asks again.
fn worst_siblings(bench: &mut Bench) {
    let empty = |name: &str| Element::new(name, &[], Vec::new());
    let (unlisted, contact, addr, name) = (empty("x"), empty("contactParty"), empty("addr"), empty("name"));
    let named = Element::text("name", "x");
    let id = Element::new("id", &[("extension", "1234"), ("root", LABELER_CODES)], Vec::new());
    let wrong = performance(repeat_n(code(["C43360", "x", "manufacture"]), 8_000).collect());
    let labeler: Parent = |root| find(root, "representedOrganization");
    let entity: Parent = establishment_entity;
    let firm: Parent = |root| find(establishment_entity(root), "assignedOrganization");

    type Many<'a> = (&'a Element, usize);
    let mut crowd = |what: &str, (mut root, facts): (Element, Facts), parent: Parent, before: Many, behind: Many| {
        let children = parent(&mut root).children();
        children.splice(0..0, repeat_n(before.0.clone(), before.1));
        children.extend(repeat_n(behind.0.clone(), behind.1));
        bench.worst(what, &clean::render_plainly(&root), &tables(&facts, 0));
    };
    crowd("16,000 ids in the root", request_draft(), |root| root, (&id, 16_000), (&id, 0));
    crowd("8,000 unlisted, 8,000 ids in the root", request_draft(), |root| root, (&unlisted, 8_000), (&id, 8_000));
    crowd("8,000 empty names in a labeler", request_draft(), labeler, (&name, 8_000), (&name, 0));
    crowd("16,000 empty names in a labeler", request_draft(), labeler, (&name, 16_000), (&name, 0));
    crowd("8,100 ids, then 8,100 names in a labeler", request_draft(), labeler, (&id, 8_100), (&named, 8_100));
    crowd("8,100 names, then 8,100 ids in a labeler", request_draft(), labeler, (&named, 8_100), (&id, 8_100));
    crowd("8,000 unlisted, 8,000 contacts in a labeler", request_draft(), labeler, (&unlisted, 8_000), (&contact, 8_000));
    crowd("8,000 unlisted, 8,000 addr in an establishment", registration_draft(1), firm, (&unlisted, 8_000), (&addr, 8_000));
    crowd("8,000 unlisted, 8,000 wrong codes in an entity", registration_draft(1), entity, (&unlisted, 8_000), (&wrong, 1));
}

/// Codes that are sought in a code list, which has them at its end or not at all.
fn worst_codes(bench: &mut Bench) {
    let (mut root, facts) = registration_draft(1);
    let entity = establishment_entity(&mut root).children();
    let mut operation = entity.last().expect("a performance").clone();
    let sought: Vec<String> = find(&mut operation, "code").attributes.iter().map(|(_, value)| value.clone()).collect();
    entity.extend(repeat_n(operation, 5_000));
    let document = clean::render_plainly(&root);
    let mut known = known_rows(&facts);
    bench.worst("5,000 operation codes, small tables", &document, &render(&known));
    let mut near = sought.clone();
    near[2].push('?');
    bench.worst("5,000 operation codes, found last in a full list", &document, &filled(&known, 0, |_| near.clone()));
    known[0].retain(|row| *row != sought);
    bench.worst("5,000 operation codes, not in a full list", &document, &filled(&known, 0, |_| near.clone()));

    // Codes of few bytes, so that as many as can be are sought among as many rows as can be.
    let same = |_: usize, end: &str| ["a".to_string(), "s".to_string(), format!("nnnnnnnnn{end}")];
    let different = |number: usize, end: &str| ["a".to_string(), "s".to_string(), format!("nnnn{number:05}{end}")];
    let kinds: [(&str, &dyn Fn(usize, &str) -> [String; 3]); 2] = [("all alike", &same), ("all different", &different)];
    for (kind, fields) in kinds {
        let (mut root, facts) = registration_draft(1);
        let codes = (0..16_000).map(|number| code(fields(number, "!").each_ref().map(String::as_str))).collect();
        establishment_entity(&mut root).children().push(performance(codes));
        let near = filled(&known_rows(&facts), 0, |number| fields(number, "?").to_vec());
        bench.worst(&format!("16,000 near codes, {kind}, full list"), &clean::render_plainly(&root), &near);
    }
}

/// Codes that are sought among rows which are far from being in order: the product sorts them. Rows of few bytes, so that there are
/// as many as can be; rows that are the same up to their ends; and some long ones, which are compared with many short ones.
fn worst_order(bench: &mut Bench) {
    let scattered = |number: usize| usize::from((number as u16).reverse_bits());
    let few = |number: usize, end: &str| format!("{:05}{end}", scattered(number));
    let alike = |number: usize, end: &str| format!("{}{:05}{end}", "n".repeat(110), scattered(number));
    let some = |number: usize, end: &str| format!("{}{end}", few(number, &"n".repeat(if number % 500 == 250 { 4_000 } else { 0 })));
    type Name<'a> = &'a dyn Fn(usize, &str) -> String;
    // What the rows are called, and what the codes.
    let kinds: [(&str, usize, Name, Name); 3] = [
        ("16,000 near codes, full list out of order", 16_000, &few, &few),
        ("6,000 near codes, full list, all of a long start", 6_000, &alike, &alike),
        ("16,000 near codes, full list, some rows long", 16_000, &some, &few),
    ];
    for (kind, count, row, sought) in kinds {
        let (mut root, facts) = registration_draft(1);
        let codes = (0..count).map(|number| code(["a", "s", &sought(number, "!")])).collect();
        establishment_entity(&mut root).children().push(performance(codes));
        let rows = filled(&known_rows(&facts), 0, |number| vec!["a".to_string(), "s".to_string(), row(number, "?")]);
        bench.worst(kind, &clean::render_plainly(&root), &rows);
    }
}

/// Organisations that are sought in a register of their number and nearly their name: procedure 18.
fn worst_register(bench: &mut Bench) {
    let (mut root, facts) = registration_draft(1);
    let mut registrant = organisation("assignedOrganization", "1", DUNS);
    registrant.children().push(Element::text("name", "nnnnnnnnn!"));
    registrants(&mut root).extend(repeat_n(registrant, 5_000));
    let near = filled(&known_rows(&facts), 1, |_| vec!["1".to_string(), "nnnnnnnnn?".to_string()]);
    bench.worst("5,000 registrants, full register of near names", &clean::render_plainly(&root), &near);
}

/// Organisations whose keys are sought in a history: procedures 21 and 22.
fn worst_histories(bench: &mut Bench) {
    for same in [true, false] {
        let of_whom = if same { "of their key" } else { "of near keys" };
        let (mut root, facts) = registration_draft(1);
        let key = |number: usize| if same { facts.key.clone() } else { format!("3{number:08}") };
        registrants(&mut root).extend((0..8_000).map(|number| organisation("assignedOrganization", &key(number), DUNS)));
        let history = filled(&known_rows(&facts), 2, |number| past(&facts, same, key(number)));
        bench.worst(&format!("8,000 registrants, full history {of_whom}"), &clean::render_plainly(&root), &history);

        let (mut root, facts) = request_draft();
        let key = |number: usize| if same { facts.key.clone() } else { (20_000 + number).to_string() };
        let labelers = find(&mut root, "assignedEntity").children();
        labelers.extend((0..8_000).map(|number| organisation("representedOrganization", &key(number), LABELER_CODES)));
        let history = filled(&known_rows(&facts), 2, |number| past(&facts, same, key(number)));
        bench.worst(&format!("8,000 labelers, full history {of_whom}"), &clean::render_plainly(&root), &history);
    }
}

/// The memory that is lent to the check, with room for every answer, and what is measured.
struct Bench {
    emulated: bool,
    /// The folder for the inputs, where they are only written.
    folder: Option<String>,
    patience: Patience,
    rooms: Rooms,
    /// The worst inputs and the seconds that their check takes.
    worst: Vec<(String, f64)>,
}

struct Rooms {
    scratch: Vec<u8>,
    elements: Vec<u32>,
    findings: Vec<u32>,
}

impl Rooms {
    fn new() -> Rooms {
        Rooms {
            scratch: vec![0; reference::SCRATCH],
            elements: vec![0; limits::ELEMENTS * reference::ROW],
            findings: vec![0; limits::ELEMENTS * 38 * reference::FINDING],
        }
    }

    fn check(&mut self, document: &[u8], tables: &[u8]) -> (u32, u32) {
        black_box(binding::check(document, tables, &mut self.scratch, &mut self.elements, &mut self.findings))
    }
}

impl Bench {
    fn new(emulated: bool, folder: Option<String>) -> Bench {
        let patience = if emulated { EMULATED } else { DIRECT };
        Bench { emulated, folder, patience, rooms: Rooms::new(), worst: Vec::new() }
    }

    /// Writes an input to two files, which have its number, and prints its number and name.
    fn write(&mut self, folder: &str, name: &str, document: &[u8], tables: &[u8]) {
        let number = self.worst.len();
        for (kind, bytes) in [("xml", document), ("tables", tables)] {
            std::fs::write(format!("{folder}/{number}.{kind}"), bytes).expect("a file that can be written");
        }
        println!("{number}\t{name}");
        self.worst.push((name.to_string(), 0.0));
    }

    fn heading(&self) {
        self.columns("input", "document", "tables", "check us", "/ expat", "/ libxml2", "answer");
    }

    /// An empty line between the parts of what is printed.
    fn part(&self) {
        if self.folder.is_none() {
            println!();
        }
    }

    /// Prints one line. An emulator's times say nothing.
    #[allow(clippy::too_many_arguments)]
    fn columns(&self, name: &str, document: &str, tables: &str, time: &str, expat: &str, libxml2: &str, answer: &str) {
        let time = if self.emulated { String::new() } else { format!(" {time:>11}") };
        println!("{name:<48} {document:>9} {tables:>9}{time} {expat:>9} {libxml2:>9}  {answer}");
    }

    /// Measures and prints one input.
    fn line(&mut self, name: &str, document: &[u8], tables: &[u8]) {
        self.measure(name, document, tables, false, true);
    }

    /// The same of one that is held against a second.
    fn worst(&mut self, name: &str, document: &[u8], tables: &[u8]) {
        self.measure(name, document, tables, true, true);
    }

    /// The same with or without libxml2.
    fn measure(&mut self, name: &str, document: &[u8], tables: &[u8], worst: bool, with_libxml2: bool) {
        assert!(document.len() <= limits::LENGTH && tables.len() <= limits::LENGTH, "{name}: over a limit");
        if let Some(folder) = self.folder.clone() {
            return self.write(&folder, name, document, tables);
        }
        let (patience, rooms) = (&self.patience, &mut self.rooms);
        let mut check = || rooms.check(document, tables);
        let mut expat = || _ = black_box(xmllibs::expat_takes(document));
        let mut libxml2 = || _ = with_libxml2.then(|| black_box(xmllibs::libxml2_takes(document)));
        // One check alone shows whether there is time for more.
        let once = in_child(patience.limit, || {
            let mut answer = (0, 0);
            let time = timed(&mut || answer = check());
            [time, f64::from(answer.0), f64::from(answer.1)]
        });
        let over = if once.is_none() { ">" } else { "" };
        let [first, refusal, value] = once.unwrap_or([patience.limit as f64, 0.0, 0.0]);
        let [time, expat, libxml2] = if first > patience.enough {
            let [expat, libxml2] = medians(patience, [&mut expat, &mut libxml2]);
            [first, expat, libxml2]
        } else {
            medians(patience, [&mut || _ = check(), &mut expat, &mut libxml2])
        };
        let answer = match (over, refusal) {
            (">", _) => "given up".to_string(),
            (_, 0.0) => format!("findings {value}"),
            _ => format!("refused {refusal} at {value}"),
        };
        let number = |number: f64, places: usize| format!("{over}{number:.places$}");
        let beside = if with_libxml2 { number(time / libxml2, 2) } else { "-".to_string() };
        let lengths = [document, tables].map(|bytes| bytes.len().to_string());
        self.columns(name, &lengths[0], &lengths[1], &number(time * 1e6, 1), &number(time / expat, 2), &beside, &answer);
        if worst {
            self.worst.push((name.to_string(), time));
        }
    }

    /// Measures and prints how time grows from one input to another that is twice as large.
    fn growth(&mut self, what: &str, once: (&[u8], &[u8]), twice: (&[u8], &[u8])) {
        // Both runs need the rooms, so each gets rooms of its own.
        let (rooms, mut other) = (&mut self.rooms, Rooms::new());
        let [once, twice] =
            medians(&self.patience, [&mut || _ = rooms.check(once.0, once.1), &mut || _ = other.check(twice.0, twice.1)]);
        println!("twice the {what}: {:.2} times the time", twice / once);
    }

    /// Which of the worst inputs stay under a second.
    fn seconds(&self) {
        if self.emulated {
            return;
        }
        println!();
        let side = |time: f64| if time < 1.0 { "under a second" } else { "over a second" };
        for (name, time) in &self.worst {
            println!("{name}: {}", side(*time));
        }
        if let Some((name, time)) = self.worst.iter().max_by(|x, y| x.1.total_cmp(&y.1)) {
            println!("the longest of these: {name}, {time:.3} s, {}", side(*time));
        }
    }
}

/// The median times of warm runs, in seconds. The runs take turns, so that what else the machine does falls on all, and
/// a short one is made twice in its turn, so that the one that is measured finds its own memory warm.
fn medians<const N: usize>(patience: &Patience, mut runs: [&mut dyn FnMut(); N]) -> [f64; N] {
    let mut times = [const { Vec::new() }; N];
    let begin = processor_time();
    for round in 1..=patience.most {
        for (run, times) in runs.iter_mut().zip(&mut times) {
            let cold = timed(run);
            times.push(if cold > LONG { cold } else { timed(run) });
        }
        if round >= patience.least && processor_time() - begin > patience.enough {
            break;
        }
    }
    times.map(|mut times| {
        times.sort_by(f64::total_cmp);
        times[times.len() / 2]
    })
}

fn timed(run: &mut dyn FnMut()) -> f64 {
    let begin = processor_time();
    run();
    processor_time() - begin
}

/// `struct timespec` and `struct rlimit` of 64-bit Linux.
#[repr(C)]
struct Time {
    seconds: i64,
    nanoseconds: i64,
}

#[repr(C)]
struct Limit {
    soft: u64,
    hard: u64,
}

unsafe extern "C" {
    fn clock_gettime(clock: c_int, time: *mut Time) -> c_int;
    fn fork() -> c_int;
    fn setrlimit(resource: c_int, limit: *const Limit) -> c_int;
    fn waitpid(process: c_int, status: *mut c_int, options: c_int) -> c_int;
    fn _exit(status: c_int) -> !;
}

const CLOCK_PROCESS_CPUTIME_ID: c_int = 2;
const RLIMIT_CPU: c_int = 0;
const SIGKILL: c_int = 9;

/// The processor's time that this process has used, in seconds.
fn processor_time() -> f64 {
    let mut time = Time { seconds: 0, nanoseconds: 0 };
    let status = unsafe { clock_gettime(CLOCK_PROCESS_CPUTIME_ID, &mut time) };
    assert_eq!(status, 0, "no clock");
    time.seconds as f64 + time.nanoseconds as f64 * 1e-9
}

/// The numbers that some work gives, done in a process of its own, or nothing if that uses more seconds than the limit.
fn in_child<const N: usize>(limit: u64, work: impl FnOnce() -> [f64; N]) -> Option<[f64; N]> {
    let (mut ours, mut theirs) = UnixStream::pair().expect("a pair of sockets");
    std::io::stdout().flush().expect("what is printed");
    // There is one thread, so the child has all that it needs.
    let child = unsafe { fork() };
    assert!(child >= 0, "no process for a measurement");
    if child == 0 {
        let limited = unsafe { setrlimit(RLIMIT_CPU, &Limit { soft: limit, hard: limit }) };
        assert_eq!(limited, 0, "no limit");
        let written = theirs.write_all(&work().map(f64::to_ne_bytes).concat());
        unsafe { _exit(c_int::from(written.is_err())) }
    }
    drop(theirs);
    let mut numbers = Vec::new();
    ours.read_to_end(&mut numbers).expect("what the child writes");
    let mut status = 0;
    unsafe { waitpid(child, &mut status, 0) };
    if status == SIGKILL {
        return None;
    }
    assert_eq!((status, numbers.len()), (0, N * 8), "the check ended without an answer");
    Some(std::array::from_fn(|at| f64::from_ne_bytes(numbers[at * 8..][..8].try_into().expect("eight bytes"))))
}

fn request_draft() -> (Element, Facts) {
    let random = &mut Random::new(1);
    let mut facts = Facts::new(random);
    let root = clean::request(random, &mut facts);
    (root, facts)
}

fn registration_draft(establishments: usize) -> (Element, Facts) {
    let random = &mut Random::new(1);
    let mut facts = Facts::new(random);
    let root = clean::registration(random, &mut facts, establishments, Below::Fitting);
    (root, facts)
}

fn request() -> (Vec<u8>, Facts) {
    let (root, facts) = request_draft();
    (clean::render_plainly(&root), facts)
}

fn registration(establishments: usize) -> (Vec<u8>, Facts) {
    let (root, facts) = registration_draft(establishments);
    (clean::render_plainly(&root), facts)
}

/// Establishments of an id, a name and an operation each: more than that does not fit so often into the limits.
fn bare_registration(establishments: usize) -> (Vec<u8>, Facts) {
    let random = &mut Random::new(2);
    let (mut root, mut facts) = registration_draft(1);
    let registrant = find(&mut root, "assignedOrganization").children();
    let mut entity = registrant.pop().expect("the establishment");
    entity.children().truncate(2);
    for _ in 0..establishments {
        let (duns, name) = facts.firm(random);
        let name = name.replace(['&', '<'], "+");
        facts.firms.last_mut().expect("the firm")[1] = name.clone();
        let mut organisation = organisation("assignedOrganization", &duns, DUNS);
        organisation.children().push(Element::text("name", &name));
        entity.children()[0] = organisation;
        registrant.push(entity.clone());
    }
    (clean::render_plainly(&root), facts)
}

/// The way to one element of a draft.
type Parent = fn(&mut Element) -> &mut Element;

/// The last establishment's entity, in a registration.
fn establishment_entity(root: &mut Element) -> &mut Element {
    find(root, "assignedOrganization").children().last_mut().expect("the establishment")
}

/// What is in the registrant's entity: one entity may have any number of organisations, though one alone is right.
fn registrants(root: &mut Element) -> &mut Vec<Element> {
    find(find(root, "representedOrganization"), "assignedEntity").children()
}

fn organisation(name: &str, extension: &str, root: &str) -> Element {
    Element::new(name, &[], vec![Element::new("id", &[("extension", extension), ("root", root)], Vec::new())])
}

fn code([code, system, display_name]: [&str; 3]) -> Element {
    Element::new("code", &[("code", code), ("codeSystem", system), ("displayName", display_name)], Vec::new())
}

fn performance(codes: Vec<Element>) -> Element {
    Element::new("performance", &[], vec![Element::new("actDefinition", &[], codes)])
}

/// The first element of a name.
fn find<'a>(root: &'a mut Element, name: &str) -> &'a mut Element {
    let number = (0..).find(|&number| root.nth(number).ok().expect("an element of the name").name == name).expect("a number");
    root.nth(number).ok().expect("the element just found")
}

/// A tag with so many attributes, whose names have so many letters.
fn many_attributes(count: usize, letters: u32) -> Vec<u8> {
    let alphabet = b"abcdefghijklmnopqrstuvwxyzABCDEFGHIJKLMNOPQRSTUVWXYZ_";
    let mut document = b"<a".to_vec();
    for number in 0..count {
        document.push(b' ');
        document.extend((0..letters).map(|letter| alphabet[number / alphabet.len().pow(letter) % alphabet.len()]));
        document.extend(b"=''");
    }
    document.extend(b"/>");
    document
}

fn deep() -> Vec<u8> {
    let above = limits::DEPTH - 1;
    format!("{}{}{}", "<a>".repeat(above), "<b/>".repeat(limits::ELEMENTS - above), "</a>".repeat(above)).into_bytes()
}

fn references() -> Vec<u8> {
    let reference = "&#x41;";
    let text = reference.repeat(limits::VALUE / reference.len());
    let title = format!("<title>{text}</title>");
    format!("<document>{}</document>", title.repeat(limits::LENGTH / title.len() - 1)).into_bytes()
}

/// The rows of the three sections.
type Sections = [Vec<Vec<String>>; 3];

/// Tables that know a document, after rows of all kinds that do not, up to so many bytes in all.
fn tables(facts: &Facts, bytes: usize) -> Vec<u8> {
    let random = &mut Random::new(2);
    let known = known_rows(facts);
    let mut sections = [Vec::new(), Vec::new(), Vec::new()];
    let mut size = render(&known).len();
    for number in 0.. {
        let rows = [
            vec![format!("C{number}"), NCI.to_string(), format!("operation {number}")],
            vec![format!("2{number:08}"), format!("firm {number}")],
            vec![facts.kind.to_string(), random.guid(), "1".to_string(), random.guid(), format!("9{number:08}")],
        ];
        // The counts of the sections take a few bytes more than those of the known rows.
        size += rows.iter().map(|row| row.join("\t").len() + 1).sum::<usize>();
        if size + 30 > bytes {
            break;
        }
        for (section, row) in sections.iter_mut().zip(rows) {
            section.push(row);
        }
    }
    for (section, rows) in sections.iter_mut().zip(known) {
        section.extend(rows);
    }
    render(&sections)
}

/// Full tables: known rows, and before those of one section as many more, made from their numbers, as there is room for.
fn filled(known: &Sections, section: usize, row: impl Fn(usize) -> Vec<String>) -> Vec<u8> {
    let mut room = FULL - 30 - render(known).len();
    let mut rows = Vec::new();
    for number in 0..ROWS - known[section].len() {
        let row = row(number);
        let length = row.join("\t").len() + 1;
        if length > room {
            break;
        }
        room -= length;
        rows.push(row);
    }
    let mut sections = known.clone();
    sections[section].splice(0..0, rows);
    render(&sections)
}

/// A row of the history that is near to breaking procedures 21 and 22: of this key under this set, or of a key and a
/// set that differ from them at their ends.
fn past(facts: &Facts, same: bool, key: String) -> Vec<String> {
    let end = if same { "" } else { "?" };
    [facts.kind.to_string(), facts.set.clone() + end, "1".to_string(), "d".to_string(), key + end].to_vec()
}

fn known_rows(facts: &Facts) -> Sections {
    let codes = facts.codes.iter().map(|row| row.to_vec()).collect();
    let register = facts.firms.iter().map(|row| row.to_vec()).collect();
    [codes, register, Vec::new()]
}

fn render(sections: &Sections) -> Vec<u8> {
    let mut bytes = Vec::new();
    for section in sections {
        write_section(section, &mut bytes);
    }
    bytes
}
