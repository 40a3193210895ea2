//! Work whose instructions are counted from outside.
//!
//! `count WORK DOCUMENT TABLES TIMES` does WORK (`check`, `expat` or `libxml2`) so many times on the files, and nothing else that
//! depends on TIMES: two runs that differ by one in TIMES differ by the instructions of the work.

use reference::grammar::limits;
use std::hint::black_box;

fn main() {
    let words: Vec<String> = std::env::args().skip(1).collect();
    let [work, document, tables, times] = &words[..] else { panic!("count WORK DOCUMENT TABLES TIMES") };
    let [document, tables] = [document, tables].map(|file| std::fs::read(file).expect("a file that can be read"));
    let mut scratch = vec![0; reference::SCRATCH];
    let mut elements = vec![0; limits::ELEMENTS * reference::ROW];
    let mut findings = vec![0; limits::ELEMENTS * 38 * reference::FINDING];
    let mut once: Box<dyn FnMut()> = match work.as_str() {
        "check" => Box::new(|| _ = black_box(binding::check(&document, &tables, &mut scratch, &mut elements, &mut findings))),
        "expat" => Box::new(|| _ = black_box(xmllibs::expat_takes(&document))),
        "libxml2" => Box::new(|| _ = black_box(xmllibs::libxml2_takes(&document))),
        _ => panic!("no work is called {work}"),
    };
    for _ in 0..times.parse().expect("a number of times") {
        once();
    }
}
