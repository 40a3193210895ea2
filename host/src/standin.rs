//! The reference in the archive's place, to try the harness.
//!
//! The variable STANDIN_FAULT names a fault to put into its answers, which the harness must then notice:
//! answer, list, elements, scratch, behind, refused, merge or value.

use super::{Finding, NUMBERS, Numbers, Part};
use std::slice::{from_raw_parts, from_raw_parts_mut};
use std::sync::OnceLock;

fn fault() -> &'static str {
    static FAULT: OnceLock<String> = OnceLock::new();
    FAULT.get_or_init(|| std::env::var("STANDIN_FAULT").unwrap_or_default())
}

#[allow(clippy::too_many_arguments)]
pub unsafe fn bd_check(
    document: *const u8, document_length: usize,
    tables: *const u8, tables_length: usize,
    scratch: *mut u8, scratch_length: usize,
    elements: *mut u32, elements_length: usize,
    findings: *mut u32, findings_length: usize,
) -> Numbers {
    let (refusal, mut value) = unsafe {
        reference::check(
            from_raw_parts(document, document_length),
            from_raw_parts(tables, tables_length),
            from_raw_parts_mut(scratch, scratch_length),
            from_raw_parts_mut(elements, elements_length),
            from_raw_parts_mut(findings, findings_length),
        )
    };
    let found = refusal == 0 && value > 0;
    match fault() {
        "answer" if found => value -= 1,
        "list" if found => unsafe { *findings.add(value as usize * 3 - 1) += 1 },
        "elements" if refusal == 0 && elements_length % 4 > 0 => unsafe { *elements.add(elements_length - 1) ^= 1 },
        "scratch" if refusal == 0 => unsafe { *scratch.add(4_095) = 1 },
        "behind" if found => unsafe { *findings.add(findings_length) ^= 1 },
        "refused" if refusal == 11 && findings_length > 0 => unsafe { *findings ^= 1 },
        _ => {}
    }
    Numbers { refusal, value: value as usize }
}

pub unsafe fn bd_merge(a: *const Finding, a_count: usize, b: *const Finding, b_count: usize, out: *mut u32, out_length: usize) -> Numbers {
    let (a, b) = unsafe { (from_raw_parts(a.cast(), a_count * NUMBERS), from_raw_parts(b.cast(), b_count * NUMBERS)) };
    let out = unsafe { from_raw_parts_mut(out, out_length) };
    let other = if fault() == "merge" { a } else { b };
    let (refusal, value) = reference::merge(a, other, out);
    Numbers { refusal, value: value as usize }
}

#[allow(clippy::too_many_arguments)]
pub unsafe fn bd_value(
    document: *const u8, document_length: usize,
    scratch: *mut u8, scratch_length: usize,
    first: usize, after: usize,
    name: *const u8, name_length: usize,
) -> Part {
    let (document, scratch, name) = unsafe {
        (from_raw_parts(document, document_length), from_raw_parts_mut(scratch, scratch_length), from_raw_parts(name, name_length))
    };
    match reference::value(document, scratch, first, after, name) {
        reference::Shown::Document { start, length } => {
            let start = if fault() == "value" { start + 1 } else { start };
            Part { in_scratch: 0, first: start, after: start + length }
        }
        reference::Shown::Scratch { length } => Part { in_scratch: 1, first: 0, after: length },
    }
}
