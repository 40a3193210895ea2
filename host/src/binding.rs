//! The C interface of the archive. All that depends on its exact shape is in this file.
//!
//! Built with `--cfg standin`, the reference stands in for the archive, so that the harness can be tried without it.

use std::borrow::Cow;

#[cfg(standin)]
#[path = "standin.rs"]
mod archive;

#[cfg(not(standin))]
mod archive {
    use super::{Finding, Numbers, Part};

    unsafe extern "C" {
        pub fn bd_check(
            document: *const u8, document_length: usize,
            tables: *const u8, tables_length: usize,
            scratch: *mut u8, scratch_length: usize,
            elements: *mut u32, elements_length: usize,
            findings: *mut u32, findings_length: usize,
        ) -> Numbers;
        pub fn bd_merge(
            a: *const Finding, a_count: usize,
            b: *const Finding, b_count: usize,
            out: *mut u32, out_length: usize,
        ) -> Numbers;
        pub fn bd_value(
            document: *const u8, document_length: usize,
            scratch: *mut u8, scratch_length: usize,
            first: usize, after: usize,
            name: *const u8, name_length: usize,
        ) -> Part;
    }
}

/// `bd_numbers` of `benchdowel.h`: a refusal's number with what it returns, or 0 with a count.
#[repr(C)]
#[derive(Clone, Copy)]
pub struct Numbers {
    pub refusal: u32,
    pub value: usize,
}

impl Numbers {
    /// No case has lengths of more than 32 bits.
    fn pair(self) -> (u32, u32) {
        (self.refusal, self.value.try_into().expect("a value of 32 bits"))
    }
}

/// `bd_finding` of `benchdowel.h`: three numbers of a list, as they stand in memory.
#[repr(C)]
pub struct Finding {
    pub procedure: u32,
    pub first: u32,
    pub after: u32,
}

/// The numbers of a finding.
const NUMBERS: usize = 3;

/// `bd_part` of `benchdowel.h`: a part of the document, or, if `in_scratch` is 1, of the scratch area.
#[repr(C)]
#[derive(Clone, Copy)]
pub struct Part {
    pub in_scratch: u32,
    pub first: usize,
    pub after: usize,
}

pub fn check(document: &[u8], tables: &[u8], scratch: &mut [u8], elements: &mut [u32], findings: &mut [u32]) -> (u32, u32) {
    // Every pointer is given with the length of its slice, and none is kept.
    let numbers = unsafe {
        archive::bd_check(
            document.as_ptr(), document.len(),
            tables.as_ptr(), tables.len(),
            scratch.as_mut_ptr(), scratch.len(),
            elements.as_mut_ptr(), elements.len(),
            findings.as_mut_ptr(), findings.len(),
        )
    };
    numbers.pair()
}

/// The lists are lent where they stand, as findings.
pub fn merge(a: &[u32], b: &[u32], out: &mut [u32]) -> (u32, u32) {
    let (a, b) = (whole(a), whole(b));
    let (first, second) = (a.as_ptr().cast(), b.as_ptr().cast());
    let numbers = unsafe { archive::bd_merge(first, a.len() / NUMBERS, second, b.len() / NUMBERS, out.as_mut_ptr(), out.len()) };
    numbers.pair()
}

/// A list in whole records: where the last one is not, a copy that has 0 for what is missing, so that its start is not below its end.
fn whole(list: &[u32]) -> Cow<'_, [u32]> {
    let mut list = Cow::Borrowed(list);
    if list.len() % NUMBERS > 0 {
        let length = list.len().next_multiple_of(NUMBERS);
        list.to_mut().resize(length, 0);
    }
    list
}

/// Whether the value is in scratch, where it starts and how long it is.
pub fn value(document: &[u8], scratch: &mut [u8], first: usize, after: usize, name: &[u8]) -> (bool, usize, usize) {
    let part = unsafe {
        archive::bd_value(
            document.as_ptr(), document.len(),
            scratch.as_mut_ptr(), scratch.len(),
            first, after,
            name.as_ptr(), name.len(),
        )
    };
    (part.in_scratch != 0, part.first, part.after - part.first)
}
