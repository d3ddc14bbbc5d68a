//! The exported functions as they are, over slices. All `unsafe` of this crate is here.
//!
//! What the library asks of its caller holds of slices: pointers that are not null, even at length 0, and a lent buffer
//! that overlaps nothing else that is lent.

/// Acceptance is number 0, place 0 and a length; a refusal has its number, its place and length 0.
#[repr(C)]
#[derive(Clone, Copy, Debug, PartialEq, Eq)]
pub struct Answer {
    pub number: u32,
    pub place: u64,
    pub length: u64,
}

/// A part of a register; 0 and 0 where there is none.
#[repr(C)]
#[derive(Clone, Copy, Debug, PartialEq, Eq)]
pub struct Part {
    pub offset: u64,
    pub length: u64,
}

/// A part of one of two registers, 1 the plant's and 2 its contractor's; 1, 0 and 0 where there is none.
#[repr(C)]
#[derive(Clone, Copy, Debug, PartialEq, Eq)]
pub struct Found {
    pub which: u32,
    pub offset: u64,
    pub length: u64,
}

/// `include/kopristen.h` once more.
mod c {
    use super::{Answer, Found, Part};

    #[link(name = "kopristen", kind = "static")]
    extern "C" {
        pub fn kopristen_calculate(register: *const u8, length: usize, report: *mut u8, room: usize) -> Answer;
        pub fn kopristen_combine(
            first: *const u8,
            first_length: usize,
            second: *const u8,
            second_length: usize,
            report: *mut u8,
            room: usize,
        ) -> Answer;
        pub fn kopristen_remove(report: *const u8, length: usize, number: u32, result: *mut u8, room: usize) -> Answer;
        pub fn kopristen_check(report: *const u8, length: usize) -> Answer;
        pub fn kopristen_text(report: *const u8, length: usize, text: *mut u8, room: usize) -> Answer;
        pub fn kopristen_name(register: *const u8, length: usize, number: u32) -> Part;
        pub fn kopristen_name_of_two(
            plant: *const u8,
            plant_length: usize,
            contractor: *const u8,
            contractor_length: usize,
            number: u32,
        ) -> Found;
        pub fn kopristen_amounts(cards: *const u8, length: usize, amounts: *mut u8, room: usize) -> Answer;
    }
}

pub fn calculate(register: &[u8], report: &mut [u8]) -> Answer {
    // SAFETY: slices; `report` is lent alone.
    unsafe { c::kopristen_calculate(register.as_ptr(), register.len(), report.as_mut_ptr(), report.len()) }
}

pub fn combine(first: &[u8], second: &[u8], report: &mut [u8]) -> Answer {
    // SAFETY: slices; `report` is lent alone.
    unsafe {
        c::kopristen_combine(
            first.as_ptr(),
            first.len(),
            second.as_ptr(),
            second.len(),
            report.as_mut_ptr(),
            report.len(),
        )
    }
}

pub fn remove(report: &[u8], number: u32, result: &mut [u8]) -> Answer {
    // SAFETY: slices; `result` is lent alone.
    unsafe { c::kopristen_remove(report.as_ptr(), report.len(), number, result.as_mut_ptr(), result.len()) }
}

pub fn check(report: &[u8]) -> Answer {
    // SAFETY: a slice.
    unsafe { c::kopristen_check(report.as_ptr(), report.len()) }
}

pub fn text(report: &[u8], text: &mut [u8]) -> Answer {
    // SAFETY: slices; `text` is lent alone.
    unsafe { c::kopristen_text(report.as_ptr(), report.len(), text.as_mut_ptr(), text.len()) }
}

pub fn name(register: &[u8], number: u32) -> Part {
    // SAFETY: a slice.
    unsafe { c::kopristen_name(register.as_ptr(), register.len(), number) }
}

pub fn name_of_two(plant: &[u8], contractor: &[u8], number: u32) -> Found {
    // SAFETY: slices.
    unsafe { c::kopristen_name_of_two(plant.as_ptr(), plant.len(), contractor.as_ptr(), contractor.len(), number) }
}

pub fn amounts(cards: &[u8], amounts: &mut [u8]) -> Answer {
    // SAFETY: slices; `amounts` is lent alone.
    unsafe { c::kopristen_amounts(cards.as_ptr(), cards.len(), amounts.as_mut_ptr(), amounts.len()) }
}
