//! include/yukemasop.h, in Rust. Nothing checks the two against each other but the comparisons.

/// No place.
pub const NOWHERE: usize = usize::MAX;

/// The number of no pair.
pub const NO_PAIR: usize = 6;

#[repr(C)]
pub struct Base {
    pub number: u32,
    pub place: usize,
    pub letter: u8,
}

#[repr(C)]
pub struct Answer {
    pub number: u32,
    pub place: usize,
    pub value: usize,
}

#[repr(C)]
#[derive(Clone, Copy)]
pub struct Record {
    pub length: usize,
    pub gap: usize,
}

#[repr(C)]
pub struct Counted {
    pub number: u32,
    pub place: usize,
    pub record: Record,
    pub count: usize,
}

#[repr(C)]
pub struct Least {
    pub number: u32,
    pub place: usize,
    pub energy: i32,
}

#[cfg(not(feature = "bridge"))]
extern "C" {
    pub fn ykm_version() -> u32;
    pub fn ykm_read_base(byte: u8) -> Base;
    pub fn ykm_can_pair(a: u8, b: u8) -> bool;
    pub fn ykm_pair_index(a: u8, b: u8) -> usize;
    pub fn ykm_from_dot_bracket(
        text: *const u8,
        text_length: usize,
        pairs: *mut u16,
        pairs_length: usize,
    ) -> Answer;
    pub fn ykm_to_dot_bracket(
        pairs: *const u16,
        pairs_length: usize,
        text: *mut u8,
        text_length: usize,
    ) -> Answer;
    pub fn ykm_base_pairs(
        pairs: *const u16,
        pairs_length: usize,
        out: *mut u16,
        out_length: usize,
    ) -> Answer;
    pub fn ykm_is_paired(pairs: *const u16, pairs_length: usize, i: usize) -> Answer;
    pub fn ykm_partner(pairs: *const u16, pairs_length: usize, i: usize) -> Answer;
    pub fn ykm_num_pairs(pairs: *const u16, pairs_length: usize) -> Answer;
    pub fn ykm_base_pair_distance(
        a: *const u16,
        a_length: usize,
        b: *const u16,
        b_length: usize,
    ) -> Answer;
    pub fn ykm_mountain_distance(
        a: *const u16,
        a_length: usize,
        b: *const u16,
        b_length: usize,
    ) -> Answer;
    pub fn ykm_nussinov(
        seq: *const u8,
        seq_length: usize,
        gap: usize,
        bases: *mut u8,
        bases_length: usize,
        cells: *mut u16,
        cells_length: usize,
        pairs: *mut u16,
        pairs_length: usize,
    ) -> Counted;
    pub fn ykm_zuker_mfe(
        seq: *const u8,
        seq_length: usize,
        bases: *mut u8,
        bases_length: usize,
        paired: *mut i32,
        paired_length: usize,
        any: *mut i32,
        any_length: usize,
        arms: *mut i32,
        arms_length: usize,
        pairs: *mut u16,
        pairs_length: usize,
    ) -> Least;
    pub fn ykm_replace(
        record: Record,
        bases: *mut u8,
        bases_length: usize,
        cells: *mut u16,
        cells_length: usize,
        position: usize,
        byte: u8,
    ) -> Counted;
    pub fn ykm_add(
        record: Record,
        bases: *mut u8,
        bases_length: usize,
        cells: *mut u16,
        cells_length: usize,
        byte: u8,
    ) -> Counted;
    pub fn ykm_erase(
        record: Record,
        bases: *const u8,
        bases_length: usize,
        cells: *const u16,
        cells_length: usize,
    ) -> Counted;
    pub fn ykm_traceback(
        record: Record,
        bases: *const u8,
        bases_length: usize,
        cells: *const u16,
        cells_length: usize,
        pairs: *mut u16,
        pairs_length: usize,
    ) -> Answer;
}

#[cfg(feature = "bridge")]
pub use crate::bridge::*;
