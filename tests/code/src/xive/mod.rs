//! The five calls of the sources of POWER9's controller as their library has
//! them, and sources that watch all memory lent to the calls.

use crate::Answer;

pub mod lists;
pub mod machine;
pub mod reach;
pub mod steps;

#[repr(C)]
#[derive(Clone, Debug, PartialEq, Eq)]
pub struct Sources {
    pub stored: [u64; 1024],
}

/// A byte instead of bool: what the library leaves is looked at before it is trusted.
#[repr(C)]
#[derive(Clone, Copy, Debug, Default, PartialEq, Eq)]
pub struct Reading {
    pub code: u32,
    pub level: u8,
    pub kind: u8,
    pub masked: u8,
    pub count: u64,
    pub word: u64,
}

extern "C" {
    pub fn xive_make(s: *mut Sources);

    pub fn xive_initialise(
        s: *mut Sources,
        number: u64,
        payload: *const u8,
        length: usize,
    ) -> Answer;

    pub fn xive_target(s: *mut Sources, number: u64, payload: *const u8, length: usize) -> Answer;

    pub fn xive_sync(s: *const Sources, number: u64) -> Answer;

    pub fn xive_read(s: *const Sources, number: u64) -> Reading;
}
