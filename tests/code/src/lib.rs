//! The controller's six calls as its library has them, and a controller of
//! them that watches all memory lent to it. The calls of the second controller
//! are in `xive`.

use std::fmt::Write;

pub mod area;
pub mod compare;
pub mod lists;
pub mod machine;
pub mod reach;
pub mod shrink;
pub mod steps;
pub mod tally;
pub mod xive;

/// What a caller must not see.
pub type Complaint = String;

/// Bytes of the pending records' slots; rows of slot numbers, one for each of
/// the nine queues and one of the free slots; counts of each queue and of all,
/// and the subclasses that have records; bytes of the service record and the
/// machine check.
pub const SLOT_BYTES: usize = 18_432;
pub const ORDER_BYTES: usize = 2_560;
pub const COUNTS: usize = 11;
pub const SINGLES_BYTES: usize = 146;

// Bytes instead of bool: what the library leaves is looked at before it is trusted.

#[repr(C)]
#[derive(Clone, Debug, PartialEq, Eq)]
pub struct Controller {
    pub slots: [u8; SLOT_BYTES],
    pub order: [u8; ORDER_BYTES],
    pub counts: [usize; COUNTS],
    pub singles: [u8; SINGLES_BYTES],
    pub ais: u8,
}

#[repr(C)]
#[derive(Clone, Copy, Debug, PartialEq, Eq)]
pub struct Device {
    pub simm: u8,
    pub nimm: u8,
    pub apf: u8,
}

#[repr(C)]
#[derive(Clone, Copy, Debug, PartialEq, Eq)]
pub struct Place {
    pub used: u8,
    pub isc: u8,
    pub maskable: u8,
    pub swap: u8,
    pub suppressible: u8,
    pub masked: u8,
}

#[repr(C)]
#[derive(Clone, Copy, Debug, PartialEq, Eq)]
pub struct Answer {
    pub code: u32,
    pub count: u64,
}

extern "C" {
    pub fn flic_make(
        c: *mut Controller,
        d: *mut Device,
        t: *mut Place,
        places: usize,
        ais: bool,
    ) -> Answer;

    pub fn flic_set(
        c: *mut Controller,
        d: *mut Device,
        t: *mut Place,
        places: usize,
        group: u32,
        attr: u64,
        payload: *const u8,
        length: usize,
    ) -> Answer;

    pub fn flic_get(
        c: *const Controller,
        d: *const Device,
        t: *const Place,
        places: usize,
        group: u32,
        attr: u64,
        out: *mut u8,
        length: usize,
    ) -> Answer;

    pub fn flic_take(
        c: *mut Controller,
        subclasses: u8,
        external: bool,
        mcheck: bool,
        out: *mut u8,
        length: usize,
    ) -> Answer;

    pub fn flic_write_list(
        c: *const Controller,
        d: *const Device,
        t: *const Place,
        places: usize,
        out: *mut u8,
        length: usize,
    ) -> Answer;

    pub fn flic_play_list(
        c: *mut Controller,
        d: *mut Device,
        t: *mut Place,
        places: usize,
        list: *const u8,
        length: usize,
    ) -> Answer;
}

fn check(holds: bool, complaint: &str) -> Result<(), Complaint> {
    if holds {
        Ok(())
    } else {
        Err(complaint.into())
    }
}

/// Bytes in hex, runs written short.
fn hex(bytes: &[u8]) -> String {
    let mut out = String::new();
    let mut at = 0;
    while at < bytes.len() {
        let run = bytes[at..].iter().take_while(|&&byte| byte == bytes[at]).count();
        if run > 3 {
            write!(out, "{:02x}*{run} ", bytes[at]).unwrap();
            at += run;
        } else {
            write!(out, "{:02x} ", bytes[at]).unwrap();
            at += 1;
        }
    }
    out.pop();
    out
}
