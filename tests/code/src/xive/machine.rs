//! Sources of the library, in watched memory.

use super::{xive_initialise, xive_make, xive_read, xive_sync, xive_target, Sources};
use crate::area::Area;
use crate::{check, Answer, Complaint};
use model::calls::Rng;
use model::xive::{Ask, Reading, Seen};
use std::mem::size_of;

/// Most bytes lent as a payload.
const MOST_BYTES: usize = 64;

/// What the memory is before the first call; the numbers are seeds of its bytes.
#[derive(Clone, Copy, Debug, PartialEq, Eq)]
pub enum Start {
    /// Any bytes, made a fresh controller.
    Made(u64),
    /// Zeros, which are a fresh controller too.
    Zeros,
    /// Any bytes, which are some controller.
    Any(u64),
}

pub struct Machine {
    sources: Area,
    payload: Area,
    at_end: bool,
}

impl Machine {
    /// Readies the memory.
    pub fn start(&mut self, start: Start) -> Result<(), Complaint> {
        self.at_end = !self.at_end;
        self.sources.lend(size_of::<Sources>(), self.at_end);
        self.payload.lend(0, true);
        let bytes = self.sources.bytes();
        match start {
            Start::Zeros => bytes.fill(0),
            Start::Made(seed) | Start::Any(seed) => {
                let mut rng = Rng::new(seed);
                bytes.fill_with(|| rng.next() as u8);
            }
        }
        if let Start::Made(_) = start {
            self.call(&Ask::Make, &[])?;
        }
        Ok(())
    }

    /// One call.
    pub fn call(&mut self, ask: &Ask, payload: &[u8]) -> Result<Seen, Complaint> {
        self.at_end = !self.at_end;
        let lent = self.payload.lend(payload.len(), self.at_end);
        self.payload.bytes().copy_from_slice(payload);
        // Of no bytes any pointer is one.
        let lent = if payload.is_empty() && self.at_end { std::ptr::null_mut() } else { lent };
        let before = self.sources.bytes().to_vec();
        let s: *mut Sources = self.sources.bytes().as_mut_ptr().cast();
        // Sound: memory of the right layout and length; nobody else uses it.
        let answer = unsafe {
            match *ask {
                Ask::Make => {
                    xive_make(s);
                    Answer { code: 0, count: 0 }
                }
                Ask::Initialise { number } => xive_initialise(s, number, lent, payload.len()),
                Ask::Target { number } => xive_target(s, number, lent, payload.len()),
                Ask::Sync { number } => xive_sync(s, number),
                Ask::Read { number } => {
                    let seen = self.read(number)?;
                    self.check_kept(&before)?;
                    return Ok(seen);
                }
            }
        };
        check(self.payload.bytes() == payload, "the payload changed")?;
        if answer.code != 0 || matches!(ask, Ask::Sync { .. }) {
            self.check_kept(&before)?;
        }
        check(self.sources.kept() && self.payload.kept(), "bytes beside what was lent changed")?;
        Ok(Seen { code: answer.code, count: answer.count, reading: Reading::default() })
    }

    /// The readings of the sources of these numbers, which change nothing.
    pub fn readings(
        &mut self,
        numbers: std::ops::Range<u64>,
        mut each: impl FnMut(u64, Seen) -> Result<(), Complaint>,
    ) -> Result<(), Complaint> {
        let before = self.sources.bytes().to_vec();
        for number in numbers {
            each(number, self.read(number)?)?;
        }
        self.check_kept(&before)
    }

    fn read(&mut self, number: u64) -> Result<Seen, Complaint> {
        // Sound: memory of the right layout and length.
        let read = unsafe { xive_read(self.sources.bytes().as_ptr().cast(), number) };
        let super::Reading { code, level, kind, masked, count, word } = read;
        check(masked <= 1, "masked is neither 0 nor 1")?;
        Ok(Seen { code, count, reading: Reading { level, kind, masked: masked == 1, word } })
    }

    fn check_kept(&mut self, before: &[u8]) -> Result<(), Complaint> {
        check(self.sources.bytes() == before, "the sources changed")?;
        check(self.sources.kept(), "bytes beside the sources changed")
    }
}

impl Default for Machine {
    fn default() -> Machine {
        let areas = (Area::new(size_of::<Sources>()), Area::new(MOST_BYTES));
        Machine { sources: areas.0, payload: areas.1, at_end: false }
    }
}
