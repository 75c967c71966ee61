//! The three that are measured, behind one set of calls.

use super::plain;
use code::xive::{xive_initialise, xive_make, xive_read, xive_sync, xive_target, Reading};
use code::Answer;
use model::xive::{Ask, Seen};

pub trait Subject {
    fn fresh() -> Self;
    fn make(&mut self);
    fn initialise(&mut self, number: u64, payload: &[u8]) -> (u32, u64);
    fn target(&mut self, number: u64, payload: &[u8]) -> (u32, u64);
    fn sync(&mut self, number: u64) -> (u32, u64);
    fn read(&mut self, number: u64) -> Reading;

    /// Any of the calls; one that is no reading gives 0 in its place.
    fn call(&mut self, ask: Ask, payload: &[u8]) -> Reading {
        let (code, count) = match ask {
            Ask::Make => {
                self.make();
                (0, 0)
            }
            Ask::Initialise { number } => self.initialise(number, payload),
            Ask::Target { number } => self.target(number, payload),
            Ask::Sync { number } => self.sync(number),
            Ask::Read { number } => return self.read(number),
        };
        Reading { code, count, ..Reading::default() }
    }
}

/// The proved code.
pub struct Library(pub Box<code::xive::Sources>);

fn both(answer: Answer) -> (u32, u64) {
    (answer.code, answer.count)
}

// Sound, all five: a whole record of the right layout, borrowed for the call.
impl Subject for Library {
    fn fresh() -> Library {
        let mut it = Library(Box::new(code::xive::Sources { stored: [0; 1024] }));
        it.make();
        it
    }

    #[inline]
    fn make(&mut self) {
        unsafe { xive_make(&mut *self.0) }
    }

    #[inline]
    fn initialise(&mut self, number: u64, payload: &[u8]) -> (u32, u64) {
        let (bytes, length) = (payload.as_ptr(), payload.len());
        both(unsafe { xive_initialise(&mut *self.0, number, bytes, length) })
    }

    #[inline]
    fn target(&mut self, number: u64, payload: &[u8]) -> (u32, u64) {
        let (bytes, length) = (payload.as_ptr(), payload.len());
        both(unsafe { xive_target(&mut *self.0, number, bytes, length) })
    }

    #[inline]
    fn sync(&mut self, number: u64) -> (u32, u64) {
        both(unsafe { xive_sync(&*self.0, number) })
    }

    #[inline]
    fn read(&mut self, number: u64) -> Reading {
        unsafe { xive_read(&*self.0, number) }
    }
}

/// Plain Rust.
impl Subject for Box<plain::Sources> {
    fn fresh() -> Box<plain::Sources> {
        Box::default()
    }

    #[inline]
    fn make(&mut self) {
        plain::Sources::make(self)
    }

    #[inline]
    fn initialise(&mut self, number: u64, payload: &[u8]) -> (u32, u64) {
        plain::Sources::initialise(self, number, payload)
    }

    #[inline]
    fn target(&mut self, number: u64, payload: &[u8]) -> (u32, u64) {
        plain::Sources::target(self, number, payload)
    }

    #[inline]
    fn sync(&mut self, number: u64) -> (u32, u64) {
        plain::Sources::sync(self, number)
    }

    #[inline]
    fn read(&mut self, number: u64) -> Reading {
        plain::Sources::read(self, number)
    }
}

/// The tests' model, written to be read.
pub struct Model(Box<model::xive::Sources>);

impl Model {
    #[inline]
    fn answer(&mut self, ask: Ask, payload: &[u8]) -> (u32, u64) {
        let Seen { code, count, .. } = self.0.call(&ask, payload);
        (code, count)
    }
}

impl Subject for Model {
    fn fresh() -> Model {
        Model(Box::new(model::xive::Sources::fresh()))
    }

    #[inline]
    fn make(&mut self) {
        self.answer(Ask::Make, &[]);
    }

    #[inline]
    fn initialise(&mut self, number: u64, payload: &[u8]) -> (u32, u64) {
        self.answer(Ask::Initialise { number }, payload)
    }

    #[inline]
    fn target(&mut self, number: u64, payload: &[u8]) -> (u32, u64) {
        self.answer(Ask::Target { number }, payload)
    }

    #[inline]
    fn sync(&mut self, number: u64) -> (u32, u64) {
        self.answer(Ask::Sync { number }, &[])
    }

    #[inline]
    fn read(&mut self, number: u64) -> Reading {
        let Seen { code, count, reading } = self.0.call(&Ask::Read { number }, &[]);
        let model::xive::Reading { level, kind, masked, word } = reading;
        Reading { code, level, kind, masked: masked.into(), count, word }
    }
}
