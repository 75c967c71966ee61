//! The sources in plain Rust: what the library is measured against. Their
//! answers are compared with the model's (`bench check`).

use code::xive::Reading;
use model::xive::{ENOENT, SERVERS, SOURCES};
use model::{E2BIG, EFAULT, EINVAL};

#[derive(Clone, Copy)]
enum Kind {
    Msi,
    Lsi { level: bool },
}

#[derive(Clone, Copy)]
enum Source {
    NotInitialised,
    Masked(Kind),
    Targeted(Kind, u64),
}

pub struct Sources {
    sources: [Source; SOURCES],
}

fn word(payload: &[u8]) -> Option<u64> {
    payload.first_chunk().map(|bytes| u64::from_be_bytes(*bytes))
}

fn place(number: u64) -> usize {
    usize::try_from(number).unwrap_or(usize::MAX)
}

impl Sources {
    pub fn new() -> Sources {
        Sources { sources: [Source::NotInitialised; SOURCES] }
    }

    #[inline(never)]
    pub fn make(&mut self) {
        self.sources.fill(Source::NotInitialised);
    }

    #[inline(never)]
    pub fn initialise(&mut self, number: u64, payload: &[u8]) -> (u32, u64) {
        let Some(word) = word(payload) else { return (EFAULT, 0) };
        let Some(source) = self.sources.get_mut(place(number)) else { return (E2BIG, 0) };
        let lsi = word & 1 != 0;
        *source = Source::Masked(if lsi { Kind::Lsi { level: word & 2 != 0 } } else { Kind::Msi });
        (0, 0)
    }

    #[inline(never)]
    pub fn target(&mut self, number: u64, payload: &[u8]) -> (u32, u64) {
        let Some(word) = word(payload) else { return (EFAULT, 0) };
        let Some(source) = self.sources.get_mut(place(number)) else { return (ENOENT, 0) };
        let (Source::Masked(kind) | Source::Targeted(kind, _)) = *source else {
            return (EINVAL, 0);
        };
        let server = (word as u32) >> 3;
        if server >= SERVERS {
            return (EINVAL, 0);
        }
        *source = Source::Targeted(kind, word);
        (0, 0)
    }

    #[inline(never)]
    pub fn sync(&self, number: u64) -> (u32, u64) {
        match self.sources.get(place(number)) {
            None => (ENOENT, 0),
            Some(Source::NotInitialised) => (EINVAL, 0),
            Some(_) => (0, 0),
        }
    }

    #[inline(never)]
    pub fn read(&self, number: u64) -> Reading {
        let refused = |code| Reading { code, ..Reading::default() };
        let (kind, targeting) = match self.sources.get(place(number)) {
            None => return refused(ENOENT),
            Some(Source::NotInitialised) => return refused(EINVAL),
            Some(Source::Masked(kind)) => (kind, None),
            Some(Source::Targeted(kind, word)) => (kind, Some(*word)),
        };
        let (level, kind) = match *kind {
            Kind::Msi => (0, 0),
            Kind::Lsi { level } => (u8::from(level), 1),
        };
        let masked = u8::from(targeting.is_none());
        Reading { code: 0, level, kind, masked, count: 0, word: targeting.unwrap_or(0) }
    }
}

impl Default for Sources {
    fn default() -> Sources {
        Sources::new()
    }
}
