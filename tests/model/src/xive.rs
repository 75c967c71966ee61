//! A plain model of the sources of POWER9's interrupt controller (XIVE): they
//! are initialised, targeted at a processor, synchronised and read. A payload
//! is one big-endian word of 64 bits, whose bit 0 is the lowest.

use crate::{check, lent, E2BIG, EINVAL};

/// Sources, by number from 0.
pub const SOURCES: usize = 1024;
/// Servers, the processors that a source can be targeted at, from 0.
pub const SERVERS: u32 = 16;

pub const ENOENT: u32 = 2;

/// A targeting word, field by field.
#[derive(Clone, Copy, Debug, PartialEq, Eq)]
pub struct Targeting {
    /// Bits 63 to 33: the effective source number.
    pub eisn: u32,
    /// Bit 32: kept, without effect.
    pub mask: bool,
    /// Bits 31 to 3.
    pub server: u32,
    /// Bits 2 to 0.
    pub priority: u8,
}

impl Targeting {
    pub fn of(word: u64) -> Targeting {
        Targeting {
            eisn: (word >> 33) as u32,
            mask: word >> 32 & 1 != 0,
            server: (word >> 3) as u32 & 0x1fff_ffff,
            priority: word as u8 & 7,
        }
    }

    pub fn word(&self) -> u64 {
        let Targeting { eisn, mask, server, priority } = *self;
        u64::from(eisn) << 33 | u64::from(mask) << 32 | u64::from(server) << 3 | u64::from(priority)
    }
}

/// A source that was initialised. It is masked until it is targeted.
#[derive(Clone, Copy, Debug, PartialEq, Eq)]
pub struct Source {
    /// A level-sensitive interrupt; otherwise a message (MSI).
    pub lsi: bool,
    /// The assertion level of an LSI.
    pub level: bool,
    pub targeting: Option<Targeting>,
}

/// What a caller asks; initialising and targeting are lent a payload.
#[derive(Clone, Copy, Debug, PartialEq, Eq)]
pub enum Ask {
    Make,
    Initialise { number: u64 },
    Target { number: u64 },
    Sync { number: u64 },
    Read { number: u64 },
}

/// What a reading says of a source.
#[derive(Clone, Copy, Debug, Default, PartialEq, Eq)]
pub struct Reading {
    pub level: u8,
    /// 0 for an MSI, 1 for an LSI.
    pub kind: u8,
    pub masked: bool,
    /// The targeting word; 0 if there is none.
    pub word: u64,
}

/// What the caller sees; the reading is all 0 in a refusal and after another call.
#[derive(Clone, Copy, Debug, PartialEq, Eq)]
pub struct Seen {
    pub code: u32,
    pub count: u64,
    pub reading: Reading,
}

/// The sources by number, each initialised or not.
#[derive(Clone, Debug, PartialEq, Eq)]
pub struct Sources(pub [Option<Source>; SOURCES]);

impl Sources {
    pub fn fresh() -> Sources {
        Sources([None; SOURCES])
    }

    /// Carries out one call.
    pub fn call(&mut self, ask: &Ask, payload: &[u8]) -> Seen {
        let answer = match *ask {
            Ask::Make => {
                *self = Sources::fresh();
                Ok(())
            }
            Ask::Initialise { number } => self.initialise(number, payload),
            Ask::Target { number } => self.target(number, payload),
            Ask::Sync { number } => self.initialised(number).map(|_| ()),
            Ask::Read { number } => return self.read(number),
        };
        seen(answer.map(|()| Reading::default()))
    }

    /// A reading of the source of this number.
    pub fn read(&self, number: u64) -> Seen {
        seen(self.initialised(number).map(|source| Reading {
            level: source.level.into(),
            kind: source.lsi.into(),
            masked: source.targeting.is_none(),
            word: source.targeting.map_or(0, |targeting| targeting.word()),
        }))
    }

    /// The source of this number, if it was initialised.
    pub fn get(&self, number: u64) -> Option<&Source> {
        self.0[place(number)?].as_ref()
    }

    fn initialise(&mut self, number: u64, payload: &[u8]) -> Result<(), u32> {
        let setting = word(payload)?;
        let place = place(number).ok_or(E2BIG)?;
        let lsi = setting & 1 != 0;
        let level = lsi && setting & 2 != 0;
        self.0[place] = Some(Source { lsi, level, targeting: None });
        Ok(())
    }

    fn target(&mut self, number: u64, payload: &[u8]) -> Result<(), u32> {
        let targeting = Targeting::of(word(payload)?);
        let place = place(number).ok_or(ENOENT)?;
        let source = self.0[place].as_mut().ok_or(EINVAL)?;
        check(targeting.server < SERVERS, EINVAL)?;
        source.targeting = Some(targeting);
        Ok(())
    }

    /// The source that a sync or a reading is about.
    fn initialised(&self, number: u64) -> Result<&Source, u32> {
        check(place(number).is_some(), ENOENT)?;
        self.get(number).ok_or(EINVAL)
    }
}

/// The place of a source; none for a number that is too large.
fn place(number: u64) -> Option<usize> {
    usize::try_from(number).ok().filter(|&place| place < SOURCES)
}

/// The word at the start of a lent payload.
fn word(payload: &[u8]) -> Result<u64, u32> {
    Ok(u64::from_be_bytes(*lent(payload)?))
}

fn seen(answer: Result<Reading, u32>) -> Seen {
    match answer {
        Ok(reading) => Seen { code: 0, count: 0, reading },
        Err(code) => Seen { code, count: 0, reading: Reading::default() },
    }
}
