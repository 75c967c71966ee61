//! Random lists of calls. Most are about a few sources, so that each is
//! initialised, targeted, read and initialised again; numbers, words and
//! lengths stand at the edges.

use super::machine::Start;
use super::steps::{Call, List};
use model::calls::Rng;
use model::xive::{Ask, Targeting, SOURCES};

/// The list of a number, from 0.
pub fn list(seed: u64, number: usize) -> List {
    let mut rng = Rng::new(seed ^ (number as u64).wrapping_mul(0x2545_f491_4f6c_dd1d));
    let rng = &mut rng;
    rng.next();
    let start = match rng.below(8) {
        0 | 1 => Start::Zeros,
        2 => Start::Any(rng.next()),
        _ => Start::Made(rng.next()),
    };
    let calls = if number % 64 == 63 { all_sources(rng) } else { few_sources(rng) };
    List { start, calls }
}

/// Calls about one to four sources and their neighbours.
fn few_sources(rng: &mut Rng) -> Vec<Call> {
    let homes: Vec<u64> = (0..1 + rng.below(4))
        .map(|_| match rng.below(3) {
            0 => rng.below(SOURCES) as u64,
            _ => rng.pick(&[0, 1, 5, 6, 255, 256, 511, 512, 1_022, 1_023]),
        })
        .collect();
    let length = 20 + rng.below(100);
    (0..length)
        .map(|_| {
            let number = number(rng, &homes);
            call(rng, number)
        })
        .collect()
}

/// Every source initialised and targeted, each with words of its own, in some
/// order; then calls about any of them.
fn all_sources(rng: &mut Rng) -> Vec<Call> {
    let (from, step) = (rng.next(), 2 * rng.next() + 1);
    let numbers = || (0..SOURCES as u64).map(|at| (from + step * at) % SOURCES as u64);
    let mut calls = Vec::new();
    for number in numbers() {
        calls.push(lent(Ask::Initialise { number }, setting(rng)));
    }
    for number in numbers() {
        calls.push(lent(Ask::Target { number }, rng.next() & !0xffff_ff80));
    }
    for _ in 0..100 {
        let any = rng.below(SOURCES) as u64;
        let number = number(rng, &[any]);
        calls.push(call(rng, number));
    }
    calls
}

/// A call whose payload is one word.
fn lent(ask: Ask, word: u64) -> Call {
    Call { ask, payload: word.to_be_bytes().to_vec() }
}

/// A source number: mostly of these, or near them, or one that is too large.
fn number(rng: &mut Rng, homes: &[u64]) -> u64 {
    let home = rng.pick(homes);
    match rng.below(20) {
        0 => rng.pick(&[0, 1, 1_022, 1_023]),
        1 => rng.pick(&[1_024, 1_025, 1 << 63, u64::MAX]),
        2 => home + rng.pick(&[1 << 10, 1 << 16, 1 << 32, 1 << 63]),
        3 => (1 << 32) + 5,
        4 => home.saturating_sub(1),
        5 => home + 1,
        _ => home,
    }
}

fn call(rng: &mut Rng, number: u64) -> Call {
    let (ask, word) = match rng.below(100) {
        0 => (Ask::Make, 0),
        1..=29 => (Ask::Initialise { number }, setting(rng)),
        30..=69 => (Ask::Target { number }, targeting(rng)),
        70..=79 => (Ask::Sync { number }, 0),
        _ => (Ask::Read { number }, 0),
    };
    let payload = match ask {
        Ask::Initialise { .. } | Ask::Target { .. } => payload(rng, word),
        _ => vec![],
    };
    Call { ask, payload }
}

/// A word of initialising: type and level, and any unused bits.
fn setting(rng: &mut Rng) -> u64 {
    let used = rng.below(4) as u64;
    let unused = match rng.below(4) {
        0 => rng.next(),
        1 => rng.pick(&[u64::MAX, 4, 1 << 32, 1 << 56, 1 << 63]),
        _ => 0,
    };
    unused & !3 | used
}

fn targeting(rng: &mut Rng) -> u64 {
    if rng.percent(8) {
        return 0;
    }
    let server = match rng.below(10) {
        0 | 1 => rng.pick(&[16, 17, 31, 32, 256, 1 << 16, 1 << 24, 1 << 28, (1 << 29) - 1]),
        2 => rng.pick(&[1 << 4, 1 << 8, 1 << 28]) + rng.below(16) as u32,
        3 | 4 => rng.pick(&[0, 1, 15]),
        _ => rng.below(16) as u32,
    };
    let eisn = match rng.below(3) {
        0 => rng.pick(&[0, 1, 1 << 30, (1 << 31) - 1]),
        _ => rng.next() as u32 >> 1,
    };
    Targeting { eisn, mask: rng.percent(30), server, priority: rng.below(8) as u8 }.word()
}

/// The bytes of a word, cut short or with any bytes after them.
fn payload(rng: &mut Rng, word: u64) -> Vec<u8> {
    let length = match rng.below(10) {
        0 => rng.below(21),
        1 => rng.pick(&[0, 1, 4, 7, 7, 7]),
        2 => rng.pick(&[9, 9, 12, 16]),
        _ => 8,
    };
    let mut bytes = word.to_be_bytes().to_vec();
    bytes.resize_with(length, || rng.next() as u8);
    bytes
}
