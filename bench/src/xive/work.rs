//! What is measured of the sources: each call goes over all of them in turn.

use super::subject::Subject;
use crate::work::Work;
use model::xive::SOURCES;
use std::hint::black_box;

/// The names of all work, and the goal for the ratio to plain Rust, in order.
pub fn goals() -> Vec<(&'static str, Option<f64>)> {
    vec![
        ("XIVE make", Some(1.5)),
        ("XIVE initialise", Some(1.5)),
        ("XIVE target", Some(1.5)),
        ("XIVE sync", Some(1.5)),
        ("XIVE reading", Some(1.5)),
        ("XIVE initialise + target + reading", Some(1.5)),
    ]
}

/// Words of initialising, and of targeting.
type Words = [[u8; 8]; 8];

fn settings() -> Words {
    std::array::from_fn(|at| (at as u64 % 4).to_be_bytes())
}

fn targetings() -> Words {
    std::array::from_fn(|at| (0x0000_2468_0000_0005 | (at as u64) << 40).to_be_bytes())
}

/// Thin, as in `work`.
fn lent(words: &Words, at: usize) -> &[u8] {
    let word: &[u8; 8] = black_box(&words[at % 8]);
    word
}

fn number(at: usize) -> u64 {
    (at % SOURCES) as u64
}

/// All sources initialised, every second one targeted.
fn used<S: Subject>() -> S {
    let mut s = S::fresh();
    for at in 0..SOURCES {
        assert_eq!(s.initialise(number(at), &settings()[at % 8]), (0, 0));
        if at % 2 == 0 {
            assert_eq!(s.target(number(at), &targetings()[at % 8]), (0, 0));
        }
    }
    s
}

fn make<S: Subject + 'static>() -> Box<dyn FnMut(usize)> {
    let mut s = S::fresh();
    Box::new(move |times| {
        for _ in 0..times {
            let s: &mut S = black_box(&mut s);
            s.make();
        }
    })
}

fn initialise<S: Subject + 'static>() -> Box<dyn FnMut(usize)> {
    let (mut s, words) = (S::fresh(), settings());
    Box::new(move |times| {
        for at in 0..times {
            let answer = s.initialise(number(at), lent(&words, at));
            debug_assert_eq!(answer, (0, 0));
            black_box(answer);
        }
    })
}

fn target<S: Subject + 'static>() -> Box<dyn FnMut(usize)> {
    let (mut s, words) = (used::<S>(), targetings());
    Box::new(move |times| {
        for at in 0..times {
            let answer = s.target(number(at), lent(&words, at));
            debug_assert_eq!(answer, (0, 0));
            black_box(answer);
        }
    })
}

fn sync<S: Subject + 'static>() -> Box<dyn FnMut(usize)> {
    let mut s = used::<S>();
    Box::new(move |times| {
        for at in 0..times {
            let answer = s.sync(number(at));
            debug_assert_eq!(answer, (0, 0));
            black_box(answer);
        }
    })
}

fn reading<S: Subject + 'static>() -> Box<dyn FnMut(usize)> {
    let mut s = used::<S>();
    Box::new(move |times| {
        for at in 0..times {
            let reading = s.read(number(at));
            debug_assert_eq!(reading.code, 0);
            // Its place, not its value: a copy would wait for the fields, written one by one.
            black_box(&reading);
        }
    })
}

fn cycle<S: Subject + 'static>() -> Box<dyn FnMut(usize)> {
    let (mut s, settings, targetings) = (S::fresh(), settings(), targetings());
    Box::new(move |times| {
        for at in 0..times {
            let number = number(at);
            let initialised = s.initialise(number, lent(&settings, at));
            let targeted = s.target(number, lent(&targetings, at));
            let reading = s.read(number);
            debug_assert_eq!((initialised, targeted, reading.code), ((0, 0), (0, 0), 0));
            black_box((initialised, targeted, &reading));
        }
    })
}

/// All work for one subject, in the order of the goals.
pub fn all<S: Subject + 'static>() -> Vec<Work> {
    let runs =
        [make::<S>(), initialise::<S>(), target::<S>(), sync::<S>(), reading::<S>(), cycle::<S>()];
    let names = goals().into_iter().map(|(name, _)| name.to_string());
    names.zip(runs).map(|(name, run)| Work { name, run }).collect()
}
