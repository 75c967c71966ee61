//! What is measured. Each piece of work runs as often as asked on a controller
//! that was brought to its state before, and leaves it as it found it.

use crate::subject::Subject;
use model::{
    ADAPTER_MODIFY, ADAPTER_REGISTER, AIRQ_INJECT, AISM_ALL, APF_ENABLE, CLEAR_IO_IRQ, CLEAR_IRQS,
    ENQUEUE, GET_ALL_IRQS, MACHINE_CHECK, RECORD, ROOM, SERVICE,
};
use std::hint::black_box;

pub struct Work {
    pub name: String,
    pub run: Box<dyn FnMut(usize)>,
}

/// The names of all work, and the goal for the ratio to plain Rust, in order.
pub fn goals() -> Vec<(&'static str, Option<f64>)> {
    vec![
        ("enqueue + take, 1 pending, one subclass", Some(2.0)),
        ("enqueue + take, 1 pending, eight subclasses", Some(2.0)),
        ("enqueue + take, 16 pending, one subclass", Some(2.0)),
        ("enqueue + take, 16 pending, eight subclasses", Some(2.0)),
        ("enqueue + take, 256 pending, one subclass", Some(3.0)),
        ("enqueue + take, 256 pending, eight subclasses", Some(3.0)),
        ("inject + take, mode ALL", Some(2.0)),
        ("inject + take, suppressed", Some(2.0)),
        ("CLEAR_IO of none, 1 pending", None),
        ("CLEAR_IO of none, 16 pending", None),
        ("CLEAR_IO of none, 256 pending", None),
        ("GET_ALL of 256", Some(1.5)),
        ("write, full machine", None),
        ("play, full machine", None),
        ("write + play, full machine", Some(3.0)),
        ("APF_ENABLE, fresh machine", None),
        ("APF_ENABLE, full machine", None),
        ("INJECT, suppressed", None),
        ("MODIFY, mask", None),
        ("CLEAR_IRQS of none", None),
        ("ENQUEUE of 256 + CLEAR_IRQS", None),
    ]
}

/// Thin, as every pointer that goes through `black_box` here: that passes its
/// value through memory, and a slice's two words, written one by one, may be
/// read back as one before they are there, which would cost more than a call.
fn buffer(out: &mut [u8; RECORD]) -> &mut [u8] {
    let out: &mut [u8; RECORD] = black_box(out);
    out
}

fn record(isc: u32, number: u32) -> [u8; RECORD] {
    let mut record = [0; RECORD];
    record[8..12].copy_from_slice(&(0x0001_0000 | number).to_be_bytes());
    record[16..20].copy_from_slice(&(isc << 27).to_be_bytes());
    record[71] = number as u8;
    record
}

fn fill<S: Subject>(s: &mut S, count: usize, eight: bool) {
    for number in 0..count as u32 {
        let isc = if eight { number % 8 } else { 3 };
        assert_eq!(s.set(ENQUEUE, 72, &record(isc, number)), (0, 1));
    }
}

/// Of `pending` records the last comes and the first of its subclass goes.
fn enqueue_take<S: Subject + 'static>(pending: usize, eight: bool) -> Box<dyn FnMut(usize)> {
    let mut s = S::fresh(true);
    fill(&mut s, pending - 1, eight);
    let records: Vec<[u8; RECORD]> =
        (0..8).map(|isc| record(if eight { isc } else { 3 }, 7)).collect();
    let masks: Vec<u8> = (0..8).map(|isc| if eight { 128 >> isc } else { 255 }).collect();
    let mut out = [0; RECORD];
    Box::new(move |times| {
        for at in 0..times {
            let record: &[u8; RECORD] = black_box(&records[at % 8]);
            let given = s.set(ENQUEUE, 72, record);
            let taken = s.take(masks[at % 8], true, true, buffer(&mut out));
            debug_assert_eq!((given, taken), ((0, 1), (0, 1)));
            black_box((given, taken));
        }
    })
}

/// Adapter 5 of subclass 3, which can be masked and suppressed, in mode ALL; or
/// in mode SINGLE with its bit of nimm set, so that its interrupts are suppressed.
fn adapter<S: Subject>(suppressed: bool) -> S {
    let mut s = S::fresh(true);
    assert_eq!(s.set(ADAPTER_REGISTER, 0, &[0, 0, 0, 5, 3, 1, 0, 1]), (0, 0));
    if suppressed {
        assert_eq!(s.set(AISM_ALL, 0, &[0x10, 0x10]), (0, 0));
    }
    s
}

fn inject_take<S: Subject + 'static>(suppressed: bool) -> Box<dyn FnMut(usize)> {
    let mut s = adapter::<S>(suppressed);
    let mut out = [0; RECORD];
    Box::new(move |times| {
        for _ in 0..times {
            let given = s.set(AIRQ_INJECT, black_box(5), &[]);
            let taken = s.take(255, true, true, buffer(&mut out));
            debug_assert_eq!(given.1, u64::from(!suppressed));
            black_box((given, taken));
        }
    })
}

fn inject_suppressed<S: Subject + 'static>() -> Box<dyn FnMut(usize)> {
    let mut s = adapter::<S>(true);
    Box::new(move |times| {
        for _ in 0..times {
            let answer = s.set(AIRQ_INJECT, black_box(5), &[]);
            debug_assert_eq!(answer, (0, 0));
            black_box(answer);
        }
    })
}

fn modify<S: Subject + 'static>() -> Box<dyn FnMut(usize)> {
    let mut s = adapter::<S>(false);
    Box::new(move |times| {
        for _ in 0..times {
            let mask: &[u8; 16] = black_box(&[0, 0, 0, 5, 1, 1, 0, 0, 0, 0, 0, 0, 0, 0, 0, 0]);
            let answer = s.set(ADAPTER_MODIFY, 0, mask);
            debug_assert_eq!(answer, (0, 0));
            black_box(answer);
        }
    })
}

fn clear_none<S: Subject + 'static>(pending: usize) -> Box<dyn FnMut(usize)> {
    let mut s = S::fresh(true);
    fill(&mut s, pending, true);
    Box::new(move |times| {
        for _ in 0..times {
            let word: &[u8; 4] = black_box(&[0, 1, 2, 3]);
            let answer = s.set(CLEAR_IO_IRQ, 4, word);
            debug_assert_eq!(answer, (0, 0));
            black_box(answer);
        }
    })
}

fn get_all<S: Subject + 'static>() -> Box<dyn FnMut(usize)> {
    let mut s = S::fresh(true);
    fill(&mut s, ROOM, true);
    let mut out = vec![0; ROOM * RECORD];
    Box::new(move |times| {
        for _ in 0..times {
            let out: &mut Vec<u8> = black_box(&mut out);
            let answer = s.get(GET_ALL_IRQS, (ROOM * RECORD) as u64, out);
            debug_assert_eq!(answer, (0, 256));
            black_box(answer);
        }
    })
}

/// The machine whose move list is the longest.
fn full<S: Subject>() -> (S, Vec<u8>) {
    let mut s = S::fresh(true);
    for id in 0..64 {
        assert_eq!(s.set(ADAPTER_REGISTER, 0, &[0, 0, 0, id, id % 8, 1, 0, 1]), (0, 0));
        let modify = [0, 0, 0, id, 1, 1, 0, 0, 0, 0, 0, 0, 0, 0, 0, 0];
        assert_eq!(s.set(ADAPTER_MODIFY, 0, &modify), (0, 0));
    }
    fill(&mut s, ROOM, true);
    for kind in [SERVICE, MACHINE_CHECK] {
        let mut record = [0; RECORD];
        record[..8].copy_from_slice(&kind.to_be_bytes());
        assert_eq!(s.set(ENQUEUE, 72, &record), (0, 1));
    }
    assert_eq!(s.set(AISM_ALL, 0, &[0x10, 0x10]), (0, 0));
    assert_eq!(s.set(APF_ENABLE, 0, &[]), (0, 0));
    let mut list = vec![0; 23_278];
    assert_eq!(s.write(&mut list), (0, 23_278));
    assert_eq!(s.play(&list), (0, 131));
    (s, list)
}

fn moves<S: Subject + 'static>(write: bool, play: bool) -> Box<dyn FnMut(usize)> {
    let (mut s, mut list) = full::<S>();
    Box::new(move |times| {
        for _ in 0..times {
            if write {
                let out: &mut Vec<u8> = black_box(&mut list);
                black_box(s.write(out));
            }
            if play {
                let list: &Vec<u8> = black_box(&list);
                black_box(s.play(list));
            }
        }
    })
}

/// A request that touches no record.
fn flag<S: Subject + 'static>(mut s: S) -> Box<dyn FnMut(usize)> {
    Box::new(move |times| {
        for _ in 0..times {
            black_box(s.set(APF_ENABLE, black_box(0), &[]));
        }
    })
}

/// Nothing is pending, and all is cleared.
fn clear_irqs<S: Subject + 'static>() -> Box<dyn FnMut(usize)> {
    let mut s = S::fresh(true);
    Box::new(move |times| {
        for _ in 0..times {
            let answer = s.set(CLEAR_IRQS, black_box(0), &[]);
            debug_assert_eq!(answer, (0, 0));
            black_box(answer);
        }
    })
}

/// As many records as there is room for come in one request, and all go.
fn enqueue_clear<S: Subject + 'static>() -> Box<dyn FnMut(usize)> {
    let mut s = S::fresh(true);
    let records: Vec<u8> = (0..ROOM as u32).flat_map(|number| record(number % 8, number)).collect();
    Box::new(move |times| {
        for _ in 0..times {
            let records: &Vec<u8> = black_box(&records);
            let given = s.set(ENQUEUE, (ROOM * RECORD) as u64, records);
            let removed = s.set(CLEAR_IRQS, black_box(0), &[]);
            debug_assert_eq!((given, removed), ((0, 256), (0, 256)));
            black_box((given, removed));
        }
    })
}

/// All work for one subject, in the order of the goals.
pub fn all<S: Subject + 'static>() -> Vec<Work> {
    let runs = [
        enqueue_take::<S>(1, false),
        enqueue_take::<S>(1, true),
        enqueue_take::<S>(16, false),
        enqueue_take::<S>(16, true),
        enqueue_take::<S>(256, false),
        enqueue_take::<S>(256, true),
        inject_take::<S>(false),
        inject_take::<S>(true),
        clear_none::<S>(1),
        clear_none::<S>(16),
        clear_none::<S>(256),
        get_all::<S>(),
        moves::<S>(true, false),
        moves::<S>(false, true),
        moves::<S>(true, true),
        flag(S::fresh(true)),
        flag(full::<S>().0),
        inject_suppressed::<S>(),
        modify::<S>(),
        clear_irqs::<S>(),
        enqueue_clear::<S>(),
    ];
    let names = goals().into_iter().map(|(name, _)| name.to_string());
    names.zip(runs).map(|(name, run)| Work { name, run }).collect()
}
