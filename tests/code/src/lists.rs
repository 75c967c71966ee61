//! Random lists of steps. Most are the model's own, made longer, with moves to
//! a second controller; two kinds are for the edges: numbers and lengths
//! around every limit, and move lists changed field by field.

use crate::steps::{List, Onto, Step};
use model::calls::{script, Call, Rng, Theme};
use model::*;

/// The list of a number, from 0.
pub fn list(seed: u64, number: usize) -> List {
    let mut rng = Rng::new(seed ^ (number as u64).wrapping_mul(0x2545_f491_4f6c_dd1d));
    let rng = &mut rng;
    rng.next();
    let mut list = match number % 16 {
        0..=2 => edges(rng),
        3..=5 => fields(rng),
        6 => of_theme(rng, Theme::Full, 30, 120),
        7 => of_theme(rng, Theme::Queues, 100, 400),
        8 if number % 64 == 8 => of_theme(rng, Theme::Places, 10, 60),
        8 if number % 64 == 24 => whole(rng),
        8 | 9 => of_theme(rng, Theme::Adapters, 30, 120),
        10 => of_theme(rng, Theme::Moves, 20, 60),
        11 | 12 => of_theme(rng, Theme::Faults, 30, 90),
        13 => churn(rng),
        _ => of_theme(rng, Theme::Mixed, 30, 120),
    };
    if rng.percent(60) {
        add_moves(rng, &mut list.steps);
    }
    list
}

fn of_theme(rng: &mut Rng, theme: Theme, least: usize, more: usize) -> List {
    let length = least + rng.below(more);
    let script = script(rng, theme, length);
    let steps = script.calls.into_iter().map(|(call, _)| Step::Call(call)).collect();
    List { capable: script.capable, seed: rng.next(), steps }
}

fn add_moves(rng: &mut Rng, steps: &mut Vec<Step>) {
    for _ in 0..1 + rng.below(4) {
        let onto = rng.pick(&[Onto::Fresh, Onto::AsItIs, Onto::AsItIs]);
        let more = rng.pick(&[0, 0, 1, 300]);
        let at = rng.below(steps.len() + 1);
        steps.insert(at, Step::Move { onto, more });
    }
    if rng.percent(50) {
        steps.insert(rng.below(steps.len() + 1), Step::Part);
    }
}

/// A list in the making, and the model's state after its steps.
struct Making {
    model: Controller,
    steps: Vec<Step>,
}

impl Making {
    /// Begins with a short list of one of these themes.
    fn start(rng: &mut Rng, themes: &[Theme], length: usize) -> Making {
        let theme = rng.pick(themes);
        let script = script(rng, theme, length);
        let mut making = Making { model: Controller::fresh(script.capable), steps: Vec::new() };
        for (call, _) in script.calls {
            making.push(call);
        }
        making
    }

    fn push(&mut self, call: Call) {
        self.model.call(&call.ask, &mut call.buffer.clone(), call.table);
        self.steps.push(Step::Call(call));
    }

    fn list(self, rng: &mut Rng) -> List {
        List { capable: self.model.capable, seed: rng.next(), steps: self.steps }
    }

    fn listing_bytes(&self) -> usize {
        self.model.pending() * RECORD
    }

    /// The model's move list.
    fn written(&self) -> Vec<u8> {
        let mut list = vec![0; 23_278];
        let (_, length) = self.model.clone().call(&Ask::WriteList, &mut list, PLACES);
        list.truncate(length as usize);
        list
    }
}

fn filler(rng: &mut Rng, length: usize) -> Vec<u8> {
    let (kind, byte) = (rng.below(4), rng.next() as u8);
    (0..length).map(|_| if kind == 0 { rng.next() as u8 } else { byte }).collect()
}

fn io_record(rng: &mut Rng, isc: u8) -> Record {
    let mut record = [0; RECORD];
    record[4..8].copy_from_slice(&(rng.next() as u32 % 0xfffe_0000).to_be_bytes());
    record[8..16].copy_from_slice(&rng.next().to_be_bytes());
    let word = rng.next() as u32 & !(7 << 27) | u32::from(isc) << 27;
    record[16..20].copy_from_slice(&word.to_be_bytes());
    record[64..72].copy_from_slice(&rng.next().to_be_bytes());
    record
}

/// Many appends, takes and clears around full queues, so that records come to
/// lie in any order.
fn churn(rng: &mut Rng) -> List {
    let mut making = Making::start(rng, &[Theme::Full, Theme::Mixed], 12);
    for _ in 0..200 {
        let room = ROOM - making.model.queued();
        let put = |ask, buffer| Call { ask, buffer, table: PLACES };
        let call = match rng.below(8) {
            0..=2 => {
                let most = if rng.percent(20) { room + 2 } else { 3 };
                let records = 1 + rng.below(most);
                let mut payload = Vec::new();
                for _ in 0..records {
                    let isc = rng.below(8) as u8;
                    let mut record = io_record(rng, isc);
                    if rng.percent(10) {
                        record[..8].copy_from_slice(&PAGE_FAULT_DONE.to_be_bytes());
                    }
                    payload.extend(record);
                }
                put(Ask::Set { group: ENQUEUE, attr: payload.len() as u64 }, payload)
            }
            3..=5 => {
                let ask = Ask::Take {
                    subclasses: rng.next() as u8 | rng.next() as u8,
                    external: rng.percent(20),
                    machine_check: rng.percent(20),
                };
                put(ask, filler(rng, RECORD))
            }
            6 => {
                let io: Vec<&Record> = making.model.io.iter().flatten().collect();
                let word = match io.len() {
                    0 => vec![0, 1, 2, 3],
                    n => io[rng.below(n)][8..12].to_vec(),
                };
                put(Ask::Set { group: CLEAR_IO_IRQ, attr: 4 }, word)
            }
            _ => {
                let listing = making.listing_bytes();
                let attr = listing.max(1) as u64;
                put(Ask::Get { group: GET_ALL_IRQS, attr }, filler(rng, listing.max(1)))
            }
        };
        making.push(call);
    }
    making.list(rng)
}

/// The full machine: every adapter masked, 258 records, both masks, page
/// faults on; written, listed and moved.
fn whole(rng: &mut Rng) -> List {
    let mut making = Making { model: Controller::fresh(true), steps: Vec::new() };
    let set = |group, attr, buffer| Call { ask: Ask::Set { group, attr }, buffer, table: PLACES };
    for id in 0..64 {
        let (isc, swap, flags) = (rng.below(8) as u8, rng.below(2) as u8, rng.below(2) as u8);
        making.push(set(ADAPTER_REGISTER, 0, vec![0, 0, 0, id, isc, 1, swap, flags]));
        let mut modify = vec![0, 0, 0, id, 1, 1];
        modify.resize(16, rng.next() as u8);
        making.push(set(ADAPTER_MODIFY, 0, modify));
    }
    let mut records: Vec<Record> = Vec::new();
    for _ in 0..ROOM {
        let isc = rng.below(8) as u8;
        records.push(io_record(rng, isc));
        if rng.percent(10) {
            records.last_mut().unwrap()[..8].copy_from_slice(&PAGE_FAULT_DONE.to_be_bytes());
        }
    }
    for kind in [SERVICE, MACHINE_CHECK] {
        let mut record = io_record(rng, 0);
        record[..8].copy_from_slice(&kind.to_be_bytes());
        records.insert(rng.below(records.len()), record);
    }
    making.push(set(ENQUEUE, 18_576, records.concat()));
    making.push(set(AISM_ALL, 0, vec![rng.next() as u8, 1]));
    making.push(set(APF_ENABLE, 0, vec![]));
    let lent = |ask, length| Call { ask, buffer: vec![0x3c; length], table: PLACES };
    making.push(lent(Ask::Get { group: GET_ALL_IRQS, attr: 18_576 }, 18_576));
    making.push(lent(Ask::Get { group: GET_ALL_IRQS, attr: 18_575 }, 18_576));
    for length in [23_277, 23_278, 23_279] {
        making.push(lent(Ask::WriteList, length));
    }
    let list = making.written();
    making.push(Call { ask: Ask::PlayList, buffer: list, table: PLACES });
    making.steps.push(Step::Move { onto: Onto::Fresh, more: 0 });
    for _ in 0..6 {
        let ask = Ask::Take { subclasses: rng.next() as u8, external: true, machine_check: true };
        making.push(lent(ask, 72));
    }
    making.list(rng)
}

/// Requests whose attribute, lengths, contents and table stand at the edges,
/// each on its own and together.
fn edges(rng: &mut Rng) -> List {
    let themes = [Theme::Mixed, Theme::Adapters, Theme::Full, Theme::Mixed];
    let mut making = Making::start(rng, &themes, 8);
    for _ in 0..60 {
        let listing = making.listing_bytes() as u64;
        let group = match rng.below(20) {
            0 => rng.pick(&[0, 12, 13, 0x102, 0x10a, 0x0100_0006, 1 << 31, u32::MAX]),
            1..=4 => rng.pick(&[ENQUEUE, GET_ALL_IRQS, CLEAR_IO_IRQ]),
            5 => 20,
            _ => 1 + rng.below(11) as u32,
        };
        if group == 20 {
            let lent = rng.pick(&[0, 1, 71, 72, 73, 144]);
            let ask = Ask::Take {
                subclasses: rng.pick(&[0, 255, 128, 1, 0x18]),
                external: rng.percent(50),
                machine_check: rng.percent(50),
            };
            let table = rng.pick(&[64, 0, 63]);
            making.push(Call { ask, buffer: filler(rng, lent), table });
            continue;
        }
        let claims = matches!(group, GET_ALL_IRQS | ENQUEUE | CLEAR_IO_IRQ);
        let right_attr = match group {
            GET_ALL_IRQS => listing.max(1),
            ENQUEUE => 72 * (1 + rng.below(3) as u64),
            CLEAR_IO_IRQ => 4,
            AIRQ_INJECT => rng.below(64) as u64,
            _ => 0,
        };
        let attr = match rng.below(if claims { 6 } else { 10 }) {
            0 => rng.pick(&[0, 1, 2, 3, 4, 5, 7, 8, 63, 64, 65, 71, 72, 73, 143, 144, 145]),
            1 => rng.pick(&[18_503, 18_504, 18_575, 18_576, 18_577, 18_647, 18_648, 36_864]),
            2 => {
                let at = rng.pick(&[1 << 31, 1 << 32, 1 << 33, 1 << 63]);
                right_attr.wrapping_add(rng.pick(&[at, at - 1, at - 72, at + 72]))
            }
            3 if claims => listing.wrapping_add(rng.pick(&[0, 1, 71, 72, u64::MAX, u64::MAX - 71])),
            4 if claims => rng.pick(&[u64::MAX, u64::MAX - 15, u64::MAX - 71, 72 << 32]),
            _ => right_attr,
        };
        let size = match group {
            GET_ALL_IRQS | ENQUEUE => attr.min(18_720) as usize,
            ADAPTER_REGISTER => 8,
            ADAPTER_MODIFY => 16,
            CLEAR_IO_IRQ | AISM => 4,
            AISM_ALL => 2,
            _ => 0,
        };
        let lent = match rng.below(5) {
            0 => rng.pick(&[0, 1, 2, 3, 4, 5, 7, 8, 9, 15, 16, 17, 71, 72, 73]),
            1 => size.saturating_sub(1),
            2 => size + rng.pick(&[1, 3, 72]),
            _ => size,
        };
        let mut buffer = contents(rng, &making.model, group, lent.max(16));
        buffer.truncate(lent);
        let right_way = group == GET_ALL_IRQS || group == AISM_ALL && rng.percent(50);
        let get = if rng.percent(10) { !right_way } else { right_way };
        let ask = if get { Ask::Get { group, attr } } else { Ask::Set { group, attr } };
        let table = if rng.percent(12) { rng.pick(&[0, 1, 63, 65, 128, 320, 511]) } else { PLACES };
        making.push(Call { ask, buffer, table });
    }
    making.list(rng)
}

/// A payload of a group, its fields at the edges.
fn contents(rng: &mut Rng, model: &Controller, group: u32, length: usize) -> Vec<u8> {
    let mut bytes = filler(rng, length);
    let id = rng.pick(&[0, 5, 63, 64, 65, 255, 256, 1 << 31, u32::MAX]);
    let used: Vec<u32> = (0..64).filter(|&id| model.adapters[id as usize].is_some()).collect();
    let id = match used.len() {
        n if n > 0 && rng.percent(60) => used[rng.below(n)],
        _ => id,
    };
    match group {
        ENQUEUE => {
            for record in bytes.chunks_mut(RECORD) {
                let isc = rng.below(8) as u8;
                record.copy_from_slice(&io_record(rng, isc)[..record.len()]);
                if rng.percent(30) && record.len() >= 8 {
                    let kind = rng.pick(&[
                        LAST_IO,
                        PAGE_FAULT_DONE,
                        SERVICE,
                        MACHINE_CHECK,
                        PAGE_FAULT_DONE,
                        SERVICE,
                        MACHINE_CHECK,
                        LAST_IO + 1,
                        PAGE_FAULT_DONE + 1,
                        0xffff_2603,
                        1 << 32 | ADAPTER_IO,
                        1 << 63 | SERVICE,
                    ]);
                    record[..8].copy_from_slice(&kind.to_be_bytes());
                }
            }
        }
        ADAPTER_REGISTER => {
            bytes[..4].copy_from_slice(&id.to_be_bytes());
            bytes[4] = rng.pick(&[0, 3, 7, 7, 8, 255]);
        }
        ADAPTER_MODIFY => {
            bytes[..4].copy_from_slice(&id.to_be_bytes());
            bytes[4] = rng.pick(&[0, 1, 1, 1, 2, 3, 4, 255]);
            bytes[5] = rng.pick(&[0, 1, 128]);
        }
        CLEAR_IO_IRQ => {
            let io: Vec<&Record> = model.io.iter().flatten().collect();
            let word = rng.pick(&[[0; 4], [0, 0, 0, 1], [1, 0, 0, 0]]);
            let word = match io.len() {
                n if n > 0 && rng.percent(60) => io[rng.below(n)][8..12].try_into().unwrap(),
                _ => word,
            };
            bytes[..4].copy_from_slice(&word);
        }
        AISM => {
            bytes[0] = rng.pick(&[0, 3, 7, 7, 8, 255]);
            bytes[2] = rng.pick(&[0, 0, 0, 1]);
            bytes[3] = rng.pick(&[0, 1, 1, 2]);
        }
        _ => {}
    }
    bytes
}

/// A written list, changed in one field, or in two that seem to agree, and
/// played; now and then the list as it was.
fn fields(rng: &mut Rng) -> List {
    let themes = [Theme::Mixed, Theme::Adapters, Theme::Queues];
    let mut making = Making::start(rng, &themes, 14);
    let whole = making.written();
    for _ in 0..50 {
        let mut list = whole.clone();
        match rng.below(10) {
            0 => {}
            1..=5 => change_field(rng, &mut list),
            6 => {
                change_field(rng, &mut list);
                change_field(rng, &mut list);
            }
            _ => change_fitting(rng, &mut list),
        }
        let table = if rng.percent(4) { rng.pick(&[0, 63, 65]) } else { PLACES };
        making.push(Call { ask: Ask::PlayList, buffer: list, table });
    }
    making.list(rng)
}

fn word(list: &[u8], at: usize) -> u32 {
    number(&list[at..at + 4]) as u32
}

fn put(list: &mut [u8], at: usize, value: u32) {
    list[at..at + 4].copy_from_slice(&value.to_be_bytes());
}

/// One field of the header, of an entry or of a payload.
fn change_field(rng: &mut Rng, list: &mut [u8]) {
    let count = word(list, 4) as usize;
    let entries = count.min((list.len() - HEADER) / ENTRY);
    let at = match rng.below(5) {
        0 | 1 => 4 * rng.below(5),
        2 | 3 if entries > 0 => HEADER + ENTRY * rng.below(entries) + 4 * rng.below(6),
        _ if list.len() > HEADER + ENTRY * entries + 4 => {
            let payloads = HEADER + ENTRY * entries;
            payloads + rng.below(list.len() - payloads - 3)
        }
        _ => 4 * rng.below(5),
    };
    let old = word(list, at);
    let bit = 1 << rng.below(32);
    let value = match rng.below(10) {
        0 => old.wrapping_add(1),
        1 => old.wrapping_sub(1),
        2 => old.wrapping_add(24),
        3 => old.wrapping_sub(24),
        4 => old ^ 1 << 31,
        5 => rng.pick(&[0, 1, 2, 20, 21, 131, 132, 256, u32::MAX]),
        6 => list.len() as u32,
        7 => rng.pick(&[1, 2, 3, 4, 5, 6, 7, 8, 9, 10, 11, 12]),
        _ => old ^ bit,
    };
    put(list, at, value);
}

/// Fields changed so that they still agree in part.
fn change_fitting(rng: &mut Rng, list: &mut Vec<u8>) {
    let count = word(list, 4) as usize;
    let one = HEADER + ENTRY * rng.below(count.max(1));
    let two = one + ENTRY;
    match rng.below(7) {
        // A byte more or less, with the total to match.
        0 => {
            if rng.percent(50) {
                list.push(rng.next() as u8);
            } else {
                list.pop();
            }
            let length = list.len() as u32;
            if list.len() >= 4 {
                put(list, 0, length);
            }
        }
        // The border between two payloads, moved.
        1 | 2 if count > 1 && two + ENTRY <= HEADER + ENTRY * count => {
            let by = rng.pick(&[1, 4, 8, 72, u32::MAX, 0u32.wrapping_sub(8), 1 << 31]);
            let (length, place, next) = (word(list, one + 8), word(list, two), word(list, two + 8));
            put(list, one + 8, length.wrapping_add(by));
            put(list, two, place.wrapping_add(by));
            put(list, two + 8, next.wrapping_sub(by));
        }
        // Two lengths whose sum is right modulo 2^32 only.
        3 if count > 1 && two + ENTRY <= HEADER + ENTRY * count => {
            for at in [one + 8, two, two + 8] {
                let old = word(list, at);
                put(list, at, old ^ 1 << 31);
            }
        }
        // Another count with the payload offset to match.
        4 => {
            let other = rng.pick(&[count + 1, count.wrapping_sub(1), 131, 132, 0]) as u32;
            put(list, 4, other);
            put(list, 12, other.wrapping_mul(24).wrapping_add(20));
        }
        // Two entries in the other order, with their payloads' places to match.
        5 if count > 1 && two + ENTRY <= HEADER + ENTRY * count => {
            let (at, first, second) = (
                word(list, one) as usize,
                word(list, one + 8) as usize,
                word(list, two + 8) as usize,
            );
            list[at..at + first + second].rotate_left(first);
            let (entries, _) = list[one..].split_at_mut(2 * ENTRY);
            entries.rotate_left(ENTRY);
            put(list, one, at as u32);
            put(list, two, (at + second) as u32);
        }
        // The list cut at an edge, with the total to match or not.
        _ => {
            let payloads = HEADER + ENTRY * count;
            let cut = rng.pick(&[0, 19, 20, 21, 43, 44, payloads - 1, payloads, list.len() - 1]);
            list.truncate(cut);
            if cut >= 4 && rng.percent(70) {
                put(list, 0, cut as u32);
            }
        }
    }
}
