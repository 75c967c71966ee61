//! Random lists of calls, each with the model's answer. The choices look at
//! the model's state, so that most calls reach a rule of interest.

use crate::*;
use std::collections::BTreeMap;

/// splitmix64.
#[derive(Clone, Debug)]
pub struct Rng(u64);

impl Rng {
    pub fn new(seed: u64) -> Rng {
        Rng(seed)
    }

    pub fn next(&mut self) -> u64 {
        self.0 = self.0.wrapping_add(0x9e37_79b9_7f4a_7c15);
        let mut z = self.0;
        z = (z ^ z >> 30).wrapping_mul(0xbf58_476d_1ce4_e5b9);
        z = (z ^ z >> 27).wrapping_mul(0x94d0_49bb_1331_11eb);
        z ^ z >> 31
    }

    /// A number below n.
    pub fn below(&mut self, n: usize) -> usize {
        (self.next() % n as u64) as usize
    }

    /// True about n times in a hundred.
    pub fn percent(&mut self, n: usize) -> bool {
        self.below(100) < n
    }

    pub fn pick<T: Copy>(&mut self, from: &[T]) -> T {
        from[self.below(from.len())]
    }

    fn byte(&mut self) -> u8 {
        self.next() as u8
    }

    /// An index, by weight.
    fn weighted(&mut self, weights: &[usize]) -> usize {
        let mut at = self.below(weights.iter().sum());
        weights
            .iter()
            .position(|&w| {
                at < w || {
                    at -= w;
                    false
                }
            })
            .unwrap()
    }
}

/// One call, as the caller makes it.
#[derive(Clone, Debug, PartialEq, Eq)]
pub struct Call {
    pub ask: Ask,
    pub buffer: Vec<u8>,
    pub table: usize,
}

/// What the caller sees of it.
#[derive(Clone, Debug, PartialEq, Eq)]
pub struct Seen {
    pub code: u32,
    pub count: u64,
    pub buffer: Vec<u8>,
}

/// A list of calls on a fresh controller, with the model's answers.
#[derive(Clone, Debug)]
pub struct Script {
    pub capable: bool,
    pub calls: Vec<(Call, Seen)>,
}

/// What a list of calls is mostly about.
#[derive(Clone, Copy, Debug, PartialEq, Eq)]
pub enum Theme {
    Mixed,
    Adapters,
    Queues,
    Full,
    Places,
    Moves,
    Faults,
}

const THEMES: [Theme; 7] = [
    Theme::Moves,
    Theme::Adapters,
    Theme::Queues,
    Theme::Faults,
    Theme::Moves,
    Theme::Mixed,
    Theme::Faults,
];

/// How often each (call, code) was seen.
#[derive(Clone, Debug, Default)]
pub struct Coverage(pub BTreeMap<(String, u32), usize>);

impl Coverage {
    pub fn add(&mut self, script: &Script) {
        for (call, seen) in &script.calls {
            *self.0.entry((name(&call.ask), seen.code)).or_default() += 1;
        }
    }

    /// Pairs that can be reached and were not seen.
    pub fn missing(&self) -> Vec<(String, u32)> {
        reachable().into_iter().filter(|pair| !self.0.contains_key(pair)).collect()
    }
}

/// The name of a call in the coverage.
pub fn name(ask: &Ask) -> String {
    let request = |way: &str, group: u32| match group {
        1..=11 => format!("{way} {group}"),
        _ => format!("{way} other"),
    };
    match *ask {
        Ask::Set { group, .. } => request("set", group),
        Ask::Get { group, .. } => request("get", group),
        Ask::Take { .. } => "take".into(),
        Ask::WriteList => "write".into(),
        Ask::PlayList => "play".into(),
    }
}

/// Every pair of call and code that the rules allow.
pub fn reachable() -> Vec<(String, u32)> {
    let mut pairs = Vec::new();
    let mut add =
        |call: String, codes: &[u32]| pairs.extend(codes.iter().map(|&code| (call.clone(), code)));
    for group in 1..=11 {
        let set: &[u32] = match group {
            GET_ALL_IRQS => &[EFAULT, EINVAL],
            ENQUEUE | AIRQ_INJECT => &[0, EFAULT, EBUSY, EINVAL],
            AISM | AISM_ALL => &[0, EFAULT, EINVAL, EOPNOTSUPP],
            _ => &[0, EFAULT, EINVAL],
        };
        let get: &[u32] = match group {
            GET_ALL_IRQS => &[0, ENOMEM, EFAULT, EINVAL],
            AISM_ALL => &[0, EFAULT, EINVAL, EOPNOTSUPP],
            _ => &[EFAULT, EINVAL],
        };
        add(format!("set {group}"), set);
        add(format!("get {group}"), get);
    }
    add("set other".into(), &[EFAULT, EINVAL]);
    add("get other".into(), &[EFAULT, EINVAL]);
    add("take".into(), &[0, EFAULT]);
    add("write".into(), &[0, ENOMEM, EFAULT]);
    add("play".into(), &[0, E2BIG, EFAULT, EBUSY, EINVAL, EOPNOTSUPP]);
    pairs
}

/// Lists of calls of each theme in turn, until there are this many calls. Of
/// a few tries at a list, the one that reaches the most new pairs is taken.
pub fn scripts(seed: u64, wanted: usize) -> (Vec<Script>, Coverage) {
    let mut rng = Rng::new(seed);
    let mut scripts: Vec<Script> = Vec::new();
    let mut coverage = Coverage::default();
    let mut calls = 0;
    while calls < wanted {
        let at = scripts.len();
        // Full queues and full tables are costly to compare: few lists, and short.
        let (theme, least, more) = match at % 128 {
            22 => (Theme::Places, 5, 5),
            at if at % 16 == 14 => (Theme::Full, 10, 12),
            _ => (THEMES[at % THEMES.len()], 15, 25),
        };
        let mut best: Option<(Script, Coverage)> = None;
        for _ in 0..8 {
            let length = least + rng.below(more);
            let next = script(&mut rng, theme, length);
            let mut with_next = coverage.clone();
            with_next.add(&next);
            if best.as_ref().is_none_or(|(_, best)| with_next.0.len() > best.0.len()) {
                best = Some((next, with_next));
            }
        }
        let (next, with_next) = best.unwrap();
        calls += next.calls.len();
        scripts.push(next);
        coverage = with_next;
    }
    (scripts, coverage)
}

/// A list of about `length` calls.
pub fn script(rng: &mut Rng, theme: Theme, length: usize) -> Script {
    let capable = rng.percent(if theme == Theme::Faults { 55 } else { 80 });
    let mut g = Generator { rng, theme, controller: Controller::fresh(capable), calls: Vec::new() };
    match theme {
        Theme::Full => g.fill(),
        Theme::Places => g.settle(),
        _ if g.rng.percent(75) => g.settle(),
        _ => {}
    }
    while g.calls.len() < length {
        g.step();
    }
    g.observe();
    Script { capable, calls: g.calls }
}

const WIDE: [u64; 8] = [1, 4, 64, 72, 1 << 32, (1 << 32) + 5, (1 << 32) + 72, u64::MAX];
const STRAY_GROUPS: [u32; 11] =
    [0, 0, 12, 12, 13, 0x102, 0x10b, 0x0100_0001, 1 << 31, (1 << 31) + 4, u32::MAX];
const STRAY_TYPES: [u64; 18] = [
    0xfffe_0000,
    0xfffe_0004,
    0xfffe_0006,
    0xfffe_0fff,
    0xfffe_1001,
    0xfffe_ffff,
    0xffff_0000,
    0xffff_2400,
    0xffff_2402,
    0xffff_2603,
    0xffff_ffff,
    1 << 32,
    (1 << 32) + ADAPTER_IO,
    (1 << 32) + PAGE_FAULT_DONE,
    (1 << 33) + SERVICE,
    (1 << 63) + MACHINE_CHECK,
    ADAPTER_IO << 32,
    u64::MAX,
];
const WRONG_TABLES: [usize; 6] = [0, 1, 63, 65, 128, 320];

/// One request of a move list.
#[derive(Clone)]
struct Request {
    group: u32,
    attr: u64,
    payload: Vec<u8>,
}

struct Generator<'a> {
    rng: &'a mut Rng,
    theme: Theme,
    controller: Controller,
    calls: Vec<(Call, Seen)>,
}

impl Generator<'_> {
    fn push(&mut self, ask: Ask, buffer: Vec<u8>, table: usize) {
        let mut after = buffer.clone();
        let (code, count) = self.controller.call(&ask, &mut after, table);
        self.calls.push((Call { ask, buffer, table }, Seen { code, count, buffer: after }));
    }

    /// Writes the move list: it shows the whole state.
    fn observe(&mut self) {
        let room = self.list_length() + self.rng.pick(&[0, 0, 1, 9]);
        let buffer = self.filler(room);
        self.push(Ask::WriteList, buffer, PLACES);
    }

    fn list_length(&self) -> usize {
        written(&self.controller).len()
    }

    fn step(&mut self) {
        //  all enq clr apf reg mfy cio ism inj ais tak wri pla odd
        let weights = match self.theme {
            Theme::Mixed => [6, 12, 2, 3, 8, 6, 5, 5, 10, 4, 10, 3, 6, 2],
            Theme::Adapters => [2, 3, 3, 3, 12, 14, 2, 12, 22, 10, 6, 3, 1, 1],
            Theme::Queues => [10, 25, 2, 1, 2, 1, 16, 1, 4, 1, 20, 2, 2, 1],
            Theme::Full => [3, 12, 1, 1, 2, 4, 4, 3, 18, 2, 10, 1, 4, 1],
            Theme::Places => [1, 2, 1, 1, 6, 6, 1, 2, 6, 2, 1, 3, 3, 1],
            Theme::Moves => [1, 6, 0, 3, 6, 4, 1, 2, 3, 3, 1, 3, 45, 0],
            Theme::Faults => [5, 8, 3, 3, 6, 6, 6, 6, 6, 8, 3, 3, 5, 9],
        };
        let (mut ask, mut buffer) = match self.rng.weighted(&weights) {
            0 => self.get_all(),
            1 => self.enqueue(),
            2 => self.set(CLEAR_IRQS, 0, vec![]),
            3 => {
                let group = self.rng.pick(&[APF_ENABLE, APF_ENABLE, APF_DISABLE_WAIT]);
                self.set(group, 0, vec![])
            }
            4 => self.register(),
            5 => self.modify(),
            6 => self.clear_io(),
            7 => self.aism(),
            8 => self.inject(),
            9 => self.aism_all(),
            10 => self.take(),
            11 => self.write(),
            12 => (Ask::PlayList, self.list()),
            _ => self.stray(),
        };
        let spoil = if self.theme == Theme::Faults { 30 } else { 3 };
        if self.rng.percent(spoil) {
            ask = self.respell(ask);
        }
        if self.rng.percent(spoil) && ask != Ask::PlayList {
            let length = buffer.len();
            let short = self.rng.below(length + 1);
            buffer.truncate(self.rng.pick(&[0, 1, 3, 7, 15, short, length.saturating_sub(1)]));
        }
        let spoil_table = match ask {
            Ask::Take { .. } => 50,
            Ask::Get { group: 2..=10, .. } => 30,
            _ => spoil / 2,
        };
        let wrong_table = self.rng.percent(spoil_table);
        let table = if wrong_table { self.rng.pick(&WRONG_TABLES) } else { PLACES };
        self.push(ask, buffer, table);
        let shown = ask == Ask::PlayList && self.rng.percent(70);
        if shown || self.rng.percent(4) && self.theme != Theme::Full {
            self.observe();
        }
    }

    /// Changes a request's attribute, group or direction.
    fn respell(&mut self, ask: Ask) -> Ask {
        let wide = self.rng.pick(&WIDE);
        let high = 1u32 << (8 + self.rng.below(24));
        match (ask, self.rng.below(5)) {
            (Ask::Set { group, .. }, 0 | 1) => Ask::Set { group, attr: wide },
            (Ask::Get { group, .. }, 0 | 1) => Ask::Get { group, attr: wide },
            (Ask::Set { group, attr }, 2) => Ask::Set { group, attr: attr.wrapping_add(1 << 32) },
            (Ask::Get { group, attr }, 2) => Ask::Get { group, attr: attr.wrapping_add(1 << 32) },
            (Ask::Set { group, attr }, 3) => Ask::Set { group: group | high, attr },
            (Ask::Get { group, attr }, 3) => Ask::Get { group: group | high, attr },
            (Ask::Set { group, attr }, _) => Ask::Get { group, attr },
            (Ask::Get { group, attr }, _) => Ask::Set { group, attr },
            (other, _) => other,
        }
    }

    /// Bytes to lend, in runs.
    fn filler(&mut self, length: usize) -> Vec<u8> {
        let mut bytes = Vec::with_capacity(length);
        while bytes.len() < length {
            let run = 1 + self.rng.below(10 + length / 4);
            bytes.resize((bytes.len() + run).min(length), self.rng.byte());
        }
        bytes
    }

    /// A set request, lent some bytes more than the payload at times.
    fn set(&mut self, group: u32, attr: u64, mut payload: Vec<u8>) -> (Ask, Vec<u8>) {
        if self.rng.percent(25) {
            let more = 1 + self.rng.below(12);
            payload.extend(self.filler(more));
        }
        (Ask::Set { group, attr }, payload)
    }

    fn stray(&mut self) -> (Ask, Vec<u8>) {
        let attr = if self.rng.percent(50) { 0 } else { self.rng.pick(&WIDE) };
        let lent = self.rng.pick(&[0, 4, 16, 72, 80]);
        let buffer = self.filler(lent);
        let ask = match self.rng.below(4) {
            0 => Ask::Set { group: self.rng.pick(&STRAY_GROUPS), attr },
            1 => Ask::Get { group: self.rng.pick(&STRAY_GROUPS), attr },
            2 => Ask::Set { group: GET_ALL_IRQS, attr: 72 },
            _ => Ask::Get { group: 2 + self.rng.below(9) as u32, attr },
        };
        (ask, buffer)
    }

    fn get_all(&mut self) -> (Ask, Vec<u8>) {
        let listing = self.controller.pending() * RECORD;
        let claimed = match self.rng.below(10) {
            0..=4 => listing + self.rng.pick(&[0, 1, 5, 72]),
            5 | 6 => listing.saturating_sub(self.rng.pick(&[1, 71, 72, 73])),
            7 => self.rng.pick(&[0, 1, 71, 72, 73, 143, 144]),
            8 => self.rng.pick(&[0, 1 << 32, (1 << 32) + 72, usize::MAX]),
            _ => listing,
        };
        let lent = match self.rng.below(8) {
            0 | 3 => claimed.min(listing + 99).saturating_sub(1),
            1 => claimed.min(listing),
            2 => claimed.min(listing + 99) + self.rng.below(90),
            _ => claimed.min(listing + 99),
        };
        (Ask::Get { group: GET_ALL_IRQS, attr: claimed as u64 }, self.filler(lent))
    }

    fn io_type(&mut self) -> u64 {
        let any = self.rng.next() % (LAST_IO + 1);
        self.rng.pick(&[0, 1, ADAPTER_IO, ADAPTER_IO, 0x0001_0011, 0x00fe_0003, LAST_IO, any])
    }

    /// A record of this type.
    fn record(&mut self, kind: u64) -> Vec<u8> {
        let mut record = kind.to_be_bytes().to_vec();
        if kind == MACHINE_CHECK {
            let (some, other) =
                (self.rng.next() & self.rng.next(), self.rng.next() & self.rng.next());
            let cr14 = self.rng.pick(&[0, 1 << 28, some]);
            let mcic = self.rng.pick(&[0, 1 << 44, other]);
            record.extend(cr14.to_be_bytes());
            record.extend(mcic.to_be_bytes());
        } else {
            record.extend(self.rng.pick(&[0u16, 1, 0xfe09]).to_be_bytes());
            record.extend(self.rng.pick(&[0u16, 1, 0x11, 0x111]).to_be_bytes());
            record.extend((self.rng.pick(&[0, u64::MAX, 7]) as u32).to_be_bytes());
            let word = self.rng.next() as u32;
            let isc = self.rng.pick(&[0, 3, 7, word >> 27 & 7]);
            let rest = self.rng.pick(&[0, 1 << 31, 1 << 30 | 1 << 26, word]) & !(7 << 27);
            record.extend((isc << 27 | rest).to_be_bytes());
        }
        match self.rng.below(4) {
            0 => {
                let rest = RECORD - record.len();
                record.extend(self.filler(rest));
            }
            1 => {
                record.extend([self.rng.byte(), self.rng.byte(), self.rng.byte(), self.rng.byte()])
            }
            _ => {}
        }
        record.resize(RECORD, 0);
        record
    }

    fn any_record(&mut self) -> Vec<u8> {
        let queued: Vec<Record> = self.controller.io.iter().flatten().copied().collect();
        if !queued.is_empty() && self.rng.percent(30) {
            // Like a queued one, but for its last byte and perhaps its subclass.
            let mut record = self.rng.pick(&queued).to_vec();
            record[71] = self.rng.byte();
            record[16] ^= self.rng.pick(&[0, 8, 0x38]);
            return record;
        }
        let kind = match self.rng.below(12) {
            0..=5 => self.io_type(),
            6 | 7 => PAGE_FAULT_DONE,
            8 | 9 => SERVICE,
            _ => MACHINE_CHECK,
        };
        self.record(kind)
    }

    /// This many records for the nine queues, of few different ones.
    fn queue_records(&mut self, count: usize) -> Vec<Vec<u8>> {
        let mut records = Vec::new();
        while records.len() < count {
            let kind = self.io_type();
            let kind = self.rng.pick(&[kind, kind, kind, PAGE_FAULT_DONE]);
            let record = self.record(kind);
            let run = 1 + self.rng.below(count);
            records.resize((records.len() + run).min(count), record);
        }
        records
    }

    /// Plays a list that leaves adapters, modes and records of all kinds.
    fn settle(&mut self) {
        let capable = self.controller.capable;
        let mut requests = Vec::new();
        let every_place = self.theme == Theme::Places;
        let mut ids = vec![0, 1, 5, 63, self.rng.below(PLACES) as u8];
        let mut adapters = 2 + self.rng.below(3);
        if every_place {
            ids = (0..PLACES as u8).collect();
            adapters = PLACES;
        }
        for _ in 0..adapters {
            let id = ids.swap_remove(self.rng.below(ids.len()));
            let isc = self.rng.pick(&[0, 3, 3, 7]);
            let maskable = u8::from(every_place || self.rng.percent(50));
            let payload = vec![0, 0, 0, id, isc, maskable, 0, self.rng.pick(&[0, 1, 1])];
            requests.push(Request { group: ADAPTER_REGISTER, attr: 0, payload });
            if maskable == 1 && (every_place || self.rng.percent(40)) {
                let mut payload = vec![0, 0, 0, id, 1, 1];
                payload.resize(16, 0);
                requests.push(Request { group: ADAPTER_MODIFY, attr: 0, payload });
            }
        }
        let mut payload = Vec::new();
        for _ in 0..1 + self.rng.below(7) {
            payload.extend(self.any_record());
        }
        requests.push(Request { group: ENQUEUE, attr: payload.len() as u64, payload });
        if capable && self.rng.percent(70) {
            let modes =
                vec![self.rng.pick(&[0, 0x91, 0x10, 255]), self.rng.pick(&[0, 0, 0x10, 0x80])];
            requests.push(Request { group: AISM_ALL, attr: 0, payload: modes });
        }
        if self.rng.percent(50) {
            requests.push(Request { group: APF_ENABLE, attr: 0, payload: vec![] });
        }
        self.push(Ask::PlayList, assemble(capable, &requests), PLACES);
    }

    /// Registers adapters, sets modes, and brings the queues to the limit or near it.
    fn fill(&mut self) {
        if self.rng.percent(20) {
            let list = self.overfull_list();
            self.push(Ask::PlayList, list, PLACES);
        }
        for id in 0..1 + self.rng.below(3) as u8 {
            let payload = vec![
                0,
                0,
                0,
                id,
                self.rng.pick(&[0, 3, 7]),
                self.rng.pick(&[0, 1]),
                0,
                self.rng.pick(&[0, 1, 1]),
            ];
            self.push(Ask::Set { group: ADAPTER_REGISTER, attr: 0 }, payload, PLACES);
        }
        let modes = vec![self.rng.pick(&[0, 0x91, 255]), self.rng.pick(&[0, 0, 0x80])];
        self.push(Ask::Set { group: AISM_ALL, attr: 0 }, modes, PLACES);
        let count = self.rng.pick(&[254, 255, 255, 256, 256, 256]);
        let mut records = self.queue_records(count);
        for _ in 0..self.rng.pick(&[0, 1, 1, 2]) {
            let kind = self.rng.pick(&[SERVICE, MACHINE_CHECK]);
            let record = self.record(kind);
            let at = self.rng.pick(&[0, 128, count]);
            records.insert(at, record);
        }
        let payload = records.concat();
        let attr = payload.len() as u64;
        self.push(Ask::Set { group: ENQUEUE, attr }, payload, PLACES);
        for id in 0..2 {
            self.push(Ask::Set { group: AIRQ_INJECT, attr: id }, vec![], PLACES);
        }
    }

    fn enqueue(&mut self) -> (Ask, Vec<u8>) {
        let mut payload = self.records().concat();
        let length = payload.len();
        let attr = match self.rng.below(16) {
            0 => self.rng.pick(&[0, 1, 64, 71, 73, 80, 143, 145]),
            1 => length as u64 + self.rng.pick(&[1 << 32, 1 << 63, 1, 71, 72]),
            2 => self.rng.pick(&[18_504, 18_575, 18_576, 18_577, 18_648, 72 << 32, u64::MAX - 15]),
            _ => length as u64,
        };
        match self.rng.below(10) {
            0 => payload.truncate(length.saturating_sub(1)),
            1 => payload.extend(self.any_record()),
            2 => payload.extend(STRAY_TYPES[0].to_be_bytes().repeat(9)),
            _ => {}
        }
        self.set(ENQUEUE, attr, payload)
    }

    /// The records of one ENQUEUE.
    fn records(&mut self) -> Vec<Vec<u8>> {
        let room = ROOM - self.controller.queued();
        let mut records = Vec::new();
        match self.rng.below(10) {
            0 => {
                let single = self.rng.pick(&[SERVICE, MACHINE_CHECK]);
                for _ in 0..2 + self.rng.below(2) {
                    records.push(self.record(single));
                }
            }
            1 | 2 if room < 8 => {
                let over = self.rng.below(2);
                records = self.queue_records(room + over);
                records.push(self.any_record());
            }
            3 if self.theme == Theme::Full => {
                let count = self.rng.pick(&[room, room, 256, 257, 258]);
                records = self.queue_records(count.max(1));
            }
            _ => {
                for _ in 0..self.rng.pick(&[1, 1, 1, 2, 3]) {
                    records.push(self.any_record());
                }
            }
        }
        if self.rng.percent(10) {
            let kind = self.rng.pick(&STRAY_TYPES);
            let kind = self.rng.pick(&[kind, kind, LAST_IO + 1]);
            let at = self.rng.below(records.len() + 1);
            let record = self.record(kind);
            records.insert(at, record);
        }
        records
    }

    /// An adapter id: mostly registered, or mostly free.
    fn id(&mut self, registered: bool) -> u32 {
        let fits: Vec<u32> = (0..PLACES as u32)
            .filter(|&id| self.controller.adapters[id as usize].is_some() == registered)
            .collect();
        match self.rng.below(10) {
            0 => self.rng.below(PLACES) as u32,
            1 => self.rng.pick(&[64, 65, 127, 256, u32::MAX]),
            2 | 3 | 4 if !registered => self.rng.pick(&[0, 5, 63]),
            _ if fits.is_empty() => 5,
            2 | 3 => self.rng.pick(&fits) + self.rng.pick(&[64, 256, 1 << 16, 1 << 24, 1 << 31]),
            _ => self.rng.pick(&fits),
        }
    }

    /// A subclass: often one of a registered adapter.
    fn isc(&mut self) -> u8 {
        let used: Vec<u8> =
            self.controller.adapters.iter().flatten().map(|adapter| adapter.isc).collect();
        match self.rng.below(8) {
            0 => self.rng.pick(&[8, 8, 9, 11, 16, 128, 255]),
            1 | 2 => self.rng.pick(&[0, 3, 7]),
            _ if used.is_empty() => self.rng.below(8) as u8,
            _ => self.rng.pick(&used),
        }
    }

    fn register_payload(&mut self) -> Vec<u8> {
        let mut payload = self.id(false).to_be_bytes().to_vec();
        payload.push(self.isc());
        payload.push(self.rng.pick(&[0, 0, 1, 2, 255]));
        payload.push(self.rng.pick(&[0, 1, 128]));
        payload.push(self.rng.pick(&[0, 1, 1, 3, 2, 254, 255]));
        payload
    }

    fn register(&mut self) -> (Ask, Vec<u8>) {
        let payload = self.register_payload();
        self.set(ADAPTER_REGISTER, 0, payload)
    }

    fn modify_payload(&mut self) -> Vec<u8> {
        let mut payload = self.id(true).to_be_bytes().to_vec();
        payload.push(self.rng.pick(&[1, 1, 1, 1, 1, 1, 1, 2, 2, 3, 3, 0, 4, 255]));
        payload.push(self.rng.pick(&[0, 0, 1, 1, 2, 255]));
        payload.extend(self.filler(10));
        payload
    }

    fn modify(&mut self) -> (Ask, Vec<u8>) {
        let payload = self.modify_payload();
        self.set(ADAPTER_MODIFY, 0, payload)
    }

    fn clear_io(&mut self) -> (Ask, Vec<u8>) {
        let pending: Vec<Record> = self.controller.listing().copied().collect();
        let first = self.controller.io.iter().flatten().next().map(|record| record[8..12].to_vec());
        let half = self.rng.pick(&[0u16, 1, 0x11, 0xfe09]).to_be_bytes();
        let word = match self.rng.below(8) {
            0 => vec![0; 4],
            1 => [[0, 0], half].concat(),
            2 => [half, [0, 0]].concat(),
            3 | 4 => first.unwrap_or(vec![0, 1, 0, 0x11]),
            _ if pending.is_empty() => [half, half].concat(),
            _ => self.rng.pick(&pending)[8..12].to_vec(),
        };
        let attr = match self.rng.below(8) {
            0 => self.rng.below(4) as u64,
            1 => self.rng.pick(&[5, 72, 1 << 32, (1 << 32) + 4, u64::MAX]),
            _ => 4,
        };
        let (ask, mut payload) = self.set(CLEAR_IO_IRQ, attr, word);
        if self.rng.percent(if attr < 4 { 40 } else { 8 }) {
            payload.truncate(3);
        }
        (ask, payload)
    }

    fn aism(&mut self) -> (Ask, Vec<u8>) {
        let mut payload = vec![self.isc(), self.rng.pick(&[0, 0, 1, 255])];
        payload
            .extend(self.rng.pick(&[0u16, 1, 1, 0, 1, 0, 1, 1, 2, 256, 257, 65_535]).to_be_bytes());
        self.set(AISM, 0, payload)
    }

    fn inject(&mut self) -> (Ask, Vec<u8>) {
        let id = u64::from(self.id(true));
        let attr = match self.rng.below(16) {
            0 => id + self.rng.pick(&[1 << 32, 1 << 63, 256]),
            _ => id,
        };
        self.set(AIRQ_INJECT, attr, vec![])
    }

    fn modes(&mut self) -> Vec<u8> {
        let (one, two) = (self.rng.byte(), self.rng.byte());
        let used = self
            .controller
            .adapters
            .iter()
            .flatten()
            .fold(0, |bits, adapter| bits | mask_bit(adapter.isc));
        vec![self.rng.pick(&[0, 0, 255, used, one]), self.rng.pick(&[0, 0, 255, used, !used, two])]
    }

    fn aism_all(&mut self) -> (Ask, Vec<u8>) {
        let payload = self.modes();
        let (ask, mut payload) = self.set(AISM_ALL, 0, payload);
        if self.rng.percent(if self.controller.capable { 6 } else { 30 }) {
            payload.truncate(1);
        }
        if self.rng.percent(50) {
            return (Ask::Get { group: AISM_ALL, attr: 0 }, payload);
        }
        (ask, payload)
    }

    fn take(&mut self) -> (Ask, Vec<u8>) {
        let any = self.rng.byte();
        let subclasses = self.rng.pick(&[0, 255, any, 128, 16, 1, 0x6e]);
        let ask = Ask::Take {
            subclasses,
            external: self.rng.percent(60),
            machine_check: self.rng.percent(60),
        };
        let lent = self.rng.pick(&[72, 72, 72, 72, 72, 73, 80, 71, 0]);
        (ask, self.filler(lent))
    }

    fn write(&mut self) -> (Ask, Vec<u8>) {
        let length = self.list_length();
        let short = self.rng.below(length);
        let lent = self.rng.pick(&[length, length, length + 7, length - 1, 20, 19, short, 0]);
        (Ask::WriteList, self.filler(lent))
    }

    /// A list to play: written by the model or put together, and often changed.
    fn list(&mut self) -> Vec<u8> {
        let big = self.theme == Theme::Full;
        let capable = self.controller.capable;
        let mut list = match self.rng.below(10) {
            0..=2 if big => self.overfull_list(),
            0..=3 => written(&self.controller),
            4 => {
                let mut other = self.rng.clone();
                let length = 4 + self.rng.below(6);
                self.rng.next();
                let theme = self.rng.pick(&[Theme::Mixed, Theme::Adapters, Theme::Queues]);
                written(&replayed(&script(&mut other, theme, length), capable))
            }
            6 if self.rng.percent(12) => {
                let count = self.rng.pick(&[130, 131, 131, 132, 133]);
                assemble(
                    capable,
                    &vec![Request { group: APF_ENABLE, attr: 0, payload: vec![] }; count],
                )
            }
            7 => assemble(capable, &[]),
            _ => {
                let requests = self.requests();
                assemble(capable, &requests)
            }
        };
        if self.rng.percent(40) {
            let mut requests = requests_of(&list);
            self.rearrange(&mut requests);
            list = assemble(capable, &requests);
        }
        match self.rng.below(10) {
            0 | 1 => self.spoil_header(&mut list),
            2 | 3 => self.spoil_entry(&mut list),
            4 => self.spoil_length(&mut list),
            5 => self.spoil_payload(&mut list),
            6 => {
                self.spoil_entry(&mut list);
                self.spoil_header(&mut list);
            }
            _ => {}
        }
        list
    }

    /// A list whose ENQUEUEs do not all fit.
    fn overfull_list(&mut self) -> Vec<u8> {
        let mut requests = Vec::new();
        let first = self.rng.pick(&[200, 255, 256]);
        for count in [first, 256 - first + self.rng.pick(&[0, 1]), 1] {
            let payload = self.queue_records(count).concat();
            if count != 0 {
                requests.push(Request { group: ENQUEUE, attr: payload.len() as u64, payload });
            }
        }
        assemble(self.controller.capable, &requests)
    }

    /// Requests as another writer might list them.
    fn requests(&mut self) -> Vec<Request> {
        let mut requests = Vec::new();
        for _ in 0..1 + self.rng.below(6) {
            if self.rng.percent(6) {
                // A request that has its place elsewhere, not in a list.
                let (group, attr, payload) = self.rng.pick(&[
                    (CLEAR_IRQS, 0, [0; 4]),
                    (APF_DISABLE_WAIT, 0, [0; 4]),
                    (CLEAR_IO_IRQ, 4, [0, 1, 0, 1]),
                    (AISM, 0, [0, 0, 0, 1]),
                    (AIRQ_INJECT, 5, [0; 4]),
                ]);
                requests.push(Request { group, attr, payload: payload.to_vec() });
            }
            let (group, payload) = match self.rng.below(8) {
                0..=2 => (ADAPTER_REGISTER, self.register_payload()),
                3 => (ADAPTER_MODIFY, self.modify_payload()),
                4 | 5 => {
                    (ENQUEUE, [self.any_record(), self.any_record()][self.rng.below(2)..].concat())
                }
                6 => (AISM_ALL, self.modes()),
                _ => (APF_ENABLE, vec![]),
            };
            let attr = if group == ENQUEUE { payload.len() as u64 } else { 0 };
            requests.push(Request { group, attr, payload });
            if self.rng.percent(40) && group == ADAPTER_REGISTER {
                let mut payload = requests[requests.len() - 1].payload[..4].to_vec();
                payload.extend([self.rng.pick(&[1, 1, 2, 3]), self.rng.pick(&[0, 1, 255])]);
                payload.extend(self.filler(10));
                requests.push(Request { group: ADAPTER_MODIFY, attr: 0, payload });
            }
        }
        requests
    }

    fn rearrange(&mut self, requests: &mut Vec<Request>) {
        if requests.is_empty() {
            return;
        }
        let (one, two) = (self.rng.below(requests.len()), self.rng.below(requests.len()));
        match self.rng.below(9) {
            0 => requests.swap(one, two),
            8 => {
                // Shorter than its structure, with another payload behind it.
                let half = requests[one].payload.len() / 2;
                requests[one].payload.truncate(half);
                requests.push(Request { group: APF_ENABLE, attr: 0, payload: vec![1; 80] });
            }
            1 => {
                requests.remove(one);
            }
            2 => {
                let request = requests[one].clone();
                requests.insert(two, request);
            }
            3 => {
                let more = 1 + self.rng.below(9);
                let bytes = self.filler(more);
                requests[one].payload.extend(bytes);
            }
            4 => {
                requests[one].payload.pop();
            }
            5 => requests[one].attr = self.rng.pick(&WIDE),
            6 => requests[one].attr += self.rng.pick(&[1 << 32, 1, 72]),
            _ => requests.push(Request { group: AISM_ALL, attr: 0, payload: self.modes() }),
        }
    }

    /// Changes fields of a list's header, often two at once.
    fn spoil_header(&mut self, list: &mut [u8]) {
        let [total, count, _, payloads] = words(list);
        let (less, more) = (count.wrapping_sub(1), count.wrapping_add(1));
        let mut put =
            |at: usize, value: u32| list[at..at + 4].copy_from_slice(&value.to_be_bytes());
        for _ in 0..self.rng.pick(&[1, 1, 2, 2, 3]) {
            match self.rng.below(8) {
                0 => put(
                    0,
                    self.rng.pick(&[
                        0,
                        20,
                        total.wrapping_sub(1),
                        total.wrapping_add(1),
                        total ^ 1 << 31,
                    ]),
                ),
                1 => put(4, self.rng.pick(&[0, less, more, 131, count ^ 1 << 31])),
                2 => put(4, self.rng.pick(&[132, 133, 256, 1 << 31, u32::MAX])),
                3 => put(8, self.rng.pick(&[0, 19, 21, 44, 276, 20 | 1 << 31])),
                4 => put(
                    12,
                    self.rng.pick(&[0, payloads ^ 1, payloads ^ 24, total, payloads | 1 << 31]),
                ),
                5 => put(16, self.rng.pick(&[2, 3, 256, 257, 1 << 31, u32::MAX])),
                6 => put(16, u32::from(!self.controller.capable)),
                _ => {
                    // One entry more or less, with the offset to match.
                    let other = self.rng.pick(&[more, less, 131, 132]);
                    put(4, other);
                    put(12, other.wrapping_mul(24).wrapping_add(20));
                }
            }
        }
    }

    /// Changes a word of one entry, or lengths of two.
    fn spoil_entry(&mut self, list: &mut [u8]) {
        let [_, count, _, payloads] = words(list);
        if count == 0 {
            return;
        }
        let at = HEADER + ENTRY * self.rng.below(count as usize);
        let which = self.rng.below(10);
        let group = self.rng.pick(&[0u32, 1, 3, 5, 8, 9, 10, 12, 0x102, 0x0100_0004]);
        let mut change = |at: usize, new: &[u32], bit: u32| {
            let old = number(&list[at..at + 4]) as u32;
            let any = self.rng.pick(new);
            let value =
                self.rng.pick(&[any, any, old ^ bit, old.wrapping_add(1), old.wrapping_sub(1)]);
            list[at..at + 4].copy_from_slice(&value.to_be_bytes());
        };
        match which {
            0 => change(at, &[0, 20, u32::MAX], 1 << 31),
            1 | 2 => list[at + 4..at + 8].copy_from_slice(&group.to_be_bytes()),
            3 => change(at + 8, &[0, 7, 8, u32::MAX], 1 << 31),
            4 => change(at + 12, &[1, 1 << 24], 1 << 31),
            5 => change(at + 16, &[1], 1),
            6 => change(at + 20, &[0, 72, 144, 18_648], 1 << 31),
            _ if at + 2 * ENTRY <= payloads as usize => {
                // Two lengths whose sum is right modulo 2^32 only.
                for at in [at + 8, at + ENTRY, at + ENTRY + 8] {
                    list[at] ^= 0x80;
                }
            }
            _ => list[at + 8] ^= 0x80,
        }
    }

    /// Cuts or extends a list, and often fits the total to it.
    fn spoil_length(&mut self, list: &mut Vec<u8>) {
        let short = self.rng.below(list.len());
        if self.rng.percent(50) {
            let length = self.rng.pick(&[0, 1, 19, 20, 21, 43, 44, list.len() - 1, short]);
            list.truncate(length);
        } else {
            let more = 1 + self.rng.below(30);
            let bytes = self.filler(more);
            list.extend(bytes);
        }
        if self.rng.percent(70) && list.len() >= HEADER {
            let length = list.len() as u32;
            list[..4].copy_from_slice(&length.to_be_bytes());
        }
    }

    /// Changes a few payload bytes.
    fn spoil_payload(&mut self, list: &mut [u8]) {
        let [.., payloads] = words(list);
        let from = payloads as usize;
        if from == list.len() {
            return;
        }
        for _ in 0..1 + self.rng.below(2) {
            let at = from + self.rng.below(list.len() - from);
            let (bit, byte) = (1 << self.rng.below(8), self.rng.byte());
            list[at] = self.rng.pick(&[list[at] ^ bit, byte]);
        }
    }
}

/// The move list of a controller.
fn written(controller: &Controller) -> Vec<u8> {
    let mut list = vec![0; 23_278];
    let (_, length) = controller.clone().call(&Ask::WriteList, &mut list, PLACES);
    list.truncate(length as usize);
    list
}

/// The state after a script's calls, on a controller of this capability.
fn replayed(script: &Script, capable: bool) -> Controller {
    let mut controller = Controller::fresh(capable);
    for (call, _) in &script.calls {
        controller.call(&call.ask, &mut call.buffer.clone(), call.table);
    }
    controller
}

/// A list of good form that holds these requests.
fn assemble(capable: bool, requests: &[Request]) -> Vec<u8> {
    let payloads = HEADER + ENTRY * requests.len();
    let total = payloads + requests.iter().map(|request| request.payload.len()).sum::<usize>();
    let mut list = Vec::with_capacity(total);
    for field in [total, requests.len(), HEADER, payloads, usize::from(capable)] {
        list.extend((field as u32).to_be_bytes());
    }
    let mut at = payloads;
    for request in requests {
        for field in [at as u32, request.group, request.payload.len() as u32, 0] {
            list.extend(field.to_be_bytes());
        }
        list.extend(request.attr.to_be_bytes());
        at += request.payload.len();
    }
    requests.iter().for_each(|request| list.extend(&request.payload));
    list
}

/// The requests of a list of good form.
fn requests_of(list: &[u8]) -> Vec<Request> {
    let [_, count, ..] = words(list);
    let entries = list[HEADER..].as_chunks::<ENTRY>().0;
    let request = |entry: &[u8; ENTRY]| {
        let [at, group, length, _] = words(entry);
        let payload = list[at as usize..][..length as usize].to_vec();
        Request { group, attr: number(&entry[16..]), payload }
    };
    entries[..count as usize].iter().map(request).collect()
}
