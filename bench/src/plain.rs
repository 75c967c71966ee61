//! The controller in plain Rust, written for speed: what the library is
//! measured against. Its answers are compared with the model's (`bench check`).

use model::{
    Adapter, ADAPTER_IO, ADAPTER_MODIFY, ADAPTER_REGISTER, AIRQ_INJECT, AISM, AISM_ALL,
    APF_DISABLE_WAIT, APF_ENABLE, CLEAR_IO_IRQ, CLEAR_IRQS, E2BIG, EBUSY, EFAULT, EINVAL, ENOMEM,
    ENQUEUE, ENTRY, EOPNOTSUPP, GET_ALL_IRQS, HEADER, LAST_IO, LONGEST_ENQUEUE, MACHINE_CHECK,
    MOST_REQUESTS, PAGE_FAULT_DONE, PLACES, RECORD, ROOM, SERVICE,
};
use std::collections::VecDeque;

type Record = [u8; RECORD];
type Answer = Result<u64, u32>;

/// The queue of finished page faults, after those of the subclasses.
const DONE: usize = 8;

enum Kind {
    /// Of this queue.
    Queued(usize),
    Service,
    MachineCheck,
}

pub struct Controller {
    capable: bool,
    adapters: [Option<Adapter>; PLACES],
    queues: [VecDeque<Record>; 9],
    queued: usize,
    service: Option<Record>,
    machine_check: Option<Record>,
    simm: u8,
    nimm: u8,
    page_faults: bool,
}

fn word(bytes: &[u8], at: usize) -> u32 {
    u32::from_be_bytes(bytes[at..at + 4].try_into().unwrap())
}

fn kind(record: &Record) -> Option<Kind> {
    match u64::from_be_bytes(*record.first_chunk().unwrap()) {
        0..=LAST_IO => Some(Kind::Queued((record[16] >> 3 & 7) as usize)),
        PAGE_FAULT_DONE => Some(Kind::Queued(DONE)),
        MACHINE_CHECK => Some(Kind::MachineCheck),
        SERVICE => Some(Kind::Service),
        _ => None,
    }
}

fn check(holds: bool, code: u32) -> Result<(), u32> {
    if holds {
        Ok(())
    } else {
        Err(code)
    }
}

fn lent<const N: usize>(payload: &[u8]) -> Result<&[u8; N], u32> {
    payload.first_chunk().ok_or(EFAULT)
}

fn answer(answer: Answer) -> (u32, u64) {
    match answer {
        Ok(count) => (0, count),
        Err(code) => (code, 0),
    }
}

impl Controller {
    pub fn new(capable: bool) -> Controller {
        Controller {
            capable,
            adapters: [None; PLACES],
            queues: Default::default(),
            queued: 0,
            service: None,
            machine_check: None,
            simm: 0,
            nimm: 0,
            page_faults: false,
        }
    }

    #[inline(never)]
    pub fn set(&mut self, places: usize, group: u32, attr: u64, payload: &[u8]) -> (u32, u64) {
        if places != PLACES {
            return (EFAULT, 0);
        }
        answer(self.request(group, attr, payload))
    }

    #[inline(never)]
    pub fn get(&self, places: usize, group: u32, attr: u64, out: &mut [u8]) -> (u32, u64) {
        if places != PLACES {
            return (EFAULT, 0);
        }
        answer(match group {
            GET_ALL_IRQS => self.get_all(attr, out),
            AISM_ALL => self.get_masks(attr, out),
            _ => Err(EINVAL),
        })
    }

    #[inline(never)]
    pub fn take(
        &mut self,
        subclasses: u8,
        external: bool,
        machine_check: bool,
        out: &mut [u8],
    ) -> (u32, u64) {
        let Some(out) = out.first_chunk_mut() else { return (EFAULT, 0) };
        if machine_check {
            if let Some(record) = self.machine_check.take() {
                *out = record;
                return (0, 1);
            }
        }
        if external {
            if let Some(record) = self.service.take() {
                *out = record;
                return (0, 1);
            }
            if let Some(record) = self.queues[DONE].pop_front() {
                self.queued -= 1;
                *out = record;
                return (0, 1);
            }
        }
        for (isc, queue) in self.queues[..DONE].iter_mut().enumerate() {
            if subclasses & 128 >> isc != 0 {
                if let Some(record) = queue.pop_front() {
                    self.queued -= 1;
                    *out = record;
                    return (0, 1);
                }
            }
        }
        (0, 0)
    }

    #[inline(never)]
    pub fn write_list(&self, places: usize, out: &mut [u8]) -> (u32, u64) {
        if places != PLACES {
            return (EFAULT, 0);
        }
        answer(self.write(out))
    }

    #[inline(never)]
    pub fn play_list(&mut self, places: usize, list: &[u8]) -> (u32, u64) {
        if places != PLACES {
            return (EFAULT, 0);
        }
        let entries = match self.read_form(list) {
            Ok(entries) => entries,
            Err(code) => return (code, 0),
        };
        self.reset();
        for (place, entry) in entries.iter().enumerate() {
            let payload = &list[word(entry, 0) as usize..][..word(entry, 8) as usize];
            let attr = u64::from_be_bytes(*entry.last_chunk().unwrap());
            if let Err(code) = self.request(word(entry, 4), attr, payload) {
                self.reset();
                return (code, place as u64);
            }
        }
        (0, entries.len() as u64)
    }

    fn reset(&mut self) {
        self.adapters = [None; PLACES];
        self.clear();
        self.simm = 0;
        self.nimm = 0;
        self.page_faults = false;
    }

    fn pending(&self) -> usize {
        self.queued
            + usize::from(self.service.is_some())
            + usize::from(self.machine_check.is_some())
    }

    fn request(&mut self, group: u32, attr: u64, payload: &[u8]) -> Answer {
        match group {
            ENQUEUE => return self.enqueue(attr, payload),
            CLEAR_IO_IRQ => return self.clear_io(attr, payload),
            AIRQ_INJECT => return self.inject(attr),
            _ => check(attr == 0, EINVAL)?,
        }
        match group {
            CLEAR_IRQS => return Ok(self.clear()),
            APF_ENABLE => self.page_faults = true,
            APF_DISABLE_WAIT => self.page_faults = false,
            ADAPTER_REGISTER => self.register(lent(payload)?)?,
            ADAPTER_MODIFY => self.modify(lent(payload)?)?,
            AISM => {
                check(self.capable, EOPNOTSUPP)?;
                self.set_mode(lent(payload)?)?;
            }
            AISM_ALL => {
                check(self.capable, EOPNOTSUPP)?;
                [self.simm, self.nimm] = *lent(payload)?;
            }
            _ => return Err(EINVAL),
        }
        Ok(0)
    }

    fn get_masks(&self, attr: u64, out: &mut [u8]) -> Answer {
        check(attr == 0, EINVAL)?;
        check(self.capable, EOPNOTSUPP)?;
        *out.first_chunk_mut().ok_or(EFAULT)? = [self.simm, self.nimm];
        Ok(0)
    }

    fn get_all(&self, claimed: u64, out: &mut [u8]) -> Answer {
        check(claimed != 0, EINVAL)?;
        check(claimed <= out.len() as u64, EFAULT)?;
        let pending = self.pending();
        check((pending * RECORD) as u64 <= claimed, ENOMEM)?;
        self.list(&mut out[..pending * RECORD]);
        Ok(pending as u64)
    }

    /// Writes all records; `out` is as long as they are.
    fn list(&self, out: &mut [u8]) {
        let mut at = 0;
        let mut put = |records: &[Record]| {
            let bytes = records.as_flattened();
            out[at..at + bytes.len()].copy_from_slice(bytes);
            at += bytes.len();
        };
        for queue in &self.queues {
            let (older, newer) = queue.as_slices();
            put(older);
            put(newer);
        }
        put(self.service.as_slice());
        put(self.machine_check.as_slice());
    }

    fn enqueue(&mut self, claimed: u64, payload: &[u8]) -> Answer {
        check(claimed != 0 && claimed <= LONGEST_ENQUEUE && claimed % RECORD as u64 == 0, EINVAL)?;
        let records = payload.get(..claimed as usize).ok_or(EFAULT)?.as_chunks::<RECORD>().0;
        let mut wanted = 0;
        for record in records {
            if let Kind::Queued(_) = kind(record).ok_or(EINVAL)? {
                wanted += 1;
            }
        }
        check(self.queued + wanted <= ROOM, EBUSY)?;
        for record in records {
            match kind(record) {
                Some(Kind::Queued(queue)) => {
                    self.queues[queue].push_back(*record);
                    self.queued += 1;
                }
                Some(Kind::Service) => {
                    self.service.get_or_insert(*record);
                }
                Some(Kind::MachineCheck) => match &mut self.machine_check {
                    Some(first) => {
                        for i in 8..24 {
                            first[i] |= record[i];
                        }
                    }
                    none => *none = Some(*record),
                },
                None => {}
            }
        }
        Ok(records.len() as u64)
    }

    fn clear(&mut self) -> u64 {
        let removed = self.pending();
        self.queues.iter_mut().for_each(VecDeque::clear);
        self.queued = 0;
        self.service = None;
        self.machine_check = None;
        removed as u64
    }

    fn clear_io(&mut self, claimed: u64, payload: &[u8]) -> Answer {
        check(claimed >= 4, EINVAL)?;
        let wanted: &[u8; 4] = lent(payload)?;
        check(*wanted != [0; 4], EINVAL)?;
        for queue in &mut self.queues[..DONE] {
            if let Some(at) = queue.iter().position(|record| record[8..12] == *wanted) {
                queue.remove(at);
                self.queued -= 1;
                return Ok(1);
            }
        }
        Ok(0)
    }

    fn register(&mut self, payload: &[u8; 8]) -> Result<(), u32> {
        let [.., isc, maskable, swap, flags] = *payload;
        let place = self.adapters.get_mut(word(payload, 0) as usize).ok_or(EINVAL)?;
        check(place.is_none() && isc < 8, EINVAL)?;
        *place = Some(Adapter {
            isc,
            maskable: maskable != 0,
            swap: swap != 0,
            suppressible: flags & 1 != 0,
            masked: false,
        });
        Ok(())
    }

    fn modify(&mut self, payload: &[u8; 16]) -> Result<(), u32> {
        let place = self.adapters.get_mut(word(payload, 0) as usize).ok_or(EINVAL)?;
        let adapter = place.as_mut().ok_or(EINVAL)?;
        match payload[4] {
            1 => {
                check(adapter.maskable, EINVAL)?;
                adapter.masked = payload[5] != 0;
                Ok(())
            }
            2 | 3 => Ok(()),
            _ => Err(EINVAL),
        }
    }

    fn set_mode(&mut self, payload: &[u8; 4]) -> Result<(), u32> {
        let [isc, _, mode @ ..] = *payload;
        check(isc < 8, EINVAL)?;
        let bit = 128 >> isc;
        match u16::from_be_bytes(mode) {
            0 => self.simm &= !bit,
            1 => self.simm |= bit,
            _ => return Err(EINVAL),
        }
        self.nimm &= !bit;
        Ok(())
    }

    fn inject(&mut self, id: u64) -> Answer {
        check(id < PLACES as u64, EINVAL)?;
        let adapter = self.adapters[id as usize].ok_or(EINVAL)?;
        let suppressible = self.capable && adapter.suppressible;
        let bit = 128 >> adapter.isc;
        if adapter.masked || suppressible && self.nimm & bit != 0 {
            return Ok(0);
        }
        check(self.queued < ROOM, EBUSY)?;
        let mut record = [0; RECORD];
        record[..8].copy_from_slice(&ADAPTER_IO.to_be_bytes());
        record[16] = 128 | adapter.isc << 3;
        self.queues[usize::from(adapter.isc)].push_back(record);
        self.queued += 1;
        if suppressible && self.simm & bit != 0 {
            self.nimm |= bit;
        }
        Ok(1)
    }

    fn write(&self, out: &mut [u8]) -> Answer {
        let registered = self.adapters.iter().flatten().count();
        let masked = self.adapters.iter().flatten().filter(|adapter| adapter.masked).count();
        let pending = self.pending() * RECORD;
        let modes = self.capable && (self.simm | self.nimm) != 0;
        let requests = registered
            + masked
            + usize::from(pending != 0)
            + usize::from(modes)
            + usize::from(self.page_faults);
        let payloads = HEADER + ENTRY * requests;
        let total = payloads + 8 * registered + 16 * masked + pending + 2 * usize::from(modes);
        let list = out.get_mut(..total).ok_or(ENOMEM)?;
        let (head, mut rest) = list.split_at_mut(payloads);
        let (header, entries) = head.split_at_mut(HEADER);
        let fields = [total, requests, HEADER, payloads, usize::from(self.capable)];
        for (out, field) in header.as_chunks_mut().0.iter_mut().zip(fields) {
            *out = (field as u32).to_be_bytes();
        }
        let mut entries = entries.as_chunks_mut::<ENTRY>().0.iter_mut();
        let mut at = payloads;
        let mut request = |group: u32, length: usize, attr: u64| -> &mut [u8] {
            let entry = entries.next().unwrap();
            entry[..4].copy_from_slice(&(at as u32).to_be_bytes());
            entry[4..8].copy_from_slice(&group.to_be_bytes());
            entry[8..12].copy_from_slice(&(length as u32).to_be_bytes());
            entry[12..16].fill(0);
            entry[16..].copy_from_slice(&attr.to_be_bytes());
            at += length;
            let (payload, after) = std::mem::take(&mut rest).split_at_mut(length);
            rest = after;
            payload
        };
        for (id, adapter) in self.adapters.iter().enumerate() {
            if let Some(adapter) = adapter {
                let payload = request(ADAPTER_REGISTER, 8, 0);
                payload[..4].copy_from_slice(&(id as u32).to_be_bytes());
                payload[4] = adapter.isc;
                payload[5] = u8::from(adapter.maskable);
                payload[6] = u8::from(adapter.swap);
                payload[7] = u8::from(adapter.suppressible);
            }
        }
        for (id, adapter) in self.adapters.iter().enumerate() {
            if adapter.is_some_and(|adapter| adapter.masked) {
                let payload = request(ADAPTER_MODIFY, 16, 0);
                payload.fill(0);
                payload[..4].copy_from_slice(&(id as u32).to_be_bytes());
                payload[4] = 1;
                payload[5] = 1;
            }
        }
        if pending != 0 {
            self.list(request(ENQUEUE, pending, pending as u64));
        }
        if modes {
            request(AISM_ALL, 2, 0).copy_from_slice(&[self.simm, self.nimm]);
        }
        if self.page_faults {
            request(APF_ENABLE, 0, 0);
        }
        Ok(total as u64)
    }

    fn read_form<'a>(&self, list: &'a [u8]) -> Result<&'a [[u8; ENTRY]], u32> {
        let header: &[u8; HEADER] = lent(list)?;
        let [total, requests, table_at, payloads_at, flag] =
            [0, 4, 8, 12, 16].map(|at| word(header, at));
        check(total as usize == list.len(), EINVAL)?;
        check(flag <= 1, EINVAL)?;
        check(requests <= MOST_REQUESTS, E2BIG)?;
        let table_end = HEADER + ENTRY * requests as usize;
        check(table_at as usize == HEADER, EINVAL)?;
        check(payloads_at as usize == table_end && table_end <= list.len(), EINVAL)?;
        let entries = list[HEADER..table_end].as_chunks::<ENTRY>().0;
        let mut end = table_end as u64;
        for entry in entries {
            let moved = matches!(
                word(entry, 4),
                ENQUEUE | APF_ENABLE | ADAPTER_REGISTER | ADAPTER_MODIFY | AISM_ALL
            );
            check(u64::from(word(entry, 0)) == end && word(entry, 12) == 0 && moved, EINVAL)?;
            end += u64::from(word(entry, 8));
        }
        check(end == u64::from(total), EINVAL)?;
        check((flag == 1) == self.capable, EOPNOTSUPP)?;
        Ok(entries)
    }
}
