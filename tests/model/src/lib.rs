//! A plain model of the floating interrupt controller: one guest's pending
//! interrupts, its I/O adapters and the suppression of adapter interrupts.
//! All multi-byte fields are big-endian.

use std::collections::VecDeque;

pub mod calls;
pub mod xive;

/// Adapter places.
pub const PLACES: usize = 64;
/// Records that the I/O queues and the page-fault queue hold together.
pub const ROOM: usize = 256;
/// Interruption subclasses.
pub const SUBCLASSES: usize = 8;
/// Bytes of a pending record.
pub const RECORD: usize = 72;
/// Longest claimed length of an ENQUEUE.
pub const LONGEST_ENQUEUE: u64 = 18_576;
/// Most requests of a move list that is played.
pub const MOST_REQUESTS: u32 = 131;
/// Bytes of a move list's header and of one entry of its table.
pub const HEADER: usize = 20;
pub const ENTRY: usize = 24;

pub const E2BIG: u32 = 7;
pub const ENOMEM: u32 = 12;
pub const EFAULT: u32 = 14;
pub const EBUSY: u32 = 16;
pub const EINVAL: u32 = 22;
pub const EOPNOTSUPP: u32 = 95;

pub const GET_ALL_IRQS: u32 = 1;
pub const ENQUEUE: u32 = 2;
pub const CLEAR_IRQS: u32 = 3;
pub const APF_ENABLE: u32 = 4;
pub const APF_DISABLE_WAIT: u32 = 5;
pub const ADAPTER_REGISTER: u32 = 6;
pub const ADAPTER_MODIFY: u32 = 7;
pub const CLEAR_IO_IRQ: u32 = 8;
pub const AISM: u32 = 9;
pub const AIRQ_INJECT: u32 = 10;
pub const AISM_ALL: u32 = 11;

pub const LAST_IO: u64 = 0xfffd_ffff;
pub const PAGE_FAULT_DONE: u64 = 0xfffe_0005;
pub const MACHINE_CHECK: u64 = 0xfffe_1000;
pub const SERVICE: u64 = 0xffff_2401;
/// Type of the record that INJECT appends.
pub const ADAPTER_IO: u64 = 0x0400_0000;

/// A pending record, all bytes as given.
pub type Record = [u8; RECORD];

/// What a record's type says it is.
#[derive(Clone, Copy, Debug, PartialEq, Eq)]
pub enum Kind {
    /// I/O of this subclass.
    Io(usize),
    Done,
    Service,
    MachineCheck,
}

/// The kind of a record; none for a type that is not taken.
pub fn kind(record: &Record) -> Option<Kind> {
    match number(&record[..8]) {
        0..=LAST_IO => Some(Kind::Io((number(&record[16..20]) >> 27 & 7) as usize)),
        PAGE_FAULT_DONE => Some(Kind::Done),
        MACHINE_CHECK => Some(Kind::MachineCheck),
        SERVICE => Some(Kind::Service),
        _ => None,
    }
}

/// A registered adapter.
#[derive(Clone, Copy, Debug, PartialEq, Eq)]
pub struct Adapter {
    pub isc: u8,
    pub maskable: bool,
    pub swap: bool,
    pub suppressible: bool,
    pub masked: bool,
}

/// What a caller asks.
#[derive(Clone, Copy, Debug, PartialEq, Eq)]
pub enum Ask {
    Set { group: u32, attr: u64 },
    Get { group: u32, attr: u64 },
    Take { subclasses: u8, external: bool, machine_check: bool },
    WriteList,
    PlayList,
}

/// The controller. The caller of the real one lends the adapter table; here
/// only the length of the lent table is given with each call.
#[derive(Clone, Debug, PartialEq, Eq)]
pub struct Controller {
    pub capable: bool,
    pub adapters: [Option<Adapter>; PLACES],
    pub io: [VecDeque<Record>; SUBCLASSES],
    pub done: VecDeque<Record>,
    pub service: Option<Record>,
    pub machine_check: Option<Record>,
    pub simm: u8,
    pub nimm: u8,
    pub page_faults: bool,
}

type Answer = Result<u64, u32>;

impl Controller {
    /// A fresh controller, with the AIS capability or without.
    pub fn fresh(capable: bool) -> Controller {
        Controller {
            capable,
            adapters: [None; PLACES],
            io: Default::default(),
            done: VecDeque::new(),
            service: None,
            machine_check: None,
            simm: 0,
            nimm: 0,
            page_faults: false,
        }
    }

    /// Carries out one call: its code and its count.
    pub fn call(&mut self, ask: &Ask, buffer: &mut [u8], table_len: usize) -> (u32, u64) {
        let lent_table = matches!(ask, Ask::Take { .. }) || table_len == PLACES;
        if !lent_table {
            return (EFAULT, 0);
        }
        let answer = match *ask {
            Ask::Set { group, attr } => self.set(group, attr, buffer),
            Ask::Get { group, attr } => self.get(group, attr, buffer),
            Ask::Take { subclasses, external, machine_check } => {
                self.take(subclasses, external, machine_check, buffer)
            }
            Ask::WriteList => self.write_list(buffer),
            Ask::PlayList => return self.play_list(buffer),
        };
        match answer {
            Ok(count) => (0, count),
            Err(code) => (code, 0),
        }
    }

    /// Records in the nine queues.
    pub fn queued(&self) -> usize {
        self.io.iter().map(VecDeque::len).sum::<usize>() + self.done.len()
    }

    /// All records pending.
    pub fn pending(&self) -> usize {
        self.queued() + self.service.is_some() as usize + self.machine_check.is_some() as usize
    }

    /// The pending records in listing order.
    pub fn listing(&self) -> impl Iterator<Item = &Record> {
        let queues = self.io.iter().flatten().chain(&self.done);
        queues.chain(&self.service).chain(&self.machine_check)
    }

    fn set(&mut self, group: u32, attr: u64, payload: &[u8]) -> Answer {
        match group {
            ENQUEUE => return self.enqueue(attr, payload),
            CLEAR_IO_IRQ => return self.clear_io(attr, payload),
            AIRQ_INJECT => return self.inject(attr),
            _ => check(attr == 0, EINVAL)?,
        }
        match group {
            CLEAR_IRQS => return Ok(self.clear()),
            APF_ENABLE => self.page_faults = true,
            APF_DISABLE_WAIT => self.page_faults = false,
            ADAPTER_REGISTER => self.register(lent(payload)?)?,
            ADAPTER_MODIFY => self.modify(lent(payload)?)?,
            AISM => {
                check(self.capable, EOPNOTSUPP)?;
                self.set_mode(lent(payload)?)?;
            }
            AISM_ALL => {
                check(self.capable, EOPNOTSUPP)?;
                [self.simm, self.nimm] = *lent(payload)?;
            }
            _ => return Err(EINVAL),
        }
        Ok(0)
    }

    fn get(&self, group: u32, attr: u64, payload: &mut [u8]) -> Answer {
        match group {
            GET_ALL_IRQS => self.get_all(attr, payload),
            AISM_ALL => {
                check(attr == 0, EINVAL)?;
                check(self.capable, EOPNOTSUPP)?;
                let modes = payload.get_mut(..2).ok_or(EFAULT)?;
                modes.copy_from_slice(&[self.simm, self.nimm]);
                Ok(0)
            }
            _ => Err(EINVAL),
        }
    }

    fn get_all(&self, claimed: u64, payload: &mut [u8]) -> Answer {
        check(claimed != 0, EINVAL)?;
        check(claimed <= payload.len() as u64, EFAULT)?;
        let pending = self.pending();
        check((pending * RECORD) as u64 <= claimed, ENOMEM)?;
        for (out, record) in payload.chunks_exact_mut(RECORD).zip(self.listing()) {
            out.copy_from_slice(record);
        }
        Ok(pending as u64)
    }

    fn enqueue(&mut self, claimed: u64, payload: &[u8]) -> Answer {
        check(claimed != 0 && claimed <= LONGEST_ENQUEUE && claimed % RECORD as u64 == 0, EINVAL)?;
        let records = payload.get(..claimed as usize).ok_or(EFAULT)?.as_chunks::<RECORD>().0;
        let mut wanted = 0;
        for record in records {
            match kind(record).ok_or(EINVAL)? {
                Kind::Io(_) | Kind::Done => wanted += 1,
                Kind::Service | Kind::MachineCheck => {}
            }
        }
        check(self.queued() + wanted <= ROOM, EBUSY)?;
        for record in records {
            self.add(record);
        }
        Ok(records.len() as u64)
    }

    /// Adds a record of a type that is taken.
    fn add(&mut self, record: &Record) {
        match kind(record) {
            Some(Kind::Io(isc)) => self.io[isc].push_back(*record),
            Some(Kind::Done) => self.done.push_back(*record),
            Some(Kind::Service) => {
                self.service.get_or_insert(*record);
            }
            Some(Kind::MachineCheck) => {
                let first = self.machine_check.get_or_insert(*record);
                for i in 8..24 {
                    first[i] |= record[i];
                }
            }
            None => {}
        }
    }

    fn clear(&mut self) -> u64 {
        let removed = self.pending();
        self.io.iter_mut().for_each(VecDeque::clear);
        self.done.clear();
        self.service = None;
        self.machine_check = None;
        removed as u64
    }

    fn clear_io(&mut self, claimed: u64, payload: &[u8]) -> Answer {
        check(claimed >= 4, EINVAL)?;
        let word: &[u8; 4] = lent(payload)?;
        check(*word != [0; 4], EINVAL)?;
        for queue in &mut self.io {
            if let Some(at) = queue.iter().position(|record| record[8..12] == *word) {
                queue.remove(at);
                return Ok(1);
            }
        }
        Ok(0)
    }

    fn register(&mut self, payload: &[u8; 8]) -> Result<(), u32> {
        let [.., isc, maskable, swap, flags] = *payload;
        let place = self.adapters.get_mut(number(&payload[..4]) as usize).ok_or(EINVAL)?;
        check(place.is_none(), EINVAL)?;
        check(usize::from(isc) < SUBCLASSES, EINVAL)?;
        *place = Some(Adapter {
            isc,
            maskable: maskable != 0,
            swap: swap != 0,
            suppressible: flags & 1 != 0,
            masked: false,
        });
        Ok(())
    }

    fn modify(&mut self, payload: &[u8; 16]) -> Result<(), u32> {
        let place = self.adapters.get_mut(number(&payload[..4]) as usize).ok_or(EINVAL)?;
        let adapter = place.as_mut().ok_or(EINVAL)?;
        match payload[4] {
            1 => {
                check(adapter.maskable, EINVAL)?;
                adapter.masked = payload[5] != 0;
                Ok(())
            }
            2 | 3 => Ok(()),
            _ => Err(EINVAL),
        }
    }

    fn set_mode(&mut self, payload: &[u8; 4]) -> Result<(), u32> {
        let [isc, _, mode @ ..] = *payload;
        check(usize::from(isc) < SUBCLASSES, EINVAL)?;
        let bit = mask_bit(isc);
        match u16::from_be_bytes(mode) {
            0 => self.simm &= !bit,
            1 => self.simm |= bit,
            _ => return Err(EINVAL),
        }
        self.nimm &= !bit;
        Ok(())
    }

    fn inject(&mut self, id: u64) -> Answer {
        check(id < PLACES as u64, EINVAL)?;
        let adapter = self.adapters[id as usize].ok_or(EINVAL)?;
        let suppressible = self.capable && adapter.suppressible;
        let bit = mask_bit(adapter.isc);
        if adapter.masked || suppressible && self.nimm & bit != 0 {
            return Ok(0);
        }
        check(self.queued() < ROOM, EBUSY)?;
        let mut record = [0; RECORD];
        record[..8].copy_from_slice(&ADAPTER_IO.to_be_bytes());
        record[16..20].copy_from_slice(&(1 << 31 | u32::from(adapter.isc) << 27).to_be_bytes());
        self.io[usize::from(adapter.isc)].push_back(record);
        if suppressible && self.simm & bit != 0 {
            self.nimm |= bit;
        }
        Ok(1)
    }

    fn take(
        &mut self,
        subclasses: u8,
        external: bool,
        machine_check: bool,
        out: &mut [u8],
    ) -> Answer {
        let out = out.get_mut(..RECORD).ok_or(EFAULT)?;
        let Some(record) = self.first_allowed(subclasses, external, machine_check) else {
            return Ok(0);
        };
        out.copy_from_slice(&record);
        Ok(1)
    }

    /// Removes the record that the guest gets.
    fn first_allowed(
        &mut self,
        subclasses: u8,
        external: bool,
        machine_check: bool,
    ) -> Option<Record> {
        if machine_check && self.machine_check.is_some() {
            return self.machine_check.take();
        }
        if external && self.service.is_some() {
            return self.service.take();
        }
        if external && !self.done.is_empty() {
            return self.done.pop_front();
        }
        let allowed =
            self.io.iter_mut().zip(0u8..).filter(|(_, isc)| subclasses & mask_bit(*isc) != 0);
        allowed.map(|(queue, _)| queue).find(|queue| !queue.is_empty())?.pop_front()
    }

    fn write_list(&self, buffer: &mut [u8]) -> Answer {
        let adapters =
            || (0u32..).zip(&self.adapters).filter_map(|(id, place)| Some((id, place.as_ref()?)));
        let masked = || adapters().filter(|(_, adapter)| adapter.masked);
        let pending = self.pending() * RECORD;
        let modes = self.capable && (self.simm | self.nimm) != 0;
        let requests = adapters().count()
            + masked().count()
            + usize::from(pending != 0)
            + usize::from(modes)
            + usize::from(self.page_faults);
        let payloads = HEADER + ENTRY * requests;
        let total = payloads
            + 8 * adapters().count()
            + 16 * masked().count()
            + pending
            + 2 * usize::from(modes);
        let list = buffer.get_mut(..total).ok_or(ENOMEM)?;

        let header =
            [total as u32, requests as u32, HEADER as u32, payloads as u32, self.capable as u32];
        for (out, field) in list.chunks_exact_mut(4).zip(header) {
            out.copy_from_slice(&field.to_be_bytes());
        }
        let mut writer = Writer { list, entry: HEADER, payload: payloads };
        for (id, adapter) in adapters() {
            let payload = writer.request(ADAPTER_REGISTER, 8, 0);
            payload[..4].copy_from_slice(&id.to_be_bytes());
            payload[4] = adapter.isc;
            payload[5] = adapter.maskable as u8;
            payload[6] = adapter.swap as u8;
            payload[7] = adapter.suppressible as u8;
        }
        for (id, _) in masked() {
            let payload = writer.request(ADAPTER_MODIFY, 16, 0);
            payload.fill(0);
            payload[..4].copy_from_slice(&id.to_be_bytes());
            payload[4] = 1;
            payload[5] = 1;
        }
        if pending != 0 {
            let payload = writer.request(ENQUEUE, pending, pending as u64);
            for (out, record) in payload.chunks_exact_mut(RECORD).zip(self.listing()) {
                out.copy_from_slice(record);
            }
        }
        if modes {
            writer.request(AISM_ALL, 2, 0).copy_from_slice(&[self.simm, self.nimm]);
        }
        if self.page_faults {
            writer.request(APF_ENABLE, 0, 0);
        }
        Ok(total as u64)
    }

    fn play_list(&mut self, list: &[u8]) -> (u32, u64) {
        let entries = match self.read_form(list) {
            Ok(entries) => entries,
            Err(code) => return (code, 0),
        };
        *self = Controller::fresh(self.capable);
        for (place, entry) in entries.iter().enumerate() {
            let [at, group, length, _] = words(entry);
            let payload = &list[at as usize..][..length as usize];
            if let Err(code) = self.set(group, number(&entry[16..]), payload) {
                *self = Controller::fresh(self.capable);
                return (code, place as u64);
            }
        }
        (0, entries.len() as u64)
    }

    /// The entries of a list of good form that suits this controller.
    fn read_form<'a>(&self, list: &'a [u8]) -> Result<&'a [[u8; ENTRY]], u32> {
        let header: &[u8; HEADER] = lent(list)?;
        let [total, requests, table_at, payloads_at] = words(header);
        let flag = number(&header[16..]);
        check(total as usize == list.len(), EINVAL)?;
        check(flag <= 1, EINVAL)?;
        check(requests <= MOST_REQUESTS, E2BIG)?;
        let table_end = HEADER + ENTRY * requests as usize;
        check(table_at as usize == HEADER, EINVAL)?;
        check(payloads_at as usize == table_end && table_end <= list.len(), EINVAL)?;
        let entries = list[HEADER..table_end].as_chunks::<ENTRY>().0;
        let mut end = table_end as u64;
        for entry in entries {
            let [at, group, length, zero] = words(entry);
            check(u64::from(at) == end, EINVAL)?;
            check(zero == 0, EINVAL)?;
            let played = [ENQUEUE, APF_ENABLE, ADAPTER_REGISTER, ADAPTER_MODIFY, AISM_ALL];
            check(played.contains(&group), EINVAL)?;
            end += u64::from(length);
        }
        check(end == u64::from(total), EINVAL)?;
        check((flag == 1) == self.capable, EOPNOTSUPP)?;
        Ok(entries)
    }
}

/// Where the next entry and the next payload of a move list go.
struct Writer<'a> {
    list: &'a mut [u8],
    entry: usize,
    payload: usize,
}

impl Writer<'_> {
    /// Writes one entry; answers the place of its payload.
    fn request(&mut self, group: u32, length: usize, attr: u64) -> &mut [u8] {
        let entry = &mut self.list[self.entry..][..ENTRY];
        for (out, word) in
            entry.chunks_exact_mut(4).zip([self.payload as u32, group, length as u32, 0])
        {
            out.copy_from_slice(&word.to_be_bytes());
        }
        entry[16..].copy_from_slice(&attr.to_be_bytes());
        let at = self.payload;
        self.entry += ENTRY;
        self.payload += length;
        &mut self.list[at..][..length]
    }
}

fn check(holds: bool, code: u32) -> Result<(), u32> {
    if holds {
        Ok(())
    } else {
        Err(code)
    }
}

/// The structure at the start of a lent payload.
fn lent<const N: usize>(payload: &[u8]) -> Result<&[u8; N], u32> {
    payload.first_chunk().ok_or(EFAULT)
}

/// The bit of a subclass in simm and nimm.
pub fn mask_bit(isc: u8) -> u8 {
    128 >> isc
}

/// A big-endian number of up to 8 bytes.
pub fn number(bytes: &[u8]) -> u64 {
    bytes.iter().fold(0, |n, &byte| n << 8 | u64::from(byte))
}

/// The first four 4-byte numbers.
fn words(bytes: &[u8]) -> [u32; 4] {
    [0, 4, 8, 12].map(|at| number(&bytes[at..at + 4]) as u32)
}
