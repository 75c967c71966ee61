//! Writes the inputs of the listing program's runs, one file for each, into a folder.
//!
//! usage: move_lists FOLDER

use model::{
    Ask, Controller, ADAPTER_MODIFY, ADAPTER_REGISTER, AIRQ_INJECT, AISM, AISM_ALL, APF_ENABLE,
    ENQUEUE, LAST_IO, MACHINE_CHECK, PAGE_FAULT_DONE, PLACES, RECORD, SERVICE,
};

/// A request of a list that no controller writes.
struct Entry {
    group: u32,
    attr: u64,
    payload: Vec<u8>,
}

fn entry(group: u32, attr: u64, payload: &[u8]) -> Entry {
    Entry { group, attr, payload: payload.to_vec() }
}

fn word(list: &mut Vec<u8>, value: usize) {
    list.extend((value as u32).to_be_bytes());
}

/// The bytes of a list of good form.
fn list(flag: usize, entries: &[Entry]) -> Vec<u8> {
    let start = 20 + 24 * entries.len();
    let total = start + entries.iter().map(|e| e.payload.len()).sum::<usize>();
    let mut list = Vec::new();
    for value in [total, entries.len(), 20, start, flag] {
        word(&mut list, value);
    }
    let mut at = start;
    for e in entries {
        for value in [at, e.group as usize, e.payload.len(), 0] {
            word(&mut list, value);
        }
        list.extend(e.attr.to_be_bytes());
        at += e.payload.len();
    }
    for e in entries {
        list.extend(&e.payload);
    }
    list
}

fn record(kind: u64, word: u32) -> Vec<u8> {
    let mut record = vec![0; RECORD];
    record[..8].copy_from_slice(&kind.to_be_bytes());
    record[16..20].copy_from_slice(&word.to_be_bytes());
    record
}

fn set(c: &mut Controller, group: u32, attr: u64, payload: &[u8]) {
    let mut lent = payload.to_vec();
    let (code, _) = c.call(&Ask::Set { group, attr }, &mut lent, PLACES);
    assert_eq!(code, 0);
}

fn enqueue(c: &mut Controller, records: &[Vec<u8>]) {
    set(c, ENQUEUE, (RECORD * records.len()) as u64, &records.concat());
}

/// The list that a controller writes.
fn written(mut c: Controller) -> Vec<u8> {
    let mut buffer = vec![0; 32768];
    let (code, count) = c.call(&Ask::WriteList, &mut buffer, PLACES);
    assert_eq!(code, 0);
    buffer.truncate(count as usize);
    buffer
}

fn after_p9() -> Controller {
    let mut c = Controller::fresh(true);
    set(&mut c, ADAPTER_REGISTER, 0, &[0, 0, 0, 5, 3, 1, 0, 1]);
    set(&mut c, AISM, 0, &[3, 0, 0, 1]);
    set(&mut c, AIRQ_INJECT, 5, &[]);
    c
}

/// One of each kind, and a second I/O record; they come in another order than the listing's.
fn kinds() -> Controller {
    let mut c = Controller::fresh(false);
    enqueue(
        &mut c,
        &[
            record(MACHINE_CHECK, 0x1234_5678),
            record(SERVICE, 0x1234_5678),
            record(PAGE_FAULT_DONE, 0x1234_5678),
            record(LAST_IO, 0xb800_0abc),
            record(0, 0x0765_4321),
        ],
    );
    c
}

/// All there can be: 64 masked adapters, 256 queued records, a service record and a machine check, masks and flag.
fn fullest() -> Controller {
    let mut c = Controller::fresh(true);
    for id in 0..64 {
        set(&mut c, ADAPTER_REGISTER, 0, &[0, 0, 0, id, id % 8, 1, 1, 1]);
        set(&mut c, ADAPTER_MODIFY, 0, &[0, 0, 0, id, 1, 1, 0, 0, 0, 0, 0, 0, 0, 0, 0, 0]);
    }
    let mut records = vec![record(MACHINE_CHECK, 0), record(SERVICE, 0)];
    for i in 0..256u32 {
        match i % 9 {
            8 => records.push(record(PAGE_FAULT_DONE, i)),
            isc => records.push(record(u64::from(i), isc << 27 | i)),
        }
    }
    enqueue(&mut c, &records);
    set(&mut c, AISM_ALL, 0, &[0xff, 0xff]);
    set(&mut c, APF_ENABLE, 0, &[]);
    c
}

/// A list of so many bytes: one record in a payload that is longer than its attribute.
fn padded(total: usize) -> Vec<u8> {
    let mut payload = record(1, 0xffff_ffff);
    payload.resize(total - 44, 0xee);
    list(1, &[entry(ENQUEUE, 72, &payload)])
}

fn main() {
    let Some(folder) = std::env::args().nth(1) else {
        eprintln!("usage: move_lists FOLDER");
        std::process::exit(2);
    };
    let register = entry(ADAPTER_REGISTER, 0, &[0, 0, 0, 63, 7, 0, 0, 0]);
    let again = entry(ADAPTER_REGISTER, 0, &[0, 0, 0, 63, 0, 0, 0, 0]);
    let many: Vec<Entry> = (0..132).map(|_| entry(APF_ENABLE, 0, &[])).collect();
    let full = entry(ENQUEUE, 18432, &[0; 18432]);
    let mut other_total = written(after_p9());
    other_total.push(0);
    let mut other_flag = list(0, &[]);
    other_flag[19] = 2;
    let inputs = [
        ("p9", written(after_p9())),
        ("empty", written(Controller::fresh(false))),
        ("empty_capable", written(Controller::fresh(true))),
        ("kinds", written(kinds())),
        ("longest", written(fullest())),
        ("most_requests", list(0, &many[1..])),
        ("refused_7_count", list(0, &many)),
        ("refused_14_no_input", Vec::new()),
        ("refused_14_header", list(0, &[])[..19].to_vec()),
        ("refused_14_payload", list(0, &[entry(ENQUEUE, 72, &[0; 71])])),
        ("refused_16", list(0, &[full, entry(ENQUEUE, 72, &[0; 72])])),
        ("refused_22_total", other_total),
        ("refused_22_flag", other_flag),
        ("refused_22_group", list(1, &[entry(AIRQ_INJECT, 5, &[])])),
        ("refused_22_request", list(0, &[register, again])),
        ("refused_95", list(0, &[entry(AISM_ALL, 0, &[0, 0])])),
        ("bytes_65536", padded(65536)),
        ("bytes_65537", padded(65537)),
        ("bytes_200000", padded(200_000)),
    ];
    for (name, bytes) in inputs {
        std::fs::write(format!("{folder}/{name}"), bytes).expect("the folder takes files");
    }
}
