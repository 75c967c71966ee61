//! The paper's worked examples.

use model::{Ask, Controller, PLACES, RECORD};

fn set(c: &mut Controller, group: u32, attr: u64, payload: &[u8]) -> (u32, u64) {
    let mut lent = payload.to_vec();
    let answer = c.call(&Ask::Set { group, attr }, &mut lent, PLACES);
    assert_eq!(lent, payload, "a set leaves the payload");
    answer
}

fn get(c: &mut Controller, group: u32, attr: u64, lent: usize) -> ((u32, u64), Vec<u8>) {
    let mut buffer = vec![0xee; lent];
    (c.call(&Ask::Get { group, attr }, &mut buffer, PLACES), buffer)
}

fn record(kind: u64) -> Vec<u8> {
    let mut record = vec![0; RECORD];
    record[..8].copy_from_slice(&kind.to_be_bytes());
    record
}

/// Adapter 5 of subclass 3, maskable, no swap, suppressible; SINGLE; one inject.
fn after_p9() -> Controller {
    let mut c = Controller::fresh(true);
    assert_eq!(set(&mut c, 6, 0, &[0, 0, 0, 5, 3, 1, 0, 1]), (0, 0));
    assert_eq!(set(&mut c, 9, 0, &[3, 0, 0, 1]), (0, 0));
    assert_eq!(set(&mut c, 10, 5, &[]), (0, 1));
    c
}

#[test]
fn p1_enqueue_of_nothing() {
    assert_eq!(set(&mut Controller::fresh(false), 2, 0, &[]), (22, 0));
}

#[test]
fn p2_enqueue_length() {
    let mut c = Controller::fresh(false);
    assert_eq!(set(&mut c, 2, 71, &[0; 72]), (22, 0));
    assert_eq!(set(&mut c, 2, 72, &[0; 72]), (0, 1));
}

#[test]
fn p3_lent_shorter_than_claimed() {
    assert_eq!(set(&mut Controller::fresh(false), 2, 72, &[0; 71]), (14, 0));
}

#[test]
fn p4_full_queues() {
    let mut c = Controller::fresh(false);
    assert_eq!(set(&mut c, 2, 256 * 72, &[0; 256 * 72]), (0, 256));
    assert_eq!(set(&mut c, 2, 72, &[0; 72]), (16, 0));
    assert_eq!(set(&mut c, 2, 72, &record(0xffff2401)), (0, 1));
    assert_eq!(c.pending(), 257);
}

#[test]
fn p5_listing_length() {
    let mut c = Controller::fresh(false);
    assert_eq!(get(&mut c, 1, 1, 1), ((0, 0), vec![0xee]));
    set(&mut c, 2, 72, &[0; 72]);
    assert_eq!(get(&mut c, 1, 71, 72), ((12, 0), vec![0xee; 72]));
}

#[test]
fn p6_register_ids() {
    let mut c = Controller::fresh(false);
    assert_eq!(set(&mut c, 6, 0, &[0, 0, 0, 63, 0, 0, 0, 0]), (0, 0));
    assert_eq!(set(&mut c, 6, 0, &[0, 0, 0, 64, 0, 0, 0, 0]), (22, 0));
}

#[test]
fn p7_aism_subclasses() {
    let mut c = Controller::fresh(true);
    assert_eq!(set(&mut c, 9, 0, &[7, 0, 0, 1]), (0, 0));
    assert_eq!(set(&mut c, 9, 0, &[8, 0, 0, 1]), (22, 0));
    assert_eq!(get(&mut c, 11, 0, 3), ((0, 0), vec![0x01, 0, 0xee]));
}

#[test]
fn p8_clear_io_of_word_zero() {
    let mut c = after_p9();
    assert_eq!(set(&mut c, 8, 4, &[0; 4]), (22, 0));
    assert_eq!(c.pending(), 1);
}

#[test]
fn p9_single_mode() {
    let mut c = after_p9();
    let (answer, listing) = get(&mut c, 1, 72, 73);
    assert_eq!(answer, (0, 1));
    let mut expected = record(0x04000000);
    expected[16..20].copy_from_slice(&0x98000000u32.to_be_bytes());
    expected.push(0xee);
    assert_eq!(listing, expected);
    assert_eq!(get(&mut c, 11, 0, 2).1, [0x10, 0x10]);
    assert_eq!(set(&mut c, 10, 5, &[]), (0, 0));
    assert_eq!(c.pending(), 1);
}

#[test]
fn p10_capability_before_contents() {
    assert_eq!(set(&mut Controller::fresh(false), 9, 0, &[9, 0, 0, 0]), (95, 0));
}

#[test]
fn p11_all_or_none() {
    let mut c = Controller::fresh(false);
    let two = [record(0), record(0xffff2603)].concat();
    assert_eq!(set(&mut c, 2, 144, &two), (22, 0));
    assert_eq!(c.pending(), 0);
}

#[test]
fn p12_empty_list() {
    let mut c = after_p9();
    let mut list: Vec<u8> = [20u32, 0, 20, 20, 1].iter().flat_map(|n| n.to_be_bytes()).collect();
    assert_eq!(c.call(&Ask::PlayList, &mut list, PLACES), (0, 0));
    assert_eq!(c, Controller::fresh(true));
}

#[test]
fn move_list_after_p9() {
    let mut c = after_p9();
    let mut buffer = vec![0xee; 180];
    assert_eq!(c.call(&Ask::WriteList, &mut buffer[..173], PLACES), (12, 0));
    assert_eq!(buffer, [0xee; 180]);
    assert_eq!(c.call(&Ask::WriteList, &mut buffer, PLACES), (0, 174));
    assert_eq!(buffer[174..], [0xee; 6]);
    let word = |at: usize| u32::from_be_bytes(buffer[at..at + 4].try_into().unwrap());
    assert_eq!([0, 4, 8, 12, 16].map(word), [174, 3, 20, 92, 1]);
    assert_eq!([20, 44, 68].map(word), [92, 100, 172]);
    assert_eq!([24, 48, 72].map(word), [6, 2, 11]);
    assert_eq!([28, 52, 76].map(word), [8, 72, 2]);
    assert_eq!([40, 64, 88].map(word), [0, 72, 0]);
    let mut other = Controller::fresh(true);
    assert_eq!(other.call(&Ask::PlayList, &mut buffer[..174], PLACES), (0, 3));
    assert_eq!(other, c);
}

#[test]
fn longest_move_list() {
    let mut c = Controller::fresh(true);
    for id in 0..64 {
        assert_eq!(set(&mut c, 6, 0, &[0, 0, 0, id, id % 8, 1, id / 32, 1]), (0, 0));
        assert_eq!(set(&mut c, 7, 0, &[0, 0, 0, id, 1, 1, 0, 0, 0, 0, 0, 0, 0, 0, 0, 0]), (0, 0));
    }
    let all = [record(0).repeat(256), record(0xffff2401), record(0xfffe1000)].concat();
    assert_eq!(set(&mut c, 2, 18_576, &all), (0, 258));
    assert_eq!(set(&mut c, 11, 0, &[0, 1]), (0, 0));
    assert_eq!(set(&mut c, 4, 0, &[]), (0, 0));
    let mut buffer = vec![0; 23_278];
    assert_eq!(c.call(&Ask::WriteList, &mut buffer[..23_277], PLACES), (12, 0));
    assert_eq!(c.call(&Ask::WriteList, &mut buffer, PLACES), (0, 23_278));
    let mut other = Controller::fresh(true);
    assert_eq!(other.call(&Ask::PlayList, &mut buffer, PLACES), (0, 131));
    assert_eq!(other, c);
}
