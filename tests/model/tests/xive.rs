//! The sources of POWER9's controller: words and answers written out.

use model::xive::{Ask, Reading, Seen, Sources, Targeting};

/// MSI and LSI at rest, MSI and LSI with the level bit.
const MSI: [u8; 8] = [0, 0, 0, 0, 0, 0, 0, 0];
const LSI: [u8; 8] = [0, 0, 0, 0, 0, 0, 0, 1];
const MSI_LEVEL: [u8; 8] = [0, 0, 0, 0, 0, 0, 0, 2];
const LSI_LEVEL: [u8; 8] = [0, 0, 0, 0, 0, 0, 0, 3];

/// Server 1, priority 6, effective number 0x1234.
const WORD: [u8; 8] = [0, 0, 0x24, 0x68, 0, 0, 0, 0x0e];

fn initialise(s: &mut Sources, number: u64, payload: &[u8]) -> u32 {
    code(s.call(&Ask::Initialise { number }, payload))
}

fn target(s: &mut Sources, number: u64, payload: &[u8]) -> u32 {
    code(s.call(&Ask::Target { number }, payload))
}

fn sync(s: &mut Sources, number: u64) -> u32 {
    code(s.call(&Ask::Sync { number }, &[]))
}

/// The code of a call that is no reading.
fn code(seen: Seen) -> u32 {
    assert_eq!((seen.count, seen.reading), (0, Reading::default()));
    seen.code
}

/// Code, level, type, masked and word of a reading.
fn read(s: &mut Sources, number: u64) -> (u32, u8, u8, bool, u64) {
    let Seen { code, count, reading } = s.call(&Ask::Read { number }, &[]);
    assert_eq!(count, 0);
    (code, reading.level, reading.kind, reading.masked, reading.word)
}

/// Source 5 as an MSI, targeted by WORD.
fn targeted() -> Sources {
    let mut s = Sources::fresh();
    assert_eq!(initialise(&mut s, 5, &MSI), 0);
    assert_eq!(target(&mut s, 5, &WORD), 0);
    s
}

#[test]
fn fields_of_a_targeting_word() {
    let cases = [
        (0, (0, false, 0, 0)),
        (0x0000_2468_0000_000e, (0x1234, false, 1, 6)),
        (0x0000_0000_0000_0007, (0, false, 0, 7)),
        (0x0000_0000_0000_0008, (0, false, 1, 0)),
        (0x0000_0000_0000_0080, (0, false, 16, 0)),
        (0x0000_0000_8000_0000, (0, false, 0x1000_0000, 0)),
        (0x0000_0000_ffff_fff8, (0, false, 0x1fff_ffff, 0)),
        (0x0000_0001_0000_0000, (0, true, 0, 0)),
        (0x0000_0002_0000_0000, (1, false, 0, 0)),
        (0xffff_fffe_0000_0000, (0x7fff_ffff, false, 0, 0)),
        (u64::MAX, (0x7fff_ffff, true, 0x1fff_ffff, 7)),
    ];
    for (word, (eisn, mask, server, priority)) in cases {
        assert_eq!(Targeting::of(word), Targeting { eisn, mask, server, priority });
        assert_eq!(Targeting::of(word).word(), word);
    }
}

#[test]
fn type_and_level() {
    let mut s = Sources::fresh();
    for (payload, level, kind) in [(MSI, 0, 0), (LSI, 0, 1), (MSI_LEVEL, 0, 0), (LSI_LEVEL, 1, 1)] {
        assert_eq!(initialise(&mut s, 7, &payload), 0);
        assert_eq!(read(&mut s, 7), (0, level, kind, true, 0));
        // The other 62 bits are ignored.
        let unused = payload.map(|byte| byte | 0xfc);
        let unused = [&[0xff; 7][..], &unused[7..]].concat();
        assert_eq!(initialise(&mut s, 7, &unused), 0);
        assert_eq!(read(&mut s, 7), (0, level, kind, true, 0));
    }
    // The type is in the last byte, not in the first.
    assert_eq!(initialise(&mut s, 7, &[3, 0, 0, 0, 0, 0, 0, 0]), 0);
    assert_eq!(read(&mut s, 7), (0, 0, 0, true, 0));
}

#[test]
fn masked_until_targeted() {
    let mut s = Sources::fresh();
    assert_eq!(read(&mut s, 5), (22, 0, 0, false, 0));
    assert_eq!(initialise(&mut s, 5, &LSI_LEVEL), 0);
    assert_eq!(read(&mut s, 5), (0, 1, 1, true, 0));
    assert_eq!(target(&mut s, 5, &WORD), 0);
    assert_eq!(read(&mut s, 5), (0, 1, 1, false, 0x0000_2468_0000_000e));
    assert_eq!(read(&mut s, 4), (22, 0, 0, false, 0));
    assert_eq!(read(&mut s, 6), (22, 0, 0, false, 0));
}

#[test]
fn word_zero_is_a_targeting() {
    let mut s = targeted();
    assert_eq!(target(&mut s, 5, &[0; 8]), 0);
    assert_eq!(read(&mut s, 5), (0, 0, 0, false, 0));
}

#[test]
fn the_mask_bit_does_not_mask() {
    let mut s = targeted();
    assert_eq!(target(&mut s, 5, &[0, 0, 0x24, 0x69, 0, 0, 0, 0x0e]), 0);
    assert_eq!(read(&mut s, 5), (0, 0, 0, false, 0x0000_2469_0000_000e));
}

#[test]
fn servers() {
    let mut s = targeted();
    assert_eq!(target(&mut s, 5, &[0, 0, 0, 0, 0, 0, 0, 0x7f]), 0, "server 15");
    let kept = (0, 0, 0, false, 0x7f);
    assert_eq!(read(&mut s, 5), kept);
    for refused in [
        [0, 0, 0, 0, 0, 0, 0, 0x80],       // server 16
        [0, 0, 0, 0, 0, 0, 0, 0x88],       // server 17
        [0, 0, 0, 0, 0x80, 0, 0, 0],       // server 2^28
        [0, 0, 0, 0, 0xff, 0xff, 0xff, 0], // server 2^29 - 32
    ] {
        assert_eq!(target(&mut s, 5, &refused), 22);
        assert_eq!(read(&mut s, 5), kept, "the earlier targeting stays");
    }
}

#[test]
fn initialising_again() {
    for (first, second, level, kind) in [(LSI_LEVEL, MSI, 0, 0), (MSI, LSI_LEVEL, 1, 1)] {
        let mut s = Sources::fresh();
        assert_eq!(initialise(&mut s, 5, &first), 0);
        assert_eq!(target(&mut s, 5, &WORD), 0);
        assert_eq!(initialise(&mut s, 5, &second), 0);
        assert_eq!(read(&mut s, 5), (0, level, kind, true, 0));
    }
}

#[test]
fn numbers() {
    let mut s = targeted();
    let before = s.clone();
    for number in [1_024, 1_025, (1 << 32) + 5, 1 << 63, u64::MAX] {
        assert_eq!(initialise(&mut s, number, &MSI), 7);
        assert_eq!(target(&mut s, number, &WORD), 2);
        assert_eq!(sync(&mut s, number), 2);
        assert_eq!(read(&mut s, number), (2, 0, 0, false, 0));
    }
    assert_eq!(s, before);
    assert_eq!(target(&mut s, 1_023, &WORD), 22);
    assert_eq!(sync(&mut s, 1_023), 22);
    assert_eq!(read(&mut s, 1_023), (22, 0, 0, false, 0));
    assert_eq!(initialise(&mut s, 1_023, &LSI), 0);
    assert_eq!(target(&mut s, 1_023, &WORD), 0);
    assert_eq!(read(&mut s, 1_023), (0, 0, 1, false, 0x0000_2468_0000_000e));
}

#[test]
fn lengths() {
    let mut s = Sources::fresh();
    for length in 0..8 {
        assert_eq!(initialise(&mut s, 5, &LSI[..length]), 14);
    }
    assert_eq!(s, Sources::fresh());
    assert_eq!(initialise(&mut s, 5, &[&LSI[..], &[0xff; 12]].concat()), 0);
    assert_eq!(read(&mut s, 5), (0, 0, 1, true, 0));
    for length in 0..8 {
        assert_eq!(target(&mut s, 5, &WORD[..length]), 14);
    }
    assert_eq!(target(&mut s, 5, &[&WORD[..], &[0xff]].concat()), 0);
    assert_eq!(read(&mut s, 5), (0, 0, 1, false, 0x0000_2468_0000_000e));
}

#[test]
fn order_of_refusals() {
    let mut s = Sources::fresh();
    let server_16 = [0, 0, 0, 0, 0, 0, 0, 0x80];
    assert_eq!(initialise(&mut s, 5_000, &MSI[..7]), 14);
    assert_eq!(target(&mut s, 5_000, &WORD[..7]), 14);
    assert_eq!(target(&mut s, 5_000, &server_16), 2);
    assert_eq!(target(&mut s, 5, &WORD[..7]), 14);
    assert_eq!(target(&mut s, 5, &server_16), 22);
    assert_eq!(s, Sources::fresh());
}

#[test]
fn sync_and_reading_change_nothing() {
    let mut s = targeted();
    let before = s.clone();
    assert_eq!(sync(&mut s, 5), 0);
    assert_eq!(sync(&mut s, 6), 22);
    assert_eq!(read(&mut s, 5).0, 0);
    assert_eq!(s, before);
}

#[test]
fn making() {
    let mut s = targeted();
    assert_eq!(code(s.call(&Ask::Make, &[])), 0);
    assert_eq!(s, Sources::fresh());
    assert!((0..1_024).all(|number| read(&mut s, number) == (22, 0, 0, false, 0)));
}
