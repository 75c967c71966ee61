//! Memory that is lent is watched on both sides.

use code::area::Area;
use std::process::Command;

#[test]
fn a_byte_written_beside() {
    for at_end in [true, false] {
        let mut area = Area::new(100);
        let lent = area.lend(100, at_end);
        area.bytes().fill(1);
        assert!(area.kept());
        // Sound: the side that is watched lies in the area.
        unsafe { *lent.offset(if at_end { -1 } else { 100 }) = 1 };
        assert!(!area.kept());
    }
}

#[test]
fn a_byte_read_beyond() {
    for program in [env!("CARGO_BIN_EXE_calls"), env!("CARGO_BIN_EXE_xive_calls")] {
        let touch = Command::new(program).args(["0", "0", "touch"]).output().unwrap();
        assert_eq!(touch.status.code(), Some(3));
        assert!(String::from_utf8(touch.stderr)
            .unwrap()
            .contains("memory that was not lent was touched"));
    }
}
