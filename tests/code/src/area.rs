//! Memory to lend: it lies between two pages that nobody may touch, and what
//! is lent ends at the second or begins after the first. A call that reads or
//! writes over that end stops the program; bytes at the other end are watched.

use std::sync::atomic::{AtomicUsize, Ordering};
use std::sync::OnceLock;

extern "C" {
    fn mmap(at: *mut u8, bytes: usize, prot: i32, flags: i32, file: i32, from: i64) -> *mut u8;
    fn munmap(at: *mut u8, bytes: usize) -> i32;
    fn mprotect(at: *mut u8, bytes: usize, prot: i32) -> i32;
    fn signal(number: i32, handler: usize) -> usize;
    fn write(file: i32, bytes: *const u8, length: usize) -> isize;
    fn _exit(status: i32) -> !;
}

const PAGE: usize = 4096;
const READ_WRITE: i32 = 3;
const PRIVATE_ANONYMOUS: i32 = 0x22;
/// Watched bytes, and their value.
const WATCHED: usize = 128;
const VALUE: u8 = 0xa5;

pub struct Area {
    from: *mut u8,
    bytes: usize,
    lent: (usize, usize),
}

impl Area {
    /// An area that can lend so many bytes.
    pub fn new(bytes: usize) -> Area {
        let bytes = (bytes + WATCHED).next_multiple_of(PAGE);
        // Sound: a new mapping of its own, whose middle pages become usable.
        unsafe {
            let map = mmap(std::ptr::null_mut(), bytes + 2 * PAGE, 0, PRIVATE_ANONYMOUS, -1, 0);
            assert!(map as isize != -1, "no memory");
            let from = map.add(PAGE);
            assert!(mprotect(from, bytes, READ_WRITE) == 0, "no memory");
            Area { from, bytes, lent: (0, 0) }
        }
    }

    /// Lends so many bytes, at the end of the area or at its start.
    pub fn lend(&mut self, length: usize, at_end: bool) -> *mut u8 {
        assert!(length + WATCHED <= self.bytes, "an area too small for {length} bytes");
        let at = if at_end { self.bytes - length } else { 0 };
        self.lent = (at, length);
        self.watched().fill(VALUE);
        // Sound: within the area.
        unsafe { self.from.add(at) }
    }

    /// The bytes lent.
    pub fn bytes(&mut self) -> &mut [u8] {
        let (at, length) = self.lent;
        // Sound: within the area, which this borrows.
        unsafe { std::slice::from_raw_parts_mut(self.from.add(at), length) }
    }

    /// Whether the bytes beside those lent have kept their value.
    pub fn kept(&mut self) -> bool {
        self.watched().iter().all(|&byte| byte == VALUE)
    }

    fn watched(&mut self) -> &mut [u8] {
        let (at, length) = self.lent;
        let at = if at == 0 { length } else { at - WATCHED };
        // Sound: within the area, which this borrows.
        unsafe { std::slice::from_raw_parts_mut(self.from.add(at), WATCHED) }
    }
}

impl Drop for Area {
    fn drop(&mut self) {
        // Sound: the whole mapping, nothing of which is borrowed.
        unsafe { munmap(self.from.sub(PAGE), self.bytes + 2 * PAGE) };
    }
}

/// The list and the step that run, both from 1.
pub static LIST: AtomicUsize = AtomicUsize::new(0);
pub static STEP: AtomicUsize = AtomicUsize::new(0);

static PROGRAM: OnceLock<&str> = OnceLock::new();

/// From now on, memory touched outside an area is reported by this program.
pub fn report_faults(program: &'static str) {
    PROGRAM.get_or_init(|| program);
    // Sound: the handler only writes and ends the program.
    unsafe {
        for number in [7, 11] {
            signal(number, stopped as extern "C" fn(i32) as usize);
        }
    }
}

extern "C" fn stopped(_: i32) {
    let put = |bytes: &[u8]| {
        // Sound: plain writing of these bytes.
        unsafe { write(2, bytes.as_ptr(), bytes.len()) };
    };
    let put_number = |number: &AtomicUsize| {
        let (mut digits, mut at) = ([b'0'; 20], 20);
        let mut rest = number.load(Ordering::Relaxed);
        while rest != 0 || at == 20 {
            at -= 1;
            digits[at] = b'0' + (rest % 10) as u8;
            rest /= 10;
        }
        put(&digits[at..]);
    };
    put(PROGRAM.get().unwrap_or(&"").as_bytes());
    put(b": memory that was not lent was touched: list ");
    put_number(&LIST);
    put(b", step ");
    put_number(&STEP);
    put(b"\n");
    // Sound: ends the program, as the handler must.
    unsafe { _exit(3) }
}
