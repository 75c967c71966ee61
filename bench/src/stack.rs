//! The stack that a call takes: the call runs on a stack of its own that was
//! painted before, and the bytes it changed are counted. What a function that
//! does nothing takes on the same way is left out.

use crate::subject::{Library, Subject};
use crate::xive;
use crate::xive::subject::Subject as _;
use code::xive::{xive_initialise, xive_make, xive_read, xive_sync, xive_target, Reading};
use code::{flic_get, flic_make, flic_play_list, flic_set, flic_take, flic_write_list, Answer};
use model::{ADAPTER_MODIFY, ADAPTER_REGISTER, AIRQ_INJECT, CLEAR_IO_IRQ, ENQUEUE, GET_ALL_IRQS};
use std::arch::asm;

const BYTES: usize = 1 << 18;
const PAINT: u8 = 0xa7;

#[repr(align(64))]
struct Stack([u8; BYTES]);

/// Any of the calls: their arguments are all passed like whole registers.
type Function =
    unsafe extern "C" fn(usize, usize, usize, usize, usize, usize, usize, usize) -> Answer;

/// One call, ready to be made.
struct Job {
    call: Function,
    arguments: [usize; 8],
    answer: Answer,
}

#[inline(never)]
extern "C" fn run(job: *mut Job) {
    // Sound: the job's arguments suit its function.
    unsafe {
        let [a, b, c, d, e, f, g, h] = (*job).arguments;
        (*job).answer = ((*job).call)(a, b, c, d, e, f, g, h);
    }
}

#[inline(never)]
unsafe extern "C" fn nothing(
    _: usize,
    _: usize,
    _: usize,
    _: usize,
    _: usize,
    _: usize,
    _: usize,
    _: usize,
) -> Answer {
    Answer { code: 0, count: 0 }
}

/// Runs a job on the painted stack; how much of it was written.
fn depth(stack: &mut Stack, job: &mut Job) -> usize {
    stack.0.fill(PAINT);
    let end = BYTES - 64;
    // Sound: within the stack.
    let top = unsafe { stack.0.as_mut_ptr().add(end) };
    // Sound: the stack is long enough and aligned, and the old one comes back.
    unsafe {
        asm!(
            "mov r12, rsp",
            "mov rsp, {top}",
            "call {run}",
            "mov rsp, r12",
            top = in(reg) top,
            run = in(reg) run as extern "C" fn(*mut Job),
            in("rdi") job,
            out("r12") _,
            clobber_abi("C"),
        );
    }
    end - stack.0.iter().take_while(|&&byte| byte == PAINT).count()
}

fn used(call: *const (), arguments: [usize; 8]) -> (usize, Answer) {
    // Sound: a function of the library, whose arguments are passed this way.
    let call = unsafe { std::mem::transmute::<*const (), Function>(call) };
    let answer = Answer { code: 0, count: 0 };
    let mut stack: Box<Stack> = Box::new(Stack([0; BYTES]));
    let frame = depth(&mut stack, &mut Job { call: nothing, arguments, answer });
    let mut job = Job { call, arguments, answer };
    (depth(&mut stack, &mut job) - frame, job.answer)
}

/// The bytes of stack that each call takes beyond its return address.
pub fn all() -> Vec<(&'static str, usize)> {
    [controller(), sources()].concat()
}

fn controller() -> Vec<(&'static str, usize)> {
    let mut it = Library::fresh(true);
    let c = &raw mut *it.c as usize;
    let d = &raw mut it.d as usize;
    let t = it.t.as_mut_ptr() as usize;
    let mut buffer = vec![0u8; 23_278];
    let b = buffer.as_mut_ptr() as usize;
    let mut rows = Vec::new();
    let mut add = |name: &'static str, call: *const (), arguments, count: u64| {
        let (bytes, answer) = used(call, arguments);
        assert_eq!((answer.code, answer.count), (0, count), "{name}");
        rows.push((name, bytes));
    };
    let set = flic_set as *const ();
    let lent = |bytes: &[u8]| {
        // Sound: the buffer is longer than any payload here.
        unsafe { std::ptr::copy_nonoverlapping(bytes.as_ptr(), b as *mut u8, bytes.len()) }
    };
    let request =
        |group: u32, attr: usize, length: usize| [c, d, t, 64, group as usize, attr, b, length];
    add("flic_make", flic_make as *const (), [c, d, t, 64, 1, 0, 0, 0], 0);
    lent(&[0, 0, 0, 5, 3, 1, 0, 1]);
    add("flic_set, REGISTER", set, request(ADAPTER_REGISTER, 0, 8), 0);
    lent(&[0, 0, 0, 5, 1, 0, 0, 0, 0, 0, 0, 0, 0, 0, 0, 0]);
    add("flic_set, MODIFY", set, request(ADAPTER_MODIFY, 0, 16), 0);
    add("flic_set, INJECT", set, request(AIRQ_INJECT, 5, 0), 1);
    lent(&[0; 18_360]);
    add("flic_set, ENQUEUE of 255", set, request(ENQUEUE, 18_360, 18_360), 255);
    lent(&[1, 0, 0, 0]);
    add("flic_set, CLEAR_IO", set, request(CLEAR_IO_IRQ, 4, 4), 0);
    let all = [c, d, t, 64, GET_ALL_IRQS as usize, 18_432, b, 18_432];
    add("flic_get, GET_ALL of 256", flic_get as *const (), all, 256);
    add("flic_take", flic_take as *const (), [c, 255, 1, 1, b, 72, 0, 0], 1);
    let list = 20 + 24 * 2 + 8 + 72 * 255;
    add("flic_write_list", flic_write_list as *const (), [c, d, t, 64, b, 23_278, 0, 0], list);
    let arguments = [c, d, t, 64, b, list as usize, 0, 0];
    add("flic_play_list", flic_play_list as *const (), arguments, 2);
    rows
}

fn sources() -> Vec<(&'static str, usize)> {
    let mut it = xive::subject::Library::fresh();
    let s = &raw mut *it.0 as usize;
    let mut reading = Reading::default();
    let (setting, targeting) = (3u64.to_be_bytes(), 5u64.to_be_bytes());
    let lent = |word: &[u8; 8]| [s, 7, word.as_ptr() as usize, 8, 0, 0, 0, 0];
    // A reading is returned in memory, whose address comes first.
    let out = &raw mut reading as usize;
    let rows = [
        ("xive_make", used(xive_make as *const (), [s, 0, 0, 0, 0, 0, 0, 0])),
        ("xive_initialise", used(xive_initialise as *const (), lent(&setting))),
        ("xive_target", used(xive_target as *const (), lent(&targeting))),
        ("xive_sync", used(xive_sync as *const (), [s, 7, 0, 0, 0, 0, 0, 0])),
        ("xive_read", used(xive_read as *const (), [out, s, 7, 0, 0, 0, 0, 0])),
    ];
    for (name, (_, answer)) in &rows[1..4] {
        assert_eq!((answer.code, answer.count), (0, 0), "{name}");
    }
    assert_eq!(reading, Reading { level: 1, kind: 1, word: 5, ..Reading::default() });
    rows.map(|(name, (bytes, _))| (name, bytes)).to_vec()
}
