//! Lists of steps, made on the library and on the model alike.

use crate::area::STEP;
use crate::compare::Comparison;
use crate::machine::Machine;
use crate::reach::{goal, note, Fault};
use crate::shrink::{shrink, Difference};
use crate::tally::Tally;
use crate::{hex, lists, Complaint, Device, Place};
use model::calls::Call;
use model::{Ask, Controller, ENQUEUE, PLACES, RECORD};
use std::fmt::Write;
use std::sync::atomic::Ordering;

/// Bytes of the longest move list.
const LONGEST_LIST: usize = 23_278;

#[derive(Clone, Debug)]
pub enum Step {
    Call(Call),
    /// The first controller's list is played on the second, which goes on in
    /// step with the first; so many bytes more are lent for the list.
    Move {
        onto: Onto,
        more: usize,
    },
    /// The second is left as it is.
    Part,
}

/// What the second controller is before a move.
#[derive(Clone, Copy, Debug, PartialEq, Eq)]
pub enum Onto {
    Fresh,
    AsItIs,
}

/// Steps on a fresh controller.
#[derive(Clone, Debug)]
pub struct List {
    pub capable: bool,
    /// Of the bytes in the memory that is made a controller.
    pub seed: u64,
    pub steps: Vec<Step>,
}

/// A controller of the library and the model's, in step.
struct Side<'a> {
    machine: &'a mut Machine,
    model: Controller,
}

/// Controllers to play lists on.
#[derive(Default)]
pub struct Pair {
    first: Machine,
    second: Machine,
}

impl Side<'_> {
    fn make(&mut self, capable: bool, seed: u64) -> Result<(), Complaint> {
        self.model = Controller::fresh(capable);
        self.machine.make(capable, seed)?;
        self.compare_state()
    }

    /// Makes a call on both and compares all that a caller sees.
    fn call(&mut self, call: &Call) -> Result<((u32, u64), Vec<u8>), Complaint> {
        let mut expected = call.buffer.clone();
        let mut buffer = call.buffer.clone();
        let right = self.model.call(&call.ask, &mut expected, call.table);
        let answer = self.machine.call(&call.ask, &mut buffer, call.table)?;
        if answer != right {
            return Err(format!("answer {answer:?}, model {right:?}"));
        }
        if let Some(at) = (0..buffer.len()).find(|&at| buffer[at] != expected[at]) {
            let (is, right) = (buffer[at], expected[at]);
            return Err(format!("byte {at} of the buffer is {is:#04x}, model {right:#04x}"));
        }
        Ok((right, expected))
    }

    /// Compares the device record, the table and the move list.
    fn compare_state(&mut self) -> Result<(), Complaint> {
        let device = Device {
            simm: self.model.simm,
            nimm: self.model.nimm,
            apf: u8::from(self.model.page_faults),
        };
        let is = self.machine.device();
        if is != device {
            return Err(format!("{is:?}, model {device:?}"));
        }
        for (id, (place, adapter)) in self.machine.places().zip(&self.model.adapters).enumerate() {
            let right = match *adapter {
                None => Place { used: 0, isc: 0, maskable: 0, swap: 0, suppressible: 0, masked: 0 },
                Some(adapter) => Place {
                    used: 1,
                    isc: adapter.isc,
                    maskable: u8::from(adapter.maskable),
                    swap: u8::from(adapter.swap),
                    suppressible: u8::from(adapter.suppressible),
                    masked: u8::from(adapter.masked),
                },
            };
            if place != right {
                return Err(format!("adapter {id}: {place:?}, model {right:?}"));
            }
        }
        let mut list = vec![0x5a; LONGEST_LIST];
        let (code, length) = self.model.call(&Ask::WriteList, &mut list, PLACES);
        if code != 0 {
            return Err(format!("the model refuses to write its list: {code}"));
        }
        list.truncate(length as usize);
        let mut written = vec![0xc3; length as usize];
        let answer = self.machine.call(&Ask::WriteList, &mut written, PLACES)?;
        if answer != (0, length) {
            return Err(format!("the list after it: answer {answer:?}, model {:?}", (0, length)));
        }
        if let Some(at) = (0..list.len()).find(|&at| list[at] != written[at]) {
            let (is, right) = (written[at], list[at]);
            return Err(format!("byte {at} of the list after it is {is:#04x}, model {right:#04x}"));
        }
        Ok(())
    }
}

impl Comparison for Pair {
    const NAME: &'static str = "calls";
    type List = List;
    type Fault = Fault;

    fn tally() -> Tally<Fault> {
        Tally::new(goal())
    }

    fn list(seed: u64, number: usize) -> List {
        lists::list(seed, number)
    }

    fn text(list: &List) -> String {
        text(list)
    }

    fn play(
        &mut self,
        list: &List,
        mut tally: Option<&mut Tally<Fault>>,
    ) -> Result<(), Difference> {
        let model = Controller::fresh(list.capable);
        let mut first = Side { machine: &mut self.first, model: model.clone() };
        let mut second = Side { machine: &mut self.second, model };
        let mut in_step = false;
        let mut made = false;
        first.make(list.capable, list.seed).map_err(|what| Difference { at: 0, what })?;
        for (at, step) in list.steps.iter().enumerate() {
            STEP.store(at + 1, Ordering::Relaxed);
            let different = |what| Difference { at, what };
            match step {
                Step::Part => in_step = false,
                Step::Call(call) => {
                    let before = tally.is_some().then(|| first.model.clone());
                    let (answer, _) = first.call(call).map_err(different)?;
                    first.compare_state().map_err(different)?;
                    if let (Some(tally), Some(before)) = (&mut tally, before) {
                        note(tally, &before, call, answer, &first.model);
                    }
                    if in_step {
                        let (other, _) = second.call(call).map_err(in_second).map_err(different)?;
                        second.compare_state().map_err(in_second).map_err(different)?;
                        if other != answer || second.model != first.model {
                            return Err(different("the model's two states part".into()));
                        }
                    }
                }
                Step::Move { onto, more } => {
                    if *onto == Onto::Fresh || !made {
                        second
                            .make(list.capable, list.seed ^ at as u64)
                            .map_err(in_second)
                            .map_err(different)?;
                        made = true;
                    }
                    moved(&mut first, &mut second, *more).map_err(different)?;
                    in_step = true;
                    if let Some(tally) = &mut tally {
                        tally.beside += 1;
                    }
                }
            }
        }
        Ok(())
    }

    fn shrink(&mut self, list: &List, difference: Difference) -> (List, Difference) {
        let of = |steps: &[Step]| List { steps: steps.to_vec(), ..*list };
        let play = |steps: &[Step]| self.play(&of(steps), None);
        let (steps, difference) = shrink(&list.steps, difference, play, simpler_step);
        (of(&steps), difference)
    }
}

/// Simpler steps, the simplest first.
fn simpler_step(step: &Step) -> Vec<Step> {
    let calls = if let Step::Call(call) = step { simpler(call) } else { vec![] };
    calls.into_iter().map(Step::Call).collect()
}

/// Simpler calls, the simplest first.
fn simpler(call: &Call) -> Vec<Call> {
    let mut calls = Vec::new();
    let mut add = |ask: Ask, buffer: Vec<u8>, table: usize| {
        let next = Call { ask, buffer, table };
        if next != *call {
            calls.push(next);
        }
    };
    let Call { ask, ref buffer, table } = *call;
    let length = buffer.len();
    add(ask, buffer.clone(), PLACES);
    add(ask, vec![], table);
    add(ask, vec![0; length], table);
    let Ask::Set { group: ENQUEUE, attr } = ask else { return calls };
    let records = (attr as usize).min(length) / RECORD;
    let mut run = records;
    while run > 0 {
        // Without a run of records, and with only the types and words of one.
        for at in (0..records).step_by(run) {
            let bytes = at * RECORD..(at + run).min(records) * RECORD;
            let mut fewer = buffer.clone();
            fewer.drain(bytes.clone());
            let attr = attr - bytes.len() as u64;
            add(Ask::Set { group: ENQUEUE, attr }, fewer, table);
            let mut plain = buffer.clone();
            for record in plain[bytes].chunks_exact_mut(RECORD) {
                record[8..16].fill(0);
                record[20..].fill(0);
            }
            add(ask, plain, table);
        }
        run /= 2;
    }
    calls
}

/// The first's list is written, and played on the second.
fn moved(first: &mut Side, second: &mut Side, more: usize) -> Result<(), Complaint> {
    let mut whole = vec![0; LONGEST_LIST];
    let (_, length) = first.model.clone().call(&Ask::WriteList, &mut whole, PLACES);
    let room = length as usize + more;
    let write = Call { ask: Ask::WriteList, buffer: vec![0x77; room], table: PLACES };
    let ((code, length), mut list) = first.call(&write)?;
    if code != 0 {
        return Err(format!("the list is not written: {code}"));
    }
    list.truncate(length as usize);
    let play = Call { ask: Ask::PlayList, buffer: list, table: PLACES };
    let ((code, _), _) = second.call(&play).map_err(in_second)?;
    if code != 0 || second.model != first.model {
        return Err(format!("the model's state does not move: {code}"));
    }
    first.compare_state()?;
    second.compare_state().map_err(in_second)
}

fn in_second(what: Complaint) -> Complaint {
    format!("second controller: {what}")
}

/// A list as text.
fn text(list: &List) -> String {
    let mut out = String::new();
    writeln!(out, "controller {} AIS", if list.capable { "with" } else { "without" }).unwrap();
    for (at, step) in list.steps.iter().enumerate() {
        write!(out, "{:4}  ", at + 1).unwrap();
        match step {
            Step::Part => writeln!(out, "the second controller is left"),
            Step::Move { onto, more } => {
                writeln!(out, "move to the second controller, {onto:?}, {more} bytes more lent")
            }
            Step::Call(Call { ask, buffer, table }) => {
                let lent =
                    if *table == PLACES { String::new() } else { format!(", table {table}") };
                writeln!(out, "{ask:?}{lent}, {} bytes: {}", buffer.len(), hex(buffer))
            }
        }
        .unwrap();
    }
    out
}
