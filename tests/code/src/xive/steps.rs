//! Lists of calls, made on the library and on the model alike.

use super::lists;
use super::machine::{Machine, Start};
use super::reach::{goal, note, Fault};
use crate::area::STEP;
use crate::compare::Comparison;
use crate::shrink::{shrink, Difference};
use crate::tally::Tally;
use crate::{check, hex, Complaint};
use model::xive::{Ask, Seen, Source, Sources, Targeting, SERVERS, SOURCES};
use std::fmt::Write;
use std::sync::atomic::Ordering;

/// One call, as the caller makes it.
#[derive(Clone, Debug, PartialEq, Eq)]
pub struct Call {
    pub ask: Ask,
    pub payload: Vec<u8>,
}

#[derive(Clone, Debug)]
pub struct List {
    pub start: Start,
    pub calls: Vec<Call>,
}

/// Sources of the library, to play lists on.
#[derive(Default)]
pub struct Side {
    machine: Machine,
}

impl Side {
    /// Readies the library's sources; the model's, which are the same.
    fn start(&mut self, start: Start) -> Result<Sources, Complaint> {
        self.machine.start(start)?;
        let model = match start {
            Start::Made(_) | Start::Zeros => Sources::fresh(),
            Start::Any(_) => self.as_read()?,
        };
        self.compare(&model)?;
        Ok(model)
    }

    /// The sources that the library's readings tell of, each one that calls can leave.
    fn as_read(&mut self) -> Result<Sources, Complaint> {
        let mut sources = Sources::fresh();
        self.machine.readings(0..SOURCES as u64, |number, Seen { code, reading, .. }| {
            let bits = reading.kind <= 1 && reading.level <= reading.kind;
            let server = Targeting::of(reading.word).server < SERVERS;
            check(bits && server, "a reading that no calls bring about")?;
            let source = Source {
                lsi: reading.kind == 1,
                level: reading.level == 1,
                targeting: (!reading.masked).then(|| Targeting::of(reading.word)),
            };
            sources.0[number as usize] = (code == 0).then_some(source);
            Ok(())
        })?;
        Ok(sources)
    }

    /// Makes a call on both and compares all that a caller sees.
    fn call(&mut self, model: &mut Sources, call: &Call) -> Result<u32, Complaint> {
        let right = model.call(&call.ask, &call.payload);
        let seen = self.machine.call(&call.ask, &call.payload)?;
        same(seen, right)?;
        self.compare(model)?;
        Ok(right.code)
    }

    /// Compares the readings of all sources.
    fn compare(&mut self, model: &Sources) -> Result<(), Complaint> {
        self.machine.readings(0..SOURCES as u64, |number, seen| {
            same(seen, model.read(number))
                .map_err(|what| format!("source {number} after it: {what}"))
        })
    }
}

/// What the library's caller sees is what the model's sees.
fn same(seen: Seen, right: Seen) -> Result<(), Complaint> {
    let (answer, answers) = ((seen.code, seen.count), (right.code, right.count));
    if answer != answers {
        return Err(format!("answer {answer:?}, model {answers:?}"));
    }
    let (is, right) = (seen.reading, right.reading);
    if is != right {
        return Err(format!("{is:x?}, model {right:x?}"));
    }
    Ok(())
}

impl Comparison for Side {
    const NAME: &'static str = "xive_calls";
    type List = List;
    type Fault = Fault;

    fn tally() -> Tally<Fault> {
        Tally::new(goal())
    }

    fn list(seed: u64, number: usize) -> List {
        lists::list(seed, number)
    }

    fn text(list: &List) -> String {
        text(list)
    }

    fn play(
        &mut self,
        list: &List,
        mut tally: Option<&mut Tally<Fault>>,
    ) -> Result<(), Difference> {
        STEP.store(0, Ordering::Relaxed);
        let mut model = self.start(list.start).map_err(|what| Difference { at: 0, what })?;
        let mut zeros = list.start == Start::Zeros;
        if let (Some(tally), Start::Made(_)) = (&mut tally, list.start) {
            tally.call("make", 0, &[]);
        }
        for (at, call) in list.calls.iter().enumerate() {
            STEP.store(at + 1, Ordering::Relaxed);
            let before = model.clone();
            let code = self.call(&mut model, call).map_err(|what| Difference { at, what })?;
            if let Some(tally) = &mut tally {
                note(tally, zeros, &before, call, code);
                tally.beside += SOURCES;
            }
            zeros &= call.ask != Ask::Make;
        }
        Ok(())
    }

    fn shrink(&mut self, list: &List, difference: Difference) -> (List, Difference) {
        let start = list.start;
        let of = |calls: &[Call]| List { start, calls: calls.to_vec() };
        let play = |calls: &[Call]| self.play(&of(calls), None);
        let (calls, difference) = shrink(&list.calls, difference, play, simpler);
        (of(&calls), difference)
    }
}

/// Simpler calls, the simplest first.
fn simpler(call: &Call) -> Vec<Call> {
    let Call { ask, payload } = call;
    let mut payloads = vec![vec![], vec![0; payload.len()]];
    payloads.push(payload.iter().take(8).copied().collect());
    for at in 0..payload.len() {
        let mut fewer = payload.clone();
        fewer[at] = 0;
        payloads.push(fewer);
    }
    let others = payloads.into_iter().filter(|other| other != payload);
    others.map(|payload| Call { ask: *ask, payload }).collect()
}

/// A list as text.
fn text(list: &List) -> String {
    let mut out = String::new();
    let start = match list.start {
        Start::Made(_) => "any bytes, made fresh",
        Start::Zeros => "zeros",
        Start::Any(_) => "any bytes",
    };
    writeln!(out, "sources of {start}").unwrap();
    for (at, Call { ask, payload }) in list.calls.iter().enumerate() {
        let lent = match ask {
            Ask::Initialise { .. } | Ask::Target { .. } => {
                format!(", {} bytes: {}", payload.len(), hex(payload))
            }
            _ => String::new(),
        };
        writeln!(out, "{:4}  {ask:?}{lent}", at + 1).unwrap();
    }
    out
}
