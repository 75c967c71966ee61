//! What lists of calls reach: situations that the rules speak of, and faults of a call.

use super::steps::Call;
use crate::tally::{Goal, Tally};
use model::xive::{Ask, Source, Sources, Targeting};

/// What can be wrong with a call, in the order of the checks.
#[derive(Clone, Copy, Debug, PartialEq, Eq, PartialOrd, Ord)]
pub enum Fault {
    Lent,
    Number,
    NotInitialised,
    Server,
}

const SITUATIONS: [&str; 31] = [
    "make of used sources",
    "initialise, MSI",
    "initialise, LSI with level 0",
    "initialise, LSI with level 1",
    "initialise, MSI with the level bit",
    "initialise, unused bits set",
    "initialise again, LSI as MSI after targeting",
    "initialise again, MSI as LSI after targeting",
    "initialise again, the same after targeting",
    "initialise of source 1,023",
    "initialise of source 1,024",
    "number above 2^32 whose low half is an initialised source",
    "payload of 7 bytes",
    "payload of more than 8 bytes",
    "target, the word 0",
    "target, the mask bit",
    "target, server 15",
    "target, the highest effective number",
    "target again, with another word",
    "target refused, not initialised",
    "target refused, server",
    "target refused, server 16",
    "target refused, server 2^28",
    "target refused, the highest server",
    "target refused, low bits of the server are a targeting that holds",
    "target refused, after an accepted one",
    "sync of a targeted source",
    "reading, masked",
    "reading, targeted with the word 0",
    "reading, targeted with the mask bit",
    "reading, not initialised, on zeros that were not made",
];

/// All that there is to reach.
pub fn goal() -> Goal<Fault> {
    use Fault::*;
    let codes: [(&str, &[u32]); 5] = [
        ("make", &[0]),
        ("initialise", &[0, 14, 7]),
        ("target", &[0, 14, 2, 22]),
        ("sync", &[0, 2, 22]),
        ("reading", &[0, 2, 22]),
    ];
    let of = |(call, codes): &(&str, &[u32])| {
        codes.iter().map(|&code| (call.to_string(), code)).collect::<Vec<_>>()
    };
    // A number that is too large is no source; a short payload has no whole server.
    let faults = [
        ("initialise", Lent, Number),
        ("target", Lent, Number),
        ("target", Lent, NotInitialised),
        ("target", Number, Server),
        ("target", NotInitialised, Server),
    ];
    Goal {
        pairs: codes.iter().flat_map(of).collect(),
        situations: &SITUATIONS,
        faults: faults.map(|(call, one, two)| (call.to_string(), one, two)).to_vec(),
        beside: "readings after them",
    }
}

/// Notes one call; `zeros` says that its sources began as zeros and were not made since.
pub fn note(tally: &mut Tally<Fault>, zeros: bool, before: &Sources, call: &Call, code: u32) {
    let mut seen = |situation, holds| tally.situation(situation, holds);
    let word = call.payload.first_chunk().map(|bytes| u64::from_be_bytes(*bytes));
    let (name, number) = match call.ask {
        Ask::Make => {
            seen("make of used sources", before.0.iter().any(Option::is_some));
            return tally.call("make", code, &[]);
        }
        Ask::Initialise { number } => ("initialise", number),
        Ask::Target { number } => ("target", number),
        Ask::Sync { number } => ("sync", number),
        Ask::Read { number } => ("reading", number),
    };
    let source = before.get(number);
    let lends = matches!(call.ask, Ask::Initialise { .. } | Ask::Target { .. });
    let low = before.get(number & 0xffff_ffff).is_some();
    seen("number above 2^32 whose low half is an initialised source", number >> 32 != 0 && low);
    seen("payload of 7 bytes", lends && call.payload.len() == 7);
    seen("payload of more than 8 bytes", code == 0 && call.payload.len() > 8);
    match call.ask {
        Ask::Initialise { .. } => initialising(&mut seen, number, source, word, code),
        Ask::Target { .. } => targeting(&mut seen, number, source, word, code),
        Ask::Sync { .. } => seen("sync of a targeted source", targeted(source).is_some()),
        _ => reading(&mut seen, zeros, source, code),
    }
    tally.call(name, code, &faults(source, call, number, word));
}

fn targeted(source: Option<&Source>) -> Option<Targeting> {
    source.and_then(|source| source.targeting)
}

fn initialising(
    seen: &mut impl FnMut(&'static str, bool),
    number: u64,
    source: Option<&Source>,
    word: Option<u64>,
    code: u32,
) {
    seen("initialise of source 1,024", number == 1_024 && code == 7);
    let (Some(word), 0) = (word, code) else { return };
    let (lsi, level) = (word & 1 == 1, word & 2 == 2);
    seen("initialise, MSI", !lsi && !level);
    seen("initialise, LSI with level 0", lsi && !level);
    seen("initialise, LSI with level 1", lsi && level);
    seen("initialise, MSI with the level bit", !lsi && level);
    seen("initialise, unused bits set", word > 3);
    seen("initialise of source 1,023", number == 1_023);
    let Some(Source { lsi: was, targeting: Some(_), .. }) = source else { return };
    seen("initialise again, LSI as MSI after targeting", *was && !lsi);
    seen("initialise again, MSI as LSI after targeting", !*was && lsi);
    seen("initialise again, the same after targeting", *was == lsi);
}

fn targeting(
    seen: &mut impl FnMut(&'static str, bool),
    number: u64,
    source: Option<&Source>,
    word: Option<u64>,
    code: u32,
) {
    let Some(word) = word else { return };
    let server = word >> 3 & 0x1fff_ffff;
    let earlier = targeted(source);
    if code == 0 {
        seen("target, the word 0", word == 0);
        seen("target, the mask bit", word >> 32 & 1 == 1);
        seen("target, server 15", server == 15);
        seen("target, the highest effective number", word >> 33 == 0x7fff_ffff);
        seen("target again, with another word", earlier.is_some_and(|it| it.word() != word));
        return;
    }
    seen("target refused, not initialised", number < 1_024 && source.is_none() && server < 16);
    if source.is_none() || server < 16 {
        return;
    }
    seen("target refused, server", true);
    seen("target refused, server 16", server == 16);
    seen("target refused, server 2^28", server == 1 << 28);
    seen("target refused, the highest server", server == (1 << 29) - 1);
    let low = earlier.is_some_and(|it| u64::from(it.server) == server % 16);
    seen("target refused, low bits of the server are a targeting that holds", low);
    seen("target refused, after an accepted one", earlier.is_some());
}

fn reading(
    seen: &mut impl FnMut(&'static str, bool),
    zeros: bool,
    source: Option<&Source>,
    code: u32,
) {
    seen("reading, not initialised, on zeros that were not made", zeros && code == 22);
    seen("reading, masked", source.is_some_and(|source| source.targeting.is_none()));
    let Some(targeting) = targeted(source) else { return };
    seen("reading, targeted with the word 0", targeting.word() == 0);
    seen("reading, targeted with the mask bit", targeting.mask);
}

/// All faults of a call, each looked at as if there were no other.
fn faults(source: Option<&Source>, call: &Call, number: u64, word: Option<u64>) -> Vec<Fault> {
    let initialises = matches!(call.ask, Ask::Initialise { .. });
    let targets = matches!(call.ask, Ask::Target { .. });
    let mut faults = Vec::new();
    let mut add = |fault, holds| {
        if holds {
            faults.push(fault);
        }
    };
    add(Fault::Lent, (initialises || targets) && word.is_none());
    add(Fault::Number, number >= 1_024);
    add(Fault::NotInitialised, number < 1_024 && source.is_none() && !initialises);
    let server = word.is_some_and(|word| word >> 3 & 0x1fff_ffff > 15);
    add(Fault::Server, targets && server);
    faults
}
