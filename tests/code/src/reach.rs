//! What lists of calls reach: situations that the rules speak of, and faults of a call.

use crate::tally::{Goal, Tally};
use model::calls::{name, reachable, Call};
use model::*;

/// What can be wrong with a call, in the order of the checks.
#[derive(Clone, Copy, Debug, PartialEq, Eq, PartialOrd, Ord)]
pub enum Fault {
    Table,
    Group,
    Attribute,
    Capability,
    Claimed,
    Lent,
    Total,
    Flag,
    Count,
    Offsets,
    Entry,
    LastEnd,
    ListCapability,
    Contents,
    Room,
}

pub const SITUATIONS: [&str; 45] = [
    "enqueue fills the queues to 256",
    "enqueue of 258 records",
    "enqueue, one over 256",
    "enqueue of only service or machine check, queues full",
    "enqueue, refused at the last record of several",
    "enqueue, service dropped",
    "enqueue, machine check merged",
    "enqueue, two of a kind in one request",
    "enqueue after room was freed",
    "inject, masked",
    "inject, masked, queues full",
    "inject, suppressed",
    "inject, suppressed, queues full",
    "inject, nimm set by another adapter",
    "inject, not suppressible under a nimm bit",
    "inject, simm sets nimm",
    "inject, queues full under simm",
    "inject, attribute above 2^32 of a registered id",
    "clear io, first of its queue",
    "clear io, not the first of its queue",
    "clear io, match in an earlier subclass",
    "clear io, none",
    "clear io, none among 200",
    "clear io, word 0 with such a record",
    "clear io, match only beside I/O",
    "clear all, with both singles",
    "take machine check",
    "take service",
    "take page fault done",
    "take I/O of subclass 0",
    "take I/O of subclass 7",
    "take, nothing allowed",
    "take, other table",
    "get all, exact",
    "get all of 258",
    "get all, claimed above 2^32",
    "write, exact",
    "write, one short",
    "write, longest",
    "play, refused at place 0",
    "play, refused later",
    "play of 131",
    "play, list of another flag",
    "play, lengths that wrap",
    "table of 0, 63 and 65",
];

/// All that there is to reach.
pub fn goal() -> Goal<Fault> {
    Goal { pairs: reachable(), situations: &SITUATIONS, faults: possible(), beside: "moves" }
}

/// Notes one call.
pub fn note(
    tally: &mut Tally<Fault>,
    before: &Controller,
    call: &Call,
    answer: (u32, u64),
    after: &Controller,
) {
    let (code, _) = answer;
    tally.call(&name(&call.ask), code, &faults(before, call));
    let mut seen = |situation, holds| tally.situation(situation, holds);
    situations(&mut seen, before, call, answer, after);
}

/// The pairs of faults that one call can have.
fn possible() -> Vec<(String, Fault, Fault)> {
    use Fault::*;
    let names: std::collections::BTreeSet<String> =
        reachable().into_iter().map(|(name, _)| name).collect();
    let mut pairs = Vec::new();
    for name in names {
        let faults: &[Fault] = match name.as_str() {
            "take" => &[],
            "write" => &[Table, Room],
            "play" => {
                pairs.push((name.clone(), Table, Lent));
                &[Table, Total, Flag, Count, Offsets, Entry, LastEnd, ListCapability]
            }
            "get 1" => &[Table, Claimed, Lent, Room],
            "set 11" | "get 11" => &[Table, Attribute, Capability, Lent],
            "set 2" => &[Table, Claimed, Lent, Contents, Room],
            "set 3" | "set 4" | "set 5" => &[Table, Attribute],
            "set 6" | "set 7" => &[Table, Attribute, Lent, Contents],
            "set 8" => &[Table, Claimed, Lent, Contents],
            "set 9" => &[Table, Attribute, Capability, Lent, Contents],
            "set 10" => &[Table, Contents, Room],
            "set 1" | "set other" => &[Table, Group, Attribute],
            _ => &[Table, Group],
        };
        for (at, &one) in faults.iter().enumerate() {
            for &two in &faults[at + 1..] {
                let apart = match (name.as_str(), one, two) {
                    // A claim of 0 is never longer than what is lent; a word 0 wants four bytes.
                    ("get 1", Claimed, Lent) | ("set 8", Lent, Contents) => true,
                    ("play", Flag, ListCapability) | ("play", Count, LastEnd) => true,
                    _ => false,
                };
                if !apart {
                    pairs.push((name.clone(), one, two));
                }
            }
        }
    }
    pairs
}

fn full(c: &Controller) -> bool {
    c.queued() == ROOM
}

fn situations(
    seen: &mut impl FnMut(&'static str, bool),
    before: &Controller,
    call: &Call,
    (code, count): (u32, u64),
    after: &Controller,
) {
    let Call { ask, buffer, table } = call;
    let take = matches!(ask, Ask::Take { .. });
    if *table != PLACES && !take {
        seen("table of 0, 63 and 65", [0, 63, 65].contains(table));
        return;
    }
    match *ask {
        Ask::Set { group: ENQUEUE, attr } => {
            let claimed = attr.min(buffer.len() as u64) as usize;
            let records = buffer[..claimed].as_chunks::<RECORD>().0;
            let kinds: Vec<Option<Kind>> = records.iter().map(kind).collect();
            let of = |kind: Kind| kinds.iter().filter(|&&k| k == Some(kind)).count();
            let (services, checks) = (of(Kind::Service), of(Kind::MachineCheck));
            let queued = kinds.len() - services - checks;
            seen("enqueue fills the queues to 256", code == 0 && full(after) && queued > 0);
            seen("enqueue of 258 records", code == 0 && count == 258);
            seen("enqueue, one over 256", code == EBUSY && before.queued() + queued == ROOM + 1);
            let only = code == 0 && full(before) && queued == 0;
            seen("enqueue of only service or machine check, queues full", only);
            let last = kinds.iter().position(Option::is_none) == Some(kinds.len().wrapping_sub(1));
            seen(
                "enqueue, refused at the last record of several",
                code == EINVAL && last && kinds.len() > 1,
            );
            seen("enqueue, service dropped", code == 0 && services > 0 && before.service.is_some());
            let merged =
                before.machine_check.is_some() && after.machine_check != before.machine_check;
            seen("enqueue, machine check merged", code == 0 && merged);
            seen("enqueue, two of a kind in one request", code == 0 && services.max(checks) > 1);
            let freed = full(after) && queued > 0 && queued < 8;
            seen("enqueue after room was freed", code == 0 && freed);
        }
        Ask::Set { group: AIRQ_INJECT, attr } => {
            let low = before.adapters[attr as usize % PLACES];
            seen(
                "inject, attribute above 2^32 of a registered id",
                attr >> 32 != 0 && low.is_some(),
            );
            let Some(adapter) = before.adapters.get(attr as usize).copied().flatten() else {
                return;
            };
            let bit = mask_bit(adapter.isc);
            let under = before.capable && before.nimm & bit != 0;
            let suppressed = under && adapter.suppressible && !adapter.masked;
            seen("inject, masked", adapter.masked);
            seen("inject, masked, queues full", adapter.masked && full(before));
            seen("inject, suppressed", suppressed);
            seen("inject, suppressed, queues full", suppressed && full(before));
            let alike = before
                .adapters
                .iter()
                .flatten()
                .filter(|other| other.isc == adapter.isc && other.suppressible);
            seen("inject, nimm set by another adapter", suppressed && alike.count() > 1);
            seen(
                "inject, not suppressible under a nimm bit",
                under && !adapter.suppressible && count == 1,
            );
            seen("inject, simm sets nimm", after.nimm != before.nimm);
            let single = before.capable && adapter.suppressible && before.simm & bit != 0;
            seen("inject, queues full under simm", code == EBUSY && single);
        }
        Ask::Set { group: CLEAR_IO_IRQ, attr } if attr >= 4 && buffer.len() >= 4 => {
            let is = |record: &Record| record[8..12] == buffer[..4];
            if buffer[..4] == [0; 4] {
                let such = before.io.iter().flatten().any(is);
                seen("clear io, word 0 with such a record", such);
                return;
            }
            let queues: Vec<usize> =
                before.io.iter().filter_map(|queue| queue.iter().position(is)).collect();
            seen("clear io, first of its queue", queues.first() == Some(&0));
            seen("clear io, not the first of its queue", queues.first().is_some_and(|&at| at > 0));
            seen("clear io, match in an earlier subclass", queues.len() > 1);
            seen("clear io, none", queues.is_empty() && before.pending() > 0);
            seen("clear io, none among 200", queues.is_empty() && before.queued() > 200);
            let singles = before.service.iter().chain(&before.machine_check);
            let beside = before.done.iter().chain(singles).any(is);
            seen("clear io, match only beside I/O", queues.is_empty() && beside);
        }
        Ask::Set { group: CLEAR_IRQS, .. } => {
            let both = before.service.is_some() && before.machine_check.is_some();
            seen("clear all, with both singles", code == 0 && both);
        }
        Ask::Take { .. } => {
            seen("take, other table", *table != PLACES && code == 0);
            seen(
                "take machine check",
                before.machine_check.is_some() && after.machine_check.is_none(),
            );
            seen("take service", before.service.is_some() && after.service.is_none());
            seen("take page fault done", after.done.len() < before.done.len());
            seen("take I/O of subclass 0", after.io[0].len() < before.io[0].len());
            seen("take I/O of subclass 7", after.io[7].len() < before.io[7].len());
            seen("take, nothing allowed", code == 0 && count == 0 && before.pending() > 0);
        }
        Ask::Get { group: GET_ALL_IRQS, attr } => {
            let exact = attr == buffer.len() as u64 && attr == 72 * count && count > 0;
            seen("get all, exact", code == 0 && exact);
            seen("get all of 258", code == 0 && count == 258);
            seen("get all, claimed above 2^32", attr >> 32 != 0);
        }
        Ask::WriteList => {
            seen("write, exact", code == 0 && count == buffer.len() as u64);
            let mut list = vec![0; 23_278];
            let (_, length) = before.clone().call(&Ask::WriteList, &mut list, PLACES);
            seen("write, one short", buffer.len() as u64 + 1 == length);
            seen("write, longest", length == 23_278);
        }
        Ask::PlayList => {
            let fresh = *after == Controller::fresh(before.capable);
            let formed = form_faults(before, buffer).is_empty();
            seen("play, refused at place 0", formed && code != 0 && count == 0 && fresh);
            seen("play, refused later", formed && code != 0 && count > 0 && fresh);
            seen("play of 131", code == 0 && count == 131);
            seen("play, list of another flag", code == EOPNOTSUPP && !formed);
            seen("play, lengths that wrap", wraps(buffer));
        }
        _ => {}
    }
}

fn word(list: &[u8], at: usize) -> Option<u64> {
    list.get(at..at + 4).map(number)
}

/// Whether the list would be without gap to its end if sums wrapped at 2^32, and is not.
fn wraps(list: &[u8]) -> bool {
    let Some(count @ 0..=131) = word(list, 4) else { return false };
    let (mut sum, mut place) = (20 + 24 * count, (20 + 24 * count) as u32);
    for entry in 0..count as usize {
        let at = HEADER + ENTRY * entry;
        let (Some(start), Some(length)) = (word(list, at), word(list, at + 8)) else {
            return false;
        };
        if start as u32 != place {
            return false;
        }
        sum += length;
        place = place.wrapping_add(length as u32);
    }
    place as usize == list.len() && sum != list.len() as u64
}

/// The faults of a list's form that can be told.
fn form_faults(before: &Controller, list: &[u8]) -> Vec<Fault> {
    if list.len() < HEADER {
        return vec![Fault::Lent];
    }
    let field = |at| word(list, at).unwrap();
    let [total, count, table, payloads, flag] = [0, 4, 8, 12, 16].map(field);
    let mut faults = Vec::new();
    let mut add = |fault, holds| {
        if holds {
            faults.push(fault);
        }
    };
    add(Fault::Total, total != list.len() as u64);
    add(Fault::Flag, flag > 1);
    add(Fault::Count, count > 131);
    add(Fault::Offsets, table != 20 || payloads != 20 + 24 * count || payloads > list.len() as u64);
    let mut place = 20 + 24 * count;
    let mut entries = false;
    for entry in 0..count.min(131) as usize {
        let at = HEADER + ENTRY * entry;
        let Some(zero) = word(list, at + 12) else { break };
        let group = field(at + 4) as u32;
        let played = [ENQUEUE, APF_ENABLE, ADAPTER_REGISTER, ADAPTER_MODIFY, AISM_ALL];
        entries |= field(at) != place || zero != 0 || !played.contains(&group);
        place += field(at + 8);
    }
    add(Fault::Entry, entries);
    add(Fault::LastEnd, count <= 131 && place != list.len() as u64);
    add(Fault::ListCapability, flag <= 1 && (flag == 1) != before.capable);
    faults
}

/// All faults of a call, each looked at as if there were no other.
pub fn faults(before: &Controller, call: &Call) -> Vec<Fault> {
    let Call { ask, buffer, table } = call;
    let mut faults = Vec::new();
    let lent = buffer.len() as u64;
    let mut add = |fault, holds| {
        if holds {
            faults.push(fault);
        }
    };
    add(Fault::Table, *table != PLACES && !matches!(ask, Ask::Take { .. }));
    match *ask {
        Ask::Take { .. } => add(Fault::Lent, lent < 72),
        Ask::WriteList => {
            let (code, _) = before.clone().call(ask, &mut buffer.clone(), PLACES);
            add(Fault::Room, code == ENOMEM);
        }
        Ask::PlayList => faults.extend(form_faults(before, buffer)),
        Ask::Get { group, attr } => match group {
            GET_ALL_IRQS => {
                add(Fault::Claimed, attr == 0);
                add(Fault::Lent, lent < attr);
                add(Fault::Room, attr < 72 * before.pending() as u64);
            }
            AISM_ALL => {
                add(Fault::Attribute, attr != 0);
                add(Fault::Capability, !before.capable);
                add(Fault::Lent, lent < 2);
            }
            _ => add(Fault::Group, true),
        },
        Ask::Set { group, attr } => {
            let place = buffer.first_chunk().map(|id| u32::from_be_bytes(*id) as usize);
            let adapter = |id: usize| before.adapters.get(id).copied().flatten();
            let byte = |at: usize| buffer.get(at).copied();
            match group {
                ENQUEUE => {
                    let form = attr == 0 || attr > LONGEST_ENQUEUE || attr % 72 != 0;
                    add(Fault::Claimed, form);
                    add(Fault::Lent, lent < attr);
                    let records = buffer[..lent.min(attr) as usize].as_chunks::<RECORD>().0;
                    add(Fault::Contents, records.iter().any(|record| kind(record).is_none()));
                    let wanted = records
                        .iter()
                        .filter(|record| matches!(kind(record), Some(Kind::Io(_) | Kind::Done)));
                    add(Fault::Room, before.queued() + wanted.count() > ROOM);
                }
                CLEAR_IRQS | APF_ENABLE | APF_DISABLE_WAIT => add(Fault::Attribute, attr != 0),
                ADAPTER_REGISTER => {
                    add(Fault::Attribute, attr != 0);
                    add(Fault::Lent, lent < 8);
                    let id = place.is_some_and(|id| id >= PLACES || adapter(id).is_some());
                    add(Fault::Contents, id || byte(4).is_some_and(|isc| isc > 7));
                }
                ADAPTER_MODIFY => {
                    add(Fault::Attribute, attr != 0);
                    add(Fault::Lent, lent < 16);
                    let id = place.is_some_and(|id| adapter(id).is_none());
                    add(
                        Fault::Contents,
                        id || byte(4).is_some_and(|kind| !(1..=3).contains(&kind)),
                    );
                }
                CLEAR_IO_IRQ => {
                    add(Fault::Claimed, attr < 4);
                    add(Fault::Lent, lent < 4);
                    add(Fault::Contents, buffer.first_chunk() == Some(&[0; 4]));
                }
                AISM => {
                    add(Fault::Attribute, attr != 0);
                    add(Fault::Capability, !before.capable);
                    add(Fault::Lent, lent < 4);
                    let mode = buffer.get(2..4).is_some_and(|mode| number(mode) > 1);
                    add(Fault::Contents, mode || byte(0).is_some_and(|isc| isc > 7));
                }
                AIRQ_INJECT => {
                    add(Fault::Contents, attr >= 64 || adapter(attr as usize).is_none());
                    add(Fault::Room, full(before));
                }
                AISM_ALL => {
                    add(Fault::Attribute, attr != 0);
                    add(Fault::Capability, !before.capable);
                    add(Fault::Lent, lent < 2);
                }
                _ => {
                    add(Fault::Group, true);
                    add(Fault::Attribute, attr != 0);
                }
            }
        }
    }
    faults
}
