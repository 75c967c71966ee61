//! Prints an antt file: for each generated list of calls, the claim that the
//! machine of the rules gives the model's answers, by computation.
//!
//! usage: rules_vectors SEED CALLS NAMES [LIST | false]
//!   NAMES  a file of lines `Module name`: what the claims unfold
//!   LIST   the number of a list: a claim for each beginning of it, to find the call that differs
//!   false  the first list only, with one expected number changed: a claim that does not hold

use model::calls::{reachable, scripts, Call, Script, Seen};
use model::Ask;
use std::collections::BTreeMap;
use std::fmt::Write;

const LIBRARY: &str = "Rattle.rules.specs";

fn main() {
    let args: Vec<String> = std::env::args().skip(1).collect();
    let (Some(seed), Some(wanted), Some(names)) = (args.first(), args.get(1), args.get(2)) else {
        eprintln!("usage: rules_vectors SEED CALLS NAMES [LIST | false]");
        std::process::exit(2);
    };
    let mode = args.get(3).map_or("", String::as_str);
    let names = std::fs::read_to_string(names).expect("the file of names");
    let names: Vec<(&str, &str)> = names.lines().filter_map(|line| line.split_once(' ')).collect();
    let (scripts, coverage) =
        scripts(seed.parse().expect("a seed"), wanted.parse().expect("a number of calls"));
    print!("{}", file(&scripts, &names, mode));
    let calls: usize = scripts.iter().map(|script| script.calls.len()).sum();
    let (pairs, missing) = (reachable().len(), coverage.missing());
    let reached = pairs - missing.len();
    eprint!(
        "{calls} calls in {} lists; {reached} of {pairs} pairs of call and code",
        scripts.len()
    );
    if !missing.is_empty() {
        let missing: Vec<String> =
            missing.iter().map(|(call, code)| format!("{call}: {code}")).collect();
        eprint!(" (without {})", missing.join(", "));
    }
    eprintln!();
}

fn file(scripts: &[Script], names: &[(&str, &str)], mode: &str) -> String {
    let mut out = String::from(
        "use Prim.Native.Nat.{ℕ}\n\
         use mathlib.Core.Path.{◌≡◌, refl}\n\
         use mathlib.Core.Bool.{Bool, true, false}\n\
         use mathlib.Core.List.{List, [], ◌∷◌, ◌++◌, flatten, zip_with}\n\
         use lib.ListN.{replicate}\n",
    );
    let mut modules: BTreeMap<&str, Vec<&str>> = BTreeMap::new();
    modules.insert("Outcome", vec!["Seen"]);
    modules.insert(
        "Machine",
        vec!["Ask", "set_attr", "get_attr", "guest_take", "write_list", "play_list", "Call"],
    );
    for (module, name) in names {
        modules.entry(module).or_default().push(name);
    }
    for (module, names) in &modules {
        writeln!(out, "use {LIBRARY}.{module}.{{{}}}", names.join(", ")).unwrap();
    }
    out.push_str(
        "\n\
         call : Ask → List ℕ → ℕ → Call\n\
         call ask buffer table = record { ask = ask; buffer = buffer; table_length = table }\n\
         \n\
         saw : ℕ → ℕ → List ℕ → Seen\n\
         saw code count buffer = record { code = code; count = count; further = 0; buffer = buffer }\n",
    );
    let mut unfolding = String::from("flatten zip_with call saw");
    for (_, name) in names {
        write!(unfolding, " {name}").unwrap();
    }
    if mode == "false" {
        let mut script = scripts[0].clone();
        let middle = script.calls.len() / 2;
        script.calls[middle].1.count += 1;
        claim(&mut out, "list1", &script, script.calls.len(), &unfolding);
        return out;
    }
    let only: Option<usize> = mode.parse().ok();
    for (script, number) in scripts.iter().zip(1..) {
        let length = script.calls.len();
        match only {
            None => claim(&mut out, &format!("list{number}"), script, length, &unfolding),
            Some(only) if only == number => {
                for length in 1..=length {
                    claim(
                        &mut out,
                        &format!("list{number}call{length}"),
                        script,
                        length,
                        &unfolding,
                    );
                }
            }
            Some(_) => {}
        }
    }
    out
}

/// The claim about the first `length` calls of a list.
fn claim(out: &mut String, name: &str, script: &Script, length: usize, unfolding: &str) {
    let calls: Vec<String> = script.calls[..length].iter().map(|(made, _)| call(made)).collect();
    let seen: Vec<String> = script.calls[..length].iter().map(|(_, seen)| saw(seen)).collect();
    write!(
        out,
        "\n{name} : answers paper_limits (fresh paper_limits {})\n    ({} ∷ [])\n  ≡ ({} ∷ [])\n\
         unfolding {unfolding}\n{name} = refl\n",
        script.capable,
        calls.join("\n    ∷ "),
        seen.join("\n    ∷ "),
    )
    .unwrap();
}

fn call(call: &Call) -> String {
    let ask = match call.ask {
        Ask::Set { group, attr } => format!("(set_attr {group} {attr})"),
        Ask::Get { group, attr } => format!("(get_attr {group} {attr})"),
        Ask::Take { subclasses, external, machine_check } => {
            format!("(guest_take {subclasses} {external} {machine_check})")
        }
        Ask::WriteList => "write_list".into(),
        Ask::PlayList => "play_list".into(),
    };
    format!("call {ask} ({}) {}", bytes(&call.buffer), call.table)
}

fn saw(seen: &Seen) -> String {
    format!("saw {} {} ({})", seen.code, seen.count, bytes(&seen.buffer))
}

/// A list of bytes, with runs and repeated records written short.
fn bytes(list: &[u8]) -> String {
    let mut out = String::new();
    let mut open = 0;
    let mut at = 0;
    while at < list.len() {
        let rest = &list[at..];
        let run = rest.iter().take_while(|&&byte| byte == rest[0]).count();
        let same =
            rest.iter().zip(rest.iter().skip(model::RECORD)).take_while(|(a, b)| a == b).count();
        let repeats = 1 + same / model::RECORD;
        if run < model::RECORD && repeats > 1 {
            let record = bytes(&rest[..model::RECORD]);
            write!(out, "flatten (replicate {repeats} ({record})) ++ (").unwrap();
            at += repeats * model::RECORD;
            open += 1;
        } else if run > 4 {
            write!(out, "replicate {run} {} ++ (", rest[0]).unwrap();
            at += run;
            open += 1;
        } else {
            write!(out, "{} ∷ ", rest[0]).unwrap();
            at += 1;
        }
    }
    out + "[]" + &")".repeat(open)
}
