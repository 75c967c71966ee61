//! Plays random lists of calls on a library and on its model, and compares all
//! that a caller sees of them after each call: what `calls` and `xive_calls` do.

use crate::area::{report_faults, Area, LIST};
use crate::shrink::Difference;
use crate::tally::Tally;
use std::fmt::Debug;
use std::process::exit;
use std::sync::atomic::Ordering;

/// So many calls reach all there is to reach.
const ENOUGH: usize = 100_000;

/// A library and its model, to play lists on.
pub trait Comparison: Default {
    /// The program's name.
    const NAME: &'static str;
    type List;
    /// What can be wrong with a call.
    type Fault: Copy + Debug + Ord;

    /// Nothing reached yet.
    fn tally() -> Tally<Self::Fault>;
    /// The list of a number, from 0.
    fn list(seed: u64, number: usize) -> Self::List;
    fn text(list: &Self::List) -> String;
    /// Plays a list on both; what is reached is noted.
    fn play(
        &mut self,
        list: &Self::List,
        tally: Option<&mut Tally<Self::Fault>>,
    ) -> Result<(), Difference>;
    /// A shorter list with a difference.
    fn shrink(&mut self, list: &Self::List, difference: Difference) -> (Self::List, Difference);
}

/// The whole program.
///
/// usage: NAME SEED CALLS [LIST | all | first | touch]
///   LIST   only the list of this number, from 1: prints it, then plays it
///   all    prints how often each thing was reached
///   first  prints the first difference without looking for the shortest list
///   touch  reads a byte that was not lent, to see that it is noticed
/// status 1: a difference; 2: not all was reached; 3: memory touched that was not lent
pub fn run<C: Comparison>() {
    let args: Vec<String> = std::env::args().skip(1).collect();
    let number = |at: usize| args.get(at).and_then(|word| word.parse::<u64>().ok());
    let (Some(seed), Some(wanted)) = (number(0), number(1)) else {
        eprintln!("usage: {} SEED CALLS [LIST | all | first | touch]", C::NAME);
        exit(2);
    };
    let mode = args.get(2).map_or("", String::as_str);
    report_faults(C::NAME);
    if mode == "touch" {
        // Not sound: the page after the area may not be read.
        println!("{}", unsafe { Area::new(8).lend(8, true).add(8).read_volatile() });
    }
    match number(2) {
        Some(only) => one::<C>(seed, only as usize),
        None => many::<C>(seed, wanted as usize, mode),
    }
}

/// The list of this number alone, from 1.
fn one<C: Comparison>(seed: u64, only: usize) {
    let list = C::list(seed, only - 1);
    print!("{}", C::text(&list));
    LIST.store(only, Ordering::Relaxed);
    let mut both = C::default();
    if let Err(difference) = both.play(&list, None) {
        fail(seed, only, both, &list, difference);
    }
    println!("no difference");
}

fn many<C: Comparison>(seed: u64, wanted: usize, mode: &str) {
    let mut both = C::default();
    let mut tally = C::tally();
    let mut lists = 0;
    while tally.calls < wanted {
        let list = C::list(seed, lists);
        lists += 1;
        LIST.store(lists, Ordering::Relaxed);
        if let Err(difference) = both.play(&list, Some(&mut tally)) {
            if mode == "first" {
                let Difference { at, what } = difference;
                println!("{}: seed {seed}, list {lists}, step {}: {what}", C::NAME, at + 1);
                exit(1);
            }
            fail(seed, lists, both, &list, difference);
        }
    }
    if mode == "all" {
        print!("{}", tally.text());
    }
    println!("{}: seed {seed}: equal on {lists} lists, {}", C::NAME, tally.summary());
    let (missing, beyond) = (tally.missing(), tally.beyond());
    if tally.calls >= ENOUGH && !missing.is_empty() {
        println!("{}: not reached: {}", C::NAME, missing.join("; "));
        exit(2);
    }
    if !beyond.is_empty() {
        println!("{}: reached and not expected: {}", C::NAME, beyond.join("; "));
        exit(2);
    }
}

/// Prints the shortest list with a difference that was found.
fn fail<C: Comparison>(
    seed: u64,
    number: usize,
    mut both: C,
    list: &C::List,
    difference: Difference,
) -> ! {
    let (list, Difference { at, what }) = both.shrink(list, difference);
    println!("{}: seed {seed}, list {number}: the library and the model differ", C::NAME);
    print!("{}", C::text(&list));
    println!("step {}: {what}", at + 1);
    exit(1)
}
