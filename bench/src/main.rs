//! usage: bench [ROUNDS]            prints the figures
//!        bench check SEED CALLS    compares plain Rust with the model on random lists
//!        bench run WORK SECONDS [SUBJECT]
//!                                  one piece of work over and over, for a profile

use bench::subject::{Library, Model, Subject};
use bench::work::Work;
use bench::xive::subject::Subject as _;
use bench::{plain, work, xive};
use code::lists::list;
use code::steps::Step;
use model::xive::SOURCES;
use model::{Ask, Controller};
use std::hint::black_box;
use std::process::exit;
use std::time::{Duration, Instant};

/// A round takes the fastest of so many batches, each at least so long.
const BATCHES: usize = 5;
const BATCH: Duration = Duration::from_micros(150);

/// The bytes of the full machine's list.
const LIST: usize = 23_278;

fn main() {
    let args: Vec<String> = std::env::args().skip(1).collect();
    let number = |at: usize| args.get(at).and_then(|word| word.parse::<usize>().ok());
    match args.first().map(String::as_str) {
        Some("check") => {
            let (seed, calls) = (number(1).unwrap_or(1) as u64, number(2).unwrap_or(100_000));
            check(seed, calls);
            check_xive(seed, calls);
        }
        Some("run") => run(number(1).unwrap_or(1), number(2).unwrap_or(3), args.get(3)),
        _ => figures(number(0).unwrap_or(301)),
    }
}

/// All work for a controller and for sources, in the order of the goals.
fn all<S: Subject + 'static, X: xive::subject::Subject + 'static>() -> Vec<Work> {
    let mut works = work::all::<S>();
    works.extend(xive::work::all::<X>());
    works
}

fn proved() -> Vec<Work> {
    all::<Library, xive::subject::Library>()
}

fn plain() -> Vec<Work> {
    all::<plain::Controller, Box<xive::plain::Sources>>()
}

fn model() -> Vec<Work> {
    all::<Model, xive::subject::Model>()
}

fn time(work: &mut Work, times: usize) -> Duration {
    let start = Instant::now();
    (work.run)(times);
    start.elapsed()
}

/// Median, least and most.
fn spread(mut values: Vec<f64>) -> [f64; 3] {
    values.sort_by(f64::total_cmp);
    [values[values.len() / 2], values[0], values[values.len() - 1]]
}

fn figures(rounds: usize) {
    let subjects = [Library::NAME, plain::Controller::NAME, Model::NAME];
    let mut works = [proved(), plain(), model()];
    println!("# nanoseconds of one piece of work, median, least and most of {rounds} rounds;");
    println!("# ratio of the proved code to plain Rust, and to the tests' model, in each round");
    println!(
        "# work; goal; {}; {}; {}; ratio to plain; ratio to model",
        subjects[0], subjects[1], subjects[2]
    );
    let goals = [work::goals(), xive::work::goals()].concat();
    let mut times = vec![1; goals.len()];
    for (at, times) in times.iter_mut().enumerate() {
        while works.iter_mut().any(|works| time(&mut works[at], *times) < BATCH) {
            *times *= 2;
        }
    }
    // Each round goes over all work, so that a busy spell of the machine is spread over it.
    let mut nanoseconds = vec![[const { Vec::new() }; 3]; goals.len()];
    for round in 0..rounds {
        for (at, &times) in times.iter().enumerate() {
            let mut best = [Duration::MAX; 3];
            for turn in 0..3 * BATCHES {
                let who = (turn + round) % 3;
                best[who] = best[who].min(time(&mut works[who][at], times));
            }
            for who in 0..3 {
                nanoseconds[at][who].push(best[who].as_nanos() as f64 / times as f64);
            }
        }
    }
    for ((name, goal), nanoseconds) in goals.into_iter().zip(nanoseconds) {
        let ratios = |to: usize| {
            nanoseconds[0]
                .iter()
                .zip(&nanoseconds[to])
                .map(|(proved, other)| proved / other)
                .collect()
        };
        let ratio = [spread(ratios(1)), spread(ratios(2))];
        let show = |values: [f64; 3], digits: usize| {
            values.map(|value| format!("{value:.digits$}")).join(" ")
        };
        let goal = goal.map_or("-".into(), |goal| format!("{goal:.1}"));
        let nanoseconds = nanoseconds.map(|values| show(spread(values), 1)).join("; ");
        println!("{name}; {goal}; {nanoseconds}; {}; {}", show(ratio[0], 2), show(ratio[1], 2));
    }
    println!("# nanoseconds of a copy of the full machine's list, median, least and most");
    let copy = spread(copies(rounds)).map(|value| format!("{value:.1}")).join(" ");
    println!("copy; {LIST} bytes; {copy}");
    println!("# bytes of stack below the return address");
    for (name, bytes) in bench::stack::all() {
        println!("stack; {name}; {bytes}");
    }
}

/// What a copy of a list's bytes takes, in each round.
fn copies(rounds: usize) -> Vec<f64> {
    const TIMES: u32 = 1000;
    let (from, mut to) = (vec![1; LIST], vec![0; LIST]);
    let mut batch = || {
        let start = Instant::now();
        for _ in 0..TIMES {
            let (from, to): (&Vec<u8>, &mut Vec<u8>) = (black_box(&from), black_box(&mut to));
            to.copy_from_slice(from);
        }
        start.elapsed()
    };
    let mut fastest = || (0..BATCHES).map(|_| batch()).min().unwrap();
    (0..rounds).map(|_| fastest().as_nanos() as f64 / f64::from(TIMES)).collect()
}

/// One piece of work, from 1, for so many seconds.
fn run(which: usize, seconds: usize, subject: Option<&String>) {
    let mut works = match subject.map(String::as_str) {
        Some("plain") => plain(),
        Some("model") => model(),
        _ => proved(),
    };
    let work = &mut works[which - 1];
    let (start, mut times) = (Instant::now(), 0);
    while start.elapsed() < Duration::from_secs(seconds as u64) {
        (work.run)(1000);
        times += 1000;
    }
    println!("{}: {:.1} ns", work.name, start.elapsed().as_nanos() as f64 / times as f64);
}

fn check(seed: u64, wanted: usize) {
    let (mut calls, mut lists) = (0, 0);
    while calls < wanted {
        let list = list(seed, lists);
        lists += 1;
        let mut model = Controller::fresh(list.capable);
        let mut plain = plain::Controller::new(list.capable);
        for (at, step) in list.steps.iter().enumerate() {
            let Step::Call(call) = step else { continue };
            calls += 1;
            let (mut expected, mut buffer) = (call.buffer.clone(), call.buffer.clone());
            let right = model.call(&call.ask, &mut expected, call.table);
            let answer = match call.ask {
                Ask::Set { group, attr } => plain.set(call.table, group, attr, &buffer),
                Ask::Get { group, attr } => plain.get(call.table, group, attr, &mut buffer),
                Ask::Take { subclasses, external, machine_check } => {
                    plain.take(subclasses, external, machine_check, &mut buffer)
                }
                Ask::WriteList => plain.write_list(call.table, &mut buffer),
                Ask::PlayList => plain.play_list(call.table, &buffer),
            };
            if (answer, &buffer) != (right, &expected) {
                println!(
                    "bench: seed {seed}, list {lists}, step {}: plain Rust and the model differ",
                    at + 1
                );
                exit(1);
            }
        }
    }
    println!(
        "bench: seed {seed}: plain Rust and the model equal on {calls} calls in {lists} lists"
    );
}

/// The same for the sources: answers of all calls, and all readings after each list.
fn check_xive(seed: u64, wanted: usize) {
    let (mut calls, mut lists) = (0, 0);
    while calls < wanted {
        let list = code::xive::lists::list(seed, lists);
        lists += 1;
        let mut plain = Box::<xive::plain::Sources>::fresh();
        let mut model = xive::subject::Model::fresh();
        calls += list.calls.len();
        let readings =
            (0..SOURCES as u64).map(|number| (model::xive::Ask::Read { number }, &[][..]));
        let asked = list.calls.iter().map(|call| (call.ask, &call.payload[..]));
        for (at, (ask, payload)) in asked.chain(readings).enumerate() {
            if plain.call(ask, payload) != model.call(ask, payload) {
                println!(
                    "bench: seed {seed}, XIVE list {lists}, step {}: plain Rust and the model differ",
                    at + 1
                );
                exit(1);
            }
        }
    }
    println!(
        "bench: seed {seed}: plain Rust and the model equal on {calls} XIVE calls in {lists} lists"
    );
}
