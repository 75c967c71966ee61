//! How often lists of calls have reached what there is to reach: pairs of call
//! and code, situations that the rules speak of, and pairs of faults in one call.

use std::collections::BTreeMap;
use std::fmt::Debug;

/// All that there is to reach.
pub struct Goal<F> {
    pub pairs: Vec<(String, u32)>,
    pub situations: &'static [&'static str],
    pub faults: Vec<(String, F, F)>,
    /// What is counted beside the calls.
    pub beside: &'static str,
}

pub struct Tally<F> {
    goal: Goal<F>,
    pub calls: usize,
    pub beside: usize,
    pairs: BTreeMap<(String, u32), usize>,
    situations: BTreeMap<&'static str, usize>,
    faults: BTreeMap<(String, F, F), usize>,
}

impl<F: Copy + Debug + Ord> Tally<F> {
    pub fn new(goal: Goal<F>) -> Tally<F> {
        let (pairs, situations, faults) = Default::default();
        Tally { goal, calls: 0, beside: 0, pairs, situations, faults }
    }

    /// A call of this name, with its code and all its faults in the order of the checks.
    pub fn call(&mut self, name: &str, code: u32, faults: &[F]) {
        self.calls += 1;
        *self.pairs.entry((name.into(), code)).or_default() += 1;
        for (at, &one) in faults.iter().enumerate() {
            for &two in &faults[at + 1..] {
                *self.faults.entry((name.into(), one, two)).or_default() += 1;
            }
        }
    }

    pub fn situation(&mut self, situation: &'static str, holds: bool) {
        if holds {
            *self.situations.entry(situation).or_default() += 1;
        }
    }

    /// What was not reached.
    pub fn missing(&self) -> Vec<String> {
        let Goal { pairs, situations, faults, .. } = &self.goal;
        let pairs = pairs.iter().filter(|pair| !self.pairs.contains_key(pair));
        let situations = situations.iter().filter(|name| !self.situations.contains_key(*name));
        let faults = faults.iter().filter(|pair| !self.faults.contains_key(pair));
        pairs
            .map(|(call, code)| format!("{call}: {code}"))
            .chain(situations.map(|name| name.to_string()))
            .chain(faults.map(|(call, one, two)| format!("{call}: {one:?} and {two:?}")))
            .collect()
    }

    /// Pairs of call and code that were reached and should not be.
    pub fn beyond(&self) -> Vec<String> {
        let beyond = self.pairs.keys().filter(|pair| !self.goal.pairs.contains(pair));
        beyond.map(|(call, code)| format!("{call}: {code}")).collect()
    }

    /// Counts, a line each.
    pub fn text(&self) -> String {
        let mut out = String::new();
        for ((call, code), count) in &self.pairs {
            out += &format!("{count:8}  {call}: {code}\n");
        }
        for (situation, count) in &self.situations {
            out += &format!("{count:8}  {situation}\n");
        }
        for ((call, one, two), count) in &self.faults {
            out += &format!("{count:8}  {call}: {one:?} and {two:?}\n");
        }
        out
    }

    pub fn summary(&self) -> String {
        let Goal { pairs, situations, faults, beside } = &self.goal;
        format!(
            "{} calls, {} {beside}; {} of {} pairs of call and code, {} of {} situations, {} of {} pairs of faults in one call",
            self.calls,
            self.beside,
            pairs.iter().filter(|pair| self.pairs.contains_key(pair)).count(),
            pairs.len(),
            self.situations.len(),
            situations.len(),
            self.faults.len(),
            faults.len(),
        )
    }
}
