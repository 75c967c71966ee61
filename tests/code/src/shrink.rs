//! The shortest list that still shows a difference.

use crate::Complaint;

/// Where library and model part: the step, from 0, and what differs.
#[derive(Clone, Debug)]
pub struct Difference {
    pub at: usize,
    pub what: Complaint,
}

/// Shorter steps with a difference, of which no step and no two steps can be
/// left out, made simpler where that still shows one. `simpler` gives simpler
/// steps in place of one, the simplest first.
pub fn shrink<S: Clone>(
    steps: &[S],
    difference: Difference,
    play: impl FnMut(&[S]) -> Result<(), Difference>,
    simpler: impl Fn(&S) -> Vec<S>,
) -> (Vec<S>, Difference) {
    let mut best = steps.to_vec();
    best.truncate(difference.at + 1);
    let mut shrinking = Shrinking { play, best, shown: difference };
    loop {
        shrinking.leave_out();
        if !shrinking.simplify(&simpler) {
            return (shrinking.best, shrinking.shown);
        }
    }
}

/// The shortest steps so far, and their difference.
struct Shrinking<S, P> {
    play: P,
    best: Vec<S>,
    shown: Difference,
}

impl<S: Clone, P: FnMut(&[S]) -> Result<(), Difference>> Shrinking<S, P> {
    /// Takes other steps if they still show a difference.
    fn takes(&mut self, mut steps: Vec<S>) -> bool {
        let Err(difference) = (self.play)(&steps) else { return false };
        steps.truncate(difference.at + 1);
        self.best = steps;
        self.shown = difference;
        true
    }

    /// Leaves out runs of steps, then single steps, then two at once.
    fn leave_out(&mut self) {
        let mut run = self.best.len().div_ceil(2);
        while run > 0 {
            let mut at = 0;
            let mut shorter = false;
            while at < self.best.len() {
                let mut steps = self.best.clone();
                steps.drain(at..(at + run).min(steps.len()));
                if self.takes(steps) {
                    shorter = true;
                } else {
                    at += run;
                }
            }
            if !shorter || run > 1 {
                run /= 2;
            }
        }
        while self.best.len() <= 40 && self.leaves_out_two() {}
    }

    fn leaves_out_two(&mut self) -> bool {
        for one in 0..self.best.len() {
            for two in 0..one {
                let mut steps = self.best.clone();
                steps.remove(one);
                steps.remove(two);
                if self.takes(steps) {
                    return true;
                }
            }
        }
        false
    }

    /// Makes steps simpler; whether any was.
    fn simplify(&mut self, simpler: impl Fn(&S) -> Vec<S>) -> bool {
        let mut any = false;
        let mut at = 0;
        while let Some(step) = self.best.get(at) {
            let taken = simpler(step).into_iter().any(|step| {
                let mut steps = self.best.clone();
                steps[at] = step;
                self.takes(steps)
            });
            any |= taken;
            at += usize::from(!taken);
        }
        any
    }
}
