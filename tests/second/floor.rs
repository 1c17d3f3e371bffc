//! The floor of demand 3: along any calls, each flow that waits is sent at least what it is owed. What the line
//! and a flow were sent is counted from the answers, in charges.

use crate::drr::{c_of, State};
use wikulambag::PickResult;

/// The floor for one flow. A stretch of calls ends at a pick at which nothing of the flow waits.
/// Over a stretch that sent S, R of it the flow's, both in charges, F x R is at least Q x S - C; so
/// Q x S - F x R, added up from the start, never rises by more than C above any earlier value of the
/// stretch.
#[derive(Clone, Default)]
pub struct Stretch {
    rise: i128,
    least: i128,
    charges: i128,
}

/// How many stretches were held to the floor, and in how many of them something was owed, also with an
/// overhead.
#[derive(Default)]
pub struct Floor {
    pub held: u64,
    pub owing: u64,
    pub charged: u64,
    pub broken: u64,
}

impl Floor {
    /// One pick, with the state before it.
    pub fn pick(&mut self, stretches: &mut [Stretch], before: &State, answer: &PickResult) {
        let charge = spent(before, answer);
        let all: i128 = before.quanta.iter().map(|&q| i128::from(q)).sum();
        for (flow, stretch) in stretches.iter_mut().enumerate() {
            let quantum = i128::from(before.quanta[flow]);
            let own = if answer.flow == flow { charge } else { 0 };
            stretch.rise += quantum * charge - all * own;
            stretch.charges += charge;
            if before.counts[flow] == 0 {
                stretch.least = stretch.rise;
                stretch.charges = 0;
                continue;
            }
            let c = c_of(before, flow) as i128;
            let owing = quantum * stretch.charges > c;
            self.held += 1;
            self.owing += u64::from(owing);
            self.charged += u64::from(owing && before.overhead > 0);
            self.broken += u64::from(stretch.rise - stretch.least > c);
            stretch.least = stretch.least.min(stretch.rise);
        }
    }
}

/// What a pick spends of the line; nothing where it is idle.
fn spent(before: &State, answer: &PickResult) -> i128 {
    match answer.sent {
        true => i128::from(answer.length) + i128::from(before.overhead),
        false => 0,
    }
}
