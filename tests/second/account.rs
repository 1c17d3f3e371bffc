//! The account of E1: along any calls, of each flow what waited before and what was accepted are what was
//! sent and what waits. The bytes accepted and sent are counted from the calls and their answers, and no
//! state is looked into.

use wikulambag::PickResult;

/// The bytes of each flow.
#[derive(Default)]
pub struct Account {
    came: [u64; 16],
    sent: [u64; 16],
}

impl Account {
    /// The account of calls from a state in which so many bytes wait; of calls from a fresh one it is
    /// the default.
    pub fn after(waited: [u64; 16]) -> Account {
        Account {
            came: waited,
            ..Account::default()
        }
    }

    /// An arrival, and the refusal number that it got.
    pub fn arrival(&mut self, flow: usize, length: u32, refusal: u32) {
        if refusal == 0 {
            self.came[flow] += u64::from(length);
        }
    }

    pub fn pick(&mut self, answer: &PickResult) {
        if answer.sent {
            self.sent[answer.flow] += u64::from(answer.length);
        }
    }

    /// What came of a flow, and what of it was sent or waits.
    pub fn of_flow(&self, flow: usize, waiting: u64) -> [u64; 2] {
        [self.came[flow], self.sent[flow] + waiting]
    }

    /// The same for all flows together.
    pub fn of_all(&self, waiting: [u64; 16]) -> [u64; 2] {
        let total = |bytes: [u64; 16]| bytes.iter().sum::<u64>();
        [total(self.came), total(self.sent) + total(waiting)]
    }
}
