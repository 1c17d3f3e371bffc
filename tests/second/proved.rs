//! The second program's states and answers as the proved library tells them: its calls are compared in its own
//! structs, whole, so that no number of an answer is left out.

use crate::drr;
use wikulambag::{FigureResult, Line, PickResult, Row, State, Table};

impl From<&drr::State> for State {
    fn from(s: &drr::State) -> State {
        let table = Table {
            n: s.n,
            overhead: s.overhead,
            quanta: s.quanta,
            maxima: s.maxima,
        };
        let line = Line {
            deficits: s.deficits,
            counts: s.counts,
            sums: s.sums,
            place: s.place,
            opened: s.opened,
            rows: s.rows.map(|lengths| Row { lengths }),
        };
        State { table, line }
    }
}

/// A pick's answer, and the state after it.
pub fn told_pick(answer: drr::Picked, after: &drr::State) -> PickResult {
    let mut told = PickResult {
        state: after.into(),
        ..PickResult::default()
    };
    match answer {
        drr::Picked::Idle => {}
        drr::Picked::Sent {
            flow,
            length,
            deficit,
            visits,
        } => {
            told.sent = true;
            (told.flow, told.length, told.deficit, told.visits) = (flow, length, deficit, visits);
        }
        drr::Picked::Refused(number) => told.refusal = number,
    }
    told
}

pub fn told_figure(answer: Result<u64, u32>) -> FigureResult {
    match answer {
        Ok(value) => FigureResult { refusal: 0, value },
        Err(refusal) => FigureResult { refusal, value: 0 },
    }
}
