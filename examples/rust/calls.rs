//! Document 01's table, two packets of flow 0, a pick, the bytes waiting after each, and what each flow is owed of
//! 1,000,000 bytes.
//!
//!     ./library
//!     rustc --edition 2021 -L target/library -o calls examples/rust/calls.rs

#[path = "../../include/wikulambag.rs"]
mod wikulambag;

use wikulambag::*;

fn main() {
    let list = FlowList::of(&[(500, 800), (300, 800), (400, 600)]);
    let made = wikulambag_setup(list, Terms { overhead: 0 });
    if made.refusal != 0 {
        println!("setup refused by {}, flow {}", made.refusal, made.place);
        return;
    }
    let mut state = made.state;

    for length in [200, 750] {
        let arrived = wikulambag_arrival(state, 0, length);
        state = arrived.state;
        if arrived.refusal != 0 {
            println!("arrival refused by {}", arrived.refusal);
        } else {
            let waiting = wikulambag_waiting_bytes(state, 0).value;
            println!("arrived: flow 0, {length} bytes, waiting {waiting} bytes");
        }
    }

    let picked = wikulambag_pick(state);
    state = picked.state;
    if picked.sent {
        let (flow, length) = (picked.flow, picked.length);
        let (deficit, visits) = (picked.deficit, picked.visits);
        let waiting = wikulambag_waiting_bytes(state, flow).value;
        println!("sent: flow {flow}, {length} bytes, deficit {deficit}, visits {visits}, waiting {waiting} bytes");
    } else {
        println!("idle");
    }

    for flow in 0..state.table.n {
        let owed = wikulambag_owed(state, flow, 1_000_000).value;
        println!("flow {flow} is owed {owed}");
    }
}
