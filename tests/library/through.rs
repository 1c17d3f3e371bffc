//! Sees that the library reads and writes every field where wikulambag.rs has it: a state with another number in
//! each field is sound, no longer so once any one of them is spoilt, and handed back as it came; what setup and
//! arrivals make is the same state; and each number of each answer is where its name stands.

#[path = "../../include/wikulambag.rs"]
mod wikulambag;

use wikulambag::*;

fn length_of(f: usize, k: usize) -> u32 {
    (200 + 32 * f + k) as u32
}

/// Quantum and maximum.
fn flow(f: usize) -> (u32, u32) {
    (1000 + f as u32, 9000 + f as u32)
}

/// Sixteen flows; flow f has f + 1 packets waiting.
fn waiting() -> State {
    let mut s = State::default();
    (s.table.n, s.table.overhead, s.line.place) = (16, 20, 15);
    for f in 0..16 {
        (s.table.quanta[f], s.table.maxima[f]) = flow(f);
        s.line.counts[f] = f as u8 + 1;
        for k in 0..=f {
            s.line.rows[f].lengths[k] = length_of(f, k) as u16;
            s.line.sums[f] += length_of(f, k);
        }
    }
    s
}

/// The same with credit, and a visit to flow 5 open, whose credit is enough for its oldest packet.
fn visited() -> State {
    let mut s = waiting();
    for f in 0..16 {
        s.line.deficits[f] = 10 + f as u32;
    }
    (s.line.place, s.line.opened, s.line.deficits[5]) = (5, true, 500);
    s
}

fn spoilt(what: &str, spoil: impl Fn(&mut State)) {
    let mut s = visited();
    spoil(&mut s);
    assert!(!wikulambag_sound(s), "{what}");
    assert_eq!(
        wikulambag_arrival(s, 0, 1),
        ArrivalResult {
            refusal: NOT_SOUND,
            state: s
        },
        "{what}"
    );
}

fn each_field_spoilt() {
    assert!(wikulambag_sound(visited()));
    spoilt("n", |s| s.table.n = 15);
    spoilt("overhead", |s| s.table.overhead = 65);
    spoilt("place", |s| s.line.place = 16);
    spoilt("opened", |s| s.line.opened = false);
    for f in 0..16 {
        spoilt("quanta", |s| s.table.quanta[f] = 0);
        spoilt("maxima", |s| s.table.maxima[f] = 1);
        spoilt("deficits", |s| s.line.deficits[f] = 2000);
        spoilt("counts", |s| s.line.counts[f] += 1);
        spoilt("sums, one more", |s| s.line.sums[f] += 1);
        spoilt("sums, one less", |s| s.line.sums[f] -= 1);
        // a waiting length with its sum, so that the length alone is wrong
        for k in 0..=f {
            spoilt("lengths", |s| {
                s.line.rows[f].lengths[k] = 9999;
                s.line.sums[f] += 9999 - length_of(f, k);
            });
        }
        for k in f + 1..32 {
            spoilt("lengths", |s| s.line.rows[f].lengths[k] = 1);
        }
    }
}

fn made_by_calls() {
    let mut list = FlowList::of(&std::array::from_fn::<_, 16, _>(flow));
    let terms = Terms { overhead: 20 };
    let made = wikulambag_setup(list, terms);
    assert_eq!((made.refusal, made.place), (0, 0));
    let mut s = made.state;
    for f in 0..16 {
        for k in 0..=f {
            let arrived = wikulambag_arrival(s, f, length_of(f, k));
            assert_eq!(arrived.refusal, 0);
            s = arrived.state;
        }
    }
    assert_eq!(s, waiting());
    list.records[11].maximum = 0;
    let refused = |refusal, place| SetupResult {
        refusal,
        place,
        state: State::default(),
    };
    assert_eq!(wikulambag_setup(list, terms), refused(MAXIMUM_RANGE, 11));
    let over = Terms { overhead: 65 };
    assert_eq!(wikulambag_setup(list, over), refused(OVERHEAD_RANGE, 0));
}

fn answers() {
    let mut s = visited();
    (s.line.opened, s.line.deficits[5]) = (false, 15);
    let mut state = s;
    (
        state.line.opened,
        state.line.place,
        state.line.deficits[6],
        state.line.counts[6],
    ) = (true, 6, 610, 6);
    state.line.sums[6] -= 392;
    state.line.rows[6].lengths.rotate_left(1);
    state.line.rows[6].lengths[31] = 0;
    let sent = PickResult {
        refusal: 0,
        sent: true,
        flow: 6,
        length: 392,
        deficit: 610,
        visits: 1,
        state,
    };
    assert_eq!(wikulambag_pick(s), sent);

    // flow 3's maximum charge is 9023
    let (quanta, charges) = (16 * 1000 + 120_u64, 16 * 9020 + 120);
    let lag = 1003 * (charges - 9023) + (quanta - 1003) * (1003 + 9023);
    let owed = (1003 * 4_000_000_000 - lag).div_ceil(quanta);
    let figure = |value| FigureResult { refusal: 0, value };
    assert_eq!(wikulambag_lag(s, 3), figure(lag));
    assert_eq!(wikulambag_wait(s, 3), figure(lag / 1003 + 1));
    assert_eq!(wikulambag_owed(s, 3, 4_000_000_000), figure(owed));
    assert_eq!(
        wikulambag_owed(s, 16, 1),
        FigureResult {
            refusal: UNKNOWN_FLOW,
            value: 0
        }
    );
}

/// Flow f has the lengths 200 + 32 f and so on, f + 1 of them, each one more than the one before.
fn waiting_bytes() {
    let mut s = visited();
    for f in 0..16 {
        let value = ((f + 1) * (200 + 32 * f) + f * (f + 1) / 2) as u64;
        assert_eq!(
            wikulambag_waiting_bytes(s, f),
            FigureResult { refusal: 0, value }
        );
    }
    let refused = |refusal| FigureResult { refusal, value: 0 };
    assert_eq!(wikulambag_waiting_bytes(s, 16), refused(UNKNOWN_FLOW));
    s.line.sums[7] += 1;
    assert_eq!(wikulambag_waiting_bytes(s, 16), refused(NOT_SOUND));
}

/// One flow, and three events, of which the last has a tick below the one before.
fn run_refused() {
    let mut file = [0; 52];
    for (at, byte) in [
        (0, 1),
        (2, 3),
        (4, 20),
        (8, 28),
        (12, 52),
        (20, 9),
        (24, 9),
        (28, 5),
        (36, 7),
        (44, 6),
    ] {
        file[at] = byte;
    }
    let mut list = [77; 24];
    assert_eq!(
        run(&file, &mut list),
        RunResult {
            refusal: TICK_ORDER,
            place: 2
        }
    );
    assert_eq!(list, [77; 24]);
}

fn main() {
    each_field_spoilt();
    made_by_calls();
    answers();
    waiting_bytes();
    run_refused();
}
