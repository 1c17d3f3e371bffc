//! Calls the proved library and the second program on the same states with the same numbers, and
//! compares answer and state after every call. Along chains of calls, from a fresh state and from other
//! sound ones, it also checks the floor: what each flow was sent against what it is owed; and the
//! account: what was accepted against what was sent and waits.
//! With '--caught' it ends at the first difference, which is all that a wrong variant has to show.

mod account;
mod dice;
mod drr;
mod floor;
mod proved;
mod states;

use account::Account;
use dice::Dice;
use drr::State;
use floor::{Floor, Stretch};
use proved::{told_figure, told_pick};
use wikulambag::{
    wikulambag_arrival, wikulambag_lag, wikulambag_owed, wikulambag_pick, wikulambag_setup,
    wikulambag_sound, wikulambag_wait, wikulambag_waiting_bytes, ArrivalResult, FlowList,
    PickResult, SetupResult, Terms,
};

const STATES: usize = 60_000;
/// Sound states whose sums are made false, each flow's in turn.
const SUMMED: usize = 500;
const CHAINS: usize = 300;
const CHAIN_CALLS: usize = 4_000;
/// Chains that begin at a sound state, and their calls.
const LATER_CHAINS: usize = 2_000;
const LATER_CALLS: usize = 100;
const SETUPS: usize = 60_000;

/// Calls made of each kind, and how many of them were answered or left a state otherwise.
#[derive(Default)]
struct Tally {
    setups: u64,
    soundness: u64,
    /// States that the proved library finds sound.
    sound: u64,
    arrivals: u64,
    picks: u64,
    figures: u64,
    long_waits: u64,
    waiting: u64,
    differ: u64,
    to_first: bool,
}

impl Tally {
    fn calls(&self) -> u64 {
        let changing = self.setups + self.arrivals + self.picks;
        changing + self.soundness + self.figures + self.waiting
    }

    /// Shows the first few differences, and counts them all. Of an account the two sides are what came,
    /// and what was sent or waits.
    fn compare<T: PartialEq + std::fmt::Debug>(&mut self, call: &str, proved: &T, second: &T) {
        if proved != second {
            self.differ += 1;
            if self.differ <= 3 {
                println!("differs: {call}\n  proved {proved:?}\n  second {second:?}");
            }
            if self.to_first {
                println!("call {}, {call}", self.calls());
                std::process::exit(1);
            }
        }
    }
}

/// A state as the proved library has it.
type Ours = wikulambag::State;

/// An arrival by both; the proved library's refusal number.
fn arrival(
    tally: &mut Tally,
    ours: &mut Ours,
    theirs: &mut State,
    (flow, length): (usize, u32),
) -> u32 {
    let proved = wikulambag_arrival(*ours, flow, length);
    let refusal = drr::arrival(theirs, flow, length);
    let state = Ours::from(&*theirs);
    tally.arrivals += 1;
    tally.compare("arrival", &proved, &ArrivalResult { refusal, state });
    *ours = proved.state;
    proved.refusal
}

/// A pick by both; the proved library's answer.
fn pick(tally: &mut Tally, ours: &mut Ours, theirs: &mut State) -> PickResult {
    let proved = wikulambag_pick(*ours);
    let second = drr::pick(theirs);
    tally.picks += 1;
    tally.compare("pick", &proved, &told_pick(second, theirs));
    *ours = proved.state;
    proved
}

/// The bytes that wait in a flow, by both; the proved library's answer.
fn waiting(tally: &mut Tally, ours: &Ours, theirs: &State, flow: usize) -> u64 {
    let proved = wikulambag_waiting_bytes(*ours, flow);
    let second = told_figure(drr::waiting_bytes(theirs, flow));
    tally.waiting += 1;
    tally.compare("waiting bytes", &proved, &second);
    proved.value
}

fn figures(tally: &mut Tally, s: &State, dice: &mut Dice) {
    let past = s.n.wrapping_add(1);
    let inside = dice.between(0, 15) as usize;
    let flow = dice.one_of(&[inside, inside % s.n.max(1), s.n, past, usize::MAX]);
    let any = dice.next() as u32;
    let bytes = dice.one_of(&[0, 1, 10_000, 1_000_000, any, any >> 12, u32::MAX]);
    let owed = told_figure(drr::owed(s, flow, bytes.into()));
    tally.compare("owed", &wikulambag_owed(s.into(), flow, bytes), &owed);
    let wait = told_figure(drr::wait(s, flow));
    tally.compare("wait", &wikulambag_wait(s.into(), flow), &wait);
    let lag = told_figure(drr::lag(s, flow));
    tally.compare("lag", &wikulambag_lag(s.into(), flow), &lag);
    tally.figures += 3;
    waiting(tally, &s.into(), s, flow);
}

/// The waits of small quanta beside large ones: the longest there are, past 32 bits.
fn long_waits(tally: &mut Tally) {
    let quanta = (1..=4).flat_map(|quantum| [(quantum, 0), (quantum, 64)]);
    for (quantum, overhead) in quanta {
        for flow in 0..16 {
            let mut s = drr::empty();
            (s.n, s.place) = (16, 15);
            s.overhead = overhead;
            s.quanta = [65_535; 16];
            s.maxima = [9_216; 16];
            s.quanta[flow] = quantum;
            let wait = drr::wait(&s, flow);
            let proved = wikulambag_wait(Ours::from(&s), flow);
            tally.compare("long wait", &proved, &told_figure(wait));
            tally.figures += 1;
            tally.long_waits += u64::from(wait.is_ok_and(|bytes| bytes > u64::from(u32::MAX)));
        }
    }
}

/// A flow and a length to arrive, often at an edge.
fn packet(s: &State, dice: &mut Dice) -> (usize, u32) {
    let inside = dice.between(0, 15) as usize;
    let used = inside % s.n.max(1);
    let flow = dice.one_of(&[used, used, used, inside, s.n, usize::MAX]);
    let most = s.maxima[flow.min(15)];
    let some = dice.between(1, most.max(1));
    let any = dice.next() as u32;
    let edges = [0, 1, some, some, most, most.saturating_add(1), 65_537, any];
    (flow, dice.one_of(&edges))
}

/// Every call on one state, each from the state as it came.
fn try_state(tally: &mut Tally, s: &State, dice: &mut Dice) {
    let sound = wikulambag_sound(s.into());
    tally.soundness += 1;
    tally.sound += u64::from(sound);
    tally.compare("sound", &sound, &drr::sound(s));
    for _ in 0..2 {
        arrival(tally, &mut s.into(), &mut s.clone(), packet(s, dice));
    }
    pick(tally, &mut s.into(), &mut s.clone());
    figures(tally, s, dice);
}

/// Sound states, the same with one clause broken, and any numbers. Gives how often each was broken.
fn try_states(tally: &mut Tally, dice: &mut Dice) -> [u64; states::BREAKS.len()] {
    let mut broken = [0; states::BREAKS.len()];
    for round in 0..STATES {
        let s = states::sound_state(dice);
        try_state(tally, &s, dice);
        tally.compare("built sound", &drr::sound(&s), &true);
        for flow in 0..s.n {
            waiting(tally, &Ours::from(&s), &s, flow);
        }
        let clause = round % broken.len();
        let mut spoilt = s;
        if states::BREAKS[clause].1(&mut spoilt, dice) {
            try_state(tally, &spoilt, dice);
            tally.compare(states::BREAKS[clause].0, &drr::sound(&spoilt), &false);
            broken[clause] += 1;
        }
        if round % 4 == 0 {
            try_state(tally, &states::any_state(dice), dice);
        }
    }
    broken
}

/// Sums that are one more or one less than they should be, each flow's in turn. Gives how often that of
/// each flow was false where it is not in the table, and where it is.
fn try_false_sums(tally: &mut Tally, dice: &mut Dice) -> [[u64; 16]; 2] {
    let mut falsified = [[0; 16]; 2];
    for _ in 0..SUMMED {
        let s = states::sound_state(dice);
        for (flow, by) in (0..16).flat_map(|flow| [(flow, 1), (flow, u32::MAX)]) {
            let mut spoilt = s.clone();
            spoilt.sums[flow] = s.sums[flow].wrapping_add(by);
            let ours = Ours::from(&spoilt);
            tally.compare("a sum false by one", &wikulambag_sound(ours), &false);
            try_state(tally, &spoilt, dice);
            waiting(tally, &ours, &spoilt, flow);
            falsified[usize::from(flow < s.n)][flow] += 1;
        }
    }
    falsified
}

/// Lists and overheads, right and wrong. Gives how often the overhead alone was wrong, and how often the
/// number of flows was too, so that 10 and 5 both stand against the call.
fn try_setups(tally: &mut Tally, dice: &mut Dice) -> [u64; 2] {
    let mut above = [0; 2];
    for _ in 0..SETUPS {
        let (list, overhead) = (states::records(dice), states::any_overhead(dice));
        let proved = wikulambag_setup(FlowList::of(&list), Terms { overhead });
        let count_fits = (1..=16).contains(&list.len());
        above[usize::from(!count_fits)] += u64::from(overhead > 64);
        let (refusal, place, theirs) = match drr::setup(&list, overhead) {
            Ok(state) => (0, 0, state),
            Err(r) => (r.number, r.place, drr::empty()),
        };
        let second = SetupResult {
            refusal,
            place,
            state: Ours::from(&theirs),
        };
        tally.setups += 1;
        tally.compare("setup", &proved, &second);
    }
    above
}

/// A chain of calls by both, with its account and each flow's stretch.
struct Chain {
    ours: Ours,
    theirs: State,
    account: Account,
    stretches: Vec<Stretch>,
}

/// How often the account was held, how many refused arrivals it had to leave out, and the floor.
#[derive(Default)]
struct Held {
    flows: u64,
    together: u64,
    refused: u64,
    floor: Floor,
}

impl Chain {
    fn from_fresh(dice: &mut Dice) -> Chain {
        let (flows, overhead) = (states::flows(dice), states::overhead(dice));
        let theirs = drr::setup(&flows, overhead).expect("a table within the limits");
        Chain {
            ours: Ours::from(&theirs),
            account: Account::default(),
            stretches: vec![Stretch::default(); theirs.n],
            theirs,
        }
    }

    /// From a state that no calls have built, with what waits there.
    fn from_sound(tally: &mut Tally, dice: &mut Dice) -> Chain {
        let theirs = states::sound_state(dice);
        let ours = Ours::from(&theirs);
        let waited = std::array::from_fn(|flow| waiting(tally, &ours, &theirs, flow));
        Chain {
            ours,
            account: Account::after(waited),
            stretches: vec![Stretch::default(); theirs.n],
            theirs,
        }
    }

    fn arrival(&mut self, tally: &mut Tally, held: &mut Held, dice: &mut Dice) {
        let (flow, length) = packet(&self.theirs, dice);
        let refusal = arrival(tally, &mut self.ours, &mut self.theirs, (flow, length));
        self.account.arrival(flow, length, refusal);
        held.refused += u64::from(refusal != 0);
        self.hold(tally, held, flow);
    }

    fn pick(&mut self, tally: &mut Tally, held: &mut Held) {
        let before = self.theirs.clone();
        let answer = pick(tally, &mut self.ours, &mut self.theirs);
        held.floor.pick(&mut self.stretches, &before, &answer);
        self.account.pick(&answer);
        self.hold(tally, held, answer.flow);
    }

    /// The account of the flow that a call named.
    fn hold(&self, tally: &mut Tally, held: &mut Held, flow: usize) {
        let waiting = waiting(tally, &self.ours, &self.theirs, flow);
        if flow < 16 {
            self.hold_flow(tally, held, flow, waiting);
        }
    }

    fn hold_flow(&self, tally: &mut Tally, held: &mut Held, flow: usize, waiting: u64) {
        let [came, gone] = self.account.of_flow(flow, waiting);
        tally.compare("account of a flow", &came, &gone);
        held.flows += 1;
    }

    /// The account of each flow, and that of all together.
    fn hold_all(&self, tally: &mut Tally, held: &mut Held) {
        let each = |flow| waiting(tally, &self.ours, &self.theirs, flow);
        let all: [u64; 16] = std::array::from_fn(each);
        for (flow, &waiting) in all.iter().enumerate() {
            self.hold_flow(tally, held, flow, waiting);
        }
        let [came, gone] = self.account.of_all(all);
        tally.compare("account of all flows", &came, &gone);
        held.together += 1;
    }
}

/// A chain of calls from a fresh state: arrivals and picks, refused ones among them, and bursts of
/// arrivals. In some chains arrivals outnumber picks, so that flows wait for long.
fn try_chain(tally: &mut Tally, held: &mut Held, dice: &mut Dice) {
    let mut chain = Chain::from_fresh(dice);
    let arrivals = dice.between(1, 5);
    for call in 0..CHAIN_CALLS {
        let burst = call % 300 < 40;
        if burst || dice.between(1, 6) <= arrivals {
            chain.arrival(tally, held, dice);
        } else {
            chain.pick(tally, held);
        }
        if dice.once_in(60) {
            figures(tally, &chain.theirs, dice);
            chain.hold_all(tally, held);
        }
    }
    chain.hold_all(tally, held);
}

/// A shorter one from any sound state.
fn try_later_chain(tally: &mut Tally, held: &mut Held, dice: &mut Dice) {
    let mut chain = Chain::from_sound(tally, dice);
    let arrivals = dice.between(1, 5);
    for _ in 0..LATER_CALLS {
        if dice.between(1, 6) <= arrivals {
            chain.arrival(tally, held, dice);
        } else {
            chain.pick(tally, held);
        }
    }
    chain.hold_all(tally, held);
}

/// Says what was tried; whether nothing that should be seen was missed.
fn report_states(
    tally: &Tally,
    broken: &[u64; states::BREAKS.len()],
    falsified: &[[u64; 16]; 2],
) -> bool {
    for (clause, times) in states::BREAKS.iter().zip(broken) {
        println!("broken alone {times} times: {}", clause.0);
    }
    let [unused, used] = falsified.map(|flows| flows.iter().sum::<u64>());
    println!("sums false by one: {used} of flows in the table, {unused} of others");
    println!(
        "{} states tried, {} of them sound",
        tally.soundness, tally.sound
    );
    let each_sum = falsified.iter().flatten().all(|&times| times > 0);
    each_sum && broken.iter().all(|&times| times > 0) && tally.sound >= STATES as u64
}

/// The same of the chains.
fn report_chains(held: &Held) -> bool {
    let floor = &held.floor;
    println!(
        "{} stretches held to the floor, {} with something owed, {} of these with an overhead, {} below it",
        floor.held, floor.owing, floor.charged, floor.broken
    );
    println!(
        "the account held {} times for a flow and {} for all flows, beside {} refused arrivals",
        held.flows, held.together, held.refused
    );
    floor.owing > floor.charged && floor.charged > 0 && held.refused > 0
}

/// All chains; to the first stretch below the floor, where that is all that is asked.
fn try_chains(tally: &mut Tally, dice: &mut Dice) -> Held {
    let mut held = Held::default();
    for chain in 0..CHAINS + LATER_CHAINS {
        match chain < CHAINS {
            true => try_chain(tally, &mut held, dice),
            false => try_later_chain(tally, &mut held, dice),
        }
        if tally.to_first && held.floor.broken > 0 {
            println!("chain {chain}, a stretch below the floor");
            std::process::exit(1);
        }
    }
    held
}

fn main() {
    let mut tally = Tally {
        to_first: std::env::args().nth(1).as_deref() == Some("--caught"),
        ..Tally::default()
    };
    let mut dice = Dice(1995);
    let [above, above_both] = try_setups(&mut tally, &mut dice);
    long_waits(&mut tally);
    let broken = try_states(&mut tally, &mut dice);
    let falsified = try_false_sums(&mut tally, &mut dice);
    let held = try_chains(&mut tally, &mut dice);
    let all_states = report_states(&tally, &broken, &falsified);
    let all_chains = report_chains(&held);
    println!(
        "{} setups, {} arrivals, {} picks, {} figures, {} of them waits past 32 bits, {} waiting bytes",
        tally.setups, tally.arrivals, tally.picks, tally.figures, tally.long_waits, tally.waiting
    );
    println!("{above} setups with an overhead above 64 alone, {above_both} also with a wrong number of flows");
    println!("{} calls compared, {} differ", tally.calls(), tally.differ);
    let all_setups = above > 0 && above_both > 0;
    let all_seen = all_setups && all_states && all_chains && tally.long_waits > 0;
    if tally.differ > 0 || held.floor.broken > 0 || !all_seen {
        std::process::exit(1);
    }
}
