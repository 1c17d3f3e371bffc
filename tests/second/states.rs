//! States by the thousand: sound ones, the same with one clause of soundness broken, and ones that
//! no calls could have built.

use crate::dice::Dice;
use crate::drr::{empty, State};

/// A table that setup accepts; the edges of each range come up often.
pub fn flows(dice: &mut Dice) -> Vec<(u32, u32)> {
    let n = dice.one_of(&[1, 1, 2, 3, 4, 5, 7, 8, 11, 15, 16]);
    let quick = dice.once_in(2);
    (0..n)
        .map(|_| {
            let anywhere = dice.between(1, 65_535);
            let small = dice.between(1, 300);
            // a quantum of 1 needs up to 9,216 visits a packet, so it comes up less often
            let quantum = match quick {
                true => dice.one_of(&[500, 1_500, 9_216, 65_535, anywhere]),
                false => dice.one_of(&[1, 2, 60, small, small, anywhere]),
            };
            let any_maximum = dice.between(1, 9_216);
            (quantum, dice.one_of(&[1, 2, 64, 1_500, 9_216, any_maximum]))
        })
        .collect()
}

/// An overhead that setup accepts.
pub fn overhead(dice: &mut Dice) -> u32 {
    let any = dice.between(0, 64);
    dice.one_of(&[0, 0, 1, 20, 63, 64, any])
}

/// An overhead as setup may be given it: one in four is out of range, also in its upper bits alone.
pub fn any_overhead(dice: &mut Dice) -> u32 {
    let good = overhead(dice);
    let above = dice.one_of(&[65, 66, 128, 256 + good, (1 << 16) + good, 1 << 31, u32::MAX]);
    dice.one_of(&[good, good, good, above])
}

/// A list of flow records as setup may be given it: of any length to 17, often with a fault or two.
pub fn records(dice: &mut Dice) -> Vec<(u32, u32)> {
    let count = dice.between(0, 17) as usize;
    let mut list: Vec<_> = flows(dice).into_iter().cycle().take(count).collect();
    for record in &mut list {
        if dice.once_in(24) {
            record.0 = dice.one_of(&[0, 65_536, 65_535, 1, u32::MAX]);
        }
        if dice.once_in(24) {
            record.1 = dice.one_of(&[0, 9_217, 9_216, 1, u32::MAX]);
        }
    }
    list
}

/// A sound state over such a table, built from the clauses and not by calls.
pub fn sound_state(dice: &mut Dice) -> State {
    let mut s = empty();
    if dice.once_in(50) {
        return s;
    }
    s.overhead = overhead(dice);
    for (f, (quantum, maximum)) in flows(dice).into_iter().enumerate() {
        s.n = f + 1;
        s.quanta[f] = quantum;
        s.maxima[f] = maximum;
        let some = dice.between(1, 31) as u8;
        s.counts[f] = dice.one_of(&[0, 0, 1, 2, some, 32]);
        for k in 0..usize::from(s.counts[f]) {
            let length = dice.between(1, maximum);
            s.rows[f][k] = dice.one_of(&[1, length, length, maximum]) as u16;
        }
    }
    true_sums(&mut s);
    s.place = dice.between(0, s.n as u32 - 1) as usize;
    s.opened = dice.once_in(2);
    for f in 0..s.n {
        let oldest = u32::from(s.rows[f][0]);
        let most = match (s.opened && f == s.place, s.counts[f]) {
            (true, _) => s.quanta[f] - 1,
            (false, 0) => 0,
            (false, _) => oldest + s.overhead - 1,
        };
        // where the oldest packet would fit by its length alone, the edge of that too
        let edges = [oldest.saturating_sub(1), oldest, dice.between(0, most), 0];
        s.deficits[f] = dice.one_of(&edges.map(|edge| edge.min(most)));
        if dice.once_in(3) {
            s.deficits[f] = most;
        }
    }
    s
}

/// Makes the sums those of the lengths that the counts say are waiting, 0 for unused flows. This is
/// not left to the second program, which may have been altered.
fn true_sums(s: &mut State) {
    s.sums = [0; 16];
    for f in 0..s.n.min(16) {
        for &length in s.rows[f].iter().take(s.counts[f].into()) {
            s.sums[f] += u32::from(length);
        }
    }
}

/// Ways to break one clause of soundness: the clause, and the change; a change that does not apply
/// to a state gives false.
pub type Break = (&'static str, fn(&mut State, &mut Dice) -> bool);

pub const BREAKS: [Break; 22] = [
    ("n above 16", |s, dice| {
        s.n = dice.one_of(&[17, 18, 255, 1 << 32, usize::MAX]);
        true
    }),
    ("place not below n", |s, dice| {
        s.place = dice.one_of(&[s.n, s.n + 1, 16, usize::MAX]);
        s.n > 0 && !s.opened
    }),
    ("a visit open with no flow", |s, _| {
        *s = empty();
        s.opened = true;
        true
    }),
    ("a place with no flow", |s, dice| {
        *s = empty();
        s.place = dice.one_of(&[1, 15, 16, usize::MAX]);
        true
    }),
    ("an overhead above its range", |s, dice| {
        s.overhead = dice.one_of(&[65, 66, 256 + s.overhead, 1 << 16, 1 << 31, u32::MAX]);
        s.n > 0
    }),
    ("an overhead with no flow", |s, dice| {
        *s = empty();
        s.overhead = dice.one_of(&[1, 20, 63, 64]);
        true
    }),
    ("quantum out of range", |s, dice| {
        let f = a_flow(s, dice);
        // the flow with the open visit keeps a deficit below its quantum
        s.quanta[f] = dice.one_of(&[65_536, 65_537, u32::MAX]);
        s.n > 0
    }),
    ("quantum 0", |s, dice| {
        let f = a_flow(s, dice);
        s.quanta[f] = 0;
        s.n > 0 && !(s.opened && f == s.place)
    }),
    ("maximum above its range", |s, dice| {
        let f = a_flow(s, dice);
        s.maxima[f] = dice.one_of(&[9_217, 9_218, 65_536, u32::MAX]);
        s.n > 0
    }),
    ("maximum 0", |s, dice| {
        let f = a_flow(s, dice);
        s.maxima[f] = 0;
        s.n > 0 && s.counts[f] == 0
    }),
    ("more than 32 waiting", |s, dice| {
        let f = a_flow(s, dice);
        let full = s.n > 0 && s.counts[f] == 32;
        s.counts[f] = dice.one_of(&[33, 34, 128, 255]);
        full
    }),
    ("a waiting length of 0", |s, dice| {
        let f = a_flow(s, dice);
        let k = dice.between(0, 31) as usize;
        s.rows[f][k] = 0;
        true_sums(s);
        // the oldest length bounds the deficit, which is another clause
        k > 0 && k < usize::from(s.counts[f])
    }),
    ("a waiting length above the maximum", |s, dice| {
        let f = a_flow(s, dice);
        let k = dice.between(0, 31) as usize;
        let above = s.maxima[f].min(65_534) as u16 + 1;
        s.rows[f][k] = dice.one_of(&[above, u16::MAX]);
        true_sums(s);
        k < usize::from(s.counts[f])
    }),
    ("a sum one more", |s, dice| {
        let f = dice.between(0, 15) as usize;
        s.sums[f] += 1;
        true
    }),
    ("a sum one less", |s, dice| {
        let f = dice.between(0, 15) as usize;
        s.sums[f] = s.sums[f].wrapping_sub(1);
        true
    }),
    ("a sum true in its lower 16 bits", |s, dice| {
        let f = dice.between(0, 15) as usize;
        s.sums[f] ^= dice.one_of(&[1 << 16, 1 << 18, 1 << 31]);
        true
    }),
    ("the sums of two flows exchanged", |s, dice| {
        let (f, g) = (a_flow(s, dice), a_flow(s, dice));
        s.sums.swap(f, g);
        s.sums[f] != s.sums[g]
    }),
    ("another length than the one summed", |s, dice| {
        let f = a_flow(s, dice);
        let last = usize::from(s.counts[f]).saturating_sub(1);
        let length = dice.between(1, s.maxima[f].max(1)) as u16;
        let other = s.rows[f][last] != length;
        s.rows[f][last] = length;
        // the oldest length bounds the deficit, which is another clause
        other && last > 0
    }),
    ("credit in an empty flow without a visit", |s, dice| {
        let f = a_flow(s, dice);
        s.deficits[f] = dice.one_of(&[1, s.quanta[f].max(1), u32::MAX]);
        f < s.n && s.counts[f] == 0 && !(s.opened && f == s.place)
    }),
    ("credit for the oldest packet without a visit", |s, dice| {
        let f = a_flow(s, dice);
        let charge = u32::from(s.rows[f][0]) + s.overhead;
        s.deficits[f] = dice.one_of(&[charge, charge + 1, u32::MAX]);
        s.counts[f] > 0 && !(s.opened && f == s.place)
    }),
    ("a whole quantum left in an open visit", |s, dice| {
        let f = s.place;
        s.deficits[f] = dice.one_of(&[s.quanta[f], s.quanta[f] + 1, u32::MAX]);
        s.opened
    }),
    ("an unused part not zero", |s, dice| spoil_unused(s, dice)),
];

/// A flow of the table; 0 where there is none.
fn a_flow(s: &State, dice: &mut Dice) -> usize {
    dice.between(0, (s.n as u32).saturating_sub(1)) as usize
}

/// One number of an unused flow, or one cell behind the waiting lengths of a used one.
fn spoil_unused(s: &mut State, dice: &mut Dice) -> bool {
    let f = dice.between(0, 15) as usize;
    if f >= s.n {
        match dice.between(0, 5) {
            0 => s.quanta[f] = dice.one_of(&[1, 500, u32::MAX]),
            1 => s.maxima[f] = dice.one_of(&[1, 800, u32::MAX]),
            2 => s.deficits[f] = dice.one_of(&[1, u32::MAX]),
            3 => s.counts[f] = dice.one_of(&[1, 32, 255]),
            4 => s.sums[f] = dice.one_of(&[1, 9_216, u32::MAX]),
            _ => s.rows[f][dice.between(0, 31) as usize] = dice.one_of(&[1, u16::MAX]),
        }
        return true;
    }
    let used = u32::from(s.counts[f]);
    if used < 32 {
        s.rows[f][dice.between(used, 31) as usize] = dice.one_of(&[1, 200, u16::MAX]);
    }
    used < 32
}

/// Any numbers at all in every part; in half of the states the sums are true of the other numbers.
pub fn any_state(dice: &mut Dice) -> State {
    let mut s = empty();
    let summed = dice.once_in(2);
    let bits = dice.between(1, 32);
    let mut number = || (dice.next() >> (64 - bits)) as u32;
    s.n = number() as usize;
    s.overhead = number();
    s.place = number() as usize;
    s.opened = number() % 2 == 1;
    for f in 0..16 {
        s.quanta[f] = number();
        s.maxima[f] = number();
        s.deficits[f] = number();
        s.counts[f] = number() as u8;
        s.sums[f] = number();
        s.rows[f].fill_with(|| number() as u16);
    }
    if summed {
        true_sums(&mut s);
    }
    s
}
