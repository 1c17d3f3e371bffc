//! A second, independent implementation of the requirement: the scheduler, its two figures, the
//! waiting bytes and the run. The proved program is compared with it.

// each program that takes this file in uses only a part of it
#![allow(dead_code)]

use std::ops::RangeInclusive;

// The table of least and most.
const FLOWS: RangeInclusive<usize> = 1..=16;
const QUANTUM: RangeInclusive<u32> = 1..=65_535;
const MAXIMUM: RangeInclusive<u32> = 1..=9_216;
const WAITING: u8 = 32;
const OVERHEAD: RangeInclusive<u32> = 0..=64;
const EVENTS: u64 = 1_024;

/// The table and its state. Unused cells and unused flows are zero.
#[derive(Clone, PartialEq, Debug)]
pub struct State {
    pub n: usize,
    /// What a packet is charged beside its length.
    pub overhead: u32,
    pub quanta: [u32; 16],
    pub maxima: [u32; 16],
    pub deficits: [u32; 16],
    /// Packets waiting, per flow.
    pub counts: [u8; 16],
    /// The sum of the waiting lengths, per flow.
    pub sums: [u32; 16],
    /// The flow visited last.
    pub place: usize,
    /// Whether the visit to the place is open.
    pub opened: bool,
    /// The waiting lengths, oldest first.
    pub rows: [[u16; 32]; 16],
}

/// What a pick answers.
#[derive(Clone, Copy, PartialEq, Debug)]
pub enum Picked {
    Idle,
    Sent {
        flow: usize,
        length: u32,
        deficit: u32,
        visits: u32,
    },
    Refused(u32),
}

/// A refusal number, and the number of the record at fault (0 where there is none).
#[derive(Clone, Copy, PartialEq, Debug)]
pub struct Refused {
    pub number: u32,
    pub place: usize,
}

fn refused<T>(number: u32, place: usize) -> Result<T, Refused> {
    Err(Refused { number, place })
}

/// The empty table: no flow, everything zero and closed.
pub fn empty() -> State {
    State {
        n: 0,
        overhead: 0,
        quanta: [0; 16],
        maxima: [0; 16],
        deficits: [0; 16],
        counts: [0; 16],
        sums: [0; 16],
        place: 0,
        opened: false,
        rows: [[0; 32]; 16],
    }
}

/// A fresh state from the list of (quantum, maximum) and the overhead per packet.
pub fn setup(flows: &[(u32, u32)], overhead: u32) -> Result<State, Refused> {
    for number in [10, 5] {
        let fits = match number {
            10 => OVERHEAD.contains(&overhead),
            _ => FLOWS.contains(&flows.len()),
        };
        if !fits {
            return refused(number, 0);
        }
    }
    test_ranges(flows)?;
    let mut s = empty();
    s.n = flows.len();
    s.overhead = overhead;
    s.place = s.n - 1;
    for (f, &(quantum, maximum)) in flows.iter().enumerate() {
        s.quanta[f] = quantum;
        s.maxima[f] = maximum;
    }
    Ok(s)
}

/// Refusals 6 and 7, flow by flow and 6 before 7.
fn test_ranges(flows: &[(u32, u32)]) -> Result<(), Refused> {
    let tests = (0..flows.len()).flat_map(|place| [6, 7].map(|number| (number, place)));
    for (number, place) in tests {
        let (quantum, maximum) = flows[place];
        let fits = match number {
            6 => QUANTUM.contains(&quantum),
            _ => MAXIMUM.contains(&maximum),
        };
        if !fits {
            return refused(number, place);
        }
    }
    Ok(())
}

/// Whether any state at all is sound: the clauses in the requirement's order. Each one may lean on
/// those before it, so that no index leaves its array.
pub fn sound(s: &State) -> bool {
    let place_fits = s.place < s.n || (s.n == 0 && s.place == 0 && !s.opened);
    s.n <= 16
        && place_fits
        && OVERHEAD.contains(&s.overhead)
        && (0..s.n).all(|f| numbers_in_range(s, f))
        && (0..s.n).all(|f| lengths_in_range(s, f))
        && (0..s.n).all(|f| sum_is_true(s, f))
        && (0..s.n).all(|f| deficit_fits(s, f))
        && unused_is_zero(s)
}

fn numbers_in_range(s: &State, f: usize) -> bool {
    QUANTUM.contains(&s.quanta[f]) && MAXIMUM.contains(&s.maxima[f]) && s.counts[f] <= WAITING
}

fn lengths_in_range(s: &State, f: usize) -> bool {
    waiting_lengths(s, f)
        .iter()
        .all(|&length| length >= 1 && u32::from(length) <= s.maxima[f])
}

fn sum_is_true(s: &State, f: usize) -> bool {
    let lengths = waiting_lengths(s, f).iter();
    s.sums[f] == lengths.map(|&length| u32::from(length)).sum::<u32>()
}

/// The waiting lengths of a flow whose count is in range.
fn waiting_lengths(s: &State, f: usize) -> &[u16] {
    &s.rows[f][..usize::from(s.counts[f])]
}

fn deficit_fits(s: &State, f: usize) -> bool {
    if s.opened && f == s.place {
        s.deficits[f] < s.quanta[f]
    } else if s.counts[f] == 0 {
        s.deficits[f] == 0
    } else {
        s.deficits[f] < charge(s, s.rows[f][0].into())
    }
}

/// What a packet of this length costs its flow and the line, where the overhead is in range.
fn charge(s: &State, length: u32) -> u32 {
    length + s.overhead
}

fn unused_is_zero(s: &State) -> bool {
    let cells = |f: usize, used: usize| s.rows[f][used..].iter().all(|&cell| cell == 0);
    let numbers = |f: usize| s.quanta[f] == 0 && s.maxima[f] == 0 && s.deficits[f] == 0;
    (0..s.n).all(|f| cells(f, usize::from(s.counts[f])))
        && (s.n..16).all(|f| numbers(f) && s.counts[f] == 0 && cells(f, 0))
        && (s.n..16).all(|f| s.sums[f] == 0)
        && (s.n > 0 || s.overhead == 0)
}

/// An arrival: the refusal number, or 0 where it was accepted.
pub fn arrival(s: &mut State, flow: usize, length: u32) -> u32 {
    if !sound(s) {
        return 8;
    }
    book(s, flow, length)
}

/// An arrival at a sound state. A run, whose states are all sound, books with this.
fn book(s: &mut State, flow: usize, length: u32) -> u32 {
    for number in [1, 2, 3, 4] {
        let given = match number {
            1 => flow >= s.n,
            2 => length == 0,
            3 => length > s.maxima[flow],
            _ => s.counts[flow] >= WAITING,
        };
        if given {
            return number;
        }
    }
    if let Some(end) = s.rows[flow].get_mut(usize::from(s.counts[flow])) {
        *end = length as u16;
    }
    s.counts[flow] += 1;
    s.sums[flow] += length;
    0
}

/// A pick.
pub fn pick(s: &mut State) -> Picked {
    if !sound(s) {
        return Picked::Refused(8);
    }
    serve(s)
}

/// A pick from a sound state, in the three steps of the requirement.
fn serve(s: &mut State) -> Picked {
    let mut visits = 0;
    // 1. an open visit goes on while its flow has a packet and the credit for it
    if s.opened {
        if may_send(s) {
            return send(s, visits);
        }
        s.opened = false;
        if s.counts[s.place] == 0 {
            s.deficits[s.place] = 0;
        }
    }
    loop {
        // 2. the next flow with a packet waiting
        let Some(flow) = next_waiting(s) else {
            return Picked::Idle;
        };
        // 3. a visit to it, kept open only if its credit reaches
        s.place = flow;
        s.opened = true;
        s.deficits[flow] += s.quanta[flow];
        visits += 1;
        if may_send(s) {
            return send(s, visits);
        }
        s.opened = false;
    }
}

/// The first flow with a packet waiting, from the flow after the place, the place itself last.
fn next_waiting(s: &State) -> Option<usize> {
    let mut round = (1..=s.n).map(|step| (s.place + step) % s.n);
    round.find(|&flow| s.counts[flow] > 0)
}

/// Whether the place has a packet waiting, and the credit for it.
fn may_send(s: &State) -> bool {
    let oldest = charge(s, s.rows[s.place][0].into());
    s.counts[s.place] > 0 && oldest <= s.deficits[s.place]
}

/// Sends the oldest packet of the place. The visit stays open.
fn send(s: &mut State, visits: u32) -> Picked {
    let flow = s.place;
    let length = u32::from(s.rows[flow][0]);
    s.rows[flow].copy_within(1.., 0);
    s.rows[flow][31] = 0;
    s.counts[flow] -= 1;
    s.sums[flow] -= length;
    let deficit = s.deficits[flow] - charge(s, length);
    s.deficits[flow] = deficit;
    Picked::Sent {
        flow,
        length,
        deficit,
        visits,
    }
}

/// C of a flow, from Q and l of the flow, F and L of the table, each l raised by the overhead. It is 0
/// for a flow above 15.
pub fn c_of(s: &State, flow: usize) -> u128 {
    let (quanta, charges) = (s.quanta.map(u128::from), maximum_charges(s));
    let sum = |numbers: &[u128; 16]| numbers.iter().sum::<u128>();
    let of = |numbers: &[u128; 16]| numbers.get(flow).copied().unwrap_or(0);
    let (q, l) = (of(&quanta), of(&charges));
    q * (sum(&charges) - l) + (sum(&quanta) - q) * (q + l)
}

/// The charge of the longest packet of each flow; 0 for an unused flow.
fn maximum_charges(s: &State) -> [u128; 16] {
    let overhead = |f: usize| if f < s.n { s.overhead } else { 0 };
    std::array::from_fn(|f| u128::from(s.maxima[f]) + u128::from(overhead(f)))
}

/// What is owed to a flow once the line has sent `bytes`, both in charges; refusals 8 and 1.
pub fn owed(s: &State, flow: usize, bytes: u64) -> Result<u64, u32> {
    if !sound(s) {
        return Err(8);
    }
    if flow >= s.n {
        return Err(1);
    }
    // k times F is at least Q times S - C, written without a number below 0. Since Q is at most F,
    // the bytes sent are always enough.
    let f: u128 = s.quanta.iter().map(|&quantum| u128::from(quantum)).sum();
    let c = c_of(s, flow);
    let asked = u128::from(s.quanta[flow]) * u128::from(bytes);
    Ok(least(bytes, |k| u128::from(k) * f + c >= asked))
}

/// The least number of bytes at which a flow is owed 1 or more; refusals 8 and 1.
pub fn wait(s: &State, flow: usize) -> Result<u64, u32> {
    owed(s, flow, 0)?;
    Ok(least(u64::MAX, |bytes| {
        owed(s, flow, bytes).is_ok_and(|k| k >= 1)
    }))
}

/// C of a flow, asked as a figure; refusals 8 and 1.
pub fn lag(s: &State, flow: usize) -> Result<u64, u32> {
    owed(s, flow, 0)?;
    Ok(c_of(s, flow) as u64)
}

/// The bytes that wait in a flow; refusals 8 and 1.
pub fn waiting_bytes(s: &State, flow: usize) -> Result<u64, u32> {
    match (sound(s), flow < s.n) {
        (false, _) => Err(8),
        (true, false) => Err(1),
        (true, true) => Ok(waiting_in(s, flow)),
    }
}

/// The bytes that wait in a flow of a sound state; 0 for a flow that the table does not have. A run
/// asks with this.
fn waiting_in(s: &State, flow: usize) -> u64 {
    s.sums.get(flow).map_or(0, |&sum| sum.into())
}

/// The least number that holds. What holds for one number holds for all above it, and for `most`,
/// so halving finds it.
fn least(most: u64, holds: impl Fn(u64) -> bool) -> u64 {
    let (mut low, mut high) = (0, most);
    while low < high {
        let middle = low + (high - low) / 2;
        if holds(middle) {
            high = middle;
        } else {
            low = middle + 1;
        }
    }
    low
}

/// What a run file holds: the overhead, (quantum, maximum) of each flow, and the events.
#[derive(Clone, PartialEq, Debug)]
pub struct RunFile {
    pub overhead: u32,
    pub flows: Vec<(u32, u32)>,
    pub events: Vec<Event>,
}

#[derive(Clone, Copy, PartialEq, Debug)]
pub struct Event {
    pub tick: u32,
    pub flow: u16,
    pub length: u16,
}

/// Where a table of 8-byte records lies in the file. Sums are made in 64 bits and cannot wrap.
struct Table {
    offset: u64,
    records: u64,
}

impl Table {
    fn end(&self) -> u64 {
        self.offset + 8 * self.records
    }

    fn against_the_rules(&self, size: u64) -> bool {
        self.offset % 4 != 0 || self.offset < 20 || self.end() > size
    }

    /// A table without records ends where it starts, and so shares no byte with any other.
    fn shares_with(&self, other: &Table) -> bool {
        let first = self.offset.max(other.offset);
        let end = self.end().min(other.end());
        first < end
    }
}

/// The header, beside the true size of the file.
struct Header {
    size: u64,
    stated: u64,
    overhead: u32,
    flows: Table,
    events: Table,
}

impl Header {
    fn of(file: &[u8]) -> Header {
        let field = |at, bytes| u64::from(number_at(file, at, bytes));
        Header {
            size: file.len() as u64,
            stated: field(12, 4),
            overhead: number_at(file, 16, 4),
            flows: Table {
                offset: field(4, 4),
                records: field(0, 2),
            },
            events: Table {
                offset: field(8, 4),
                records: field(2, 2),
            },
        }
    }

    /// Whether the header alone gives this refusal.
    fn gives(&self, number: u32) -> bool {
        let tables = [&self.flows, &self.events];
        match number {
            9 => self.size < 20 || self.size > 12_288 || self.stated != self.size,
            10 => !OVERHEAD.contains(&self.overhead),
            5 => self.flows.records == 0 || self.flows.records > 16,
            11 => self.events.records > EVENTS,
            _ => {
                tables
                    .iter()
                    .any(|table| table.against_the_rules(self.size))
                    || self.flows.shares_with(&self.events)
            }
        }
    }
}

/// The little-endian number of so many bytes; bytes past the end of the file count as 0.
fn number_at(file: &[u8], at: usize, bytes: usize) -> u32 {
    let field = file.iter().skip(at).take(bytes);
    field
        .rev()
        .fold(0, |number, &byte| number * 256 + u32::from(byte))
}

/// Reads the flow table and the overhead of a run file: refusals 9, 10, 5, 11, 12, then 6 and 7 by flow.
pub fn read_flows(file: &[u8]) -> Result<(Vec<(u32, u32)>, u32), Refused> {
    let header = Header::of(file);
    for number in [9, 10, 5, 11, 12] {
        if header.gives(number) {
            return refused(number, 0);
        }
    }
    let flows = records(file, &header.flows, |record| {
        (number_at(record, 0, 4), number_at(record, 4, 4))
    });
    test_ranges(&flows)?;
    Ok((flows, header.overhead))
}

/// Reads a run file: the refusals of its flow table, then 13.
pub fn read(file: &[u8]) -> Result<RunFile, Refused> {
    let (flows, overhead) = read_flows(file)?;
    let events = records(file, &Header::of(file).events, |record| Event {
        tick: number_at(record, 0, 4),
        flow: number_at(record, 4, 2) as u16,
        length: number_at(record, 6, 2) as u16,
    });
    test_ticks(&events)?;
    Ok(RunFile {
        overhead,
        flows,
        events,
    })
}

/// The records of a table, read from the part of the file that starts at its offset.
fn records<T>(file: &[u8], table: &Table, read: impl Fn(&[u8]) -> T) -> Vec<T> {
    let part = file.get(table.offset as usize..).unwrap_or(&[]);
    let record = |k: u64| part.get(8 * k as usize..).unwrap_or(&[]);
    (0..table.records).map(|k| read(record(k))).collect()
}

/// Refusal 13: an event's tick below the one before.
fn test_ticks(events: &[Event]) -> Result<(), Refused> {
    for place in 1..events.len() {
        if events[place].tick < events[place - 1].tick {
            return refused(13, place);
        }
    }
    Ok(())
}

/// Runs a file; `room` is how many numbers the lent list takes.
pub fn run(file: &[u8], room: usize) -> Result<Vec<[u64; 6]>, Refused> {
    let lines = listed(file, room)?;
    Ok(lines.iter().map(|line| line.numbers).collect())
}

/// A line of a listing.
struct Line {
    numbers: [u64; 6],
    /// The bytes that then wait in its flow; 0 for the last line, which has no flow.
    waiting: u64,
}

fn listed(file: &[u8], room: usize) -> Result<Vec<Line>, Refused> {
    let file = read(file)?;
    if room < 6 * (file.events.len() + 1) {
        return refused(14, 0);
    }
    Ok(listing(setup(&file.flows, file.overhead)?, &file.events))
}

/// A run in progress.
struct Run<'a> {
    state: State,
    /// The events not yet booked.
    events: &'a [Event],
    lines: Vec<Line>,
    refused: u64,
}

impl Run<'_> {
    /// Books all events with a tick at or before now, in file order; a refused one gives a line.
    fn book_until(&mut self, now: u64) {
        while let Some((event, later)) = self.events.split_first() {
            let (tick, flow, length) = (u64::from(event.tick), event.flow, event.length);
            if tick > now {
                return;
            }
            self.events = later;
            let number = book(&mut self.state, flow.into(), length.into());
            if number != 0 {
                self.refused += 1;
                let numbers = [2, tick, flow.into(), length.into(), number.into(), 0];
                let waiting = waiting_in(&self.state, flow.into());
                self.lines.push(Line { numbers, waiting });
            }
        }
    }

    /// Makes a pick; the charge of the packet sent, or none on idle. A packet sent gives a line.
    fn pick_at(&mut self, now: u64) -> Option<u64> {
        let Picked::Sent {
            flow,
            length,
            deficit,
            visits,
        } = serve(&mut self.state)
        else {
            return None;
        };
        let answer = [length, deficit, visits].map(u64::from);
        let numbers = [1, now, flow as u64, answer[0], answer[1], answer[2]];
        let waiting = waiting_in(&self.state, flow);
        self.lines.push(Line { numbers, waiting });
        Some(charge(&self.state, length).into())
    }
}

/// The run of a fresh state on a line that sends one byte per tick, the overhead of each packet too.
fn listing(state: State, events: &[Event]) -> Vec<Line> {
    let mut run = Run {
        state,
        events,
        lines: Vec::new(),
        refused: 0,
    };
    let (mut now, mut sent) = (0, 0);
    // when the line fell free; without any sending the latest event's tick stands for it
    let mut end = events.last().map_or(0, |event| u64::from(event.tick));
    run.book_until(0);
    loop {
        if let Some(ticks) = run.pick_at(now) {
            sent += 1;
            now += ticks;
            end = now;
            run.book_until(end);
        } else if let Some(next) = run.events.first() {
            now = next.tick.into();
            run.book_until(now);
        } else {
            break;
        }
    }
    run.lines.push(Line {
        numbers: [3, end, sent, run.refused, 0, 0],
        waiting: 0,
    });
    run.lines
}

/// What `drrrun` prints for an answer.
pub fn text(answer: &Result<Vec<[u64; 6]>, Refused>) -> String {
    match answer {
        Ok(lines) => lines.iter().map(|line| line_text(line) + "\n").collect(),
        Err(refused) => refused_text(refused),
    }
}

fn refused_text(refused: &Refused) -> String {
    format!("R {} {}\n", refused.number, refused.place)
}

/// What `drrrun` prints for a file without a word, and with `--waiting`: then each line of a packet,
/// sent or refused, has at its end the bytes that wait in its flow.
pub fn texts(file: &[u8]) -> [String; 2] {
    // room for 1,025 lines of six numbers: refusal 14 cannot occur here
    let lines = match listed(file, 6 * 1_025) {
        Ok(lines) => lines,
        Err(refused) => return [refused_text(&refused), refused_text(&refused)],
    };
    let plain = |line: &Line| line_text(&line.numbers) + "\n";
    let waiting = |line: &Line| match line.numbers[0] {
        1 | 2 => format!("{} {}\n", line_text(&line.numbers), line.waiting),
        _ => plain(line),
    };
    [
        lines.iter().map(plain).collect(),
        lines.iter().map(waiting).collect(),
    ]
}

/// One line: a letter for its kind, and the fields that this kind prints.
fn line_text(line: &[u64; 6]) -> String {
    let (letter, fields) = match line[0] {
        1 => ("S", 5),
        2 => ("D", 4),
        _ => ("E", 3),
    };
    let mut text = letter.to_string();
    for field in &line[1..=fields] {
        text += &format!(" {field}");
    }
    text
}

/// How `drrfigures` is asked to print its figures.
#[derive(Clone, Copy, Default, Debug)]
pub struct Dress {
    /// First a line of column titles.
    pub header: bool,
    /// A comma in place of each space.
    pub csv: bool,
    /// The wait in seconds too, on a line of so many bits a second.
    pub rate: Option<u64>,
}

/// What `drrfigures` prints for a file: the overhead where it is not 0; for each flow its number,
/// quantum, maximum, C, wait, and owed for each number of bytes; with a rate also the wait in seconds.
pub fn figures_text(file: &[u8], sizes: &[u32], dress: Dress) -> String {
    let read = read_flows(file).and_then(|(flows, overhead)| setup(&flows, overhead));
    let state = match read {
        Ok(state) => state,
        Err(refused) => return refused_text(&refused),
    };
    let lines = (0..state.n).map(|flow| figures_of(&state, flow, sizes, dress.rate));
    let titles = dress.header.then(|| titles(sizes, dress.rate));
    let overhead = ["overhead".to_string(), state.overhead.to_string()].to_vec();
    let overhead = (state.overhead > 0).then_some(overhead);
    let parting = if dress.csv { "," } else { " " };
    let rows = overhead.into_iter().chain(titles).chain(lines);
    rows.map(|row| row.join(parting) + "\n").collect()
}

/// The titles of the columns.
fn titles(sizes: &[u32], rate: Option<u64>) -> Vec<String> {
    let first = ["flow", "quantum", "maximum", "C", "wait"];
    let mut titles = first.map(String::from).to_vec();
    titles.extend(sizes.iter().map(|bytes| format!("owed_{bytes}")));
    titles.extend(rate.map(|_| "wait_seconds".to_string()));
    titles
}

/// The fields of a flow's line.
fn figures_of(s: &State, flow: usize, sizes: &[u32], rate: Option<u64>) -> Vec<String> {
    let wait = wait(s, flow).unwrap_or(0);
    let mut fields = vec![
        flow.to_string(),
        s.quanta[flow].to_string(),
        s.maxima[flow].to_string(),
        c_of(s, flow).to_string(),
        wait.to_string(),
    ];
    for &bytes in sizes {
        fields.push(owed(s, flow, bytes.into()).unwrap_or(0).to_string());
    }
    fields.extend(rate.map(|rate| seconds(wait, rate)));
    fields
}

/// The seconds that a line of `rate` bits a second takes for so many bytes, rounded up to a
/// hundred-millionth.
fn seconds(bytes: u64, rate: u64) -> String {
    let bits = u128::from(bytes) * 8;
    // the least time that is long enough to send the bits; a bit a second is the slowest line
    let enough = |time: u64| u128::from(time) * u128::from(rate) >= bits * 100_000_000;
    let time = least(u64::MAX, enough);
    let (whole, part) = (time / 100_000_000, time % 100_000_000);
    format!("{whole}.{part:08}")
}

#[cfg(test)]
mod tests {
    use super::*;

    /// The table of the worked example.
    const TABLE: [(u32, u32); 3] = [(500, 800), (300, 800), (400, 600)];

    fn table() -> State {
        charged(0)
    }

    /// The fresh state of that table with an overhead.
    fn charged(overhead: u32) -> State {
        setup(&TABLE, overhead).unwrap()
    }

    fn sent(flow: usize, length: u32, deficit: u32, visits: u32) -> Picked {
        Picked::Sent {
            flow,
            length,
            deficit,
            visits,
        }
    }

    /// A run file without gaps, the flow table first.
    fn file(flows: &[(u32, u32)], events: &[(u32, u16, u16)]) -> Vec<u8> {
        charged_file(flows, events, 0)
    }

    fn charged_file(flows: &[(u32, u32)], events: &[(u32, u16, u16)], overhead: u32) -> Vec<u8> {
        let end = 20 + 8 * flows.len() as u32;
        let size = end + 8 * events.len() as u32;
        let mut file = Vec::new();
        file.extend((flows.len() as u16).to_le_bytes());
        file.extend((events.len() as u16).to_le_bytes());
        for field in [20, end, size, overhead] {
            file.extend(field.to_le_bytes());
        }
        for (quantum, maximum) in flows {
            file.extend(quantum.to_le_bytes());
            file.extend(maximum.to_le_bytes());
        }
        for (tick, flow, length) in events {
            file.extend(tick.to_le_bytes());
            file.extend(flow.to_le_bytes());
            file.extend(length.to_le_bytes());
        }
        file
    }

    fn run_of(flows: &[(u32, u32)], events: &[(u32, u16, u16)]) -> String {
        text(&run(&file(flows, events), 6 * (events.len() + 1)))
    }

    /// The run of one flow with an overhead.
    fn charged_run(flow: (u32, u32), events: &[(u32, u16, u16)], overhead: u32) -> String {
        texts(&charged_file(&[flow], events, overhead))[0].clone()
    }

    fn waiting_of(flows: &[(u32, u32)], events: &[(u32, u16, u16)]) -> String {
        let [_, waiting] = texts(&file(flows, events));
        waiting
    }

    #[test]
    fn p01_c_of_flow_0() {
        assert_eq!(c_of(&table(), 0), 1_610_000);
    }

    #[test]
    fn p02_c_of_flow_1() {
        assert_eq!(c_of(&table(), 1), 1_410_000);
    }

    #[test]
    fn p03_c_of_flow_2() {
        assert_eq!(c_of(&table(), 2), 1_440_000);
    }

    #[test]
    fn p04_wait_of_flow_0() {
        assert_eq!(wait(&table(), 0), Ok(3221));
    }

    #[test]
    fn p05_wait_of_flow_1() {
        assert_eq!(wait(&table(), 1), Ok(4701));
    }

    #[test]
    fn p06_wait_of_flow_2() {
        assert_eq!(wait(&table(), 2), Ok(3601));
    }

    #[test]
    fn p07_nothing_owed_yet() {
        assert_eq!(owed(&table(), 0, 3220), Ok(0));
    }

    #[test]
    fn p08_first_byte_owed() {
        assert_eq!(owed(&table(), 0, 3221), Ok(1));
    }

    #[test]
    fn p09_owed_at_10000() {
        assert_eq!(owed(&table(), 0, 10_000), Ok(2825));
    }

    #[test]
    fn p10_one_flow() {
        for flow in [(1, 1), (500, 800), (65_535, 9_216)] {
            for overhead in [0, 1, 20, 64] {
                let alone = setup(&[flow], overhead).unwrap();
                assert_eq!(owed(&alone, 0, 7), Ok(7));
                assert_eq!(wait(&alone, 0), Ok(1));
            }
        }
    }

    #[test]
    fn p11_two_equal_flows() {
        let two = setup(&[(1500, 1500), (1500, 1500)], 0).unwrap();
        assert_eq!([wait(&two, 0), wait(&two, 1)], [Ok(4501), Ok(4501)]);
    }

    #[test]
    fn p12_pick_from_the_fresh_state() {
        let mut s = table();
        assert_eq!(pick(&mut s), Picked::Idle);
        assert_eq!(s, table());
    }

    /// The events of the worked example.
    const WORKED: [(u32, u16, u16); 6] = [
        (0, 0, 200),
        (0, 0, 750),
        (0, 1, 500),
        (0, 2, 400),
        (100, 2, 700),
        (900, 1, 250),
    ];

    /// The worked example, with the state after each call.
    #[test]
    fn worked_example_state_by_state() {
        let mut s = table();
        let seen = |s: &State| {
            (
                s.place,
                s.opened,
                s.deficits[..3].to_vec(),
                s.counts[..3].to_vec(),
            )
        };
        assert_eq!(seen(&s), (2, false, vec![0, 0, 0], vec![0, 0, 0]));
        for (flow, length) in [(0, 200), (0, 750), (1, 500), (2, 400)] {
            assert_eq!(arrival(&mut s, flow, length), 0);
        }
        assert_eq!(seen(&s), (2, false, vec![0, 0, 0], vec![2, 1, 1]));
        assert_eq!(pick(&mut s), sent(0, 200, 300, 1));
        assert_eq!(seen(&s), (0, true, vec![300, 0, 0], vec![1, 1, 1]));
        assert_eq!(arrival(&mut s, 2, 700), 3);
        assert_eq!(seen(&s), (0, true, vec![300, 0, 0], vec![1, 1, 1]));
        assert_eq!(pick(&mut s), sent(2, 400, 0, 2));
        assert_eq!(seen(&s), (2, true, vec![300, 300, 0], vec![1, 1, 0]));
        assert_eq!(pick(&mut s), sent(0, 750, 50, 1));
        assert_eq!(seen(&s), (0, true, vec![50, 300, 0], vec![0, 1, 0]));
        assert_eq!(arrival(&mut s, 1, 250), 0);
        assert_eq!(s.rows[1][..3], [500, 250, 0]);
        assert_eq!(pick(&mut s), sent(1, 500, 100, 1));
        assert_eq!(seen(&s), (1, true, vec![0, 100, 0], vec![0, 1, 0]));
        assert_eq!(pick(&mut s), sent(1, 250, 150, 1));
        assert_eq!(seen(&s), (1, true, vec![0, 150, 0], vec![0, 0, 0]));
        assert_eq!(pick(&mut s), Picked::Idle);
        let mut end = table();
        end.place = 1;
        assert_eq!(s, end);
    }

    /// The same, with the bytes waiting in each flow after each call.
    #[test]
    fn worked_example_sum_by_sum() {
        let mut s = table();
        let seen = |s: &State| [0, 1, 2].map(|flow| waiting_bytes(s, flow));
        let are = |bytes: [u64; 3]| bytes.map(Ok);
        assert_eq!(seen(&s), are([0, 0, 0]));
        let after = [[200, 0, 0], [950, 0, 0], [950, 500, 0], [950, 500, 400]];
        for (&(_, flow, length), bytes) in WORKED.iter().zip(after) {
            assert_eq!(arrival(&mut s, flow.into(), length.into()), 0);
            assert_eq!(seen(&s), are(bytes));
        }
        assert_eq!(pick(&mut s), sent(0, 200, 300, 1));
        assert_eq!(seen(&s), are([750, 500, 400]));
        assert_eq!(arrival(&mut s, 2, 700), 3);
        assert_eq!(seen(&s), are([750, 500, 400]));
        assert_eq!(pick(&mut s), sent(2, 400, 0, 2));
        assert_eq!(seen(&s), are([750, 500, 0]));
        assert_eq!(pick(&mut s), sent(0, 750, 50, 1));
        assert_eq!(seen(&s), are([0, 500, 0]));
        assert_eq!(arrival(&mut s, 1, 250), 0);
        assert_eq!(seen(&s), are([0, 750, 0]));
        assert_eq!(pick(&mut s), sent(1, 500, 100, 1));
        assert_eq!(seen(&s), are([0, 250, 0]));
        assert_eq!(pick(&mut s), sent(1, 250, 150, 1));
        assert_eq!(seen(&s), are([0, 0, 0]));
    }

    #[test]
    fn worked_example_as_a_run_file() {
        assert_eq!(file(&TABLE, &WORKED).len(), 92);
        let expected = "S 0 0 200 300 1\nD 100 2 700 3\nS 200 2 400 0 2\nS 600 0 750 50 1\n\
                        S 1350 1 500 100 1\nS 1850 1 250 150 1\nE 2100 5 1\n";
        assert_eq!(run_of(&TABLE, &WORKED), expected);
        assert_eq!(texts(&file(&TABLE, &WORKED))[0], expected);
    }

    #[test]
    fn worked_example_with_the_bytes_waiting() {
        let expected = "S 0 0 200 300 1 750\nD 100 2 700 3 400\nS 200 2 400 0 2 0\n\
                        S 600 0 750 50 1 0\nS 1350 1 500 100 1 250\nS 1850 1 250 150 1 0\n\
                        E 2100 5 1\n";
        assert_eq!(waiting_of(&TABLE, &WORKED), expected);
        assert_eq!(texts(&file(&TABLE, &WORKED)[1..]), ["R 9 0\n", "R 9 0\n"]);
        assert_eq!(waiting_of(&TABLE, &[(1, 0, 1), (0, 0, 1)]), "R 13 1\n");
        assert_eq!(waiting_of(&TABLE, &[]), "E 0 0 0\n");
    }

    /// The worked example with 20 on top of each packet: ticks and deficits are of charges, lengths and
    /// bytes waiting are not.
    #[test]
    fn worked_example_with_an_overhead() {
        let expected = "S 0 0 200 280 1 750\nD 100 2 700 3 400\nS 220 0 750 10 3 0\n\
                        S 990 1 500 80 1 250\nS 1510 2 400 380 1 0\nS 1930 1 250 110 1 0\n\
                        E 2200 5 1\n";
        let [plain, waiting] = texts(&charged_file(&TABLE, &WORKED, 20));
        assert_eq!(waiting, expected);
        let shorter = |line: &str| line.rsplit_once(' ').unwrap().0.to_string() + "\n";
        let lines: Vec<&str> = expected.lines().collect();
        let short: String = lines[..6].iter().map(|line| shorter(line)).collect();
        assert_eq!(plain, short + "E 2200 5 1\n");
    }

    /// A packet goes where the deficit reaches its charge, and not where it reaches its length alone; the
    /// limits of an arrival are on the length.
    #[test]
    fn charges_at_the_edges_of_a_deficit() {
        let two = [(0, 0, 36), (0, 0, 100), (0, 0, 101)];
        let of = |overhead| charged_run((100, 100), &two, overhead);
        assert_eq!(
            of(0),
            "D 0 0 101 3\nS 0 0 36 64 1\nS 36 0 100 64 1\nE 136 2 1\n"
        );
        assert_eq!(
            of(1),
            "D 0 0 101 3\nS 0 0 36 63 1\nS 37 0 100 62 1\nE 138 2 1\n"
        );
        assert_eq!(
            of(64),
            "D 0 0 101 3\nS 0 0 36 0 1\nS 100 0 100 36 2\nE 264 2 1\n"
        );
        assert_eq!(of(65), "R 10 0\n");
        let one = |quantum| charged_run((quantum, 9_216), &[(5, 0, 1)], 20);
        assert_eq!(one(1), "S 5 0 1 0 21\nE 26 1 0\n");
        assert_eq!(one(20), "S 5 0 1 19 2\nE 26 1 0\n");
        assert_eq!(one(21), "S 5 0 1 0 1\nE 26 1 0\n");
    }

    /// 10 in its place: after 9, before 5 and all that follow.
    #[test]
    fn overheads_of_a_run_file() {
        let refused = |change: &dyn Fn(&mut Vec<u8>)| {
            let mut bytes = charged_file(&[(0, 0)], &[(1, 0, 1), (0, 0, 1)], 65);
            change(&mut bytes);
            texts(&bytes)[0].clone()
        };
        assert_eq!(refused(&|_| ()), "R 10 0\n");
        assert_eq!(refused(&|bytes| bytes[0] = 0), "R 10 0\n");
        assert_eq!(refused(&|bytes| bytes[3] = 5), "R 10 0\n");
        assert_eq!(refused(&|bytes| bytes[4] = 21), "R 10 0\n");
        assert_eq!(refused(&|bytes| bytes[12] = 0), "R 9 0\n");
        assert_eq!(refused(&|bytes| bytes[16] = 64), "R 6 0\n");
        assert_eq!(refused(&|bytes| bytes[17] = 1), "R 10 0\n");
        assert_eq!(refused(&|bytes| bytes[16..20].fill(255)), "R 10 0\n");
    }

    /// A refused event tells what waits when it is refused, and not what is booked behind it.
    #[test]
    fn bytes_waiting_at_a_refusal() {
        let events = [
            (7, 0, 30),
            (7, 0, 801),
            (7, 0, 20),
            (7, 3, 1),
            (7, 65_535, 1),
        ];
        let expected = "D 7 0 801 3 30\nD 7 3 1 1 0\nD 7 65535 1 1 0\n\
                        S 7 0 30 470 1 20\nS 37 0 20 450 0 0\nE 57 2 3\n";
        assert_eq!(waiting_of(&TABLE, &events), expected);
    }

    #[test]
    fn figures_of_the_worked_example() {
        let expected = "0 500 800 1610000 3221 0 1 2825 40325 415325\n\
                        1 300 800 1410000 4701 0 0 1325 23825 248825\n\
                        2 400 600 1440000 3601 0 0 2134 32134 332134\n";
        let sizes = [3_220, 3_221, 10_000, 100_000, 1_000_000];
        let unsorted = file(&TABLE, &[(1, 0, 1), (0, 0, 1)]);
        let plain = Dress::default();
        assert_eq!(figures_text(&unsorted, &sizes, plain), expected);
        assert_eq!(figures_text(&unsorted[1..], &[1], plain), "R 9 0\n");
    }

    /// With 20 the request itself gives flow 0's C and wait. L is 2,200 + 3 x 20, so that flow 1 has
    /// 300 x 1,440 + 900 x 1,120, and flow 2 400 x 1,640 + 800 x 1,020.
    #[test]
    fn figures_with_an_overhead() {
        let s = charged(20);
        let c = [0, 1, 2].map(|flow| lag(&s, flow));
        assert_eq!(c, [1_644_000, 1_440_000, 1_472_000].map(Ok));
        let waits = [0, 1, 2].map(|flow| wait(&s, flow));
        assert_eq!(waits, [3_289, 4_801, 3_681].map(Ok));
        let owed_at = [3_288, 3_289, 10_000].map(|bytes| owed(&s, 0, bytes));
        // 5,000,000 - 1,644,000 are 3,356,000, and 2,796 x 1,200 is 3,355,200
        assert_eq!(owed_at, [0, 1, 2_797].map(Ok));
        let more = [1, 64].map(|overhead| lag(&charged(overhead), 0));
        assert_eq!(more, [1_610_000 + 1_700, 1_610_000 + 64 * 1_700].map(Ok));
    }

    #[test]
    fn printed_figures_with_an_overhead() {
        let plain = "overhead 20\n0 500 800 1644000 3289 2797\n1 300 800 1440000 4801 1300\n\
                     2 400 600 1472000 3681 2107\n";
        let with = |overhead, dress| {
            let file = charged_file(&TABLE, &[], overhead);
            figures_text(&file, &[10_000], dress)
        };
        assert_eq!(with(20, Dress::default()), plain);
        let mut dress = Dress {
            header: true,
            ..Dress::default()
        };
        let titled = "flow quantum maximum C wait owed_10000\n0 ";
        let expected = plain.replacen("\n0 ", &format!("\n{titled}"), 1);
        assert_eq!(with(20, dress), expected);
        assert!(with(0, dress).starts_with(titled));
        dress.csv = true;
        assert_eq!(with(20, dress), expected.replace(' ', ","));
        assert!(with(64, dress).starts_with("overhead,64\nflow,"));
        assert_eq!(with(65, dress), "R 10 0\n");
    }

    #[test]
    fn dressed_figures_of_the_worked_example() {
        let expected = "flow,quantum,maximum,C,wait,owed_10000,owed_1000000,wait_seconds\n\
                        0,500,800,1610000,3221,2825,415325,0.00257680\n\
                        1,300,800,1410000,4701,1325,248825,0.00376080\n\
                        2,400,600,1440000,3601,2134,332134,0.00288080\n";
        let dress = Dress {
            header: true,
            csv: true,
            rate: Some(10_000_000),
        };
        let worked = file(&TABLE, &[]);
        assert_eq!(figures_text(&worked, &[10_000, 1_000_000], dress), expected);
        assert_eq!(figures_text(&worked[1..], &[1], dress), "R 9 0\n");
    }

    /// A wait in seconds: at the ends of the rates, whole, and just above a hundred-millionth.
    #[test]
    fn waits_in_seconds() {
        assert_eq!(seconds(9_060_827_137, 1), "72486617096.00000000");
        assert_eq!(seconds(1, 1_000_000_000_000), "0.00000001");
        assert_eq!(seconds(1_250, 1_000_000_000_000), "0.00000001");
        assert_eq!(seconds(1_251, 1_000_000_000_000), "0.00000002");
        assert_eq!(seconds(1, 3), "2.66666667");
        assert_eq!(seconds(3_221, 10_000_000), "0.00257680");
    }

    #[test]
    fn second_idle_changes_nothing() {
        let mut s = table();
        arrival(&mut s, 1, 200);
        assert_eq!(pick(&mut s), sent(1, 200, 100, 1));
        assert_eq!(pick(&mut s), Picked::Idle);
        assert_eq!((s.place, s.opened, s.deficits[1]), (1, false, 0));
        let once = s.clone();
        assert_eq!(pick(&mut s), Picked::Idle);
        assert_eq!(s, once);
    }

    #[test]
    fn emptied_flow_keeps_its_credit_until_the_next_pick() {
        let mut s = table();
        arrival(&mut s, 0, 200);
        assert_eq!(pick(&mut s), sent(0, 200, 300, 1));
        arrival(&mut s, 0, 300);
        assert_eq!(pick(&mut s), sent(0, 300, 0, 0));
    }

    #[test]
    fn room_for_32_waiting() {
        let mut s = table();
        for _ in 0..32 {
            assert_eq!(arrival(&mut s, 0, 100), 0);
        }
        let full = s.clone();
        assert_eq!(arrival(&mut s, 0, 100), 4);
        assert_eq!(s, full);
        assert_eq!(waiting_bytes(&s, 0), Ok(3_200));
        pick(&mut s);
        assert_eq!(waiting_bytes(&s, 0), Ok(3_100));
        assert_eq!(arrival(&mut s, 0, 100), 0);
        assert_eq!(arrival(&mut s, 0, 100), 4);
    }

    #[test]
    fn refusals_of_an_arrival_in_order() {
        let mut s = table();
        let answers = [(3, 0), (16, 801), (usize::MAX, 1)].map(|(f, l)| arrival(&mut s, f, l));
        assert_eq!(answers, [1, 1, 1]);
        let answers = [0, 801, u32::MAX, 65_537].map(|length| arrival(&mut s, 0, length));
        assert_eq!(answers, [2, 3, 3, 3]);
        assert_eq!(s, table());
        s.place = 3;
        assert_eq!(arrival(&mut s, 3, 0), 8);
        assert_eq!(pick(&mut s), Picked::Refused(8));
        assert_eq!((owed(&s, 3, 1), wait(&s, 3)), (Err(8), Err(8)));
        assert_eq!(waiting_bytes(&s, 3), Err(8));
        s.place = 2;
        assert_eq!((owed(&s, 3, 1), wait(&s, 3)), (Err(1), Err(1)));
        assert_eq!(waiting_bytes(&s, 3), Err(1));
        assert_eq!(waiting_bytes(&s, usize::MAX), Err(1));
        assert_eq!(waiting_bytes(&empty(), 0), Err(1));
        assert_eq!(arrival(&mut empty(), 0, 0), 1);
        assert_eq!(pick(&mut empty()), Picked::Idle);
    }

    fn refusal(flows: &[(u32, u32)], overhead: u32) -> Option<(u32, usize)> {
        let answer = setup(flows, overhead);
        answer.map_err(|r| (r.number, r.place)).err()
    }

    #[test]
    fn refusals_of_a_setup_in_order() {
        let place = |flows: &[(u32, u32)]| refusal(flows, 0);
        assert_eq!(place(&[]), Some((5, 0)));
        assert_eq!(place(&[(0, 0); 17]), Some((5, 0)));
        assert_eq!(place(&[(1, 1); 16]), None);
        assert_eq!(place(&[(1, 0), (0, 1)]), Some((7, 0)));
        assert_eq!(place(&[(1, 1), (0, 0)]), Some((6, 1)));
        assert_eq!(place(&[(65_536, 9_217)]), Some((6, 0)));
        assert_eq!(place(&[(65_535, 9_216), (65_535, 9_217)]), Some((7, 1)));
    }

    /// An overhead of 0 to 64 is taken; above that it is refused by 10, before 5 and at place 0.
    #[test]
    fn overheads_of_a_setup() {
        for overhead in [0, 1, 20, 63, 64] {
            assert_eq!(refusal(&TABLE, overhead), None);
            assert_eq!(charged(overhead).overhead, overhead);
            assert_eq!(refusal(&[], overhead), Some((5, 0)));
            assert_eq!(refusal(&[(1, 1), (0, 0)], overhead), Some((6, 1)));
        }
        for overhead in [65, 66, 256, 1 << 16, u32::MAX] {
            for flows in [&TABLE[..], &[], &[(1, 1); 17], &[(1, 1), (0, 0)]] {
                assert_eq!(refusal(flows, overhead), Some((10, 0)));
            }
        }
    }

    /// A sound state with a waiting flow, an open one and an empty one.
    fn busy() -> State {
        let mut s = table();
        for (flow, length) in [(0, 200), (1, 500), (1, 10)] {
            arrival(&mut s, flow, length);
        }
        pick(&mut s);
        s.deficits[1] = 499;
        assert!(sound(&s));
        s
    }

    #[test]
    fn soundness_clause_by_clause() {
        let changed = |change: fn(&mut State)| {
            let mut s = busy();
            change(&mut s);
            sound(&s)
        };
        // flow 1 has 500 and 10 waiting; where a fault changes a length, the sum follows
        let faults: [fn(&mut State); 16] = [
            |s| s.n = 17,
            |s| s.place = 3,
            |s| s.quanta[2] = 0,
            |s| s.quanta[2] = 65_536,
            |s| s.maxima[2] = 0,
            |s| s.maxima[2] = 9_217,
            |s| s.counts[1] = 33,
            |s| (s.rows[1][1], s.sums[1]) = (0, 500),
            |s| (s.rows[1][1], s.sums[1]) = (801, 1_301),
            |s| s.deficits[2] = 1,
            |s| s.deficits[1] = 500,
            |s| s.deficits[0] = 500,
            |s| s.opened = false,
            |s| s.rows[1][2] = 1,
            |s| s.rows[15][31] = 1,
            |s| s.deficits[3] = 1,
        ];
        for (place, fault) in faults.into_iter().enumerate() {
            assert!(!changed(fault), "fault {place}");
        }
        assert!(changed(|s| s.deficits[0] = 499));
        assert!(changed(|s| (s.rows[1][1], s.sums[1]) = (800, 1_300)));
    }

    /// The sum of a flow that has packets waiting, of one that has none, and of one not in the table.
    #[test]
    fn a_false_sum_is_not_sound() {
        let with = |flow: usize, sum: u32| {
            let mut s = busy();
            s.sums[flow] = sum;
            s
        };
        assert!(sound(&with(1, 510)) && sound(&with(0, 0)) && sound(&with(15, 0)));
        let faults = [(1, 509), (1, 511), (1, 500), (1, 0), (1, 510 + 65_536)];
        let of_none = [0, 2, 3, 15].map(|flow| [(flow, 1), (flow, u32::MAX)]);
        for (flow, sum) in faults.into_iter().chain(of_none.into_iter().flatten()) {
            let mut s = with(flow, sum);
            assert_eq!(arrival(&mut s, 0, 1), 8, "flow {flow}, sum {sum}");
            assert_eq!(pick(&mut s), Picked::Refused(8));
            assert_eq!([waiting_bytes(&s, 0), waiting_bytes(&s, 99)], [Err(8); 2]);
            assert_eq!(s, with(flow, sum));
        }
        let mut s = busy();
        s.rows[1][1] = 11;
        assert!(!sound(&s));
    }

    /// The most that can wait: 32 packets of 9,216 bytes, in every flow.
    #[test]
    fn the_largest_sum() {
        let mut s = setup(&[(65_535, 9_216); 16], 64).unwrap();
        for call in 0..16 * 33 {
            let refusal = if call / 16 == 32 { 4 } else { 0 };
            assert_eq!(arrival(&mut s, call % 16, 9_216), refusal);
        }
        assert!((0..16).all(|flow| waiting_bytes(&s, flow) == Ok(294_912)));
        pick(&mut s);
        assert_eq!(waiting_bytes(&s, 0), Ok(285_696));
        s.rows[5][31] = 9_215;
        assert!(!sound(&s));
        s.sums[5] -= 1;
        assert_eq!(waiting_bytes(&s, 5), Ok(294_911));
    }

    #[test]
    fn soundness_of_the_empty_table() {
        assert!(sound(&empty()));
        let mut s = empty();
        s.opened = true;
        assert!(!sound(&s));
        s = empty();
        s.place = 1;
        assert!(!sound(&s));
        s = empty();
        s.quanta[0] = 1;
        assert!(!sound(&s));
        for overhead in [1, 20, 64, 65, u32::MAX] {
            s = State {
                overhead,
                ..empty()
            };
            assert_eq!(arrival(&mut s, 0, 0), 8);
            assert_eq!(pick(&mut s), Picked::Refused(8));
            assert_eq!((owed(&s, 0, 1), waiting_bytes(&s, 0)), (Err(8), Err(8)));
        }
    }

    /// The overhead's own range, and the deficit that it allows a closed, waiting flow.
    #[test]
    fn soundness_with_an_overhead() {
        let with = |overhead: u32, deficit: u32| {
            let mut s = busy();
            (s.overhead, s.deficits[1]) = (overhead, deficit);
            sound(&s)
        };
        assert_eq!([0, 1, 64].map(|overhead| with(overhead, 0)), [true; 3]);
        let above = [65, 66, 256, u32::MAX].map(|overhead| with(overhead, 0));
        assert_eq!(above, [false; 4]);
        // the oldest of flow 1 has 500 bytes
        for overhead in [0, 1, 20, 64] {
            assert!(with(overhead, 499 + overhead) && !with(overhead, 500 + overhead));
        }
        let mut open = charged(20);
        (open.opened, open.deficits[2]) = (true, 399);
        assert!(sound(&open));
        open.deficits[2] = 400;
        assert!(!sound(&open));
    }

    /// A run leaves out the test for 8, because every state it can reach is sound. On the way there, of
    /// each flow the bytes accepted are the bytes sent and the bytes waiting, whatever a packet is charged.
    #[test]
    fn states_stay_sound() {
        let mut dice = 1_u32;
        for overhead in [0, 1, 20, 64] {
            let mut s = setup(&[(1, 50), (70, 60), (20, 9_216)], overhead).unwrap();
            let (mut accepted, mut sent) = ([0; 3], [0; 3]);
            for _ in 0..20_000 {
                dice = dice.wrapping_mul(1_664_525).wrapping_add(1_013_904_223);
                if dice >> 31 == 0 {
                    let (flow, length) = ((dice >> 24) as usize % 4, (dice >> 16) % 64);
                    if arrival(&mut s, flow, length) == 0 {
                        accepted[flow] += u64::from(length);
                    }
                } else if let Picked::Sent { flow, length, .. } = pick(&mut s) {
                    sent[flow] += u64::from(length);
                }
                assert!(sound(&s));
                let waiting = [0, 1, 2].map(|flow| accepted[flow] - sent[flow]);
                assert_eq!(waiting.map(Ok), [0, 1, 2].map(|f| waiting_bytes(&s, f)));
            }
        }
    }

    #[test]
    fn any_state_is_answered() {
        let mut s = busy();
        s.n = usize::MAX;
        s.overhead = u32::MAX;
        s.place = usize::MAX;
        s.quanta = [u32::MAX; 16];
        s.maxima = [u32::MAX; 16];
        s.counts = [u8::MAX; 16];
        s.sums = [u32::MAX; 16];
        assert_eq!(arrival(&mut s, usize::MAX, u32::MAX), 8);
        assert_eq!(pick(&mut s), Picked::Refused(8));
        assert_eq!(owed(&s, 0, u64::MAX), Err(8));
        assert_eq!(waiting_bytes(&s, usize::MAX), Err(8));
        assert!(c_of(&s, 0) > 0 && c_of(&s, 16) == 0);
    }

    /// The figures against their closed forms, at the largest numbers too.
    #[test]
    fn figures_at_the_edges() {
        let s = setup(&[(65_535, 9_216); 16], 0).unwrap();
        let c = c_of(&s, 3);
        assert_eq!(wait(&s, 3), Ok((c / 65_535) as u64 + 1));
        assert_eq!(
            owed(&s, 3, u64::MAX),
            Ok((u64::MAX - (c / 65_535) as u64).div_ceil(16))
        );
        let slow = setup(&[(1, 1), (65_535, 9_216)], 0).unwrap();
        assert_eq!(wait(&slow, 0), Ok(9_216 + 65_535 * 2 + 1));
        assert_eq!(owed(&slow, 0, u64::from(u32::MAX)), Ok(65_534));
        // 1 x 9,280 and 65,535 x (1 + 65)
        let slow = setup(&[(1, 1), (65_535, 9_216)], 64).unwrap();
        assert_eq!(wait(&slow, 0), Ok(9_280 + 65_535 * 66 + 1));
        // the longest wait of all
        let mut flows = [(65_535, 9_216); 16];
        flows[0].0 = 1;
        let longest = setup(&flows, 64).unwrap();
        assert_eq!(wait(&longest, 0), Ok(9_123_594_226));
    }

    #[test]
    fn lent_list_too_short() {
        let bytes = file(&TABLE, &[(0, 0, 1), (0, 9, 1)]);
        assert_eq!(text(&run(&bytes, 17)), "R 14 0\n");
        assert_eq!(
            text(&run(&bytes, 18)),
            "D 0 9 1 1\nS 0 0 1 499 1\nE 1 1 1\n"
        );
        assert_eq!(
            text(&run(&file(&TABLE, &[(1, 0, 1), (0, 0, 1)]), 0)),
            "R 13 1\n"
        );
    }

    #[test]
    fn tick_of_the_last_line() {
        assert_eq!(run_of(&TABLE, &[]), "E 0 0 0\n");
        assert_eq!(run_of(&TABLE, &[(7, 3, 1)]), "D 7 3 1 1\nE 7 0 1\n");
        let late = run_of(&TABLE, &[(7, 2, 9), (99, 0, 0)]);
        assert_eq!(late, "S 7 2 9 391 1\nD 99 0 0 2\nE 16 1 1\n");
    }
}
