//! Run files by the thousand, the same ones each time: valid, damaged and senseless. A damaged file
//! carries the refusal its faults are meant to give, worked out here and not by either program.

mod dice;

use dice::Dice;

pub struct File {
    pub name: String,
    pub bytes: Vec<u8>,
    /// The refusal number and place, where the faults put in tell them beforehand.
    pub meant: Option<(u32, usize)>,
}

/// Quantum and maximum.
pub type Flow = (u32, u32);
/// Tick, flow and length.
pub type Event = (u32, u16, u16);

/// All files. A name that starts with `valid` promises a file that is not refused.
pub fn all() -> Vec<File> {
    let mut dice = Dice(2012);
    let mut files = vec![file("valid-worked".to_string(), worked(), None)];
    valid_files(&mut dice, &mut files);
    tiny_files(&mut dice, &mut files);
    overhead_files(&mut files);
    limit_files(&mut dice, &mut files);
    neighbour_files(&mut dice, &mut files);
    damaged_files(&mut dice, &mut files);
    pair_files(&mut dice, &mut files);
    range_pair_files(&mut dice, &mut files);
    wide_files(&mut dice, &mut files);
    short_files(&mut files);
    changed_files(&mut files);
    random_files(&mut dice, &mut files);
    files
}

fn file(name: String, bytes: Vec<u8>, meant: Option<(u32, usize)>) -> File {
    File { name, bytes, meant }
}

/// The worked example of the requirement.
pub fn worked() -> Vec<u8> {
    charged_worked(0)
}

/// The same with an overhead.
pub fn charged_worked(overhead: u32) -> Vec<u8> {
    let flows = [(500, 800), (300, 800), (400, 600)];
    let events = [
        (0, 0, 200),
        (0, 0, 750),
        (0, 1, 500),
        (0, 2, 400),
        (100, 2, 700),
        (900, 1, 250),
    ];
    plain(&flows, &events, overhead)
}

/// A run file without gaps, the flow table first.
pub fn plain(flows: &[Flow], events: &[Event], overhead: u32) -> Vec<u8> {
    let draft = Draft::of(flows.to_vec(), events.to_vec());
    Draft { overhead, ..draft }.bytes(&mut Dice(0))
}

/// A run file before it is written. Header fields stand beside what they speak of, so that a fault
/// can make them differ.
#[derive(Clone)]
struct Draft {
    flows: Vec<Flow>,
    events: Vec<Event>,
    flow_count: u16,
    flow_at: u32,
    event_at: u32,
    size: usize,
    stated: u32,
    overhead: u32,
}

impl Draft {
    /// Flow table at 20, event table behind it, no gaps, no overhead.
    fn of(flows: Vec<Flow>, events: Vec<Event>) -> Draft {
        let event_at = 20 + 8 * flows.len() as u32;
        let size = event_at as usize + 8 * events.len();
        Draft {
            flow_count: flows.len() as u16,
            flow_at: 20,
            event_at,
            size,
            stated: size as u32,
            overhead: 0,
            flows,
            events,
        }
    }

    fn resize(&mut self, size: usize) {
        self.size = size;
        self.stated = size as u32;
    }

    fn flow_bytes(&self) -> u32 {
        8 * self.flows.len() as u32
    }

    fn event_bytes(&self) -> u32 {
        8 * self.events.len() as u32
    }

    /// The file: noise in the gaps, and of each table what lies inside the file. The header is
    /// written last, because a damaged offset can point into it.
    fn bytes(&self, dice: &mut Dice) -> Vec<u8> {
        let mut bytes: Vec<u8> = (0..self.size).map(|_| dice.next() as u8).collect();
        for (k, (quantum, maximum)) in self.flows.iter().enumerate() {
            let record = [quantum.to_le_bytes(), maximum.to_le_bytes()].concat();
            put(&mut bytes, self.flow_at as usize + 8 * k, &record);
        }
        for (k, (tick, flow, length)) in self.events.iter().enumerate() {
            let rest = [flow.to_le_bytes(), length.to_le_bytes()].concat();
            let record = [&tick.to_le_bytes()[..], &rest].concat();
            put(&mut bytes, self.event_at as usize + 8 * k, &record);
        }
        let counts = [self.flow_count, self.events.len() as u16];
        for (k, count) in counts.iter().enumerate() {
            put(&mut bytes, 2 * k, &count.to_le_bytes());
        }
        let fields = [self.flow_at, self.event_at, self.stated, self.overhead];
        for (k, field) in fields.iter().enumerate() {
            put(&mut bytes, 4 + 4 * k, &field.to_le_bytes());
        }
        bytes
    }
}

/// Writes what of a field lies inside the file.
fn put(bytes: &mut [u8], at: usize, field: &[u8]) {
    for (cell, value) in bytes.iter_mut().skip(at).zip(field) {
        *cell = *value;
    }
}

// ---- valid files ----

fn valid_files(dice: &mut Dice, files: &mut Vec<File>) {
    for k in 0..640 {
        let count = match k % 4 {
            0 | 1 => 1_024,
            2 => dice.between(0, 60),
            _ => dice.between(0, 1_024),
        };
        // a heavy file may have long packets on a quantum of 1, thousands of visits each
        let flows = flow_table(dice, k % 64 == 0);
        let mut events = event_table(dice, &flows, count);
        refuse_some(dice, &mut events);
        let mut draft = Draft::of(flows, events);
        draft.overhead = overhead(dice);
        lay_out(dice, &mut draft);
        files.push(file(format!("valid-{k}"), draft.bytes(dice), None));
    }
}

/// An overhead in its range, half of the time 0.
fn overhead(dice: &mut Dice) -> u32 {
    let any = dice.between(0, 64);
    dice.one_of(&[0, 0, 0, 0, 1, 20, 64, any])
}

/// Flows of tiny frames beside flows of large ones, where the overhead weighs most.
fn tiny_files(dice: &mut Dice, files: &mut Vec<File>) {
    for k in 0..120 {
        let overhead = [0, 1, 20, 63, 64, dice.between(0, 64)][k % 6];
        let n = dice.one_of(&[2, 2, 3, 4, 8, 16]);
        let flows: Vec<Flow> = (0..n).map(|f| tiny_or_large(dice, f, overhead)).collect();
        let count = dice.one_of(&[20, 100, 400]);
        let events = event_table(dice, &flows, count);
        let mut draft = Draft::of(flows, events);
        draft.overhead = overhead;
        files.push(file(format!("valid-tiny-{k}"), draft.bytes(dice), None));
    }
}

/// Every second flow has large frames. The quantum of a tiny one is about its length or its charge, or such
/// as buys many of them.
fn tiny_or_large(dice: &mut Dice, flow: u32, overhead: u32) -> Flow {
    if flow % 2 == 1 {
        let large = dice.one_of(&[1_500, 1_518, 9_216]);
        return (dice.one_of(&[64, 500, large, large + overhead]), large);
    }
    let tiny = dice.one_of(&[1, 2, 8, 46, 64]);
    let charge = tiny + overhead;
    let quantum = dice.one_of(&[tiny, charge - 1, charge, charge + 1, 2 * charge, 500]);
    (quantum.max(1), tiny)
}

/// The worked example with every overhead that a table may have, and with some that none may: next to the
/// range, and such as are inside when cut to 8, 16 or 24 bits.
fn overhead_files(files: &mut Vec<File>) {
    for overhead in 0..=64 {
        let name = format!("valid-overhead-{overhead}");
        files.push(file(name, charged_worked(overhead), None));
    }
    let wide = [8, 16, 24].map(|bits| [1 << bits, (1 << bits) + 20, (1 << bits) + 64]);
    let near = [65, 66, 67, 84, 127, 128, 255, 1 << 31, u32::MAX];
    for overhead in near.into_iter().chain(wide.into_iter().flatten()) {
        let name = format!("overhead-{overhead}");
        files.push(file(name, charged_worked(overhead), Some((10, 0))));
    }
}

fn flow_table(dice: &mut Dice, heavy: bool) -> Vec<Flow> {
    let any = dice.between(1, 16);
    let n = dice.one_of(&[1, 2, 3, 4, 8, 16, any, any]);
    let styles = [dice.between(0, 5), dice.between(0, 5)];
    (0..n)
        .map(|_| {
            let mut quantum = sized(dice, styles[0], 65_535);
            let mut maximum = sized(dice, styles[1], 9_216);
            if heavy {
                quantum = dice.one_of(&[1, 1, 2, 65_535]);
                maximum = 9_216;
            } else {
                maximum = maximum.min(200 * quantum);
            }
            (quantum, maximum)
        })
        .collect()
}

/// A quantum or maximum in one of several styles: least, small, a common frame, most, any.
fn sized(dice: &mut Dice, style: u32, most: u32) -> u32 {
    match style {
        0 => dice.between(1, 4),
        1 => dice.between(1, 300),
        2 => 1_500,
        3 => most,
        4 => dice.between(1, most),
        _ => {
            let inner = dice.between(0, 4);
            sized(dice, inner, most)
        }
    }
}

/// Events in one of several manners: all at one tick, dense, about as fast as the line, in bursts,
/// up to the last tick, or on a grid, where events meet the ends of packets exactly.
fn event_table(dice: &mut Dice, flows: &[Flow], count: u32) -> Vec<Event> {
    let manner = dice.between(0, 6);
    let favoured = dice.once_in(3);
    let mut tick = match manner {
        4 => u32::MAX - dice.between(0, 40_000),
        _ => dice.one_of(&[0, 0, 1, 50]),
    };
    let mut events = Vec::new();
    for _ in 0..count {
        let flow = flow_number(dice, flows.len() as u32, favoured);
        let maximum = flows.get(usize::from(flow)).map_or(1_500, |f| f.1);
        let grid = if manner == 5 { 8 } else { 1 };
        let length = packet_length(dice, maximum, grid);
        events.push((tick, flow, length));
        let step = match manner {
            0 => 0,
            1 => dice.between(0, 3),
            2 => dice.between(0, 2 * maximum),
            3 if dice.once_in(48) => dice.between(0, 200_000),
            3 => 0,
            4 => dice.between(0, 80),
            _ => grid * dice.between(0, maximum / grid),
        };
        tick = tick.saturating_add(step);
    }
    events
}

/// In some files the last events, or all of them, are refused, and the last ones come late: the
/// tick of the last line must not follow them, unless nothing is sent.
fn refuse_some(dice: &mut Dice, events: &mut [Event]) {
    let last = match dice.between(0, 15) {
        0 => events.len(),
        1..=4 => dice.between(1, 3) as usize,
        _ => 0,
    };
    let late = dice.one_of(&[0, 1, 1_000, 1 << 24]);
    for event in events.iter_mut().rev().take(last) {
        event.0 = event.0.saturating_add(late);
        (event.1, event.2) = dice.one_of(&[(event.1, 0), (16, 1), (99, 0), (0, 9_217)]);
    }
}

/// Mostly a flow of the table; sometimes one at or above n.
fn flow_number(dice: &mut Dice, n: u32, favoured: bool) -> u16 {
    if dice.once_in(32) {
        let any = dice.between(0, 65_535);
        return dice.one_of(&[n, n + 1, 16, 32_768, 65_535, any]) as u16;
    }
    let flow = dice.between(0, n - 1);
    let number = if favoured && !dice.once_in(4) {
        0
    } else {
        flow
    };
    number as u16
}

/// Mostly 1 to the maximum, on the grid; sometimes 0 or above the maximum.
fn packet_length(dice: &mut Dice, maximum: u32, grid: u32) -> u16 {
    if dice.once_in(24) {
        let above = dice.between(maximum, 65_535);
        return dice.one_of(&[0, 0, maximum + 1, 65_535, above]) as u16;
    }
    let any = dice.between(1, maximum);
    let on_grid = grid * dice.between(1, (maximum / grid).max(1));
    let short = dice.between(1, maximum.min(64));
    dice.one_of(&[on_grid, on_grid, any.min(on_grid), short, maximum]) as u16
}

/// Tables in either order, gaps before, between and after them; an empty event table anywhere.
fn lay_out(dice: &mut Dice, draft: &mut Draft) {
    let used = 20 + draft.flow_bytes() + draft.event_bytes();
    let most = ((12_288 - used) / 12).min(dice.one_of(&[0, 2, 20, 330]));
    let gaps = [4 * dice.between(0, most), 4 * dice.between(0, most)];
    if dice.once_in(2) {
        draft.flow_at = 20 + gaps[0];
        draft.event_at = draft.flow_at + draft.flow_bytes() + gaps[1];
    } else {
        draft.event_at = 20 + gaps[0];
        draft.flow_at = draft.event_at + draft.event_bytes() + gaps[1];
    }
    let end = used + gaps[0] + gaps[1];
    let after = dice.between(0, 4 * most);
    let full = dice.once_in(20);
    draft.resize(if full { 12_288 } else { end + after } as usize);
    if draft.events.is_empty() {
        draft.event_at = 20 + 4 * dice.between(0, (draft.size as u32 - 20) / 4);
    }
}

/// Valid files of exactly 12,288 bytes, and each again with one byte more.
fn limit_files(dice: &mut Dice, files: &mut Vec<File>) {
    for k in 0..6 {
        let flows = flow_table(dice, false);
        let events = event_table(dice, &flows, 512 * (k % 3));
        let mut draft = Draft::of(flows, events);
        draft.overhead = [0, 20, 64][k as usize / 2];
        draft.resize(12_288);
        files.push(file(format!("valid-limit-{k}"), draft.bytes(dice), None));
        draft.resize(12_289);
        let name = format!("above-limit-{k}");
        files.push(file(name, draft.bytes(dice), Some((9, 0))));
    }
}

/// Valid files next to a fault: tables that just touch, or end with the file; an event table
/// without records at every place it may have.
fn neighbour_files(dice: &mut Dice, files: &mut Vec<File>) {
    let mut drafts = Vec::new();
    for [flow_at, event_at] in [[20, 60], [92, 20], [24, 64], [96, 24]] {
        let mut draft = small();
        draft.flow_at = flow_at;
        draft.event_at = event_at;
        draft.resize((flow_at + 40).max(event_at + 72) as usize);
        drafts.push(draft);
    }
    for event_at in (20..=68).step_by(4) {
        let mut draft = small();
        draft.events.clear();
        draft.event_at = event_at;
        draft.flow_at = 24;
        draft.resize(68);
        drafts.push(draft);
    }
    for (k, draft) in drafts.iter().enumerate() {
        files.push(file(format!("valid-next-{k}"), draft.bytes(dice), None));
    }
}

// ---- damaged files ----

/// Five flows and nine events, without gaps.
fn small() -> Draft {
    let flows = vec![(500, 800), (300, 900), (400, 600), (1, 64), (65_535, 9_216)];
    let events = (1..=9).map(|k| (100 * k, (k % 5) as u16, 10 * k as u16));
    Draft::of(flows, events.collect())
}

/// The same with an overhead, and with room for 17 flows and 1,025 events, so that too many of them can
/// really be there.
fn roomy(events_first: bool) -> Draft {
    let mut draft = small();
    (draft.flow_at, draft.event_at) = if events_first { (8_232, 24) } else { (24, 168) };
    draft.overhead = if events_first { 64 } else { 20 };
    draft.resize(8_380);
    draft
}

/// A fault: the refusal it gives when alone, and how it is put into a draft. Two faults of the same
/// `part` would undo each other.
struct Fault {
    number: u32,
    place: usize,
    part: &'static str,
    name: String,
    put: Box<dyn Fn(&mut Draft)>,
}

impl Fault {
    /// The order in which a run tests for faults: 9, 10, 5, 11, 12, 6 and 7 by flow, 13.
    fn rank(&self) -> (usize, usize, u32) {
        let order = [9, 10, 5, 11, 12, 6, 13];
        let class = if self.number == 7 { 6 } else { self.number };
        let rank = order.iter().position(|&number| number == class);
        (rank.unwrap_or(order.len()), self.place, self.number)
    }
}

/// Puts faults into a draft. The one that is to be found first is put in last, so that no other can
/// cover it.
fn damaged(dice: &mut Dice, mut draft: Draft, faults: &[&Fault]) -> File {
    let mut faults = faults.to_vec();
    faults.sort_by_key(|fault| std::cmp::Reverse(fault.rank()));
    for fault in &faults {
        (fault.put)(&mut draft);
    }
    let names: Vec<&str> = faults.iter().map(|fault| fault.name.as_str()).collect();
    let meant = faults.last().map(|fault| (fault.number, fault.place));
    file(names.join("+"), draft.bytes(dice), meant)
}

fn fault(number: u32, part: &'static str, name: &str, put: impl Fn(&mut Draft) + 'static) -> Fault {
    Fault {
        number,
        place: 0,
        part,
        name: format!("{number}-{name}"),
        put: Box::new(put),
    }
}

/// Each fault alone, with the tables in either order.
fn damaged_files(dice: &mut Dice, files: &mut Vec<File>) {
    let mut faults = header_faults();
    faults.extend(offset_faults());
    faults.extend(sharing_faults());
    faults.extend(empty_table_faults());
    for flow in 0..5 {
        faults.extend([0, 65_536, u32::MAX].map(|value| quantum_fault(flow, value)));
        faults.extend([0, 9_217, u32::MAX].map(|value| maximum_fault(flow, value)));
    }
    faults.extend((1..9).map(tick_fault));
    for events_first in [false, true] {
        for fault in &faults {
            let mut file = damaged(dice, roomy(events_first), &[fault]);
            file.name = format!("alone-{}-{}", file.name, events_first as u8);
            files.push(file);
        }
    }
}

/// Every two faults in one file, a few of 6, 7 and 13 standing for all of these.
fn pair_files(dice: &mut Dice, files: &mut Vec<File>) {
    let mut faults = header_faults();
    faults.extend(offset_faults());
    faults.extend(sharing_faults());
    faults.extend(empty_table_faults());
    faults.extend([0, 2, 4].map(|flow| quantum_fault(flow, 0)));
    faults.extend([0, 2, 4].map(|flow| maximum_fault(flow, 9_217)));
    faults.extend([1, 4, 8].map(tick_fault));
    for (k, first) in faults.iter().enumerate() {
        for second in &faults[..k] {
            let apart = first.part != second.part || first.place != second.place;
            if apart {
                let mut file = damaged(dice, roomy(false), &[first, second]);
                file.name.insert_str(0, "pair-");
                files.push(file);
            }
        }
    }
}

/// 6 and 7 at every two flows, in both orders, and at the same flow.
fn range_pair_files(dice: &mut Dice, files: &mut Vec<File>) {
    for first in 0..5 {
        for second in 0..5 {
            let (low, high) = (quantum_fault(first, 65_536), maximum_fault(second, 0));
            let mut file = damaged(dice, small(), &[&low, &high]);
            file.name.insert_str(0, "range-");
            files.push(file);
        }
    }
}

/// A file at all its limits, 16 flows and 1,024 events in 8,340 bytes: as it is, with each overhead, with
/// 6 and 7 at every flow, and with 13 at the first event that can have it, in the middle and at the last.
fn wide_files(dice: &mut Dice, files: &mut Vec<File>) {
    let events = (1..=1_024).map(|k| (10 * k, (k % 16) as u16, 20));
    let mut draft = Draft::of(vec![(65_535, 9_216); 16], events.collect());
    for overhead in [0, 1, 20, 64] {
        draft.overhead = overhead;
        let name = format!("valid-wide-{overhead}");
        files.push(file(name, draft.bytes(dice), None));
    }
    let mut faults = Vec::new();
    for flow in 0..16 {
        faults.extend([0, 65_536, u32::MAX].map(|value| quantum_fault(flow, value)));
        faults.extend([0, 9_217, u32::MAX].map(|value| maximum_fault(flow, value)));
    }
    faults.extend([1, 512, 1_023].map(tick_fault));
    for fault in &faults {
        let mut file = damaged(dice, draft.clone(), &[fault]);
        file.name.insert_str(0, "wide-");
        files.push(file);
    }
}

/// 9, 10, 5 and 11.
fn header_faults() -> Vec<Fault> {
    let mut faults = vec![
        fault(9, "size", "short", |d| d.resize(19)),
        fault(9, "size", "long", |d| d.resize(12_289)),
        fault(9, "size", "stated-more", |d| d.stated += 1),
        fault(9, "size", "stated-less", |d| d.stated -= 1),
        fault(9, "size", "stated-0", |d| d.stated = 0),
    ];
    for value in [65, 66, 1 << 8, (1 << 24) + 20, u32::MAX] {
        let name = value.to_string();
        faults.push(fault(10, "overhead", &name, move |d| d.overhead = value));
    }
    for count in [0, 17, 18, 256, 65_535] {
        faults.push(fault(5, "flows", &count.to_string(), move |d| {
            d.flow_count = count;
            d.flows.resize(count.min(17).into(), (500, 800));
        }));
    }
    for count in [1_025, 2_048, 65_535] {
        faults.push(fault(11, "events", &count.to_string(), move |d| {
            d.events.resize(count, (u32::MAX, 0, 1));
        }));
    }
    faults
}

/// One fault for each table: its offset becomes what `to` makes of it and of the table's bytes.
fn moved(name: String, to: impl Fn(u32, u32) -> u32 + Copy + 'static) -> [Fault; 2] {
    let flows = move |d: &mut Draft| d.flow_at = to(d.flow_at, d.flow_bytes());
    let events = move |d: &mut Draft| d.event_at = to(d.event_at, d.event_bytes());
    [
        fault(12, "flow-at", &format!("flows-{name}"), flows),
        fault(12, "event-at", &format!("events-{name}"), events),
    ]
}

/// 12 by an offset: not a multiple of 4, below 20, past the end by one record or by 4 bytes, and at
/// the edges of 32 bits, where a sum could wrap to 0, to 20 or to some other place in the file.
fn offset_faults() -> Vec<Fault> {
    let mut faults = Vec::new();
    for more in [1, 2, 3] {
        faults.extend(moved(format!("plus-{more}"), move |at, _| at + more));
    }
    for to in [0, 16, 8_384, 0x7FFF_FFFC, 0xFFFF_FFF8, 0xFFFF_FFFC] {
        faults.extend(moved(format!("at-{to}"), move |_, _| to));
    }
    // where the table's end comes to lie; the file has 8,380 bytes
    let ends: [(&str, u32); 4] = [
        ("8388", 8_388),
        ("8384", 8_384),
        ("2^32", 0),
        ("2^32+20", 20),
    ];
    for (name, end) in ends {
        let to = move |_, bytes| end.wrapping_sub(bytes);
        faults.extend(moved(format!("ending-at-{name}"), to));
    }
    faults
}

/// 12 by tables that share one record, 4 bytes, or the whole of one of them.
fn sharing_faults() -> Vec<Fault> {
    vec![
        fault(12, "event-at", "share-last-flow", |d| {
            d.event_at = d.flow_at.wrapping_add(d.flow_bytes()).wrapping_sub(8)
        }),
        fault(12, "event-at", "share-half-a-flow", |d| {
            d.event_at = d.flow_at.wrapping_add(d.flow_bytes()).wrapping_sub(4)
        }),
        fault(12, "flow-at", "share-last-event", |d| {
            d.flow_at = d.event_at.wrapping_add(d.event_bytes()).wrapping_sub(8)
        }),
        fault(12, "flow-at", "flows-inside-events", |d| {
            d.flow_at = d.event_at.wrapping_add(8)
        }),
        fault(12, "event-at", "events-inside-flows", |d| {
            d.events.truncate(2);
            d.event_at = d.flow_at.wrapping_add(16)
        }),
        fault(12, "event-at", "same-offset", |d| d.event_at = d.flow_at),
    ]
}

/// 12 by the offset of an event table without records.
fn empty_table_faults() -> Vec<Fault> {
    let offsets = [
        0,
        16,
        21,
        22,
        23,
        8_379,
        8_384,
        0x7FFF_FFFC,
        0xFFFF_FFFC,
        u32::MAX,
    ];
    let empty = |at: u32| {
        fault(12, "event-at", &format!("empty-at-{at}"), move |d| {
            d.events.clear();
            d.event_at = at;
        })
    };
    offsets.map(empty).into()
}

fn quantum_fault(flow: usize, value: u32) -> Fault {
    let name = format!("quantum-{value}-of-{flow}");
    Fault {
        place: flow,
        ..fault(6, "quantum", &name, move |d| d.flows[flow].0 = value)
    }
}

fn maximum_fault(flow: usize, value: u32) -> Fault {
    let name = format!("maximum-{value}-of-{flow}");
    Fault {
        place: flow,
        ..fault(7, "maximum", &name, move |d| d.flows[flow].1 = value)
    }
}

fn tick_fault(event: usize) -> Fault {
    let put = move |d: &mut Draft| d.events[event].0 = d.events[event - 1].0 - 1;
    Fault {
        place: event,
        ..fault(13, "tick", &format!("tick-of-{event}"), put)
    }
}

// ---- senseless files ----

/// Files too short, or of zeros alone: all refused by their length.
fn short_files(files: &mut Vec<File>) {
    for size in [0, 1, 19, 20, 21, 92, 12_288, 12_289] {
        files.push(file(format!("zeros-{size}"), vec![0; size], Some((9, 0))));
    }
    for size in 0..92 {
        let bytes = worked()[..size].to_vec();
        files.push(file(format!("cut-{size}"), bytes, Some((9, 0))));
    }
}

/// The worked example with one byte changed, at every position; with an overhead of 20, in the header.
fn changed_files(files: &mut Vec<File>) {
    for (overhead, end) in [(0, 92), (20, 20)] {
        for (at, change) in (0..end).flat_map(|at| [0x01, 0x04, 0x80, 0xFF].map(|by| (at, by))) {
            let mut bytes = charged_worked(overhead);
            bytes[at] ^= change;
            let name = format!("changed-{overhead}-{at}-{change}");
            files.push(file(name, bytes, None));
        }
    }
}

/// Random bytes; most have a header that leads further than refusal 9.
fn random_files(dice: &mut Dice, files: &mut Vec<File>) {
    for k in 0..1_000 {
        let size = dice.between(0, 400) as usize;
        let mut bytes: Vec<u8> = (0..size).map(|_| dice.next() as u8).collect();
        if k % 4 != 0 {
            put(&mut bytes, 12, &(size as u32).to_le_bytes());
            let overhead = dice.one_of(&[0, 0, 0, 1, 20, 64, 65, 1 << 16]);
            put(&mut bytes, 16, &u32::to_le_bytes(overhead));
        }
        if k % 4 > 1 {
            put(&mut bytes, 0, &[dice.between(0, 18) as u8, 0]);
            put(&mut bytes, 2, &[dice.between(0, 20) as u8, 0]);
            let offsets = [dice.between(4, 100), dice.between(4, 100)];
            put(&mut bytes, 4, &(4 * offsets[0]).to_le_bytes());
            put(&mut bytes, 8, &(4 * offsets[1]).to_le_bytes());
        }
        // small numbers in the body make some of these files valid
        if k % 4 == 3 {
            for (at, byte) in bytes.iter_mut().enumerate().skip(20) {
                *byte &= [0xFF, 0x1F, 0, 0][at % 4];
            }
        }
        files.push(file(format!("random-{k}"), bytes, None));
    }
}
