//! Texts by the thousand, the same ones each time: without a fault, with one, with two, and senseless. Where
//! a text's maker knows what it must give, the text says so: the bytes, or the first fault. That is worked
//! out here, and not by either program.

mod dice;

use dice::Dice;
use files::{Event, Flow};

pub struct Text {
    pub name: String,
    pub bytes: Vec<u8>,
    pub meant: Option<Meant>,
}

#[derive(Clone, PartialEq, Debug)]
pub enum Meant {
    /// The run file.
    Made(Vec<u8>),
    /// The line of the first fault, from 1, and what was expected there.
    Told(usize, &'static str),
}

use Meant::{Made, Told};

/// All texts.
pub fn all() -> Vec<Text> {
    let mut dice = Dice(1_212);
    let mut texts = Vec::new();
    good_texts(&mut dice, &mut texts);
    limit_texts(&mut dice, &mut texts);
    fault_texts(&mut dice, &mut texts);
    pair_texts(&mut dice, &mut texts);
    order_texts(&mut dice, &mut texts);
    no_flow_texts(&mut texts);
    size_texts(&mut texts);
    word_texts(&mut dice, &mut texts);
    random_texts(&mut dice, &mut texts);
    changed_texts(&mut dice, &mut texts);
    texts
}

// ---- texts without a fault ----

/// A line's words.
type Line = Vec<String>;

fn line(first: &str, numbers: &[u32]) -> Line {
    let numbers = numbers.iter().map(u32::to_string);
    std::iter::once(first.to_string()).chain(numbers).collect()
}

fn overhead_line(overhead: u32) -> Line {
    line("overhead", &[overhead])
}

fn flow_line((quantum, maximum): Flow) -> Line {
    line("flow", &[quantum, maximum])
}

fn event_line((tick, flow, length): Event) -> Line {
    line("event", &[tick, flow.into(), length.into()])
}

/// An overhead may be left out.
fn lines_of(overhead: Option<u32>, flows: &[Flow], events: &[Event]) -> Vec<Line> {
    let overhead = overhead.map(overhead_line).into_iter();
    let flows = flows.iter().map(|&flow| flow_line(flow));
    let events = events.iter().map(|&event| event_line(event));
    overhead.chain(flows).chain(events).collect()
}

/// A manner of writing lines; each number is how often something is done, once in so many times, 0 for never.
#[derive(Clone, Copy)]
struct Manner {
    /// Blanks before, behind and between the words, more than the one that is needed; of all kinds.
    blanks: u32,
    /// A comment behind the words.
    comments: u32,
    /// A line without a word before the line.
    skipped: u32,
    /// Zeros before a number.
    zeros: u32,
    /// The last line is not ended.
    unended: bool,
}

const PLAIN: Manner = Manner {
    blanks: 0,
    comments: 0,
    skipped: 0,
    zeros: 0,
    unended: false,
};

/// The plain manner, one thing at a time, and all at once.
const MANNERS: [Manner; 7] = [
    PLAIN,
    Manner { blanks: 1, ..PLAIN },
    Manner {
        comments: 1,
        ..PLAIN
    },
    Manner {
        skipped: 2,
        ..PLAIN
    },
    Manner { zeros: 2, ..PLAIN },
    Manner {
        unended: true,
        ..PLAIN
    },
    Manner {
        blanks: 3,
        comments: 4,
        skipped: 4,
        zeros: 6,
        unended: true,
    },
];

const BLANKS: [&str; 8] = [" ", "  ", "\t", "\r", " \t ", "\t\t", "\r\r ", "      \t"];
const COMMENTS: [&str; 7] = [
    "#",
    "# flow 1 1",
    "# overhead 1",
    "## event 0 0 0 #",
    "#x",
    "#\0\u{b}é",
    "# event\r0",
];
const SKIPPED: [&str; 7] = [
    "",
    " ",
    "\t",
    "\r",
    "# overhead 21",
    "# flow 500 800",
    " \t # event 0 0 200 \r",
];
const ZEROS: [&str; 4] = ["0", "00", "0000000000", "00000000000000000000000000000000"];

fn happens(dice: &mut Dice, once_in: u32) -> bool {
    once_in > 0 && dice.once_in(once_in)
}

/// Writes lines in a manner; beside the text the number, from 1, at which each of the lines stands.
fn write(dice: &mut Dice, manner: Manner, lines: &[Line]) -> (Vec<u8>, Vec<usize>) {
    let mut written: Vec<String> = Vec::new();
    let mut numbers = Vec::new();
    for words in lines {
        while happens(dice, manner.skipped) {
            written.push(dice.one_of(&SKIPPED).to_string());
        }
        written.push(write_line(dice, manner, words));
        numbers.push(written.len());
    }
    let mut text = written.join("\n");
    if !manner.unended {
        text.push('\n');
    }
    (text.into_bytes(), numbers)
}

fn write_line(dice: &mut Dice, manner: Manner, words: &[String]) -> String {
    let blank = |dice: &mut Dice, usual: &'static str| match happens(dice, manner.blanks) {
        true => dice.one_of(&BLANKS),
        false => usual,
    };
    let mut line = blank(dice, "").to_string();
    for (place, word) in words.iter().enumerate() {
        if place > 0 {
            line += blank(dice, " ");
        }
        // zeros before anything but a number would make another fault of it
        let number = word.bytes().all(|byte| byte.is_ascii_digit());
        if number && happens(dice, manner.zeros) {
            line += dice.one_of(&ZEROS);
        }
        line += word;
    }
    line += blank(dice, "");
    if happens(dice, manner.comments) {
        line += dice.one_of(&COMMENTS);
    }
    line
}

/// Left out in half of the texts; where it is not, it may be 0.
fn any_overhead(dice: &mut Dice) -> Option<u32> {
    let any = dice.between(0, 64);
    let overhead = dice.one_of(&[0, 1, 9, 10, 20, 64, any]);
    dice.once_in(2).then_some(overhead)
}

fn flow_table(dice: &mut Dice, count: u32) -> Vec<Flow> {
    let mut flow = || {
        let any = (dice.between(1, 65_535), dice.between(1, 9_216));
        let quantum = dice.one_of(&[1, 9, 10, 500, 65_535, any.0, any.0]);
        (quantum, dice.one_of(&[1, 99, 1_500, 9_216, any.1, any.1]))
    };
    (0..count).map(|_| flow()).collect()
}

/// Events of any flow and length, their ticks equal, near, far apart, or up to the last.
fn event_table(dice: &mut Dice, count: u32) -> Vec<Event> {
    let step = dice.one_of(&[0, 1, 9, 1_000, 100_000_000]);
    let mut tick = dice.one_of(&[0, 0, 7, u32::MAX - 20, u32::MAX]);
    let mut event = || {
        let any = dice.next() as u16;
        let flow = dice.one_of(&[0, 0, 1, 2, 15, 16, any, u16::MAX]);
        let length = dice.one_of(&[0, 1, 64, 1_500, 9_216, 9_217, any, u16::MAX]);
        tick = tick.saturating_add(dice.between(0, step));
        (tick, flow, length)
    };
    (0..count).map(|_| event()).collect()
}

/// A text of these, with an overhead or without; one that is left out is 0.
fn good(dice: &mut Dice, name: String, manner: Manner, flows: &[Flow], events: &[Event]) -> Text {
    let overhead = any_overhead(dice);
    let (bytes, _) = write(dice, manner, &lines_of(overhead, flows, events));
    let meant = Some(Made(files::plain(flows, events, overhead.unwrap_or(0))));
    Text { name, bytes, meant }
}

fn good_texts(dice: &mut Dice, texts: &mut Vec<Text>) {
    for k in 0..420 {
        let any = dice.between(1, 16);
        let flows = dice.one_of(&[1, 1, 2, 3, 16, any]);
        let flows = flow_table(dice, flows);
        let few = dice.between(0, 30);
        let events = if k % 14 == 0 {
            dice.between(0, 1_024)
        } else {
            few
        };
        let events = event_table(dice, events);
        let manner = MANNERS[k % MANNERS.len()];
        texts.push(good(dice, format!("good-{k}"), manner, &flows, &events));
    }
}

/// As many flows and events as there may be, and one more of each; each number at its least and its most.
fn limit_texts(dice: &mut Dice, texts: &mut Vec<Text>) {
    for (k, manner) in MANNERS.into_iter().enumerate() {
        let flows = flow_table(dice, 17);
        let events = event_table(dice, 1_025);
        for (f, e) in [(16, 0), (1, 1_024), (16, 1_024)] {
            let name = format!("limit-{f}-{e}-{k}");
            texts.push(good(dice, name, manner, &flows[..f], &events[..e]));
        }
        for (f, e, last, expected) in [
            (17, 0, 16, FLOWS),
            (17, 9, 16, FLOWS),
            (1, 1_025, 1_025, EVENTS),
            (16, 1_025, 1_040, EVENTS),
        ] {
            let overhead = any_overhead(dice);
            let lines = lines_of(overhead, &flows[..f], &events[..e]);
            let (bytes, numbers) = write(dice, manner, &lines);
            let last = last + usize::from(overhead.is_some());
            let meant = Some(Told(numbers[last], expected));
            let name = format!("limit-{f}-{e}-{k}");
            texts.push(Text { name, bytes, meant });
        }
        let flows = [(1, 1), (65_535, 9_216), (1, 9_216), (65_535, 1)];
        let events = [
            (0, 0, 0),
            (0, 65_535, 65_535),
            (u32::MAX, 0, 65_535),
            (u32::MAX, 65_535, 0),
        ];
        let name = format!("limit-numbers-{k}");
        texts.push(good(dice, name, manner, &flows, &events));
    }
}

// ---- texts with faults ----

/// A fault in a line: what it is told as, its rank among the faults of that line, and the change.
struct Fault {
    name: String,
    rank: usize,
    expected: &'static str,
    put: Box<dyn Fn(&mut Line)>,
}

fn fault(
    name: String,
    rank: usize,
    expected: &'static str,
    put: impl Fn(&mut Line) + 'static,
) -> Fault {
    let put = Box::new(put);
    Fault {
        name,
        rank,
        expected,
        put,
    }
}

/// The words that a line may begin with, and for each its fields: least, most, and what is expected.
const FIRST: [&str; 3] = ["overhead", "flow", "event"];
const FIELDS: [&[(u64, u64, &str)]; 3] = [
    &[(0, 64, "an overhead, 0 to 64")],
    &[
        (1, 65_535, "a quantum, 1 to 65535"),
        (1, 9_216, "a maximum, 1 to 9216"),
    ],
    &[
        (0, 4_294_967_295, "a tick, 0 to 4294967295"),
        (0, 65_535, "a flow, 0 to 65535"),
        (0, 65_535, "a length, 0 to 65535"),
    ],
];

/// The rank of what stands behind the fields.
const BEHIND: usize = 9;

const OTHER_WORD: &str = "overhead, flow or event";
const OTHER_WORDS: &str = "Flow flows flo EVENT even event: 0 - flow,1 e \0flow é \u{b}flow \
    Overhead OVERHEAD overheads overhea over overhead: overhead20";

/// The kind of a line, by its first word.
fn kind(line: &Line) -> usize {
    let kind = FIRST.iter().position(|first| *first == line[0]);
    kind.expect("a line that begins well")
}

/// Every fault that a line of this kind can have by itself.
fn faults(kind: usize) -> Vec<Fault> {
    let mut faults = Vec::new();
    for word in OTHER_WORDS.split(' ') {
        let put = move |line: &mut Line| line[0] = word.to_string();
        faults.push(fault(format!("word-{word:?}"), 0, OTHER_WORD, put));
    }
    for (place, &(least, most, expected)) in FIELDS[kind].iter().enumerate() {
        let field = 1 + place;
        let missing = move |line: &mut Line| line.truncate(field);
        faults.push(fault(format!("missing-{field}"), field, expected, missing));
        for word in wrong_numbers(least, most) {
            let start: String = word.chars().take(24).collect();
            let name = format!("field-{field}-{start:?}-{}", word.len());
            let put = move |line: &mut Line| line[field] = word.clone();
            faults.push(fault(name, field, expected, put));
        }
    }
    for word in ["0", "1", "x", ";", "flow", "\0", "é"] {
        let put = move |line: &mut Line| line.push(word.to_string());
        let name = format!("behind-{word:?}");
        faults.push(fault(name, BEHIND, "the end of the line", put));
    }
    faults
}

/// What is no number, and numbers out of range: next to it, and such as are inside when cut to 8, 16, 32 or 64
/// bits.
fn wrong_numbers(least: u64, most: u64) -> Vec<String> {
    let inside = u128::from(least.max(1));
    let above = u128::from(most) + 1;
    let mut numbers = vec![above, (1 << 32) + inside, 1 << 64, (1 << 64) + inside];
    if most <= 255 {
        numbers.push(256 + inside);
    }
    if most <= 65_535 {
        numbers.extend([u128::from(most) * 10, 65_536 + inside, 99_999, 1 << 32]);
    }
    if least > 0 {
        numbers.push(0);
    }
    let mut words: Vec<String> = numbers.iter().map(u128::to_string).collect();
    words.extend(["9".repeat(400), "1".to_string() + &"0".repeat(2_000)]);
    let others = "x -1 +1 1,0 1_0 1.0 1e1 0x1 1k a1 1/ 1: \u{661} 1\0 flow";
    words.extend(others.split(' ').map(String::from));
    words
}

/// Three flows and five events; with an overhead it stands first.
fn base(overhead: Option<u32>) -> Vec<Line> {
    let flows = [(500, 800), (300, 800), (400, 600)];
    let events = [
        (0, 0, 200),
        (0, 1, 500),
        (100, 2, 700),
        (900, 1, 250),
        (901, 7, 0),
    ];
    lines_of(overhead, &flows, &events)
}

fn told(dice: &mut Dice, name: String, lines: &[Line], at: usize, expected: &'static str) -> Text {
    let manner = dice.one_of(&MANNERS);
    let (bytes, numbers) = write(dice, manner, lines);
    let meant = Some(Told(numbers[at], expected));
    Text { name, bytes, meant }
}

/// Each fault alone, in each line, with an overhead before it and without.
fn fault_texts(dice: &mut Dice, texts: &mut Vec<Text>) {
    for base in [base(None), base(Some(20))] {
        for (at, line) in base.iter().enumerate() {
            for fault in faults(kind(line)) {
                let mut lines = base.clone();
                (fault.put)(&mut lines[at]);
                let name = format!("fault-{}-{at}-{}", base.len(), fault.name);
                texts.push(told(dice, name, &lines, at, fault.expected));
            }
        }
    }
}

/// Two faults: in one line, where the one further to the left is told, and in two, where the first line's is.
/// The one that is told is put in last, so that the other cannot cover it.
fn pair_texts(dice: &mut Dice, texts: &mut Vec<Text>) {
    let kinds = [faults(0), faults(1), faults(2)];
    let base = base(Some(20));
    for k in 0..1_000 {
        let last = base.len() as u32 - 1;
        let mut places = [(); 2].map(|_| dice.between(0, last) as usize);
        if k % 3 == 0 {
            places[1] = places[0];
        }
        let mut pair = places.map(|at| {
            let faults = &kinds[kind(&base[at])];
            let any = dice.between(0, faults.len() as u32 - 1);
            (at, &faults[any as usize])
        });
        pair.sort_by_key(|(at, fault)| (*at, fault.rank));
        let [(at, first), (other_at, other)] = pair;
        if (at, first.rank) == (other_at, other.rank) {
            continue;
        }
        let mut lines = base.clone();
        (other.put)(&mut lines[other_at]);
        (first.put)(&mut lines[at]);
        let name = format!("pair-{k}-{at}-{}-{other_at}-{}", first.name, other.name);
        texts.push(told(dice, name, &lines, at, first.expected));
    }
}

/// Records that may not stand where they do: alone, with a fault of their own line, which is told before, and
/// with one in another line.
fn order_texts(dice: &mut Dice, texts: &mut Vec<Text>) {
    for (name, lines, at, expected) in misplaced() {
        texts.push(told(dice, format!("order-{name}"), &lines, at, expected));
        for fault in faults(kind(&lines[at])) {
            let mut with = lines.clone();
            (fault.put)(&mut with[at]);
            // of a line too many, some; of the others all
            if lines.len() < 100 || dice.once_in(12) {
                let name = format!("order-{name}-{}", fault.name);
                texts.push(told(dice, name, &with, at, fault.expected));
            }
        }
        for shift in [1, 2] {
            let mut with = lines.clone();
            with.insert(at + shift.min(with.len() - at), line("fluw", &[1, 1]));
            let then = format!("order-{name}-then-{shift}");
            texts.push(told(dice, then, &with, at, expected));
            if at >= shift {
                with = lines.clone();
                with[at - shift].truncate(1);
                let words = FIELDS[kind(&with[at - shift])][0].2;
                let name = format!("order-{name}-after-{shift}");
                texts.push(told(dice, name, &with, at - shift, words));
            }
        }
    }
}

// what is told of a record that may not stand where it does
const OVERHEAD_BEHIND: &str = "the overhead before the flows";
const OVERHEADS: &str = "at most one overhead";
const FLOW_FIRST: &str = "a flow before any event";
const NO_FLOW_BEHIND: &str = "an event: flows come first";
const FLOWS: &str = "at most 16 flows";
const EVENTS: &str = "at most 1024 events";
const TICK_FALLS: &str = "a tick not below the one before";

/// A name, lines of which one may not stand where it does, its place, and what was expected.
type Misplaced = (String, Vec<Line>, usize, &'static str);

fn misplaced() -> Vec<Misplaced> {
    let mut list = Vec::new();
    let mut add = |name: String, lines, at, expected| list.push((name, lines, at, expected));
    for event in 3..8 {
        let mut lines = base(None);
        let moved = lines.remove(event);
        lines.insert(0, moved);
        add(format!("event-{event}-first"), lines, 0, FLOW_FIRST);
        let mut lines = base(None);
        lines.insert(event + 1, flow_line((1, 1)));
        add(
            format!("flow-after-{event}"),
            lines,
            event + 1,
            NO_FLOW_BEHIND,
        );
    }
    for (event, tick) in [(5, 0), (6, 99), (6, 0), (7, 899), (7, 99)] {
        let mut lines = base(None);
        lines[event - 1][1] = "900".to_string();
        lines[event][1] = tick.to_string();
        add(format!("tick-{event}-{tick}"), lines, event, TICK_FALLS);
    }
    let last = [u32::MAX, u32::MAX - 1].map(|tick| event_line((tick, 0, 1)));
    let lines = [base(None), last.to_vec()].concat();
    add("tick-last".to_string(), lines, 9, TICK_FALLS);
    list.extend(too_many());
    list.extend(misplaced_overheads());
    list
}

/// Overheads behind flows and events, alone and as a second one, which is told by its place then; a second one
/// before any flow, the first and the second 0 or not; an event behind an overhead alone.
fn misplaced_overheads() -> Vec<Misplaced> {
    let mut list = Vec::new();
    for first in [None, Some(0), Some(20)] {
        for behind in [1, 3, 4, 8] {
            let mut lines = base(first);
            let at = behind + usize::from(first.is_some());
            lines.insert(at, overhead_line(if behind % 2 == 0 { 0 } else { 64 }));
            let name = format!("overhead-{first:?}-at-{at}");
            list.push((name, lines, at, OVERHEAD_BEHIND));
        }
    }
    for (first, second) in [(0, 0), (0, 20), (20, 0), (20, 20), (64, 1)] {
        let lines = [
            vec![overhead_line(first), overhead_line(second)],
            base(None),
        ]
        .concat();
        list.push((format!("overheads-{first}-{second}"), lines, 1, OVERHEADS));
    }
    let event = [overhead_line(20), event_line((0, 0, 1))].to_vec();
    list.push(("overhead-event".to_string(), event, 1, FLOW_FIRST));
    list
}

/// One flow or event too many; the second and the fourth break another rule too.
fn too_many() -> [Misplaced; 4] {
    let flows = vec![flow_line((500, 800)); 17];
    let event = event_line((7, 0, 200));
    let mut behind = flows.clone();
    behind.insert(16, event.clone());
    let events = [vec![flow_line((1, 1))], vec![event; 1_025]].concat();
    let mut falling = events.clone();
    falling[1_025][1] = "6".to_string();
    [
        ("flow-17".to_string(), flows, 16, FLOWS),
        ("flow-17-behind".to_string(), behind, 17, NO_FLOW_BEHIND),
        ("event-1025".to_string(), events, 1_025, EVENTS),
        ("event-1025-falling".to_string(), falling, 1_025, EVENTS),
    ]
}

/// Texts that end without a flow; the last line may be an empty one behind the last newline.
fn no_flow_texts(texts: &mut Vec<Text>) {
    for (text, last) in [
        ("", 1),
        (" ", 1),
        ("\n", 2),
        ("\n\n\n", 4),
        ("\n ", 2),
        ("#", 1),
        ("# flow 1 1\n", 2),
        ("# flow 1 1\n\n# event 0 0 0", 3),
        ("\r\n\r\n", 3),
        ("\r", 1),
        ("overhead 20", 1),
        ("overhead 0\n", 2),
        ("#\noverhead 64\n\n# flow 1 1\n ", 5),
    ] {
        let meant = Some(Told(last, FLOW_FIRST));
        let bytes = text.as_bytes().to_vec();
        texts.push(Text {
            name: format!("no-flow-{text:?}"),
            bytes,
            meant,
        });
    }
}

/// Texts of the most bytes, and of one more and many more: these are told before any other fault.
fn size_texts(texts: &mut Vec<Text>) {
    let most = 131_072;
    for (k, filled) in [" ", "#", "\n", "#x\n", "\t\r# \n"].into_iter().enumerate() {
        for size in [most - 1, most, most + 1, most + 2, 2 * most] {
            for first in ["", "fluw\n"] {
                let mut text = format!("{first}flow 500 800\nevent 1 0 200\n");
                text += &filled.repeat(size / filled.len());
                text.truncate(size);
                let meant = if size > most {
                    let ended = text[..most].matches('\n').count();
                    Told(1 + ended, "the text to end by byte 131072")
                } else if first.is_empty() {
                    Made(files::plain(&[(500, 800)], &[(1, 0, 200)], 0))
                } else {
                    Told(1, OTHER_WORD)
                };
                let name = format!("size-{k}-{size}-{}", first.len());
                let bytes = text.into_bytes();
                texts.push(Text {
                    name,
                    bytes,
                    meant: Some(meant),
                });
            }
        }
    }
}

// ---- senseless texts ----

/// The bytes that the text form has a use for.
const USEFUL: &[u8] = b"overheadflowevent0123456789 \t\r\n#";

const NUMBERS: [&str; 11] = [
    "0",
    "1",
    "7",
    "0064",
    "0500",
    "9216",
    "9217",
    "65535",
    "65536",
    "4294967295",
    "4294967296",
];
const SIGNS: [&str; 12] = [
    " ", "\n", "#", "\t", "\r", "-", "x", "overhead", "flow", "event", "\n\n", "",
];

/// Words and signs of the text form in any order: lines that begin well, and often end so.
fn word_texts(dice: &mut Dice, texts: &mut Vec<Text>) {
    for k in 0..1_000 {
        let mut text = "overhead 20\n".repeat(usize::from(k % 4 == 0));
        text += &"flow 500 800\n".repeat(usize::from(k % 3 > 0));
        for _ in 0..dice.between(1, 8) {
            // an overhead seldom: behind a flow it ends all
            let record = dice.one_of(&[1, 2, 2]);
            let kind = if dice.once_in(12) { 0 } else { record };
            text += FIRST[kind];
            for _ in FIELDS[kind] {
                text += " ";
                text += dice.one_of(&NUMBERS[..if k % 2 == 0 { 6 } else { 11 }]);
            }
            if dice.once_in(6) {
                text += dice.one_of(&SIGNS);
            }
            text += "\n";
        }
        texts.push(Text {
            name: format!("words-{k}"),
            bytes: text.into_bytes(),
            meant: None,
        });
    }
}

/// Any bytes, and any of the useful ones.
fn random_texts(dice: &mut Dice, texts: &mut Vec<Text>) {
    for k in 0..300 {
        let size = dice.between(0, 200);
        let byte = |dice: &mut Dice| match k % 2 {
            0 => dice.next() as u8,
            _ => dice.one_of(USEFUL),
        };
        let bytes = (0..size).map(|_| byte(dice)).collect();
        texts.push(Text {
            name: format!("random-{k}"),
            bytes,
            meant: None,
        });
    }
}

/// Texts without a fault in which one to three bytes are changed, put in or taken out.
fn changed_texts(dice: &mut Dice, texts: &mut Vec<Text>) {
    for k in 0..1_500 {
        let (flows, events) = (dice.between(1, 4), dice.between(0, 6));
        let overhead = any_overhead(dice);
        let lines = lines_of(
            overhead,
            &flow_table(dice, flows),
            &event_table(dice, events),
        );
        let (mut bytes, _) = write(dice, MANNERS[k % MANNERS.len()], &lines);
        for _ in 0..dice.one_of(&[1, 1, 2, 3]) {
            let at = dice.between(0, bytes.len() as u32 - 1) as usize;
            let any = dice.next() as u8;
            let useful = dice.one_of(USEFUL);
            let byte = dice.one_of(&[useful, any]);
            match dice.between(0, 2) {
                0 => bytes[at] = byte,
                1 => bytes.insert(at, byte),
                _ => drop(bytes.remove(at)),
            }
        }
        texts.push(Text {
            name: format!("changed-{k}"),
            bytes,
            meant: None,
        });
    }
}
