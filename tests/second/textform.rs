//! The text form of a run file, written from docs/FILES.md alone: `make` gives the bytes of a text or
//! its first fault, `show` the text of a file's bytes.

// each program that takes this file in uses only a part of it
#![allow(dead_code)]

use crate::drr;

/// The most bytes that a text may have.
const LONGEST: usize = 131_072;
const FLOWS: usize = 16;
const EVENTS: usize = 1_024;

/// What is told of a text: the number of a line, from 1, and what was expected there.
#[derive(Clone, Copy, PartialEq, Debug)]
pub struct Fault {
    pub line: usize,
    pub expected: &'static str,
}

/// A field of a record: its least and its most, and what is expected where it is missing, is no number or
/// is out of range.
type Field = (u32, u32, &'static str);

const OVERHEAD_FIELDS: [Field; 1] = [(0, 64, "an overhead, 0 to 64")];

const FLOW_FIELDS: [Field; 2] = [
    (1, 65_535, "a quantum, 1 to 65535"),
    (1, 9_216, "a maximum, 1 to 9216"),
];

const EVENT_FIELDS: [Field; 3] = [
    (0, 4_294_967_295, "a tick, 0 to 4294967295"),
    (0, 65_535, "a flow, 0 to 65535"),
    (0, 65_535, "a length, 0 to 65535"),
];

/// A line that has words says one of these.
#[derive(Clone, Copy)]
enum Record {
    Overhead(u32),
    Flow(u32, u32),
    Event(drr::Event),
}

/// The run file that a text says, or the text's first fault.
pub fn make(text: &[u8]) -> Result<Vec<u8>, Fault> {
    test_size(text)?;
    let mut records = Vec::new();
    for (number, line) in text.split(newline).enumerate() {
        let words = words(line);
        if words.is_empty() {
            continue;
        }
        let record = record(&words).and_then(|record| placed(&records, record));
        let line = number + 1;
        records.push(record.map_err(|expected| Fault { line, expected })?);
    }
    let [_, flows, _] = counts(&records);
    if flows == 0 {
        let line = text.split(newline).count();
        let expected = "a flow before any event";
        return Err(Fault { line, expected });
    }
    Ok(bytes(&records))
}

fn newline(byte: &u8) -> bool {
    *byte == b'\n'
}

/// A longer text is told before any other fault, in the line of the first byte too many.
fn test_size(text: &[u8]) -> Result<(), Fault> {
    if text.len() <= LONGEST {
        return Ok(());
    }
    let ended = text[..LONGEST].iter().filter(|byte| newline(byte));
    Err(Fault {
        line: ended.count() + 1,
        expected: "the text to end by byte 131072",
    })
}

/// The words of a line, up to its comment.
fn words(line: &[u8]) -> Vec<&[u8]> {
    let said = line.split(|&byte| byte == b'#').next().unwrap_or(line);
    let parts = said.split(|byte| b" \t\r".contains(byte));
    parts.filter(|part| !part.is_empty()).collect()
}

/// What the words of a line say, whatever stands in the lines before it.
fn record(words: &[&[u8]]) -> Result<Record, &'static str> {
    match words[0] {
        b"overhead" => {
            let [overhead] = numbers(&words[1..], OVERHEAD_FIELDS)?;
            Ok(Record::Overhead(overhead))
        }
        b"flow" => {
            let numbers = numbers(&words[1..], FLOW_FIELDS)?;
            Ok(Record::Flow(numbers[0], numbers[1]))
        }
        b"event" => {
            let numbers = numbers(&words[1..], EVENT_FIELDS)?;
            Ok(Record::Event(drr::Event {
                tick: numbers[0],
                flow: numbers[1] as u16,
                length: numbers[2] as u16,
            }))
        }
        _ => Err("overhead, flow or event"),
    }
}

/// The numbers of a record, from left to right; then nothing may stand behind them.
fn numbers<const N: usize>(words: &[&[u8]], fields: [Field; N]) -> Result<[u32; N], &'static str> {
    let mut numbers = [0; N];
    for (place, (least, most, expected)) in fields.into_iter().enumerate() {
        let number = words.get(place).and_then(|word| number(word));
        let inside = number.filter(|number| (least..=most).contains(number));
        numbers[place] = inside.ok_or(expected)?;
    }
    if words.len() > N {
        return Err("the end of the line");
    }
    Ok(numbers)
}

/// The number that a word of digits alone says; none either where it does not fit into 32 bits, which is more
/// than any field may have.
fn number(word: &[u8]) -> Option<u32> {
    let digits = word.iter().all(u8::is_ascii_digit);
    let word = std::str::from_utf8(word).ok()?;
    // the library's reader would take a sign too
    word.parse().ok().filter(|_| digits)
}

/// How many overheads, flows and events there are among records.
fn counts(records: &[Record]) -> [usize; 3] {
    let mut counts = [0; 3];
    for record in records {
        let kind = match record {
            Record::Overhead(_) => 0,
            Record::Flow(..) => 1,
            Record::Event(_) => 2,
        };
        counts[kind] += 1;
    }
    counts
}

/// The record, if it may stand behind those before it.
fn placed(before: &[Record], record: Record) -> Result<Record, &'static str> {
    let [overheads, flows, events] = counts(before);
    match (record, before.last()) {
        (Record::Overhead(_), _) if flows > 0 => Err("the overhead before the flows"),
        (Record::Overhead(_), _) if overheads > 0 => Err("at most one overhead"),
        (Record::Flow(..), _) if events > 0 => Err("an event: flows come first"),
        (Record::Flow(..), _) if flows >= FLOWS => Err("at most 16 flows"),
        (Record::Event(_), _) if flows == 0 => Err("a flow before any event"),
        (Record::Event(_), _) if events >= EVENTS => Err("at most 1024 events"),
        (Record::Event(event), Some(Record::Event(last))) if event.tick < last.tick => {
            Err("a tick not below the one before")
        }
        _ => Ok(record),
    }
}

/// The run file without gaps: header, flow table, event table. Among the records the flows come first already,
/// behind the overhead.
fn bytes(records: &[Record]) -> Vec<u8> {
    let mut overhead = 0;
    let mut tables = Vec::new();
    for record in records {
        match record {
            Record::Overhead(said) => overhead = *said,
            Record::Flow(quantum, maximum) => {
                tables.extend([quantum.to_le_bytes(), maximum.to_le_bytes()].concat());
            }
            Record::Event(event) => {
                tables.extend(event.tick.to_le_bytes());
                tables.extend([event.flow.to_le_bytes(), event.length.to_le_bytes()].concat());
            }
        }
    }
    let [_, flows, events] = counts(records);
    let numbers = [flows as u16, events as u16].map(u16::to_le_bytes);
    let [event_table, size] = [flows, flows + events].map(|count| 20 + 8 * count as u32);
    let fields = [20, event_table, size, overhead].map(u32::to_le_bytes);
    [numbers.concat(), fields.concat(), tables].concat()
}

/// What `drrmake` writes to standard output and to standard error.
pub fn made(text: &[u8]) -> (Vec<u8>, String) {
    match make(text) {
        Ok(file) => (file, String::new()),
        Err(Fault { line, expected }) => {
            (Vec::new(), format!("line {line}: expected {expected}\n"))
        }
    }
}

/// What `drrshow` prints for a file: a line for the overhead where it is not 0, for each flow and each event,
/// or the file's refusal.
pub fn show(file: &[u8]) -> String {
    let run = match drr::read(file) {
        Ok(run) => run,
        Err(refused) => return drr::text(&Err(refused)),
    };
    let overhead = (run.overhead != 0).then(|| format!("overhead {}\n", run.overhead));
    let flows = run
        .flows
        .iter()
        .map(|(quantum, maximum)| format!("flow {quantum} {maximum}\n"));
    let events = run
        .events
        .iter()
        .map(|event| format!("event {} {} {}\n", event.tick, event.flow, event.length));
    overhead.into_iter().chain(flows).chain(events).collect()
}

#[cfg(test)]
mod tests {
    use super::*;

    /// The worked example, as docs/FILES.md shows it.
    const WORKED: &str = "flow 500 800\nflow 300 800\nflow 400 600\nevent 0 0 200\nevent 0 0 750\n\
        event 0 1 500\nevent 0 2 400\nevent 100 2 700\nevent 900 1 250\n";

    /// Its bytes, from the hex view there.
    const WORKED_BYTES: &str = "\
        03 00 06 00 14 00 00 00 2c 00 00 00 5c 00 00 00 00 00 00 00 f4 01 00 00 20 03 00 00 2c 01 00 00 \
        20 03 00 00 90 01 00 00 58 02 00 00 00 00 00 00 00 00 c8 00 00 00 00 00 00 00 ee 02 00 00 00 00 \
        01 00 f4 01 00 00 00 00 02 00 90 01 64 00 00 00 02 00 bc 02 84 03 00 00 01 00 fa 00";

    fn worked() -> Vec<u8> {
        let bytes = WORKED_BYTES.split(' ');
        bytes
            .map(|byte| u8::from_str_radix(byte, 16).unwrap())
            .collect()
    }

    /// What a text without a fault says.
    fn says(text: &str) -> drr::RunFile {
        drr::read(&make(text.as_bytes()).unwrap()).unwrap()
    }

    /// Whether a text's fault is told in this line in these words, and its file is empty.
    fn told(text: impl AsRef<[u8]>, line: usize, expected: &str) {
        let words = format!("line {line}: expected {expected}\n");
        assert_eq!(made(text.as_ref()), (Vec::new(), words));
    }

    /// A text of so many flows and events, without a fault where there are not too many.
    fn many(flows: usize, events: usize) -> String {
        "flow 500 800\n".repeat(flows) + &"event 7 0 200\n".repeat(events)
    }

    #[test]
    fn worked_example_made_and_shown() {
        assert_eq!(make(WORKED.as_bytes()), Ok(worked()));
        assert_eq!(show(&worked()), WORKED);
        assert_eq!(made(WORKED.as_bytes()), (worked(), String::new()));
    }

    #[test]
    fn shown_and_made_again() {
        for (flows, events) in [(1, 0), (1, 1), (2, 5), (16, 1_024)] {
            let file = make(many(flows, events).as_bytes()).unwrap();
            assert_eq!(file.len(), 20 + 8 * (flows + events));
            assert_eq!(show(&file), many(flows, events));
            assert_eq!(make(show(&file).as_bytes()), Ok(file));
        }
    }

    #[test]
    fn a_refused_file_shows_its_refusal() {
        assert_eq!(show(&[]), "R 9 0\n");
        let mut file = worked();
        file[36] = 0;
        file[37] = 0;
        assert_eq!(show(&file), "R 6 2\n");
        let mut file = worked();
        file[84..88].fill(0);
        assert_eq!(show(&file), "R 13 5\n");
    }

    #[test]
    fn each_field_from_its_least_to_its_most() {
        let text = "flow 1 1\nflow 65535 9216\nevent 0 0 0\nevent 4294967295 65535 65535\n";
        let run = says(text);
        assert_eq!(run.flows, [(1, 1), (65_535, 9_216)]);
        let most = drr::Event {
            tick: u32::MAX,
            flow: u16::MAX,
            length: u16::MAX,
        };
        assert_eq!(run.events[1], most);
    }

    #[test]
    fn words_parted_by_spaces_tabs_and_carriage_returns() {
        let same = says("flow 500 800\nevent 1 0 200\n");
        assert_eq!(says("\tflow\t\t500 \t 800  \n event\t1 0\t200"), same);
        assert_eq!(says("flow 500 800\r\nevent 1 0 200\r\n"), same);
        assert_eq!(says("flow\r500\r800\n\revent 1\r0 200"), same);
        // nothing else parts words
        for other in ["\u{b}", "\u{c}", "\0", "\u{a0}", "\u{85}", "\u{2028}", ","] {
            told(format!("flow 500 800{other}"), 1, "a maximum, 1 to 9216");
            told(
                format!("{other}\nflow 500 800"),
                1,
                "overhead, flow or event",
            );
        }
    }

    #[test]
    fn comments_and_lines_without_a_word() {
        let same = says("flow 500 800\nevent 1 0 200\n");
        assert_eq!(
            says("# one\n\n  # two # three\n \t\r\nflow 500 800\nevent 1 0 200\n\n#"),
            same
        );
        assert_eq!(
            says("flow 500 800# flow 1 1\nevent 1 0 200 #\n# event 0 0 0"),
            same
        );
        told("flow 500# 800\n", 1, "a maximum, 1 to 9216");
        told("flow#\n", 1, "a quantum, 1 to 65535");
        // a carriage return does not end a comment, nor a line
        told("# a\rflow 500 800", 1, "a flow before any event");
        told("flow 500 800\rflow 300 800", 1, "the end of the line");
    }

    #[test]
    fn numbers_are_digits_alone() {
        for word in [
            "x", "-1", "+1", "1,000", "1_000", "1.0", "1e3", "0x10", "1k", "1;", "\u{663}",
        ] {
            told(format!("flow {word} 800"), 1, "a quantum, 1 to 65535");
            told(format!("flow 500 {word}"), 1, "a maximum, 1 to 9216");
            told(
                format!("flow 1 1\nevent {word} 0 0"),
                2,
                "a tick, 0 to 4294967295",
            );
            told(
                format!("flow 1 1\nevent 0 {word} 0"),
                2,
                "a flow, 0 to 65535",
            );
            told(
                format!("flow 1 1\nevent 0 0 {word}"),
                2,
                "a length, 0 to 65535",
            );
        }
        let zeros = "0".repeat(500);
        let run = says(&format!(
            "flow {zeros}7 {zeros}9216\nevent {zeros} 007 {zeros}4"
        ));
        assert_eq!(run.flows, [(7, 9_216)]);
        assert_eq!(
            run.events,
            [drr::Event {
                tick: 0,
                flow: 7,
                length: 4
            }]
        );
    }

    #[test]
    fn fields_missing_or_out_of_range() {
        told("flow", 1, "a quantum, 1 to 65535");
        told("flow 500", 1, "a maximum, 1 to 9216");
        told("flow 1 1\nevent", 2, "a tick, 0 to 4294967295");
        told("flow 1 1\nevent 0", 2, "a flow, 0 to 65535");
        told("flow 1 1\nevent 0 0", 2, "a length, 0 to 65535");
        let long = "9".repeat(400);
        for above in [
            "65536",
            "4294967296",
            "4294967297",
            "18446744073709551617",
            &long,
        ] {
            told(format!("flow {above} 800"), 1, "a quantum, 1 to 65535");
            told(format!("flow 500 {above}"), 1, "a maximum, 1 to 9216");
            told(
                format!("flow 1 1\nevent 0 {above} 0"),
                2,
                "a flow, 0 to 65535",
            );
            told(
                format!("flow 1 1\nevent 0 0 {above}"),
                2,
                "a length, 0 to 65535",
            );
        }
        told("flow 0 800", 1, "a quantum, 1 to 65535");
        told("flow 500 0", 1, "a maximum, 1 to 9216");
        told("flow 500 9217", 1, "a maximum, 1 to 9216");
        told(
            "flow 1 1\nevent 4294967296 0 0",
            2,
            "a tick, 0 to 4294967295",
        );
    }

    #[test]
    fn another_word_first() {
        for word in [
            "Flow",
            "flows",
            "flo",
            "EVENT",
            "event:",
            "500",
            "flow500",
            "\"flow\"",
            "Overhead",
            "OVERHEAD",
            "overheads",
            "overhea",
            "overhead:",
            "overhead20",
        ] {
            told(format!("{word} 500 800"), 1, "overhead, flow or event");
        }
        told([0xFF, 0xFE, b'\n'], 1, "overhead, flow or event");
    }

    #[test]
    fn an_overhead_made_and_shown() {
        let (left_out, mut file) = (worked(), worked());
        for overhead in 0..=64 {
            file[16] = overhead;
            let text = format!("overhead {overhead}\n{WORKED}");
            assert_eq!(make(text.as_bytes()), Ok(file.clone()));
            // of an overhead of 0 nothing is shown
            let shown = if overhead == 0 { WORKED } else { &text };
            assert_eq!(show(&file), shown);
        }
        assert_eq!(make(WORKED.as_bytes()), Ok(left_out));
        file[16] = 65;
        assert_eq!(show(&file), "R 10 0\n");
        let same = says("overhead 20\nflow 500 800\n");
        assert_eq!(same.overhead, 20);
        assert_eq!(says("#\n\t overhead\r0020 # 21\n\nflow 500 800"), same);
    }

    #[test]
    fn an_overhead_missing_or_out_of_range() {
        let expected = "an overhead, 0 to 64";
        for rest in ["", " ", " # 20", "# 20"] {
            told(format!("overhead{rest}\nflow 500 800"), 1, expected);
        }
        for word in [
            "65",
            "66",
            "256",
            "276",
            "4294967296",
            "x",
            "-1",
            "+1",
            "20,",
            "2_0",
        ] {
            told(format!("overhead {word}\nflow 500 800"), 1, expected);
            told(format!("flow 500 800\noverhead {word} 1"), 2, expected);
        }
        told("overhead 20 1\nflow 500 800", 1, "the end of the line");
        told("overhead 20 flow 500 800", 1, "the end of the line");
    }

    #[test]
    fn one_overhead_before_the_flows() {
        let behind = "the overhead before the flows";
        told("flow 500 800\noverhead 20", 2, behind);
        told("flow 1 1\nevent 0 0 1\noverhead 0", 3, behind);
        told(many(16, 1_024) + "overhead 20", 1_041, behind);
        // a second one that is also behind a flow is told by its place
        told("overhead 20\nflow 500 800\noverhead 20", 3, behind);
        for text in [
            "overhead 20\noverhead 20",
            "overhead 0\n\noverhead 0 # 1\nflow 1 1",
        ] {
            let line = text.lines().count().min(3);
            told(text, line, "at most one overhead");
        }
        told("overhead 20\noverhead 20 1", 2, "the end of the line");
        told("overhead 20\noverhead 65", 2, "an overhead, 0 to 64");
    }

    /// An overhead is no flow, and counts as none.
    #[test]
    fn an_overhead_beside_the_other_rules() {
        told("overhead 20", 1, "a flow before any event");
        told("overhead 20\n", 2, "a flow before any event");
        told("overhead 20\nevent 0 0 200", 2, "a flow before any event");
        let most = "overhead 64\n".to_string() + &many(16, 1_024);
        assert_eq!(make(most.as_bytes()).unwrap().len(), 8_340);
        told(
            "overhead 0\n".to_string() + &many(17, 0),
            18,
            "at most 16 flows",
        );
        told(most + "event 7 0 1", 1_042, "at most 1024 events");
    }

    #[test]
    fn something_behind_the_last_field() {
        told("flow 500 800 0", 1, "the end of the line");
        told("flow 500 800 event 0 0 200", 1, "the end of the line");
        told("flow 500 800\nevent 0 0 200 ;", 2, "the end of the line");
    }

    #[test]
    fn flows_before_events() {
        told("event 0 0 200\nflow 500 800", 1, "a flow before any event");
        told(
            "flow 500 800\nevent 0 0 200\nflow 500 800",
            3,
            "an event: flows come first",
        );
        told("", 1, "a flow before any event");
        told("# nothing\n\n# here\n", 4, "a flow before any event");
        told("# nothing\n\n# here", 3, "a flow before any event");
        told("\n", 2, "a flow before any event");
        told("\n\n ", 3, "a flow before any event");
    }

    #[test]
    fn so_many_flows_and_events() {
        assert_eq!(says(&many(16, 1_024)).events.len(), 1_024);
        told(many(17, 0), 17, "at most 16 flows");
        told(many(16, 1_025), 1_041, "at most 1024 events");
    }

    #[test]
    fn ticks_never_fall() {
        let text = |ticks: [u32; 3]| {
            let lines = ticks.map(|tick| format!("event {tick} 0 1\n"));
            "flow 1 1\n".to_string() + &lines.concat()
        };
        assert_eq!(says(&text([0, 5, 5])).events.len(), 3);
        told(text([6, 5, 5]), 3, "a tick not below the one before");
        told(
            text([0, 4_294_967_295, 4_294_967_294]),
            4,
            "a tick not below the one before",
        );
    }

    #[test]
    fn an_event_that_a_run_refuses_may_stand() {
        assert_eq!(
            says("flow 500 800\nevent 0 1 200\nevent 0 0 801\nevent 0 0 0")
                .events
                .len(),
            3
        );
    }

    #[test]
    fn at_most_131072_bytes() {
        let text = |bytes: usize| WORKED.to_string() + &"#".repeat(bytes - WORKED.len());
        assert_eq!(make(text(131_072).as_bytes()), Ok(worked()));
        let expected = "the text to end by byte 131072";
        told(text(131_073), 10, expected);
        // before any other fault, in the line of the byte too many
        told("\n".repeat(131_073), 131_073, expected);
        told("x ".repeat(70_000), 1, expected);
        let late = "x\n".to_string() + &" ".repeat(131_069);
        told(format!("{late}\nx"), 3, expected);
        told(format!("{late} \nx"), 2, expected);
    }

    #[test]
    fn faults_of_a_line_from_left_to_right() {
        told("fluw x y z", 1, "overhead, flow or event");
        told("flow x y z", 1, "a quantum, 1 to 65535");
        told("flow 500 y z", 1, "a maximum, 1 to 9216");
        told("event 0 x y z", 1, "a flow, 0 to 65535");
        told("event 0 0 y z", 1, "a length, 0 to 65535");
        told("event 0 0 0 z", 1, "the end of the line");
        let full = many(16, 1_024);
        told(full.clone() + "flow 500 0", 1_041, "a maximum, 1 to 9216");
        told(
            full.clone() + "flow 500 800 1",
            1_041,
            "the end of the line",
        );
        told(
            full.clone() + "flow 500 800",
            1_041,
            "an event: flows come first",
        );
        told(
            full.clone() + "event 6 0 200 1",
            1_041,
            "the end of the line",
        );
        told(full + "event 6 0 200", 1_041, "at most 1024 events");
    }

    #[test]
    fn the_first_line_at_fault_is_told() {
        told("flow 500 800\nflow 300,5 800\n", 2, "a quantum, 1 to 65535");
        told(
            "flow 1 1\n\n#\nevent 0 0\nflow x\nfluw",
            4,
            "a length, 0 to 65535",
        );
        told(many(17, 0) + "fluw", 17, "at most 16 flows");
    }
}
