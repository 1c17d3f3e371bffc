//! The stored cases: small run files, each with the listing it must give, and the one with the bytes
//! waiting.
//!
//! `cases --write DIR` writes them and their README; `cases DRRRUN DIR` runs DRRRUN, without a word and
//! with `--waiting`, and the second program on each stored file and compares with the stored listings.

use std::io::{Error, Result};
use std::path::Path;
use std::process::exit;

mod drr;
mod process;

struct Case {
    name: &'static str,
    says: &'static str,
    file: Vec<u8>,
    /// Lines worked out by hand from the requirement; the listing has them in this order.
    telling: &'static [&'static str],
    /// The same of the listing with the bytes waiting.
    waiting: &'static [&'static str],
}

impl Case {
    /// The file's overhead, in the last four bytes of its header.
    fn overhead(mut self, overhead: u32) -> Case {
        self.file[16..20].copy_from_slice(&overhead.to_le_bytes());
        self
    }

    fn waiting(self, waiting: &'static [&'static str]) -> Case {
        Case { waiting, ..self }
    }
}

fn case(
    name: &'static str,
    says: &'static str,
    flows: &[files::Flow],
    events: &[files::Event],
    telling: &'static [&'static str],
) -> Case {
    Case {
        name,
        says,
        file: files::plain(flows, events, 0),
        telling,
        waiting: &[],
    }
}

fn cases() -> Vec<Case> {
    let mut cases = document_cases();
    cases.extend(table_cases());
    cases.extend(least_quantum_cases());
    cases.extend(quantum_cases());
    cases.extend(maximum_cases());
    cases.extend(length_cases());
    cases.extend(waiting_cases());
    cases.extend(tick_cases());
    cases.extend(refused_cases());
    cases.extend([unknown_flow_case(), unknown_flow_of_16_case()]);
    cases.extend([overhead_1_case(), overhead_20_case()]);
    cases.extend([overhead_20_worked_case(), overhead_64_case()]);
    cases.extend(overhead_refused_cases());
    cases
}

/// The two whose whole listing the requirement prints.
fn document_cases() -> Vec<Case> {
    let worked = Case {
        name: "worked",
        says: "the worked example",
        file: files::worked(),
        telling: &[
            "S 0 0 200 300 1",
            "D 100 2 700 3",
            "S 200 2 400 0 2",
            "S 600 0 750 50 1",
            "S 1350 1 500 100 1",
            "S 1850 1 250 150 1",
            "E 2100 5 1",
        ],
        waiting: &[
            "S 0 0 200 300 1 750",
            "D 100 2 700 3 400",
            "S 200 2 400 0 2 0",
            "S 600 0 750 50 1 0",
            "S 1350 1 500 100 1 250",
            "S 1850 1 250 150 1 0",
            "E 2100 5 1",
        ],
    };
    let says = "a file with no events";
    let none = case("no-events", says, &[(500, 800)], &[], &["E 0 0 0"]);
    vec![worked, none.waiting(&["E 0 0 0"])]
}

fn table_cases() -> Vec<Case> {
    let events: Vec<files::Event> = (0..16).map(|f| (0, f, 10 * (f + 1))).collect();
    vec![
        // lengths 10 to 160 in the order of the flows: the last starts after 10 + 20 + .. + 150
        case(
            "flows-16",
            "16 flows, one packet each",
            &[(160, 160); 16],
            &events,
            &["S 0 0 10 150 1", "S 1200 15 160 0 1", "E 1360 16 0"],
        )
        .waiting(&["S 0 0 10 150 1 0", "S 1200 15 160 0 1 0", "E 1360 16 0"]),
        case(
            "flows-17",
            "17 flows: refused",
            &[(160, 160); 17],
            &events,
            &["R 5 0"],
        )
        .waiting(&["R 5 0"]),
    ]
}

fn quantum_cases() -> Vec<Case> {
    let three = [(0, 0, 9_216); 3];
    vec![
        case(
            "quantum-0",
            "quantum 0 of flow 1: refused",
            &[(500, 800), (0, 800)],
            &three,
            &["R 6 1"],
        )
        .waiting(&["R 6 1"]),
        case(
            "quantum-65535",
            "quantum 65,535: three of the longest packets in one visit",
            &[(65_535, 9_216)],
            &three,
            &[
                "S 0 0 9216 56319 1",
                "S 9216 0 9216 47103 0",
                "S 18432 0 9216 37887 0",
                "E 27648 3 0",
            ],
        )
        .waiting(&[
            "S 0 0 9216 56319 1 18432",
            "S 9216 0 9216 47103 0 9216",
            "S 18432 0 9216 37887 0 0",
        ]),
        case(
            "quantum-65536",
            "quantum 65,536: refused",
            &[(65_536, 9_216)],
            &three,
            &["R 6 0"],
        )
        .waiting(&["R 6 0"]),
    ]
}

fn least_quantum_cases() -> Vec<Case> {
    let two = [(0, 0, 3), (0, 0, 2)];
    vec![
        case(
            "quantum-1",
            "quantum 1: a visit for each byte",
            &[(1, 800)],
            &two,
            &["S 0 0 3 0 3", "S 3 0 2 0 2", "E 5 2 0"],
        )
        .waiting(&["S 0 0 3 0 3 2", "S 3 0 2 0 2 0", "E 5 2 0"]),
        case(
            "quantum-1-packet-9216",
            "quantum 1 with a packet of 9,216: as many visits alone on the line",
            &[(1, 9_216)],
            &[(0, 0, 9_216)],
            &["S 0 0 9216 0 9216", "E 9216 1 0"],
        )
        .waiting(&["S 0 0 9216 0 9216 0", "E 9216 1 0"]),
    ]
}

fn maximum_cases() -> Vec<Case> {
    let long = [(0, 0, 9_216)];
    vec![
        case(
            "maximum-0",
            "maximum 0 of flow 1: refused",
            &[(500, 800), (500, 0)],
            &long,
            &["R 7 1"],
        )
        .waiting(&["R 7 1"]),
        case(
            "maximum-1",
            "maximum 1: a packet of 1 is sent, one of 2 refused",
            &[(500, 1)],
            &[(0, 0, 1), (0, 0, 2)],
            &["D 0 0 2 3", "S 0 0 1 499 1", "E 1 1 1"],
        )
        .waiting(&["D 0 0 2 3 1", "S 0 0 1 499 1 0", "E 1 1 1"]),
        // six quanta are 9,000, seven are 10,500
        case(
            "maximum-9216",
            "maximum 9,216: the longest packet, seven quanta of 1,500",
            &[(1_500, 9_216)],
            &long,
            &["S 0 0 9216 1284 7", "E 9216 1 0"],
        )
        .waiting(&["S 0 0 9216 1284 7 0", "E 9216 1 0"]),
        case(
            "maximum-9217",
            "maximum 9,217: refused",
            &[(1_500, 9_217)],
            &long,
            &["R 7 0"],
        )
        .waiting(&["R 7 0"]),
    ]
}

/// Under maximum 9,216.
fn length_cases() -> Vec<Case> {
    let with = |name, says, length, telling| {
        case(name, says, &[(10_000, 9_216)], &[(5, 0, length)], telling)
    };
    vec![
        with(
            "length-0",
            "length 0: a refused event",
            0,
            &["D 5 0 0 2", "E 5 0 1"],
        )
        .waiting(&["D 5 0 0 2 0", "E 5 0 1"]),
        with("length-1", "length 1", 1, &["S 5 0 1 9999 1", "E 6 1 0"])
            .waiting(&["S 5 0 1 9999 1 0", "E 6 1 0"]),
        with(
            "length-9216",
            "length 9,216 under maximum 9,216",
            9_216,
            &["S 5 0 9216 784 1", "E 9221 1 0"],
        )
        .waiting(&["S 5 0 9216 784 1 0", "E 9221 1 0"]),
        with(
            "length-9217",
            "length 9,217 under maximum 9,216: a refused event",
            9_217,
            &["D 5 0 9217 3", "E 5 0 1"],
        )
        .waiting(&["D 5 0 9217 3 0", "E 5 0 1"]),
    ]
}

/// Ten packets of 10 go on a quantum of 100; the 31st and 32nd are the first of the fourth visit.
fn waiting_cases() -> Vec<Case> {
    let with = |name, says, ticks: &[u32], telling| {
        let events: Vec<files::Event> = ticks.iter().map(|&tick| (tick, 0, 10)).collect();
        case(name, says, &[(100, 100)], &events, telling)
    };
    vec![
        with(
            "waiting-32",
            "32 packets at tick 0: all accepted",
            &[0; 32],
            &["S 0 0 10 90 1", "S 310 0 10 80 0", "E 320 32 0"],
        )
        .waiting(&["S 0 0 10 90 1 310", "S 310 0 10 80 0 0"]),
        with(
            "waiting-33",
            "33 packets at tick 0: the last refused",
            &[0; 33],
            &["D 0 0 10 4", "S 310 0 10 80 0", "E 320 32 1"],
        )
        .waiting(&["D 0 0 10 4 320", "S 0 0 10 90 1 310", "E 320 32 1"]),
        with(
            "waiting-room-again",
            "32 packets at tick 0, one more when the first has left: it finds room",
            &[&[0; 32][..], &[10]].concat(),
            &["S 310 0 10 80 0", "S 320 0 10 70 0", "E 330 33 0"],
        )
        .waiting(&[
            "S 0 0 10 90 1 310",
            "S 10 0 10 80 0 310",
            "S 310 0 10 80 0 10",
        ]),
    ]
}

/// Flow 0 comes first whatever the file order, and its packet of tick 37, the end of the first one,
/// is booked in time for the open visit.
fn tick_cases() -> Vec<Case> {
    vec![case(
        "equal-ticks",
        "three events at one tick, one at the tick at which a packet ends",
        &[(100, 100), (100, 100)],
        &[(7, 1, 40), (7, 0, 30), (7, 1, 20), (37, 0, 10)],
        &[
            "S 7 0 30 70 1",
            "S 37 0 10 60 0",
            "S 47 1 40 60 1",
            "S 87 1 20 40 0",
            "E 107 4 0",
        ],
    )
    .waiting(&[
        "S 7 0 30 70 1 0",
        "S 37 0 10 60 0 0",
        "S 47 1 40 60 1 20",
        "S 87 1 20 40 0 0",
        "E 107 4 0",
    ])]
}

/// A refused event tells the bytes that wait in its flow when it is refused.
fn refused_cases() -> Vec<Case> {
    let longest = [&[(0, 0, 9_216); 32][..], &[(0, 0, 0), (0, 0, 9_216)]].concat();
    vec![
        // 32 x 9,216 are 294,912, and 31 of them 285,696
        case(
            "bytes-294912",
            "32 of the longest packets, the most bytes that can wait; then length 0 and a 33rd",
            &[(9_216, 9_216)],
            &longest,
            &[
                "D 0 0 0 2",
                "D 0 0 9216 4",
                "S 0 0 9216 0 1",
                "E 294912 32 2",
            ],
        )
        .waiting(&[
            "D 0 0 0 2 294912",
            "D 0 0 9216 4 294912",
            "S 0 0 9216 0 1 285696",
            "S 9216 0 9216 0 1 276480",
            "S 285696 0 9216 0 1 0",
        ]),
        case(
            "bytes-between",
            "refused events between accepted ones of one tick",
            &[(100, 100)],
            &[(7, 0, 30), (7, 0, 101), (7, 0, 20), (7, 0, 0), (37, 0, 10)],
            &["D 7 0 101 3", "D 7 0 0 2", "S 7 0 30 70 1", "E 67 3 2"],
        )
        .waiting(&[
            "D 7 0 101 3 30",
            "D 7 0 0 2 50",
            "S 7 0 30 70 1 20",
            "S 37 0 20 50 0 10",
            "S 57 0 10 40 0 0",
        ]),
    ]
}

/// Nothing waits in a flow that the table does not have.
fn unknown_flow_case() -> Case {
    let events = [
        (0, 0, 200),
        (0, 0, 750),
        (0, 3, 10),
        (0, 16, 10),
        (0, 65_535, 10),
    ];
    case(
        "bytes-unknown-flow",
        "flow numbers 3, 16 and 65,535 beside three flows, one of them with packets waiting",
        &[(500, 800), (300, 800), (400, 600)],
        &events,
        &[
            "D 0 3 10 1",
            "D 0 65535 10 1",
            "S 200 0 750 50 1",
            "E 950 2 3",
        ],
    )
    .waiting(&[
        "D 0 3 10 1 0",
        "D 0 16 10 1 0",
        "D 0 65535 10 1 0",
        "S 0 0 200 300 1 750",
        "S 200 0 750 50 1 0",
    ])
}

fn unknown_flow_of_16_case() -> Case {
    case(
        "bytes-unknown-flow-of-16",
        "flow numbers 16 and 65,535 beside 16 flows, the first and last with one waiting",
        &[(160, 160); 16],
        &[(0, 15, 100), (0, 0, 90), (0, 16, 1), (0, 65_535, 1)],
        &[
            "D 0 16 1 1",
            "S 0 0 90 70 1",
            "S 90 15 100 60 1",
            "E 190 2 2",
        ],
    )
    .waiting(&[
        "D 0 16 1 1 0",
        "D 0 65535 1 1 0",
        "S 0 0 90 70 1 0",
        "S 90 15 100 60 1 0",
    ])
}

/// Charges 100 and 101: the quantum reaches the first, and the second only twice. The limit of an arrival is
/// on the length.
fn overhead_1_case() -> Case {
    case(
        "overhead-1",
        "overhead 1: quantum 100 reaches length 99, and length 100 in two visits; 101 is refused",
        &[(100, 100)],
        &[(0, 0, 99), (0, 0, 100), (0, 0, 101)],
        &[
            "D 0 0 101 3",
            "S 0 0 99 0 1",
            "S 100 0 100 99 2",
            "E 201 2 1",
        ],
    )
    .overhead(1)
    .waiting(&[
        "D 0 0 101 3 199",
        "S 0 0 99 0 1 100",
        "S 100 0 100 99 2 0",
        "E 201 2 1",
    ])
}

/// Charges 84, 1,538 and 21. Two events stand at the very ticks at which a packet's charge ends.
fn overhead_20_case() -> Case {
    let events = [
        (0, 0, 64),
        (0, 0, 64),
        (0, 0, 64),
        (0, 1, 1_518),
        (84, 0, 1),
        (1_706, 1, 1),
    ];
    case(
        "overhead-20",
        "overhead 20: tiny frames beside large ones, two frames of 64 for a quantum of 168",
        &[(168, 64), (1_538, 1_518)],
        &events,
        &[
            "S 0 0 64 84 1",
            "S 84 0 64 0 0",
            "S 168 1 1518 0 1",
            "S 1706 0 64 84 1",
            "S 1790 0 1 63 0",
            "S 1811 1 1 1517 1",
            "E 1832 6 0",
        ],
    )
    .overhead(20)
    .waiting(&[
        "S 0 0 64 84 1 128",
        "S 84 0 64 0 0 65",
        "S 168 1 1518 0 1 0",
        "S 1706 0 64 84 1 1",
        "S 1790 0 1 63 0 0",
        "S 1811 1 1 1517 1 0",
    ])
}

/// Charges 220, 770, 520, 420 and 270.
fn overhead_20_worked_case() -> Case {
    Case {
        name: "overhead-20-worked",
        says: "the worked example with overhead 20",
        file: files::charged_worked(20),
        telling: &[
            "S 0 0 200 280 1",
            "D 100 2 700 3",
            "S 220 0 750 10 3",
            "S 990 1 500 80 1",
            "S 1510 2 400 380 1",
            "S 1930 1 250 110 1",
            "E 2200 5 1",
        ],
        waiting: &[
            "S 0 0 200 280 1 750",
            "D 100 2 700 3 400",
            "S 220 0 750 10 3 0",
            "S 990 1 500 80 1 250",
            "S 1510 2 400 380 1 0",
            "S 1930 1 250 110 1 0",
        ],
    }
}

/// Charges 65 and 9,280: the least that a packet can have beside this overhead, and the most of all.
fn overhead_64_case() -> Case {
    case(
        "overhead-64",
        "overhead 64: length 1 on a quantum of 64 beside length 9,216 on one of 9,280",
        &[(64, 1), (9_280, 9_216)],
        &[(0, 0, 1), (0, 1, 9_216), (0, 1, 9_216)],
        &[
            "S 0 1 9216 0 2",
            "S 9280 0 1 63 1",
            "S 9345 1 9216 0 1",
            "E 18625 3 0",
        ],
    )
    .overhead(64)
    .waiting(&[
        "S 0 1 9216 0 2 9216",
        "S 9280 0 1 63 1 0",
        "S 9345 1 9216 0 1 0",
        "E 18625 3 0",
    ])
}

fn overhead_refused_cases() -> Vec<Case> {
    let with = |name, says, flows: &[files::Flow]| {
        let refused = case(name, says, flows, &[(0, 0, 100)], &["R 10 0"]);
        refused.overhead(65).waiting(&["R 10 0"])
    };
    vec![
        with("overhead-65", "overhead 65: refused", &[(500, 800)]),
        with(
            "overhead-65-no-flow",
            "overhead 65 and no flow: refused for the overhead",
            &[],
        ),
        with(
            "overhead-65-flows-17",
            "overhead 65 and 17 flows: refused for the overhead",
            &[(500, 800); 17],
        ),
    ]
}

const README: &str = "# Stored cases

Each `NAME.run` is a run file, `NAME.out` what `drrrun` prints for it, `NAME.waiting` what it prints
with `--waiting`. The listings `NAME.out` of `worked` and `no-events` are the requirement's own. The
others are the second program's (`tests/second/drr.rs`), which had to have in them, in this order, the
lines that `tests/second/cases.rs` gives for each case, worked out by hand from the requirement.

`tests/second/run` checks all of them. After it has built the programs, this writes them again:

    target/second/cases --write tests/cases

";

fn main() {
    let words: Vec<String> = std::env::args().skip(1).collect();
    let done = match &words[..] {
        [option, dir] if option == "--write" => write(Path::new(dir)),
        [drrrun, dir] => check(drrrun, Path::new(dir)),
        _ => Err(Error::other("usage: cases --write|DRRRUN DIR")),
    };
    match done {
        Ok(good) => exit(i32::from(!good)),
        Err(error) => {
            eprintln!("cases: {error}");
            exit(2);
        }
    }
}

/// A stored listing: how its name ends, the words that `drrrun` is given for it, what the second
/// program prints, and the lines that it must have.
type Listing = (&'static str, Vec<String>, String, &'static [&'static str]);

fn listings(case: &Case) -> [Listing; 2] {
    let [plain, waiting] = drr::texts(&case.file);
    let word = vec!["--waiting".to_string()];
    [
        ("out", vec![], plain, case.telling),
        ("waiting", word, waiting, case.waiting),
    ]
}

/// Whether the listing has these lines, of which there must be some, in this order.
fn has_in_order(listing: &str, telling: &[&str]) -> bool {
    let mut lines = listing.lines();
    !telling.is_empty() && telling.iter().all(|line| lines.any(|other| other == *line))
}

fn write(dir: &Path) -> Result<bool> {
    let mut readme = README.to_string();
    for case in cases() {
        std::fs::write(dir.join(format!("{}.run", case.name)), &case.file)?;
        for (end, _, listing, telling) in listings(&case) {
            assert!(has_in_order(&listing, telling), "{}.{end}", case.name);
            std::fs::write(dir.join(format!("{}.{end}", case.name)), listing)?;
        }
        readme += &format!("- `{}`: {}\n", case.name, case.says);
    }
    std::fs::write(dir.join("README.md"), readme)?;
    Ok(true)
}

fn check(drrrun: &str, dir: &Path) -> Result<bool> {
    let cases = cases();
    let mut good = 0;
    for case in &cases {
        let verdict = verdict(case, drrrun, dir);
        good += usize::from(verdict == "ok");
        println!("{}: {verdict}", case.name);
    }
    println!("{} cases, {good} as expected", cases.len());
    Ok(good == cases.len())
}

fn verdict(case: &Case, drrrun: &str, dir: &Path) -> &'static str {
    let stored = |end| std::fs::read(dir.join(format!("{}.{end}", case.name)));
    let Ok(file) = stored("run") else {
        return "MISSING";
    };
    if file != case.file {
        return "NOT THE FILE DESCRIBED";
    }
    for (end, words, second, telling) in listings(case) {
        let Ok(listing) = stored(end) else {
            return "MISSING";
        };
        if !has_in_order(&String::from_utf8_lossy(&listing), telling) {
            return "WITHOUT ITS TELLING LINES";
        }
        if second.as_bytes() != listing {
            return "SECOND PROGRAM DIFFERS";
        }
        match process::run(drrrun, &words, &file) {
            Ok(given) if given.status.success() && given.stdout == listing => {}
            _ => return "DRRRUN DIFFERS",
        }
    }
    "ok"
}
