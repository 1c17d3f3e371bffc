//! Compares `drrmake` with the second program on all generated texts, and `drrshow` on all generated files.
//!
//! `texts DRRMAKE DRRSHOW ANSWERS` runs them, compares standard output and standard error byte for byte, and
//! stores what they said. What `drrshow` prints of a file that is not refused is given to `drrmake` in turn.
//! `texts --caught ANSWERS` tells whether the second program built in here, which may have been altered,
//! differs from stored answers: status 0 if it does, 1 if not, 2 if they are not of these texts and files.

use files::File;
use lines::{Meant, Text};
use std::io::{Error, Result};
use std::process::{exit, Output};

mod drr;
mod process;
mod stored;
mod textform;

fn main() {
    let words: Vec<String> = std::env::args().skip(1).collect();
    let done = match &words[..] {
        [option, answers] if option == "--caught" => caught(answers),
        [drrmake, drrshow, answers] => compare(drrmake, drrshow, answers),
        _ => Err(Error::other(
            "usage: texts DRRMAKE DRRSHOW ANSWERS | texts --caught ANSWERS",
        )),
    };
    match done {
        Ok(good) => exit(i32::from(!good)),
        Err(error) => {
            eprintln!("texts: {error}");
            exit(2);
        }
    }
}

/// What goes to standard output and to standard error, as one list of bytes: how many the first has tells them
/// apart.
fn both(output: &[u8], error: &[u8]) -> Vec<u8> {
    [&output.len().to_le_bytes()[..], output, error].concat()
}

/// What the second program says of a text, as `drrmake`, and of a file, as `drrshow`.
fn made(text: &[u8]) -> Vec<u8> {
    let (file, fault) = textform::made(text);
    both(&file, fault.as_bytes())
}

fn shown(file: &[u8]) -> Vec<u8> {
    both(textform::show(file).as_bytes(), b"")
}

fn compare(drrmake: &str, drrshow: &str, answers: &str) -> Result<bool> {
    let mut tally = Tally::default();
    let texts = lines::all();
    for text in &texts {
        let output = process::run(drrmake, &[], &text.bytes)?;
        tally.compare(&text.name, &output, made(&text.bytes));
        tally.count_told(&output.stderr);
        if let Some(astray) = not_as_meant(text) {
            tally.differ(&astray);
        }
    }
    let all_told = tally.report_told();
    println!("{} texts compared, {} differ", texts.len(), tally.differ);
    let texts_differ = std::mem::take(&mut tally.differ);
    let files = files::all();
    let again = compare_files(drrmake, drrshow, &files, &mut tally)?;
    println!("{again} of the files have no gaps, and were made again of what was shown");
    println!("{} files shown, {} differ", files.len(), tally.differ);
    std::fs::write(answers, tally.stored)?;
    Ok(texts_differ == 0 && tally.differ == 0 && all_told && again > 0)
}

/// Shows each file, and makes those again that are not refused; gives how many of them have no gaps, so that
/// the same bytes must come back.
fn compare_files(drrmake: &str, drrshow: &str, files: &[File], tally: &mut Tally) -> Result<usize> {
    let mut again = 0;
    for file in files {
        let output = process::run(drrshow, &[], &file.bytes)?;
        tally.compare(&file.name, &output, shown(&file.bytes));
        let Ok(run) = drr::read(&file.bytes) else {
            continue;
        };
        let events: Vec<files::Event> = run
            .events
            .iter()
            .map(|event| (event.tick, event.flow, event.length))
            .collect();
        let plain = files::plain(&run.flows, &events, run.overhead);
        again += usize::from(plain == file.bytes);
        let output = process::run(drrmake, &[], &output.stdout)?;
        if !output.status.success() || output.stdout != plain || !output.stderr.is_empty() {
            tally.differ(&format!(
                "{}: made again of what was shown, other bytes",
                file.name
            ));
        }
    }
    Ok(again)
}

/// What is told of faults, in the order of docs/FILES.md.
const TOLD: [&str; 16] = [
    "overhead, flow or event",
    "an overhead, 0 to 64",
    "a quantum, 1 to 65535",
    "a maximum, 1 to 9216",
    "a tick, 0 to 4294967295",
    "a flow, 0 to 65535",
    "a length, 0 to 65535",
    "the end of the line",
    "the overhead before the flows",
    "at most one overhead",
    "a flow before any event",
    "an event: flows come first",
    "at most 16 flows",
    "at most 1024 events",
    "a tick not below the one before",
    "the text to end by byte 131072",
];

/// What the proved programs said, how often it was something else than the second one says, and how often each
/// fault was told; at the end of `told`, how many texts have none.
#[derive(Default)]
struct Tally {
    stored: Vec<u8>,
    differ: usize,
    told: [usize; TOLD.len() + 1],
}

impl Tally {
    fn differ(&mut self, what: &str) {
        self.differ += 1;
        println!("{what}");
    }

    fn compare(&mut self, name: &str, output: &Output, own: Vec<u8>) {
        let given = both(&output.stdout, &output.stderr);
        if !output.status.success() || given != own {
            let [given, own] =
                [&given, &own].map(|said| String::from_utf8_lossy(&said[8..said.len().min(160)]));
            self.differ(&format!(
                "{name}: proved {given:?}, second {own:?}, {}",
                output.status
            ));
        }
        stored::add(&mut self.stored, name, &given);
    }

    /// Counts what is told of a text; nothing where a file is made of it.
    fn count_told(&mut self, error: &[u8]) {
        let error = String::from_utf8_lossy(error);
        let expected = error.trim_end().split(": expected ").nth(1);
        let place = TOLD.iter().position(|&told| Some(told) == expected);
        self.told[place.unwrap_or(TOLD.len())] += 1;
    }

    /// Every fault must have come up, and texts without any.
    fn report_told(&self) -> bool {
        let names = TOLD.iter().chain(&["nothing"]);
        let counts: Vec<String> = names
            .zip(self.told)
            .map(|(name, count)| format!("{name}: {count}"))
            .collect();
        println!("expected: {}", counts.join("; "));
        self.told.iter().all(|&count| count > 0)
    }
}

/// A text of which the second program says something else than its maker meant.
fn not_as_meant(text: &Text) -> Option<String> {
    let own = match textform::make(&text.bytes) {
        Ok(file) => Meant::Made(file),
        Err(fault) => Meant::Told(fault.line, fault.expected),
    };
    let meant = text.meant.as_ref()?;
    (own != *meant).then(|| format!("{}: {own:?}, meant {meant:?}", text.name))
}

fn caught(answers: &str) -> Result<bool> {
    let texts = lines::all()
        .into_iter()
        .map(|text| (made(&text.bytes), text.name));
    let files = files::all()
        .into_iter()
        .map(|file| (shown(&file.bytes), file.name));
    stored::caught(answers, texts.chain(files), "answer")
}
