//! Compares `drrrun` with the second program on all generated files.
//!
//! `compare DRRRUN ANSWERS` runs DRRRUN on each file, without a word and with `--waiting`, compares byte
//! for byte, and stores what it said. What `--waiting` adds is also held to the file's events.
//! `compare --caught ANSWERS` tells whether the second program built in here, which may have been
//! altered, differs from stored answers: status 0 if it does, 1 if not, 2 if they are not of these
//! files.

use std::io::{Error, Result};
use std::process::exit;

mod added;
mod drr;
mod process;
mod stored;

fn main() {
    let words: Vec<String> = std::env::args().skip(1).collect();
    let done = match &words[..] {
        [option, answers] if option == "--caught" => caught(answers),
        [drrrun, answers] => compare(drrrun, answers),
        _ => Err(Error::other("usage: compare DRRRUN|--caught ANSWERS")),
    };
    match done {
        Ok(good) => exit(i32::from(!good)),
        Err(error) => {
            eprintln!("compare: {error}");
            exit(2);
        }
    }
}

/// With this word `drrrun` tells the bytes waiting too.
const WAITING: &str = "--waiting";

/// What the second program prints for a file, without a word and with `--waiting`.
fn second(file: &files::File) -> [Vec<u8>; 2] {
    drr::texts(&file.bytes).map(String::into_bytes)
}

/// The names of these two answers.
fn names(file: &files::File) -> [String; 2] {
    [file.name.clone(), format!("{} {WAITING}", file.name)]
}

fn compare(drrrun: &str, answers: &str) -> Result<bool> {
    let files = files::all();
    let words = [vec![], vec![WAITING.to_string()]];
    let (mut differ, mut astray) = (0, 0);
    let mut seen = [0; 15];
    let mut added = added::Added::default();
    let mut stored = Vec::new();
    for file in &files {
        let (own, mut given) = (second(file), Vec::new());
        for ((name, own), words) in names(file).iter().zip(&own).zip(&words) {
            let output = process::run(drrrun, words, &file.bytes)?;
            let good = output.status.success();
            if !good || output.stdout != *own {
                differ += 1;
                println!("{}", difference(name, &output.stdout, own, good));
            }
            stored::add(&mut stored, name, &output.stdout);
            given.push(String::from_utf8_lossy(&output.stdout).into_owned());
        }
        if let Some(fault) = not_as_meant(file, &own[0]) {
            astray += 1;
            println!("{fault}");
        }
        count_refusals(&given[0], &mut seen);
        added.see(&file.name, &file.bytes, [&given[0], &given[1]]);
    }
    std::fs::write(answers, stored)?;
    let (all_seen, all_fit) = (report_refusals(&seen), added.report());
    println!("{} files compared, {differ} differ", files.len());
    Ok(differ == 0 && astray == 0 && all_seen && all_fit)
}

/// The first lines that differ, and what each program says there.
fn difference(name: &str, given: &[u8], own: &[u8], good: bool) -> String {
    let [given, own] = [given, own].map(String::from_utf8_lossy);
    let [mut left, mut right] = [&given, &own].map(|text| text.split_inclusive('\n'));
    let mut number = 1;
    let (left, right) = loop {
        match (left.next(), right.next()) {
            (Some(a), Some(b)) if a == b => number += 1,
            (a, b) => break (a.unwrap_or("(end)"), b.unwrap_or("(end)")),
        }
    };
    let status = if good { "" } else { ", exit status not 0" };
    format!("{name}, line {number}: drrrun {left:?}, second {right:?}{status}")
}

/// A file whose answer is not the one its maker meant.
fn not_as_meant(file: &files::File, own: &[u8]) -> Option<String> {
    let own = String::from_utf8_lossy(own);
    let (wrong, meant) = match file.meant {
        Some((number, place)) => {
            let line = format!("R {number} {place}\n");
            (own != line, line)
        }
        None => {
            let refused = file.name.starts_with("valid") && own.starts_with('R');
            (refused, "a listing\n".to_string())
        }
    };
    wrong.then(|| format!("{}: {:?}, meant {meant:?}", file.name, own.lines().next()))
}

/// Counts the refusals of a file and of events, by number.
fn count_refusals(answer: &str, seen: &mut [usize; 15]) {
    for line in answer.lines() {
        let words: Vec<&str> = line.split(' ').collect();
        let number = match words[..] {
            ["R", number, _] | ["D", _, _, _, number] => number.parse().unwrap_or(0),
            _ => 0,
        };
        if let Some(count) = seen.get_mut(number) {
            *count += 1;
        }
    }
}

/// 8 and 14 cannot occur: a run's states are sound, and `drrrun` lends a list that is long enough.
fn report_refusals(seen: &[usize; 15]) -> bool {
    let possible = [1, 2, 3, 4, 5, 6, 7, 9, 10, 11, 12, 13];
    let counts = possible.map(|number| format!("{number}: {}", seen[number]));
    println!(
        "refusals seen: {} (8 and 14 cannot occur in drrrun)",
        counts.join(", ")
    );
    possible.iter().all(|&number| seen[number] > 0)
}

fn caught(answers: &str) -> Result<bool> {
    let own = |file: files::File| second(&file).into_iter().zip(names(&file));
    stored::caught(answers, files::all().into_iter().flat_map(own), "answer")
}
