//! `figures DRRFIGURES`: compares `drrfigures` with the second program on all generated files, with
//! numbers of bytes of all kinds and options among them as arguments, and sees that wrong arguments get
//! a message. With '--caught' before the program it ends at the first difference, which is all that a
//! wrong variant has to show.

use std::io::Result;
use std::process::exit;

mod dice;
mod drr;
mod process;

use dice::Dice;
use drr::Dress;

fn main() {
    let words: Vec<String> = std::env::args().skip(1).collect();
    let (to_first, drrfigures) = match &words[..] {
        [drrfigures] => (false, drrfigures),
        [caught, drrfigures] if caught == "--caught" => (true, drrfigures),
        _ => {
            eprintln!("usage: figures [--caught] DRRFIGURES");
            exit(2);
        }
    };
    match compare(drrfigures, to_first) {
        Ok(good) => exit(i32::from(!good)),
        Err(error) => {
            eprintln!("figures: {error}");
            exit(2);
        }
    }
}

fn compare(drrfigures: &str, to_first: bool) -> Result<bool> {
    let files = files::all();
    let mut dice = Dice(3501);
    let (mut differ, mut tables, mut dressed, mut charged) = (0, 0, 0, 0);
    for file in &files {
        let (sizes, dress) = (sizes(&mut dice), dress(&mut dice));
        let words = words(&sizes, dress, &mut dice);
        let output = process::run(drrfigures, &words, &file.bytes)?;
        let own = drr::figures_text(&file.bytes, &asked(sizes), dress);
        let table = !own.starts_with('R');
        tables += usize::from(table);
        dressed += usize::from(table && (dress.header || dress.csv || dress.rate.is_some()));
        charged += usize::from(own.starts_with("overhead"));
        if !output.status.success() || output.stdout != own.as_bytes() {
            differ += 1;
            let given = String::from_utf8_lossy(&output.stdout);
            println!(
                "{} {words:?}: drrfigures {given:?}, second {own:?}",
                file.name
            );
            if to_first {
                println!("first {}", file.name);
                return Ok(false);
            }
        }
    }
    let silent = wrong_words_answered(drrfigures)?;
    println!(
        "{tables} of the files have a table without a fault, {charged} of these have an overhead, the \
         figures of {dressed} are dressed"
    );
    println!("{silent} wrong arguments went unseen");
    println!("{} files' figures compared, {differ} differ", files.len());
    Ok(differ == 0 && silent == 0 && dressed > 0 && charged > 0)
}

/// The numbers of bytes that are asked for: without an argument it is 1,000,000.
fn asked(sizes: Vec<u32>) -> Vec<u32> {
    match sizes.is_empty() {
        true => vec![1_000_000],
        false => sizes,
    }
}

/// No option for half of the files, and any of the eight sets of them for the others.
fn dress(dice: &mut Dice) -> Dress {
    if dice.once_in(2) {
        return Dress::default();
    }
    Dress {
        header: dice.once_in(2),
        csv: dice.once_in(2),
        rate: dice.once_in(2).then(|| rate(dice)),
    }
}

/// Rates of all kinds, the least and the most among them.
fn rate(dice: &mut Dice) -> u64 {
    let most = 1_000_000_000_000;
    let any = dice.next() % most + 1;
    let known = dice.one_of(&[1, 2, 3, 9_600, 10_000_000, 1_000_000_000, most - 1, most]);
    dice.one_of(&[known, any, (any >> 20) + 1])
}

/// The arguments: the numbers in their order, and the options anywhere among them.
fn words(sizes: &[u32], dress: Dress, dice: &mut Dice) -> Vec<String> {
    let mut groups: Vec<Vec<String>> = sizes.iter().map(|size| vec![size.to_string()]).collect();
    let mut options = Vec::new();
    options.extend(dress.header.then(|| vec!["--header".to_string()]));
    options.extend(dress.csv.then(|| vec!["--csv".to_string()]));
    let rate = dress.rate.map(|rate| rate.to_string());
    options.extend(rate.map(|rate| vec!["--rate".to_string(), rate]));
    for option in options {
        let at = dice.between(0, groups.len() as u32) as usize;
        groups.insert(at, option);
    }
    groups.concat()
}

/// None to sixteen numbers of bytes, the least and the most among them.
fn sizes(dice: &mut Dice) -> Vec<u32> {
    let count = dice.one_of(&[0, 0, 1, 1, 2, 5, 16]);
    let mut size = || {
        let any = dice.next() as u32;
        dice.one_of(&[0, 1, 3_220, 3_221, any, any >> 8, any >> 16, u32::MAX])
    };
    (0..count).map(|_| size()).collect()
}

/// The overhead is the file's: only the script, which can be given a table without a file, takes one.
const WRONG_OPTIONS: [&[&str]; 9] = [
    &["--head"],
    &["--rate"],
    &["--rate", "0"],
    &["--rate", "1000000000001"],
    &["--rate", "10M"],
    &["--rate", "--csv"],
    &["--rate=10"],
    &["--overhead"],
    &["--overhead", "20"],
];

/// How many wrong arguments got an answer, or no message.
fn wrong_words_answered(drrfigures: &str) -> Result<usize> {
    let many = vec!["1"; 17];
    let long = "0".repeat(33);
    let wrong: [&[&str]; 15] = [
        &["x"],
        &[""],
        &["-1"],
        &["+1"],
        &["1 "],
        &["0x10"],
        &["1,000"],
        &["1_000"],
        &["1M"],
        &["1.5"],
        &["500:800"],
        &["4294967296"],
        &["1", "99999999999999999999"],
        &[&long],
        &many,
    ];
    let mut silent = 0;
    for words in wrong.into_iter().chain(WRONG_OPTIONS) {
        let words: Vec<String> = words.iter().map(|word| word.to_string()).collect();
        let output = process::run(drrfigures, &words, &files::worked())?;
        let message = String::from_utf8_lossy(&output.stderr).starts_with("drrfigures: ");
        if !output.stdout.is_empty() || !message {
            silent += 1;
            println!("{words:?}: not refused");
        }
    }
    Ok(silent)
}
