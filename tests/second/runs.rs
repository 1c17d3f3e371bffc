//! Calls the proved library's run on all generated files, and compares the refusal, its place and the
//! whole lent list with the second program's: with a list for the longest run, with an empty one, and
//! for a file that is not refused also with one just long enough and one a number short.

mod drr;

use wikulambag::RunResult;

/// Room for 1,025 lines of six numbers.
const LONGEST: usize = 6 * 1_025;

/// What a lent list holds beforehand: at each place another number, and none that a line has.
fn before(room: usize) -> Vec<u64> {
    (0..room as u64).map(|place| u64::MAX - place).collect()
}

/// An answer, and the lent list after the run.
type Ran = (RunResult, Vec<u64>);

fn by_proved(file: &[u8], room: usize) -> Ran {
    let mut list = before(room);
    (wikulambag::run(file, &mut list), list)
}

fn by_second(file: &[u8], room: usize) -> Ran {
    let mut list = before(room);
    let (refusal, place) = match drr::run(file, room) {
        Ok(lines) => {
            let numbers = lines.concat();
            list[..numbers.len()].copy_from_slice(&numbers);
            (0, 0)
        }
        Err(refused) => (refused.number, refused.place),
    };
    (RunResult { refusal, place }, list)
}

fn main() {
    let (mut runs, mut differ) = (0, 0);
    let mut seen = [0; 15];
    for file in files::all() {
        let mut rooms = vec![LONGEST, 0];
        if let Ok(lines) = drr::run(&file.bytes, LONGEST) {
            rooms.extend([6 * lines.len(), 6 * lines.len() - 1]);
        }
        for room in rooms {
            let given = by_proved(&file.bytes, room);
            let own = by_second(&file.bytes, room);
            runs += 1;
            seen[own.0.refusal as usize] += 1;
            if given != own {
                differ += 1;
                let same_list = given.1 == own.1;
                println!(
                    "{}, room {room}: proved {:?}, second {:?}, the same list: {same_list}",
                    file.name, given.0, own.0
                );
            }
        }
    }
    println!("refusals 0 to 14 given to runs: {seen:?}");
    println!("{runs} runs compared, {differ} differ");
    // 1 to 4 are lines of a listing, and no call of a run has 8
    let all_seen = [0, 5, 6, 7, 9, 10, 11, 12, 13, 14]
        .iter()
        .all(|&number: &usize| seen[number] > 0);
    if differ > 0 || !all_seen {
        std::process::exit(1);
    }
}
