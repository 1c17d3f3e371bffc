//! What `drrrun --waiting` adds to a listing, held to the two listings of `drrrun` and the file's events
//! alone: nothing here runs a file.

use std::collections::BTreeMap;

use crate::drr::{read, Event};

/// Lines seen, and files with a line that is not as it must be.
#[derive(Default)]
pub struct Added {
    lines: usize,
    /// Lines at which something waits.
    waiting: usize,
    wrong: usize,
}

impl Added {
    /// Looks at the listings of a file without a word and with `--waiting`.
    pub fn see(&mut self, name: &str, file: &[u8], [plain, more]: [&str; 2]) {
        // of a refused file the two are one line, and the same
        let events = read(file).map_or(Vec::new(), |file| file.events);
        let seen = self.listing(&events, plain, more);
        if seen.is_none() {
            self.wrong += 1;
            println!("{name}: what --waiting adds does not fit the listing and the events");
        }
    }

    /// Says how many lines were seen; whether all were as they must be.
    pub fn report(&self) -> bool {
        println!(
            "{} lines of packets have their bytes waiting, {} more than 0; wrong in {} files",
            self.lines, self.waiting, self.wrong
        );
        self.waiting > 0 && self.wrong == 0
    }

    /// None where a line is wrong. The balance of a flow is what came less what was refused or sent: that
    /// waits when a packet of the flow is sent, and nothing is left of it at the end.
    fn listing(&mut self, events: &[Event], plain: &str, more: &str) -> Option<()> {
        let mut balance = BTreeMap::new();
        let mut events = events.iter().peekable();
        let mut more = more.lines();
        for line in plain.lines() {
            let added = more.next()?.strip_prefix(line)?;
            let words: Vec<&str> = line.split(' ').collect();
            let [kind @ ("S" | "D"), tick, flow, length, ..] = words[..] else {
                // the last line, which has nothing added
                events.by_ref().for_each(|event| came(&mut balance, event));
                let nothing_left = balance.values().all(|&bytes| bytes == 0);
                (added.is_empty() && nothing_left).then_some(())?;
                continue;
            };
            let (tick, flow) = (tick.parse().ok()?, flow.parse().ok()?);
            let waiting: i64 = added.strip_prefix(' ')?.parse().ok()?;
            *balance.entry(flow).or_default() -= length.parse::<i64>().ok()?;
            if kind == "S" {
                // the events up to its tick are booked, and those of them that were refused are listed
                while let Some(event) = events.next_if(|event| u64::from(event.tick) <= tick) {
                    came(&mut balance, event);
                }
                (balance[&flow] == waiting).then_some(())?;
            }
            self.lines += 1;
            self.waiting += usize::from(waiting > 0);
        }
        more.next().is_none().then_some(())
    }
}

fn came(balance: &mut BTreeMap<u16, i64>, event: &Event) {
    *balance.entry(event.flow).or_default() += i64::from(event.length);
}
