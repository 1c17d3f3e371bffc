// Times `wikulambag_run`, the proved run of a file, beside `plain_run`, a simple program that does the same
// work: reads the file, runs it and writes the listing into a lent list. Both read the same bytes, by
// turns, in one process; their listings are compared. Printed: the least and the middle time of a run
// of each, and the ratio of the middle ones.
use std::collections::VecDeque;
use std::time::Instant;

#[path = "../include/wikulambag.rs"]
mod wikulambag;

fn proved_run(file: &[u8], out: &mut [u64]) -> u32 {
    wikulambag::run(file, out).refusal
}

fn le2(b: &[u8], at: usize) -> usize {
    b[at] as usize + 256 * b[at + 1] as usize
}

fn le4(b: &[u8], at: usize) -> usize {
    le2(b, at) + 65536 * le2(b, at + 2)
}

struct Flow {
    quantum: u64,
    maximum: u64,
    deficit: u64,
    row: VecDeque<u64>,
}

struct Line {
    flows: Vec<Flow>,
    overhead: u64,
    place: usize,
    open: bool,
}

impl Line {
    fn arrival(&mut self, flow: usize, length: u64) -> u64 {
        if flow >= self.flows.len() {
            return 1;
        }
        let f = &mut self.flows[flow];
        if length == 0 {
            return 2;
        }
        if length > f.maximum {
            return 3;
        }
        if f.row.len() == 32 {
            return 4;
        }
        f.row.push_back(length);
        0
    }

    fn next_waiting(&self) -> Option<usize> {
        let n = self.flows.len();
        let mut f = self.place;
        for _ in 0..n {
            f = if f + 1 == n { 0 } else { f + 1 };
            if !self.flows[f].row.is_empty() {
                return Some(f);
            }
        }
        None
    }

    // flow, length, deficit after it, visits opened
    fn pick(&mut self) -> Option<(usize, u64, u64, u64)> {
        let mut visits = 0;
        loop {
            if self.open {
                let f = &mut self.flows[self.place];
                match f.row.front() {
                    Some(&length) if length + self.overhead <= f.deficit => {
                        f.row.pop_front();
                        f.deficit -= length + self.overhead;
                        return Some((self.place, length, f.deficit, visits));
                    }
                    Some(_) => {}
                    None => f.deficit = 0,
                }
                self.open = false;
            }
            let next = self.next_waiting()?;
            self.place = next;
            self.open = true;
            self.flows[next].deficit += self.flows[next].quantum;
            visits += 1;
        }
    }
}

// The refusals of a file's header and tables that a plain reader would test.
fn plain_read(b: &[u8]) -> Result<(Line, usize, usize), u32> {
    if b.len() < 20 || b.len() > 12288 || le4(b, 12) != b.len() {
        return Err(9);
    }
    if le4(b, 16) > 64 {
        return Err(10);
    }
    let (n, m, flows_at, events_at) = (le2(b, 0), le2(b, 2), le4(b, 4), le4(b, 8));
    if n == 0 || n > 16 {
        return Err(5);
    }
    if m > 1024 {
        return Err(11);
    }
    let (flows_end, events_end) = (flows_at + 8 * n, events_at + 8 * m);
    let apart = m == 0 || flows_end <= events_at || events_end <= flows_at;
    if flows_at % 4 != 0 || events_at % 4 != 0 || flows_at < 20 || events_at < 20 || flows_end > b.len() || events_end > b.len() || !apart {
        return Err(12);
    }
    let mut flows = Vec::new();
    for f in 0..n {
        let (quantum, maximum) = (le4(b, flows_at + 8 * f) as u64, le4(b, flows_at + 8 * f + 4) as u64);
        if quantum == 0 || quantum > 65535 {
            return Err(6);
        }
        if maximum == 0 || maximum > 9216 {
            return Err(7);
        }
        flows.push(Flow { quantum, maximum, deficit: 0, row: VecDeque::with_capacity(32) });
    }
    for e in 1..m {
        if le4(b, events_at + 8 * e) < le4(b, events_at + 8 * e - 8) {
            return Err(13);
        }
    }
    let overhead = le4(b, 16) as u64;
    Ok((Line { flows, overhead, place: n - 1, open: false }, events_at, m))
}

fn plain_run(b: &[u8], out: &mut [u64]) -> u32 {
    let (mut line, events_at, m) = match plain_read(b) {
        Ok(parts) => parts,
        Err(refusal) => return refusal,
    };
    if out.len() < 6 * (m + 1) {
        return 14;
    }
    let (mut now, mut at, mut k) = (0u64, 0, 0);
    let (mut sent, mut refused, mut last) = (0u64, 0u64, 0u64);
    let mut put = |k: &mut usize, line: [u64; 6]| {
        out[6 * *k..6 * *k + 6].copy_from_slice(&line);
        *k += 1;
    };
    loop {
        while at < m && le4(b, events_at + 8 * at) as u64 <= now {
            let (tick, flow, length) = (le4(b, events_at + 8 * at) as u64, le2(b, events_at + 8 * at + 4), le2(b, events_at + 8 * at + 6) as u64);
            let refusal = line.arrival(flow, length);
            if refusal != 0 {
                refused += 1;
                put(&mut k, [2, tick, flow as u64, length, refusal, 0]);
            }
            if sent == 0 {
                last = tick;
            }
            at += 1;
        }
        match line.pick() {
            Some((flow, length, deficit, visits)) => {
                put(&mut k, [1, now, flow as u64, length, deficit, visits]);
                sent += 1;
                now += length + line.overhead;
                last = now;
            }
            None if at < m => now = le4(b, events_at + 8 * at) as u64,
            None => {
                put(&mut k, [3, last, sent, refused, 0, 0]);
                return 0;
            }
        }
    }
}

// A small generator with a fixed seed, so that every run measures the same files.
struct Seeded(u64);

impl Seeded {
    fn next(&mut self, below: u64) -> u64 {
        self.0 = self.0.wrapping_mul(6364136223846793005).wrapping_add(1442695040888963407);
        (self.0 >> 33) % below
    }
}

// 1,024 events of 64 to 1,500 bytes, that come about as fast as the line carries them.
fn full_file(flows: usize, quantum: u32, overhead: u32) -> Vec<u8> {
    let (n, m) = (flows, 1024);
    let size = 20 + 8 * n + 8 * m;
    let mut b = Vec::new();
    b.extend((n as u16).to_le_bytes());
    b.extend((m as u16).to_le_bytes());
    b.extend(20u32.to_le_bytes());
    b.extend((20 + 8 * n as u32).to_le_bytes());
    b.extend((size as u32).to_le_bytes());
    b.extend(overhead.to_le_bytes());
    for _ in 0..n {
        b.extend(quantum.to_le_bytes());
        b.extend(1500u32.to_le_bytes());
    }
    let mut seeded = Seeded(20261115);
    let mut tick = 0u32;
    for _ in 0..m {
        tick += seeded.next(1500) as u32;
        b.extend(tick.to_le_bytes());
        b.extend((seeded.next(n as u64) as u16).to_le_bytes());
        b.extend((64 + seeded.next(1437) as u16).to_le_bytes());
    }
    b
}

fn time(run: fn(&[u8], &mut [u64]) -> u32, file: &[u8], out: &mut [u64]) -> f64 {
    let start = Instant::now();
    let answer = run(std::hint::black_box(file), std::hint::black_box(out));
    let took = start.elapsed().as_secs_f64() * 1e6;
    assert_eq!(answer, 0);
    took
}

fn main() {
    println!("flows quantum overhead   proved least/middle us   plain least/middle us   ratio");
    for (flows, quantum, overhead) in [(16, 1500, 0), (16, 1500, 20), (16, 1, 0), (1, 1500, 0), (1, 1, 0)] {
        let file = full_file(flows, quantum, overhead);
        let (mut a, mut b) = (vec![7u64; 6150], vec![7u64; 6150]);
        let (mut proved, mut plain) = (Vec::new(), Vec::new());
        for _ in 0..501 {
            proved.push(time(proved_run, &file, &mut a));
            plain.push(time(plain_run, &file, &mut b));
        }
        assert_eq!(a, b, "the two listings differ");
        proved.sort_by(f64::total_cmp);
        plain.sort_by(f64::total_cmp);
        let (p, q) = (proved[250], plain[250]);
        println!("{flows:5} {quantum:7} {overhead:8}   {:10.1} {p:10.1}   {:10.1} {q:10.1}   {:5.2}", proved[0], plain[0], p / q);
    }
}
