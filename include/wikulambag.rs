//! The proved scheduler's library for programs in Rust (1.82 or later): take this file in as a module and give
//! rustc the folder that './library' made, `-L DIR`. What each call and field means, what is refused by which
//! number, and what is said of stack and threads stands in wikulambag.h beside it.

// a program that takes this file in may use only a part of it
#![allow(dead_code)]

// the refusal numbers
pub const UNKNOWN_FLOW: u32 = 1;
pub const NO_LENGTH: u32 = 2;
pub const OVER_MAXIMUM: u32 = 3;
pub const ROW_FULL: u32 = 4;
pub const FLOW_COUNT: u32 = 5;
pub const QUANTUM_RANGE: u32 = 6;
pub const MAXIMUM_RANGE: u32 = 7;
pub const NOT_SOUND: u32 = 8;
pub const FILE_LENGTH: u32 = 9;
pub const OVERHEAD_RANGE: u32 = 10;
pub const EVENT_COUNT: u32 = 11;
pub const TABLE_PLACE: u32 = 12;
pub const TICK_ORDER: u32 = 13;
pub const LIST_SHORT: u32 = 14;

// the least and the most of what setup and the calls accept
pub const MOST_FLOWS: usize = 16;
pub const LEAST_QUANTUM: u32 = 1;
pub const MOST_QUANTUM: u32 = 65535;
pub const LEAST_MAXIMUM: u32 = 1;
pub const MOST_MAXIMUM: u32 = 9216;
pub const MOST_WAITING: u8 = 32;
pub const MOST_OVERHEAD: u32 = 64;
pub const MOST_EVENTS: usize = 1024;

#[derive(Clone, Copy, Default, PartialEq, Eq, Debug)]
#[repr(C)]
pub struct FlowRecord {
    pub quantum: u32,
    pub maximum: u32,
}

#[derive(Clone, Copy, Default, PartialEq, Eq, Debug)]
#[repr(C)]
pub struct FlowList {
    pub records: [FlowRecord; 17],
    pub count: usize,
}

#[derive(Clone, Copy, Default, PartialEq, Eq, Debug)]
#[repr(C)]
pub struct Terms {
    pub overhead: u32,
}

#[derive(Clone, Copy, Default, PartialEq, Eq, Debug)]
#[repr(C)]
pub struct Table {
    pub n: usize,
    pub overhead: u32,
    pub quanta: [u32; 16],
    pub maxima: [u32; 16],
}

#[derive(Clone, Copy, Default, PartialEq, Eq, Debug)]
#[repr(C)]
pub struct Row {
    pub lengths: [u16; 32],
}

#[derive(Clone, Copy, Default, PartialEq, Eq, Debug)]
#[repr(C)]
pub struct Line {
    pub deficits: [u32; 16],
    pub counts: [u8; 16],
    pub sums: [u32; 16],
    pub place: usize,
    pub opened: bool,
    pub rows: [Row; 16],
}

#[derive(Clone, Copy, Default, PartialEq, Eq, Debug)]
#[repr(C)]
pub struct State {
    pub table: Table,
    pub line: Line,
}

#[derive(Clone, Copy, Default, PartialEq, Eq, Debug)]
#[repr(C)]
pub struct SetupResult {
    pub refusal: u32,
    pub place: usize,
    pub state: State,
}

#[derive(Clone, Copy, Default, PartialEq, Eq, Debug)]
#[repr(C)]
pub struct ArrivalResult {
    pub refusal: u32,
    pub state: State,
}

#[derive(Clone, Copy, Default, PartialEq, Eq, Debug)]
#[repr(C)]
pub struct PickResult {
    pub refusal: u32,
    pub sent: bool,
    pub flow: usize,
    pub length: u32,
    pub deficit: u32,
    pub visits: u32,
    pub state: State,
}

#[derive(Clone, Copy, Default, PartialEq, Eq, Debug)]
#[repr(C)]
pub struct FigureResult {
    pub refusal: u32,
    pub value: u64,
}

#[derive(Clone, Copy, Default, PartialEq, Eq, Debug)]
#[repr(C)]
pub struct RunResult {
    pub refusal: u32,
    pub place: usize,
}

// Calls by value take any numbers, so they are safe; the bools of a state are 0 or 1, as Rust keeps them.
#[link(name = "wikulambag", kind = "static")]
unsafe extern "C" {
    pub safe fn wikulambag_setup(list: FlowList, terms: Terms) -> SetupResult;
    pub safe fn wikulambag_sound(s: State) -> bool;
    pub safe fn wikulambag_arrival(s: State, flow: usize, length: u32) -> ArrivalResult;
    pub safe fn wikulambag_pick(s: State) -> PickResult;
    pub safe fn wikulambag_owed(s: State, flow: usize, bytes: u32) -> FigureResult;
    pub safe fn wikulambag_wait(s: State, flow: usize) -> FigureResult;
    pub safe fn wikulambag_lag(s: State, flow: usize) -> FigureResult;
    pub safe fn wikulambag_waiting_bytes(s: State, flow: usize) -> FigureResult;
    pub fn wikulambag_run(file: *const u8, size: usize, list: *mut u64, room: usize) -> RunResult;
}

impl FlowList {
    /// The flows with these quanta and maxima. Of more than seventeen only so many cross; the count is the true one.
    pub fn of(flows: &[(u32, u32)]) -> FlowList {
        let mut list = FlowList::default();
        for (record, &(quantum, maximum)) in list.records.iter_mut().zip(flows) {
            *record = FlowRecord { quantum, maximum };
        }
        list.count = flows.len();
        list
    }
}

/// `wikulambag_run` on what is lent.
pub fn run(file: &[u8], list: &mut [u64]) -> RunResult {
    // SAFETY: address and length of each are those of a slice, and the two cannot overlap
    unsafe { wikulambag_run(file.as_ptr(), file.len(), list.as_mut_ptr(), list.len()) }
}
