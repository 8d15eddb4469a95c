//! The C interface as `include/ism.h` declares it. The header says what each function gives; prefer the safe functions
//! of this crate.

/// `ism_profile`: the timing of one drive type. The header gives the ranges and says when a profile is true.
#[repr(C)]
#[derive(Clone, Copy, Debug, PartialEq, Eq)]
pub struct Profile {
    /// half clocks of a cell of 2 units, 1 to 1,023
    pub t1: u16,
    /// half clocks of each further unit, 1 to 1,023
    pub t0: u16,
    /// whole clocks, 0 to 15: compare point of an early transition
    pub early: u16,
    /// whole clocks, 0 to 15: compare point of any other
    pub normal: u16,
    /// whole clocks, 0 to 15: compare point of a late transition
    pub late: u16,
    /// lower edge of class 2, in half clocks, as all edges 1 to 4,095
    pub min: u16,
    /// lower edge of class 3 after an interval of class 2
    pub b23_short: u16,
    /// lower edge of class 3 after an interval of any other class
    pub b23_long: u16,
    /// lower edge of class 4 after an interval of class 2
    pub b34_short: u16,
    /// lower edge of class 4 after an interval of any other class
    pub b34_long: u16,
    /// lower edge of wide
    pub rpt: u16,
}

/// `ism_answer`
#[repr(C)]
#[derive(Clone, Copy, Debug, PartialEq, Eq)]
pub struct Answer {
    /// 0, or the number of the refusal
    pub number: u32,
    /// the place of the refusal
    pub place: u32,
    /// what the function says
    pub count: u64,
    /// what the function says
    pub used: u64,
    /// 1 if the sum holds, else 0
    pub holds: u32,
    /// half clocks
    pub clearance: u32,
}

/// `ism_corrected`
#[repr(C)]
#[derive(Clone, Copy, Debug, PartialEq, Eq)]
pub struct Corrected {
    /// 0, or the number of the refusal
    pub number: u32,
    /// the place of the refusal
    pub place: u32,
    /// the lock's place
    pub lock: u64,
    /// items
    pub count: u64,
    /// intervals used, from the lock
    pub used: u64,
    /// 1 where the sum holds
    pub holds: u32,
    /// half clocks
    pub clearance: u32,
    /// of the even intervals before the lock: their sum less 32 x T1
    pub even: i32,
    /// of the odd
    pub odd: i32,
}

/// `ism_limit`
#[repr(C)]
#[derive(Clone, Copy, Debug, Default, PartialEq, Eq)]
pub struct Limit {
    /// 1 Min, 2 B23, 3 B34, 4 Rpt
    pub edge: u16,
    /// 0 both kinds, 1 after a short cell, 2 after any other
    pub after: u16,
    /// 1 for the lengths above the edge, 0 for those below
    pub above: u16,
    /// the lowest item that shows it
    pub item: u16,
    /// the first such interval of its stream
    pub interval: u16,
    /// its length, moved by margin + 1
    pub moved: u16,
}

/// `ism_limits`
#[repr(C)]
#[derive(Clone, Copy, Debug, PartialEq, Eq)]
pub struct Limits {
    /// 0, or the number of the refusal
    pub number: u32,
    /// the place of the refusal
    pub place: u32,
    /// sides, 1 to 10
    pub count: u64,
    /// the sides; those beyond the count are all 0
    pub limits: [Limit; 10],
}

/// `ism_best`
#[repr(C)]
#[derive(Clone, Copy, Debug, PartialEq, Eq)]
pub struct Best {
    /// 0, or the number of the refusal
    pub number: u32,
    /// the place of the refusal
    pub place: u32,
    /// half clocks
    pub margin: u64,
    /// the profile that has it
    pub profile: Profile,
}

/// `ism_report_row`: the intervals of one class
#[repr(C)]
#[derive(Clone, Copy, Debug, Default, PartialEq, Eq)]
pub struct ReportRow {
    /// how many intervals are of the class
    pub count: u64,
    /// the least of them, in half clocks
    pub least: u64,
    /// the greatest
    pub greatest: u64,
    /// their sum
    pub sum: u64,
}

/// `ism_report`
#[repr(C)]
#[derive(Clone, Copy, Debug, PartialEq, Eq)]
pub struct Report {
    /// 0, or the number of the refusal
    pub number: u32,
    /// the place of the refusal
    pub place: u32,
    /// narrow, 2, 3, 4, wide
    pub rows: [ReportRow; 5],
}

/// `ism_index_entry`
#[repr(C)]
#[derive(Clone, Copy, Debug, Default, PartialEq, Eq)]
pub struct IndexEntry {
    /// the place of the ID's lock
    pub id_place: u64,
    /// the place of the data's lock; 0 where no data was found
    pub data_place: u64,
    /// the byte after FE
    pub track: u8,
    /// the second
    pub side: u8,
    /// the third
    pub sector: u8,
    /// the fourth: the length code
    pub code: u8,
    /// 1 if the data was found, else 0
    pub found: u8,
    /// 1 if the data was found and its sum holds, else 0
    pub holds: u8,
}

/// `ism_index`
#[repr(C)]
#[derive(Clone, Copy, Debug, PartialEq, Eq)]
pub struct Index {
    /// 0, or the number of the refusal
    pub number: u32,
    /// the place of the refusal
    pub place: u32,
    /// entries
    pub count: u64,
    /// the entries; those beyond the count are all 0
    pub entries: [IndexEntry; 32],
}

/// `ism_fifo`
#[repr(C)]
#[derive(Clone, Copy, Debug, PartialEq, Eq)]
pub struct Fifo {
    /// 0 write mode, any other number read mode
    pub mode: u16,
    /// 0 empty, 1 one item, any other number two
    pub held: u16,
    /// the item that leaves first
    pub first: u16,
    /// the item that leaves second
    pub second: u16,
    /// the error register
    pub error: u16,
}

/// `ism_fifo_answer`
#[repr(C)]
#[derive(Clone, Copy, Debug, PartialEq, Eq)]
pub struct FifoAnswer {
    /// 0, or the number of the refusal
    pub number: u32,
    /// the place of the refusal
    pub place: u32,
    /// the item given
    pub item: u16,
    /// the next state
    pub next: Fifo,
}

// the header has the text of each function
#[allow(missing_docs)]
extern "C" {
    pub fn ism_version() -> u32;
    pub fn ism_interface_9() -> u32;
    pub fn ism_margin(profile: Profile) -> Answer;
    pub fn ism_margin_limits(profile: Profile) -> Limits;
    pub fn ism_best_windows(t1: u16, t0: u16, early: u16, normal: u16, late: u16) -> Best;
    pub fn ism_class(profile: Profile, interval: u16, after_short: u32) -> Answer;
    pub fn ism_write(profile: Profile, items: *const u16, n: usize, out: *mut u16, room: usize) -> Answer;
    pub fn ism_read(profile: Profile, intervals: *const u16, n: usize, out: *mut u16, room: usize) -> Answer;
    pub fn ism_find(profile: Profile, intervals: *const u16, n: usize, start: u64) -> Answer;
    pub fn ism_read_field(
        profile: Profile,
        intervals: *const u16,
        n: usize,
        bytes: u64,
        out: *mut u16,
        room: usize,
    ) -> Answer;
    pub fn ism_read_corrected(
        profile: Profile,
        intervals: *const u16,
        n: usize,
        start: u64,
        bytes: u64,
        out: *mut u16,
        room: usize,
    ) -> Corrected;
    pub fn ism_make_image(items: *const u16, n: usize, words: *mut u16, room: usize) -> Answer;
    pub fn ism_read_image(words: *const u16, n: usize, items: *mut u16, room: usize) -> Answer;
    pub fn ism_make_sector(
        track: u8,
        side: u8,
        sector: u8,
        code: u8,
        data: *const u8,
        n: usize,
        out: *mut u16,
        room: usize,
    ) -> Answer;
    pub fn ism_index_track(profile: Profile, intervals: *const u16, n: usize) -> Index;
    pub fn ism_merge(first: *const u8, n: usize, second: *const u8, m: usize, out: *mut u8, room: usize) -> Answer;
    pub fn ism_read_track(profile: Profile, intervals: *const u16, n: usize, set: *mut u8, room: usize) -> Answer;
    pub fn ism_drive_report(profile: Profile, intervals: *const u16, n: usize) -> Report;
    pub fn ism_add_reports(a: Report, b: Report) -> Report;
    pub fn ism_fifo_new(mode: u16) -> Fifo;
    pub fn ism_fifo_put(fifo: Fifo, item: u16) -> FifoAnswer;
    pub fn ism_fifo_chip_put(fifo: Fifo, item: u16) -> FifoAnswer;
    pub fn ism_fifo_take_data(fifo: Fifo) -> FifoAnswer;
    pub fn ism_fifo_take_mark(fifo: Fifo) -> FifoAnswer;
    pub fn ism_fifo_chip_take(fifo: Fifo) -> FifoAnswer;
    pub fn ism_fifo_read_error(fifo: Fifo) -> FifoAnswer;
}

/// A program does not link with a library of another interface, which has no such symbol.
#[used]
static INTERFACE_ASKED: unsafe extern "C" fn() -> u32 = ism_interface_9;
