//! What is measured: each task is one call, or a short row of calls, on a fixed input.

use bench::plain::{plain_rust_make_image, plain_rust_make_sector, plain_rust_write};
use ism::sys::{Answer, Index, Profile, Report};
use ism::{CHECK, MARK_A1, MARK_C2, MAX_BYTES, MAX_INTERVALS, MAX_SECTORS, SECTOR_OVERHEAD};

use crate::implementations::{Implementation, Kind};

/// A profile of its numbers in the paper's order.
pub const fn profile_of(numbers: [u16; 11]) -> Profile {
    let [t1, t0, early, normal, late, min, b23_short, b23_long, b34_short, b34_long, rpt] = numbers;
    Profile { t1, t0, early, normal, late, min, b23_short, b23_long, b34_short, b34_long, rpt }
}

/// The worked profile of the paper, whose pairs are equal: what all rows have but those that say otherwise.
pub const PROFILE: Profile = profile_of([58, 29, 8, 10, 12, 36, 73, 73, 106, 106, 139]);

/// The same drive with pairs that give it a larger margin. As written, no interval lies between the two bounds of a
/// pair; moved by up to the margin, some lie between the two B34 and none between the two B23.
pub const PAIRS: Profile = profile_of([58, 29, 8, 10, 12, 36, 75, 71, 108, 104, 139]);

/// The same drive with pairs far apart: moved by up to the margin, many lie between the two bounds of a pair, also of
/// the two B23.
pub const FAR_PAIRS: Profile = profile_of([58, 29, 8, 10, 12, 36, 84, 60, 113, 98, 139]);

/// The margins of `PAIRS` and of `FAR_PAIRS`.
const PAIRS_MARGIN: u16 = 12;
const FAR_PAIRS_MARGIN: u16 = 5;

/// A drive with wide pairs: from 73 to 94 the interval before decides, between classes 2 and 3.
pub const WIDE_PAIRS: Profile = profile_of([58, 29, 0, 5, 5, 36, 95, 73, 120, 106, 139]);

const TRACK_INTERVALS: usize = 100_000;
const RAGGED: u32 = 7;
const STRAY: u32 = 8;
const ADRIFT: u32 = 10;

type Run = Box<dyn FnMut(&Implementation, &mut [u16]) -> Answer>;

pub struct Task {
    /// what the work is divided by, and its name
    pub units: usize,
    pub unit: &'static str,
    /// the number that every implementation answers
    pub number: u32,
    run: Run,
    out: Vec<u16>,
}

impl Task {
    fn new(units: usize, unit: &'static str, room: usize, run: Run) -> Task {
        Task { units, unit, number: 0, run, out: vec![0; room] }
    }

    fn refused(self, number: u32) -> Task {
        Task { number, ..self }
    }

    pub fn run(&mut self, who: &Implementation) -> Answer {
        (self.run)(who, &mut self.out)
    }

    /// What the last run has left in the output, which is cleared.
    pub fn output(&mut self) -> Vec<u16> {
        let cleared = vec![0; self.out.len()];
        std::mem::replace(&mut self.out, cleared)
    }
}

/// A task's name, its input in words, and how it is made; only the one that runs is made.
pub struct Plan {
    pub name: &'static str,
    pub input: &'static str,
    pub make: fn() -> Task,
    entry: Entry,
}

/// Which versions have a task's entry; careful ones answer by plain Rust what they do not have.
#[derive(Clone, Copy, PartialEq, Eq)]
enum Entry {
    /// the careful ones too
    Careful,
    Plain,
    /// the corrected reader: the library and careful C
    Corrected,
    /// pages: the library and the careful ones
    Pages,
}

impl Plan {
    /// Whether an implementation is measured on the task.
    pub fn measures(&self, who: &Implementation) -> bool {
        match self.entry {
            Entry::Careful => true,
            Entry::Plain => !who.kind.is_careful(),
            Entry::Corrected => self.answers(who),
            Entry::Pages => who.kind == Kind::Library || who.kind.is_careful(),
        }
    }

    /// Whether it answers at all.
    pub fn answers(&self, who: &Implementation) -> bool {
        self.entry != Entry::Corrected || who.read_corrected.is_some()
    }
}

macro_rules! plans {
    ($entry:expr, $($name:literal, $input:literal, $make:expr;)*) => {
        [$(Plan { name: $name, input: $input, make: || $make, entry: $entry }),*]
    };
}

pub fn all() -> Vec<Plan> {
    let classes = with_careful().into_iter().chain(with_pairs()).chain(at_own_speed());
    classes.chain(others()).chain(of_pages()).collect()
}

/// Pages, beside careful versions alone.
fn of_pages() -> [Plan; 4] {
    plans! {
        Entry::Pages,
        "read_pages-1", "1 page", read_pages(1);
        "read_pages-16", "16 pages", read_pages(16);
        "make_pages-1", "1 page", make_pages(1);
        "make_pages-16", "16 pages", make_pages(16);
    }
}

/// Writer, readers, finder and index.
fn with_careful() -> Vec<Plan> {
    Vec::from(plans! {
        Entry::Careful,
        "write-10", "10 bytes", write(items(10));
        "write-512", "512 bytes", write(items(512));
        "write-6400", "6400 bytes", write(items(6_400));
        "write_exact-512", "512 bytes, output exactly long", write_exactly(items(512));
        "write_exact-6400", "6400 bytes, output exactly long", write_exactly(items(6_400));
        "write_marks-6400", "6400 marks, A1 and C2 in turn", write([MARK_A1, MARK_C2].repeat(3_200));
        "write_checks-3200", "3200 check orders", write(vec![CHECK; 3_200]);
        "write_few-6400", "6400 bytes AA, the fewest cells", write(vec![0xAA; 6_400]);
        "write_mixed-6400", "6400 bytes of data, marks and check orders, output exactly long", write_exactly(mixed(6_400));
        "write_call-1", "1 byte", of_a_call(write(items(1)));
        "write_call-10", "10 bytes", of_a_call(write(items(10)));
        "read-10", "10 bytes", read(PROFILE, items(10));
        "read-512", "512 bytes", read(PROFILE, items(512));
        "read-6400", "6400 bytes", read(PROFILE, items(6_400));
        "read_marks-6400", "6400 marks, A1 and C2 in turn", read(PROFILE, [MARK_A1, MARK_C2].repeat(3_200));
        "read_ragged-6400", "6400 bytes, ragged", read_ragged(PROFILE, items(6_400));
        "read_stray-6400", "6400 bytes, stray at the end", read_stray(PROFILE, items(6_400));
        "find-100000", "100000 intervals of data", find(PROFILE, stream(PROFILE, &items(MAX_BYTES)));
        "find_in_sync-100000", "100000 intervals of class 2", find(PROFILE, vec![PROFILE.t1]);
        "find_in_runs_63-100000", "100000 intervals in runs of 63 of class 2", find(PROFILE, run_of(63));
        "find_in_runs_64-100000", "100000 intervals in runs of 64, no mark", find(PROFILE, run_of(64));
        "find_in_marks-100000", "100000 intervals of marks", find(PROFILE, stream(PROFILE, &vec![MARK_A1; MAX_BYTES]));
        "find_nothing-100000", "100000 intervals of data, no lock",
            find_nothing(PROFILE, stream(PROFILE, &items(MAX_BYTES)));
        "find_locks-9", "every lock of a track of 9 sectors of 512 bytes",
            find_locks(PROFILE, track_of(PROFILE, 9, 512));
        "read_field-10", "10 bytes", read_field(PROFILE, 10);
        "read_field-512", "512 bytes", read_field(PROFILE, 512);
        "read_field-1030", "1030 bytes", read_field(PROFILE, 1_030);
        "index-9", "a track of 9 sectors of 512 bytes", index(PROFILE, track_of(PROFILE, 9, 512));
        "index_descending-32", "a track of 32 sectors of 256 bytes, their numbers descending",
            index(PROFILE, descending_track());
        "read_track-9", "the set of a track of 9 sectors of 512 bytes", read_track(track_of(PROFILE, 9, 512), 9 * 515);
        "read_track-32", "the set of a track of 32 sectors of 256 bytes, their numbers descending",
            read_track(descending_track(), 32 * 259);
        "index_in_locks-100000", "100000 intervals of locks that read as nothing", index(PROFILE, repeated(one_mark()));
        "index_in_ids-100000", "100000 intervals of IDs whose sum fails", index(PROFILE, repeated(failing_id()));
        "index_damaged-9", "a track of 9 sectors of 512 bytes, a wide interval near the end of each one's data",
            index(PROFILE, damaged_track(9, 512));
    })
}

/// Readers, finder and index where the interval before counts.
fn with_pairs() -> Vec<Plan> {
    Vec::from(plans! {
        Entry::Careful,
        "read_pairs-6400", "6400 bytes, unequal pairs", read(PAIRS, items(6_400));
        "read_pairs_moved-6400", "6400 bytes, unequal pairs, each interval moved by up to 12",
            read_moved(PAIRS, PAIRS_MARGIN, items(6_400));
        "find_pairs-100000", "100000 intervals of data, unequal pairs", find(PAIRS, stream(PAIRS, &items(MAX_BYTES)));
        "find_locks_pairs-9", "every lock of a track of 9 sectors of 512 bytes, unequal pairs",
            find_locks(PAIRS, track_of(PAIRS, 9, 512));
        "find_unsure-100000", "100000 intervals, 200 and then 80s between the two B23", find_unsure();
        "read_field_pairs-10", "10 bytes, unequal pairs", read_field(PAIRS, 10);
        "read_field_pairs-1030", "1030 bytes, unequal pairs", read_field(PAIRS, 1_030);
        "read_field_pairs_moved-1030", "1030 bytes, unequal pairs, each interval moved by up to 12",
            read_field_moved(PAIRS, PAIRS_MARGIN, 1_030);
        "index_pairs-9", "a track of 9 sectors of 512 bytes, unequal pairs", index(PAIRS, track_of(PAIRS, 9, 512));
        "index_pairs_moved-9", "a track of 9 sectors of 512 bytes, unequal pairs, each interval moved by up to 12",
            index(PAIRS, moved(PAIRS_MARGIN, track_of(PAIRS, 9, 512)));
        "read_far_pairs-6400", "6400 bytes, pairs far apart, each interval moved by up to 5",
            read_moved(FAR_PAIRS, FAR_PAIRS_MARGIN, items(6_400));
        "read_field_far_pairs-1030", "1030 bytes, pairs far apart, each interval moved by up to 5",
            read_field_moved(FAR_PAIRS, FAR_PAIRS_MARGIN, 1_030);
        "find_locks_far_pairs-9", "every lock of such a track, pairs far apart, each interval moved by up to 5",
            find_locks(FAR_PAIRS, moved(FAR_PAIRS_MARGIN, track_of(FAR_PAIRS, 9, 512)));
        "index_far_pairs-9", "a track of 9 sectors of 512 bytes, pairs far apart, each interval moved by up to 5",
            index(FAR_PAIRS, moved(FAR_PAIRS_MARGIN, track_of(FAR_PAIRS, 9, 512)));
    })
}

/// The corrected reader on a drive that runs 3 percent slow.
fn at_own_speed() -> Vec<Plan> {
    Vec::from(plans! {
        Entry::Corrected,
        "read_corrected-10", "10 bytes, 3 percent slow", read_corrected(PROFILE, 10);
        "read_corrected-512", "512 bytes, 3 percent slow", read_corrected(PROFILE, 512);
        "read_corrected-1030", "1030 bytes, 3 percent slow", read_corrected(PROFILE, 1_030);
        "read_corrected_pairs-1030", "1030 bytes, 3 percent slow, unequal pairs", read_corrected(PAIRS, 1_030);
    })
}

fn others() -> Vec<Plan> {
    Vec::from(plans! {
        Entry::Plain,
        "make_sector-512", "512 data bytes", make_sector(512);
        "make_sector-1024", "1024 data bytes", make_sector(1_024);
        "sector-512", "512 data bytes, made and written", sector(512);
        "sector-1024", "1024 data bytes, made and written", sector(1_024);
        "make_image-512", "512 bytes", make_image(items(512));
        "make_image-6400", "6400 bytes", make_image(items(6_400));
        "make_image_mixed-6400", "6400 bytes of data, marks and check orders", make_image(mixed(6_400));
        "make_image_call-1", "1 byte", of_a_call(make_image(items(1)));
        "read_image-512", "512 bytes", read_image(items(512));
        "read_image-6400", "6400 bytes", read_image(items(6_400));
        "drive_report-51202", "51202 intervals of data", drive_report(PROFILE, MAX_INTERVALS);
        "drive_report_pairs-51202", "51202 intervals of data, unequal pairs", drive_report(PAIRS, MAX_INTERVALS);
        "drive_report_far_pairs-51202", "51202 intervals of data, pairs far apart, each interval moved by up to 5",
            drive_report_moved(FAR_PAIRS, FAR_PAIRS_MARGIN);
        "merge-9", "two sets of 9 sectors of 512 bytes", merge(9, 512);
        "merge-32", "two sets of 32 sectors of 1024 bytes", merge(32, 1_024);
    })
}

/// Bytes without a pattern, the same in every run.
fn bytes(count: usize) -> Vec<u8> {
    let mut state: u32 = 0x1234_5678;
    let mut byte = || {
        state = state.wrapping_mul(1_664_525).wrapping_add(1_013_904_223);
        (state >> 24) as u8
    };
    (0..count).map(|_| byte()).collect()
}

fn items(count: usize) -> Vec<u16> {
    bytes(count).into_iter().map(u16::from).collect()
}

/// As many written bytes, of each 32 three marks, 27 data bytes and the two of a check order.
fn mixed(written: usize) -> Vec<u16> {
    items(written / 32 * 27).chunks(27).flat_map(|data| [&[MARK_A1; 3], data, &[CHECK]].concat()).collect()
}

/// How many bytes a list writes: two for a check order.
fn written_bytes(list: &[u16]) -> usize {
    list.len() + list.iter().filter(|item| **item == CHECK).count()
}

fn stream(p: Profile, items: &[u16]) -> Vec<u16> {
    let mut out = vec![0; MAX_INTERVALS];
    let answer = plain_rust_write(p, items, &mut out);
    assert_eq!(answer.number, 0, "the inputs of the benchmark are accepted");
    out.truncate(answer.count as usize);
    out
}

/// Each interval of a stream moved by up to its profile's margin, so that it reads as before.
fn moved(margin: u16, mut intervals: Vec<u16>) -> Vec<u16> {
    let steps = bytes(intervals.len()).into_iter().map(|byte| u16::from(byte) % (2 * margin + 1));
    for (interval, step) in intervals.iter_mut().zip(steps) {
        *interval = *interval + step - margin;
    }
    intervals
}

fn write_into(list: Vec<u16>, room: usize) -> Task {
    let intervals = stream(PROFILE, &list).len();
    let run: Run = Box::new(move |who, out| (who.write)(PROFILE, &list, out));
    Task::new(intervals, "interval", room, run)
}

/// Output for the list with the most intervals.
fn write(list: Vec<u16>) -> Task {
    let room = 8 * written_bytes(&list) + 2;
    write_into(list, room)
}

/// The whole call counts, and not its intervals or bytes.
fn of_a_call(task: Task) -> Task {
    Task { units: 1, unit: "call", ..task }
}

fn write_exactly(list: Vec<u16>) -> Task {
    let room = stream(PROFILE, &list).len();
    write_into(list, room)
}

fn read_list(p: Profile, intervals: Vec<u16>, room: usize) -> Task {
    let units = intervals.len();
    let run: Run = Box::new(move |who, out| (who.read)(p, &intervals, out));
    Task::new(units, "interval", room, run)
}

fn read(p: Profile, list: Vec<u16>) -> Task {
    read_list(p, stream(p, &list), list.len())
}

fn read_moved(p: Profile, margin: u16, list: Vec<u16>) -> Task {
    read_list(p, moved(margin, stream(p, &list)), list.len())
}

/// One closing interval is lost.
fn read_ragged(p: Profile, list: Vec<u16>) -> Task {
    let mut intervals = stream(p, &list);
    intervals.pop();
    read_list(p, intervals, list.len()).refused(RAGGED)
}

/// The last byte is 00, and the closing clock is lost.
fn read_stray(p: Profile, mut list: Vec<u16>) -> Task {
    let last = list.len() - 1;
    list[last] = 0;
    let mut intervals = stream(p, &list);
    intervals.truncate(intervals.len() - 2);
    intervals.push(p.t1 + 2 * p.t0);
    read_list(p, intervals, list.len()).refused(STRAY)
}

fn run_of(length: usize) -> Vec<u16> {
    [vec![PROFILE.t1; length], vec![PROFILE.b23_short]].concat()
}

fn find_in(p: Profile, track: Vec<u16>) -> Task {
    let run: Run = Box::new(move |who, _| (who.find)(p, &track, 0));
    Task::new(TRACK_INTERVALS, "interval", 0, run)
}

/// A track that repeats some intervals, with the only lock at its very end.
fn find(p: Profile, repeated: Vec<u16>) -> Task {
    let lock = stream(p, &[vec![0; 12], vec![MARK_A1; 3]].concat());
    let mut track: Vec<u16> = repeated.into_iter().cycle().take(TRACK_INTERVALS - lock.len()).collect();
    track.extend(lock);
    find_in(p, track)
}

fn find_nothing(p: Profile, repeated: Vec<u16>) -> Task {
    find_in(p, repeated.into_iter().cycle().take(TRACK_INTERVALS).collect()).refused(ADRIFT)
}

/// Each search begins at the lock before, until none is found. The output has the places.
fn find_locks(p: Profile, track: Vec<u16>) -> Task {
    let intervals = track.len();
    let run: Run = Box::new(move |who, out| {
        let mut answer = (who.find)(p, &track, 0);
        for place in out {
            *place = answer.count as u16;
            answer = (who.find)(p, &track, answer.count);
        }
        answer
    });
    Task::new(intervals, "interval", 2 * 9, run).refused(ADRIFT)
}

/// The finder's worst case: all but the first lie between the two B23, behind a wide one, and so none is of class 2,
/// though each would be behind class 2.
fn find_unsure() -> Task {
    let mut track = vec![80; TRACK_INTERVALS];
    track[0] = 200;
    find_in(WIDE_PAIRS, track).refused(ADRIFT)
}

/// Three marks, data and check bytes; the register is zero behind them.
fn field(p: Profile, size: usize) -> Vec<u16> {
    stream(p, &[vec![MARK_A1; 3], items(size - 5), vec![CHECK]].concat())
}

fn read_field_list(p: Profile, intervals: Vec<u16>, size: usize) -> Task {
    let units = intervals.len();
    let run: Run = Box::new(move |who, out| (who.read_field)(p, &intervals, size as u64, out));
    Task::new(units, "interval", size, run)
}

fn read_field(p: Profile, size: usize) -> Task {
    read_field_list(p, field(p, size), size)
}

fn read_field_moved(p: Profile, margin: u16, size: usize) -> Task {
    read_field_list(p, moved(margin, field(p, size)), size)
}

/// A sync field and such a field, each interval 3 percent longer, rounded down. The lock's place, the differences and
/// the used intervals are part of the answer.
fn read_corrected(p: Profile, size: usize) -> Task {
    let items = [vec![0; 12], vec![MARK_A1; 3], items(size - 5), vec![CHECK]].concat();
    let slowed = |d: u16| (u32::from(d) * 103 / 100) as u16;
    let list: Vec<u16> = stream(p, &items).into_iter().map(slowed).collect();
    let units = list.len();
    let run: Run = Box::new(move |who, out| {
        let read = who.read_corrected.expect("measured where it is");
        let read = read(p, &list, 0, size as u64, out);
        let used = read.used + read.lock + (read.even + 3 * read.odd) as u64;
        let (holds, clearance) = (read.holds, read.clearance);
        Answer { number: read.number, place: read.place, count: read.count, used, holds, clearance }
    });
    Task::new(units, "interval", size, run)
}

fn length_code(size: usize) -> u8 {
    (size / 128).ilog2() as u8
}

fn make_sector(size: usize) -> Task {
    let data = bytes(size);
    let run: Run = Box::new(move |who, out| (who.make_sector)([7, 0, 3, length_code(size)], &data, out));
    Task::new(size + SECTOR_OVERHEAD, "item", size + SECTOR_OVERHEAD, run)
}

/// A sector that is made and written, check bytes included.
fn sector(size: usize) -> Task {
    let data = bytes(size);
    let mut sector = vec![0; size + SECTOR_OVERHEAD];
    let written = sector.len() + 2;
    let run: Run = Box::new(move |who, out| {
        (who.make_sector)([7, 0, 3, length_code(size)], &data, &mut sector);
        (who.write)(PROFILE, &sector, out)
    });
    Task::new(written, "written byte", 8 * written + 2, run)
}

/// A byte is a written byte, of which each is a word.
fn make_image(list: Vec<u16>) -> Task {
    let words = written_bytes(&list);
    let run: Run = Box::new(move |who, out| (who.make_image)(&list, out));
    Task::new(words, "byte", words, run)
}

fn read_image(list: Vec<u16>) -> Task {
    let mut words = vec![0; list.len()];
    assert_eq!(plain_rust_make_image(&list, &mut words).number, 0, "the inputs of the benchmark are accepted");
    let run: Run = Box::new(move |who, out| (who.read_image)(&words, out));
    Task::new(list.len(), "byte", list.len(), run)
}

/// Sixteen bits each of a report's numbers.
const REPORT_PARTS: usize = 5 * 4 * 4;

fn put_report(report: &Report, out: &mut [u16]) -> Answer {
    let numbers = report.rows.iter().flat_map(|row| [row.count, row.least, row.greatest, row.sum]);
    for (parts, number) in out.chunks_exact_mut(4).zip(numbers) {
        parts.copy_from_slice(&[number as u16, (number >> 16) as u16, (number >> 32) as u16, (number >> 48) as u16]);
    }
    Answer { number: report.number, place: report.place, count: 0, used: 0, holds: 0, clearance: 0 }
}

fn drive_report(p: Profile, intervals: usize) -> Task {
    report_of(p, stream(p, &items(MAX_BYTES)), intervals)
}

fn drive_report_moved(p: Profile, margin: u16) -> Task {
    report_of(p, moved(margin, stream(p, &items(MAX_BYTES))), MAX_INTERVALS)
}

fn report_of(p: Profile, repeated: Vec<u16>, intervals: usize) -> Task {
    let track: Vec<u16> = repeated.into_iter().cycle().take(intervals).collect();
    let run: Run = Box::new(move |who, out| put_report(&(who.drive_report)(p, &track), out));
    Task::new(intervals, "interval", REPORT_PARTS, run)
}

/// Ten numbers of sixteen bits for each entry of an index; the places are below 2^32.
const ENTRY_PARTS: usize = 10;

fn put_index(index: &Index, out: &mut [u16]) -> Answer {
    for (parts, entry) in out.chunks_exact_mut(ENTRY_PARTS).zip(&index.entries) {
        let places = [entry.id_place, entry.data_place].map(|place| [place as u16, (place >> 16) as u16]);
        let bytes = [entry.track, entry.side, entry.sector, entry.code, entry.found, entry.holds].map(u16::from);
        parts[..4].copy_from_slice(places.as_flattened());
        parts[4..].copy_from_slice(&bytes);
    }
    Answer { number: index.number, place: index.place, count: index.count, used: 0, holds: 0, clearance: 0 }
}

fn index(p: Profile, track: Vec<u16>) -> Task {
    let intervals = track.len();
    let run: Run = Box::new(move |who, out| put_index(&(who.index_track)(p, &track), out));
    Task::new(intervals, "interval", ENTRY_PARTS * MAX_SECTORS, run)
}

/// Made sectors one after the other.
fn track_of(p: Profile, sectors: usize, size: usize) -> Vec<u16> {
    let data = bytes(sectors * size);
    let mut items = vec![0; sectors * (size + SECTOR_OVERHEAD)];
    for (number, out) in items.chunks_exact_mut(size + SECTOR_OVERHEAD).enumerate() {
        let id = [39, 1, number as u8 + 1, length_code(size)];
        plain_rust_make_sector(id, &data[number * size..(number + 1) * size], out);
    }
    stream(p, &items)
}

/// The streams of the sectors, one after the other, each with an interval of its data that is no cell, some 26 bytes
/// before the data's end: its field is read nearly whole and then refused.
fn damaged_track(sectors: u8, size: usize) -> Vec<u16> {
    let data = bytes(size);
    let sector = |number: u8| {
        let mut items = vec![0; size + SECTOR_OVERHEAD];
        plain_rust_make_sector([39, 1, number, length_code(size)], &data, &mut items);
        let mut intervals = stream(PROFILE, &items);
        let place = intervals.len() - 500;
        intervals[place] = PROFILE.rpt;
        intervals
    };
    (1..=sectors).flat_map(sector).collect()
}

/// The sectors of a track as a set of so many bytes.
fn read_track(track: Vec<u16>, bytes: usize) -> Task {
    let units = track.len();
    let run: Run = Box::new(move |who, out| {
        // SAFETY: any bytes are numbers of sixteen bits
        let (_, out, _) = unsafe { out.align_to_mut::<u8>() };
        (who.read_track)(PROFILE, &track, out)
    });
    Task::new(units, "interval", bytes.div_ceil(2), run)
}

/// Longer than one strip can be: the streams of the sectors, one after the other.
fn descending_track() -> Vec<u16> {
    const SIZE: usize = 256;
    let data = bytes(SIZE);
    let sector = |number: u8| {
        let mut items = vec![0; SIZE + SECTOR_OVERHEAD];
        plain_rust_make_sector([39, 1, number, length_code(SIZE)], &data, &mut items);
        stream(PROFILE, &items)
    };
    (1..=32).rev().flat_map(sector).collect()
}

fn repeated(intervals: Vec<u16>) -> Vec<u16> {
    intervals.into_iter().cycle().take(TRACK_INTERVALS).collect()
}

/// As short as a lock can be.
fn one_mark() -> Vec<u16> {
    let (three, four) = (PROFILE.b23_short, PROFILE.b34_short);
    [vec![PROFILE.t1; 64], vec![three, four, three, four, three]].concat()
}

/// An ID field with wrong check bytes, and its sync.
fn failing_id() -> Vec<u16> {
    stream(PROFILE, &[vec![0; 12], vec![MARK_A1; 3], vec![0xFE, 39, 1, 7, 2, 0, 0]].concat())
}

/// The sectors that a pass reads from one of them on; the sum of some fails.
fn pass(sectors: usize, size: usize, from: usize, fails: fn(usize) -> bool) -> Vec<u8> {
    let data = bytes(sectors * size);
    let sector = |number: usize| {
        let good = !fails(number);
        let mut all = vec![number as u8, length_code(size), u8::from(good)];
        all.extend(&data[number * size..(number + 1) * size]);
        if !good {
            all[3 + size / 2] ^= 1;
        }
        all
    };
    (0..sectors).flat_map(|i| sector((from + i) % sectors)).collect()
}

/// Two passes over a track that begin at different sectors. A third of the sums fail in the first, a quarter in the
/// second.
fn merge(sectors: usize, size: usize) -> Task {
    let first = pass(sectors, size, 0, |number| number % 3 == 0);
    let second = pass(sectors, size, sectors / 2, |number| number % 4 == 1);
    let merged = first.len();
    let run: Run = Box::new(move |who, out| {
        // SAFETY: any bytes are numbers of sixteen bits
        let (_, out, _) = unsafe { out.align_to_mut::<u8>() };
        (who.merge)(&first, &second, out)
    });
    Task::new(merged, "merged byte", merged.div_ceil(2), run)
}

const PAGE_CELLS: usize = 1_000;
const PAGE_SET_BYTES: usize = 1_027;

/// Sectors 1 to `pages` of code 3 in order, each a page and 24 bytes of 00.
fn page_set(pages: usize) -> Vec<u8> {
    let cells = bytes(PAGE_CELLS * pages);
    let sector = |(page, number): (&[u8], u8)| [&[number, 3, 1], page, &[0; 24]].concat();
    cells.chunks(PAGE_CELLS).zip(1..).flat_map(sector).collect()
}

/// The dots of all pages are added up, so that they count as an answer.
fn read_pages(pages: usize) -> Task {
    let set = page_set(pages);
    let run: Run = Box::new(move |who, out| {
        // SAFETY: any bytes are numbers of sixteen bits
        let (_, out, _) = unsafe { out.align_to_mut::<u8>() };
        let read = (who.read_pages)(&set, pages as u64, out);
        let dots = read.dots.iter().sum();
        Answer { number: read.number, place: read.place, count: read.count, used: read.used, holds: dots, clearance: 0 }
    });
    Task::new(PAGE_CELLS * pages, "cell", PAGE_CELLS * pages / 2, run)
}

fn make_pages(pages: usize) -> Task {
    let cells = bytes(PAGE_CELLS * pages);
    let run: Run = Box::new(move |who, out| {
        // SAFETY: any bytes are numbers of sixteen bits
        let (_, out, _) = unsafe { out.align_to_mut::<u8>() };
        (who.make_pages)(&cells, pages as u64, out)
    });
    Task::new(PAGE_CELLS * pages, "cell", (PAGE_SET_BYTES * pages).div_ceil(2), run)
}
