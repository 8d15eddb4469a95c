//! Random calls, on which every implementation must give the library's answer and leave the library's output: lists
//! and streams that are accepted, damaged ones, profiles out of range, outputs that are short, exact and roomy.

use bench::plain::put_sector;
use ism::sys::{Fifo, FifoAnswer, Profile, Report, ReportRow};
use ism::{CHECK, MARK_A1, MARK_C2, MAX_BYTES, MAX_INTERVALS, MAX_SET_BYTES};

use crate::implementations::{Implementation, FIFO_OPERATIONS};
use crate::tasks::{profile_of, PAIRS, PROFILE, WIDE_PAIRS};

/// Numbers without a pattern, the same in every run (splitmix).
pub struct Random(u64);

impl Random {
    pub fn new(seed: u64) -> Self {
        Random(seed)
    }

    fn next(&mut self) -> u64 {
        self.0 = self.0.wrapping_add(0x9E37_79B9_7F4A_7C15);
        let mixed = (self.0 ^ self.0 >> 30).wrapping_mul(0xBF58_476D_1CE4_E5B9);
        let mixed = (mixed ^ mixed >> 27).wrapping_mul(0x94D0_49BB_1331_11EB);
        mixed ^ mixed >> 31
    }

    /// Below a bound.
    pub fn below(&mut self, bound: u64) -> u64 {
        (self.next() >> 11) % bound.max(1)
    }

    fn one_in(&mut self, n: u64) -> bool {
        self.below(n) == 0
    }

    fn within(&mut self, low: i64, high: i64) -> i64 {
        low + self.below((high - low + 1).max(1) as u64) as i64
    }

    fn of<T: Copy>(&mut self, list: &[T]) -> T {
        list[self.below(list.len() as u64) as usize]
    }

    /// Mostly short, seldom long, and then mostly as long as may be.
    fn length(&mut self, most: u64) -> usize {
        let length = if self.one_in(2_000) {
            self.of(&[most, most, most - 1, most - 2, most / 2])
        } else {
            let short = self.of(&[3, 12, 40, 120]);
            self.below(most.min(short) + 1)
        };
        length as usize
    }
}

/// A bound and the other of its pair: half of the time equal, where that is true, else as far apart as may be or near.
fn pair(r: &mut Random, short: [i64; 2], long: [i64; 2]) -> [i64; 2] {
    let both = [short[0].max(long[0]), short[1].min(long[1])];
    if both[0] <= both[1] && r.one_in(2) {
        return [r.within(both[0], both[1]); 2];
    }
    match r.below(6) {
        0 => [short[0], long[1]],
        1 => [short[1], long[0]],
        2 => [short[1], long[1]],
        _ => [r.within(short[0], short[1]), r.within(long[0], long[1])],
    }
}

/// A profile that is true, or nearly, with equal pairs and unequal ones.
fn profile(r: &mut Random) -> Profile {
    if r.one_in(3) {
        return r.of(&[PROFILE, PAIRS, WIDE_PAIRS]);
    }
    let (early, late) = (r.within(0, 7), r.within(7, 15));
    let normal = r.within(early, late);
    let (e, l) = (2 * (normal - early), 2 * (late - normal));
    let d = e + l;
    let most = r.of(&[d + 40, 1_023]);
    let (t1, t0) = (r.within(d + 2, most), r.within(d + 2, most));
    let (three, four) = (t1 + t0, t1 + 2 * t0);
    let b23 = pair(r, [t1 + 1, three + e], [t1 - l + 1, three]);
    let b34 = pair(r, [three + d + 1, four + e], [three + l + 1, four]);
    let (min, rpt) = (r.within(1, t1 - d), r.within(four + d + 1, 4_095));
    let numbers = [t1, t0, early, normal, late, min, b23[0], b23[1], b34[0], b34[1], rpt];
    let mut numbers = numbers.map(|number| number as u16);
    if r.one_in(30) {
        let which = r.below(11) as usize;
        numbers[which] = match r.below(4) {
            0 => numbers[which] + 1,
            1 => numbers[which].wrapping_sub(1),
            _ => r.of(&[0, 1, 15, 16, 1_023, 1_024, 4_095, 4_096, 65_535]),
        };
    }
    profile_of(numbers)
}

/// From Min on.
fn edges_of(p: Profile) -> [u16; 6] {
    [p.min, p.b23_short, p.b23_long, p.b34_short, p.b34_long, p.rpt]
}

fn item(r: &mut Random) -> u16 {
    match r.below(12) {
        0 => r.of(&[MARK_A1, MARK_C2]),
        1 => CHECK,
        2 | 3 => r.of(&[0x00, 0xFF, 0x4E, 0xA1, 0xC2, 0x14, 0x0A]),
        _ => r.below(256) as u16,
    }
}

fn items(r: &mut Random, n: usize) -> Vec<u16> {
    if r.one_in(4) {
        let only = item(r);
        return vec![only; n];
    }
    (0..n).map(|_| item(r)).collect()
}

fn foreign_at_times(r: &mut Random, mut list: Vec<u16>) -> Vec<u16> {
    while !list.is_empty() && r.one_in(10) {
        let place = r.below(list.len() as u64) as usize;
        list[place] = r.of(&[256, 417 + 1, 0x1C3, 511, 513, 0x3FF, 32_768, 65_535, r.0 as u16]);
    }
    list
}

/// The stream of a list, sync field in front at times, each interval moved, and damaged at times.
fn stream(r: &mut Random, library: &Implementation, p: Profile, longest: u64) -> Vec<u16> {
    let n = r.length(longest);
    let mut list = items(r, n);
    if r.one_in(3) {
        let marks = 1 + r.below(3) as usize;
        list.splice(0..0, [vec![0; 7 + r.below(3) as usize], vec![r.of(&[MARK_A1, MARK_C2]); marks]].concat());
    }
    let mut out = vec![0; 16 * list.len() + 2];
    let count = (library.write)(p, &list, &mut out).count as usize;
    out.truncate(count);
    if r.one_in(3) {
        make_unsure(r, library, p, &mut out);
    }
    let moved = r.of(&[0, 0, 1, 3, 12]);
    for interval in &mut out {
        *interval = (i64::from(*interval) + r.within(-moved, moved)).max(0) as u16;
    }
    let harm = r.of(&[0, 0, 1, 2, 5]);
    for _ in 0..harm {
        damage(r, p, &mut out);
    }
    out
}

/// An interval whose class the one before decides, where the bounds of a pair differ.
fn between(r: &mut Random, a: u16, b: u16) -> u16 {
    r.within(a.min(b).into(), a.max(b).into()) as u16
}

/// Moves some intervals between the two bounds of a pair, where they keep their class.
fn make_unsure(r: &mut Random, library: &Implementation, p: Profile, list: &mut [u16]) {
    let (mut after_short, rate) = (1, r.of(&[3, 30, 300]));
    for interval in list {
        let class = (library.class)(p, *interval, after_short).count;
        if r.one_in(rate) {
            let bounds = r.of(&[[p.b23_short, p.b23_long], [p.b34_short, p.b34_long]]);
            let other = between(r, bounds[0], bounds[1]);
            if (library.class)(p, other, after_short).count == class {
                *interval = other;
            }
        }
        after_short = u32::from(class == 2);
    }
}

fn damage(r: &mut Random, p: Profile, list: &mut Vec<u16>) {
    let interval = match r.below(10) {
        0 => r.below(65_536) as u16,
        1 => r.of(&edges_of(p)).wrapping_sub(1),
        2 => r.of(&edges_of(p)),
        8 => between(r, p.b23_short, p.b23_long),
        9 => between(r, p.b34_short, p.b34_long),
        3 => p.t1.wrapping_add(p.t0),
        4 | 5 => p.t1.wrapping_add(p.t0).wrapping_add(p.t0),
        _ => p.t1,
    };
    let place = r.below(list.len() as u64 + 1) as usize;
    match r.below(6) {
        0 => list.insert(place, interval),
        1 => list.truncate(place),
        2 => list.splice(place..place, vec![interval; r.length(70)]).for_each(drop),
        3 if place < list.len() => drop(list.remove(place)),
        _ if place < list.len() => list[place] = interval,
        _ => list.push(interval),
    }
}

/// An output around the length that is needed.
fn room(r: &mut Random, needed: u64) -> usize {
    match r.below(6) {
        0 => r.below(needed + 1) as usize,
        1 => needed.saturating_sub(1) as usize,
        2 | 3 => needed as usize,
        4 => needed as usize + 1,
        _ => needed as usize + r.below(40) as usize,
    }
}

const FILL: u16 = 0xBEEF;

/// One call: every implementation's answer and output, the library's first.
type Results<A> = Vec<(A, Vec<u16>)>;

fn with_output<A>(all: &[Implementation], room: usize, call: impl Fn(&Implementation, &mut [u16]) -> A) -> Results<A> {
    let of_one = |who| {
        let mut out = vec![FILL; room];
        (call(who, &mut out), out)
    };
    all.iter().map(of_one).collect()
}

fn same<A: PartialEq + std::fmt::Debug>(
    all: &[Implementation],
    what: impl Fn() -> String,
    results: Results<A>,
) -> Result<(), String> {
    match results.iter().position(|result| *result != results[0]) {
        None => Ok(()),
        Some(who) => Err(format!("{}: {} gives {:?}, library {:?}", what(), all[who].name, results[who], results[0])),
    }
}

fn write(r: &mut Random, all: &[Implementation], p: Profile) -> Result<(), String> {
    let n = r.length(MAX_BYTES as u64 + 2);
    let list = items(r, n);
    let list = foreign_at_times(r, list);
    let mut out = vec![0; 16 * n + 2];
    let needed = (all[0].write)(p, &list, &mut out).count;
    let room = room(r, needed);
    same(all, || format!("write {p:?} {list:?}"), with_output(all, room, |who, out| (who.write)(p, &list, out)))
}

/// Around the limits of a strip: cells of 4 units for 6,400 or 6,401 bytes, and as many intervals as may be or more.
fn long_strip(r: &mut Random, p: Profile) -> Vec<u16> {
    let four = p.t1.wrapping_add(p.t0).wrapping_add(p.t0);
    vec![four; r.of(&[25_601, 25_605, MAX_INTERVALS, MAX_INTERVALS + 1])]
}

fn read(r: &mut Random, all: &[Implementation], p: Profile) -> Result<(), String> {
    let list = if r.one_in(2_000) { long_strip(r, p) } else { stream(r, &all[0], p, MAX_BYTES as u64) };
    let mut out = vec![0; list.len() / 4 + 1];
    let needed = (all[0].read)(p, &list, &mut out).count;
    let room = room(r, needed);
    same(all, || format!("read {p:?} {list:?}"), with_output(all, room, |who, out| (who.read)(p, &list, out)))
}

fn read_field(r: &mut Random, all: &[Implementation], p: Profile) -> Result<(), String> {
    let list = stream(r, &all[0], p, 1_040);
    let from = if r.one_in(3) { r.below(list.len() as u64 + 1) as usize } else { 0 };
    let most = list.len() as u64 / 6 + 2;
    let bytes = if r.one_in(30) { r.of(&[0, 1, 1_030, 1_031, u64::MAX]) } else { 1 + r.below(most) };
    let room = room(r, bytes.min(2_000));
    let list = &list[from..];
    let what = || format!("read_field {p:?} {bytes} {list:?}");
    same(all, what, with_output(all, room, |who, out| (who.read_field)(p, list, bytes, out)))
}

/// The corrected reader, which not all have: a sync field, marks and a stream, at some speed.
fn read_corrected(r: &mut Random, all: &[Implementation], p: Profile) -> Result<(), String> {
    let mut list = vec![p.t1; r.of(&[64, 64, 65, 90])];
    list.extend([3, 4, 3, 4, 3].map(|units: u16| p.t1.wrapping_add(p.t0.wrapping_mul(units - 2))));
    list.extend(stream(r, &all[0], p, 1_040));
    let slow = r.within(935, 1_065) as u64;
    list.iter_mut().for_each(|d| *d = (u64::from(*d) * slow / 1_000).min(65_535) as u16);
    let most = list.len() as u64 / 6 + 2;
    let bytes = if r.one_in(30) { r.of(&[0, 1, 1_030, 1_031, u64::MAX]) } else { 1 + r.below(most) };
    let start = if r.one_in(4) { r.below(30) } else { 0 };
    let room = room(r, bytes.min(2_000));
    let mut results = all.iter().filter_map(|who| {
        let mut out = vec![FILL; room];
        Some((who.name, who.read_corrected?(p, &list, start, bytes, &mut out), out))
    });
    let (_, answer, output) = results.next().expect("the library has it");
    match results.find(|(_, other, out)| *other != answer || *out != output) {
        None => Ok(()),
        Some((name, other, _)) => {
            Err(format!("read_corrected {p:?} {start} {bytes} {list:?}: {name} gives {other:?}, library {answer:?}"))
        }
    }
}

/// Intervals in runs, each of class 2, of class 3, narrow, wide, or such that the one before decides; at times a mark.
fn runs(r: &mut Random, p: Profile) -> Vec<u16> {
    let mut list = Vec::new();
    for _ in 0..r.below(6) {
        let interval = match r.below(8) {
            0 => p.min - 1,
            1 => p.rpt,
            2 => p.t1 + p.t0,
            3 | 4 => between(r, p.b23_short, p.b23_long),
            _ => p.t1,
        };
        let length = r.of(&[1, 1, 2, 3, 31, 62, 63, 64, 65, 130]);
        list.resize(list.len() + length, interval);
        if r.one_in(3) {
            list.extend([3, 4, 3, 4, 3].map(|units| p.t1 + (units - 2) * p.t0));
        }
    }
    list
}

fn find(r: &mut Random, all: &[Implementation], p: Profile) -> Result<(), String> {
    let mut list = stream(r, &all[0], p, 60);
    if (all[0].margin)(p).number == 0 && r.one_in(2) {
        list.extend(runs(r, p));
    }
    while r.one_in(2) {
        list.extend(stream(r, &all[0], p, 60));
    }
    let start = match r.below(4) {
        0 | 1 => 0,
        2 => r.below(list.len() as u64 + 3),
        _ => r.of(&[u64::MAX, 1, 2]),
    };
    let what = || format!("find {p:?} {start} {list:?}");
    same(all, what, with_output(all, 0, |who, _| (who.find)(p, &list, start)))
}

fn make_sector(r: &mut Random, all: &[Implementation]) -> Result<(), String> {
    let id = [r.below(256) as u8, r.below(2) as u8, r.below(256) as u8, r.below(5) as u8];
    let n = (128 << id[3]) + if r.one_in(10) { r.within(-1, 1) } else { 0 };
    let data: Vec<u8> = (0..n).map(|_| r.below(256) as u8).collect();
    let room = room(r, n as u64 + 114);
    same(
        all,
        || format!("make_sector {id:?} {n}"),
        with_output(all, room, |who, out| (who.make_sector)(id, &data, out)),
    )
}

fn make_image(r: &mut Random, all: &[Implementation]) -> Result<(), String> {
    let n = r.length(MAX_BYTES as u64 + 2);
    let list = items(r, n);
    let list = foreign_at_times(r, list);
    let needed = (all[0].make_image)(&list, &mut vec![0; 2 * n]).count;
    let room = room(r, needed);
    same(all, || format!("make_image {list:?}"), with_output(all, room, |who, out| (who.make_image)(&list, out)))
}

/// The image of a list, damaged at times.
fn image(r: &mut Random, library: &Implementation) -> Vec<u16> {
    let n = r.length(MAX_BYTES as u64);
    let list = items(r, n);
    let mut words = vec![0; 2 * n];
    let count = (library.make_image)(&list, &mut words).count as usize;
    words.truncate(count);
    let harm = r.of(&[0, 0, 1, 2]);
    for _ in 0..harm {
        let place = r.below(words.len() as u64 + 1) as usize;
        match r.below(5) {
            0 => words.insert(place, r.of(&[0x4489, 0x5224, 0xAAAA, 0x5554, 0, 0xFFFF])),
            1 if place < words.len() => drop(words.remove(place)),
            2 if place < words.len() => words[place] = r.next() as u16,
            3 if r.one_in(500) => words.resize(MAX_BYTES + r.below(3) as usize, 0x5555),
            _ if place < words.len() => words[place] ^= 1 << r.below(16),
            _ => {}
        }
    }
    words
}

fn read_image(r: &mut Random, all: &[Implementation]) -> Result<(), String> {
    let words = image(r, &all[0]);
    let room = room(r, words.len() as u64);
    same(all, || format!("read_image {words:?}"), with_output(all, room, |who, out| (who.read_image)(&words, out)))
}

fn drive_report(r: &mut Random, all: &[Implementation], p: Profile) -> Result<(), String> {
    let list = match r.below(2_000) {
        0 => long_strip(r, p),
        1 => vec![u16::MAX; MAX_INTERVALS],
        n if n % 4 == 0 => (0..r.length(100)).map(|_| r.next() as u16).collect(),
        _ => stream(r, &all[0], p, 200),
    };
    let what = || format!("drive_report {p:?} {list:?}");
    same(all, what, with_output(all, 0, |who, _| (who.drive_report)(p, &list)))
}

/// Any numbers at all: rows of count 0 that hold something, sums around the limit.
fn report(r: &mut Random) -> Report {
    let number = |r: &mut Random| match r.below(4) {
        0 => 0,
        1 => r.next() >> 1,
        2 => r.next() >> r.below(64),
        _ => r.of(&[1, u64::MAX, u64::MAX - 1, 1 << 63]) * u64::from(r.one_in(8)),
    };
    let rows = [0; 5].map(|_| {
        let [count, least, greatest, sum] = [0; 4].map(|_| number(r));
        ReportRow { count, least, greatest, sum }
    });
    Report { number: r.below(2) as u32, place: r.below(2) as u32, rows }
}

fn add_reports(r: &mut Random, all: &[Implementation]) -> Result<(), String> {
    let (a, b) = (report(r), report(r));
    let what = || format!("add_reports {a:?} {b:?}");
    same(all, what, with_output(all, 0, |who, _| (who.add_reports)(a, b)))
}

/// The items of a track: sectors, most of the code that is not made any more, fields alone and what is nearly one, in
/// any order.
fn fields(r: &mut Random) -> Vec<u16> {
    let mut list = Vec::new();
    for _ in 0..r.of(&[0, 1, 2, 3, 3, 34]) {
        let code = if r.one_in(20) { 1 + r.below(3) as u8 } else { 0 };
        let data: Vec<u8> = (0..128 << code).map(|_| r.below(256) as u8).collect();
        let mut sector = vec![0; data.len() + 114];
        put_sector([r.below(256) as u8, 0, r.below(256) as u8, code], &data, &mut sector);
        let (id, field) = sector.split_at(43);
        list.extend(r.of(&[&sector[..], &sector, &sector, id, field]));
        while !list.is_empty() && r.one_in(2) {
            let place = r.below(list.len() as u64) as usize;
            list[place] = item(r);
        }
    }
    list
}

/// A list may be longer than the writer takes: it is written in parts, and their streams follow each other.
fn index_track(r: &mut Random, all: &[Implementation], p: Profile) -> Result<(), String> {
    let mut track = Vec::new();
    for part in fields(r).chunks(1_000) {
        let mut out = vec![0; 16 * part.len() + 2];
        let count = (all[0].write)(p, part, &mut out).count as usize;
        track.extend_from_slice(&out[..count]);
    }
    let harm = r.of(&[0, 0, 1, 2, 5]);
    for _ in 0..harm {
        damage(r, p, &mut track);
    }
    let what = || format!("index_track {p:?} {track:?}");
    same(all, what, with_output(all, 0, |who, _| (who.index_track)(p, &track)))?;
    let needed = (all[0].read_track)(p, &track, &mut vec![0; MAX_SET_BYTES]).used;
    let room = room(r, needed);
    let call = |who: &Implementation, _: &mut [u16]| {
        let mut set = vec![0xBE; room];
        ((who.read_track)(p, &track, &mut set), set)
    };
    same(all, || format!("read_track {p:?} {track:?}"), with_output(all, 0, call))
}

/// The sectors of a pass, most of the same data for the same number, damaged at times.
fn set(r: &mut Random, numbers: u64, code: u8) -> Vec<u8> {
    let mut sectors: Vec<u8> = (0..numbers).map(|number| (number * 7) as u8).filter(|_| !r.one_in(5)).collect();
    if r.one_in(2) {
        sectors.reverse();
    }
    if r.one_in(20) {
        sectors.push(r.below(256) as u8);
    }
    let mut all = Vec::new();
    for number in sectors {
        let code = if r.one_in(200) { r.below(5) as u8 } else { code };
        let at = all.len();
        all.extend([number, code, r.of(&[0, 0, 1, 1, 2, 255])]);
        all.resize(all.len() + (128 << code), number);
        if all[at + 2] == 0 || r.one_in(200) {
            let place = r.below(128) as usize;
            all[at + 3 + place] ^= 1;
        }
    }
    if r.one_in(20) {
        all.truncate(r.below(all.len() as u64 + 1) as usize);
    }
    all
}

fn merge(r: &mut Random, all: &[Implementation]) -> Result<(), String> {
    let (numbers, code) = (r.of(&[0, 1, 3, 9, 32, 36, 40]), r.of(&[0, 0, 0, 1, 2, 3]));
    let (first, second) = (set(r, numbers, code), set(r, numbers, code));
    let needed = (all[0].merge)(&first, &second, &mut vec![0; first.len() + second.len()]).used;
    let room = room(r, needed);
    let call = |who: &Implementation, _: &mut [u16]| {
        let mut out = vec![0xBE; room];
        ((who.merge)(&first, &second, &mut out), out)
    };
    same(all, || format!("merge {first:?} {second:?}"), with_output(all, 0, call))
}

/// Sets of pages, some of them with a fault, and pages to be made.
fn pages(r: &mut Random, all: &[Implementation]) -> Result<(), String> {
    let numbers = r.of(&[1, 2, 5, 16, 17, 33]);
    let mut set = Vec::new();
    for k in 0..numbers {
        let number = if r.one_in(60) { r.below(20) as u8 } else { k + 1 };
        let code = if r.one_in(60) { r.below(4) as u8 } else { 3 };
        set.extend([number, code, u8::from(!r.one_in(60))]);
        let at = set.len();
        set.extend((0..128 << code).map(|_| r.next() as u8));
        let end = set.len();
        if !r.one_in(60) {
            set[end - 24..].fill(0);
        }
        assert!(end > at, "a sector has data");
    }
    if r.one_in(30) {
        set.truncate(r.below(set.len() as u64 + 1) as usize);
    }
    let count = r.of(&[numbers.into(), 1, 2, 16, 0, 17, u64::MAX]);
    let room = room(r, 1_000 * u64::from(numbers));
    let read = |who: &Implementation, _: &mut [u16]| {
        let mut out = vec![0xBE; room];
        ((who.read_pages)(&set, count, &mut out), out)
    };
    same(all, || format!("read_pages {count} {room} {set:?}"), with_output(all, 0, read))?;
    let length = set.len() - if r.one_in(2) { set.len() % 1_000 } else { 0 };
    let count = r.of(&[length as u64 / 1_000, 1, 0, 17]);
    let make = |who: &Implementation, _: &mut [u16]| {
        let mut out = vec![0xBE; room];
        ((who.make_pages)(&set[..length], count, &mut out), out)
    };
    same(all, || format!("make_pages {count} {room} {length}"), with_output(all, 0, make))
}

fn of_profile(r: &mut Random, all: &[Implementation], p: Profile) -> Result<(), String> {
    let edge = if r.one_in(6) { 0 } else { r.of(&edges_of(p)) };
    let (interval, after_short) = (edge.wrapping_sub(r.below(2) as u16), r.of(&[0, 1, 2, u32::MAX]));
    let both = |who: &Implementation, _: &mut [u16]| [(who.margin)(p), (who.class)(p, interval, after_short)];
    same(all, || format!("margin and class {p:?} {interval} {after_short}"), with_output(all, 0, both))
}

/// Places that `held` does not count mean nothing.
fn counted_places(mut answer: FifoAnswer) -> FifoAnswer {
    if answer.next.held == 0 {
        answer.next.first = 0;
    }
    if answer.next.held < 2 {
        answer.next.second = 0;
    }
    answer
}

fn fifo(r: &mut Random, all: &[Implementation]) -> Result<(), String> {
    let [mode, held] = [0; 2].map(|_: u16| r.of(&[0, 1, 2, 3, 65_535]));
    let [first, second, put] = [0; 3].map(|_: u16| if r.one_in(5) { r.of(&[256, 513]) } else { item(r) });
    let state = Fifo { mode, held, first, second, error: r.of(&[0, 0, 1, 2, 4, 7]) };
    let operation = r.below(FIFO_OPERATIONS.into()) as u8;
    let call =
        |who: &Implementation, _: &mut [u16]| -> FifoAnswer { counted_places((who.fifo)(operation, state, put)) };
    same(all, || format!("fifo {operation} {state:?} {put}"), with_output(all, 0, call))
}

/// So many calls; how the implementations differ, if they do.
pub fn run(all: &[Implementation], calls: u64) -> Result<(), String> {
    let r = &mut Random::new(1987);
    for _ in 0..calls {
        let p = profile(r);
        match r.below(20) {
            0..=3 => write(r, all, p)?,
            4..=7 => read(r, all, p)?,
            8..=10 => read_field(r, all, p)?,
            11 => find(r, all, p)?,
            12 if r.one_in(2) => read_corrected(r, all, p)?,
            12 => find(r, all, p)?,
            13 if r.one_in(4) => make_sector(r, all)?,
            13 if r.one_in(4) => index_track(r, all, p)?,
            14 => fifo(r, all)?,
            15 => make_image(r, all)?,
            16 => read_image(r, all)?,
            17 => drive_report(r, all, p)?,
            18 if r.one_in(4) => merge(r, all)?,
            18 if r.one_in(8) => pages(r, all)?,
            18 => add_reports(r, all)?,
            _ => of_profile(r, all, p)?,
        }
    }
    Ok(())
}
