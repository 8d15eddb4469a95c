//! Windows that know the cell before, request (ix): unequal pairs at every edge, equal pairs against the rules for nine
//! numbers, and searches that begin in the middle of a list.

mod nine;

use ism::Refusal;

use super::{fields::track_letters, APART, HALFWAY, OVERLAP, PAIRED, REVERSED, WORKED};
use crate::compare::{profile, Compare};
use crate::paper::{stream_of, Eleven, Refused};
use crate::random::{last_on_side, Random, EDGE_SIDES};
use nine::{doubled, Nine};

/// The library's margin, or its refusal.
fn library_margin(eleven: &Eleven) -> Result<u64, Refused> {
    let refused = |refusal: Refusal| Refused { number: refusal.number(), place: refusal.place() as u32 };
    ism::margin(profile(eleven)).map(u64::from).map_err(refused)
}

/// Each of the ten sides of an edge: a number as far as its lengths let it go has margin 0, one further is crossed. The
/// edge is classed from both sides, after class 2 and after any other.
pub fn every_side(compare: &mut Compare, random: &mut Random) {
    let fixed = [WORKED, PAIRED, HALFWAY, REVERSED, APART, OVERLAP];
    let profiles: Vec<Eleven> = fixed.into_iter().chain((0..300).map(|_| random.true_profile())).collect();
    for base in profiles {
        for (side, (which, from_above)) in EDGE_SIDES.into_iter().enumerate() {
            let (_, last) = last_on_side(&base, side);
            let outwards = if from_above { 1 } else { -1 };
            let with = |number: i64| {
                let mut eleven = base;
                eleven[which] = number as u16;
                eleven
            };
            let at_edge = with(last);
            for eleven in [at_edge, with(last + outwards), with(last - outwards)] {
                compare.margin(&eleven);
            }
            compare.claim(&format!("{at_edge:?} has margin 0"), library_margin(&at_edge) == Ok(0));
            let beyond = with(last + outwards);
            let crossed = Err(Refused { number: 2, place: 0 });
            compare.claim(&format!("{beyond:?} is crossed"), library_margin(&beyond) == crossed);
            for interval in [last - 2, last - 1, last, last + 1].map(|d| d.max(0) as u16) {
                compare.class(&at_edge, interval);
                compare.class(&beyond, interval);
            }
            reads_at_edge(compare, &at_edge, random);
        }
    }
}

/// Streams as written under a profile of margin 0, and with an interval moved across.
fn reads_at_edge(compare: &mut Compare, eleven: &Eleven, random: &mut Random) {
    let length = random.between(1, 6) as usize;
    let mut stream = stream_of(eleven, &random.items(length));
    compare.read(eleven, &stream, 2 * length);
    let place = random.index(stream.len());
    stream[place] = if random.one_in(2) { stream[place] + 1 } else { stream[place] - 1 };
    compare.read(eleven, &stream, 2 * length);
    compare.field(eleven, &stream, length as u64, length);
    compare.drive_report(eleven, &stream);
}

/// Each of the eleven numbers out of range, alone and with every later one: the lowest is the place.
pub fn out_of_range(compare: &mut Compare, random: &mut Random) {
    for base in [WORKED, PAIRED, APART, random.true_profile(), random.crossed_profile()] {
        for which in 0..11 {
            for number in [4096, 5000, 65535] {
                let [mut alone, mut with_later] = [base; 2];
                alone[which] = number;
                with_later[which..].fill(number);
                is_unset_at(compare, &alone, which as u32 + 1);
                is_unset_at(compare, &with_later, which as u32 + 1);
            }
        }
    }
}

/// Every operation on a profile refuses it with 1 at this place.
fn is_unset_at(compare: &mut Compare, eleven: &Eleven, place: u32) {
    let unset = Err(Refused { number: 1, place });
    compare.claim(&format!("{eleven:?} is unset at {place}"), library_margin(eleven) == unset);
    compare.margin(eleven);
    compare.margin_limits(eleven);
    compare.class(eleven, 58);
    compare.write(eleven, &[0x1A1], 20);
    compare.read(eleven, &[58; 10], 1);
    compare.field(eleven, &[58; 10], 1, 1);
    compare.find(eleven, &[58; 80], 0);
    compare.drive_report(eleven, &[58; 10]);
    compare.index(eleven, &[58; 80]);
}

/// Nine numbers: true, with one of them about a limit of document 01's rules, or any.
fn random_nine(random: &mut Random) -> Nine {
    let [t1, t0, early, normal, late, min, b23, _, b34, _, rpt] = match random.between(0, 5) {
        0 => random.any_profile(),
        1 => random.unset_profile(),
        2 => random.true_profile(),
        _ => random.equal_profile(),
    };
    let mut nine = [t1, t0, early, normal, late, min, b23, b34, rpt];
    if random.one_in(2) {
        let d = late.saturating_sub(early).saturating_mul(2);
        let (two, three, four) = (t1, t1.saturating_add(t0), t1.saturating_add(t0).saturating_add(t0));
        let shifted = |length: u16| length.saturating_add(d);
        let limits = [(5, t1.saturating_sub(d)), (6, two), (6, three), (7, shifted(three)), (7, four)];
        let (which, limit) = random.pick(&[&limits[..], &[(8, shifted(four))]].concat());
        nine[which] = limit.saturating_add(random.between(0, 2) as u16).saturating_sub(1);
    }
    nine
}

/// Equal pairs: verdict, place, margin and classes are those of document 01's nine numbers, after either kind.
pub fn equal_pairs(compare: &mut Compare, random: &mut Random) {
    let mut margins = [0; 3];
    for _ in 0..20_000 {
        let nine = random_nine(random);
        let eleven = doubled(&nine);
        compare.margin(&eleven);
        let margin = nine::margin(&nine);
        compare.claim(&format!("{nine:?} has {margin:?}"), library_margin(&eleven) == margin);
        margins[margin.map_or_else(|refused| refused.number as usize, |_| 0)] += 1;
        if margin.is_ok() {
            keeps_classes(compare, &nine, random);
        }
    }
    compare.claim(&format!("true, unset and crossed: {margins:?}"), margins.iter().all(|times| *times > 1_000));
}

fn keeps_classes(compare: &mut Compare, nine: &Nine, random: &mut Random) {
    let edge = nine[5 + random.index(4)];
    for interval in [edge - 1, edge, random.between(0, 4200) as u16] {
        let old = nine::class(nine, interval);
        for after_short in [true, false] {
            let classed = ism::classify(profile(&doubled(nine)), interval, after_short).expect("a true profile");
            compare.claim(&format!("{nine:?}: {interval} is {old}"), 1 + classed.class as u64 == old);
        }
    }
}

/// What pairs are for: the worked drive has the margin 12 with unequal pairs, and at most 10 with equal ones.
pub fn larger_margin(compare: &mut Compare, _: &mut Random) {
    compare.margin(&PAIRED);
    compare.claim("unequal pairs give 12", library_margin(&PAIRED) == Ok(12));
    let mut largest = 0;
    for b23 in 50..=95 {
        for b34 in 90..=125 {
            let equal = doubled(&[58, 29, 8, 10, 12, 36, b23, b34, 139]);
            compare.margin(&equal);
            largest = largest.max(library_margin(&equal).unwrap_or(0));
        }
    }
    compare.claim("equal pairs give 10 at most", largest == 10);
}

/// A search from each start of a list, and one past it, is that of the rest.
fn from_every_start(compare: &mut Compare, eleven: &Eleven, intervals: &[u16]) {
    for start in 0..=intervals.len() + 1 {
        compare.find(eleven, intervals, start as u64);
        let rest = intervals.get(start..).unwrap_or(&[]);
        let in_rest = ism::find_lock(profile(eleven), rest, 0).map(|place| start + place);
        let found = ism::find_lock(profile(eleven), intervals, start);
        compare.claim("a search is one of the rest", found == in_rest);
    }
}

/// Searches from every start of short tracks, where many a run begins with an interval that the one before decides.
pub fn every_start(compare: &mut Compare, random: &mut Random) {
    let mut later = 0;
    for _ in 0..1_500 {
        let eleven = random.true_profile();
        let letters = track_letters(random);
        let mut intervals = random.intervals(&eleven, &letters);
        let begins_run = |place: &usize| letters[*place..].starts_with('2') && !letters[..*place].ends_with('2');
        for place in (0..letters.len()).filter(begins_run) {
            if random.one_in(2) {
                intervals[place] = random.interval_between([eleven[6], eleven[7]]);
            }
        }
        from_every_start(compare, &eleven, &intervals);
        let found: Vec<_> = (0..intervals.len())
            .map(|start| ism::find_lock(profile(&eleven), &intervals, start).unwrap_or(usize::MAX))
            .collect();
        later += u32::from(!found.is_sorted());
    }
    compare.claim(&format!("{later} times a later start finds an earlier lock"), later > 5);
}

/// Runs behind an interval that is not of class 2, under a profile by which 80 is class 2 after class 2 alone.
pub fn searches_by_hand(compare: &mut Compare, random: &mut Random) {
    let mark = [100, 110, 80, 110, 80];
    let list = |front: &[u16], run: usize| [front.to_vec(), vec![80; run], mark.to_vec()].concat();
    let mut finds = |front: &[u16], run: usize, start: u64, found: Result<usize, Refusal>| {
        let intervals = list(front, run);
        compare.find(&APART, &intervals, start);
        let what = format!("{front:?} and {run} of 80 from {start}: {found:?}");
        compare.claim(&what, ism::find_lock(profile(&APART), &intervals, start as usize) == found);
    };
    for length in [64, 65, 100, 1_000, 100_000] {
        finds(&[], length, 0, Ok(length));
        // class 2 behind any of these, and the run goes on; behind the others no 80 is of class 2
        finds(&[36], length, 0, Ok(length + 1));
        finds(&[120, 72], length, 0, Ok(length + 2));
        for before in [0, 35, 95, 100, 120, 138, 139, 200, 65535] {
            finds(&[before], length, 0, Err(Refusal::NoLock));
            finds(&[before], length, 1, Ok(length + 1));
            finds(&[before], length, length as u64 - 62, Err(Refusal::NoLock));
            finds(&[before, 72], length - 1, 0, Ok(length + 1));
            finds(&[before, 72], length - 2, 0, if length > 64 { Ok(length) } else { Err(Refusal::NoLock) });
            finds(&[72, before], length, 1, Err(Refusal::NoLock));
            finds(&[72, before], length, 2, Ok(length + 2));
        }
    }
    // a run that is broken again and again, each time by an interval that the one before decides
    for gap in [1, 2, 31, 32, 33, 62, 63, 64, 65] {
        for breaker in [[200, 80], [30, 80], [95, 80], [100, 94], [72, 95]] {
            let piece = [breaker.to_vec(), vec![random.pick(&[58, 72, 80]); gap]].concat();
            let intervals = [piece.repeat(5), mark.to_vec()].concat();
            from_every_start(compare, &APART, &intervals);
        }
    }
}
