//! The card as plain text.

use crate::drawing::{row, windows};
use crate::facts::{edge_name, shifts, side_name, Card, Verdict, FORMULA, NAMES};
use ism::{After, Edge, Limit, Profile, Side};

const WIDTH: usize = 64;

pub fn page(card: &Card) -> String {
    lines(card).join("\n") + "\n"
}

pub fn lines(card: &Card) -> Vec<String> {
    let mut lines = words(card);
    for (title, profile, margin) in drawn(card) {
        lines.push(String::new());
        lines.push(title);
        for w in windows(profile) {
            lines.push(format!("  after {:10} {}", w.after, row(&w, margin, WIDTH, '|', ['2', '3', '4'], '-', '.')));
        }
    }
    lines
}

/// What is drawn: the windows as they are, where they are true, and the best ones, where these are others.
pub fn drawn(card: &Card) -> Vec<(String, Profile, u64)> {
    let mut drawn = Vec::new();
    if let Verdict::True { margin, .. } = card.verdict {
        drawn.push((
            format!("windows from Min {} to Rpt {}", card.profile.min, card.profile.rpt),
            card.profile,
            margin,
        ));
    }
    if let Some(best) = card.best.ok().filter(|best| best.profile != card.profile) {
        let Profile { min, rpt, .. } = best.profile;
        drawn.push((format!("best windows from Min {min} to Rpt {rpt}"), best.profile, u64::from(best.margin)));
    }
    drawn
}

/// The card without its drawing.
pub fn words(card: &Card) -> Vec<String> {
    let p = card.profile;
    let mut lines = vec![
        format!("Drive        {}", card.name),
        format!("Clock        {} Hz, a half clock is {} ns", card.clock, card.nanoseconds(1)),
        format!("Writes with  T1 {}, T0 {}, Early {}, Normal {}, Late {}", p.t1, p.t0, p.early, p.normal, p.late),
        format!("Reads with   {}", six(p)),
        String::new(),
    ];
    lines.extend(verdict(card));
    lines.push(String::new());
    lines.extend(best(card));
    lines
}

pub fn six(p: Profile) -> String {
    let Profile { min, b23_short, b23_long, b34_short, b34_long, rpt, .. } = p;
    format!("Min {min}, B23 {b23_short} and {b23_long}, B34 {b34_short} and {b34_long}, Rpt {rpt}")
}

/// A margin in its three units.
fn margin_words(card: &Card, margin: u64) -> String {
    let (ns, percent) = (card.nanoseconds(margin), card.percent(margin));
    let clocks = if margin == 1 { "half clock" } else { "half clocks" };
    format!("{margin} {clocks}, {ns} ns, {percent} % of the shortest cell")
}

fn verdict(card: &Card) -> Vec<String> {
    match &card.verdict {
        Verdict::True { margin, limits } => {
            let head = format!("Margin       {}, held down by the lengths", margin_words(card, *margin));
            std::iter::once(head).chain(limits.iter().map(|limit| held(card, limit))).collect()
        }
        Verdict::Crossed(failures) => {
            let head = "Not true     the profile is refused with 2, since these fail:".to_string();
            std::iter::once(head).chain(failures.iter().map(|failure| format!("  {failure}"))).collect()
        }
        Verdict::Unset(which) => {
            let name = NAMES[*which as usize - 1];
            vec![format!("Unset        the profile is refused with 1: number {which}, {name}, is out of range")]
        }
    }
}

/// A side, and which way its number turns, where that helps: not where no windows have a larger margin, where the other
/// side of the edge holds the margin down too, or would if the number were turned by one, or where it is at the end of
/// its range.
fn held(card: &Card, limit: &Limit) -> String {
    let names_other = |limits: &ism::Limits| {
        limits.iter().any(|other| edge_name(&other) == edge_name(limit) && other.side != limit.side)
    };
    let margin = ism::margin(card.profile);
    let at_best = margin == card.best.map(|best| best.margin);
    let here = ism::margin_limits(card.profile).is_ok_and(|limits| names_other(&limits));
    let turned = turned(card.profile, limit);
    let there = ism::margin_limits(turned).map_or(true, |limits| names_other(&limits) && ism::margin(turned) == margin);
    let turn = match (at_best || here || there, limit.side) {
        (true, _) => "no turn of it helps",
        (false, Side::Below) => "turn it up",
        (false, Side::Above) => "turn it down",
    };
    format!("  {:28} {turn}", side_name(limit))
}

/// The profile with the edge of a side one half clock further from the lengths on that side.
fn turned(mut p: Profile, limit: &Limit) -> Profile {
    let number = match (limit.edge, limit.after) {
        (Edge::Min, _) => &mut p.min,
        (Edge::B23, After::Long) => &mut p.b23_long,
        (Edge::B23, _) => &mut p.b23_short,
        (Edge::B34, After::Long) => &mut p.b34_long,
        (Edge::B34, _) => &mut p.b34_short,
        (Edge::Rpt, _) => &mut p.rpt,
    };
    *number = if limit.side == Side::Below { *number + 1 } else { *number - 1 };
    p
}

fn best(card: &Card) -> Vec<String> {
    let best = match card.best {
        Ok(best) => best,
        Err(refusal) => return vec![format!("Best windows {}", card.no_windows(refusal))],
    };
    let [_, d, l] = shifts(card.profile);
    let equal = card.equal.map_or("none are true".to_string(), |margin| margin.to_string());
    let [first, second] = [i64::from(card.profile.t1) - d - 1, (i64::from(card.profile.t0) - l - 1) / 2];
    vec![
        format!("Best windows {}; with equal pairs {equal}", margin_words(card, u64::from(best.margin))),
        format!("  {}", six(best.profile)),
        format!("  {FORMULA}"),
        format!("  D {d}, l {l}: the lesser of {first} and {second}"),
    ]
}
