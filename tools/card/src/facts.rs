//! What a card says, whichever way it is printed.

use ism::{After, Best, Edge, Limit, Profile, Refusal, Side};

pub struct Card {
    pub name: String,
    /// Hz
    pub clock: u64,
    pub profile: Profile,
    pub verdict: Verdict,
    /// the best windows, or why there are none
    pub best: Result<Best, Refusal>,
    /// the best margin with both of each pair equal
    pub equal: Option<u64>,
}

pub enum Verdict {
    True {
        margin: u64,
        limits: Vec<Limit>,
    },
    /// the inequalities that fail
    Crossed(Vec<String>),
    /// which number, from 1
    Unset(usize),
}

pub const NAMES: [&str; 11] = [
    "T1",
    "T0",
    "Early",
    "Normal",
    "Late",
    "Min",
    "B23 after class 2",
    "B23 after any other",
    "B34 after class 2",
    "B34 after any other",
    "Rpt",
];

pub const FORMULA: &str =
    "the lesser of T1 - D - 1 and (T0 - l - 1) / 2 rounded down, D = 2 (Late - Early), l = 2 (Late - Normal)";

impl Card {
    pub fn new(name: &str, clock: u64, profile: Profile) -> Card {
        let verdict = match ism::margin_limits(profile) {
            Ok(limits) => {
                let margin = ism::margin(profile).expect("what has limits has a margin");
                Verdict::True { margin: u64::from(margin), limits: limits.iter().collect() }
            }
            Err(Refusal::ProfileOutOfRange { field }) => Verdict::Unset(field),
            Err(_) => Verdict::Crossed(failures(profile)),
        };
        let Profile { t1, t0, early, normal, late, .. } = profile;
        let best = ism::best_windows(t1, t0, early, normal, late);
        let [_, d, _] = shifts(profile);
        let room = |length: u16| i64::from(length) - d - 1;
        let equal = (best.is_ok() && room(t0) >= 0).then(|| room(t1).min(room(t0) / 2) as u64);
        Card { name: name.to_string(), clock, profile, verdict, best, equal }
    }

    /// The shortest length that the drive writes, in half clocks, if its points are in order and it is positive.
    pub fn shortest(&self) -> Option<u64> {
        let [_, d, _] = shifts(self.profile);
        u64::try_from(i64::from(self.profile.t1) - d).ok().filter(|shortest| *shortest > 0)
    }

    /// Half clocks in nanoseconds, to one decimal.
    pub fn nanoseconds(&self, half_clocks: u64) -> String {
        tenths((half_clocks * 5_000_000_000 + self.clock / 2) / self.clock)
    }

    /// Half clocks in percent of the shortest length, to one decimal.
    pub fn percent(&self, half_clocks: u64) -> String {
        self.shortest().map_or_else(String::new, |s| tenths((1_000 * half_clocks + s / 2) / s))
    }

    /// Why there are no best windows.
    pub fn no_windows(&self, refusal: Refusal) -> String {
        let [_, d, _] = shifts(self.profile);
        let Profile { t1, early, normal, late, .. } = self.profile;
        match refusal {
            Refusal::ProfileOutOfRange { field } => format!("none: {} is out of range", NAMES[field as usize - 1]),
            _ if early > normal || normal > late => "none are true: Early, Normal and Late are out of order".into(),
            _ if i64::from(t1) <= d => "none are true: T1 is not above D".into(),
            _ => "none are true: T0 is not above l".into(),
        }
    }
}

fn tenths(n: u64) -> String {
    format!("{}.{}", n / 10, n % 10)
}

/// 2 (Normal - Early), D = 2 (Late - Early), l = 2 (Late - Normal).
pub fn shifts(p: Profile) -> [i64; 3] {
    let [early, normal, late] = [p.early, p.normal, p.late].map(i64::from);
    [2 * (normal - early), 2 * (late - early), 2 * (late - normal)]
}

/// The side of an edge, as `below B34 after class 2`.
pub fn side_name(limit: &Limit) -> String {
    let side = if limit.side == Side::Below { "below" } else { "above" };
    format!("{side} {}", edge_name(limit))
}

pub fn edge_name(limit: &Limit) -> &'static str {
    match (limit.edge, limit.after) {
        (Edge::Min, _) => NAMES[5],
        (Edge::B23, After::Long) => NAMES[7],
        (Edge::B23, _) => NAMES[6],
        (Edge::B34, After::Long) => NAMES[9],
        (Edge::B34, _) => NAMES[8],
        (Edge::Rpt, _) => NAMES[10],
    }
}

/// Which of the inequalities of a true profile fail; where the points are out of order, only that.
fn failures(p: Profile) -> Vec<String> {
    let [e, d, l] = shifts(p);
    let [t1, t0, early, normal, late] = [p.t1, p.t0, p.early, p.normal, p.late].map(i64::from);
    let [min, b23s, b23l] = [p.min, p.b23_short, p.b23_long].map(i64::from);
    let [b34s, b34l, rpt] = [p.b34_short, p.b34_long, p.rpt].map(i64::from);
    let (three, four) = (t1 + t0, t1 + 2 * t0);
    // at most, or below
    let at_most = |left: &str, a: i64, right: &str, b: i64| (a > b).then(|| format!("{left} <= {right}: {a} <= {b}"));
    let below = |left: &str, a: i64, right: &str, b: i64| (a >= b).then(|| format!("{left} < {right}: {a} < {b}"));
    let order = [at_most("Early", early, "Normal", normal), at_most("Normal", normal, "Late", late)];
    if order.iter().any(Option::is_some) {
        return order.into_iter().flatten().collect();
    }
    let windows = [
        at_most("Min", min, "T1 - D", t1 - d),
        below("T1", t1, NAMES[6], b23s),
        at_most(NAMES[6], b23s, "T1 + T0 + e", three + e),
        below("T1 - l", t1 - l, NAMES[7], b23l),
        at_most(NAMES[7], b23l, "T1 + T0", three),
        below("T1 + T0 + D", three + d, NAMES[8], b34s),
        at_most(NAMES[8], b34s, "T1 + 2 T0 + e", four + e),
        below("T1 + T0 + l", three + l, NAMES[9], b34l),
        at_most(NAMES[9], b34l, "T1 + 2 T0", four),
        below("T1 + 2 T0 + D", four + d, "Rpt", rpt),
    ];
    windows.into_iter().flatten().collect()
}
