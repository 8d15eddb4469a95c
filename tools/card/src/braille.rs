//! The card in braille: one page of 25 lines of 40 cells, as an embosser takes it (BRF, North American braille ASCII).
//! Words are uncontracted, numbers and signs after Unified English Braille.

use crate::drawing::{row, windows};
use crate::facts::{edge_name, Card, Verdict, NAMES};
use ism::{Limit, Profile, Side};

const CELLS: usize = 40;
const LINES: usize = 25;

/// Lines that the failures of a crossed profile may take.
const FAILURE_LINES: usize = 8;

pub fn page(card: &Card) -> String {
    let mut lines = wrapped(&card.name);
    lines.truncate(1);
    lines.extend(numbers(card));
    lines.extend(verdict(card));
    lines.extend(best(card));
    lines.extend(drawing(card));
    assert!(lines.len() <= LINES && lines.iter().all(|line| line.len() <= CELLS), "a card is one page");
    lines.join("\r\n") + "\r\n\x0C"
}

fn numbers(card: &Card) -> Vec<String> {
    let p = card.profile;
    let lines = [
        format!("clock {} Hz", card.clock),
        format!("T1 {}, T0 {}", p.t1, p.t0),
        format!("Early {}, Normal {}, Late {}", p.early, p.normal, p.late),
    ];
    lines.iter().map(|line| translated(line)).chain(six(p)).collect()
}

fn six(p: Profile) -> [String; 2] {
    [
        translated(&format!("Min {}, Rpt {}", p.min, p.rpt)),
        translated(&format!("B23 {} {}, B34 {} {}", p.b23_short, p.b23_long, p.b34_short, p.b34_long)),
    ]
}

fn verdict(card: &Card) -> Vec<String> {
    match &card.verdict {
        Verdict::True { margin, limits } => {
            let (ns, percent) = (card.nanoseconds(*margin), card.percent(*margin));
            let mut lines = wrapped(&format!("margin {margin}, {ns} ns, {percent} %"));
            lines.push(translated("held down by the lengths"));
            lines.extend(sides(limits));
            lines
        }
        Verdict::Crossed(failures) => {
            let mut lines = vec![translated("not true, these fail")];
            for (place, failure) in failures.iter().enumerate() {
                let inequality = failure.split(':').next().expect("a part before the colon");
                let next = wrapped(inequality);
                if lines.len() + next.len() > FAILURE_LINES {
                    lines.push(translated(&format!("and {} more", failures.len() - place)));
                    break;
                }
                lines.extend(next);
            }
            lines
        }
        Verdict::Unset(which) => wrapped(&format!("{} is out of range", NAMES[*which as usize - 1])),
    }
}

/// A line for each edge that is named, with its one or two sides.
fn sides(limits: &[Limit]) -> Vec<String> {
    let mut lines: Vec<(&str, String)> = Vec::new();
    for limit in limits {
        let side = if limit.side == Side::Below { "below" } else { "above" };
        match lines.last_mut().filter(|(edge, _)| *edge == edge_name(limit)) {
            Some((_, line)) => *line += &format!(" and {side}"),
            None => lines.push((edge_name(limit), format!("{} {side}", edge_name(limit)))),
        }
    }
    lines.iter().map(|(_, line)| translated(line)).collect()
}

fn best(card: &Card) -> Vec<String> {
    let best = match card.best {
        Ok(best) => best,
        Err(refusal) => return wrapped(&format!("best windows {}", card.no_windows(refusal))),
    };
    let equal = card.equal.map_or("no equal pairs are true".to_string(), |margin| format!("equal pairs {margin}"));
    let mut lines = vec![translated(&format!("best windows {}", best.margin))];
    lines.extend(six(best.profile));
    lines.push(translated(&equal));
    lines.extend(wrapped("lesser of T1 - D - 1, (T0 - l - 1) / 2"));
    lines
}

/// The windows, or the best ones where those of the profile are not true: a full cell is an edge, b c d are the lengths
/// of classes 2 3 4, and dots 3 6 the reach of the margin.
fn drawing(card: &Card) -> Vec<String> {
    let (profile, margin) = match (&card.verdict, card.best) {
        (Verdict::True { margin, .. }, _) => (card.profile, *margin),
        (_, Ok(best)) => (best.profile, u64::from(best.margin)),
        _ => return Vec::new(),
    };
    let rows = windows(profile);
    let drawn = rows.iter().flat_map(|w| {
        let title = translated(&format!("after {}", w.after));
        [title, row(w, margin, CELLS, '=', ['B', 'C', 'D'], '-', ' ')]
    });
    drawn.collect()
}

/// A text in lines of at most 40 cells, broken between words; a word that is longer is cut.
fn wrapped(text: &str) -> Vec<String> {
    let mut lines: Vec<String> = Vec::new();
    for word in text.split_whitespace() {
        let word: String = translated(word).chars().take(CELLS).collect();
        match lines.last_mut().filter(|line| line.len() + 1 + word.len() <= CELLS) {
            Some(line) => *line += &format!(" {word}"),
            None => lines.push(word),
        }
    }
    lines
}

/// A text in braille ASCII. A number sign holds for the digits after it, with their point; a letter a to j right behind a
/// number has a letter sign.
fn translated(text: &str) -> String {
    let mut cells = String::new();
    let mut in_number = false;
    for c in text.chars() {
        match c {
            '0'..='9' => {
                if !in_number {
                    cells.push('#');
                }
                cells.push(['J', 'A', 'B', 'C', 'D', 'E', 'F', 'G', 'H', 'I'][c as usize - '0' as usize]);
                in_number = true;
                continue;
            }
            '.' if in_number => {
                cells.push('4');
                continue;
            }
            'a'..='j' if in_number => cells.push_str(&format!(";{}", c.to_ascii_uppercase())),
            'a'..='z' => cells.push(c.to_ascii_uppercase()),
            'A'..='Z' => cells.push_str(&format!(",{c}")),
            ' ' => cells.push(' '),
            ',' => cells.push('1'),
            '.' => cells.push('4'),
            ':' => cells.push('3'),
            '-' => cells.push('-'),
            '+' => cells.push_str("\"6"),
            '=' => cells.push_str("\"7"),
            '<' => cells.push_str("@<"),
            '>' => cells.push_str("@>"),
            '&' => cells.push_str("@&"),
            '\'' => cells.push('\''),
            '(' => cells.push_str("\"<"),
            ')' => cells.push_str("\">"),
            '/' => cells.push_str("_/"),
            '%' => cells.push_str(".0"),
            // a sign without a place here
            _ => cells.push(' '),
        }
        in_number = false;
    }
    cells.replace("@<\"7", "_@<")
}
