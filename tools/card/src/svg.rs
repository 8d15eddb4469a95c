//! The card as a drawing with the same words.

use crate::drawing::{windows, Windows};
use crate::facts::{side_name, Card};
use crate::text::{drawn, words};
use ism::{After, Edge, Limit, Side};

const WIDTH: i64 = 840;
const LEFT: i64 = 110;
const RIGHT: i64 = 40;
const LINE: i64 = 20;
const BAND: i64 = 62;
const STEP: i64 = 96;
const COLOURS: [&str; 3] = ["#cfe3f5", "#d9efd3", "#f8e3c5"];

pub fn page(card: &Card) -> String {
    let mut body = Vec::new();
    let mut y = 36;
    for (place, line) in words(card).iter().enumerate() {
        let size = if place == 0 { 18 } else { 13 };
        body.extend(columns(line).map(|(x, words)| text(x, y, "start", size, words)));
        y += if line.is_empty() { LINE / 2 } else { LINE };
    }
    for (title, profile, margin) in drawn(card) {
        y += LINE;
        body.push(text(WIDTH / 2, y, "middle", 14, &title));
        let limits: Vec<Limit> = ism::margin_limits(profile).expect("a true profile").iter().collect();
        for w in windows(profile) {
            body.extend(band(&w, y + 14, margin, &limits));
            y += STEP;
        }
        y += LINE / 2;
    }
    if !drawn(card).is_empty() {
        y += LINE;
        let legend =
            "dark: the lengths written, in half clocks; red: the margin about them; triangles: what holds it down";
        body.push(text(WIDTH / 2, y, "middle", 12, legend));
    }
    let height = y + 24;
    let head = format!(
        "<svg xmlns=\"http://www.w3.org/2000/svg\" width=\"{WIDTH}\" height=\"{height}\" \
         viewBox=\"0 0 {WIDTH} {height}\" font-family=\"sans-serif\">\n\
         <title>{}</title>\n<rect width=\"100%\" height=\"100%\" fill=\"white\"/>\n",
        escaped(&card.name)
    );
    head + &body.join("\n") + "\n</svg>\n"
}

/// A line of the text form in its columns: a label and what it says, or, indented, a side and how it turns.
fn columns(line: &str) -> impl Iterator<Item = (i64, &str)> {
    let (label, rest, at) = match line.strip_prefix("  ") {
        None => (24, 120, 13),
        Some(_) => (120, 330, 31),
    };
    let split = if label == 120 && !line.contains("turn") { line.len() } else { at.min(line.len()) };
    let (first, second) = line.split_at(split);
    [(label, first.trim()), (rest, second.trim())].into_iter().filter(|(_, words)| !words.is_empty())
}

/// The windows after one kind of interval, the lengths in them, the margin, and the sides that hold it down.
fn band(w: &Windows, top: i64, margin: u64, limits: &[Limit]) -> Vec<String> {
    let (low, high) = (i64::from(w.edges[0]), i64::from(w.edges[3]));
    let across = |x: i64| LEFT + (x.clamp(low, high) - low) * (WIDTH - LEFT - RIGHT) / (high - low).max(1);
    let margin = margin as i64;
    let mut parts = vec![text(LEFT - 12, top + 28, "end", 12, "after"), text(LEFT - 12, top + 44, "end", 12, w.after)];
    for ((place, (shortest, longest)), colour) in w.lengths.into_iter().enumerate().zip(COLOURS) {
        let (from, to) = (across(i64::from(w.edges[place])), across(i64::from(w.edges[place + 1])));
        parts.push(format!(
            "<rect x=\"{from}\" y=\"{top}\" width=\"{}\" height=\"{BAND}\" fill=\"{colour}\" stroke=\"#777\"/>",
            to - from
        ));
        parts.push(text((from + to) / 2, top + 16, "middle", 12, &format!("class {}", place + 2)));
        let (shortest, longest) = (i64::from(shortest), i64::from(longest));
        parts.push(line(across(shortest - margin), across(longest + margin), top + 38, "#c33", 3));
        let (first, last) = (across(shortest), across(longest));
        parts.push(line(first - 2, last + 2, top + 38, "#222", 8));
        let told = if shortest == longest { shortest.to_string() } else { format!("{shortest} to {longest}") };
        parts.push(text((first + last) / 2, top + 57, "middle", 11, &told));
    }
    for (name, edge) in ["Min", "B23", "B34", "Rpt"].into_iter().zip(w.edges) {
        parts.push(text(across(i64::from(edge)), top + BAND + 15, "middle", 11, &format!("{name} {edge}")));
    }
    parts.extend(limits.iter().filter(|limit| is_here(w, limit, margin)).map(|l| triangle(w, l, &across, top + 38)));
    parts
}

/// Whether a side is one of these windows: Min and Rpt count over both kinds, and are marked where a length is nearest.
fn is_here(w: &Windows, limit: &Limit, margin: i64) -> bool {
    match (limit.after, limit.edge) {
        (After::Short, _) => w.after == "class 2",
        (After::Long, _) => w.after == "any other",
        (After::Both, Edge::Min) => i64::from(w.lengths[0].0) - margin == i64::from(w.edges[0]),
        (After::Both, _) => i64::from(w.lengths[2].1) + margin + 1 == i64::from(w.edges[3]),
    }
}

/// A triangle at the edge of a side, pointing there from the lengths.
fn triangle(w: &Windows, limit: &Limit, across: &dyn Fn(i64) -> i64, y: i64) -> String {
    let x = across(i64::from(w.edges[limit.edge as usize]));
    let back = if limit.side == Side::Below { x - 9 } else { x + 9 };
    let points = format!("{x},{y} {back},{} {back},{}", y - 6, y + 6);
    let title = format!("{} holds the margin down", side_name(limit));
    format!("<polygon points=\"{points}\" fill=\"#c33\"><title>{title}</title></polygon>")
}

fn line(from: i64, to: i64, y: i64, colour: &str, wide: i64) -> String {
    format!("<line x1=\"{from}\" y1=\"{y}\" x2=\"{to}\" y2=\"{y}\" stroke=\"{colour}\" stroke-width=\"{wide}\"/>")
}

fn text(x: i64, y: i64, anchor: &str, size: i64, words: &str) -> String {
    let words = escaped(words);
    format!(
        "<text x=\"{x}\" y=\"{y}\" text-anchor=\"{anchor}\" font-size=\"{size}\" xml:space=\"preserve\">{words}</text>"
    )
}

fn escaped(text: &str) -> String {
    let text = text.replace('&', "&amp;").replace('<', "&lt;").replace('>', "&gt;");
    text.chars().map(|c| if c.is_control() { ' ' } else { c }).collect()
}
