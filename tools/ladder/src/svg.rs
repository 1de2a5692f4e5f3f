//! A drawing as SVG.
use crate::drawing::{Arrow, Column, Drawing, Style, Text, LETTER, LINE};
use crate::session::Side;
use std::fmt::Write;

/// Room between a text and a line.
const GAP: usize = 10;
/// Between the lines of the sides there is room for so many letters at least.
const LEAST_LETTERS: usize = 30;

const STYLES: &str = "\
    text { font-family: 'DejaVu Sans Mono', Menlo, Consolas, 'Courier New', monospace; font-size: 13px; }\n\
    .chunk { fill: #111; }\n\
    .asked { fill: #333; }\n\
    .told { fill: #06703a; }\n\
    .expired { fill: #b00020; }\n\
    .note { fill: #888; }\n\
    .side { fill: #111; font-weight: bold; }\n\
    .way { stroke: #2357a5; stroke-width: 1.5; }\n\
    .repeated { stroke: #8aa4cc; stroke-width: 1.5; }\n\
    .lost { stroke: #b00020; stroke-width: 1.5; stroke-dasharray: 6 4; }\n\
    .cross { stroke: #b00020; stroke-width: 2; }\n\
    .line { stroke: #111; stroke-width: 2; }\n\
    .moment { stroke: #bbb; stroke-width: 1; stroke-dasharray: 1 4; }\n";

/// Where the column of moments ends, where the lines of the sides stand, and how wide the picture is.
struct Sizes {
    moments: usize,
    lines: [usize; 2],
    width: usize,
}

impl Sizes {
    fn of(drawing: &Drawing) -> Sizes {
        let room = |column| drawing.longest(column) * LETTER + 2 * GAP;
        let inside = room(Column::Inside(Side::A)).max(room(Column::Inside(Side::B))).max(LEAST_LETTERS * LETTER);
        let longest = drawing.moments.iter().map(|(_, millis)| moment(*millis).len()).max().unwrap_or(0);
        let moments = longest * LETTER + 2 * GAP;
        let a = moments + room(Column::Outside(Side::A)).max(8 * LETTER);
        let b = a + inside + 4 * GAP;
        Sizes { moments, lines: [a, b], width: b + room(Column::Outside(Side::B)).max(8 * LETTER) }
    }

    fn line(&self, side: Side) -> usize {
        self.lines[side as usize]
    }
}

/// The drawing as the text of an SVG file.
pub fn svg(title: &str, drawing: &Drawing) -> String {
    let sizes = Sizes::of(drawing);
    let (width, height) = (sizes.width, drawing.height);
    let mut out = String::new();
    let mut line = |words: String| out.push_str(&(words + "\n"));
    line(format!(r#"<svg xmlns="http://www.w3.org/2000/svg" width="{width}" height="{height}">"#));
    line(format!("<title>{}</title>", escaped(title)));
    line(format!("<style>\n{STYLES}</style>"));
    line(format!(r#"<rect width="{width}" height="{height}" fill="white"/>"#));
    for (bottom, millis) in &drawing.moments {
        let y = bottom - LINE / 3;
        let x = sizes.moments;
        line(format!(r#"<line class="moment" x1="{x}" y1="{y}" x2="{width}" y2="{y}"/>"#));
        line(text("note", x - GAP, y + LINE / 4, "end", &moment(*millis)));
    }
    for (side, name) in [(Side::A, "A"), (Side::B, "B")] {
        let x = sizes.line(side);
        line(text("side", x, LINE, "middle", name));
        line(format!(r#"<line class="line" x1="{x}" y1="{}" x2="{x}" y2="{}"/>"#, LINE + LINE / 2, height - LINE / 2));
    }
    let (come, lost): (Vec<&Arrow>, Vec<&Arrow>) = drawing.arrows.iter().partition(|arrow| arrow.comes.is_some());
    come.iter().chain(&lost).for_each(|arrow| line(way(&sizes, arrow)));
    drawing.texts.iter().for_each(|placed| line(text_of(&sizes, placed)));
    line("</svg>".to_string());
    out
}

fn moment(millis: u64) -> String {
    format!("{millis} ms")
}

fn escaped(words: &str) -> String {
    words.replace('&', "&amp;").replace('<', "&lt;").replace('>', "&gt;")
}

fn text(class: &str, x: usize, y: usize, anchor: &str, words: &str) -> String {
    format!(r#"<text class="{class}" x="{x}" y="{y}" text-anchor="{anchor}">{}</text>"#, escaped(words))
}

/// A text with white behind it, through which an arrow that crosses it is seen faintly. `x` is where it begins, or
/// where it ends.
fn placed_text(class: &str, x: usize, bottom: usize, is_end: bool, words: &str) -> String {
    let (top, height, width) = (bottom - LINE + 3, LINE - 3, words.chars().count() * LETTER);
    let left = if is_end { x - width } else { x };
    let behind =
        format!(r#"<rect x="{left}" y="{top}" width="{width}" height="{height}" fill="white" opacity="0.8"/>"#);
    behind + &text(class, x, bottom - LINE / 4, if is_end { "end" } else { "start" }, words)
}

fn text_of(sizes: &Sizes, placed: &Text) -> String {
    let class = match placed.style {
        Style::Chunk => "chunk",
        Style::Asked => "asked",
        Style::Told => "told",
        Style::Expired => "expired",
        Style::Note => "note",
    };
    let (is_end, x) = match placed.column {
        Column::Outside(Side::A) => (true, sizes.line(Side::A) - GAP),
        Column::Inside(Side::A) => (false, sizes.line(Side::A) + GAP),
        Column::Inside(Side::B) => (true, sizes.line(Side::B) - GAP),
        Column::Outside(Side::B) => (false, sizes.line(Side::B) + GAP),
    };
    placed_text(class, x, placed.bottom, is_end, &placed.words)
}

/// A datagram's way, with a head where it comes, and a cross where it is lost.
fn way(sizes: &Sizes, arrow: &Arrow) -> String {
    let (from, to) = (sizes.line(arrow.from), sizes.line(arrow.from.other()));
    let Some(comes) = arrow.comes else { return lost_way(from, to, arrow.leaves) };
    let class = if arrow.is_repeated { "repeated" } else { "way" };
    let mut out = format!(r#"<line class="{class}" x1="{from}" y1="{}" x2="{to}" y2="{comes}"/>"#, arrow.leaves);
    let (x, y) = (to as f64, comes as f64);
    let (dx, dy) = (x - from as f64, y - arrow.leaves as f64);
    let length = dx.hypot(dy);
    let (dx, dy) = (dx / length, dy / length);
    let corner = |across: f64| (x - 10.0 * dx - across * dy, y - 10.0 * dy + across * dx);
    let ((x1, y1), (x2, y2)) = (corner(4.0), corner(-4.0));
    let _ = write!(out, r#"<path class="{class}" d="M{x1:.1} {y1:.1} L{x:.1} {y:.1} L{x2:.1} {y2:.1}" fill="none"/>"#);
    out
}

/// A way that ends halfway, and the word behind its end.
fn lost_way(from: usize, to: usize, leaves: usize) -> String {
    let (x, y) = ((from + to) / 2, leaves + LINE / 2);
    let (left, right, top, bottom) = (x - 5, x + 5, y - 5, y + 5);
    let cross = format!("M{left} {top} L{right} {bottom} M{left} {bottom} L{right} {top}");
    let x_word = if from < to { x + GAP } else { x - GAP };
    [
        format!(r#"<line class="lost" x1="{from}" y1="{leaves}" x2="{x}" y2="{y}"/>"#),
        format!(r#"<path class="cross" d="{cross}" fill="none"/>"#),
        placed_text("note", x_word, y + LINE / 2, from > to, "lost"),
    ]
    .concat()
}
