//! The same as a picture: SVG, on a light ground of its own, with patterns besides the colours.

use crate::record::{notes, Part, Piece, Record, Sort, ELEMENTS};
use crate::scale::{fold, share, Fragment, Room, Shared};
use crate::table::{letters, shortened, Table};
use std::fmt::Write;

const MARGIN: f64 = 24.0;
/// The least width of the picture without its margins, which is that of a line of the bar.
const LINE: u64 = 912;
const BOX: f64 = 40.0;
/// From one line of the bar to the next: the box, the ticks below it and their numbers.
const STEP: f64 = 76.0;
const TEXT_LINE: f64 = 20.0;
/// The widths of a letter, somewhat more than those of the fonts, at the sizes of the style below.
const LETTER: f64 = 7.9;
const SMALL_LETTER: f64 = 6.8;
/// The longest name in a box.
const NAME: usize = 40;

const STYLE: &str = "\
text { font: 13px ui-monospace, 'DejaVu Sans Mono', Menlo, Consolas, monospace; fill: #1b1b1b; white-space: pre }
.heading { font-size: 16px; font-weight: bold }
.head { fill: #555 }
.place { font-size: 11px; fill: #333 }
.ground { fill: #fff }
.member { fill: #d3e5f7 }
.other { fill: #b9d4ee }
.gap { fill: url(#gap) }
.closing { fill: url(#closing) }
.edge { fill: none; stroke: #1f3a57; stroke-width: 1.5 }
.element { stroke: #1f3a57; stroke-width: 1; stroke-dasharray: 2 2 }
.tick { stroke: #777; stroke-width: 1 }
";

/// Gaps have strokes, and closing padding has dots.
const PATTERNS: &str = "\
<pattern id=\"gap\" width=\"8\" height=\"8\" patternUnits=\"userSpaceOnUse\">\
<rect width=\"8\" height=\"8\" fill=\"#fff\"/>\
<path d=\"M-2 2 L2 -2 M0 8 L8 0 M6 10 L10 6\" stroke=\"#b0562b\" stroke-width=\"1.2\"/></pattern>
<pattern id=\"closing\" width=\"7\" height=\"7\" patternUnits=\"userSpaceOnUse\">\
<rect width=\"7\" height=\"7\" fill=\"#f1f1f1\"/><circle cx=\"3.5\" cy=\"3.5\" r=\"1.5\" fill=\"#666\"/></pattern>
";

/// A picture while it is drawn: what is drawn, how far down and how wide it is by now.
struct Drawing {
    text: String,
    down: f64,
    width: f64,
}

impl Drawing {
    fn add(&mut self, element: &str) {
        self.text += element;
        self.text.push('\n');
    }

    /// A text at a place, whose letters have this width.
    fn say(&mut self, x: f64, y: f64, class: &str, letter: f64, text: &str) {
        let class = if class.is_empty() { String::new() } else { format!(" class=\"{class}\"") };
        self.add(&format!("<text x=\"{x}\" y=\"{y}\"{class}>{}</text>", escaped(text)));
        self.width = self.width.max(x + letters(text) as f64 * letter);
    }

    /// A line of text, below what is drawn by now.
    fn line(&mut self, text: &str) {
        self.down += TEXT_LINE;
        self.say(MARGIN, self.down, "", LETTER, text);
    }
}

/// The picture of a record.
pub fn picture(record: &Record) -> String {
    let mut drawing = Drawing { text: String::new(), down: MARGIN + 12.0, width: MARGIN + LINE as f64 };
    drawing.say(MARGIN, drawing.down, "heading", 10.0, &record.heading);
    drawing.down += 2.0;
    drawing.line(&record.summary());
    drawing.down += 16.0;
    let shared = bar(&mut drawing, record);
    legend(&mut drawing, record);
    for note in notes(record, &shared, "pixel") {
        drawing.line(&note);
    }
    if !record.members.is_empty() {
        table(&mut drawing, &Table::members(record));
    }
    if record.is_open() {
        table(&mut drawing, &Table::sizes(record));
    }

    let (width, height) = ((drawing.width + MARGIN).ceil(), (drawing.down + MARGIN).ceil());
    let names: Vec<&str> = record.members.iter().map(|member| member.name.as_str()).collect();
    let mut text = String::new();
    let _ = writeln!(
        text,
        "<svg xmlns=\"http://www.w3.org/2000/svg\" role=\"img\" width=\"{width}\" height=\"{height}\" \
         viewBox=\"0 0 {width} {height}\">"
    );
    let _ = writeln!(text, "<title>{}</title>", escaped(&format!("Layout of {}", record.heading)));
    let _ = writeln!(text, "<desc>{}</desc>", escaped(&format!("{}: {}", names.join(", "), record.summary())));
    let _ = write!(text, "<style>\n{STYLE}</style>\n<defs>\n{PATTERNS}</defs>\n");
    let _ = writeln!(text, "<rect class=\"ground\" width=\"{width}\" height=\"{height}\"/>");
    text + &drawing.text + "</svg>\n"
}

/// The bar, in as many lines as it needs, with the places below it.
fn bar(drawing: &mut Drawing, record: &Record) -> Shared {
    let pieces = record.pieces();
    let sizes: Vec<u128> = pieces.iter().map(|piece| piece.bytes).collect();
    let shared = share(&sizes, &Room { line: LINE, least: 6, most: 96, pieces: 16 });
    let lines = fold(&shared.cells, shared.line);
    // A piece on several lines is named once, where it is widest.
    let mut widest = vec![0; pieces.len()];
    for fragment in lines.iter().flatten() {
        widest[fragment.piece] = fragment.cells.max(widest[fragment.piece]);
    }
    let mut is_named = vec![false; pieces.len()];
    for (at, fragments) in lines.iter().enumerate() {
        let mut labels = Vec::new();
        for fragment in fragments {
            let piece = &pieces[fragment.piece];
            let is_here = fragment.cells == widest[fragment.piece] && !is_named[fragment.piece];
            is_named[fragment.piece] |= is_here;
            draw(drawing, record, piece, fragment, is_here);
            if fragment.first {
                labels.push((fragment.at, piece.start.to_string()));
            }
        }
        let mut end = None;
        if at + 1 == lines.len() {
            let at = fragments.last().map_or(0, |last| last.at + last.cells);
            match record.whole.run() {
                None => end = Some((at, sizes.iter().sum::<u128>().to_string())),
                Some(run) if run.elem_size == 0 => {
                    // There may be no piece that has the open end.
                    let edge = torn(MARGIN + at as f64, drawing.down);
                    drawing.add(&format!("<path class=\"edge\" d=\"M{edge}\"/>"));
                }
                Some(_) => {}
            }
        }
        if !pieces.is_empty() {
            ticks(drawing, labels, end);
        }
        drawing.down += STEP;
    }
    drawing.down -= if pieces.is_empty() && !record.is_open() { STEP } else { 2.0 };
    shared
}

/// A part of the bar: its ground, its edges where it starts and ends, and the name, or the index, where it has room.
fn draw(drawing: &mut Drawing, record: &Record, piece: &Piece, fragment: &Fragment, is_named: bool) {
    let (x, y, width) = (MARGIN + fragment.at as f64, drawing.down, fragment.cells as f64);
    let (right, bottom) = (x + width, y + BOX);
    let is_torn = fragment.last && matches!(piece.part, Part::Open(_));
    let class = match piece.part {
        Part::Gap => "gap",
        Part::Closing => "closing",
        Part::Member(index) | Part::Open(index) if index % 2 == 0 => "member",
        Part::Member(_) | Part::Open(_) => "member other",
    };
    let end = if is_torn { torn(right, y) } else { format!("{right} {y} L{right} {bottom}") };
    drawing.add(&format!("<path class=\"{class}\" d=\"M{x} {bottom} L{x} {y} L{end} Z\"/>"));
    if let (Part::Open(_), Some(run)) = (piece.part, record.whole.run()) {
        elements(drawing, piece, fragment, run.elem_size);
    }
    let left = if fragment.first { format!("M{x} {y} L{x} {bottom} ") } else { String::new() };
    let close = if fragment.last { format!(" M{end}") } else { String::new() };
    drawing.add(&format!(
        "<path class=\"edge\" d=\"{left}M{x} {y} L{right} {y} M{x} {bottom} L{right} {bottom}{close}\"/>"
    ));
    if let (Part::Member(index) | Part::Open(index), true) = (piece.part, is_named) {
        let fits = |label: &String, beside: f64| letters(label) as f64 * LETTER + beside <= width;
        let (name, index) = (shortened(&record.members[index].name, NAME), index.to_string());
        let label = Some(name).filter(|name| fits(name, 8.0)).or(Some(index).filter(|index| fits(index, 4.0)));
        if let Some(label) = label {
            let start = x + (width - letters(&label) as f64 * LETTER) / 2.0;
            drawing.say(start.round(), y + BOX / 2.0 + 4.5, "", LETTER, &label);
        }
    }
}

/// The right edge of what goes on, from the top to the bottom: a path without its first letter.
fn torn(x: f64, y: f64) -> String {
    let points = (0..=8).map(|at| format!("{} {}", if at % 2 == 0 { x } else { x + 7.0 }, y + BOX / 8.0 * at as f64));
    points.collect::<Vec<_>>().join(" L")
}

/// Where the drawn elements of an open end start, if they are wide enough to be told apart.
fn elements(drawing: &mut Drawing, piece: &Piece, fragment: &Fragment, elem_size: u64) {
    let is_whole = fragment.first && fragment.last;
    let width = elem_size as f64 / piece.bytes as f64 * fragment.cells as f64;
    if !is_whole || width < 6.0 {
        return;
    }
    for element in 1..=ELEMENTS {
        let x = MARGIN + (fragment.at + fragment.cells) as f64 - element as f64 * width;
        if x > MARGIN + fragment.at as f64 + 1.0 {
            let (x, y) = (x.round(), drawing.down);
            // Not through the name.
            let (top, bottom) = (y + BOX / 4.0, y + BOX);
            let rest = bottom - BOX / 4.0;
            drawing.add(&format!("<path class=\"element\" d=\"M{x} {y} L{x} {top} M{x} {rest} L{x} {bottom}\"/>"));
        }
    }
}

/// Ticks where pieces start, with the places as far as they have room beside each other, and the end.
fn ticks(drawing: &mut Drawing, labels: Vec<(u64, String)>, end: Option<(u64, String)>) {
    let y = drawing.down + BOX;
    let wide = |label: &str| letters(label) as f64 * SMALL_LETTER;
    // In the middle below its tick, but within the picture.
    let starts = |(at, label): &(u64, String)| {
        let most = MARGIN + LINE as f64 + 8.0 - wide(label);
        (MARGIN + *at as f64 - wide(label) / 2.0).min(most).max(4.0)
    };
    let mut free = 0.0;
    let most = end.as_ref().map_or(f64::INFINITY, starts);
    for tick in labels.iter().chain(&end) {
        let (x, start) = (MARGIN + tick.0 as f64, starts(tick));
        drawing.add(&format!("<path class=\"tick\" d=\"M{x} {} L{x} {}\"/>", y + 1.0, y + 6.0));
        let after = start + wide(&tick.1) + 6.0;
        if start >= free && after <= most || Some(tick) == end.as_ref() {
            drawing.say(start.round(), y + 18.0, "place", SMALL_LETTER, &tick.1);
            free = after;
        }
    }
}

/// What the grounds mean, of those that were drawn.
fn legend(drawing: &mut Drawing, record: &Record) {
    let said = record.legend();
    if said.is_empty() {
        return;
    }
    let (mut x, y) = (MARGIN, drawing.down);
    for (sort, means) in said {
        let (right, bottom) = (x + 22.0, y + 14.0);
        let closed = format!("M{x} {y} H{right} V{bottom} H{x} Z");
        let (class, edge) = match sort {
            Sort::Member => ("member", closed),
            Sort::Gap => ("gap", closed),
            Sort::Closing => ("closing", closed),
            Sort::Open => ("member", format!("M{x} {y} H{right} l4 3.5 l-4 3.5 l4 3.5 l-4 3.5 H{x}")),
        };
        drawing.add(&format!("<path class=\"{class}\" d=\"{edge}\"/>"));
        drawing.add(&format!("<path class=\"edge\" d=\"{edge}\"/>"));
        let start = right + 12.0;
        drawing.say(start, y + 11.5, "", LETTER, means);
        x = ((start + letters(means) as f64 * LETTER + 24.0) * 10.0).round() / 10.0;
    }
    drawing.down += 18.0;
}

/// A table: columns as wide as their longest words.
fn table(drawing: &mut Drawing, table: &Table) {
    drawing.down += 14.0;
    let heads: Vec<String> = table.heads.iter().map(|head| head.0.to_string()).collect();
    let widths = table.widths();
    for (at, row) in [&heads].into_iter().chain(&table.rows).enumerate() {
        drawing.down += TEXT_LINE;
        let mut x = MARGIN;
        for (column, cell) in row.iter().enumerate() {
            let indent = match table.heads[column].1 {
                true => letters(cell) - letters(cell.trim_start()),
                false => widths[column] - letters(cell),
            };
            if !cell.is_empty() {
                let class = if at == 0 { "head" } else { "" };
                let start = ((x + indent as f64 * LETTER) * 10.0).round() / 10.0;
                drawing.say(start, drawing.down, class, LETTER, cell.trim_start());
            }
            x += (widths[column] + 2) as f64 * LETTER;
        }
    }
}

/// A text as XML has it.
fn escaped(text: &str) -> String {
    let mut safe = String::new();
    for letter in text.chars() {
        match letter {
            '&' => safe += "&amp;",
            '<' => safe += "&lt;",
            '>' => safe += "&gt;",
            '"' => safe += "&quot;",
            _ => safe.push(letter),
        }
    }
    safe
}

#[cfg(test)]
mod tests {
    use super::*;

    #[test]
    fn texts_are_escaped() {
        assert_eq!(escaped("Map<K, V> & \"x\""), "Map&lt;K, V&gt; &amp; &quot;x&quot;");
    }
}
