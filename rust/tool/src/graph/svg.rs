//! The picture as SVG. Letters are of one width, so that boxes are as wide as their texts in every viewer.

use super::grid::{Cell, Grid, grid};
use super::{Colour, Drawing, Drawn, Line, Mark, Sort};
use std::fmt::Write;

const LETTER: f64 = 7.3;
const LINE: f64 = 17.0;
const HEAD: f64 = 26.0;
const PAD: f64 = 10.0;
const MARGIN: f64 = 24.0;
/// How wide a lane is without arrows, and how much each arrow adds.
const LANE: f64 = 46.0;
const GAP: f64 = 30.0;
const ARROW: f64 = 7.0;
/// No text is wider, in letters.
const WIDEST: usize = 64;

/// Writes the picture; with `alone` it has its title and a background of its own.
pub fn write(drawing: &Drawing, alone: bool) -> String {
    let plan = Plan::new(drawing, alone);
    let (width, height) = plan.size(drawing, alone);
    let mut out = format!(
        "<svg xmlns=\"http://www.w3.org/2000/svg\" viewBox=\"0 0 {width:.0} {height:.0}\" width=\"{width:.0}\" height=\"{height:.0}\" \
         font-family=\"DejaVu Sans Mono, Menlo, Consolas, monospace\" font-size=\"12\" role=\"img\">\n"
    );
    if alone {
        _ = writeln!(out, "<title>{}</title>", escaped(&drawing.title));
        _ = writeln!(out, "<rect width=\"{width:.0}\" height=\"{height:.0}\" fill=\"#ffffff\"/>");
        _ = writeln!(
            out,
            "<text x=\"{MARGIN}\" y=\"{MARGIN}\" font-weight=\"bold\">{}</text>",
            escaped(&drawing.title)
        );
    }
    for (i, arrow) in drawing.arrows.iter().enumerate() {
        out.push_str(&plan.arrow(i, arrow.sort));
    }
    for (i, drawn) in drawing.boxes.iter().enumerate() {
        out.push_str(&plan.drawn(i, drawn));
    }
    out.push_str(&key(plan.bottom));
    out.push_str("</svg>\n");
    out
}

/// An arrow through points, with its head at the last of them. Heads are drawn, since not every reader knows markers.
fn arrow(points: &[(f64, f64)], sort: Sort) -> String {
    let (ink, width, dashes, head) = match sort {
        Sort::Source => ("#334155", "1.5", "", 11.0),
        Sort::Ring => ("#7e22ce", "3", "", 14.0),
        Sort::Path => ("#334155", "1.5", " stroke-dasharray=\"6 4\"", 11.0),
    };
    let [.., (from_x, from_y), (x, y)] = *points else { return String::new() };
    let length = (x - from_x).hypot(y - from_y).max(1.0);
    let (along_x, along_y) = ((x - from_x) / length * head, (y - from_y) / length * head);
    // The line ends within the head.
    let ends = (x - along_x / 2.0, y - along_y / 2.0);
    let line = points[..points.len() - 1].iter().chain([&ends]).map(|(x, y)| format!("{x:.1} {y:.1}"));
    let (back_x, back_y) = (x - along_x, y - along_y);
    let [(a_x, a_y), (b_x, b_y)] = [0.5, -0.5].map(|side| (back_x - side * along_y, back_y + side * along_x));
    format!(
        "<path d=\"M{}\" fill=\"none\" stroke-linejoin=\"round\" stroke=\"{ink}\" stroke-width=\"{width}\"{dashes}/>\n\
         <path d=\"M{x:.1} {y:.1}L{a_x:.1} {a_y:.1}L{b_x:.1} {b_y:.1}z\" fill=\"{ink}\"/>\n",
        line.collect::<Vec<_>>().join("L")
    )
}

/// A text that can stand in XML, which has no control characters and not U+FFFE and U+FFFF.
pub fn escaped(text: &str) -> String {
    let mut out = String::new();
    for c in text.chars() {
        match c {
            '&' => out.push_str("&amp;"),
            '<' => out.push_str("&lt;"),
            '>' => out.push_str("&gt;"),
            '"' => out.push_str("&quot;"),
            '\u{FFFE}' | '\u{FFFF}' => out.push('\u{FFFD}'),
            c if c.is_control() && c != '\n' => out.push('\u{FFFD}'),
            c => out.push(c),
        }
    }
    out
}

/// Letters of East Asian scripts are as wide as two.
fn letters(text: &str) -> usize {
    let wide = |c: char| matches!(c as u32, 0x1100..=0x115F | 0x2E80..=0xA4CF | 0xAC00..=0xD7A3 | 0xF900..=0xFAFF | 0xFE30..=0xFE4F | 0xFF00..=0xFF60 | 0x20000..=0x3FFFF);
    text.chars().map(|c| if wide(c) { 2 } else { 1 }).sum()
}

/// A text, its middle left out where it is too long.
fn short(text: &str) -> String {
    if letters(text) <= WIDEST {
        return text.to_string();
    }
    let part = |letters_left: usize, chars: &mut dyn Iterator<Item = char>| {
        let mut left = letters_left;
        chars
            .take_while(|&c| {
                let width = letters(c.encode_utf8(&mut [0; 4]));
                let fits = width <= left;
                left = left.saturating_sub(width);
                fits
            })
            .collect::<Vec<char>>()
    };
    let first = part(WIDEST / 2 + 8, &mut text.chars());
    let mut last = part(WIDEST / 2 - 10, &mut text.chars().rev());
    last.reverse();
    first.into_iter().chain("..".chars()).chain(last).collect()
}

/// Where everything stands, in points.
struct Plan {
    grid: Grid,
    /// The left edge of each column and the upper edge of each row.
    x: Vec<f64>,
    y: Vec<f64>,
    widths: Vec<f64>,
    heights: Vec<f64>,
    /// For each arrow outside the trees: its turn in the lanes that it takes.
    turns: Vec<Option<(usize, usize)>>,
    ends: Vec<(usize, usize)>,
    bottom: f64,
}

/// Arrows outside the trees leave below their box and come in from the right: each has a turn in the lane below its row
/// and one in the lane right of the column.
struct Lanes {
    turns: Vec<Option<(usize, usize)>>,
    /// How many arrows each lane has.
    below: Vec<usize>,
    beside: Vec<usize>,
}

impl Lanes {
    fn new(drawing: &Drawing, grid: &Grid) -> Lanes {
        let mut lanes = Lanes { turns: vec![], below: vec![0; grid.rows + 1], beside: vec![0; grid.columns + 1] };
        for (i, arrow) in drawing.arrows.iter().enumerate() {
            if grid.branch[arrow.from] == Some(i) {
                lanes.turns.push(None);
                continue;
            }
            let below = &mut lanes.below[grid.cells[arrow.from].row + 1];
            let beside = &mut lanes.beside[grid.cells[arrow.to].column + 1];
            lanes.turns.push(Some((*below, *beside)));
            *below += 1;
            *beside += 1;
        }
        lanes
    }
}

/// The largest of the sizes of some boxes.
fn largest(cells: &[Cell], sizes: &[f64], which: impl Fn(&Cell) -> bool) -> f64 {
    cells.iter().zip(sizes).filter(|(cell, _)| which(cell)).map(|(_, &size)| size).fold(0.0, f64::max)
}

/// Where columns or rows begin, with lanes between them that are as wide as their arrows need; and where the last ends.
fn edges(first: f64, lane: f64, arrows: &[usize], size: impl Fn(usize) -> f64) -> (Vec<f64>, f64) {
    let mut at = first;
    let mut edges = vec![];
    for (i, &arrows) in arrows.iter().enumerate() {
        at += if i == 0 { 0.0 } else { lane + ARROW * arrows as f64 };
        edges.push(at);
        at += size(i);
    }
    (edges, at)
}

impl Plan {
    fn new(drawing: &Drawing, alone: bool) -> Plan {
        let grid = grid(drawing);
        let widest =
            |d: &Drawn| d.lines.iter().map(|l| letters(&short(&l.text))).chain([letters(&short(&d.title))]).max();
        let widths: Vec<f64> =
            drawing.boxes.iter().map(|d| widest(d).unwrap_or(0) as f64 * LETTER + 2.0 * PAD).collect();
        let heights: Vec<f64> = drawing.boxes.iter().map(|d| HEAD + 8.0 + d.lines.len() as f64 * LINE).collect();
        let ends: Vec<(usize, usize)> = drawing.arrows.iter().map(|arrow| (arrow.from, arrow.to)).collect();

        let lanes = Lanes::new(drawing, &grid);
        let column = |at: usize| largest(&grid.cells, &widths, |cell| cell.column == at);
        let (x, _) = edges(MARGIN + 16.0, LANE, &lanes.beside, column);
        let row = |at: usize| largest(&grid.cells, &heights, |cell| cell.row == at);
        let (y, bottom) = edges(MARGIN + if alone { 20.0 } else { 0.0 }, GAP, &lanes.below, row);
        Plan { grid, x, y, widths, heights, turns: lanes.turns, ends, bottom: bottom + 10.0 }
    }

    fn size(&self, drawing: &Drawing, alone: bool) -> (f64, f64) {
        let right = self.x.last().copied().unwrap_or(0.0);
        let title = if alone { letters(&drawing.title) as f64 * LETTER } else { 0.0 };
        (right.max(title).max(KEY_WIDTH) + 2.0 * MARGIN, self.bottom + KEY_HEIGHT + MARGIN)
    }

    /// The left and upper edge of a box.
    fn corner(&self, i: usize) -> (f64, f64) {
        let Cell { column, row } = self.grid.cells[i];
        (self.x[column], self.y[row])
    }

    fn arrow(&self, i: usize, sort: Sort) -> String {
        let (from, to) = self.ends[i];
        let points = match self.turns[i] {
            Some(turn) => self.around(from, to, turn),
            None if sort == Sort::Ring => self.round(from, to),
            None => self.branch(from, to, sort),
        };
        arrow(&points, sort)
    }

    /// From the left of a box to the right of its source, one column before; along a path a little beside that.
    fn branch(&self, from: usize, to: usize, sort: Sort) -> Vec<(f64, f64)> {
        let ((x, y), (to_x, to_y)) = (self.corner(from), self.corner(to));
        let aside = if sort == Sort::Path { 7.0 } else { 0.0 };
        let (y, to_y) = (y + HEAD / 2.0 + aside, to_y + HEAD / 2.0 + aside);
        let lane = x - 18.0 - 1.4 * aside;
        vec![(x, y), (lane, y), (lane, to_y), (to_x + self.widths[to], to_y)]
    }

    /// Down to the next member of a ring, or back up to the first along the left.
    fn round(&self, from: usize, to: usize) -> Vec<(f64, f64)> {
        let ((x, y), (to_x, to_y)) = (self.corner(from), self.corner(to));
        if to_y > y {
            return vec![(x + 26.0, y + self.heights[from]), (to_x + 26.0, to_y)];
        }
        let lane = x - 16.0;
        vec![
            (x, y + HEAD / 2.0 + 10.0),
            (lane, y + HEAD / 2.0 + 10.0),
            (lane, to_y + HEAD / 2.0 - 5.0),
            (to_x, to_y + HEAD / 2.0 - 5.0),
        ]
    }

    /// Out below the box, along the lane below its row, and in from the right.
    fn around(&self, from: usize, to: usize, (below, beside): (usize, usize)) -> Vec<(f64, f64)> {
        let ((x, y), (to_x, to_y)) = (self.corner(from), self.corner(to));
        let start = x + (60.0 + 9.0 * below as f64).min(self.widths[from] - 8.0);
        let right = to_x + self.widths[to];
        let column = self.grid.cells[to].column;
        let lane_x = self.x[column] + self.column_width(column) + 12.0 + ARROW * beside as f64;
        let lane_y = self.y[self.grid.cells[from].row + 1] - 10.0 - ARROW * below as f64;
        let end = to_y + (HEAD + 4.0 + 6.0 * beside as f64).min(self.heights[to] - 6.0);
        vec![(start, y + self.heights[from]), (start, lane_y), (lane_x, lane_y), (lane_x, end), (right, end)]
    }

    fn column_width(&self, column: usize) -> f64 {
        largest(&self.grid.cells, &self.widths, |cell| cell.column == column)
    }

    fn drawn(&self, i: usize, drawn: &Drawn) -> String {
        let ((x, y), width, height) = (self.corner(i), self.widths[i], self.heights[i]);
        let (fill, edge) = match drawn.colour {
            Colour::Own => ("#dbeafe", ""),
            Colour::Inherited => ("#dcfce7", ""),
            Colour::NoKinds => ("#e2e8f0", ""),
            Colour::Undeclared => ("#ffffff", " stroke-dasharray=\"2 3\""),
        };
        let mut out = format!("<g><title>{}</title>\n", escaped(&drawn.title));
        _ = writeln!(
            out,
            "<rect x=\"{x:.1}\" y=\"{y:.1}\" width=\"{width:.1}\" height=\"{height:.1}\" rx=\"5\" fill=\"#ffffff\" stroke=\"#334155\"{edge}/>"
        );
        _ = writeln!(
            out,
            "<path d=\"M{x:.1} {:.1}v-{:.1}a5 5 0 0 1 5 -5h{:.1}a5 5 0 0 1 5 5v{:.1}z\" fill=\"{fill}\" stroke=\"#334155\"{edge}/>",
            y + HEAD,
            HEAD - 5.0,
            width - 10.0,
            HEAD - 5.0
        );
        _ = writeln!(
            out,
            "<text x=\"{:.1}\" y=\"{:.1}\" font-weight=\"bold\">{}</text>",
            x + PAD,
            y + 17.0,
            escaped(&short(&drawn.title))
        );
        for (k, line) in drawn.lines.iter().enumerate() {
            out.push_str(&line_of(line, x, y + HEAD + 4.0 + k as f64 * LINE, width));
        }
        out.push_str("</g>\n");
        out
    }
}

/// A line of a box, on a ground of its own where it is marked.
fn line_of(line: &Line, x: f64, y: f64, width: f64) -> String {
    let (ground, ink) = match line.mark {
        Mark::Plain => ("", "#0f172a"),
        Mark::Kept => ("#fde68a", "#451a03"),
        Mark::Refused => ("#fecaca", "#7f1d1d"),
    };
    let mut out = String::new();
    if !ground.is_empty() {
        let (x, width) = (x + 1.0, width - 2.0);
        _ = writeln!(
            out,
            "<rect x=\"{x:.1}\" y=\"{y:.1}\" width=\"{width:.1}\" height=\"{LINE:.1}\" fill=\"{ground}\"/>"
        );
    }
    let (x, y, text) = (x + PAD, y + 12.5, escaped(&short(&line.text)));
    _ = writeln!(out, "<text x=\"{x:.1}\" y=\"{y:.1}\" fill=\"{ink}\">{text}</text>");
    out
}

const KEY_WIDTH: f64 = 830.0;
const KEY_HEIGHT: f64 = 46.0;

/// What the lines and colours mean.
fn key(y: f64) -> String {
    let mut out = format!("<g transform=\"translate({MARGIN} {:.1})\">\n", y + 12.0);
    let arrows = [
        (0.0, Sort::Source, "comes from its source"),
        (270.0, Sort::Ring, "a ring of sources"),
        (560.0, Sort::Path, "a step of its path"),
    ];
    for (x, sort, text) in arrows {
        out.push_str(&arrow(&[(x, 8.0), (x + 36.0, 8.0)], sort));
        _ = writeln!(out, "<text x=\"{}\" y=\"12\">{text}</text>", x + 44.0);
    }
    let boxes = [
        (0.0, "#dbeafe", "", "lists its kinds"),
        (170.0, "#dcfce7", "", "inherits its kinds"),
        (350.0, "#e2e8f0", "", "has no kinds"),
        (500.0, "#ffffff", " stroke-dasharray=\"2 3\"", "not declared"),
        (640.0, "#fde68a", "", "kept"),
        (720.0, "#fecaca", "", "refused"),
    ];
    for (x, fill, edge, text) in boxes {
        _ = writeln!(
            out,
            "<rect x=\"{x}\" y=\"26\" width=\"18\" height=\"14\" fill=\"{fill}\" stroke=\"#334155\"{edge}/><text x=\"{}\" y=\"37\">{text}</text>",
            x + 26.0
        );
    }
    out.push_str("</g>\n");
    out
}
