//! The picture as DOT, for Graphviz.

use super::{Colour, Drawing, Drawn, Mark, Sort};
use std::fmt::Write;

pub fn write(drawing: &Drawing) -> String {
    let mut out =
        String::from("digraph pack {\n  rankdir=RL;\n  node [shape=box, fontname=\"monospace\", style=filled];\n");
    _ = writeln!(out, "  label={};", quoted(&drawing.title));
    for (i, drawn) in drawing.boxes.iter().enumerate() {
        _ = writeln!(out, "  r{i} [label={}{}];", label(drawn), look(drawn));
    }
    for arrow in &drawing.arrows {
        let look = match arrow.sort {
            Sort::Source => "",
            Sort::Ring => " [color=\"#7e22ce\", penwidth=3]",
            Sort::Path => " [style=dashed]",
        };
        _ = writeln!(out, "  r{} -> r{}{look};", arrow.from, arrow.to);
    }
    out.push_str("}\n");
    out
}

fn quoted(text: &str) -> String {
    format!("\"{}\"", text.replace('\\', "\\\\").replace('"', "\\\""))
}

/// The title and the lines, each ended to the left.
fn label(drawn: &Drawn) -> String {
    let lines = drawn.lines.iter().map(|line| match line.mark {
        Mark::Plain => line.text.clone(),
        _ => format!("! {}", line.text),
    });
    let inner = |text: String| text.replace('\\', "\\\\").replace('"', "\\\"") + "\\l";
    format!("\"{}\"", [drawn.title.clone()].into_iter().chain(lines).map(inner).collect::<String>())
}

fn look(drawn: &Drawn) -> String {
    let fill = match drawn.colour {
        Colour::Own => "#dbeafe",
        Colour::Inherited => "#dcfce7",
        Colour::NoKinds => "#e2e8f0",
        Colour::Undeclared => "#ffffff",
    };
    let dotted = if drawn.colour == Colour::Undeclared { ", style=\"filled,dotted\"" } else { "" };
    let marked = |mark: Mark| drawn.lines.iter().any(|line| line.mark == mark);
    let edge = if marked(Mark::Refused) {
        ", color=\"#b91c1c\", penwidth=3"
    } else if marked(Mark::Kept) {
        ", color=\"#d97706\", penwidth=3"
    } else {
        ""
    };
    format!(", fillcolor=\"{fill}\"{dotted}{edge}")
}
