//! The relations of a pack as a picture: boxes, and arrows to sources and along paths. `grid` says where they stand, `svg`
//! and `dot` write them.

mod dot;
mod grid;
mod svg;

pub use svg::escaped;

use crate::accepted::Accepted;
use crate::args::{Args, Done};
use crate::chains::{ring_of, whose};
use crate::commands::given;
use crate::held::{Findings, facts, find};
use crate::layout::slots_text;
use crate::nodes;
use crate::pack::Relation;
use crate::tell;
use crate::trouble::Outcome;
use crate::why::{Becomes, Reason};
use std::collections::HashMap;

pub fn run(args: &Args) -> Outcome<Done> {
    let accepted = given(args)?;
    let facts = facts(&accepted)?;
    let found = find(&accepted, &facts)?;
    let drawing = drawing(&accepted, &found);
    Ok(Done::text(if args.has("--dot") { dot::write(&drawing) } else { svg::write(&drawing, true) }))
}

/// The picture inside a page, which says itself what it is of.
pub fn picture(accepted: &Accepted, found: &Findings) -> String {
    svg::write(&drawing(accepted, found), false)
}

pub struct Drawing {
    pub title: String,
    pub boxes: Vec<Drawn>,
    pub arrows: Vec<Arrow>,
}

/// A relation, or a name that is used as one and not declared.
pub struct Drawn {
    pub title: String,
    pub colour: Colour,
    pub lines: Vec<Line>,
}

#[derive(Clone, Copy, PartialEq, Eq)]
pub enum Colour {
    Own,
    Inherited,
    NoKinds,
    Undeclared,
}

pub struct Line {
    pub text: String,
    pub mark: Mark,
}

#[derive(Clone, Copy, PartialEq, Eq)]
pub enum Mark {
    Plain,
    Kept,
    Refused,
}

/// From a derived relation to what it comes from; both are indexes of boxes.
pub struct Arrow {
    pub from: usize,
    pub to: usize,
    pub sort: Sort,
}

#[derive(Clone, Copy, PartialEq, Eq)]
pub enum Sort {
    Source,
    /// A source in a ring of sources.
    Ring,
    Path,
}

/// How many nodes are listed on a box.
const LISTED: usize = 6;

fn drawing(accepted: &Accepted, found: &Findings) -> Drawing {
    let pack = &accepted.pack;
    let mut names: Vec<u32> = pack.relations.iter().map(|relation| relation.name).collect();
    let mut index: HashMap<u32, usize> = names.iter().enumerate().map(|(i, &name)| (name, i)).collect();
    let mut known = |name: u32| {
        *index.entry(name).or_insert_with(|| {
            names.push(name);
            names.len() - 1
        })
    };
    let mut arrows = vec![];
    for (from, relation) in pack.relations.iter().enumerate() {
        let Some(d) = &relation.derivation else { continue };
        if let Some(source) = d.source {
            let ring = !ring_of(accepted, found.facts, relation.name).is_empty();
            arrows.push(Arrow { from, to: known(source), sort: if ring { Sort::Ring } else { Sort::Source } });
        }
        for step in d.path.iter().flatten() {
            arrows.push(Arrow { from, to: known(step.relation), sort: Sort::Path });
        }
    }
    for reason in &found.reasons {
        known(reason.tree.value);
    }
    let boxes = names.iter().map(|&name| drawn(accepted, found, name)).collect();
    Drawing { title: title(accepted, found), boxes, arrows }
}

fn title(accepted: &Accepted, found: &Findings) -> String {
    let count = |what| found.reasons.iter().filter(|reason| reason.becomes() == what).count();
    let counts = [(Becomes::Turned, "turned"), (Becomes::Kept, "kept"), (Becomes::Refused, "refused")];
    let said: Vec<String> = counts.iter().map(|&(what, word)| format!("{} {word}", count(what))).collect();
    let relations = accepted.pack.relations.len();
    format!(
        "{}: {relations} relations, {} nodes with slots: {}",
        accepted.input.file,
        found.reasons.len(),
        said.join(", ")
    )
}

fn drawn(accepted: &Accepted, found: &Findings, name: u32) -> Drawn {
    let facts = found.facts;
    let plain = |text: String| Line { text, mark: Mark::Plain };
    let (colour, mut lines) = match facts.find(&accepted.pack, name) {
        None => (Colour::Undeclared, vec![plain("not declared".into())]),
        Some(relation) => {
            let colour = match facts.settled(name) {
                Some(settled) if settled.owner == name => Colour::Own,
                Some(_) => Colour::Inherited,
                None => Colour::NoKinds,
            };
            (colour, about(accepted, found, relation).into_iter().map(plain).collect())
        }
    };
    lines.extend(node_lines(accepted, found, name));
    Drawn { title: accepted.show(name), colour, lines }
}

/// What the box of a relation says of it.
fn about(accepted: &Accepted, found: &Findings, relation: &Relation) -> Vec<String> {
    let naming = &accepted.input.naming;
    let kinds = found.facts.kinds(relation.name);
    let mut lines = vec![kinds.map_or("no kinds".into(), |kinds| naming.list(kinds))];
    if kinds.is_none() || relation.derivation.is_some() {
        let whose = whose(accepted, found.facts, relation);
        lines.push(whose.split(": ").next().unwrap_or("").to_string());
    }
    let Some(d) = &relation.derivation else { return lines };
    let defaulted = if accepted.pack.defaulted.contains(&relation.name) { ", defaulted" } else { "" };
    lines.push(format!("slots {}{defaulted}", slots_text(d.slots)));
    if let Some(entity) = d.entity {
        lines.push(format!("entity {}", accepted.show(entity)));
    }
    if let Some(path) = &d.path {
        let step = |step: &crate::pack::Step| format!("{} {}", accepted.show(step.relation), slots_text(step.slots));
        lines.push(format!("path ({})", path.iter().map(step).collect::<Vec<_>>().join(", ")));
    }
    lines
}

/// The nodes that run over a relation, refused and kept ones first.
fn node_lines(accepted: &Accepted, found: &Findings, name: u32) -> Vec<Line> {
    let rank = |reason: &&Reason| match reason.becomes() {
        Becomes::Refused => 0,
        Becomes::Kept => 1,
        _ => 2,
    };
    let mut over: Vec<&Reason> = found.reasons.iter().filter(|reason| reason.tree.value == name).collect();
    over.sort_by_key(rank);
    let mut lines: Vec<Line> = over.iter().take(LISTED).map(|reason| node_line(accepted, reason)).collect();
    if over.len() > LISTED {
        let kept = over[LISTED..].iter().filter(|reason| rank(reason) < 2).count();
        let (marked, mark) = if kept > 0 {
            (format!(", {kept} of them kept or refused"), Mark::Kept)
        } else {
            (String::new(), Mark::Plain)
        };
        lines.push(Line { text: format!("and {} more nodes{marked}", over.len() - LISTED), mark });
    }
    lines
}

fn node_line(accepted: &Accepted, reason: &Reason) -> Line {
    let written = reason.tree.slots.unwrap_or(reason.slots);
    let slots = match reason.becomes() {
        Becomes::Turned => format!("{} to {}", slots_text(written), slots_text(reason.slots)),
        _ => slots_text(written),
    };
    let mark = match reason.becomes() {
        Becomes::Kept => Mark::Kept,
        Becomes::Refused => Mark::Refused,
        _ => Mark::Plain,
    };
    let word = nodes::word_of(reason.tree.kind);
    Line { text: format!("{} {slots}: {word} in {}", tell::becomes(reason), accepted.show(reason.citing.name)), mark }
}
