//! The way that leads from one name to another, over sources and steps of paths, held to the library's Lean.

use crate::accepted::Accepted;
use crate::pack::{Pack, Relation};
use crate::trouble::{Outcome, disagreement};
use std::collections::VecDeque;
use std::collections::hash_map::{Entry, HashMap};

/// One move from a relation to a name that its derivation leads to.
#[derive(Clone, Copy, Debug, PartialEq, Eq)]
pub struct Move {
    pub from: u32,
    pub to: u32,
    pub by: By,
}

#[derive(Clone, Copy, Debug, PartialEq, Eq)]
pub enum By {
    Source,
    Step,
}

/// To the source, then over the steps of the path.
pub fn moves(relation: &Relation) -> impl Iterator<Item = Move> {
    let to = move |by| move |to| Move { from: relation.name, to, by };
    relation.derivation.iter().flat_map(move |d| {
        let steps = d.path.iter().flatten().map(|step| step.relation);
        d.source.into_iter().map(to(By::Source)).chain(steps.map(to(By::Step)))
    })
}

/// A shortest way of one move or more, whatever lists stand beside it. Each name is entered once.
pub fn way(pack: &Pack, from: u32, to: u32) -> Option<Vec<Move>> {
    let index: HashMap<u32, &Relation> = pack.relations.iter().map(|relation| (relation.name, relation)).collect();
    // The move that reached each name first.
    let mut first: HashMap<u32, Move> = HashMap::new();
    let mut open = VecDeque::from([from]);
    while let Some(name) = open.pop_front() {
        for next in index.get(&name).into_iter().flat_map(|relation| moves(relation)) {
            if let Entry::Vacant(entry) = first.entry(next.to) {
                entry.insert(next);
                open.push_back(next.to);
            }
        }
    }
    let mut back = vec![*first.get(&to)?];
    while let Some(last) = back.last().filter(|last| last.from != from) {
        back.push(*first.get(&last.from)?);
    }
    back.reverse();
    Some(back)
}

/// Holds a way, or that there is none, to what Lean answers. Where they are not the same, nothing is to be believed.
pub fn compare(way: Option<&[Move]>, leans: bool) -> Result<(), String> {
    match (way, leans) {
        (Some(_), true) | (None, false) => Ok(()),
        (Some(_), false) => Err("Lean says no, and a way was worked out".into()),
        (None, true) => Err("Lean says yes, and no way was worked out".into()),
    }
}

/// The way from one name to another, where the library says that there is one.
pub fn find(pack: &Pack, from: u32, to: u32, leans: bool) -> Outcome<Option<Vec<Move>>> {
    let way = way(pack, from, to);
    compare(way.as_deref(), leans).map_err(disagreement)?;
    Ok(way)
}

/// The moves in words.
pub fn told(accepted: &Accepted, way: &[Move]) -> String {
    let tell = |&Move { from, to, by }: &Move| {
        let by = if by == By::Source { "the source" } else { "a path with a step over" };
        format!("{} has {by} {}", accepted.show(from), accepted.show(to))
    };
    let Some((last, before)) = way.split_last() else { return String::new() };
    let undeclared = if accepted.pack.find(last.to).is_none() { ", which is not declared" } else { "" };
    let before = before.iter().map(|link| tell(link) + ", ").collect::<String>();
    let and = if before.is_empty() { "" } else { "and " };
    format!("{before}{and}{}{undeclared}", tell(last))
}
