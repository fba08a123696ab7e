//! Whose kinds a relation has, and why it has none, in sentences.

use crate::accepted::Accepted;
use crate::facts::Facts;
use crate::pack::Relation;

/// Where the kinds of a relation come from.
pub fn whose(accepted: &Accepted, facts: &Facts, relation: &Relation) -> String {
    let Some(settled) = facts.settled(relation.name) else { return no_kinds(accepted, facts, relation) };
    let list = if settled.derived { "the kinds of its derivation" } else { "its own slots" };
    if settled.owner == relation.name {
        return list.to_string();
    }
    let moves = way(facts, accepted, relation.name).0.iter().position(|&name| name == settled.owner).unwrap_or(0);
    let owner = accepted.show(settled.owner);
    let of = if settled.derived { "the kinds of the derivation" } else { "the slots" };
    match moves {
        1 => format!("{of} of {owner}, its source"),
        _ => format!("{of} of {owner}, {moves} sources away"),
    }
}

/// Where a walk over sources ends.
enum End {
    List,
    Path(u32),
    NoSource(u32),
    NothingListed(u32),
    Undeclared(u32),
    Ring(u32),
}

/// The names that the walk from a relation reads, and how it ends.
fn way(facts: &Facts, accepted: &Accepted, name: u32) -> (Vec<u32>, End) {
    let mut names = vec![];
    let mut next = name;
    loop {
        if names.contains(&next) {
            return (names, End::Ring(next));
        }
        names.push(next);
        let Some(relation) = facts.find(&accepted.pack, next) else { return (names, End::Undeclared(next)) };
        let end = match &relation.derivation {
            Some(d) if !d.kinds.names.is_empty() => End::List,
            _ if !relation.kinds.names.is_empty() => End::List,
            None => End::NothingListed(next),
            Some(d) if d.path.is_some() => End::Path(next),
            Some(d) => match d.source {
                Some(source) => {
                    next = source;
                    continue;
                }
                None => End::NoSource(next),
            },
        };
        return (names, end);
    }
}

fn no_kinds(accepted: &Accepted, facts: &Facts, relation: &Relation) -> String {
    let (names, end) = way(facts, accepted, relation.name);
    let show = |name: u32| accepted.show(name);
    let source = relation.derivation.as_ref().and_then(|d| d.source);
    let subject = |name: u32| match name {
        _ if name == relation.name => "it".to_string(),
        _ if Some(name) == source => format!("its source {}", show(name)),
        _ => format!("{}, which its sources lead to,", show(name)),
    };
    match end {
        End::List => "none".into(),
        End::Path(name) => format!("{} has a path, and a path gives no kinds", subject(name)),
        End::NoSource(name) => format!("{} lists none and has no source", subject(name)),
        End::NothingListed(name) => format!("{} lists none", subject(name)),
        End::Undeclared(name) => format!("{} is not declared", subject(name)),
        End::Ring(first) => {
            let ring = names.iter().skip_while(|&&name| name != first).chain([&first]);
            let ring = ring.map(|&name| show(name)).collect::<Vec<_>>().join(" from ");
            let it = if first == relation.name { "it stands in" } else { "its sources lead into" };
            format!("{it} a ring of sources: {ring}")
        }
    }
}

/// The names of a ring of sources that a relation stands in, itself first; paths and lists do not matter. Empty without one.
pub fn ring_of(accepted: &Accepted, facts: &Facts, name: u32) -> Vec<u32> {
    let source = |name: u32| facts.find(&accepted.pack, name)?.derivation.as_ref()?.source;
    let mut ring = vec![name];
    let mut next = name;
    while let Some(source) = source(next) {
        if source == name {
            return ring;
        }
        if ring.contains(&source) {
            break;
        }
        ring.push(source);
        next = source;
    }
    vec![]
}
