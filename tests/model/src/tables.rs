//! The filtered tables: direct, innermost, alias, unresolved.

use crate::faults::{Fault::*, mistaken};
use crate::read::Reading;
use crate::records::NONE;
use crate::{Outcome, fits};
use std::collections::BTreeSet;

/// An entry for every name.
#[derive(Debug, PartialEq)]
pub struct Tables {
    pub direct: Vec<u32>,
    pub innermost: Vec<u32>,
    pub alias: Vec<u32>,
    pub unresolved: Vec<u32>,
}

impl Reading {
    /// The effective kind at a slot of a relation, where it is in range.
    pub(crate) fn kind_at(&self, relation: u32, slot: u32) -> Option<u32> {
        self.effective_kinds(relation)?.names.get(slot as usize).copied()
    }

    pub fn tables(&self) -> Tables {
        // For each entity whether some derivation names it, and the kinds that it takes.
        let mut named = vec![false; self.pack.n as usize];
        let mut taken = vec![vec![]; self.pack.n as usize];
        for relation in &self.pack.relations {
            let Some(d) = relation.derived.as_ref().filter(|d| d.entity != NONE) else { continue };
            named[d.entity as usize] = true;
            let slot = if mistaken(RelatedTaken) { d.related_slot } else { d.current_slot };
            taken[d.entity as usize].extend(self.kind_at(relation.name, slot));
        }
        let one = |kinds: &Vec<u32>| kinds.iter().all(|kind| *kind == kinds[0]);
        let direct = |kinds: &Vec<u32>| match kinds.first() {
            Some(&kind) if one(kinds) || mistaken(FirstKindWins) => kind,
            _ => NONE,
        };
        let direct: Vec<u32> = taken.iter().map(direct).collect();
        let alias = |(kinds, entity): (&Vec<u32>, u32)| {
            kinds.iter().any(|&kind| kind != entity || mistaken(AliasOfSelf)).into()
        };
        let unresolved = |(kinds, named): (&Vec<u32>, bool)| {
            (named && (kinds.is_empty() || !one(kinds) && mistaken(UnresolvedConflict))).into()
        };
        Tables {
            innermost: (0..self.pack.n).map(|entity| innermost(&direct, entity)).collect(),
            alias: taken.iter().zip(0..).map(alias).collect(),
            unresolved: taken.iter().zip(named).map(unresolved).collect(),
            direct,
        }
    }

    fn table(&self, room: usize, table: fn(Tables) -> Vec<u32>) -> Outcome<Vec<u32>> {
        fits(self.pack.n as usize, room)?;
        Ok(table(self.tables()))
    }

    pub fn direct(&self, room: usize) -> Outcome<Vec<u32>> {
        self.table(room, |tables| tables.direct)
    }

    pub fn innermost(&self, room: usize) -> Outcome<Vec<u32>> {
        self.table(room, |tables| tables.innermost)
    }

    pub fn alias(&self, room: usize) -> Outcome<Vec<u32>> {
        self.table(room, |tables| tables.alias)
    }

    pub fn unresolved(&self, room: usize) -> Outcome<Vec<u32>> {
        self.table(room, |tables| tables.unresolved)
    }
}

/// Where direct leads from an entity.
fn innermost(direct: &[u32], entity: u32) -> u32 {
    if direct[entity as usize] == NONE {
        return NONE;
    }
    let mut passed = BTreeSet::new();
    let mut at = entity;
    while passed.insert(at) {
        let next = direct[at as usize];
        if next == NONE || next == at && !mistaken(SelfRing) {
            return at;
        }
        at = next;
    }
    // A ring, or what leads there.
    if mistaken(FeedersKeep) && at != entity { at } else { NONE }
}
