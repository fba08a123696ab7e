//! Relations by chance.

use super::{Form, Making};
use crate::records::{Derivation, NONE, Relation};

impl Making<'_> {
    fn list(&mut self) -> Vec<u32> {
        let length = self.r.one(&[2, 2, 2, 2, 2, 2, 2, 2, 2, 2, 1, 3, 3, 4, 5, 6, 7, 8]);
        if length == 2 {
            let a = self.kind();
            if self.r.below(16) < self.twins {
                return vec![a, a];
            }
            let b = self.kind();
            return if a != b { vec![a, b] } else { vec![a, self.kind()] };
        }
        (0..length).map(|_| self.kind()).collect()
    }

    fn slots(&mut self) -> (u32, u32) {
        match self.r.below(12) {
            0..=4 => (0, 1),
            5..=8 => (1, 0),
            9 => (0, 0),
            _ => (self.slot(), self.slot()),
        }
    }

    fn derivation(&mut self, source: u32) -> Derivation {
        let (current_slot, related_slot) = self.slots();
        Derivation {
            source,
            path: None,
            current_slot,
            related_slot,
            entity: if self.r.once(3) { self.kind() } else { NONE },
            member: if self.r.once(6) { self.name() } else { NONE },
            kinds: vec![],
            predicate: self.predicate(),
        }
    }

    fn relation(&mut self, name: u32, kinds: Vec<u32>, derived: Option<Derivation>) -> Relation {
        let arity = if self.r.once(6) { self.slot() } else { kinds.len() as u32 };
        Relation { name, origin: self.origin(name), arity, kinds, derived }
    }

    /// A relation whose kinds are settled by itself, or that has none.
    fn settled(&mut self, name: u32) -> Relation {
        let kinds = if self.r.once(9) { vec![] } else { self.list() };
        match self.r.below(10) {
            0..=5 => self.relation(name, kinds, None),
            6 => {
                let mut d = self.derivation(NONE);
                d.source = if self.r.once(2) { self.name() } else { NONE };
                d.kinds = self.list();
                let own = if self.r.once(3) { kinds } else { vec![] };
                self.relation(name, own, Some(d))
            }
            7 => {
                // A path, empty or not, with a source or without one.
                let mut d = self.derivation(NONE);
                d.source = if self.r.once(2) { self.relation_name() } else { NONE };
                let steps = self.r.one(&[0, 0, 0, 1, 2, 8]);
                d.path = Some((0..steps).map(|_| [self.relation_name(), self.slot(), self.slot()]).collect());
                d.kinds = if self.r.once(3) { self.list() } else { vec![] };
                let own = if self.r.once(4) { kinds } else { vec![] };
                self.relation(name, own, Some(d))
            }
            8 => {
                // An undeclared source, or none at all.
                let source = if self.r.once(2) { self.name() } else { NONE };
                let d = self.derivation(source);
                self.relation(name, vec![], Some(d))
            }
            _ => {
                let source = self.name();
                let d = self.derivation(source);
                self.relation(name, kinds, Some(d))
            }
        }
    }

    fn inheriting(&mut self, name: u32, source: u32) -> Relation {
        let d = self.derivation(source);
        self.relation(name, vec![], Some(d))
    }

    /// Relations by graph shapes: settled ones, chains, rings with feeders, shared tails.
    pub fn graph(&mut self, mut names: Vec<u32>) -> Vec<Relation> {
        let (longest, longest_ring) = if self.form == Form::Tangled { (40, 20) } else { (6, 4) };
        let mut out: Vec<Relation> = vec![];
        while let Some(name) = names.pop() {
            let shape = self.r.below(10);
            let first = out.len();
            match shape {
                0..=3 => out.push(self.settled(name)),
                4 | 5 => {
                    // A chain, from a settled relation, an undeclared name or any relation.
                    let mut before = name;
                    match self.r.below(4) {
                        0 => before = self.name(),
                        1 => before = self.relation_name(),
                        _ => out.push(self.settled(name)),
                    }
                    let length = 1 + self.r.below(longest);
                    for _ in 0..length {
                        let Some(next) = names.pop() else { break };
                        out.push(self.inheriting(next, before));
                        before = next;
                    }
                }
                6 | 7 => {
                    // A ring and what feeds it.
                    let length = self.r.below(longest_ring);
                    let mut before = name;
                    for _ in 0..length {
                        let Some(next) = names.pop() else { break };
                        out.push(self.inheriting(next, before));
                        before = next;
                    }
                    out.push(self.inheriting(name, before));
                    let feeders = self.r.below(3);
                    for _ in 0..feeders {
                        let Some(feeder) = names.pop() else { break };
                        let into = out[first + self.r.below((out.len() - first) as u32) as usize].name;
                        out.push(self.inheriting(feeder, into));
                    }
                }
                _ => {
                    // A shared tail.
                    out.push(self.settled(name));
                    let many = 1 + self.r.below(4);
                    for _ in 0..many {
                        let Some(next) = names.pop() else { break };
                        out.push(self.inheriting(next, name));
                    }
                }
            }
        }
        out
    }

    /// Derivations that lead from filtered entity to filtered entity.
    pub fn filters(&mut self, relations: &mut [Relation]) {
        let kinds = self.kinds.clone();
        let shape = self.r.below(4);
        let mut at = 0;
        for r in relations {
            let Some(d) = &mut r.derived else { continue };
            if d.kinds.is_empty() && self.r.once(2) {
                continue;
            }
            let next = (at + 1) % kinds.len();
            d.entity = kinds[at % kinds.len()];
            d.current_slot = 0;
            match shape {
                // A chain or a ring of entities, each filtering the next.
                0 => d.kinds = vec![kinds[next], d.entity],
                1 => d.kinds = vec![kinds[(at + 1).min(kinds.len() - 1)], kinds[0]],
                // One entity, whose kinds agree or not.
                2 => {
                    d.entity = kinds[0];
                    d.kinds = vec![if self.r.once(4) { kinds[0] } else { kinds[kinds.len() - 1] }, kinds[0]];
                }
                _ => {}
            }
            at += 1;
        }
    }

    /// Derivations for Lean: sources and steps of paths that lead on to names near by, now and then back or to any name;
    /// paths of none to eight steps, with a source and without one, with lists and without; relations where the way ends.
    pub fn paths(&mut self, names: Vec<u32>) -> Vec<Relation> {
        // How often a way ends and how often it leads elsewhere than on, in hundredths; how far on it leads at most.
        let (ends, astray, far) = (2 + self.r.below(40), self.r.below(12), 1 + self.r.below(6));
        let mut out: Vec<Relation> = vec![];
        for (i, &name) in names.iter().enumerate() {
            let next = |m: &mut Self| {
                let on = i + 1 + m.r.below(far) as usize;
                if m.r.often(astray) { m.name() } else { names.get(on).copied().unwrap_or_else(|| m.name()) }
            };
            if self.r.often(ends) {
                let kinds = self.list();
                let relation = self.relation(name, kinds, None);
                out.push(relation);
                continue;
            }
            let source = if self.r.once(2) { next(self) } else { NONE };
            let mut d = self.derivation(source);
            if !self.r.once(3) {
                let steps = self.r.one(&[0, 1, 1, 2, 2, 3, 8]);
                d.path = Some((0..steps).map(|_| [next(self), self.slot(), self.slot()]).collect());
            }
            d.kinds = if self.r.once(4) { self.list() } else { vec![] };
            let kinds = if self.r.once(5) { self.list() } else { vec![] };
            let relation = self.relation(name, kinds, Some(d));
            out.push(relation);
        }
        out
    }

    /// Derivations for the filtered tables: entities that take no kind, one, one more than once and several; kinds that lead
    /// on, stay and go round; slots in and out of range; derivations without an entity.
    pub fn entities(&mut self, names: Vec<u32>) -> Vec<Relation> {
        // How often an entity is another name than the relation's, and the like.
        let astray = self.r.below(60);
        let mut out: Vec<Relation> = vec![];
        for name in names {
            let entity = if self.r.often(astray) { self.name() } else { name };
            // Kinds near by make long ways, any others rings and shared tails.
            let kind = match self.r.below(20) {
                0 => entity,
                1 | 2 => self.name(),
                _ if entity + 1 < self.n => entity + 1,
                _ => self.name(),
            };
            let count = 1 + self.r.below(8);
            let slot = self.r.below(count);
            let list: Vec<u32> = (0..count).map(|i| if i == slot { kind } else { self.name() }).collect();
            let mut d = self.derivation(NONE);
            d.current_slot = if self.r.often(astray / 4) { self.slot() } else { slot };
            d.entity = if self.r.often(95) { entity } else { NONE };
            let mut kinds = vec![];
            match out.last() {
                Some(before) if self.r.often(astray / 2) => d.source = before.name,
                _ if self.r.often(astray / 6) => d.source = self.name(),
                _ if self.r.once(2) => kinds = list,
                _ => {
                    d.kinds = list;
                    d.source = self.name();
                }
            }
            let relation = self.relation(name, kinds, Some(d));
            out.push(relation);
        }
        out
    }
}
