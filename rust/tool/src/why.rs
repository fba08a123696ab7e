//! Why each node with slots runs the way it does: the reasons, worked out once more from the pack and from the kinds and
//! tables that the library answers. `held` compares them with what Resolve wrote.

use crate::facts::Facts;
use crate::nodes;
use crate::pack::*;
use cogunwa::Refusal;

/// A node with slots, and what becomes of it.
pub struct Reason<'a> {
    pub citing: Citing,
    pub tree: &'a Tree,
    pub entity: Entity,
    pub why: Why,
    /// The slots that it runs by; those that were written where it is kept or refused.
    pub slots: Slots,
    /// The kind at the related slot, if it is known.
    pub related: Option<u32>,
    pub refused: Option<Refusal>,
}

/// The rule or relation that a tree belongs to.
#[derive(Clone, Copy, Debug, PartialEq, Eq)]
pub struct Citing {
    /// Its index among the rules or relations.
    pub index: usize,
    pub is_rule: bool,
    pub name: u32,
    pub origin: Option<u32>,
}

/// What a tree runs on, and where that comes from. The name is 0 where it is not known.
#[derive(Clone, Copy, Debug)]
pub struct Entity {
    pub name: u32,
    pub known: bool,
    pub from: From,
}

#[derive(Clone, Copy, Debug, PartialEq, Eq)]
pub enum From {
    Rule,
    Predicate,
    Where,
}

#[derive(Clone, Copy, Debug, PartialEq, Eq)]
pub enum Why {
    /// The relation is derived and supplies its own slots.
    Derived,
    /// This slot alone bears the kind.
    OneBears {
        slot: u32,
        kind: u32,
    },
    BothBear {
        kind: u32,
    },
    NoneBears {
        kind: u32,
    },
    Undeclared,
    NoKinds,
    NotTwo {
        count: usize,
    },
    /// The current kind is borne by one slot alone and the related kind by the other.
    Members {
        current: u32,
        related: u32,
    },
    /// Both kinds of the predicate's relation are alike, and both slots are of that kind.
    AlikeOpen {
        kind: u32,
    },
    AlikeKept {
        kind: u32,
    },
    /// One of the two kinds is not borne by exactly one slot.
    NotEach {
        current: u32,
        related: u32,
    },
    NoMembership(Lost),
}

/// Why there is no membership to go by.
#[derive(Clone, Copy, Debug, PartialEq, Eq)]
pub enum Lost {
    InRule,
    InWhere,
    InPattern,
    InPeriods,
    /// The predicate's own relation has no kind at one of its slots.
    Unknown,
}

type Membership = Result<(u32, u32), Lost>;

#[derive(Clone, Copy, Debug, PartialEq, Eq)]
pub enum Becomes {
    Turned,
    AsWritten,
    Kept,
    Refused,
}

impl Reason<'_> {
    pub fn becomes(&self) -> Becomes {
        let settled = matches!(self.why, Why::Derived | Why::OneBears { .. } | Why::Members { .. });
        match self.tree.slots {
            _ if self.refused.is_some() => Becomes::Refused,
            _ if !settled => Becomes::Kept,
            Some(written) if written != self.slots => Becomes::Turned,
            _ => Becomes::AsWritten,
        }
    }
}

/// All nodes with slots: those of rules, then those of relations' predicates. Below an aggregate that is refused the kind
/// of its where tree is not known, so that tree is left out.
pub fn reasons<'a>(pack: &'a Pack, facts: &'a Facts) -> Vec<Reason<'a>> {
    let mut out = vec![];
    for (index, rule) in pack.rules.iter().enumerate() {
        let citing = Citing { index, is_rule: true, name: rule.name, origin: rule.origin };
        let entity = Entity { name: rule.entity, known: true, from: From::Rule };
        let mut walk = Walk { pack, facts, citing, out: &mut out };
        for body in &rule.bodies {
            walk.tree(&body.tree, entity, Err(Lost::InRule));
        }
    }
    for (index, relation) in pack.relations.iter().enumerate() {
        let Some(d) = &relation.derivation else { continue };
        let citing = Citing { index, is_rule: false, name: relation.name, origin: relation.origin };
        let [current, related] = [d.slots.current, d.slots.related].map(|slot| facts.kind_at(relation.name, slot));
        let entity = Entity { name: related.unwrap_or(0), known: related.is_some(), from: From::Predicate };
        let membership = current.zip(related).ok_or(Lost::Unknown);
        Walk { pack, facts, citing, out: &mut out }.tree(&d.predicate, entity, membership);
    }
    out
}

struct Walk<'a, 'b> {
    pack: &'a Pack,
    facts: &'a Facts,
    citing: Citing,
    out: &'b mut Vec<Reason<'a>>,
}

impl<'a> Walk<'a, '_> {
    fn tree(&mut self, tree: &'a Tree, entity: Entity, membership: Membership) {
        let mut below = entity;
        if let Some(written) = tree.slots {
            let (why, slots) = match tree.kind {
                nodes::MEMBER => self.member(tree.value, written, membership),
                _ => self.aggregate(tree.value, written, entity.name),
            };
            let kind = self.related_kind(tree.value, slots);
            let refused = self.refused(tree, why, entity, kind.unwrap_or(0));
            self.out.push(Reason { citing: self.citing, tree, entity, why, slots, related: kind, refused });
            if refused.is_some() {
                return;
            }
            below = Entity { name: kind.unwrap_or(0), known: kind.is_some(), from: From::Where };
        }
        for (i, child) in tree.children.iter().enumerate() {
            let lost = match tree.kind {
                nodes::COUNT..=nodes::SINGLE => Some(Lost::InWhere),
                nodes::NO_MATCH if i > 0 => Some(Lost::InPattern),
                nodes::PERIODS => Some(Lost::InPeriods),
                _ => None,
            };
            self.tree(child, below, lost.map_or(membership, Err));
        }
    }

    fn derived_slots(&self, relation: u32) -> Option<Slots> {
        self.facts.find(self.pack, relation)?.derivation.as_ref().map(|d| d.slots)
    }

    /// The two kinds of a typed relation, or why it is none.
    fn typed(&self, relation: u32) -> Result<[u32; 2], Why> {
        let found = self.facts.find(self.pack, relation).ok_or(Why::Undeclared)?;
        match found.kinds.names[..] {
            [first, second] => Ok([first, second]),
            [] => Err(Why::NoKinds),
            _ => Err(Why::NotTwo { count: found.kinds.names.len() }),
        }
    }

    /// The kind at the related slot, which a where tree runs on.
    fn related_kind(&self, relation: u32, slots: Slots) -> Option<u32> {
        if self.derived_slots(relation).is_some() {
            return self.facts.kind_at(relation, slots.related);
        }
        self.typed(relation).ok()?.get(slots.related as usize).copied()
    }

    fn aggregate(&self, relation: u32, written: Slots, entity: u32) -> (Why, Slots) {
        if let Some(slots) = self.derived_slots(relation) {
            return (Why::Derived, slots);
        }
        let kinds = match self.typed(relation) {
            Ok(kinds) => kinds,
            Err(why) => return (why, written),
        };
        let kind = self.facts.direct(entity).unwrap_or(entity);
        match kinds.map(|k| k == kind) {
            [true, true] => (Why::BothBear { kind }, written),
            [true, false] => (Why::OneBears { slot: 0, kind }, Slots { current: 0, related: 1 }),
            [false, true] => (Why::OneBears { slot: 1, kind }, Slots { current: 1, related: 0 }),
            [false, false] => (Why::NoneBears { kind }, written),
        }
    }

    fn member(&self, relation: u32, written: Slots, membership: Membership) -> (Why, Slots) {
        if let Some(slots) = self.derived_slots(relation) {
            return (Why::Derived, slots);
        }
        let (current, related) = match membership {
            Ok(kinds) => kinds,
            Err(lost) => return (Why::NoMembership(lost), written),
        };
        let kinds = match self.typed(relation) {
            Ok(kinds) => kinds,
            Err(why) => return (why, written),
        };
        if current == related {
            let open = kinds == [current, current];
            return (if open { Why::AlikeOpen { kind: current } } else { Why::AlikeKept { kind: current } }, written);
        }
        let slots = match kinds {
            _ if kinds == [current, related] => Slots { current: 0, related: 1 },
            _ if kinds == [related, current] => Slots { current: 1, related: 0 },
            _ => return (Why::NotEach { current, related }, written),
        };
        (Why::Members { current, related }, slots)
    }

    fn refused(&self, tree: &Tree, why: Why, entity: Entity, owner: u32) -> Option<Refusal> {
        let refusal = |number, other| Refusal { number, place: tree.place, name: self.citing.name, other };
        match why {
            Why::BothBear { .. } => return Some(refusal(10, entity.name)),
            Why::AlikeOpen { kind } => return Some(refusal(10, kind)),
            _ => {}
        }
        let asked = tree.asks?;
        let number = if asked.derived { 11 } else { self.input(asked.name, owner)? };
        Some(refusal(number, asked.name))
    }

    /// The number by which an input is refused.
    fn input(&self, name: u32, owner: u32) -> Option<u32> {
        let blocks = || self.pack.blocks.iter().filter(|block| block.origin == self.citing.origin);
        if blocks().any(|block| block.items.is_none()) {
            return Some(12);
        }
        let items = blocks().flat_map(|block| block.items.iter().flatten());
        let declared: Vec<&Item> = items.filter(|item| item.name == Some(name)).collect();
        match declared[..] {
            [item] if !item.boolean => Some(14),
            [item] if owner == 0 || item.entity != Some(owner) => Some(15),
            [_] => None,
            _ => Some(13),
        }
    }
}

/// The relations that are stamped, by index, each with whether list 9 takes the kinds too.
pub fn stamped(pack: &Pack, facts: &Facts) -> Vec<(usize, bool)> {
    let atoms = atom_targets(pack);
    let stamp = |relation: &Relation| {
        let d = relation.derivation.as_ref().filter(|d| d.kinds.names.is_empty())?;
        let bare = relation.kinds.names.is_empty();
        let roles = || d.predicate.any(&|node| matches!(node.kind, nodes::ATOM..=nodes::SAME));
        if bare && (atoms.contains(&relation.name) || roles()) {
            return None;
        }
        let kinds = facts.kinds(relation.name)?;
        let current = kinds.get(d.slots.current as usize)?;
        if kinds.get(d.slots.related as usize) == Some(current) { None } else { Some(bare) }
    };
    pack.relations.iter().enumerate().filter_map(|(i, relation)| Some((i, stamp(relation)?))).collect()
}

/// The names that atoms and Exists hold.
fn atom_targets(pack: &Pack) -> std::collections::BTreeSet<u32> {
    let mut names = std::collections::BTreeSet::new();
    for tree in pack.trees() {
        tree.visit(&mut |node| {
            if matches!(node.kind, nodes::ATOM | nodes::EXISTS) {
                names.insert(node.value);
            }
        });
    }
    names
}

/// The defaulted relation that refusal 9 names: the lowest whose current and related slot have equal kinds.
pub fn equal_kinds(pack: &Pack, facts: &Facts) -> Option<Refusal> {
    pack.defaulted.iter().find_map(|&name| {
        let relation = facts.find(pack, name)?;
        let d = relation.derivation.as_ref()?;
        let current = facts.kind_at(name, d.slots.current)?;
        let equal = facts.kind_at(name, d.slots.related) == Some(current);
        equal.then_some(Refusal { number: 9, place: relation.place, name, other: 0 })
    })
}
