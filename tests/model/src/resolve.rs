//! Resolve: a copy of the records, rewritten.

use crate::faults::{Fault::*, mistaken};
use crate::read::Reading;
use crate::records::{Block, Derivation, NONE, Pack, Relation, Tree, word};
use crate::tables::Tables;
use crate::{MOST_WORDS, Outcome, Refusal, fits};
use std::collections::BTreeSet;

impl Reading {
    /// The words of the result, and the steps.
    pub fn resolve(&self, room: usize) -> Outcome<(Vec<u32>, u32)> {
        let mut words = self.resolved()?.words();
        if mistaken(OldTotal) {
            words[0] = word(1, self.pack.words().len() as u32);
        }
        let needs = if mistaken(RoomOfPack) { self.pack.words().len() } else { words.len() };
        fits(needs, room.min(MOST_WORDS))?;
        Ok((words, self.steps()))
    }

    /// The records with slots and lists as Resolving leaves them.
    fn resolved(&self) -> Outcome<Pack> {
        let resolving = Resolving { reading: self, tables: self.tables() };
        let mut pack = self.pack.clone();
        if !mistaken(DefaultedLast) {
            resolving.defaulted()?;
        }
        if mistaken(RelationsFirst) {
            resolving.predicates(&mut pack)?;
            resolving.rules(&mut pack)?;
        } else {
            resolving.rules(&mut pack)?;
            resolving.predicates(&mut pack)?;
        }
        if mistaken(DefaultedLast) {
            resolving.defaulted()?;
        }
        resolving.stamp(&mut pack);
        Ok(pack)
    }
}

struct Resolving<'r> {
    reading: &'r Reading,
    tables: Tables,
}

/// The rule or relation that a tree stands in.
#[derive(Clone, Copy)]
struct Citing {
    name: u32,
    origin: u32,
}

/// The current and the related kind, where a tree has membership.
type Membership = Option<(Option<u32>, Option<u32>)>;

/// The current and the related slot.
type Slots = (u32, u32);

/// The slots that bear a kind.
fn bearing(kinds: &[u32], kind: u32) -> Vec<u32> {
    (0..).zip(kinds).filter(|&(_, &k)| k == kind).map(|(slot, _)| slot).collect()
}

/// 1 - slot. Only with a mistake is a slot above 1.
fn opposite(slot: u32) -> u32 {
    1u32.wrapping_sub(slot) % (1 << 24)
}

impl Resolving<'_> {
    fn relation(&self, name: u32) -> Option<&Relation> {
        self.reading.declared(name).map(|index| &self.reading.pack.relations[index])
    }

    /// The kinds of a relation without derivation and with exactly two slot kinds.
    fn typed(&self, name: u32) -> Option<&[u32]> {
        let relation = self.relation(name).filter(|relation| relation.derived.is_none())?;
        let two = relation.kinds.len() == 2 || mistaken(AnyArity) && !relation.kinds.is_empty();
        two.then_some(&relation.kinds)
    }

    fn derived(&self, name: u32) -> Option<&Derivation> {
        self.relation(name)?.derived.as_ref()
    }

    /// The kinds at a derivation's slots.
    fn slot_kinds(&self, name: u32, d: &Derivation) -> (Option<u32>, Option<u32>) {
        (self.reading.kind_at(name, d.current_slot), self.reading.kind_at(name, d.related_slot))
    }

    // ---- 1: defaulted names

    fn defaulted(&self) -> Outcome<()> {
        let pack = &self.reading.pack;
        let mut names = pack.defaulted.clone();
        if mistaken(DefaultedInOrder) {
            let is_defaulted = |name: &u32| pack.defaulted.contains(name);
            names = pack.relations.iter().map(|relation| relation.name).filter(is_defaulted).collect();
        }
        for name in names {
            let Some(index) = self.reading.declared(name) else { continue };
            let equal = match self.derived(name).map(|d| self.slot_kinds(name, d)) {
                Some((Some(current), Some(related))) => current == related,
                Some(_) => false,
                None => mistaken(DefaultedNotDerived) && self.typed(name).is_some_and(|kinds| kinds[0] == kinds[1]),
            };
            if equal {
                return Err(Refusal { number: 9, place: self.reading.places.relations[index].name, name, other: 0 });
            }
        }
        Ok(())
    }

    // ---- 2 and 3: rules and predicates

    fn rules(&self, pack: &mut Pack) -> Outcome<()> {
        for (rule, roots) in pack.rules.iter_mut().zip(&self.reading.places.bodies) {
            let citing = Citing { name: rule.name, origin: rule.origin };
            let bodies = if mistaken(FirstBodyOnly) { 1 } else { rule.bodies.len() };
            for (body, &root) in rule.bodies.iter_mut().zip(roots).take(bodies) {
                self.tree(body, root, citing, rule.entity, None)?;
            }
        }
        Ok(())
    }

    fn predicates(&self, pack: &mut Pack) -> Outcome<()> {
        for (relation, placed) in pack.relations.iter_mut().zip(&self.reading.places.relations) {
            let citing = Citing { name: relation.name, origin: relation.origin };
            let Some(d) = &mut relation.derived else { continue };
            let (current, related) = self.slot_kinds(relation.name, d);
            let entity = if mistaken(PredicateCurrent) { current } else { related };
            self.tree(&mut d.predicate, placed.predicate, citing, entity.unwrap_or(0), Some((current, related)))?;
        }
        Ok(())
    }

    /// Resolves the tree whose root stands at a place; answers the place after it.
    fn tree(
        &self,
        node: &mut Tree,
        place: usize,
        citing: Citing,
        entity: u32,
        membership: Membership,
    ) -> Outcome<usize> {
        // What the children have: of NoMatch the subject, the patterns as told below.
        let (mut inner, mut kept) = (entity, membership);
        match node.kind {
            72 if mistaken(SubjectLosesMembership) => kept = None,
            73 if !mistaken(PeriodsMembership) => kept = None,
            74..=78 => {
                let (slots, kind) = self.aggregate(node, place, citing, entity)?;
                set_slots(node, slots);
                if node.kind == 78 {
                    self.only_related(node, place, citing, kind)?;
                }
                inner = if mistaken(WhereEntity) { entity } else { kind };
                kept = if mistaken(WhereMembership) { membership } else { None };
            }
            101 => {
                let slots = self.member(node, place, citing, membership)?;
                set_slots(node, slots);
            }
            103 if mistaken(ExistsLosesMembership) => kept = None,
            _ => {}
        }
        let mut at = place + 1 + node.fields.len();
        for child in &mut node.children {
            at = self.tree(child, at, citing, inner, kept)?;
            if node.kind == 72 {
                kept = if mistaken(PatternMembership) { membership } else { None };
            }
        }
        Ok(at)
    }

    /// The slots of an aggregate, and the kind that results, or 0.
    fn aggregate(&self, node: &Tree, place: usize, citing: Citing, entity: u32) -> Outcome<(Slots, u32)> {
        let written = slots(node);
        if let Some(d) = self.derived(node.value) {
            let (_, related) = self.slot_kinds(node.value, d);
            let slots = if mistaken(SlotsKept) { written } else { (d.current_slot, d.related_slot) };
            return Ok((slots, related.unwrap_or(0)));
        }
        let Some(kinds) = self.typed(node.value) else { return Ok((written, 0)) };
        let table = if mistaken(InnermostForDirect) { &self.tables.innermost } else { &self.tables.direct };
        let stands_for = match table[entity as usize] {
            NONE => entity,
            _ if mistaken(EntityAlone) => entity,
            kind => kind,
        };
        let slots = match bearing(kinds, stands_for)[..] {
            [_, _] if mistaken(TwoMatchesKept) => written,
            [current] => (current, opposite(current)),
            [current, ..] if mistaken(FirstMatch) => (current, opposite(current)),
            [_, _] => {
                let other = if mistaken(OtherDirect) { stands_for } else { entity };
                return Err(Refusal { number: 10, place, name: citing.name, other });
            }
            [] if mistaken(UnmatchedNoKind) => return Ok((written, 0)),
            [] if mistaken(UnmatchedTurned) => (written.1, written.0),
            _ => written,
        };
        Ok((slots, kinds.get(slots.1 as usize).copied().unwrap_or(0)))
    }

    fn member(&self, node: &Tree, place: usize, citing: Citing, membership: Membership) -> Outcome<Slots> {
        let written = slots(node);
        if let Some(d) = self.derived(node.value) {
            return Ok(if mistaken(MemberSlotsKept) { written } else { (d.current_slot, d.related_slot) });
        }
        let Some((Some(current), Some(related))) = membership else { return Ok(written) };
        let Some(kinds) = self.typed(node.value) else { return Ok(written) };
        let (first, second) = (bearing(kinds, current), bearing(kinds, related));
        if current == related {
            if first.len() == kinds.len() || mistaken(EqualAny) && !first.is_empty() {
                return Err(Refusal { number: 10, place, name: citing.name, other: current });
            }
            return Ok(written);
        }
        Ok(match (&first[..], &second[..]) {
            (&[current], &[related]) if !mistaken(OneBorne) => (current, related),
            (&[current], _) if mistaken(OneBorne) => (current, opposite(current)),
            _ => written,
        })
    }

    fn only_related(&self, node: &Tree, place: usize, citing: Citing, owner: u32) -> Outcome<()> {
        let (kind, name) = node.fields[2];
        let refused = |number| Err(Refusal { number, place, name: citing.name, other: name });
        if kind == 84 {
            return if mistaken(DerivedPasses) { Ok(()) } else { refused(11) };
        }
        let cited = |block: &&Block| {
            let none = citing.origin == NONE && mistaken(NoneOfNoOrigin);
            block.origin == citing.origin && !none || mistaken(AnyOrigin)
        };
        let blocks: Vec<&Block> = self.reading.pack.blocks.iter().filter(cited).collect();
        if blocks.iter().any(|block| block.items.is_none()) && !mistaken(NoSequencePasses) {
            return refused(12);
        }
        let items = blocks.iter().flat_map(|block| block.items.iter().flatten());
        let declarations: Vec<_> = items.filter(|item| item.name == name).collect();
        if mistaken(BooleanFirst) && declarations.iter().any(|item| !item.boolean) {
            return refused(14);
        }
        let item = match declarations[..] {
            [item] => item,
            [item, ..] if mistaken(FirstDeclaration) => item,
            _ => return refused(13),
        };
        let wrong_owner = item.entity != owner || owner == 0 && !mistaken(EmptyOwner);
        if mistaken(OwnerFirst) && wrong_owner {
            return refused(15);
        }
        if !item.boolean {
            return refused(14);
        }
        if wrong_owner { refused(15) } else { Ok(()) }
    }

    // ---- 4: stamping

    fn stamp(&self, pack: &mut Pack) {
        let atoms = self.atoms();
        for relation in &mut pack.relations {
            let Some(kinds) = self.stamped(relation, &atoms) else { continue };
            if relation.kinds.is_empty() && !mistaken(StampOneList) {
                relation.kinds = kinds.clone();
            }
            relation.derived.as_mut().unwrap().kinds = kinds;
        }
    }

    /// The names of relations that some atom or Exists names.
    fn atoms(&self) -> BTreeSet<u32> {
        let pack = &self.reading.pack;
        let bodies = pack.rules.iter().flat_map(|rule| &rule.bodies).filter(|_| !mistaken(AtomsOfRules));
        let predicates = pack.relations.iter().filter_map(|relation| relation.derived.as_ref()).map(|d| &d.predicate);
        let mut atoms = BTreeSet::new();
        bodies.chain(predicates).for_each(|tree| note_atoms(tree, &mut atoms));
        atoms
    }

    /// The kinds that a relation's lists become, where they do.
    fn stamped(&self, relation: &Relation, atoms: &BTreeSet<u32>) -> Option<Vec<u32>> {
        let d = relation.derived.as_ref().filter(|d| d.kinds.is_empty())?;
        let kinds = self.reading.effective_kinds(relation.name)?.names;
        if mistaken(StampAll) {
            return Some(kinds.to_vec());
        }
        let last = if mistaken(StampNoSame) { 103 } else { 104 };
        let named = atoms.contains(&relation.name) && !mistaken(StampAtoms);
        let holds = d.predicate.any(&|node| (102..=last).contains(&node.kind)) && !mistaken(StampOwners);
        let empty = relation.kinds.is_empty() || mistaken(StampListed);
        if empty && (named || holds) {
            return None;
        }
        let current = kinds.get(d.current_slot as usize)?;
        let unlike = match kinds.get(d.related_slot as usize) {
            Some(related) => related != current,
            None => !mistaken(RangeIsEqual),
        };
        unlike.then(|| kinds.to_vec())
    }
}

fn note_atoms(node: &Tree, atoms: &mut BTreeSet<u32>) {
    if matches!(node.kind, 102 | 103) {
        atoms.insert(node.value);
    }
    if !((74..=77).contains(&node.kind) && mistaken(AtomsInWhere)) {
        node.children.iter().for_each(|child| note_atoms(child, atoms));
    }
}

fn slots(node: &Tree) -> Slots {
    (node.fields[0].1, node.fields[1].1)
}

fn set_slots(node: &mut Tree, slots: Slots) {
    node.fields[0].1 = slots.0;
    node.fields[1].1 = slots.1;
}
