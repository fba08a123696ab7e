//! Packs with a name, and what document 01 says that they come to.

use crate::packs::{count, derivation, derived, leaf, member, rule, same, typed};
use crate::records::{Block, Derivation, Item, NONE, Pack, Relation, Rule, Tree};

fn only(relation: u32, kind: u8, name: u32) -> Tree {
    Tree::new(78, relation, &[(80, 7), (81, 9), (kind, name)], vec![])
}

/// Twelve names, and these records.
pub fn small(relations: Vec<Relation>, rules: Vec<Rule>) -> Pack {
    Pack { n: 12, relations, rules, ..Pack::default() }
}

/// A scalar over a judgment.
pub fn asked(judgment: Tree) -> Tree {
    Tree::new(71, 0, &[], vec![judgment, leaf(), leaf()])
}

/// What a case comes to: two slots that stand behind each other in the result, the kinds of the last relation and the steps, by
/// how many words the result is longer, a refusal's number, name and other, or any result.
#[derive(Clone, Copy, Debug)]
pub enum Wanted {
    Slots(u32, u32),
    Kinds(&'static [u32], u32),
    Stamped(u32),
    Refused(u32, u32, u32),
    Resolved,
}

pub struct Case {
    pub name: String,
    pub pack: Pack,
    pub wanted: Wanted,
}

impl Wanted {
    /// Whether it is met by the words of Resolve's result, or its refusal's number, name and other; by the kinds of the last
    /// relation, and the steps.
    pub fn is_met(&self, pack: &Pack, resolved: &Result<Vec<u32>, [u32; 3]>, kinds: &[u32], steps: u32) -> bool {
        let result = resolved.as_ref();
        match *self {
            Wanted::Slots(a, b) => result.is_ok_and(|words| {
                let slots = words.iter().filter(|word| matches!(*word >> 24, 80 | 81)).map(|word| word & NONE);
                slots.collect::<Vec<u32>>().chunks(2).any(|pair| pair == [a, b])
            }),
            Wanted::Kinds(wanted, wanted_steps) => kinds == wanted && steps == wanted_steps,
            Wanted::Stamped(more) => result.is_ok_and(|words| words.len() == pack.words().len() + more as usize),
            Wanted::Refused(number, name, other) => result.is_err_and(|refused| *refused == [number, name, other]),
            Wanted::Resolved => result.is_ok(),
        }
    }
}

/// Document 01's cases, packs at the limits, and packs with as many nodes of one sort as fit.
pub fn all() -> Vec<Case> {
    named().into_iter().chain(at_limits()).chain(most_nodes()).collect()
}

/// What is put around a tree.
type Around<'a> = &'a dyn Fn(Tree) -> Tree;

/// Document 01's cases, what is tempting, the refusals of OnlyRelated, and depth 32.
pub fn named() -> Vec<Case> {
    use Wanted::*;
    let mut all = vec![];
    let mut add = |name: &str, pack: Pack, wanted: Wanted| all.push(Case { name: name.into(), pack, wanted });
    let filtered = |name: u32, entity: u32, kinds: &[u32]| {
        derived(name, Derivation { entity, kinds: kinds.to_vec(), ..derivation(NONE) })
    };
    let counts = |relation: u32, entity: u32| vec![rule(8, entity, vec![count(relation, (7, 9), None)])];
    let keeping = |predicate: Tree| Derivation { kinds: vec![1, 2], predicate, ..derivation(NONE) };

    add("K1", small(vec![typed(5, &[1, 2]), derived(6, derivation(5))], vec![]), Kinds(&[1, 2], 2));
    add("K2", small(vec![derived(5, derivation(6)), derived(6, derivation(5))], vec![]), Kinds(&[], 2));
    add("K3", small(vec![derived(5, derivation(9))], vec![]), Kinds(&[], 2));
    add("K4", small(vec![derived(5, derivation(5))], vec![]), Kinds(&[], 1));
    let empty_path = Derivation { path: Some(vec![]), ..derivation(5) };
    add("K5", small(vec![typed(5, &[1, 2]), derived(6, empty_path)], vec![]), Kinds(&[], 2));
    let both = Relation { kinds: vec![1, 2], ..derived(5, Derivation { kinds: vec![2, 1], ..derivation(NONE) }) };
    add("K6", small(vec![both], vec![]), Kinds(&[2, 1], 1));
    add("A1", small(vec![typed(5, &[1, 2])], counts(5, 2)), Slots(1, 0));
    add("A2", small(vec![typed(5, &[2, 2])], counts(5, 2)), Refused(10, 8, 2));
    add("A3", small(vec![typed(5, &[1, 2])], counts(5, 3)), Slots(7, 9));
    add("A4", small(vec![typed(5, &[1, 2]), filtered(6, 3, &[2, 1])], counts(5, 3)), Slots(1, 0));
    add("A4 refused", small(vec![typed(5, &[2, 2]), filtered(6, 3, &[2, 1])], counts(5, 3)), Refused(10, 8, 3));
    add("A5", small(vec![typed(5, &[1, 2, 3])], counts(5, 2)), Slots(7, 9));
    add("M1", small(vec![typed(5, &[2, 1]), derived(6, keeping(member(5, (7, 9))))], vec![]), Slots(1, 0));
    let equal = small(vec![typed(5, &[1, 2]), derived(6, Derivation { related_slot: 0, ..derivation(5) })], vec![]);
    add("G1", Pack { defaulted: vec![6], ..equal }, Refused(9, 6, 0));
    add(
        "S1",
        small(vec![typed(5, &[1, 2]), derived(6, Derivation { related_slot: 5, ..derivation(5) })], vec![]),
        Stamped(4),
    );
    let ring = vec![filtered(6, 3, &[4, 1]), filtered(7, 4, &[3, 1]), filtered(8, 5, &[3, 1])];
    add("I1", small(ring, vec![]), Resolved);

    // What is tempting.
    let chain = vec![typed(5, &[4, 2]), filtered(6, 3, &[4, 1]), filtered(7, 4, &[2, 1])];
    add("innermost for direct", small(chain, counts(5, 3)), Slots(0, 1));
    let path = Derivation { path: Some(vec![]), current_slot: 0, related_slot: 1, ..derivation(5) };
    add("an empty path for no path", small(vec![typed(5, &[1, 2]), derived(6, path)], vec![]), Stamped(0));
    let feeders = vec![
        derived(5, derivation(6)),
        derived(6, derivation(5)),
        derived(7, derivation(5)),
        derived(8, derivation(7)),
    ];
    add("a ring's feeders", small(feeders, vec![]), Kinds(&[], 4));
    let pattern = |inner: Tree| same(Tree::new(72, 1, &[], vec![leaf(), asked(inner)]), leaf());
    let subject = |inner: Tree| same(Tree::new(72, 1, &[], vec![asked(inner), leaf()]), leaf());
    let periods = |inner: Tree| same(Tree::new(73, 7, &[], vec![leaf(), asked(inner)]), leaf());
    let within = |inner: Tree| same(count(11, (0, 1), Some(inner)), leaf());
    let exists = |inner: Tree| Tree::new(103, 9, &[(85, 0)], vec![inner]);
    let shapes: [(&str, Around, bool); 5] = [
        ("pattern", &pattern, false),
        ("subject", &subject, true),
        ("periods", &periods, false),
        ("where", &within, false),
        ("exists", &exists, true),
    ];
    for (name, shape, kept) in shapes {
        let pack = small(vec![typed(5, &[2, 1]), derived(6, keeping(shape(member(5, (7, 9)))))], vec![]);
        add(&format!("membership in {name}"), pack, if kept { Slots(1, 0) } else { Slots(7, 9) });
    }

    // OnlyRelated, in the order of its refusals.
    let block = |items: Option<Vec<Item>>| Block { origin: NONE, items };
    let item = |boolean: bool, entity: u32| Item { name: 11, boolean, entity };
    let asks = |kind: u8, blocks: Vec<Block>| Pack {
        blocks,
        ..small(vec![typed(5, &[1, 2])], vec![rule(8, 2, vec![only(5, kind, 11)])])
    };
    add("derived value", asks(84, vec![block(None)]), Refused(11, 8, 11));
    add("no sequence", asks(82, vec![block(Some(vec![])), block(None)]), Refused(12, 8, 11));
    add("no declaration", asks(82, vec![]), Refused(13, 8, 11));
    add("two declarations", asks(82, vec![block(Some(vec![item(true, 1), item(true, 1)]))]), Refused(13, 8, 11));
    add("not Boolean", asks(82, vec![block(Some(vec![item(false, 4)]))]), Refused(14, 8, 11));
    add("wrong owner", asks(82, vec![block(Some(vec![item(true, 2)]))]), Refused(15, 8, 11));
    add("right owner", asks(82, vec![block(Some(vec![item(true, 1)]))]), Slots(1, 0));

    // Depth 32, in a body and in a predicate, of every kind of node that has a child.
    let single: [Around; 4] = [
        &|inner| Tree::new(66, 0, &[], vec![inner]),
        &|inner| Tree::new(68, 1, &[], vec![inner]),
        &|inner| Tree::new(72, 0, &[], vec![inner]),
        &|inner| Tree::new(73, 0, &[], vec![inner]),
    ];
    for (i, wrap) in single.iter().enumerate() {
        let deep = (0..31).fold(count(5, (7, 9), None), |tree, _| wrap(tree));
        add(&format!("depth 32 of {i}"), small(vec![typed(5, &[1, 2])], vec![rule(8, 2, vec![deep])]), Slots(1, 0));
    }
    let nots = (0..31).fold(member(5, (7, 9)), |tree, _| Tree::new(100, 0, &[], vec![tree]));
    add("depth 32 of Not", small(vec![typed(5, &[2, 1]), derived(6, keeping(nots))], vec![]), Slots(1, 0));
    let wheres = (0..15).fold(count(5, (7, 9), None), |tree, _| count(5, (7, 9), Some(same(tree, leaf()))));
    add("depth 31 of where trees", small(vec![typed(5, &[1, 2])], vec![rule(8, 2, vec![wheres])]), Slots(1, 0));
    all
}

/// Results of about 8,192 words, and packs at the limits.
fn at_limits() -> Vec<Case> {
    let mut all = vec![];
    let mut add = |name: &str, pack: Pack, wanted: Wanted| all.push(Case { name: name.into(), pack, wanted });
    for excess in 0..5u32 {
        let relations = (0..281).map(|i| derived(20 + i, derivation(5)));
        let mut pack = Pack { n: 400, ..small(vec![typed(5, &[1, 2, 3, 4, 1, 2, 3, 4])], vec![]) };
        pack.relations.extend(relations);
        let length = pack.words().len() as u32 + 281 * 16;
        let leaves = 8190 + excess - length - 6;
        pack.rules.push(rule(8, 2, vec![Tree::new(68, leaves, &[], vec![leaf(); leaves as usize])]));
        let wanted = if excess < 3 { Wanted::Resolved } else { Wanted::Refused(16, 0, 0) };
        add(&format!("a result of {} words", 8190 + excess), pack, wanted);
    }
    let chain = |length: u32, first: u32| {
        let relations = (1..length).map(|i| derived(100 + i, derivation(99 + i)));
        let head = if first == 0 { typed(100, &[1, 2]) } else { derived(100, derivation(first)) };
        let mut relations: Vec<Relation> = std::iter::once(head).chain(relations).collect();
        relations.rotate_left(3);
        Pack { n: 700, relations, ..Pack::default() }
    };
    let last = |relations: Vec<Relation>, rules: Vec<Rule>, blocks: Vec<Block>| Pack {
        n: 4096,
        defaulted: vec![],
        relations,
        rules,
        blocks,
    };
    let far = last(vec![typed(4094, &[4095, 4095])], vec![rule(4093, 4095, vec![count(4094, (7, 9), None)])], vec![]);
    add("the last names", far, Wanted::Refused(10, 4093, 4095));
    let mut rules = vec![rule(8, 1, vec![leaf()]); 1023];
    rules.push(rule(9, 2, vec![count(5, (7, 9), None)]));
    add(
        "1,024 rules, the last refused",
        last(vec![typed(5, &[2, 2])], rules.clone(), vec![]),
        Wanted::Refused(10, 9, 2),
    );
    add("1,024 rules, the last turned", last(vec![typed(5, &[1, 2])], rules, vec![]), Wanted::Slots(1, 0));
    let mut bodies = vec![count(5, (7, 9), None); 63];
    bodies.push(only(5, 82, 11));
    let asks = |items: Vec<Item>, blocks: usize| {
        let mut all = vec![Block { origin: NONE, items: Some(vec![]) }; blocks - 1];
        all.push(Block { origin: NONE, items: Some(items) });
        last(vec![typed(5, &[1, 2])], vec![rule(8, 2, bodies.clone())], all)
    };
    let item = |name: u32| Item { name, boolean: true, entity: 1 };
    add("64 bodies and 64 blocks, the last asked", asks(vec![item(11)], 64), Wanted::Slots(1, 0));
    add("1,024 items, the last asked", asks((2000..3023).chain([11]).map(item).collect(), 1), Wanted::Slots(1, 0));
    add("1,024 items, one twice", asks((11..1034).chain([11]).map(item).collect(), 1), Wanted::Refused(13, 8, 11));
    add("a chain of 270", chain(270, 0), Wanted::Resolved);
    add("a ring of 512", chain(512, 611), Wanted::Resolved);
    add("a chain of 512 from an undeclared name", chain(512, 7), Wanted::Resolved);
    let filters = |length: u32, last: u32| {
        let relation = |i: u32| {
            let kind = if i + 1 == length { last } else { 101 + i };
            derived(i + 1, Derivation { entity: 100 + i, kinds: vec![kind, 99], ..derivation(NONE) })
        };
        Pack { n: 700, relations: (0..length).map(relation).collect(), ..Pack::default() }
    };
    add("a chain of 500 filtered entities", filters(500, 699), Wanted::Resolved);
    add("a ring of 500 filtered entities", filters(500, 100), Wanted::Resolved);
    add("500 filtered entities into one that is its own", filters(500, 599), Wanted::Resolved);
    all
}

/// Packs of nearly 8,192 words with as many nodes of one sort as fit: those that Resolve looks at, and those that keep a
/// relation from being stamped.
fn most_nodes() -> Vec<Case> {
    const ROOM: usize = 8140;
    let mut all = vec![];
    let mut add = |name: &str, pack: Pack, wanted: Wanted| all.push(Case { name: name.into(), pack, wanted });
    let all_of = |tree: Tree, words: usize| {
        let many = ROOM / words;
        Tree::new(97, many as u32, &[], vec![tree; many])
    };
    let atom = |name: u32| Tree::new(102, name, &[(85, 3)], vec![]);
    let relations = || vec![typed(5, &[1, 2]), derived(6, derivation(5))];
    let mut atoms = all_of(atom(7), 2);
    add(
        "4,070 RelationAtoms of another name",
        small(relations(), vec![rule(8, 2, vec![atoms.clone()])]),
        Wanted::Stamped(4),
    );
    *atoms.children.last_mut().unwrap() = atom(6);
    add(
        "4,070 RelationAtoms, the last of the relation",
        small(relations(), vec![rule(8, 2, vec![atoms])]),
        Wanted::Stamped(0),
    );
    let predicate = |tree: Tree| {
        vec![typed(5, &[2, 1]), derived(6, Derivation { kinds: vec![1, 2], predicate: tree, ..derivation(NONE) })]
    };
    add(
        "2,713 RelationMembers in a predicate",
        small(predicate(all_of(member(5, (7, 9)), 3)), vec![]),
        Wanted::Slots(1, 0),
    );
    let mut same_entity =
        vec![typed(5, &[1, 2]), derived(6, Derivation { predicate: all_of(Tree::leaf(104, 0), 1), ..derivation(5) })];
    add("8,140 SameEntity in a predicate", small(same_entity.clone(), vec![]), Wanted::Stamped(0));
    same_entity[1].derived.as_mut().unwrap().predicate = all_of(Tree::leaf(106, 0), 1);
    add("8,140 RoleDerived in a predicate", small(same_entity, vec![]), Wanted::Stamped(4));
    let sum_of = |tree: Tree, words: usize| {
        let many = ROOM / words;
        Tree::new(68, many as u32, &[], vec![tree; many])
    };
    let counts = sum_of(count(5, (7, 9), None), 5);
    add(
        "1,628 aggregates in a body",
        small(vec![typed(5, &[1, 2])], vec![rule(8, 2, vec![counts])]),
        Wanted::Slots(1, 0),
    );
    let nested = (0..14).fold(count(5, (7, 9), None), |tree, _| count(5, (7, 9), Some(same(tree, leaf()))));
    let nests = sum_of(nested, 14 * 7 + 5);
    add(
        "79 nests of where trees, each 15 deep",
        small(vec![typed(5, &[1, 1])], vec![rule(8, 2, vec![nests])]),
        Wanted::Resolved,
    );
    let each =
        |i: u32| derived(20 + i, Derivation { kinds: vec![1, 2], predicate: member(5, (7, 9)), ..derivation(NONE) });
    let members = std::iter::once(typed(5, &[2, 1])).chain((0..449).map(each)).collect();
    add(
        "450 relations, each with a test in its predicate",
        Pack { n: 600, ..small(members, vec![]) },
        Wanted::Slots(1, 0),
    );
    let turned = (0..810).map(|i| rule(8, 1 + i % 2, vec![count(5, (7, 9), None)])).collect();
    add("810 rules, each with an aggregate", small(vec![typed(5, &[1, 2])], turned), Wanted::Slots(1, 0));
    all
}
