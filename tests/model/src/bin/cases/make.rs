//! Packs and trees in few words, for the sections of the list.

use cogunwa_model::packs::{self, named};
use cogunwa_model::records::{Block, Item, NONE, Pack, Relation, Rule, Tree};
use cogunwa_model::word;

/// Slots that an author may write and no relation here has.
pub const AUTHOR: (u32, u32) = (7, 9);

/// A node without fields.
pub fn node(kind: u8, value: u32, children: impl Into<Vec<Tree>>) -> Tree {
    Tree::new(kind, value, &[], children.into())
}

pub fn leaf() -> Tree {
    Tree::leaf(64, 6)
}

/// A judgment that says nothing of relations.
pub fn said() -> Tree {
    Tree::leaf(106, 4)
}

/// An aggregate of the kinds 74 to 77, perhaps with a where tree.
pub fn sum(kind: u8, relation: u32, slots: (u32, u32), inner: Option<Tree>) -> Tree {
    let fields = [(80, slots.0), (81, slots.1), (86, 3), (83, inner.is_some().into())];
    Tree::new(kind, relation, &fields, inner.into_iter().collect())
}

pub fn count(relation: u32) -> Tree {
    sum(74, relation, AUTHOR, None)
}

/// A Count with a where tree.
pub fn over(relation: u32, inner: Tree) -> Tree {
    sum(74, relation, AUTHOR, Some(inner))
}

/// OnlyRelated, of an input (82) or of a derived name (84).
pub fn only_of(relation: u32, slots: (u32, u32), kind: u8, name: u32) -> Tree {
    Tree::new(78, relation, &[(80, slots.0), (81, slots.1), (kind, name)], vec![])
}

/// OnlyRelated of the input 12.
pub fn only(relation: u32) -> Tree {
    only_of(relation, AUTHOR, 82, 12)
}

pub fn member(relation: u32) -> Tree {
    packs::member(relation, AUTHOR)
}

pub fn atom(relation: u32) -> Tree {
    Tree::new(102, relation, &[(85, 1)], vec![])
}

pub fn exists(relation: u32, inner: Tree) -> Tree {
    Tree::new(103, relation, &[(85, 1)], vec![inner])
}

/// A judgment that holds a scalar.
pub fn holds(scalar: Tree) -> Tree {
    node(96, 5, [scalar, Tree::leaf(64, 1)])
}

/// A scalar that holds a judgment.
pub fn chosen(judgment: Tree) -> Tree {
    node(71, 0, [judgment, Tree::leaf(64, 1), Tree::leaf(64, 2)])
}

/// A tree within so many of the same nodes.
pub fn nested(tree: Tree, link: impl Fn(Tree) -> Tree, times: usize) -> Tree {
    (0..times).fold(tree, |tree, _| link(tree))
}

/// A derived relation whose predicate does not keep it from being stamped.
pub fn filtered(name: u32) -> Relation {
    named(name).predicate(said())
}

/// A relation with both lists empty that inherits, unless more is said, and is not stamped.
pub fn follows(name: u32, source: u32) -> Relation {
    named(name).source(source)
}

/// A derived relation of an entity, with list 21.
pub fn entity_of(name: u32, entity: u32, kinds: &[u32], slot: u32) -> Relation {
    named(name).entity(entity).entities(kinds).slots(slot, 9)
}

pub fn item(name: u32, boolean: bool, entity: u32) -> Item {
    Item { name, boolean, entity }
}

pub fn block(origin: u32, items: &[Item]) -> Block {
    Block { origin, items: Some(items.to_vec()) }
}

/// A block that is no sequence.
pub fn no_sequence(origin: u32) -> Block {
    Block { origin, items: None }
}

/// A rule of entity 2, named 17.
pub fn ruled(bodies: impl Into<Vec<Tree>>) -> Rule {
    packs::rule(17, 2, bodies.into())
}

pub fn small(relations: &[Relation], rules: &[Rule]) -> Pack {
    Pack { n: 20, relations: relations.to_vec(), rules: rules.to_vec(), ..Pack::default() }
}

pub fn with_blocks(pack: Pack, blocks: &[Block]) -> Pack {
    Pack { blocks: blocks.to_vec(), ..pack }
}

pub fn with_defaulted(pack: Pack, names: &[u32]) -> Pack {
    Pack { defaulted: names.to_vec(), ..pack }
}

/// A pack of ten names with one rule of one body, whose root stands at word 10.
pub fn one_body(tree: Tree) -> Vec<u32> {
    Pack { n: 10, rules: vec![packs::rule(0, 0, vec![tree])], ..Pack::default() }.words()
}

pub fn one_predicate(tree: Tree) -> Vec<u32> {
    Pack { n: 10, relations: vec![named(0).predicate(tree)], ..Pack::default() }.words()
}

/// The words with another at a place.
pub fn put(words: &[u32], place: usize, kind: u8, value: u32) -> Vec<u32> {
    let mut words = words.to_vec();
    words[place] = word(kind, value);
    words
}

/// The place of the nth word of a kind, from 0.
pub fn place(words: &[u32], kind: u8, nth: usize) -> usize {
    let mut places = (0..words.len()).filter(|&place| words[place] >> 24 == u32::from(kind));
    places.nth(nth).unwrap()
}

/// The words up to a place, the total made right.
pub fn cut(words: &[u32], place: usize) -> Vec<u32> {
    packs::with_total(words[..place].to_vec())
}

/// The words with some more, the total made right.
pub fn longer(words: &[u32], more: &[u32]) -> Vec<u32> {
    packs::with_total([words, more].concat())
}

/// A pack with every kind of word that document 01 has, N = 60.
pub fn every_kind() -> Pack {
    let sums = [
        Tree::new(74, 1, &[(80, NONE), (81, 0), (86, 3), (83, 0)], vec![]),
        Tree::new(75, 5, &[(80, 0), (81, NONE), (86, NONE), (83, 1)], vec![Tree::leaf(105, 8)]),
        Tree::new(76, 59, &[(80, 1), (81, 0), (86, 0), (83, 1)], vec![Tree::leaf(104, NONE)]),
        Tree::new(77, 0, &[(80, 1), (81, 1), (86, 9), (83, 0)], vec![]),
    ];
    let opaque = |value: u32| Tree::leaf(64, value);
    let compared = node(96, 77, [opaque(NONE), Tree::leaf(65, 12)]);
    let choice = node(71, 0, [compared, node(66, 5, [opaque(1)]), node(67, NONE, [opaque(2), node(69, 0, [])])]);
    let patterns = [node(72, 2, [opaque(3), opaque(4), Tree::leaf(65, 13)]), node(72, 0, [opaque(5)])];
    let periods = [node(73, 7, [opaque(6), opaque(7)]), node(73, 6, [opaque(8)]), node(73, 0, [opaque(9)])];
    let scalars = node(68, 3, [choice, node(70, 2, patterns), node(69, 3, periods)]);
    let either = node(98, 2, [node(99, 0, []), node(100, 0, [Tree::leaf(106, NONE)])]);
    let atom = Tree::new(102, 5, &[(85, NONE)], vec![]);
    let exists = Tree::new(103, 11, &[(85, 0)], vec![node(98, 0, [])]);
    let judgments = node(97, 3, [either, node(99, 2, [packs::member(1, (2, NONE)), atom]), exists]);
    let mut second = named(5).origin(6).source(1).entity(9).predicate(packs::member(1, (0, 1)));
    (second.arity, second.derived.as_mut().unwrap().member) = (0, 1);
    let mut third = named(11).origin(59).kinds(&[4]).source(5).entity(2).entities(&[6, 7]).predicate(judgments);
    let third_derived = third.derived.as_mut().unwrap();
    (third_derived.path, third_derived.member) = (Some(vec![[1, 0, NONE]]), 3);
    (third_derived.current_slot, third_derived.related_slot, third.arity) = (NONE, NONE, NONE);
    let fourth = named(0).path(0).entities(&[0]).predicate(Tree::leaf(104, 1));
    let fifth = named(58).kinds(&[10, 11, 12]).path(2).predicate(Tree::leaf(105, 59));
    let onlys = node(70, 2, [only_of(1, (0, 1), 82, 30), only_of(5, (7, 9), 84, 31)]);
    let bodies = vec![node(68, 4, sums), node(97, 0, []), onlys, Tree::leaf(106, 0)];
    Pack {
        n: 60,
        defaulted: vec![0, 7, 40],
        relations: vec![packs::typed(1, &[2, 3]), second, third, fourth, fifth],
        rules: vec![packs::rule(20, 0, vec![scalars]), Rule { origin: 6, ..packs::rule(20, 59, bodies) }],
        blocks: vec![
            no_sequence(NONE),
            block(6, &[]),
            block(0, &[item(NONE, false, NONE), item(59, true, 59), item(0, false, 0)]),
        ],
    }
}

/// A pack of 68 words with a record and a tree of most shapes, N = 30.
pub fn medium() -> Pack {
    let compared = node(96, 1, [Tree::leaf(64, 8), Tree::leaf(65, 2)]);
    let counted = sum(74, 3, (0, 1), Some(compared));
    let choice = node(71, 0, [Tree::leaf(105, 4), counted, only_of(5, (0, 1), 84, 6)]);
    let and = node(97, 2, [atom(5), exists(7, node(100, 0, [Tree::leaf(106, 3)]))]);
    let last =
        named(5).origin(8).source(3).path_over(3, 1).entity(1).entities(&[2]).predicate(packs::member(3, (0, 1)));
    Pack {
        n: 30,
        defaulted: vec![5, 9],
        relations: vec![packs::typed(3, &[1, 2]), last],
        rules: vec![Rule { origin: 8, ..packs::rule(12, 1, vec![choice, and]) }],
        blocks: vec![block(8, &[item(6, true, 2)]), no_sequence(NONE)],
    }
}

/// What is put around a tree.
pub type Around = fn(Tree) -> Tree;

/// A way to stand around a scalar.
pub struct Frame {
    pub name: &'static str,
    pub around: Around,
    /// Whether membership is lost below, and whether the entity turns from 2 to 1 there: in a where tree over 5[1, 2].
    pub lost: bool,
    pub inside: bool,
}

/// Every node in each of its places for children.
pub fn frames() -> Vec<Frame> {
    let kept: [(&str, Around); 18] = [
        ("root", |t| t),
        ("one", |t| node(66, 1, [t])),
        ("left", |t| node(67, 1, [t, leaf()])),
        ("right", |t| node(67, 1, [leaf(), t])),
        ("add", |t| node(68, 3, [leaf(), t, leaf()])),
        ("min", |t| node(69, 1, [t])),
        ("max", |t| node(70, 2, [leaf(), t])),
        ("condition", |t| chosen(holds(t))),
        ("then", |t| node(71, 0, [said(), t, leaf()])),
        ("else", |t| node(71, 0, [said(), leaf(), t])),
        ("subject", |t| node(72, 1, [t, leaf()])),
        ("subject-alone", |t| node(72, 0, [t])),
        ("compared", |t| chosen(node(96, 3, [leaf(), t]))),
        ("and", |t| chosen(node(97, 2, [said(), holds(t)]))),
        ("or", |t| chosen(node(98, 1, [holds(t)]))),
        ("exactly-one", |t| chosen(node(99, 2, [holds(t), said()]))),
        ("not", |t| chosen(node(100, 0, [holds(t)]))),
        ("exists", |t| chosen(exists(3, holds(t)))),
    ];
    let lost: [(&str, Around); 5] = [
        ("pattern", |t| node(72, 1, [leaf(), t])),
        ("pattern-last", |t| node(72, 2, [leaf(), leaf(), t])),
        ("periods", |t| node(73, 6, [t])),
        ("periods-value", |t| node(73, 7, [t, leaf()])),
        ("periods-n", |t| node(73, 1, [leaf(), t])),
    ];
    // The slots are those that the entity 2 gives, so that nothing but what is below can change.
    let inside: [(&str, Around); 4] = [
        ("where-74", |t| sum(74, 5, (1, 0), Some(holds(t)))),
        ("where-75", |t| sum(75, 5, (1, 0), Some(holds(t)))),
        ("where-76", |t| sum(76, 5, (1, 0), Some(holds(t)))),
        ("where-77", |t| sum(77, 5, (1, 0), Some(holds(t)))),
    ];
    let frame = |lost, inside| move |(name, around)| Frame { name, around, lost, inside };
    let all = kept.into_iter().map(frame(false, false)).chain(lost.into_iter().map(frame(true, false)));
    all.chain(inside.into_iter().map(frame(true, true))).collect()
}
