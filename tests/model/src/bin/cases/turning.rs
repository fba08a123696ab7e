//! Resolve.

use crate::list::{List, MUCH};
use crate::make::*;
use cogunwa_model::cases;
use cogunwa_model::packs::{self, named, typed};
use cogunwa_model::records::{Block, NONE, Pack, Relation, Rule, Tree};

pub fn sections(list: &mut List) {
    worked(list);
    tempting(list);
    equal_kinds(list);
    framed(list);
    first_refusals(list);
    inputs(list);
    directions(list);
    kind_0(list);
    members(list);
    stamping(list);
    passing_over(list);
    rooms(list);
    lengths(list);
    deep(list);
    far(list);
}

fn ruled_by(name: u32, entity: u32, tree: Tree) -> Rule {
    packs::rule(name, entity, vec![tree])
}

fn from(origin: u32, rule: Rule) -> Rule {
    Rule { origin, ..rule }
}

fn five() -> Relation {
    typed(5, &[1, 2])
}

/// A filter with list 21.
fn listed(name: u32, kinds: &[u32]) -> Relation {
    filtered(name).entities(kinds)
}

fn worked(list: &mut List) {
    list.section(
        "resolve: 01's cases, what is tempting and what OnlyRelated is refused for, with what 01 says they come to",
    );
    for case in cases::named() {
        let words = case.pack.words();
        let name = format!("named-{}", case.name.replace([' ', '\''], "-"));
        let added = list.ok(&name, &words);
        let reading = added.reading.as_ref().unwrap();
        let resolved = reading.resolve(MUCH as usize).map(|(words, _)| words).map_err(|r| [r.number, r.name, r.other]);
        let last = case.pack.relations.last().and_then(|relation| reading.effective_kinds(relation.name));
        let kinds = last.map_or(vec![], |list| list.names.to_vec());
        assert!(case.wanted.is_met(&case.pack, &resolved, &kinds, reading.steps()), "{name}");
        added.ask();
    }
    list.section("resolve: 01's A1 to A5 for every kind of aggregate");
    for kind in 74..79 {
        let tree = |slots: (u32, u32)| if kind == 78 { only_of(5, slots, 82, 12) } else { sum(kind, 5, slots, None) };
        let one = |relations: &[Relation], slots: (u32, u32), entity: u32, owner: u32| {
            let blocks = [block(NONE, &[item(12, true, owner)])];
            with_blocks(small(relations, &[ruled_by(17, entity, tree(slots))]), &blocks)
        };
        let (three, direct) = (|| typed(5, &[1, 2, 3]), filtered(6).entity(3).entities(&[2, 4]));
        list.turned(&format!("A1-{kind}"), &one(&[five()], AUTHOR, 2, 1));
        list.stopped([10, 17, 2], &format!("A2-{kind}"), &one(&[typed(5, &[2, 2])], AUTHOR, 2, 1));
        list.turned(&format!("A4-{kind}"), &one(&[five(), direct], AUTHOR, 3, 1));
        if kind == 78 {
            // No kind stands at slot 9, and a relation of three slots gives none: the owner is 0.
            list.stopped([15, 17, 12], "A3-78", &one(&[five()], AUTHOR, 3, 1));
            list.kept("A3-78-slot-0", &one(&[five()], (7, 0), 3, 1));
            list.stopped([15, 17, 12], "A5-78", &one(&[three()], (0, 1), 2, 2));
        } else {
            list.kept(&format!("A3-{kind}"), &one(&[five()], AUTHOR, 3, 1));
            list.kept(&format!("A5-{kind}"), &one(&[three()], AUTHOR, 2, 1));
        }
    }
    // The kinds are [2, 1]: below an aggregate over 5 the entity is 1.
    let inner = ruled([over(5, holds(count(8)))]);
    list.turned("K6-inner", &small(&[named(5).kinds(&[1, 2]).entities(&[2, 1]), typed(8, &[3, 1])], &[inner]));
    // Direct is followed once: 3 on to 4, 4 on to 3, 5 on to 3.
    let ring = [entity_of(0, 3, &[4], 0), entity_of(1, 4, &[3], 0), entity_of(2, 5, &[3], 0), typed(7, &[3, 4])];
    let rules: Vec<Rule> = (3..6).map(|entity| ruled_by(17, entity, count(7))).collect();
    list.turned("I1-counted", &small(&ring, &rules));
}

fn tempting(list: &mut List) {
    list.section("resolve: what is tempting, by what it would change");
    let chain = [entity_of(0, 3, &[4], 0), entity_of(1, 4, &[5], 0)];
    for (name, kinds, turns) in [("direct", [5, 4], true), ("innermost", [5, 9], false), ("twice", [5, 5], false)] {
        let pack = small(&[chain[0].clone(), chain[1].clone(), typed(7, &kinds)], &[ruled_by(17, 3, count(7))]);
        list.resolves(&format!("not-innermost-{name}"), &pack, turns);
    }
    // An empty path read as no path: 6 would have 5's kinds.
    let over_6 = || [ruled([sum(74, 6, (0, 1), Some(holds(count(8))))])];
    let (same, zero) = (|| typed(5, &[2, 2]), || typed(8, &[0, 2]));
    let inherits = || filtered(6).source(5);
    list.kept("path-0-not-9", &with_defaulted(small(&[same(), inherits().path(0)], &[]), &[6]));
    list.stopped([9, 6, 0], "path-none-9", &with_defaulted(small(&[same(), inherits()], &[]), &[6]));
    list.turned("path-0-entity", &small(&[five(), inherits().path(0), zero()], &over_6()));
    list.turned("path-none-entity", &small(&[five(), inherits(), zero()], &over_6()));
    list.kept("path-0-member", &small(&[five(), inherits().path(0).predicate(member(5))], &[]));
    // A ring's feeders keeping kinds: the entity below them is 0.
    let fed = [filtered(4).source(6), filtered(6).source(7), filtered(7).source(6), filtered(3).source(4), zero()];
    let all: Vec<Tree> = [3, 4, 6, 7].iter().map(|&x| over(x, holds(count(8)))).collect();
    list.turned("ring-fed-counted", &small(&fed, &[ruled(all)]));
    list.kept("ring-fed-defaulted", &with_defaulted(small(&fed, &[]), &[3, 4, 6, 7]));
    // Membership carried into patterns.
    let pattern = |t: Tree| holds(node(72, 1, [leaf(), chosen(t)]));
    let subject = |t: Tree| holds(node(72, 1, [chosen(t), leaf()]));
    let over_5 =
        |kinds: &[u32], own: &[u32], tree: Tree| small(&[typed(5, kinds), listed(6, own).predicate(tree)], &[]);
    list.kept("pattern-member", &over_5(&[2, 1], &[1, 2], pattern(member(5))));
    list.kept("pattern-not-open", &over_5(&[1, 1], &[1, 1], pattern(member(5))));
    list.stopped([10, 6, 1], "subject-open", &over_5(&[1, 1], &[1, 1], subject(member(5))));
}

fn equal_kinds(list: &mut List) {
    list.section("resolve: 01, 'a derived relation with kinds, both slots in range and equal kinds there: 9'");
    let two = || typed(5, &[3, 3]);
    for (i, six) in [
        listed(6, &[3, 3]),
        filtered(6).kinds(&[3, 3]),
        filtered(6).source(5),
        listed(6, &[1, 2]).slots(1, 1),
        listed(6, &[1, 2, 3, 1, 2, 3, 1, 3]).slots(7, 2),
        listed(6, &[0, 0]),
        listed(6, &[3, 3]).kinds(&[1, 2]),
    ]
    .into_iter()
    .enumerate()
    {
        let first = with_defaulted(small(&[six.clone(), two()], &[]), &[1, 6, 9]);
        list.stopped([9, 6, 0], &format!("equal-{i}"), &with_defaulted(small(&[two(), six], &[]), &[6]));
        list.stopped([9, 6, 0], &format!("equal-{i}-first-record"), &first);
    }
    for (i, six) in [
        listed(6, &[3, 4]),
        listed(6, &[3, 3]).slots(2, 1),
        listed(6, &[3, 3]).slots(0, 2),
        listed(6, &[3, 3]).slots(2, 2),
        listed(6, &[3, 3]).slots(0, NONE),
        filtered(6).source(9),
        listed(6, &[0]),
        listed(6, &[3, 4]).kinds(&[3, 3]),
        typed(6, &[3, 3]),
    ]
    .into_iter()
    .enumerate()
    {
        list.kept(&format!("equal-not-{i}"), &with_defaulted(small(&[two(), six], &[]), &[6]));
    }
    list.kept("equal-not-defaulted", &with_defaulted(small(&[two(), listed(6, &[3, 3])], &[]), &[5, 7]));
    list.kept("equal-not-declared", &with_defaulted(small(&[two()], &[]), &[4, 6, 19]));
    list.stopped([9, 0, 0], "equal-name-0", &with_defaulted(small(&[two(), listed(0, &[3, 3])], &[]), &[0]));
    // Names rise, whatever the order of the records.
    let (eight, four, six) = (listed(8, &[3, 3]), listed(4, &[1, 2]), listed(6, &[2, 2]));
    let orders = [[&eight, &four, &six], [&six, &four, &eight], [&eight, &six, &four]];
    for (i, order) in orders.iter().enumerate() {
        let pack = small(&order.map(Relation::clone), &[]);
        list.stopped([9, 6, 0], &format!("equal-lowest-{i}"), &with_defaulted(pack.clone(), &[4, 6, 8]));
        list.stopped([9, 8, 0], &format!("equal-only-8-{i}"), &with_defaulted(pack, &[4, 8]));
    }
    let relations = (0..511).map(named).chain([listed(600, &[1, 1])]).collect();
    let defaulted = (0..511).chain([600]).collect();
    list.stopped([9, 600, 0], "equal-512th", &Pack { n: 601, defaulted, relations, ..Pack::default() });
}

/// Two kinds each way, and each twice.
fn around() -> [Relation; 4] {
    [five(), typed(8, &[2, 2]), typed(9, &[1, 1]), typed(4, &[2, 1])]
}

/// A tree in the second body of the second rule, of entity 2, or in the predicate of 7, where the entity is 2 and the
/// membership (1, 2).
fn in_rule(tree: Tree, blocks: &[Block]) -> Pack {
    let first = packs::rule(16, 2, vec![leaf(), Tree::leaf(104, 1)]);
    with_blocks(small(&around(), &[from(6, first), from(6, ruled([leaf(), tree]))]), blocks)
}

fn in_predicate(tree: Tree, blocks: &[Block]) -> Pack {
    let seven = listed(7, &[1, 2]).predicate(holds(tree)).origin(6);
    with_blocks(small(&[&around()[..], &[seven]].concat(), &[]), blocks)
}

fn framed(list: &mut List) {
    list.section("resolve: 01, 'each node's kind decides what follows it': aggregates and members below every node");
    for Frame { name, around, lost, .. } in frames() {
        list.turned(&format!("below-{name}"), &in_rule(around(count(5)), &[]));
        list.turned(&format!("below-{name}-predicate"), &in_predicate(around(sum(76, 5, AUTHOR, None)), &[]));
        // Membership is lost in where trees, NoMatch patterns and both parts of OverPeriods; a rule has none.
        let tree = || around(chosen(member(4)));
        list.resolves(&format!("member-below-{name}"), &in_predicate(tree(), &[]), !lost);
        list.kept(&format!("member-below-{name}-rule"), &in_rule(tree(), &[]));
        // 10 for a membership of equal kinds, where it is kept.
        let seven = listed(7, &[2, 1]).slots(0, 0).predicate(holds(around(chosen(member(8)))));
        let pack = small(&[&self::around()[..], &[seven]].concat(), &[]);
        let case = format!("10-member-below-{name}");
        if lost {
            list.kept(&case, &pack)
        } else {
            list.stopped([10, 7, 2], &case, &pack)
        };
    }
    let parts = [node(72, 1, [chosen(member(4)), chosen(member(4))]), chosen(member(4))];
    list.turned("member-lost-and-after", &in_predicate(node(68, 2, parts), &[]));
    list.section("resolve: 01, 'place the node, name the citing one': 10 to 15 below every node");
    let good = [block(6, &[item(13, false, 1), item(14, true, 3), item(12, true, 1)]), block(6, &[item(15, false, 2)])];
    let bad = [&good[..], &[no_sequence(6)]].concat();
    let input = |name: u32| only_of(5, AUTHOR, 82, name);
    for Frame { name, around, inside, .. } in frames() {
        let (open, entity, not_boolean) = if inside { (9, 1, 15) } else { (8, 2, 13) };
        for (number, tree, blocks, other) in [
            (10, count(open), &good[..], entity),
            (11, only_of(5, AUTHOR, 84, 18), &good, 18),
            (12, only(5), &bad, 12),
            (13, input(11), &good, 11),
            (14, input(not_boolean), &good, not_boolean),
            (15, input(14), &good, 14),
        ] {
            list.stopped(
                [number, 17, other],
                &format!("{number}-below-{name}"),
                &in_rule(around(tree.clone()), blocks),
            );
            if matches!(number, 10 | 15) || matches!(name, "root" | "pattern" | "where-75" | "periods-n") {
                let case = format!("{number}-below-{name}-predicate");
                list.stopped([number, 7, other], &case, &in_predicate(around(tree), blocks));
            }
        }
    }
}

fn first_refusals(list: &mut List) {
    list.section(
        "resolve: 01, 'Rules in order, bodies in order', then 'Relation predicates in order': the first of several",
    );
    let (eight, nine) = (|| typed(8, &[2, 2]), || typed(9, &[1, 1]));
    let (open, missing) = (|| count(8), || only(5));
    let inside = || listed(7, &[1, 2]).predicate(holds(open()));
    let other = || listed(3, &[1, 2]).predicate(holds(missing()));
    let (opened, missed) = ([10, 17, 2], [13, 17, 12]);
    // 9 before all.
    for (i, pack) in [
        small(&[five(), eight()], &[ruled([open()])]),
        small(&[five(), eight()], &[ruled([missing()])]),
        small(&[eight(), inside()], &[]),
    ]
    .into_iter()
    .enumerate()
    {
        let mut pack = with_defaulted(pack, &[6]);
        pack.relations.push(listed(6, &[3, 3]));
        list.stopped([9, 6, 0], &format!("first-9-{i}"), &pack);
    }
    // Rules before relations, rules and bodies in order, predicates in record order and not by name.
    let named_18 = packs::rule(18, 2, vec![leaf(), said(), missing()]);
    let named_16 = || ruled_by(16, 2, open());
    let three = || [five(), eight(), inside()];
    list.stopped(missed, "first-rule", &small(&three(), &[ruled([missing()])]));
    list.stopped([13, 18, 12], "first-rule-last", &small(&three(), &[ruled([leaf()]), named_18]));
    list.stopped([10, 7, 2], "first-relation", &small(&three(), &[ruled([leaf()])]));
    list.stopped(missed, "first-rule-of-two", &small(&[five(), eight()], &[ruled([missing()]), named_16()]));
    list.stopped([10, 16, 2], "first-rule-of-two-dealt", &small(&[five(), eight()], &[named_16(), ruled([missing()])]));
    list.stopped([10, 7, 2], "first-predicate", &small(&[five(), eight(), inside(), other()], &[]));
    list.stopped([13, 3, 12], "first-predicate-dealt", &small(&[five(), eight(), other(), inside()], &[]));
    // A node before its children, children from left to right.
    let relations = [five(), eight(), nine()];
    let two = node(67, 0, [over(5, holds(count(9))), open()]);
    for (name, wanted, bodies) in [
        ("body", missed, vec![leaf(), missing(), holds(open())]),
        ("body-other", opened, vec![leaf(), holds(open()), missing()]),
        ("node", opened, vec![over(8, holds(count(9)))]),
        ("child", [10, 17, 1], vec![two]),
        ("left", missed, vec![node(68, 3, [count(5), missing(), open()])]),
        ("condition", missed, vec![node(71, 0, [holds(missing()), open(), leaf()])]),
        ("subject", opened, vec![node(72, 1, [open(), missing()])]),
    ] {
        list.stopped(wanted, &format!("first-{name}"), &small(&relations, &[ruled(bodies)]));
    }
    // At one OnlyRelated: 10, then 11 to 15.
    let twice = || block(NONE, &[item(12, false, 3), item(12, false, 3)]);
    let one = |boolean: bool, owner: u32| vec![block(NONE, &[item(12, boolean, owner)])];
    let bad = || vec![no_sequence(NONE), twice()];
    for (i, (wanted, tree, blocks)) in [
        (opened, only_of(8, AUTHOR, 84, 12), bad()),
        (opened, only(8), bad()),
        ([11, 17, 12], only_of(5, AUTHOR, 84, 12), bad()),
        ([11, 17, 12], only_of(19, AUTHOR, 84, 12), bad()),
        ([12, 17, 12], only(5), bad()),
        ([12, 17, 12], only(5), vec![twice(), no_sequence(NONE)]),
        ([12, 17, 11], only_of(5, AUTHOR, 82, 11), bad()),
        (missed, only(5), vec![twice()]),
        (missed, only(19), vec![twice()]),
        ([14, 17, 12], only(5), one(false, 3)),
        ([14, 17, 12], only(19), one(false, 0)),
        ([15, 17, 12], only(5), one(true, 3)),
    ]
    .into_iter()
    .enumerate()
    {
        list.stopped(wanted, &format!("first-at-one-{i}"), &with_blocks(small(&relations, &[ruled([tree])]), &blocks));
    }
}

/// An OnlyRelated to be asked over blocks.
struct Asked<'l> {
    list: &'l mut List,
    relations: Vec<Relation>,
    tree: Tree,
    origin: u32,
    entity: u32,
}

impl Asked<'_> {
    /// The same in a rule and in a predicate of one origin: it is refused by a number, or by none where that is 0.
    fn ask(&mut self, number: u32, name: &str, blocks: &[Block]) {
        let Asked { list, relations, tree, origin, entity } = self;
        let rule = from(*origin, ruled_by(17, *entity, tree.clone()));
        let seven = listed(7, &[9, *entity]).predicate(holds(tree.clone())).origin(*origin);
        let packs = [
            (format!("input-{name}"), 17, small(relations, &[rule])),
            (format!("input-{name}-predicate"), 7, small(&[&relations[..], &[seven]].concat(), &[])),
        ];
        for (name, citing, pack) in packs {
            let pack = with_blocks(pack, blocks);
            if number == 0 {
                list.ok(&name, &pack.words());
                let reading = list.cases.last().unwrap().reading.as_ref().unwrap();
                assert!(reading.resolve(MUCH as usize).is_ok(), "{name}");
            } else {
                list.stopped([number, citing, tree.fields[2].1], &name, &pack);
            }
        }
    }
}

fn inputs(list: &mut List) {
    list.section("resolve: 01, '11, 12, 13, 14, 15 in this order, over blocks of the citing origin'; 'Owner 0 is 15'");
    let good = || item(12, true, 1);
    let own = |items: &[_]| block(6, items);
    let mut asked = Asked { list, relations: vec![five()], tree: only(5), origin: 6, entity: 2 };
    asked.ask(0, "declared", &[own(&[good()])]);
    let others = [item(11, false, 3), good(), item(NONE, false, NONE), item(13, true, 1)];
    asked.ask(0, "declared-among-others", &[own(&others)]);
    asked.ask(0, "declared-in-third-block", &[own(&[]), own(&[item(11, true, 1)]), own(&[good()])]);
    asked.ask(13, "origin-other", &[block(7, &[good()])]);
    let beside = [no_sequence(7), no_sequence(NONE), own(&[good()]), no_sequence(5)];
    asked.ask(0, "origin-other-no-sequence", &beside);
    let too = [block(7, &[good()]), own(&[good()]), block(NONE, &[good()])];
    asked.ask(0, "origin-other-declares-too", &too);
    asked.ask(12, "no-sequence", &[no_sequence(6)]);
    asked.ask(12, "no-sequence-after", &[own(&[good()]), no_sequence(6)]);
    asked.ask(12, "no-sequence-before", &[no_sequence(6), own(&[good()])]);
    asked.ask(13, "no-blocks", &[]);
    asked.ask(13, "no-items", &[own(&[])]);
    asked.ask(13, "not-declared", &[own(&[item(11, true, 1), item(13, true, 1)])]);
    asked.ask(13, "twice", &[own(&[good(), good()])]);
    asked.ask(13, "twice-in-two-blocks", &[own(&[good()]), own(&[good()])]);
    asked.ask(13, "twice-unlike", &[own(&[good(), item(12, false, 3)])]);
    asked.ask(13, "thrice", &[own(&[good()]), no_sequence(7), own(&[good(), good()])]);
    asked.ask(14, "not-boolean", &[own(&[item(12, false, 1)])]);
    asked.ask(15, "owner-wrong", &[own(&[item(12, true, 2)])]);
    asked.ask(15, "owner-none", &[own(&[item(12, true, NONE)])]);
    asked.ask(15, "owner-0-declared", &[own(&[item(12, true, 0)])]);
    // The name 0, and that none is no name.
    asked.tree = only_of(5, AUTHOR, 82, 0);
    asked.ask(0, "name-0", &[own(&[item(0, true, 1), item(NONE, false, 3)])]);
    asked.ask(13, "name-none-is-no-name", &[own(&[item(NONE, true, 1)])]);
    // Origins: none equals none, and no name equals none.
    (asked.tree, asked.origin) = (only(5), NONE);
    asked.ask(0, "origin-none", &[block(NONE, &[good()])]);
    asked.ask(13, "origin-none-and-0", &[block(0, &[good()])]);
    asked.ask(12, "no-sequence-none", &[block(NONE, &[good()]), no_sequence(NONE)]);
    asked.origin = 0;
    asked.ask(0, "origin-0", &[block(0, &[good()]), no_sequence(NONE)]);
    asked.ask(13, "origin-0-and-none", &[block(NONE, &[good()])]);
    // Where the owner comes from: the relation, the node's slots, the owner that the input has, and the number.
    asked.origin = 6;
    for (name, relations, slots, owner, number) in [
        ("kind-0", vec![typed(5, &[0, 2])], AUTHOR, 0, 15),
        ("unknown", vec![], AUTHOR, 0, 15),
        ("unknown-none", vec![], AUTHOR, NONE, 15),
        ("no-match", vec![typed(5, &[1, 3])], (9, 1), 3, 0),
        ("no-match-wrong", vec![typed(5, &[1, 3])], (9, 1), 1, 15),
        ("no-match-out-of-range", vec![typed(5, &[1, 3])], (0, 2), 0, 15),
        ("derived", vec![listed(5, &[2, 2, 3]).slots(1, 2)], AUTHOR, 3, 0),
        ("derived-inherited", vec![typed(4, &[1, 1]), filtered(5).source(4).slots(7, 0)], AUTHOR, 1, 0),
        ("derived-out-of-range", vec![listed(5, &[2, 2, 3]).slots(1, 3)], AUTHOR, 0, 15),
        ("derived-kind-0", vec![listed(5, &[2, 0])], AUTHOR, 0, 15),
        ("derived-no-kinds", vec![filtered(5).source(9)], AUTHOR, 0, 15),
        ("wide", vec![typed(5, &[1, 2, 3])], (0, 1), 2, 15),
    ] {
        (asked.relations, asked.tree) = (relations, only_of(5, slots, 82, 12));
        asked.ask(number, &format!("owner-{name}"), &[own(&[item(12, true, owner)])]);
    }
    (asked.relations, asked.tree, asked.entity) = (vec![five(), listed(4, &[2, 9]).entity(3)], only(5), 3);
    asked.ask(0, "owner-by-direct", &[own(&[good()])]);
    // The rule's own origin, not that of the rule before or of a relation.
    let rules = [from(8, ruled([leaf()])), from(6, ruled([only(5)]))];
    let pack = with_blocks(small(&[five().origin(8)], &rules), &[block(8, &[good()]), own(&[])]);
    list.stopped([13, 17, 12], "input-own-origin", &pack);
    // In a where tree: the citing origin, and the owner by the entity there.
    for owner in [1, 2] {
        let rule = from(6, ruled([over(5, holds(only(5)))]));
        let pack = with_blocks(small(&[five()], &[rule]), &[own(&[item(12, true, owner)])]);
        let name = format!("input-where-{owner}");
        if owner == 2 {
            list.turned(&name, &pack)
        } else {
            list.stopped([15, 17, 12], &name, &pack)
        };
    }
}

fn directions(list: &mut List) {
    list.section("resolve: 01, 'one match sets current, related = 1 - current; two give 10; no match keeps the slots'");
    for (a, b) in [(0, 0), (1, 1), (0, 1), (1, 0), (2, 0), (NONE, NONE), (0, NONE), (5, 5)] {
        for entity in 0..4 {
            let pack = small(&[five()], &[ruled_by(17, entity, sum(74, 5, (a, b), None))]);
            let turns = match entity {
                1 => (a, b) != (0, 1),
                2 => (a, b) != (1, 0),
                _ => false,
            };
            list.resolves(&format!("slots-{a}-{b}-entity-{entity}"), &pack, turns);
        }
    }
    list.section("resolve: 01, 'Any other keeps the slots, with 0'");
    for (name, relation) in [
        ("undeclared", None),
        ("no-kinds", Some(named(5))),
        ("one-kind", Some(typed(5, &[2]))),
        ("three-kinds", Some(typed(5, &[2, 2, 2]))),
        ("eight-kinds", Some(typed(5, &[2, 1, 2, 1, 2, 1, 2, 1]))),
    ] {
        let with = |more: Relation| relation.iter().cloned().chain([more]).collect::<Vec<_>>();
        for kind in 74..78 {
            // Below it the entity is 0, which turns the inner one.
            let tree = sum(kind, 5, AUTHOR, Some(holds(count(8))));
            list.turned(&format!("other-{name}-{kind}"), &small(&with(typed(8, &[0, 3])), &[ruled([tree])]));
        }
        let member = small(&with(listed(6, &[1, 2]).predicate(member(5))), &[]);
        list.kept(&format!("other-{name}-member"), &member);
    }
    list.section("resolve: 01, 'a derived relation supplies both slots', whatever they are");
    for (a, b) in [(0, 1), (1, 0), (0, 0), (5, 0), (0, 5), (NONE, NONE), (8, 9)] {
        let five = |kinds: &[u32]| listed(5, kinds).slots(a, b);
        for kind in 74..78 {
            let rule = ruled_by(17, 1, sum(kind, 5, AUTHOR, None));
            list.turned(&format!("derived-{a}-{b}-{kind}"), &small(&[five(&[1, 1])], &[rule]));
        }
        let six = listed(6, &[1, 2]).predicate(member(5));
        let lost = listed(6, &[1, 2]).predicate(holds(node(73, 0, [chosen(member(5))])));
        let no_kinds = filtered(5).slots(a, b).source(9);
        let both = small(&[five(&[1, 2]), six.clone()], &[ruled([member(5)])]);
        list.turned(&format!("derived-{a}-{b}-member"), &both);
        list.turned(&format!("derived-{a}-{b}-member-no-kinds"), &small(&[no_kinds, six], &[]));
        list.turned(&format!("derived-{a}-{b}-member-lost"), &small(&[five(&[1, 2]), lost], &[]));
    }
    let itself = node(97, 2, [member(5), holds(count(5))]);
    list.turned("derived-itself", &small(&[listed(5, &[1, 2]).slots(3, 4).predicate(itself)], &[]));
    list.section("resolve: 01, 'matched against direct(entity), or the entity itself'");
    let six = |entity: u32, kinds: &[u32]| listed(6, kinds).entity(entity);
    let seven = |entity: u32, kinds: &[u32]| listed(7, kinds).entity(entity);
    let none = || filtered(7).entity(3);
    for (name, entity, more, turns) in [
        ("one", 3, vec![six(3, &[2, 9])], true),
        ("two-alike", 3, vec![six(3, &[2, 9]), seven(3, &[9, 2]).slots(1, 0)], true),
        ("two-unlike", 3, vec![six(3, &[2, 9]), seven(3, &[1, 9])], false),
        ("out-of-range", 3, vec![six(3, &[2, 9]).slots(2, 0)], false),
        ("no-kinds", 3, vec![none().source(9)], false),
        ("one-and-no-kinds", 3, vec![six(3, &[2, 9]), none()], true),
        ("list-9", 3, vec![six(3, &[2, 9]).kinds(&[9, 1])], true),
        ("inherited", 3, vec![follows(6, 5).entity(3).slots(1, 0)], true),
        ("other-entity", 3, vec![six(4, &[2, 9])], false),
        ("no-entity", 3, vec![listed(6, &[2, 9])], false),
        // An entity that stands for another is not matched by its own name.
        ("hides-the-entity", 1, vec![six(1, &[9, 2])], false),
        ("turns-the-entity", 1, vec![six(1, &[2, 9])], true),
        ("is-the-entity", 1, vec![six(1, &[1, 9])], true),
        ("two-unlike-itself", 1, vec![six(1, &[2, 9]), seven(1, &[3, 9])], true),
    ] {
        let pack = small(&[vec![five()], more].concat(), &[ruled_by(17, entity, count(5))]);
        list.resolves(&format!("direct-{name}"), &pack, turns);
    }
    // direct(3) = 0 is a kind.
    list.turned("direct-kind-0", &small(&[typed(5, &[3, 0]), six(3, &[0, 9])], &[ruled_by(17, 3, count(5))]));
    // 10 tells the entity itself.
    let twice = || typed(5, &[2, 2]);
    let one = || six(3, &[2, 9]);
    let in_7 = |tree: Tree| listed(7, &[1, 3]).predicate(tree);
    let outer = ruled_by(17, 1, over(4, holds(count(5))));
    list.stopped([10, 17, 3], "direct-open", &small(&[twice(), one()], &[ruled_by(17, 3, count(5))]));
    list.stopped([10, 17, 3], "direct-open-in-where", &small(&[typed(4, &[1, 3]), twice(), one()], &[outer]));
    list.stopped([10, 7, 3], "direct-open-in-predicate", &small(&[twice(), one(), in_7(holds(count(5)))], &[]));
    list.turned("direct-in-predicate", &small(&[five(), one(), in_7(holds(count(5)))], &[]));
    // Membership is compared as it is.
    list.kept("direct-not-in-membership", &small(&[typed(5, &[2, 1]), one(), in_7(member(5))], &[]));
    list.section("resolve: 01, 'the kind at the related slot or 0 results': the entity below an aggregate");
    let far = || typed(5, &[1, 3]);
    for (name, relation, slots, kind) in [
        ("typed", five(), (1, 0), 1),
        ("kept-0", far(), (9, 0), 1),
        ("kept-1", far(), (9, 1), 3),
        ("kept-out", far(), (0, 2), 0),
        ("derived", listed(5, &[4, 5, 6]).slots(1, 2), (1, 2), 6),
        ("derived-out", listed(5, &[4, 5, 6]).slots(1, 3), (1, 3), 0),
        ("derived-no-kinds", filtered(5).source(5).slots(1, 3), (1, 3), 0),
    ] {
        // The slots of 5 are those that come out. Beside the aggregate the entity is 2 again.
        let below = |kind: u32| {
            let inner = sum(74, 5, slots, Some(holds(count(8))));
            small(&[relation.clone(), typed(8, &[kind, 18])], &[ruled([node(67, 0, [inner, count(8)])])])
        };
        list.turned(&format!("entity-below-{name}"), &below(kind));
        list.kept(&format!("entity-below-{name}-another"), &below(17));
    }
}

fn kind_0(list: &mut List) {
    list.section(
        "resolve: 01, 'entity = related kind or 0': an unknown entity is the name 0; a known kind 0 is not unknown",
    );
    let (zero, zeros) = (|| typed(8, &[0, 2]), || typed(9, &[0, 0]));
    let of_0 = |tree: Tree| [ruled_by(17, 0, tree)];
    let open = [10, 17, 0];
    list.turned("zero-rule", &small(&[zero()], &of_0(count(8))));
    list.stopped(open, "zero-rule-open", &small(&[zeros()], &of_0(count(9))));
    list.stopped(open, "zero-where-open", &small(&[zeros()], &[ruled([over(19, holds(count(9)))])]));
    list.stopped(open, "zero-where-known-open", &small(&[zero(), zeros()], &[ruled([over(8, holds(count(9)))])]));
    for (name, six) in [
        ("no-kinds", filtered(6).source(19)),
        ("related-out", listed(6, &[1, 2]).slots(0, 2)),
        ("known", listed(6, &[1, 0])),
    ] {
        let pack = small(&[zeros(), six.predicate(holds(count(9)))], &[]);
        list.stopped([10, 6, 0], &format!("zero-predicate-{name}"), &pack);
    }
    // direct(0) counts for it as for any name.
    let direct = || listed(6, &[4, 9]).entity(0);
    list.turned("zero-direct", &small(&[typed(8, &[0, 4]), direct()], &[ruled([over(19, holds(count(8)))])]));
    list.kept("zero-direct-hides", &small(&[zeros(), direct()], &of_0(count(9))));
}

fn members(list: &mut List) {
    list.section(
        "resolve: 01, 'RelationMember': 'both membership kinds and a typed relation are needed or slots stay'",
    );
    // The kinds and slots of the relation whose predicate it is, the kinds of the one that it asks, and what comes: slots are
    // kept (0), set (1), or 10.
    for (name, own, (a, b), over, what) in [
        ("both", &[1, 2][..], (0, 1), &[1, 2][..], 1),
        ("both-turned", &[1, 2], (0, 1), &[2, 1], 1),
        ("slots-turned", &[1, 2], (1, 0), &[1, 2], 1),
        ("slots-far", &[3, 3, 1, 3, 3, 3, 3, 2], (7, 2), &[1, 2], 1),
        ("one-alone", &[1, 2], (0, 1), &[1, 3], 0),
        ("other-alone", &[1, 2], (0, 1), &[3, 2], 0),
        ("neither", &[1, 2], (0, 1), &[3, 4], 0),
        ("one-twice", &[1, 2], (0, 1), &[1, 1], 0),
        ("other-twice", &[1, 2], (0, 1), &[2, 2], 0),
        ("equal-open", &[2, 2], (0, 1), &[2, 2], 10),
        ("equal-slots-open", &[1, 2], (1, 1), &[2, 2], 10),
        ("equal-once", &[2, 2], (0, 1), &[2, 1], 0),
        ("equal-once-right", &[2, 2], (0, 1), &[1, 2], 0),
        ("equal-neither", &[2, 2], (0, 1), &[1, 1], 0),
        ("equal-three", &[2, 2], (0, 1), &[2, 2, 2], 0),
        ("current-unknown", &[1, 2], (2, 1), &[1, 2], 0),
        ("related-unknown", &[1, 2], (0, 2), &[1, 2], 0),
        ("both-unknown", &[1, 2], (2, 2), &[1, 2], 0),
        ("kind-0", &[0, 2], (0, 1), &[2, 0], 1),
        ("kind-0-related", &[2, 0], (0, 1), &[2, 0], 1),
        ("kind-0-open", &[0, 0], (0, 1), &[0, 0], 10),
        // An unknown kind is not the kind 0.
        ("unknown-not-0", &[2], (0, 1), &[2, 0], 0),
        ("unknown-not-0-current", &[2], (1, 0), &[0, 2], 0),
        ("unknown-not-0-both", &[2], (1, 2), &[0, 0], 0),
    ] {
        let pack = small(&[typed(5, over), listed(6, own).slots(a, b).predicate(member(5))], &[]);
        let name = format!("member-{name}");
        match what {
            10 => list.stopped([10, 6, over[0]], &name, &pack),
            _ => list.resolves(&name, &pack, what == 1),
        };
    }
    list.kept("member-no-kinds", &small(&[typed(5, &[0, 0]), filtered(6).source(9).predicate(member(5))], &[]));
    let inherits = [typed(5, &[2, 1]), typed(4, &[1, 2]), filtered(6).source(4).predicate(member(5))];
    list.turned("member-inherited", &small(&inherits, &[]));
    list.kept("member-in-rule", &small(&[typed(5, &[2, 2])], &[ruled([member(5), chosen(member(5))])]));
    let every = [
        member(5),
        node(100, 0, [member(5)]),
        node(98, 1, [member(5)]),
        node(99, 2, [said(), member(5)]),
        exists(5, member(5)),
    ];
    list.turned(
        "member-below-judgments",
        &small(&[typed(5, &[2, 1]), listed(6, &[1, 2]).predicate(node(97, 5, every))], &[]),
    );
}

fn four() -> Relation {
    typed(4, &[1, 2])
}

fn stamping(list: &mut List) {
    list.section("resolve: 01, stamping: 'list 21 becomes the kinds, and so does list 9 if empty'");
    let inherits = || filtered(6).source(4);
    for (name, more, six, stamped) in [
        ("inherited", four(), inherits(), true),
        ("list-9", four(), filtered(6).kinds(&[1, 2]), true),
        ("list-9-and-source", four(), inherits().kinds(&[3, 2]), true),
        ("list-21", four(), listed(6, &[1, 2]), false),
        ("list-21-and-source", four(), listed(6, &[3, 2]).source(4), false),
        ("both-lists", four(), listed(6, &[1, 2]).kinds(&[2, 1]), false),
        ("none", four(), filtered(6), false),
        ("not-derived", four(), typed(6, &[1, 2]), false),
        ("eight", typed(4, &[1, 2, 3, 4, 5, 6, 7, 8]), inherits().slots(6, 7), true),
        ("one", typed(4, &[3]), inherits(), true),
        ("three", typed(4, &[3, 4, 5]), inherits().slots(2, 0), true),
        // The source's list 21 and not its list 9.
        ("from-list-21", listed(4, &[5, 6]).kinds(&[1, 2]), inherits(), true),
        ("ring", four(), filtered(6).source(6), false),
        ("undeclared", four(), filtered(6).source(9), false),
        ("path", four(), inherits().path_over(4, 1), false),
        ("path-0", four(), inherits().path(0), false),
        ("empty-source", named(4), inherits(), false),
    ] {
        let pack = small(&[more, six], &[]);
        list.resolves(&format!("stamp-{name}"), &pack, stamped).resolve(|n| vec![0, n + 1, MUCH]);
        list.resolves(&format!("stamp-{name}-defaulted"), &with_defaulted(pack, &[4, 6]), stamped);
    }
    let chain = [filtered(9).source(8), filtered(8).source(7), filtered(7).source(4), four()];
    let mut dealt = chain.clone();
    dealt.reverse();
    list.turned("stamp-chain", &small(&chain, &[]));
    list.turned("stamp-chain-dealt", &small(&dealt, &[]));
    // A link that is passed over does not break the chain behind it.
    let link = [filtered(9).source(8), follows(8, 7), filtered(7).source(4), four()];
    list.turned("stamp-chain-link-passed", &small(&link, &[]));
    list.section("resolve: 01, stamping: 'its kind unlike the related one (out of range counts as unlike)'");
    for (name, (a, b), kinds, stamped) in [
        ("unlike", (0, 1), &[1, 2][..], true),
        ("unlike-turned", (1, 0), &[1, 2], true),
        ("equal", (0, 1), &[2, 2], false),
        ("equal-slots", (1, 1), &[1, 2], false),
        ("equal-far", (0, 7), &[3, 1, 2, 4, 5, 6, 7, 3], false),
        ("unlike-far", (0, 7), &[3, 1, 2, 4, 5, 6, 7, 8], true),
        ("current-out", (2, 1), &[1, 2], false),
        ("current-far", (NONE, 0), &[1, 2], false),
        ("related-out", (0, 2), &[1, 2], true),
        ("related-far", (1, NONE), &[2, 2], true),
        ("both-out", (2, 2), &[1, 2], false),
        ("both-out-unlike", (2, 3), &[1, 2], false),
        ("kind-0", (0, 1), &[0, 2], true),
        ("kind-0-related", (0, 1), &[2, 0], true),
        ("kind-0-twice", (0, 1), &[0, 0], false),
        ("kind-0-related-out", (0, 1), &[0], true),
        ("kind-0-current-out", (1, 0), &[0], false),
    ] {
        let nine = small(&[four(), filtered(6).slots(a, b).kinds(kinds)], &[]);
        list.resolves(
            &format!("stamp-{name}-inherited"),
            &small(&[typed(4, kinds), inherits().slots(a, b)], &[]),
            stamped,
        );
        list.resolves(&format!("stamp-{name}-list-9"), &nine, stamped);
    }
    list.section("resolve: 01, stamping comes last: the tables are those of the pack as it stood");
    // Below 6 the entity is 2 whether or not 6 is stamped.
    for (name, six) in [("stamped", inherits()), ("passed-over", follows(6, 4))] {
        let tree = over(6, holds(count(5)));
        list.turned(&format!("tables-{name}"), &small(&[four(), six, typed(5, &[2, 9])], &[ruled([tree])]));
    }
    let direct = [four(), inherits().slots(1, 0).entity(3), typed(5, &[2, 9])];
    list.turned("tables-direct", &small(&direct, &[ruled_by(17, 3, count(5))]));
}

fn passing_over(list: &mut List) {
    list.section("resolve: 01, stamping: 'pass over a relation with both lists empty that some atom or Exists names'");
    // Inheriting, with list 9, with list 21: only the second is stamped where the first is passed over.
    let forms = || [(filtered(6).source(4), false), (filtered(6).kinds(&[1, 2]), true), (listed(6, &[1, 2]), false)];
    for (name, tree) in [("atom", atom(6)), ("exists", exists(6, said()))] {
        for (i, (six, stamped)) in forms().into_iter().enumerate() {
            let rules = [ruled([leaf()]), packs::rule(16, 2, vec![leaf(), chosen(tree.clone())])];
            let other = listed(7, &[1, 2]).predicate(tree.clone());
            let below = filtered(3).predicate(node(100, 0, [tree.clone()]));
            list.resolves(&format!("stamp-{name}-rule-{i}"), &small(&[four(), six.clone()], &rules), stamped);
            for (place, more) in [("predicate", other), ("predicate-below", below)] {
                let pack = small(&[four(), more, six.clone()], &[]);
                list.resolves(&format!("stamp-{name}-{place}-{i}"), &pack, stamped);
            }
        }
        for Frame { name: frame, around, .. } in frames() {
            let pack = small(&[four(), five(), filtered(6).source(4)], &[ruled([around(chosen(tree.clone()))])]);
            list.kept(&format!("stamp-{name}-below-{frame}"), &pack);
        }
    }
    list.section("resolve: 01, stamping: 'or whose predicate holds kinds 102 to 104'");
    let inherits = || filtered(6).source(4);
    for (name, tree) in [("102", atom(4)), ("103", exists(4, said())), ("104", Tree::leaf(104, 0))] {
        for (i, (six, stamped)) in forms().into_iter().enumerate() {
            list.resolves(
                &format!("stamp-holds-{name}-{i}"),
                &small(&[four(), six.predicate(tree.clone())], &[]),
                stamped,
            );
        }
        // In a rule or in another's predicate it does not count.
        let another = listed(7, &[1, 2]).predicate(tree.clone());
        list.turned(&format!("stamp-rule-holds-{name}"), &small(&[four(), inherits()], &[ruled([tree])]));
        list.turned(&format!("stamp-another-holds-{name}"), &small(&[four(), another, inherits()], &[]));
    }
    for Frame { name, around, .. } in frames() {
        let deep = inherits().predicate(holds(around(chosen(Tree::leaf(104, 9)))));
        // Where it is in a where tree, that over 5 keeps its slots by the entity 2, which 6 has.
        list.kept(&format!("stamp-holds-below-{name}"), &small(&[four(), five(), deep], &[]));
    }
    list.section("resolve: stamping: what does not pass a relation over");
    for (i, tree) in [
        node(97, 2, [atom(4), exists(5, said())]),
        atom(4),
        member(6),
        Tree::leaf(105, 6),
        Tree::leaf(106, 6),
        Tree::leaf(104, 6),
        holds(Tree::leaf(65, 6)),
        holds(count(6)),
    ]
    .into_iter()
    .enumerate()
    {
        list.turned(&format!("stamp-not-named-{i}"), &small(&[four(), inherits()], &[ruled([tree])]));
    }
    for (i, tree) in [
        member(4),
        Tree::leaf(105, 4),
        Tree::leaf(106, 102),
        node(97, 0, []),
        node(98, 2, [Tree::leaf(105, 4), said()]),
        holds(Tree::leaf(64, 102)),
        node(100, 0, [Tree::leaf(106, 104)]),
    ]
    .into_iter()
    .enumerate()
    {
        list.turned(&format!("stamp-holds-nothing-{i}"), &small(&[four(), inherits().predicate(tree)], &[]));
    }
    list.kept("stamp-not-derived-named", &small(&[four(), named(6)], &[ruled([atom(6)])]));
}

fn rooms(list: &mut List) {
    list.section(
        "resolve: 01, 'more than the output slice has'; 'output past the length is untouched': slices of every length",
    );
    let every = |n: u32| (0..n + 4).chain([8192, 8400, 8448]).collect::<Vec<_>>();
    let grows = with_blocks(small(&[four(), filtered(6).source(4)], &[ruled([count(4)])]), &[no_sequence(NONE)]);
    list.turned("room-grows", &grows).resolve(every);
    list.turned("room-turns", &small(&[four()], &[ruled([count(4)])])).resolve(every);
    list.kept("room-smallest", &Pack { n: 1, ..Pack::default() }).resolve(every);
}

fn lengths(list: &mut List) {
    list.section("resolve: 01, '16: the result needs over 8,192 words'");
    // A pack of so many words, with a relation that is stamped with so many kinds, if its predicate lets it.
    let long = |length: usize, kinds: u32, six: Relation, more: &[Relation], bodies: &[Tree]| {
        let kinds: Vec<u32> = (1..=kinds).collect();
        let relations = [&[typed(4, &kinds), six][..], more].concat();
        let parts = |leaves: usize| {
            let body = node(68, leaves as u32, vec![leaf(); leaves]);
            small(&relations, &[ruled([&[body][..], bodies].concat())])
        };
        parts(length - parts(0).words().len())
    };
    let six = || filtered(6).source(4);
    for kinds in [2, 8] {
        for result in [8190, 8191, 8192, 8193, 8194, 8192 + 2 * kinds] {
            let words = long(result as usize - 2 * kinds as usize, kinds, six(), &[], &[]).words();
            let case = list.add(&format!("long-{result}-stamped-{kinds}"), &words, &[words.len() as u32]);
            let found = case.reading.as_ref().unwrap().resolve(9000).map(|(words, _)| words.len() as u32);
            assert_eq!(found.map_err(|r| r.number), if result <= 8192 { Ok(result) } else { Err(16) });
            [0, result - 1, result, 8191, 8192, 8193, MUCH].iter().for_each(|&room| case.call("resolve", &[room]));
        }
    }
    // As long, and nothing stamped.
    list.kept("long-not-stamped", &long(8192, 2, follows(6, 4), &[], &[]));
    // Many lists at once: 510 derived relations, of which so many are stamped with eight kinds each.
    let eight = typed(0, &[0, 1, 2, 3, 4, 5, 6, 7]);
    for stamped in [96, 97, 200] {
        let each = |i: u32| if i <= stamped { filtered(i).source(0) } else { follows(i, 0) };
        let relations: Vec<Relation> = std::iter::once(eight.clone()).chain((1..511).map(each)).collect();
        let pack = Pack { n: 600, ..small(&relations, &[]) };
        if stamped == 96 {
            list.turned("long-many-96", &pack);
        } else {
            list.stopped([16, 0, 0], &format!("long-many-{stamped}"), &pack).resolve(|_| vec![8191, 8192, 8193]);
        }
    }
    // Other refusals come first.
    let (open, equal) = (typed(8, &[2, 2]), listed(9, &[3, 3]));
    list.stopped([10, 17, 2], "long-10-before-16", &long(8192, 8, six(), &[open], &[count(8)]));
    list.stopped([9, 9, 0], "long-9-before-16", &with_defaulted(long(8191, 8, six(), &[equal], &[]), &[9]));
    list.section("resolve: packs at the limits, and with as many nodes of one sort as fit");
    let named: Vec<String> = cases::named().into_iter().map(|case| case.name).collect();
    for case in cases::all().into_iter().filter(|case| !named.contains(&case.name)) {
        let name = format!("large-{}", case.name.replace([' ', ','], "-"));
        let words = case.pack.words();
        // Only those that are short in the list, as their words come again and again.
        if words.chunk_by(|a, b| a == b).count() > 3500 {
            continue;
        }
        list.add(&name, &words, &[words.len() as u32]).resolve(|n| vec![n.min(8192), n - 1]);
    }
}

/// A judgment below so many aggregates over 5, with comparisons between them.
fn wheres(kind: u8, times: usize, inner: Tree) -> Tree {
    (1..times).fold(sum(kind, 5, AUTHOR, Some(inner)), |tree, _| sum(kind, 5, AUTHOR, Some(holds(tree))))
}

fn deep(list: &mut List) {
    list.section("resolve: 01, 'Depth 32 passes'");
    let (eight, nine) = (|| typed(8, &[2, 2]), || typed(4, &[2, 1]));
    let scalars: [(&str, Around); 6] = [
        ("one", |t| node(66, 0, [t])),
        ("right", |t| node(67, 0, [leaf(), t])),
        ("else", |t| node(71, 0, [said(), leaf(), t])),
        ("subject", |t| node(72, 0, [t])),
        ("pattern", |t| node(72, 1, [leaf(), t])),
        ("periods", |t| node(73, 2, [t])),
    ];
    for (name, link) in scalars {
        list.turned(&format!("deep-{name}"), &small(&[five()], &[ruled([nested(count(5), link, 31)])]));
        let open = small(&[eight()], &[ruled([nested(count(8), link, 31)])]);
        list.stopped([10, 17, 2], &format!("deep-{name}-open"), &open);
    }
    let judgments: [(&str, Around); 3] =
        [("not", |t| node(100, 0, [t])), ("and", |t| node(97, 2, [said(), t])), ("exists", |t| exists(19, t))];
    for (name, link) in judgments {
        let six = |relation: u32, kinds: &[u32]| listed(6, kinds).predicate(nested(member(relation), link, 31));
        let rule = ruled([nested(member(4), link, 31)]);
        list.turned(&format!("deep-{name}"), &small(&[nine(), six(4, &[1, 2])], &[rule]));
        list.stopped([10, 6, 2], &format!("deep-{name}-open"), &small(&[eight(), six(8, &[2, 2])], &[]));
    }
    // Where trees in where trees, two levels each: from 2 to 1 and back; membership is lost there.
    for kind in 74..78 {
        list.turned(&format!("deep-where-{kind}"), &small(&[five()], &[ruled([wheres(kind, 16, said())])]));
    }
    let lost = listed(6, &[1, 2]).predicate(holds(wheres(74, 15, member(4))));
    list.turned("deep-where-member", &small(&[five(), nine(), lost], &[]));
    let open = ruled([wheres(74, 15, holds(count(8)))]);
    list.stopped([10, 17, 1], "deep-where-open", &small(&[five(), typed(8, &[1, 1])], &[open]));
    for owner in [1, 2] {
        let rule = from(6, ruled([wheres(74, 15, holds(only(5)))]));
        let pack = with_blocks(small(&[five()], &[rule]), &[block(6, &[item(12, true, owner)])]);
        let name = format!("deep-where-input-{owner}");
        if owner == 2 {
            list.turned(&name, &pack)
        } else {
            list.stopped([15, 17, 12], &name, &pack)
        };
    }
    // Two deep arms: the second starts where the first ends.
    let arms = |a: u32, b: u32| [a, b].map(|relation| nested(count(relation), |t| node(66, 0, [t]), 30));
    list.turned("deep-two-arms", &small(&[five()], &[ruled([node(67, 0, arms(5, 5))])]));
    list.stopped([10, 17, 2], "deep-second-arm", &small(&[five(), eight()], &[ruled([node(67, 0, arms(5, 8))])]));
}

fn far(list: &mut List) {
    list.section("resolve: 01, 'Place is a word's index in the pack': refusals at far places");
    let eight = || typed(8, &[2, 2]);
    let mut rules: Vec<Rule> = (0..600).map(|i| ruled_by(i % 20, 2, count(5))).collect();
    rules.push(packs::rule(3, 2, vec![leaf(), count(8)]));
    list.stopped([10, 3, 2], "far-rule", &small(&[five(), eight()], &rules));
    let bodies = [vec![count(5); 63], vec![only(5)]].concat();
    list.stopped([13, 17, 12], "far-body", &small(&[five(), eight()], &[ruled(bodies)]));
    let mut relations = vec![five(), eight()];
    relations.extend((20..320).map(|i| listed(i, &[1, 2]).predicate(holds(count(5)))));
    relations.push(listed(6, &[1, 2]).predicate(holds(only_of(5, AUTHOR, 84, 11))));
    list.stopped([11, 6, 11], "far-predicate", &Pack { n: 400, ..small(&relations, &[]) });
    let last = Pack { n: 4096, ..small(&[typed(4094, &[4095, 4095])], &[ruled_by(4093, 4095, count(4094))]) };
    list.stopped([10, 4093, 4095], "far-name", &last);
    let input = ruled_by(4095, 2, only_of(5, AUTHOR, 82, 4095));
    list.stopped([13, 4095, 4095], "far-input", &Pack { n: 4096, ..small(&[five()], &[input]) });
    let leaves = [vec![leaf(); 8149], vec![count(8)]].concat();
    list.stopped([10, 17, 2], "far-last-word", &small(&[eight()], &[ruled([node(68, 8150, leaves)])]));
}
