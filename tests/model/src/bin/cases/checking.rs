//! Check and Rewrite: packs at the limits, and packs damaged at a word.

use crate::list::List;
use crate::make::*;
use cogunwa_model::packs::{named, of_length, rule, smallest};
use cogunwa_model::records::{NONE, Pack, Relation, Tree};
use cogunwa_model::word;

pub fn sections(list: &mut List) {
    lengths(list);
    limits(list);
    values(list);
    counts(list);
    any_values(list);
    depth(list);
    order(list);
    rising(list);
    used(list);
    places(list);
    heads(list);
}

fn empty(n: u32) -> Pack {
    Pack { n, ..Pack::default() }
}

fn lengths(list: &mut List) {
    list.section("01, Check: 1 under 6 or over 8,192 words; the total; N");
    let six = smallest();
    let case = list.add("smallest", &six, &[0, 1, 5, 6, 7, 9, 8400]);
    assert_eq!(case.words, [0x01000006, 0x02000001, 0x03000000, 0x05000000, 0x16000000, 0x1C000000]);
    case.resolve(|n| vec![n, n - 1]);
    list.refused(1, "length-0", &[]);
    for length in 1..6 {
        list.refused(1, &format!("length-{length}"), &cut(&six, length));
    }
    list.refused(1, "length-5-zeros", &[0; 5]);
    let (full, over) = (of_length(8192), of_length(8193));
    list.ok("length-8191", &of_length(8191));
    list.ok("length-8192", &full);
    list.refused(1, "length-8193", &over);
    list.refused(1, "length-8193-total-8192", &put(&over, 0, 1, 8192));
    list.refused(1, "length-8193-zeros", &[0; 8193]);
    list.refused(1, "length-8400", &longer(&over, &[0; 207]));
    list.refused(2, "length-8192-last-kind", &put(&full, 8191, 29, 0));
    list.refused(3, "length-8192-ended", &cut(&over, 8192));
    list.refused(4, "length-8192-total-less", &put(&full, 0, 1, 8191));
    list.refused(4, "length-8192-total-more", &put(&full, 0, 1, 8193));
    list.refused(2, "length-8192-zeros", &[0; 8192]);
    list.refused(2, "zeros", &[0; 6]);
    list.refused(2, "ones", &[u32::MAX; 6]);
    for total in [0, 5, 7, NONE] {
        list.refused(4, &format!("total-{total}"), &put(&six, 0, 1, total));
    }
    list.refused(2, "total-kind-2", &put(&six, 0, 2, 6));
    for n in [2, 4095, 4096] {
        list.ok(&format!("N-{n}"), &empty(n).words());
    }
    for n in [0, 4097, NONE] {
        list.refused(4, &format!("N-{n}"), &empty(n).words());
    }
}

/// A sort of record or of name: its name, the kind of its count, how many there may be, and a pack with so many.
type Counted<'a> = (&'a str, u8, u32, &'a dyn Fn(u32) -> Pack);

fn limits(list: &mut List) {
    list.section("limits, and one past each");
    let of = |relation: Relation| Pack { relations: vec![relation], ..empty(9) };
    let names = |count: u32| (0..count).collect::<Vec<_>>();
    let counted: [Counted; 9] = [
        ("defaulted", 3, 512, &|k| Pack { defaulted: names(k), ..empty(4096) }),
        ("relations", 5, 512, &|k| Pack { relations: (0..k).map(named).collect(), ..empty(4096) }),
        ("slots", 9, 8, &|k| of(named(0).kinds(&names(k)))),
        ("path", 13, 8, &|k| of(named(0).path(k))),
        ("entities", 21, 8, &|k| of(named(0).entities(&names(k)))),
        ("rules", 22, 1024, &|k| Pack { rules: vec![rule(0, 0, vec![leaf()]); k as usize], ..empty(1) }),
        ("bodies", 26, 64, &|k| Pack { rules: vec![rule(0, 0, vec![leaf(); k as usize])], ..empty(1) }),
        ("blocks", 28, 64, &|k| Pack { blocks: vec![no_sequence(NONE); k as usize], ..empty(1) }),
        ("items", 30, 1024, &|k| Pack { blocks: vec![block(NONE, &vec![item(1, true, 0); k as usize])], ..empty(2) }),
    ];
    for (name, kind, most, make) in counted {
        for k in [0, 1, most].into_iter().filter(|&k| k > 0 || kind != 26) {
            list.ok(&format!("{name}-{k}"), &make(k).words());
        }
        list.refused(4, &format!("{name}-{}", most + 1), &make(most + 1).words());
        let one = make(1).words();
        let count = place(&one, kind, 0);
        list.refused(4, &format!("{name}-none-less"), &put(&one, count, kind, NONE - 1));
        // None is a count of path steps and of items, but then none may follow.
        let number = match kind {
            13 => 2,
            30 => 8,
            _ => 4,
        };
        list.refused(number, &format!("{name}-none"), &put(&one, count, kind, NONE));
    }
    list.refused(4, "bodies-0", &Pack { rules: vec![rule(0, 0, vec![])], ..empty(1) }.words());
    list.ok("no-path", &of(named(0).derived()).words());
    list.ok("no-sequence", &Pack { blocks: vec![no_sequence(NONE)], ..empty(1) }.words());
    let lists_empty = Pack {
        rules: vec![rule(0, 0, vec![node(68, 0, []), node(98, 0, [])])],
        blocks: vec![block(NONE, &[])],
        ..of(named(0).path(0).predicate(node(97, 0, [])))
    };
    list.ok("lists-empty", &lists_empty.words());
    // Every limit at once, as far as the words reach.
    let many = Pack {
        n: 4096,
        defaulted: (3584..4096).collect(),
        relations: (0..512).map(|i| named(3584 + i).origin(i).kinds(&[i])).collect(),
        rules: vec![rule(4095, 0, vec![Tree::leaf(64, 7); 64]); 16],
        blocks: vec![block(NONE, &[item(0, false, 0)]); 64],
    };
    list.ok("many", &many.words());
}

/// Values to try in place of that of a word: at the edges of what document 01 allows there, and about the one that it has.
fn edges(kind: u8, value: u32, n: u32) -> Vec<u32> {
    let about = |more: &[u32]| [&[value.wrapping_sub(1) & NONE, (value + 1) & NONE], more].concat();
    match kind {
        1 => about(&[0, 6, NONE]),
        2 => about(&[0, 1, 4096, 4097, NONE]),
        3 | 5 => about(&[0, 512, 513, NONE]),
        9 | 21 => about(&[0, 8, 9, NONE]),
        13 => about(&[0, 8, 9, NONE - 1, NONE]),
        22 => about(&[0, 1024, 1025, NONE]),
        26 | 28 => about(&[0, 64, 65, NONE]),
        30 => about(&[0, 1024, 1025, NONE - 1, NONE]),
        // Names, among them those of other relations; and names or none.
        6 => vec![1, 5, n - 1, n, NONE],
        4 | 10 | 14 | 23 | 25 | 65 | 74..=78 | 82 | 84 | 101..=103 | 105 => vec![n - 1, n, NONE],
        7 | 12 | 19 | 20 | 24 | 29 | 31 | 33 => vec![n - 1, n, NONE - 1, NONE],
        // Flags.
        11 | 27 | 32 | 83 => vec![0, 1, 2, NONE],
        71 | 100 => vec![1, 2, NONE],
        73 => about(&[0, 7, 8, 9, NONE]),
        68..=70 | 72 | 97..=99 => about(&[NONE]),
        _ => vec![0, NONE],
    }
}

fn values(list: &mut List) {
    list.section("values at the edges of what is allowed, at every word of a pack that has every kind of word");
    let pack = every_kind();
    let words = pack.words();
    for kind in (1..34).chain(64..79).chain(80..87).chain(96..107) {
        place(&words, kind, 0);
    }
    list.ok("every-kind", &words).ask_edges(&(0..pack.n).collect::<Vec<_>>(), &[(11, 5), (11, 1), (1, 11), (5, 1)]);
    let mut tried = [0; 9];
    for (at, &word) in words.iter().enumerate() {
        let (kind, value) = ((word >> 24) as u8, word & NONE);
        let mut values = edges(kind, value, pack.n);
        values.sort();
        values.dedup();
        for other in values.into_iter().filter(|&other| other != value) {
            let case = list.any(&format!("value-{other}-at-{at}"), &put(&words, at, kind, other));
            tried[case.reading.as_ref().map_or_else(|refusal| refusal.number as usize, |_| 0)] += 1;
        }
    }
    // Accepted, and refused by each number that a value can bring about.
    assert!([0, 2, 3, 4, 6, 7, 8].iter().all(|&number| tried[number] > 0), "{tried:?}");
    for value in 0..10 {
        for children in [1, 2] {
            let words = one_body(node(73, value, vec![leaf(); children]));
            let number = if value > 7 { 4 } else { 2 };
            let name = format!("periods-{value}-of-{children}");
            let fits = value < 8 && children == 1 + value as usize % 2;
            if fits {
                list.ok(&name, &words)
            } else {
                list.refused(number, &name, &words)
            };
        }
    }
}

fn counts(list: &mut List) {
    list.section("a count that says more or less than what follows");
    let leaves = || vec![Tree::leaf(64, 0), Tree::leaf(65, 3), Tree::leaf(64, 1)];
    let holding = || vec![Tree::leaf(104, 0), Tree::leaf(105, 3), Tree::leaf(106, 1)];
    for kind in [68, 69, 70, 72, 97, 98, 99] {
        let children = if kind < 96 { leaves() } else { holding() };
        let right = if kind == 72 { 2 } else { 3 };
        let make = |value: u32| one_body(node(kind, value, children.clone()));
        list.ok(&format!("tree-{kind}-3"), &make(right));
        list.refused(2, &format!("tree-{kind}-more"), &make(right + 1));
        list.refused(2, &format!("tree-{kind}-less"), &make(right - 1));
        list.refused(2, &format!("tree-{kind}-none"), &make(NONE));
        let to_the_end = make(NONE);
        list.refused(3, &format!("tree-{kind}-none-to-the-end"), &cut(&to_the_end, to_the_end.len() - 1));
    }
    for (kind, count) in [(66, 1), (67, 2), (96, 2)] {
        let make = |children: usize| one_body(node(kind, count, leaves()[..children].to_vec()));
        list.ok(&format!("tree-{kind}"), &make(count as usize));
        list.refused(2, &format!("tree-{kind}-child-missing"), &make(count as usize - 1));
        list.refused(2, &format!("tree-{kind}-child-more"), &make(count as usize + 1));
    }
    let (s, j) = (|| Tree::leaf(64, 0), || Tree::leaf(104, 0));
    for (name, tree) in [
        ("72-no-subject", node(72, 0, [])),
        ("71-scalar-first", node(71, 0, [s(), j(), s()])),
        ("71-judgment-second", node(71, 0, [j(), j(), s()])),
        ("71-judgment-third", node(71, 0, [j(), s(), j()])),
        ("71-fourth", node(71, 0, [j(), s(), s(), s()])),
        ("96-judgment", node(96, 0, [s(), j()])),
        ("97-scalar", node(97, 2, [j(), s()])),
        ("100-two", node(100, 0, [j(), j()])),
        ("100-scalar", node(100, 0, [s()])),
        ("103-no-body", Tree::new(103, 0, &[(85, 0)], vec![])),
        ("103-scalar", Tree::new(103, 0, &[(85, 0)], vec![s()])),
        ("102-body", Tree::new(102, 0, &[(85, 0)], vec![j()])),
        ("74-where-scalar", sum(74, 0, (0, 0), Some(s()))),
    ] {
        list.refused(2, &format!("tree-{name}"), &one_body(tree));
    }
}

fn any_values(list: &mut List) {
    list.section("arity, slots, tree counts and opaque values: any value");
    for value in [0, 1, 255, 256, 4097, 65536, 1 << 23, NONE] {
        let both = (value, value);
        let opaque = |kind: u8| Tree::leaf(kind, value);
        let atom = Tree::new(102, 0, &[(85, value)], vec![]);
        let one = Tree::new(76, 0, &[(80, value), (81, value), (86, value), (83, 0)], vec![]);
        let tree = node(
            97,
            6,
            [
                node(96, value, [opaque(64), node(66, value, [node(67, value, [opaque(64), opaque(64)])])]),
                opaque(104),
                opaque(106),
                cogunwa_model::packs::member(0, both),
                atom,
                node(96, value, [one, only_of(0, both, 82, 0)]),
            ],
        );
        let mut relation = named(0).slots(value, value).predicate(tree.clone());
        relation.arity = value;
        relation.derived.as_mut().unwrap().path = Some(vec![[0, value, value]]);
        let pack = Pack { relations: vec![relation], rules: vec![rule(0, 0, vec![tree])], ..empty(1) };
        list.ok(&format!("any-{value}"), &pack.words());
    }
}

/// Nodes with one child that goes on down, a scalar below scalars or a judgment below judgments.
const LINKS: [(&str, Around); 17] = [
    ("one", |t| node(66, 1, [t])),
    ("left", |t| node(67, 1, [t, leaf()])),
    ("right", |t| node(67, 1, [leaf(), t])),
    ("add", |t| node(68, 2, [leaf(), t])),
    ("min", |t| node(69, 1, [t])),
    ("max", |t| node(70, 2, [t, leaf()])),
    ("then", |t| node(71, 0, [said(), t, leaf()])),
    ("else", |t| node(71, 0, [said(), leaf(), t])),
    ("subject", |t| node(72, 1, [t, leaf()])),
    ("pattern", |t| node(72, 1, [leaf(), t])),
    ("periods", |t| node(73, 2, [t])),
    ("periods-n", |t| node(73, 3, [leaf(), t])),
    ("and", |t| node(97, 2, [said(), t])),
    ("or", |t| node(98, 1, [t])),
    ("exactly-one", |t| node(99, 2, [t, said()])),
    ("not", |t| node(100, 0, [t])),
    ("exists", |t| exists(3, t)),
];

/// Two levels each, from a judgment to a scalar and back.
const TURNS: [(&str, Around); 6] = [
    ("where-74", |t| holds(sum(74, 3, (0, 1), Some(t)))),
    ("where-75", |t| holds(sum(75, 3, (0, 1), Some(t)))),
    ("where-76", |t| holds(sum(76, 3, (0, 1), Some(t)))),
    ("where-77", |t| holds(sum(77, 3, (0, 1), Some(t)))),
    ("condition", |t| holds(chosen(t))),
    ("compared-right", |t| node(96, 0, [leaf(), chosen(t)])),
];

fn depth(list: &mut List) {
    list.section("depth: the root is at 1, 32 passes, 33 is 5; in bodies and in predicates");
    let mut both = |name: &str, levels: usize, tree: Tree| {
        let scalar = tree.is_scalar();
        let mut place = |name: String, words: Vec<u32>| {
            if levels <= 32 {
                list.ok(&name, &words)
            } else {
                list.refused(5, &name, &words)
            };
        };
        place(format!("depth-{name}-{levels}"), one_body(tree.clone()));
        if !scalar {
            place(format!("depth-{name}-{levels}-predicate"), one_predicate(tree));
        }
    };
    for (name, link) in LINKS {
        let end = || if link(leaf()).is_scalar() { leaf() } else { said() };
        for levels in [31, 32, 33] {
            both(name, levels, nested(end(), link, levels - 1));
        }
    }
    for (name, turn) in TURNS {
        both(name, 31, nested(said(), turn, 15));
        both(name, 32, node(100, 0, [nested(said(), turn, 15)]));
        both(name, 33, nested(said(), turn, 16));
    }
    both("two-arms", 32, node(67, 0, vec![nested(leaf(), LINKS[0].1, 30); 2]));
    both("second-arm", 33, node(67, 0, [nested(leaf(), LINKS[0].1, 30), nested(leaf(), LINKS[0].1, 31)]));
    list.section("depth: nodes without children, the last level");
    let value = |kind: u8| only_of(9, (0, 0), kind, 9);
    let scalars = [leaf(), Tree::leaf(65, 9), node(68, 0, []), sum(74, 9, (0, 0), None), value(82), value(84)];
    let judgments = [node(97, 0, []), member(9), atom(9), Tree::leaf(104, 9), Tree::leaf(105, 9), said()];
    for (i, end) in scalars.into_iter().chain(judgments).enumerate() {
        let link = LINKS[if end.is_scalar() { 0 } else { 15 }].1;
        list.ok(&format!("last-{i}-32"), &one_body(nested(end.clone(), link, 31)));
        list.refused(5, &format!("last-{i}-33"), &one_body(nested(end, link, 32)));
    }
}

fn order(list: &mut List) {
    list.section("the order of the checks at one word: 3, 2, 5, 4, 6, 7");
    let words = every_kind().words();
    let at = |kind: u8, nth: usize| place(&words, kind, nth);
    // The kind before the value, whatever the value is of.
    for (name, at, kind, value) in [
        ("path", at(13, 1), 14, 9),
        ("N", 1, 3, 0),
        ("total", 0, 2, 0),
        ("rising", at(4, 1), 5, 0),
        ("used", at(6, 2), 7, 1),
        ("name", at(65, 0), 105, NONE),
        ("flag", at(11, 0), 12, 2),
        ("not", at(100, 0), 64, 1),
    ] {
        list.refused(2, &format!("kind-before-value-{name}"), &put(&words, at, kind, value));
    }
    list.refused(4, "value-N-before-count", &put(&put(&words, 1, 2, 0), 2, 3, 513));
    list.refused(4, "first-word-first", &put(&put(&words, 0, 1, 1), 1, 2, 0));
    let relations = at(5, 0);
    list.refused(4, "value-before-end", &cut(&put(&words, relations, 5, 513), relations + 1));
    // At depth 33: the end of the pack, then the kind, then 5, then the value.
    let (link, turn) = (LINKS[0].1, LINKS[15].1);
    for (name, end, link) in [
        ("scalar", Tree::leaf(65, 10), link),
        ("if", Tree::leaf(71, 1), link),
        ("periods", Tree::leaf(73, 8), link),
        ("count", Tree::leaf(74, NONE), link),
        ("only", Tree::leaf(78, 10), link),
        ("derived", Tree::leaf(105, 10), turn),
        ("not", Tree::leaf(100, 1), turn),
        ("member", Tree::leaf(101, 10), turn),
        ("exists", Tree::leaf(103, NONE), turn),
    ] {
        list.refused(4, &format!("depth-32-bad-{name}"), &one_body(nested(end.clone(), link, 31)));
        list.refused(5, &format!("depth-33-bad-{name}"), &one_body(nested(end, link, 32)));
    }
    for (name, end, link) in [
        ("judgment-for-scalar", Tree::leaf(104, 0), link),
        ("scalar-for-judgment", Tree::leaf(64, 0), turn),
        ("unused-kind", Tree::leaf(107, 0), turn),
        ("field", Tree::leaf(80, 0), link),
    ] {
        list.refused(2, &format!("depth-33-{name}"), &one_body(nested(end, link, 32)));
    }
    list.refused(5, "depth-33-where", &one_body(nested(sum(74, 0, (0, 0), Some(said())), link, 31)));
    list.refused(5, "depth-33-exists-body", &one_body(nested(exists(0, said()), turn, 31)));
    list.refused(5, "depth-33-comparison", &one_body(nested(node(96, 0, [leaf(), leaf()]), turn, 31)));
    list.refused(3, "depth-33-ended", &cut(&one_body(nested(leaf(), link, 32)), 42));
    list.refused(3, "depth-32-ended", &cut(&one_body(nested(leaf(), link, 31)), 41));
    // The first of two faults.
    let only = put(&words, at(78, 0), 78, 60);
    list.refused(4, "fault-before-end", &cut(&only, only.len() - 1));
    list.refused(4, "fault-before-left-over", &longer(&put(&words, at(32, 1), 32, 2), &[0]));
}

fn rising(list: &mut List) {
    list.section("6 a defaulted name not above the one before");
    let names = |names: &[u32]| Pack { defaulted: names.to_vec(), ..empty(20) }.words();
    let all: Vec<u32> = (0..20).collect();
    for (name, good) in [("first-0", &[0][..]), ("last", &[19]), ("all", &all), ("apart", &[0, 9, 19])] {
        list.ok(&format!("rising-{name}"), &names(good));
    }
    for (i, bad) in
        [&[3, 3][..], &[0, 0], &[19, 19], &[3, 2], &[1, 0], &[19, 0], &[1, 5, 5], &[1, 5, 4], &[1, 5, 1], &[4, 4, 4]]
            .iter()
            .enumerate()
    {
        list.refused(6, &format!("not-rising-{i}"), &names(bad));
    }
    let many: Vec<u32> = (0..511).chain([510]).collect();
    list.refused(6, "not-rising-512th", &Pack { defaulted: many, ..empty(4096) }.words());
    // A name that is not below N is above all before it: 4, never 6.
    list.refused(4, "rising-N", &names(&[19, 20]));
    list.refused(4, "rising-N-twice", &names(&[20, 20]));
}

fn used(list: &mut List) {
    list.section("7 a relation name used before, with the name");
    let relations =
        |names: &[u32]| Pack { relations: names.iter().map(|&x| named(x)).collect(), ..empty(4096) }.words();
    list.ok("used-never", &relations(&[5, 4, 19, 0, 3]));
    let far: Vec<u32> = [4095].into_iter().chain(0..510).chain([4095]).collect();
    for (name, names, twice) in [
        ("directly", &[7, 7][..], 7),
        ("directly-0", &[0, 0], 0),
        ("directly-last", &[4095, 4095], 4095),
        ("apart", &[3, 9, 4, 3], 3),
        ("second", &[3, 9, 4, 9], 9),
        ("after-first", &[3, 3, 9, 9], 3),
        ("512th", &far, 4095),
    ] {
        let case = list.refused(7, &format!("used-{name}"), &relations(names));
        assert_eq!(case.reading.as_ref().unwrap_err().name, twice);
    }
    // A name is used by a relation's own name alone.
    let mut every = named(1).origin(2).kinds(&[2, 2]).source(2).path(1).entity(2).entities(&[2]);
    every.derived.as_mut().unwrap().member = 2;
    let elsewhere = Pack { defaulted: vec![1, 2], relations: vec![every, named(2)], ..empty(4) };
    list.ok("used-elsewhere", &elsewhere.words());
    let alike = vec![block(3, &vec![item(1, false, NONE); 2]); 2];
    list.ok("rules-named-alike", &Pack { rules: vec![rule(3, 0, vec![leaf()]); 2], blocks: alike, ..empty(4) }.words());
}

/// Whether a word of another kind may stand where this one stands.
fn fits(kind: u8, other: u8) -> bool {
    match kind {
        82 | 84 => other == 82 || other == 84,
        64..=78 => (64..=78).contains(&other),
        96..=106 => (96..=106).contains(&other),
        _ => kind == other,
    }
}

fn places(list: &mut List) {
    list.section("every place of a pack of 68 words: cut there with the total made right, and not");
    let words = medium().words();
    list.ok("medium", &words).ask_edges(&(0..30).collect::<Vec<_>>(), &[(5, 3), (3, 5), (5, 5)]);
    for at in 6..words.len() {
        list.refused(3, &format!("cut-{at}"), &cut(&words, at));
        list.refused(4, &format!("cut-{at}-total-kept"), &words[..at]);
    }
    list.section("another kind at every place of a pack that has every kind of word");
    let every = every_kind().words();
    for (at, &word) in every.iter().enumerate() {
        let kind = (word >> 24) as u8;
        // In turn one of those that are near, or any.
        let near = [kind.wrapping_add(1), kind ^ 128, kind.wrapping_sub(1), 0, kind.wrapping_add(32), 255];
        let any = (0..=255u8).map(|step| (at as u8).wrapping_mul(97).wrapping_add(step));
        let mut wrong = near.into_iter().cycle().skip(at / 2).take(6 * (1 - at % 2)).chain(any);
        let other = wrong.find(|&other| !fits(kind, other)).unwrap();
        list.refused(2, &format!("kind-{other}-at-{at}"), &put(&every, at, other, word & NONE));
    }
    list.section("8 words left over");
    for (i, more) in
        [word(0, 0), word(29, NONE), word(28, 0), word(1, words.len() as u32 + 1), u32::MAX].into_iter().enumerate()
    {
        list.refused(8, &format!("left-over-{i}"), &longer(&words, &[more]));
    }
    list.refused(8, "left-over-block", &longer(&words, &[word(29, NONE), word(30, NONE)]));
    list.refused(8, "left-over-100", &longer(&words, &[word(28, 0); 100]));
    list.refused(4, "left-over-total-kept", &[&words[..], &[0]].concat());
    list.refused(8, "left-over-smallest", &longer(&smallest(), &[0]));
    list.refused(8, "left-over-8192", &longer(&of_length(8191), &[word(28, 0)]));
}

fn heads(list: &mut List) {
    list.section("kinds that begin no tree of the sort");
    for kind in [0, 1, 27, 33, 34, 63, 79, 80, 82, 84, 86, 87, 95, 96, 100, 106, 107, 127, 128, 192, 206, 255] {
        list.refused(2, &format!("scalar-head-{kind}"), &put(&one_body(leaf()), 10, kind, 0));
    }
    for kind in [0, 1, 27, 33, 34, 63, 64, 71, 78, 79, 80, 82, 84, 86, 87, 95, 107, 127, 128, 224, 234, 255] {
        list.refused(2, &format!("judgment-head-{kind}"), &put(&one_body(said()), 10, kind, 0));
    }
    for kind in [82, 84] {
        list.ok(&format!("only-related-{kind}"), &one_body(only_of(0, (0, 0), kind, 1)));
    }
    for kind in [65, 80, 81, 83, 85, 86, 105, 210, 212] {
        list.refused(2, &format!("only-related-{kind}"), &one_body(only_of(0, (0, 0), kind, 1)));
    }
    for (i, (kind, fields)) in [
        (74, &[(81, 0), (80, 0), (86, 0), (83, 0)][..]),
        (74, &[(80, 0), (81, 0), (83, 0), (86, 0)]),
        (78, &[(81, 0), (80, 0), (82, 0)]),
        (101, &[(81, 0), (80, 0)]),
    ]
    .into_iter()
    .enumerate()
    {
        list.refused(2, &format!("fields-swapped-{i}"), &one_body(Tree::new(kind, 0, fields, vec![])));
    }
}
