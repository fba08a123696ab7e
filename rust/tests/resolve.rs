//! Resolve over the static library: its answer, and every byte of the buffer after it.
mod beside;

use beside::NO_ROOM;
use cogunwa::{Written, bytes_of, resolve, words_of};
use cogunwa_model::NONE;
use cogunwa_model::damage::damaged;
use cogunwa_model::generate::Form;
use cogunwa_model::packs::{self, Words};
use cogunwa_model::replay::by_chance;
use std::collections::BTreeMap;
use std::slice;

type Parts = Vec<(u8, u32)>;

/// The result with just room enough, and the steps. To resolve the result once more changes nothing.
fn resolved(words: &[u32]) -> (Vec<u32>, u32) {
    let pack = bytes_of(words);
    let written = beside::resolve(&pack, 32_768).unwrap();
    let mut out = vec![0; 4 * written.words];
    assert_eq!(resolve(&pack, &mut out), Ok(written));
    let mut again = out.clone();
    assert_eq!(resolve(&out, &mut again), Ok(written));
    assert_eq!(again, out);
    (words_of(&out), written.steps)
}

fn refused(words: &[u32]) -> (u32, usize, u32, u32) {
    let pack = bytes_of(words);
    let refusal = beside::resolve(&pack, pack.len()).unwrap_err();
    for room in [0, 3, 4, 40_000] {
        assert_eq!(beside::resolve(&pack, room), Err(refusal));
    }
    (refusal.number, refusal.place, refusal.name, refusal.other)
}

// ---- records

fn list(kind: u8, names: &[u32]) -> Parts {
    let listed = names.iter().map(|&name| (10, name));
    [(kind, names.len() as u32)].into_iter().chain(listed).collect()
}

fn typed(name: u32, kinds: &[u32]) -> Parts {
    [vec![(6, name), (7, NONE), (8, 2)], list(9, kinds), vec![(11, 0)]].concat()
}

/// A derived relation: its source, slots and entity, lists 9 and 21, and its predicate.
struct Derived<'a> {
    source: u32,
    path: u32,
    slots: (u32, u32),
    entity: u32,
    nine: &'a [u32],
    kinds: &'a [u32],
    predicate: &'a [(u8, u32)],
    origin: u32,
}

const DERIVED: Derived<'static> = Derived {
    source: NONE,
    path: NONE,
    slots: (0, 1),
    entity: NONE,
    nine: &[],
    kinds: &[],
    predicate: &[(106, 0)],
    origin: NONE,
};

fn derived(name: u32, d: Derived) -> Parts {
    let chain =
        vec![(11, 1), (12, d.source), (13, d.path), (17, d.slots.0), (18, d.slots.1), (19, d.entity), (20, NONE)];
    [vec![(6, name), (7, d.origin), (8, 2)], list(9, d.nine), chain, list(21, d.kinds), d.predicate.to_vec()].concat()
}

fn rule(citing: u32, entity: u32, bodies: &[Parts]) -> Parts {
    let mut parts = vec![(23, citing), (24, NONE), (25, entity), (26, bodies.len() as u32)];
    for body in bodies {
        parts.push((27, (body[0].0 >= 96).into()));
        parts.extend(body);
    }
    parts
}

fn sum(relation: u32, slots: (u32, u32), test: Option<Parts>) -> Parts {
    let head = vec![(75, relation), (80, slots.0), (81, slots.1), (86, 4), (83, test.is_some().into())];
    [head, test.unwrap_or_default()].concat()
}

fn only(relation: u32, slots: (u32, u32), value: u8, name: u32) -> Parts {
    vec![(78, relation), (80, slots.0), (81, slots.1), (value, name)]
}

/// A judgment that holds a scalar.
fn holds(scalar: Parts) -> Parts {
    [vec![(96, 5)], scalar, vec![(64, 1)]].concat()
}

fn member(relation: u32, slots: (u32, u32)) -> Parts {
    vec![(101, relation), (80, slots.0), (81, slots.1)]
}

fn block(origin: u32, items: &[(u32, u32, u32)]) -> Parts {
    let items_words = items.iter().flat_map(|&(name, boolean, entity)| [(31, name), (32, boolean), (33, entity)]);
    [(29, origin), (30, items.len() as u32)].into_iter().chain(items_words).collect()
}

/// Twenty names, and these records.
fn pack(defaulted: &[u32], relations: &[Parts], rules: &[Parts], blocks: &[Parts]) -> Vec<u32> {
    let mut w = Words::start(20);
    w.put(3, defaulted.len() as u32);
    for &name in defaulted {
        w.put(4, name);
    }
    for (kind, records) in [(5, relations), (22, rules), (28, blocks)] {
        w.put(kind, records.len() as u32).all(&records.concat());
    }
    w.done()
}

fn one_node(relations: &[Parts], entity: u32, node: Parts) -> Vec<u32> {
    pack(&[], relations, &[rule(17, entity, &[node])], &[])
}

/// The first word of a kind.
fn place(words: &[u32], kind: u32) -> usize {
    words.iter().position(|word| word >> 24 == kind).unwrap()
}

/// The slots of the first node that has some.
fn slots(words: &[u32]) -> (u32, u32) {
    let at = place(words, 80);
    (words[at] & NONE, words[at + 1] & NONE)
}

/// Everything but the slots of the first node stays.
fn only_turned(words: &[u32], to: (u32, u32)) {
    let at = place(words, 80);
    let mut expected = words.to_vec();
    expected[at] = cogunwa::word(80, to.0);
    expected[at + 1] = cogunwa::word(81, to.1);
    assert_eq!(resolved(words).0, expected);
}

// ---- the worked cases

#[test]
fn kinds_and_steps() {
    let five = typed(5, &[1, 2]);
    let stamped = |relations: &[Parts]| resolved(&pack(&[], relations, &[], &[]));
    // K1: the second relation has the first one's kinds, stamped on both its lists.
    let expected = pack(
        &[],
        &[five.clone(), derived(6, Derived { source: 5, nine: &[1, 2], kinds: &[1, 2], ..DERIVED })],
        &[],
        &[],
    );
    assert_eq!(stamped(&[five.clone(), derived(6, Derived { source: 5, ..DERIVED })]), (expected, 2));
    // K2, K3, K4, K5 and K6 have nothing to stamp.
    for (relations, steps) in [
        (vec![derived(5, Derived { source: 6, ..DERIVED }), derived(6, Derived { source: 5, ..DERIVED })], 2),
        (vec![derived(5, Derived { source: 9, ..DERIVED })], 2),
        (vec![derived(5, Derived { source: 5, ..DERIVED })], 1),
        (vec![five.clone(), derived(6, Derived { source: 5, path: 0, ..DERIVED })], 2),
        (vec![derived(5, Derived { nine: &[1, 2], kinds: &[2, 1], ..DERIVED })], 1),
    ] {
        let words = pack(&[], &relations, &[], &[]);
        assert_eq!(resolved(&words), (words, steps));
    }
    // S1: the related slot is out of range.
    let far = |kinds| derived(6, Derived { slots: (0, 5), nine: &[1, 2], kinds, ..DERIVED });
    assert_eq!(stamped(&[far(&[])]), (pack(&[], &[far(&[1, 2])], &[], &[]), 1));
}

#[test]
fn aggregates() {
    let five = typed(5, &[1, 2]);
    let takes = derived(6, Derived { entity: 3, kinds: &[2, 4], ..DERIVED });
    for kind in 74..=77 {
        let node = |slots| {
            let mut node = sum(5, slots, None);
            node[0].0 = kind;
            node
        };
        // A1, A3, A4 and A5.
        only_turned(&one_node(slice::from_ref(&five), 2, node((7, 9))), (1, 0));
        only_turned(&one_node(slice::from_ref(&five), 1, node((7, 9))), (0, 1));
        only_turned(&one_node(slice::from_ref(&five), 3, node((7, 9))), (7, 9));
        only_turned(&one_node(&[five.clone(), takes.clone()], 3, node((7, 9))), (1, 0));
        only_turned(&one_node(&[typed(5, &[1, 2, 3])], 2, node((7, 9))), (7, 9));
        only_turned(&one_node(&[], 2, node((7, 9))), (7, 9));
        // A derived relation supplies its own slots.
        let six = derived(5, Derived { slots: (3, 9), kinds: &[1, 2], ..DERIVED });
        only_turned(&one_node(&[six], 2, node((7, 9))), (3, 9));
        // A2.
        let open = one_node(&[typed(5, &[2, 2])], 2, node((7, 9)));
        assert_eq!(refused(&open), (10, place(&open, u32::from(kind)), 17, 2));
    }
    // The where tree has the kind at the related slot as its entity: 1, borne by slot 1 of the relation 8.
    let words = one_node(&[five, typed(8, &[3, 1])], 2, sum(5, (0, 1), Some(holds(sum(8, (0, 1), None)))));
    let result = resolved(&words).0;
    let inner = words.iter().position(|&word| word == cogunwa::word(75, 8)).unwrap();
    assert_eq!(slots(&result), (1, 0));
    assert_eq!(slots(&result[inner..]), (1, 0));
}

#[test]
fn memberships() {
    let derived_by = |slots, kinds: &'static [u32], predicate: &[(u8, u32)]| {
        derived(6, Derived { slots, kinds, predicate, ..DERIVED })
    };
    // M1, and the same the other way round.
    for (kinds, to) in [([2, 1], (1, 0)), ([1, 2], (0, 1)), ([1, 3], (7, 9)), ([1, 1], (7, 9))] {
        let words = pack(&[], &[typed(5, &kinds), derived_by((0, 1), &[1, 2], &member(5, (7, 9)))], &[], &[]);
        only_turned(&words, to);
    }
    // Equal kinds: 10 if both slots are that kind.
    let words = pack(&[], &[typed(5, &[2, 2]), derived_by((1, 1), &[1, 2], &member(5, (7, 9)))], &[], &[]);
    assert_eq!(refused(&words), (10, place(&words, 101), 6, 2));
    only_turned(&pack(&[], &[typed(5, &[2, 1]), derived_by((1, 1), &[1, 2], &member(5, (7, 9)))], &[], &[]), (7, 9));
    // There is none in a rule, in a where tree, in a pattern and in both parts of OverPeriods.
    only_turned(&one_node(&[typed(5, &[2, 1])], 2, member(5, (7, 9))), (7, 9));
    let chosen = |judgment: Parts| [vec![(71, 0)], judgment, vec![(64, 1), (64, 2)]].concat();
    for (scalar, kept) in [
        (sum(9, (0, 1), Some(member(5, (7, 9)))), true),
        ([vec![(72, 1), (64, 0)], chosen(member(5, (7, 9)))].concat(), true),
        ([vec![(72, 1)], chosen(member(5, (7, 9))), vec![(64, 0)]].concat(), false),
        ([vec![(73, 6)], chosen(member(5, (7, 9)))].concat(), true),
        ([vec![(73, 7), (64, 0)], chosen(member(5, (7, 9)))].concat(), true),
        ([vec![(66, 7)], chosen(member(5, (7, 9)))].concat(), false),
    ] {
        let words = pack(&[], &[typed(5, &[2, 1]), derived_by((0, 1), &[1, 2], &holds(scalar))], &[], &[]);
        let at = place(&words, 101);
        let result = resolved(&words).0;
        assert_eq!(slots(&result[at..]), if kept { (7, 9) } else { (1, 0) });
    }
}

#[test]
fn stamping() {
    let five = typed(5, &[1, 2]);
    let six = |nine: &'static [u32], kinds: &'static [u32], predicate: &'static [(u8, u32)]| {
        derived(6, Derived { source: 5, nine, kinds, predicate, ..DERIVED })
    };
    let none: &'static [u32] = &[];
    // Passed over: an atom or Exists names it, or its predicate holds 102 to 104, with both lists empty.
    for predicate in [&[(102, 9), (85, 0)][..], &[(103, 9), (85, 0), (106, 0)], &[(104, 0)], &[(100, 0), (104, 0)]] {
        let words = pack(&[], &[five.clone(), six(none, none, predicate)], &[], &[]);
        assert_eq!(resolved(&words).0, words);
        let words = pack(&[], &[five.clone(), six(&[3, 4], none, predicate)], &[], &[]);
        assert_eq!(resolved(&words).0, pack(&[], &[five.clone(), six(&[3, 4], &[3, 4], predicate)], &[], &[]));
    }
    for named in [5, 6] {
        let atom = rule(17, 2, &[vec![(64, 0)], vec![(102, named), (85, 0)]]);
        let words = pack(&[], &[five.clone(), six(none, none, &[(106, 0)])], slice::from_ref(&atom), &[]);
        let stamped = pack(&[], &[five.clone(), six(&[1, 2], &[1, 2], &[(106, 0)])], &[atom], &[]);
        assert_eq!(resolved(&words).0, if named == 6 { words } else { stamped });
    }
    // Equal kinds, and a current slot out of range, are not stamped.
    for slots in [(0, 0), (1, 1), (2, 0), (2, 2)] {
        let words = pack(&[], &[five.clone(), derived(6, Derived { source: 5, slots, ..DERIVED })], &[], &[]);
        assert_eq!(resolved(&words).0, words);
    }
}

// ---- refusals

#[test]
fn every_refusal() {
    let five = typed(5, &[1, 2]);
    // 9: the lowest of the defaulted names, whatever the order of the records.
    let equal = |name| derived(name, Derived { kinds: &[3, 3], ..DERIVED });
    for relations in [[equal(8), equal(6)], [equal(6), equal(8)]] {
        let words = pack(&[5, 6, 8], &relations, &[], &[]);
        let at = words.iter().position(|&word| word == cogunwa::word(6, 6)).unwrap();
        assert_eq!(refused(&words), (9, at, 6, 0));
    }
    // 10 to 15, of the second body of a rule and of a predicate. The entity is 2 and the owner 1.
    let good = [(13, 0, 1), (14, 1, 3), (12, 1, 1)];
    let sequence = vec![block(NONE, &good), block(4, &[(11, 1, 1)]), vec![(29, 4), (30, NONE)]];
    let mut no_sequence = sequence.clone();
    no_sequence.push(vec![(29, NONE), (30, NONE)]);
    let relations = [five, typed(8, &[2, 2]), typed(9, &[1, 2, 3])];
    for (number, node, blocks, other) in [
        (10, sum(8, (0, 1), None), &sequence, 2),
        (10, only(8, (0, 1), 84, 12), &sequence, 2),
        (11, only(5, (0, 1), 84, 18), &no_sequence, 18),
        (12, only(5, (0, 1), 82, 12), &no_sequence, 12),
        (13, only(5, (0, 1), 82, 11), &sequence, 11),
        (14, only(5, (0, 1), 82, 13), &sequence, 13),
        (15, only(5, (0, 1), 82, 14), &sequence, 14),
        (15, only(9, (0, 1), 82, 12), &sequence, 12),
    ] {
        let words =
            pack(&[], &relations, &[rule(16, 2, &[vec![(64, 0)], [vec![(66, 0)], node.clone()].concat()])], blocks);
        let at = words.iter().position(|&word| word == cogunwa::word(node[0].0, node[0].1)).unwrap();
        assert_eq!(refused(&words), (number, at, 16, other));
        let predicate = holds(node.clone());
        let last = derived(7, Derived { kinds: &[1, 2], predicate: &predicate, ..DERIVED });
        let words = pack(&[], &[&relations[..], &[last]].concat(), &[], blocks);
        let at = words.iter().position(|&word| word == cogunwa::word(node[0].0, node[0].1)).unwrap();
        assert_eq!(refused(&words), (number, at, 7, other));
    }
    // Two declarations are as bad as none; the owner has no name 0.
    let twice = vec![block(NONE, &good), block(NONE, &[(12, 1, 1)])];
    assert_eq!(refused(&pack(&[], &relations, &[rule(16, 2, &[only(5, (0, 1), 82, 12)])], &twice)).0, 13);
    let zero = [typed(5, &[0, 2])];
    assert_eq!(
        refused(&pack(&[], &zero, &[rule(16, 2, &[only(5, (0, 1), 82, 12)])], &[block(NONE, &[(12, 1, 0)])])).0,
        15
    );
    // The allowed one.
    only_turned(&pack(&[], &relations, &[rule(16, 2, &[only(5, (7, 9), 82, 12)])], &sequence), (1, 0));
}

#[test]
fn the_first_refusal() {
    let equal = derived(6, Derived { kinds: &[3, 3], ..DERIVED });
    let opened = typed(8, &[2, 2]);
    let predicate = holds(sum(8, (0, 1), None));
    let last = derived(7, Derived { kinds: &[1, 2], predicate: &predicate, ..DERIVED });
    let rules = [rule(16, 2, &[sum(8, (0, 1), None)]), rule(17, 2, &[only(8, (0, 1), 82, 1)])];
    let relations = [equal, last.clone(), opened.clone()];
    assert_eq!(refused(&pack(&[6], &relations, &rules, &[])).0, 9);
    assert_eq!(refused(&pack(&[], &relations, &rules, &[])).2, 16);
    assert_eq!(refused(&pack(&[], &relations, &[], &[])).2, 7);
    // Check's refusals come before all, also with equal kinds and an open direction.
    let mut damaged = pack(&[6], &relations, &rules, &[]);
    let end = damaged.len() - 1;
    damaged[end] = 0;
    assert_eq!(refused(&damaged), (2, end, 0, 0));
}

#[test]
fn a_result_of_over_8192_words() {
    // A pack of so many words whose result has two words more.
    let words = |length: u32| {
        let leaves = length - 34;
        let mut add = vec![(68, leaves)];
        add.resize(1 + leaves as usize, (64, 5));
        let relations = [typed(5, &[1, 2]), derived(6, Derived { source: 5, nine: &[1, 2], ..DERIVED })];
        let words = pack(&[], &relations, &[rule(17, 2, &[add])], &[]);
        assert_eq!(words.len(), length as usize);
        words
    };
    let fits = bytes_of(&words(8190));
    assert_eq!(beside::resolve(&fits, 32_768), Ok(Written { words: 8192, steps: 2 }));
    assert_eq!(beside::resolve(&fits, 50_000), Ok(Written { words: 8192, steps: 2 }));
    assert_eq!(beside::resolve(&fits, 32_767), Err(NO_ROOM));
    for length in [8191, 8192] {
        for room in [0, 32_768, 32_772, 50_000] {
            assert_eq!(beside::resolve(&bytes_of(&words(length)), room), Err(NO_ROOM));
        }
    }
}

// ---- buffers and bytes

#[test]
fn the_sample() {
    let words = packs::household();
    let (result, steps) = resolved(&words);
    // The sum runs over the household's persons; the derived relation has the other's kinds, stamped on both its lists.
    assert_eq!((words.len(), result.len(), steps), (60, 64, 2));
    let sums: Vec<_> =
        [9, 7].map(|r| result.iter().position(|&w| matches!(w >> 24, 74 | 75) && w & NONE == r).unwrap()).into();
    assert_eq!(slots(&result[sums[0]..]), (1, 0));
    assert_eq!(slots(&result[sums[1]..]), (1, 0));
}

#[test]
fn buffers_of_every_length() {
    let stamped = pack(&[], &[typed(5, &[1, 2]), derived(6, Derived { source: 5, ..DERIVED })], &[], &[]);
    for words in [packs::smallest(), packs::household(), stamped] {
        let pack = bytes_of(&words);
        let length = 4 * resolved(&words).0.len();
        for room in 0..length + 20 {
            let answer = beside::resolve(&pack, room);
            assert_eq!(answer.is_ok(), room >= length);
            assert!(answer.is_ok() || answer == Err(NO_ROOM));
        }
        for room in [32_767, 32_768, 32_769, 65_536] {
            assert!(beside::resolve(&pack, room).is_ok());
        }
    }
}

#[test]
fn refused_packs_leave_the_buffer() {
    let household = bytes_of(&packs::household());
    for length in 0..household.len() {
        for room in [0, length, 40_000] {
            assert!(beside::resolve(&household[..length], room).is_err());
        }
    }
    let longer = bytes_of(&packs::of_length(8193));
    for length in 32_765..=32_772 {
        let number = if length == 32_768 { 4 } else { 1 };
        assert_eq!(beside::resolve(&longer[..length], 40_000).unwrap_err().number, number, "{length} bytes");
    }
}

#[test]
fn packs_made_by_chance() {
    let mut tally: BTreeMap<u32, usize> = BTreeMap::new();
    let (mut turned, mut stamped) = (0, 0);
    let forms = [
        Form::Mixed,
        Form::Turning,
        Form::Program,
        Form::Turning,
        Form::Program,
        Form::Turning,
        Form::Entities,
        Form::Turning,
    ];
    let all = by_chance(16_180, 20_000, &forms, |words, chance| {
        let pack = bytes_of(words);
        let answer = beside::resolve(&pack, 32_768);
        *tally.entry(answer.map_or_else(|r| r.number, |_| 0)).or_default() += 1;
        if let Ok(written) = answer {
            let (result, _) = resolved(words);
            turned += usize::from(result != words);
            stamped += usize::from(result.len() > words.len());
            let exact = 4 * written.words;
            for room in [exact, exact + 1 + chance.below(9) as usize, exact - 1, chance.below(exact as u32) as usize] {
                assert_eq!(beside::resolve(&pack, room).is_ok(), room >= exact);
            }
        }
        if chance.once(10) {
            for _ in 0..5 {
                let _ = beside::resolve(&bytes_of(&damaged(chance, words)), 32_768);
            }
        }
    });
    if !all {
        return;
    }
    // Every answer of Resolve to a pack that is one is among them, but 16, which needs a longer one.
    for number in [0, 9, 10, 11, 12, 13, 14, 15] {
        assert!(tally.get(&number) > Some(&100), "too few of {number} in {tally:?}");
    }
    assert!(turned > 2000 && stamped > 2000, "{turned} {stamped} {tally:?}");
}
