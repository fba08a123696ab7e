//! The ways of `leans`, held to what Lean answers, on all replayed packs and on packs by chance; and that a wrong way is seen.
mod cases;

use cogunwa_model::generate::Form;
use cogunwa_model::packs::{forked, graph, layered, named};
use cogunwa_model::records::NONE;
use cogunwa_model::replay::by_chance;
use cogunwa_model::{Chance, Pack};
use cogunwa_tool::leaning::{By, Move, compare, find, way};
use cogunwa_tool::read::read;
use std::collections::BTreeSet;

/// The names that a name's derivation leads to, by the model.
fn next(pack: &Pack, name: u32) -> Vec<(u32, By)> {
    let derived = pack.relations.iter().find(|relation| relation.name == name).and_then(|r| r.derived.as_ref());
    let source = derived.map(|d| (d.source, By::Source)).filter(|&(source, _)| source != NONE);
    let steps = derived.into_iter().flat_map(|d| d.path.iter().flatten()).map(|step| (step[0], By::Step));
    source.into_iter().chain(steps).collect()
}

/// How many moves lead from a name to another at the least.
fn fewest(pack: &Pack, from: u32, to: u32) -> Option<usize> {
    let mut reached = BTreeSet::from([from]);
    for moves in 1..=pack.relations.len() + 1 {
        let led: BTreeSet<u32> = reached.iter().flat_map(|&name| next(pack, name)).map(|(name, _)| name).collect();
        if led.contains(&to) {
            return Some(moves);
        }
        reached.extend(led);
    }
    None
}

/// Finds the way between two names and looks at each move of it; says how many there are, and whether both sorts are among them.
fn hold(words: &[u32], from: u32, to: u32) -> Option<(usize, bool)> {
    let model = cogunwa_model::read(words).unwrap().pack;
    let leans = cogunwa::lean(&cogunwa::bytes_of(words), from, to).unwrap();
    let found =
        find(&read(words).unwrap(), from, to, leans).unwrap_or_else(|t| panic!("{from} on {to}: {}", t.message));
    assert_eq!(found.as_ref().map(Vec::len), fewest(&model, from, to), "{from} on {to}");
    let way = found?;
    assert_eq!((way[0].from, way[way.len() - 1].to), (from, to));
    assert!(way.windows(2).all(|pair| pair[0].to == pair[1].from), "{way:?}");
    for Move { from, to, by } in &way {
        assert!(next(&model, *from).contains(&(*to, *by)), "{way:?}");
    }
    Some((way.len(), [By::Source, By::Step].iter().all(|by| way.iter().any(|link| link.by == *by))))
}

/// Pairs of the names that a pack meets, so many.
fn pairs(chance: &mut Chance, words: &[u32], count: usize) -> Vec<(u32, u32)> {
    let met = cogunwa_model::read(words).unwrap().pack.met();
    if met.is_empty() { vec![] } else { (0..count).map(|_| (chance.one(&met), chance.one(&met))).collect() }
}

#[test]
fn every_replayed_pack() {
    let (mut yes, mut no) = (0, 0);
    for (number, case) in cases::replayed().iter().filter(|case| case.accepted).enumerate() {
        for (a, b) in pairs(&mut Chance::nth(2230, number as u64), &case.words, 4) {
            *if hold(&case.words, a, b).is_some() { &mut yes } else { &mut no } += 1;
        }
    }
    assert!(yes > 500 && no > 500, "{yes} {no}");
}

#[test]
fn packs_by_chance() {
    let (mut no, mut longest, mut mixed, mut rings) = (0, 0, 0, 0);
    let all = by_chance(2231, 400, &[Form::Paths, Form::Paths, Form::Tangled, Form::Program], |words, chance| {
        for (a, b) in pairs(chance, words, 40) {
            match hold(words, a, b) {
                None => no += 1,
                Some((moves, both)) => {
                    longest = longest.max(moves);
                    mixed += usize::from(both);
                    rings += usize::from(a == b);
                }
            }
        }
    });
    assert!(!all || no > 1000 && longest > 12 && mixed > 300 && rings > 20, "{no} {longest} {mixed} {rings}");
}

#[test]
fn many_ways() {
    assert_eq!(hold(&graph(4096, &layered(221, 4, 8)), 0, 220).map(|(moves, _)| moves), Some(28));
    assert_eq!(hold(&graph(4096, &forked(512)), 0, 511), Some((256, true)));
}

/// A way that is not Lean's is seen: one where there is none, and none where there is one.
#[test]
fn wrong_ways_are_seen() {
    let pack = read(&graph(9, &[named(1).source(2), named(2).steps(&[4, 3])])).unwrap();
    let found = way(&pack, 1, 3).unwrap();
    assert_eq!(found, [Move { from: 1, to: 2, by: By::Source }, Move { from: 2, to: 3, by: By::Step }]);
    assert_eq!(compare(Some(&found), true), Ok(()));
    assert_eq!(compare(None, false), Ok(()));
    for (a, b, leans) in [(1, 3, false), (3, 1, true), (1, 1, true)] {
        let trouble = find(&pack, a, b, leans).unwrap_err();
        assert_eq!(trouble.code, 3);
        assert!(trouble.message.contains("the tool and the library disagree: Lean says "), "{}", trouble.message);
    }
}
