//! The model by itself, on cases with known answers. The library is compared with it in the other tests.

use cogunwa_model::generate::Form;
use cogunwa_model::packs::{graph, named};
use cogunwa_model::records::Relation;
use cogunwa_model::replay::by_chance;
use cogunwa_model::{NONE, Reading, Refusal, word};

const FORMS: [Form; 6] = [Form::Program, Form::Turning, Form::Mixed, Form::Tangled, Form::Entities, Form::Paths];

fn read(names: u32, relations: &[Relation]) -> Reading {
    cogunwa_model::read(&graph(names, relations)).unwrap()
}

/// A derivation that gives the entity this kind.
fn takes(name: u32, entity: u32, kind: u32) -> Relation {
    named(name).entity(entity).entities(&[kind])
}

#[test]
fn all_kinds_own_walks_and_steps() {
    let (mut longest, mut rings, mut kinds) = (0, 0, 0);
    let all = by_chance(27_182, 1500, &[Form::Tangled, Form::Paths], |words, _| {
        let reading = cogunwa_model::read(words).unwrap();
        let (places, steps) = reading.all_kinds(8192).unwrap();
        assert_eq!(steps, reading.steps_by_sources());
        for (relation, &place) in reading.pack.relations.iter().zip(&places) {
            assert_eq!(reading.kinds_of(relation.name).unwrap().unwrap_or(0), place as usize);
            rings += usize::from(reading.lean(relation.name, relation.name).unwrap());
        }
        kinds += places.iter().filter(|&&place| place != 0).count();
        longest = longest.max(places.len());
    });
    // The packs are not all alike.
    assert!(!all || longest > 150 && rings > 1000 && kinds > 1000, "{longest} {rings} {kinds}");
}

#[test]
fn records_are_written_as_they_were_read() {
    by_chance(17_320, 2000, &FORMS, |words, _| {
        assert_eq!(cogunwa_model::read(words).unwrap().pack.words(), words);
    });
}

/// A place leads to the word that it is said to be, and `node_at` to the node.
#[test]
fn places() {
    by_chance(26_457, 500, &FORMS, |words, _| {
        let mut pack = cogunwa_model::read(words).unwrap().pack;
        let (_, places) = pack.written();
        for (relation, placed) in pack.relations.iter().zip(&places.relations) {
            assert_eq!(words[placed.name], word(6, relation.name));
            assert_eq!(words[placed.kinds], word(9, relation.kinds.len() as u32));
            if let Some(d) = &relation.derived {
                assert_eq!(words[placed.own_kinds], word(21, d.kinds.len() as u32));
                assert_eq!(words[placed.predicate], word(d.predicate.kind, d.predicate.value));
            }
        }
        for (place, &found) in words.iter().enumerate() {
            let is_node = matches!(found >> 24, 64..=78 | 96..=106);
            let node = pack.node_at(place).map(|node| word(node.kind, node.value));
            assert_eq!(node, is_node.then_some(found), "{place}");
        }
    });
}

#[test]
fn lean() {
    // Sources lead on whatever lists stand beside them, onto an undeclared name and no further.
    let chain = [named(1).source(2), named(2).source(3).kinds(&[1]), named(3).source(4).path(0).entities(&[1])];
    let pack = read(9, &chain);
    for (a, b, leans) in [(1, 2, true), (1, 4, true), (2, 1, false), (1, 1, false), (4, 1, false), (3, 4, true)] {
        assert_eq!(pack.lean(a, b), Ok(leans), "{a} on {b}");
    }
    let ring = read(9, &[named(1).source(2), named(2).source(1), named(3).source(1), named(4).derived()]);
    for (a, b, leans) in [(1, 1, true), (2, 2, true), (3, 2, true), (3, 3, false), (1, 3, false), (4, 4, false)] {
        assert_eq!(ring.lean(a, b), Ok(leans), "{a} on {b}");
    }
    // So do the steps of paths, each of them, beside a source and without one.
    let steps =
        read(9, &[named(1).steps(&[8, 2]), named(2).source(3).steps(&[4]), named(4).steps(&[5, 4]).kinds(&[1])]);
    for (a, b, leans) in [(1, 8, true), (1, 3, true), (1, 5, true), (2, 8, false), (4, 4, true), (2, 2, false)] {
        assert_eq!(steps.lean(a, b), Ok(leans), "{a} on {b}");
    }
    // The first name comes first.
    let unknown = |name| Err(Refusal { number: 17, place: 0, name, other: 0 });
    assert_eq!(ring.lean(8, 9), unknown(9));
    assert_eq!(ring.lean(10, 9), unknown(10));
}

#[test]
fn filtered_tables() {
    let pack = read(
        12,
        &[
            takes(0, 3, 4),
            takes(1, 4, 3),
            takes(2, 5, 3),
            takes(3, 6, 6),
            takes(4, 7, 6),
            takes(5, 8, 9),
            // Two kinds, one kind twice, a slot out of range, and none at all.
            takes(6, 10, 1),
            takes(7, 10, 2),
            takes(8, 7, 6),
            takes(9, 11, 1).current_slot(1),
            named(10).source(11).entity(2),
        ],
    );
    let no = NONE;
    assert_eq!(pack.direct(12), Ok(vec![no, no, no, 4, 3, 3, 6, 6, 9, no, no, no]));
    assert_eq!(pack.innermost(12), Ok(vec![no, no, no, no, no, no, 6, 6, 9, no, no, no]));
    assert_eq!(pack.alias(12), Ok(vec![0, 0, 0, 1, 1, 1, 0, 1, 1, 0, 1, 0]));
    assert_eq!(pack.unresolved(12), Ok(vec![0, 0, 1, 0, 0, 0, 0, 0, 0, 0, 0, 1]));
    let no_room = Err(Refusal { number: 16, place: 0, name: 0, other: 0 });
    assert_eq!(pack.direct(11), no_room);
    assert_eq!(pack.unresolved(11), no_room);
    // An inherited list counts, and so does a kind 0.
    let pack =
        read(4, &[named(1).kinds(&[0, 2]), named(2).source(1).entity(3).current_slot(1), named(3).source(1).entity(2)]);
    assert_eq!(pack.direct(4), Ok(vec![no, no, 0, 2]));
    assert_eq!(pack.innermost(4), Ok(vec![no, no, 0, 0]));
}
