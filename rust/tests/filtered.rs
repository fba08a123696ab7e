//! The filtered tables over the static library: their answers, and every byte of the buffer after them.
mod beside;

use beside::NO_ROOM;
use cogunwa::{NONE, bytes_of};
use cogunwa_model::damage::damaged;
use cogunwa_model::generate::Form;
use cogunwa_model::packs::{self, graph, named};
use cogunwa_model::records::Relation;
use cogunwa_model::replay::by_chance;
use cogunwa_model::{Chance, read};

/// The tables of a graph, with just room enough.
fn tables(names: u32, relations: &[Relation]) -> Vec<Vec<u32>> {
    beside::tables(&bytes_of(&graph(names, relations)), 4 * names as usize).unwrap()
}

/// What the tables say of one name.
fn said(names: u32, relations: &[Relation], entity: u32) -> Vec<u32> {
    tables(names, relations).iter().map(|table| table[entity as usize]).collect()
}

/// A derivation that gives the entity this kind.
fn takes(name: u32, entity: u32, kind: u32) -> Relation {
    named(name).entity(entity).entities(&[kind])
}

#[test]
fn worked_cases() {
    let no = NONE;
    // A ring, and one that leads there.
    let ring = tables(6, &[takes(0, 3, 4), takes(1, 4, 3), takes(2, 5, 3)]);
    assert_eq!(ring[0], [no, no, no, 4, 3, 3]);
    assert_eq!(ring[1], [no; 6]);
    assert_eq!(ring[2], [0, 0, 0, 1, 1, 1]);
    assert_eq!(ring[3], [0; 6]);
    // A name mapped to itself, one and two steps before it; a name without direct at the end.
    let ways = [takes(0, 3, 3), takes(1, 4, 3), takes(2, 5, 4), takes(3, 0, 1), takes(4, 1, 2)];
    let ways = tables(6, &ways);
    assert_eq!(ways[0], [1, 2, no, 3, 3, 4]);
    assert_eq!(ways[1], [2, 2, no, 3, 3, 3]);
    assert_eq!(ways[2], [1, 1, 0, 0, 1, 1]);
    assert_eq!(ways[3], [0; 6]);
    // Direct, not innermost, where both are some and unlike.
    assert_ne!(ways[0], ways[1]);
    // No derivation: nothing is said of any name.
    assert_eq!(tables(2, &[named(0).kinds(&[1, 1])]), [vec![no, no], vec![no, no], vec![0, 0], vec![0, 0]]);
    assert_eq!(tables(1, &[]), [vec![no], vec![no], vec![0], vec![0]]);
}

#[test]
fn the_sample() {
    let household = bytes_of(&packs::household());
    let names = read(&packs::household()).unwrap().pack.n as usize;
    beside::tables(&household, 4 * names).unwrap();
}

#[test]
fn slots_and_lists() {
    let resolved = |kind| vec![kind, kind, 1, 0];
    let open = vec![NONE, NONE, 0, 1];
    let unnamed = vec![NONE, NONE, 0, 0];
    // In range or not, in lists of 1 to 8.
    for count in 1..=8 {
        let kinds: Vec<u32> = (10..10 + count).collect();
        for slot in [0, 1, 2, 6, 7, 8, 9, 65_536, 0xFF_FFFF] {
            let expected = if slot < count { resolved(10 + slot) } else { open.clone() };
            assert_eq!(said(20, &[named(3).entity(5).current_slot(slot).kinds(&kinds)], 5), expected);
            assert_eq!(said(20, &[named(3).entity(5).current_slot(slot).entities(&kinds)], 5), expected);
            let inherits = [named(2).kinds(&kinds), named(3).entity(5).current_slot(slot).source(2)];
            assert_eq!(said(20, &inherits, 5), expected);
            let through = [named(4).source(3), inherits[1].clone(), inherits[0].clone()];
            assert_eq!(said(20, &through, 5), expected);
        }
    }
    // List 21 goes before list 9. The kind of a slot counts, not the list of another relation.
    let both = named(3).entity(5).kinds(&[6, 7]).entities(&[8, 9]).current_slot(1);
    assert_eq!(said(20, &[both], 5), resolved(9));
    // No kinds: no list, a path of any count, a ring, an undeclared source.
    let derived = named(3).entity(5);
    assert_eq!(said(20, std::slice::from_ref(&derived), 5), open);
    for steps in [0, 8] {
        assert_eq!(said(20, &[named(2).kinds(&[1]), derived.clone().source(2).path(steps)], 5), open);
    }
    assert_eq!(said(20, &[derived.clone().source(3)], 5), open);
    assert_eq!(said(20, &[derived.clone().source(2), named(2).source(3)], 5), open);
    assert_eq!(said(20, &[derived.source(19)], 5), open);
    // No entity: the derivation gives no name a kind.
    for name in 0..20 {
        assert_eq!(said(20, &[named(3).kinds(&[1, 2]).derived()], name), unnamed);
    }
}

#[test]
fn kinds_equal_and_unlike() {
    // Equal kinds are one, unlike ones none; a kind that is the entity itself is no alias.
    let given = |kinds: &[u32]| {
        let relations: Vec<Relation> = kinds.iter().zip(0..).map(|(&kind, name)| takes(name, 5, kind)).collect();
        said(20, &relations, 5)
    };
    assert_eq!(given(&[7]), [7, 7, 1, 0]);
    assert_eq!(given(&[7, 7]), [7, 7, 1, 0]);
    assert_eq!(given(&[7, 7, 7, 7]), [7, 7, 1, 0]);
    assert_eq!(given(&[0]), [0, 0, 1, 0]);
    assert_eq!(given(&[0, 0]), [0, 0, 1, 0]);
    assert_eq!(given(&[5]), [5, 5, 0, 0]);
    assert_eq!(given(&[5, 5]), [5, 5, 0, 0]);
    for unlike in [&[7, 8][..], &[7, 8, 7], &[7, 7, 8], &[0, 1], &[5, 7], &[7, 5], &[5, 5, 0], &[1, 2, 3]] {
        assert_eq!(given(unlike), [NONE, NONE, 1, 0], "{unlike:?}");
    }
    // One that takes none counts for nothing beside one that takes a kind, before it or after it.
    let slack = takes(9, 5, 8).current_slot(1);
    assert_eq!(said(20, &[slack.clone(), takes(0, 5, 7)], 5), [7, 7, 1, 0]);
    assert_eq!(said(20, &[takes(0, 5, 7), slack.clone()], 5), [7, 7, 1, 0]);
    assert_eq!(said(20, &[takes(0, 5, 5), slack.clone()], 5), [5, 5, 0, 0]);
    assert_eq!(said(20, &[slack.clone(), named(8).entity(5)], 5), [NONE, NONE, 0, 1]);
    // Several kinds end a way: what leads there stops at that name.
    let several = [takes(0, 5, 7), takes(1, 5, 8), takes(2, 4, 5), takes(3, 3, 4)];
    assert_eq!(tables(9, &several)[1], [NONE, NONE, NONE, 5, 5, NONE, NONE, NONE, NONE]);
}

#[test]
fn long_ways() {
    for (names, count) in [(3, 2), (4096, 512), (513, 512)] {
        let mut relations: Vec<Relation> = (0..count).map(|name| takes(name, name, name + 1)).collect();
        let chain = tables(names, &relations);
        for e in 0..names {
            let on = e < count;
            assert_eq!(chain[0][e as usize], if on { e + 1 } else { NONE });
            assert_eq!(chain[1][e as usize], if on { count } else { NONE });
            assert_eq!(chain[2][e as usize], u32::from(on));
        }
        Chance::new(u64::from(names)).mix(&mut relations);
        assert_eq!(tables(names, &relations), chain);
        // The last leads back to the first, or is its own.
        let last = relations.len() as u32 - 1;
        let at = relations.len() - 1;
        let mut ordered: Vec<Relation> = (0..count).map(|name| takes(name, name, name + 1)).collect();
        ordered[at] = takes(last, last, 0);
        assert!(tables(names, &ordered)[1].iter().all(|&kind| kind == NONE));
        ordered[at] = takes(last, last, last);
        let own = tables(names, &ordered);
        assert!((0..count).all(|e| own[1][e as usize] == last));
        assert_eq!(own[2][last as usize], 0);
    }
    // The first and the last name there can be.
    let ends = tables(4096, &[takes(0, 4095, 0), takes(4095, 0, 4095)]);
    assert_eq!((ends[0][0], ends[0][4095], ends[1][0], ends[1][4095]), (4095, 0, NONE, NONE));
    let ends = tables(4096, &[takes(4095, 4095, 4095), takes(0, 0, 4095)]);
    assert_eq!((ends[0][0], ends[0][4095], ends[1][0], ends[1][4095]), (4095, 4095, 4095, 4095));
}

#[test]
fn buffers_of_every_length() {
    for words in [packs::smallest(), packs::household(), graph(9, &[takes(1, 2, 3), takes(2, 3, 3)])] {
        let pack = bytes_of(&words);
        let exact = 4 * read(&words).unwrap().pack.n as usize;
        for room in 0..exact + 20 {
            let answer = beside::tables(&pack, room);
            assert_eq!(answer.is_ok(), room >= exact);
            assert!(answer.is_ok() || answer == Err(NO_ROOM));
        }
    }
    for names in [4095, 4096] {
        let most = bytes_of(&graph(names, &[takes(1, 2, 3)]));
        let exact = 4 * names as usize;
        for room in (exact - 9..exact + 9).chain([0, 32_767, 32_768, 32_769, 65_536]) {
            assert_eq!(beside::tables(&most, room).is_ok(), room >= exact);
        }
    }
}

#[test]
fn refused_packs_leave_the_buffer() {
    let household = bytes_of(&packs::household());
    for length in 0..household.len() {
        for room in [0, length, 40_000] {
            let number = if length < 24 || length % 4 != 0 { 1 } else { 4 };
            assert_eq!(beside::tables(&household[..length], room).unwrap_err().number, number, "{length} bytes");
        }
    }
    let longer = bytes_of(&packs::of_length(8193));
    for length in 32_765..=32_772 {
        let number = if length == 32_768 { 4 } else { 1 };
        assert_eq!(beside::tables(&longer[..length], 40_000).unwrap_err().number, number, "{length} bytes");
    }
    // Check's refusals come before 16.
    let mut damaged = household.clone();
    damaged[4] = 0;
    for room in [0, 1, 40_000] {
        assert_eq!(beside::tables(&damaged, room).unwrap_err().number, 4);
    }
}

/// How often names of each sort came up.
#[derive(Debug, Default)]
struct Tally {
    unresolved: usize,
    several: usize,
    own: usize,
    in_a_ring: usize,
    on_the_way: usize,
}

impl Tally {
    fn count(&mut self, tables: &[Vec<u32>]) {
        for (e, &kind) in tables[0].iter().enumerate() {
            let (inner, alias, unresolved) = (tables[1][e], tables[2][e], tables[3][e]);
            self.unresolved += usize::from(unresolved == 1);
            self.several += usize::from(kind == NONE && alias == 1);
            self.own += usize::from(kind == e as u32);
            self.in_a_ring += usize::from(kind != NONE && inner == NONE);
            self.on_the_way += usize::from(inner != NONE && inner != kind);
        }
    }
}

#[test]
fn packs_made_by_chance() {
    let mut tally = Tally::default();
    let forms = [Form::Mixed, Form::Tangled, Form::Entities, Form::Entities];
    let all = by_chance(57_721, 3000, &forms, |words, chance| {
        let pack = bytes_of(words);
        let exact = 4 * read(words).unwrap().pack.n as usize;
        tally.count(&beside::tables(&pack, exact).unwrap());
        beside::tables(&pack, exact + 1 + chance.below(9) as usize).unwrap();
        assert_eq!(beside::tables(&pack, exact - 1), Err(NO_ROOM));
        for _ in 0..5 {
            let _ = beside::tables(&bytes_of(&damaged(chance, words)), exact + 4);
        }
    });
    // The packs are not all alike.
    let Tally { unresolved, several, own, in_a_ring, on_the_way } = tally;
    for count in [unresolved, several, own, in_a_ring, on_the_way] {
        assert!(!all || count > 500, "{tally:?}");
    }
}
