//! All kinds over the static library: its answer, and every byte of the buffer after it.
mod beside;

use beside::NO_ROOM;
use cogunwa::{Written, all_kinds, bytes_of, words_of};
use cogunwa_model::damage::damaged;
use cogunwa_model::generate::Form;
use cogunwa_model::packs::{self, graph, named};
use cogunwa_model::records::Relation;
use cogunwa_model::replay::by_chance;
use cogunwa_model::{Chance, read};

/// The places and the steps of a graph, with just room enough.
fn settled(names: u32, relations: &[Relation]) -> (Vec<u32>, u32) {
    let pack = bytes_of(&graph(names, relations));
    beside::all_kinds(&pack, 4 * relations.len()).unwrap();
    let mut out = vec![0; 4 * relations.len()];
    let written = all_kinds(&pack, &mut out).unwrap();
    (words_of(&out), written.steps)
}

/// Relations in a row: each inherits from the next.
fn chain(length: u32, last: Relation) -> Vec<Relation> {
    let mut relations: Vec<Relation> = (0..length - 1).map(|name| named(name).source(name + 1)).collect();
    relations.push(last);
    relations
}

#[test]
fn worked_cases() {
    // The first relation starts at word 4: its list 9 has its count at word 7.
    assert_eq!(settled(10, &[named(5).kinds(&[1, 2]), named(6).source(5)]), (vec![7, 7], 2));
    assert_eq!(settled(10, &[named(6).source(5), named(5).kinds(&[1, 2])]), (vec![20, 20], 2));
    assert_eq!(settled(10, &[named(5).source(6), named(6).source(5)]), (vec![0, 0], 2));
    assert_eq!(settled(10, &[named(5).source(9)]), (vec![0], 2));
    assert_eq!(settled(10, &[named(5).source(5)]), (vec![0], 1));
    assert_eq!(settled(10, &[named(5).kinds(&[1, 2]), named(6).source(5).path(0)]), (vec![7, 0], 2));
    assert_eq!(settled(10, &[named(5).kinds(&[1, 2]), named(6).source(5).path(8)]), (vec![7, 0], 2));
    assert_eq!(settled(10, &[named(5).kinds(&[1, 2]).entities(&[2, 1])]), (vec![17], 1));
}

#[test]
fn the_sample() {
    // One relation inherits from the other, whose list is at word 8.
    let mut out = [9; 12];
    assert_eq!(all_kinds(&bytes_of(&packs::household()), &mut out), Ok(Written { words: 2, steps: 2 }));
    assert_eq!(out, [8, 0, 0, 0, 8, 0, 0, 0, 9, 9, 9, 9]);
}

#[test]
fn one_declaration() {
    // No lists: with and without a derivation, with a path alone, with no source.
    for relation in [named(3), named(3).derived(), named(3).path(2), named(3).path(0)] {
        assert_eq!(settled(4, &[relation]), (vec![0], 1));
    }
    // Lists of 1 and of 8, and a list that is settled whatever source and path stand beside it.
    for count in [1, 8] {
        let kinds: Vec<u32> = (0..count).collect();
        assert_eq!(settled(9, &[named(3).kinds(&kinds)]), (vec![7], 1));
        assert_eq!(settled(9, &[named(3).kinds(&kinds).source(4)]), (vec![7], 1));
        assert_eq!(settled(9, &[named(3).kinds(&kinds).source(4).path(1)]), (vec![7], 1));
        assert_eq!(settled(9, &[named(3).entities(&kinds)]), (vec![15], 1));
        assert_eq!(settled(9, &[named(3).entities(&kinds).source(4)]), (vec![15], 1));
        assert_eq!(settled(9, &[named(3).entities(&kinds).source(4).path(0)]), (vec![15], 1));
        assert_eq!(settled(9, &[named(3).entities(&kinds).source(4).path(8)]), (vec![15 + 24], 1));
        assert_eq!(settled(9, &[named(3).kinds(&kinds).entities(&kinds)]), (vec![15 + count], 1));
    }
    // Name 0 is a name, and so is N - 1.
    assert_eq!(settled(4096, &[named(0).source(4095), named(4095).entities(&[0])]), (vec![28, 28], 2));
    assert_eq!(settled(4096, &[named(4095).source(0), named(0).kinds(&[4095])]), (vec![20, 20], 2));
}

#[test]
fn chains() {
    for length in [1, 2, 3, 512] {
        // Each but the last has 13 words.
        let last = 4 + 13 * (length - 1);
        let steps = length;
        let kinds = chain(length, named(length - 1).kinds(&[7, 7]));
        assert_eq!(settled(600, &kinds), (vec![last + 3; length as usize], steps));
        let entities = chain(length, named(length - 1).entities(&[7]).source(0));
        assert_eq!(settled(600, &entities), (vec![last + 11; length as usize], steps));
        let without = chain(length, named(length - 1));
        assert_eq!(settled(600, &without), (vec![0; length as usize], steps));
        let path = chain(length, named(length - 1).source(0).path(0));
        assert_eq!(settled(600, &path), (vec![0; length as usize], steps));
        let undeclared = chain(length, named(length - 1).source(599));
        assert_eq!(settled(600, &undeclared), (vec![0; length as usize], steps + 1));
        // In any order every relation of the chain has the one place.
        let mut chance = Chance::new(u64::from(length));
        for _ in 0..5 {
            let mut relations = kinds.clone();
            chance.mix(&mut relations);
            let (places, steps) = settled(600, &relations);
            assert!(places.iter().all(|&place| place == places[0] && place != 0));
            assert_eq!(steps, length);
        }
    }
}

#[test]
fn rings() {
    for length in [1, 2, 3, 512] {
        let mut ring = chain(length, named(length - 1).source(0));
        assert_eq!(settled(600, &ring), (vec![0; length as usize], length));
        Chance::new(u64::from(length)).mix(&mut ring);
        assert_eq!(settled(600, &ring), (vec![0; length as usize], length));
    }
    // Relations that lead into a ring, at its start, at its end and one after the other; first and last in the order.
    for length in [1, 2, 3, 500] {
        let ring = chain(length, named(length - 1).source(0));
        let feeders =
            [named(600).source(0), named(601).source(length - 1), named(602).source(601), named(603).source(602)];
        let count = ring.len() + feeders.len();
        assert_eq!(settled(700, &[&ring[..], &feeders].concat()), (vec![0; count], count as u32));
        assert_eq!(settled(700, &[&feeders, &ring[..]].concat()), (vec![0; count], count as u32));
        // A list on the way to the ring settles, and so does one beside a source that leads into it.
        let beside = [named(600).source(601), named(601).source(0).kinds(&[1, 2])];
        let (places, steps) = settled(700, &[&beside, &ring[..]].concat());
        assert_eq!(places[..2], [20, 20]);
        assert!(places[2..].iter().all(|&place| place == 0));
        assert_eq!(steps, length + 2);
    }
}

#[test]
fn shared_tails() {
    // Three chains of 150 that lead into one of 50, which has the kinds.
    let mut relations = chain(50, named(49).kinds(&[1, 2]));
    for start in [100, 300, 500] {
        relations.extend((start..start + 149).map(|name| named(name).source(name + 1)));
        relations.push(named(start + 149).source(start / 20));
    }
    let place = 4 + 13 * 49 + 3;
    assert_eq!(settled(700, &relations), (vec![place; 500], 500));
    relations.rotate_left(50);
    let (places, steps) = settled(700, &relations);
    assert!(places.iter().all(|&p| p == places[0] && p != 0));
    assert_eq!(steps, 500);
}

#[test]
fn undeclared_sources() {
    // Each undeclared name is one step, however many inherit from it; a source beside a list or a path is none.
    let shared: Vec<Relation> = (0..20).map(|name| named(name).source(100 + name % 3)).collect();
    assert_eq!(settled(200, &shared), (vec![0; 20], 23));
    let beside = [
        named(0).source(100),
        named(1).source(101).kinds(&[1]),
        named(2).source(102).path(0),
        named(3).source(103).entities(&[1]),
        named(4).source(100),
    ];
    assert_eq!(settled(200, &beside).1, 6);
    // The most steps there can be.
    let most: Vec<Relation> = (0..512).map(|name| named(name).source(4095 - name)).collect();
    assert_eq!(settled(4096, &most), (vec![0; 512], 1024));
}

#[test]
fn buffers_of_every_length() {
    for words in [packs::smallest(), packs::household(), graph(9, &chain(5, named(4).kinds(&[1])))] {
        let pack = bytes_of(&words);
        let relations = read(&words).unwrap().pack.relations.len();
        for room in 0..4 * relations + 20 {
            let answer = beside::all_kinds(&pack, room);
            assert_eq!(answer.is_ok(), room >= 4 * relations);
            assert!(answer.is_ok() || answer == Err(NO_ROOM));
        }
    }
    let most = bytes_of(&graph(4096, &chain(512, named(511).kinds(&[1]))));
    for room in (2040..2060).chain([0, 32_767, 32_768, 32_769, 65_536]) {
        assert_eq!(beside::all_kinds(&most, room).is_ok(), room >= 2048);
    }
}

#[test]
fn refused_packs_leave_the_buffer() {
    let household = bytes_of(&packs::household());
    for length in 0..household.len() {
        for room in [0, length, 40_000] {
            assert!(beside::all_kinds(&household[..length], room).is_err());
        }
    }
    let longer = bytes_of(&packs::of_length(8193));
    for length in 32_765..=32_772 {
        let number = if length == 32_768 { 4 } else { 1 };
        assert_eq!(beside::all_kinds(&longer[..length], 40_000).unwrap_err().number, number, "{length} bytes");
    }
    // Check's refusals come before 16.
    let mut damaged = household.clone();
    damaged[4] = 0;
    for room in [0, 1, 40_000] {
        assert_eq!(beside::all_kinds(&damaged, room).unwrap_err().number, 4);
    }
}

#[test]
fn packs_made_by_chance() {
    by_chance(31_415, 3000, &[Form::Mixed, Form::Tangled, Form::Tangled], |words, chance| {
        let pack = bytes_of(words);
        let exact = 4 * read(words).unwrap().pack.relations.len();
        for room in [exact, exact + 1 + chance.below(9) as usize, exact.saturating_sub(1), 32_768] {
            assert_eq!(beside::all_kinds(&pack, room).is_ok(), room >= exact);
        }
        for _ in 0..5 {
            let _ = beside::all_kinds(&bytes_of(&damaged(chance, words)), exact + 4);
        }
    });
}
