//! Kinds of one name over the static library.
mod beside;

use cogunwa::{Refusal, all_kinds, bytes_of, kinds_of, words_of};
use cogunwa_model::damage::damaged;
use cogunwa_model::generate::Form;
use cogunwa_model::packs::{self, graph, named};
use cogunwa_model::records::Relation;
use cogunwa_model::replay::by_chance;
use cogunwa_model::{read, read_bytes};

fn unknown(name: u32) -> Result<Option<usize>, Refusal> {
    Err(Refusal { number: 17, place: 0, name, other: 0 })
}

fn held(pack: &[u8], name: u32) -> Result<Option<usize>, Refusal> {
    beside::kinds_of(pack, &read_bytes(pack), name)
}

#[test]
fn worked_cases() {
    let first = named(5).kinds(&[1, 2]);
    let of = |relations: &[Relation], name| kinds_of(&bytes_of(&graph(10, relations)), name);
    let inherits = [first.clone(), named(6).source(5)];
    assert_eq!(of(&inherits, 5), Ok(Some(7)));
    assert_eq!(of(&inherits, 6), Ok(Some(7)));
    let ring = [named(5).source(6), named(6).source(5), named(7).source(5)];
    for name in [5, 6, 7] {
        assert_eq!(of(&ring, name), Ok(None));
    }
    assert_eq!(of(&[named(5).source(9)], 5), Ok(None));
    assert_eq!(of(&[named(5).source(5)], 5), Ok(None));
    for steps in [0, 8] {
        assert_eq!(of(&[first.clone(), named(6).source(5).path(steps)], 6), Ok(None));
    }
    assert_eq!(of(&[first.clone().entities(&[2, 1])], 5), Ok(Some(17)));
    assert_eq!(of(&[named(5).source(9).entities(&[0])], 5), Ok(Some(15)));
    // An undeclared name has no kinds, also one that others inherit from.
    assert_eq!(of(&[named(5).source(9)], 9), Ok(None));
    assert_eq!(of(&[first], 0), Ok(None));
}

#[test]
fn names_around_n() {
    for names in [1, 2, 300, 4095, 4096] {
        let pack = bytes_of(&graph(names, &[named(names - 1).kinds(&[0])]));
        assert_eq!(kinds_of(&pack, names - 1), Ok(Some(7)));
        for name in
            [names, names + 1, 4096, 65_536 + names - 1, 0xFF_FFFF, (1 << 24) + names - 1, u32::MAX - 1, u32::MAX]
        {
            assert_eq!(kinds_of(&pack, name), unknown(name), "{name} of {names}");
        }
    }
    assert_eq!(kinds_of(&bytes_of(&packs::smallest()), 0), Ok(None));
    assert_eq!(kinds_of(&bytes_of(&packs::smallest()), 1), unknown(1));
}

#[test]
fn long_chains_and_rings() {
    for length in [1, 2, 3, 512] {
        let link = |name: u32| named(name).source(name + 1);
        let mut relations: Vec<Relation> = (0..length - 1).map(link).collect();
        relations.push(named(length - 1).kinds(&[1, 2, 3]));
        let chain = bytes_of(&graph(600, &relations));
        *relations.last_mut().unwrap() = named(length - 1).source(0);
        let ring = bytes_of(&graph(600, &relations));
        for name in 0..length {
            assert_eq!(kinds_of(&chain, name), Ok(Some((4 + 13 * (length - 1) + 3) as usize)));
            assert_eq!(kinds_of(&ring, name), Ok(None));
        }
        assert_eq!(kinds_of(&chain, length), Ok(None));
    }
}

#[test]
fn bytes_that_are_no_pack() {
    let household = bytes_of(&packs::household());
    for length in 0..household.len() {
        for name in [0, 1, u32::MAX] {
            let answer = held(&household[..length], name);
            assert_eq!(answer.unwrap_err().number, if length < 24 || length % 4 != 0 { 1 } else { 4 });
        }
    }
    let longer = bytes_of(&packs::of_length(8193));
    for length in 32_765..=32_772 {
        let number = if length == 32_768 { 4 } else { 1 };
        assert_eq!(kinds_of(&longer[..length], 0).unwrap_err().number, number, "{length} bytes");
    }
    // Check's refusals come before 17.
    let mut damaged = household.clone();
    damaged[4] = 0;
    assert_eq!(kinds_of(&damaged, u32::MAX), Err(Refusal { number: 4, place: 1, name: 0, other: 0 }));
}

#[test]
fn packs_made_by_chance() {
    by_chance(16_180, 1500, &[Form::Mixed, Form::Tangled, Form::Tangled], |words, chance| {
        let pack = bytes_of(words);
        let reading = read(words);
        let model = &reading.as_ref().unwrap().pack;
        // The names of relations, and some of the others; each relation's place is the one that All kinds writes.
        let mut out = vec![0; 4 * model.relations.len()];
        all_kinds(&pack, &mut out).unwrap();
        for (relation, place) in model.relations.iter().zip(words_of(&out)) {
            let answer = beside::kinds_of(&pack, &reading, relation.name);
            assert_eq!(answer.unwrap().unwrap_or(0), place as usize);
        }
        for _ in 0..20 {
            let _ = beside::kinds_of(&pack, &reading, chance.below(model.n + 5));
        }
        for _ in 0..10 {
            let _ = held(&bytes_of(&damaged(chance, words)), chance.below(model.n));
        }
    });
}
