//! Lean over the static library.
mod beside;

use cogunwa::{Refusal, bytes_of, lean};
use cogunwa_model::damage::damaged;
use cogunwa_model::dealt::dealt;
use cogunwa_model::generate::Form;
use cogunwa_model::packs::{self, forked, graph, layered, named};
use cogunwa_model::records::Relation;
use cogunwa_model::replay::by_chance;
use cogunwa_model::{Chance, MOST_WORDS, read, read_bytes};
use std::sync::mpsc::{self, RecvTimeoutError};
use std::thread;
use std::time::Duration;

fn unknown(name: u32) -> Result<bool, Refusal> {
    Err(Refusal { number: 17, place: 0, name, other: 0 })
}

fn held(pack: &[u8], a: u32, b: u32) -> Result<bool, Refusal> {
    beside::lean(pack, &read_bytes(pack), a, b)
}

/// Which names of a small pack lean on which, as pairs.
fn leaning(names: u32, relations: &[Relation]) -> Vec<(u32, u32)> {
    let pack = bytes_of(&graph(names, relations));
    let pairs = (0..names).flat_map(|a| (0..names).map(move |b| (a, b)));
    pairs.filter(|&(a, b)| lean(&pack, a, b).unwrap()).collect()
}

#[test]
fn worked_cases() {
    assert_eq!(leaning(9, &[named(5).kinds(&[1, 2]), named(6).source(5)]), [(6, 5)]);
    assert_eq!(leaning(9, &[named(1).source(2), named(2).source(3), named(3)]), [(1, 2), (1, 3), (2, 3)]);
    // An undeclared name is leant on and leans on nothing.
    assert_eq!(leaning(9, &[named(5).source(8)]), [(5, 8)]);
    assert_eq!(leaning(9, &[named(5), named(6).derived(), named(7).path(0)]), []);
    // Rings, also of one, and what leads into them.
    assert_eq!(leaning(9, &[named(5).source(5)]), [(5, 5)]);
    assert_eq!(leaning(9, &[named(5).source(6), named(6).source(5)]), [(5, 5), (5, 6), (6, 5), (6, 6)]);
    let feeder = [named(0).source(1), named(1).source(2), named(2).source(1)];
    assert_eq!(leaning(4, &feeder), [(0, 1), (0, 2), (1, 1), (1, 2), (2, 1), (2, 2)]);
}

#[test]
fn steps_of_paths() {
    assert_eq!(leaning(9, &[named(5).steps(&[6])]), [(5, 6)]);
    assert_eq!(leaning(9, &[named(5).source(6).steps(&[7, 8]), named(7)]), [(5, 6), (5, 7), (5, 8)]);
    // Every step counts, declared or not, and what it leads to.
    let eight: Vec<u32> = (1..9).collect();
    assert_eq!(leaning(9, &[named(0).steps(&eight)]), eight.iter().map(|&step| (0, step)).collect::<Vec<_>>());
    assert_eq!(leaning(4, &[named(0).steps(&[2, 1]), named(1).source(3)]), [(0, 1), (0, 2), (0, 3), (1, 3)]);
    assert_eq!(leaning(4, &[named(0).source(1), named(1).steps(&[2, 3])]), [(0, 1), (0, 2), (0, 3), (1, 2), (1, 3)]);
    // A path without steps hides no source.
    assert_eq!(leaning(4, &[named(1).source(2).path(0)]), [(1, 2)]);
    // Rings, also of one, and what leads into them.
    assert_eq!(leaning(9, &[named(7).path(2)]), [(7, 7)]);
    assert_eq!(leaning(9, &[named(5).steps(&[6]), named(6).steps(&[5])]), [(5, 5), (5, 6), (6, 5), (6, 6)]);
    let feeder = [named(0).steps(&[3, 1]), named(1).source(2), named(2).steps(&[1])];
    assert_eq!(leaning(4, &feeder), [(0, 1), (0, 2), (0, 3), (1, 1), (1, 2), (2, 1), (2, 2)]);
}

#[test]
fn nothing_else_matters() {
    let plain = [named(1).source(2), named(2).steps(&[3]), named(3).source(1)];
    let all = leaning(6, &plain);
    assert_eq!(all.len(), 9);
    for (i, relation) in plain.iter().enumerate() {
        let changes = [
            relation.clone().kinds(&[1, 5]),
            relation.clone().entities(&[5]),
            relation.clone().entity(5).current_slot(7),
            relation.clone().member(5),
            relation.clone().origin(5),
            relation.clone().predicate(packs::same(packs::count(5, (0, 1), None), packs::leaf())),
        ];
        for changed in changes {
            let mut relations = plain.clone();
            relations[i] = changed;
            assert_eq!(leaning(6, &relations), all);
        }
    }
}

#[test]
fn names_around_n() {
    for names in [2, 300, 4095, 4096] {
        let last = names - 1;
        let pack = bytes_of(&graph(names, &[named(last).source(0)]));
        assert_eq!(lean(&pack, last, 0), Ok(true));
        assert_eq!(lean(&pack, 0, last), Ok(false));
        let steps = bytes_of(&graph(names, &[named(0).steps(&[0, last])]));
        assert_eq!(lean(&steps, 0, last), Ok(true));
        assert_eq!(lean(&steps, last, 0), Ok(false));
        assert_eq!(lean(&steps, 0, names), unknown(names));
        for name in [names, names + 1, 4096, 65_536 + last, 0xFF_FFFF, (1 << 24) + last, u32::MAX - 1, u32::MAX] {
            assert_eq!(lean(&pack, name, 0), unknown(name), "{name} of {names}");
            assert_eq!(lean(&pack, last, name), unknown(name), "{name} of {names}");
            // The first name comes first.
            assert_eq!(lean(&pack, name, name.wrapping_sub(1).max(names)), unknown(name));
            assert_eq!(lean(&pack, name.wrapping_sub(1).max(names), name), unknown((name - 1).max(names)));
        }
    }
    let smallest = bytes_of(&packs::smallest());
    assert_eq!(lean(&smallest, 0, 0), Ok(false));
    assert_eq!(lean(&smallest, 1, 2), unknown(1));
    assert_eq!(lean(&smallest, 0, 2), unknown(2));
}

#[test]
fn long_chains_and_rings() {
    for length in [1, 2, 3, 512] {
        let last = length - 1;
        let mut relations: Vec<Relation> = (0..last).map(|name| named(name).source(name + 1)).collect();
        relations.push(named(last).kinds(&[1]));
        let chain = bytes_of(&graph(600, &relations));
        *relations.last_mut().unwrap() = named(last).source(0);
        let ring = bytes_of(&graph(600, &relations));
        for name in 0..length {
            assert_eq!(lean(&chain, 0, name), Ok(name > 0));
            assert_eq!(lean(&chain, name, last), Ok(name < last));
            assert_eq!(lean(&chain, name, name), Ok(false));
            for other in [0, last / 2, last, name] {
                assert_eq!(lean(&ring, name, other), Ok(true));
            }
            assert_eq!(lean(&ring, name, 599), Ok(false));
            assert_eq!(lean(&ring, 599, name), Ok(false));
        }
        // The last source is not declared.
        *relations.last_mut().unwrap() = named(last).source(599);
        assert_eq!(lean(&bytes_of(&graph(600, &relations)), 0, 599), Ok(true));
    }
}

/// Runs what must end within a minute; a search along so many ways would not end without marks.
fn soon(run: impl FnOnce() + Send + 'static) {
    let (sender, receiver) = mpsc::channel::<()>();
    let thread = thread::spawn(move || {
        // Dropped at the end, however the run ends.
        let _sender = sender;
        run();
    });
    assert_ne!(receiver.recv_timeout(Duration::from_secs(60)), Err(RecvTimeoutError::Timeout), "no answer in a minute");
    thread.join().unwrap();
}

/// Relations in layers with eight steps each over all of the next two layers, as many as fit; and 512 with a source and a step
/// each, which is as many steps as 512 relations have room for.
#[test]
fn many_ways() {
    let layers = graph(4096, &layered(221, 4, 8));
    assert!((MOST_WORDS - 37..=MOST_WORDS).contains(&layers.len()), "{}", layers.len());
    leaning_far(layers, 234, |a, b| a < 221 && b >= (a / 4 + 1) * 4 && b < 232);
    let forks = graph(4096, &forked(512));
    assert_eq!(forks.len(), MOST_WORDS);
    leaning_far(forks, 514, |a, b| a < b && b < 513);
}

/// Asks for some of so many names whether they lean on each, in the order of records and dealt out again.
fn leaning_far(words: Vec<u32>, names: u32, leans: impl Fn(u32, u32) -> bool + Send + 'static) {
    soon(move || {
        let pack = read(&words).unwrap().pack;
        for pack in [&pack, &dealt(&mut Chance::new(4_242), &pack)] {
            let bytes = bytes_of(&pack.words());
            for a in (0..names).step_by(31).chain([1, names - 14, names - 13, names - 2, names - 1]) {
                for b in 0..names {
                    assert_eq!(lean(&bytes, a, b), Ok(leans(a, b)), "{a} on {b}");
                }
            }
        }
    });
}

#[test]
fn bytes_that_are_no_pack() {
    let household = bytes_of(&packs::household());
    for length in 0..household.len() {
        for (a, b) in [(0, 1), (1, u32::MAX), (u32::MAX, 0)] {
            let answer = held(&household[..length], a, b);
            assert_eq!(answer.unwrap_err().number, if length < 24 || length % 4 != 0 { 1 } else { 4 });
        }
    }
    let longer = bytes_of(&packs::of_length(8193));
    for length in 32_765..=32_772 {
        let number = if length == 32_768 { 4 } else { 1 };
        assert_eq!(lean(&longer[..length], 0, 0).unwrap_err().number, number, "{length} bytes");
    }
    // Check's refusals come before 17.
    let mut damaged = household.clone();
    damaged[4] = 0;
    assert_eq!(lean(&damaged, u32::MAX, u32::MAX), Err(Refusal { number: 4, place: 1, name: 0, other: 0 }));
}

#[test]
fn packs_made_by_chance() {
    let mut counts = [0; 2];
    let all = by_chance(14_142, 1500, &[Form::Mixed, Form::Tangled, Form::Paths], |words, chance| {
        let pack = bytes_of(words);
        let reading = read(words);
        let model = &reading.as_ref().unwrap().pack;
        for _ in 0..60 {
            // Mostly names of relations, now and then any.
            let name = |chance: &mut Chance| {
                let known = !model.relations.is_empty() && chance.often(85);
                if known {
                    model.relations[chance.below(model.relations.len() as u32) as usize].name
                } else {
                    chance.below(model.n + 2)
                }
            };
            let (a, b) = (name(chance), name(chance));
            if let Ok(leans) = beside::lean(&pack, &reading, a, b) {
                counts[usize::from(leans)] += 1;
            }
        }
        for _ in 0..10 {
            let _ = held(&bytes_of(&damaged(chance, words)), chance.below(model.n), chance.below(model.n));
        }
    });
    assert!(!all || counts[0] > 5_000 && counts[1] > 5_000, "{counts:?}");
}
