//! Rewrite over the static library: its answer, and every byte of the buffer after it.
mod beside;

use cogunwa::bytes_of;
use cogunwa_model::damage::damaged;
use cogunwa_model::generate::Form;
use cogunwa_model::packs;
use cogunwa_model::replay::by_chance;

fn tried(pack: &[u8], room: usize) {
    let answer = beside::rewrite(pack, room);
    assert!(answer.is_err() || answer == Ok(pack.len() / 4));
}

#[test]
fn buffers_of_every_length() {
    for words in [packs::smallest(), packs::household()] {
        let pack = bytes_of(&words);
        for room in 0..pack.len() + 20 {
            tried(&pack, room);
        }
    }
    let longest = bytes_of(&packs::of_length(8192));
    for room in (32_750..32_790).chain([0, 65_536]) {
        tried(&longest, room);
    }
}

#[test]
fn refused_packs_leave_the_buffer() {
    let household = bytes_of(&packs::household());
    for length in 0..household.len() {
        for room in [0, length, household.len(), 40_000] {
            tried(&household[..length], room);
        }
    }
    let longer = bytes_of(&packs::of_length(8193));
    for length in 32_765..=32_772 {
        tried(&longer[..length], 40_000);
    }
    // Check's refusals come before 16.
    let mut damaged = household.clone();
    damaged[4] = 0;
    for room in [0, 1, damaged.len(), 40_000] {
        tried(&damaged, room);
    }
}

#[test]
fn packs_made_by_chance() {
    by_chance(20_000, 300, &[Form::Mixed], |words, chance| {
        let pack = bytes_of(words);
        for room in [
            pack.len(),
            pack.len() - 1,
            pack.len() + 1,
            pack.len() + chance.below(100) as usize,
            chance.below(100) as usize,
        ] {
            tried(&pack, room);
        }
        for _ in 0..10 {
            tried(&bytes_of(&damaged(chance, words)), pack.len() + 8);
        }
    });
    for words in [packs::flat(96), packs::deep(84)] {
        let pack = bytes_of(&words);
        tried(&pack, pack.len());
        tried(&pack, pack.len() + 5);
    }
}
