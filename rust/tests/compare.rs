//! Check over the static library beside the model, on packs made by chance, whole and damaged, and on any bytes.
mod beside;

use cogunwa::bytes_of;
use cogunwa_model::check;
use cogunwa_model::damage::damaged;
use cogunwa_model::generate::Form;
use cogunwa_model::packs::{Words, with_total};
use cogunwa_model::replay::{by_chance, each};
use std::collections::BTreeMap;

// How often each answer came up; 0 stands for yes.
#[derive(Default)]
struct Tally(BTreeMap<u32, usize>);

impl Tally {
    fn compare(&mut self, bytes: &[u8]) {
        let answer = beside::check(bytes);
        *self.0.entry(answer.map_or_else(|r| r.number, |()| 0)).or_default() += 1;
    }
}

#[test]
fn mixed_packs_whole_and_damaged() {
    let mut tally = Tally::default();
    let mut lengths = vec![];
    let all = by_chance(0x9E37_79B9, 1500, &[Form::Mixed], |words, chance| {
        lengths.push(words.len());
        assert_eq!(check(words), Ok(()));
        tally.compare(&bytes_of(words));
        for _ in 0..40 {
            let once = damaged(chance, words);
            tally.compare(&bytes_of(&once));
            let twice = damaged(chance, &once);
            tally.compare(&bytes_of(&twice));
        }
    });
    if !all {
        return;
    }
    // Every answer of Check is among them, and packs both short and long.
    for number in 0..=8 {
        assert!(tally.0.contains_key(&number), "no {number} in {:?}", tally.0);
    }
    lengths.sort();
    assert!(lengths[0] < 20 && lengths[1000] > 200 && lengths[1499] > 800, "{} to {}", lengths[0], lengths[1499]);
}

/// Packs of the other forms, which have more records of one sort.
#[test]
fn other_packs_whole_and_damaged() {
    let forms = [Form::Program, Form::Turning, Form::Tangled, Form::Entities, Form::Paths];
    by_chance(44_721, 800, &forms, |words, chance| {
        assert_eq!(check(words), Ok(()));
        assert_eq!(beside::check(&bytes_of(words)), Ok(()));
        for _ in 0..20 {
            let _ = beside::check(&bytes_of(&damaged(chance, words)));
        }
    });
}

#[test]
fn any_bytes() {
    let mut tally = Tally::default();
    each(7, 6000, |number, chance| {
        let bytes: Vec<u8> = (0..number / 10).map(|_| chance.below(256) as u8).collect();
        tally.compare(&bytes);
        // The same with the first words of a pack before them.
        let mut words = Words::start(1 + chance.below(4096));
        words.put(3, 0);
        let bytes = [bytes_of(&words.0), bytes].concat();
        tally.compare(&if bytes.len() % 4 == 0 { bytes_of(&with_total(cogunwa::words_of(&bytes))) } else { bytes });
    });
    assert!(!tally.0.contains_key(&0));
}
