//! What shows a pack on which a test fails, and runs it again.
//!
//! A test by chance that fails prints its seed, the number of the pack and the words that were tried. These variables run it
//! again:
//!
//! - `COGUNWA_PACK=NUMBER`: only the pack of this number, and what the test makes of it
//! - `COGUNWA_SEED=SEED`: another seed than the test's own
//! - `COGUNWA_WORDS='01000006 ..'`: these words in place of the packs by chance; for `cargo test --test replay`, which takes any

use crate::chance::Chance;
use crate::generate::{self, Form};
use std::{env, thread};

/// Eight digits a word.
pub fn hex(words: &[u32]) -> String {
    words.iter().map(|word| format!("{word:08X}")).collect::<Vec<_>>().join(" ")
}

/// The words of a text with eight digits a word; `#` starts a comment, to the end of its line.
pub fn words_of_hex(text: &str) -> Option<Vec<u32>> {
    let parts = text.lines().flat_map(|line| line.split('#').next().unwrap().split_whitespace());
    parts.map(|part| u32::from_str_radix(part, 16).ok().filter(|_| part.len() == 8)).collect()
}

/// The words that `COGUNWA_WORDS` has, if it is set.
pub fn words_to_replay() -> Option<Vec<u32>> {
    env::var("COGUNWA_WORDS").ok().map(|text| words_of_hex(&text).expect("COGUNWA_WORDS: eight digits a word"))
}

/// Bytes that are tried: shown where the test fails while this is held.
pub struct Tried<'b>(pub &'b [u8]);

impl Drop for Tried<'_> {
    fn drop(&mut self) {
        if thread::panicking() {
            let digits = |word: &[u8]| word.iter().rev().map(|byte| format!("{byte:02X}")).collect::<String>();
            let words: Vec<String> = self.0.chunks(4).map(digits).collect();
            eprintln!("tried on {} bytes, as words:\n{}", self.0.len(), words.join(" "));
        }
    }
}

/// What is tried by chance: shown where the test fails while this is held.
struct Turn {
    seed: u64,
    number: u64,
}

impl Drop for Turn {
    fn drop(&mut self) {
        if thread::panicking() {
            let Turn { seed, number } = self;
            eprintln!(
                "failed on number {number} of seed {seed}: COGUNWA_SEED={seed} COGUNWA_PACK={number} runs it again"
            );
        }
    }
}

/// A pack by chance, shown likewise.
struct Made<'w>(Form, &'w [u32]);

impl Drop for Made<'_> {
    fn drop(&mut self) {
        if thread::panicking() {
            eprintln!("the pack by chance ({:?}):\n{}", self.0, hex(self.1));
        }
    }
}

fn number_of(variable: &str) -> Option<u64> {
    let text = env::var(variable).ok()?;
    Some(text.parse().unwrap_or_else(|_| panic!("{variable}: {text} is no number")))
}

/// Tries so many times, each with the chance that follows from the seed and the number; answers whether all were tried, so that
/// what was met can be counted.
pub fn each(seed: u64, count: u64, mut test: impl FnMut(u64, &mut Chance)) -> bool {
    let seed = number_of("COGUNWA_SEED").unwrap_or(seed);
    let only = number_of("COGUNWA_PACK");
    let numbers = only.map_or(0..count, |number| number..number + 1);
    for number in numbers {
        let _turn = Turn { seed, number };
        test(number, &mut Chance::nth(seed, number));
    }
    only.is_none()
}

/// Tries so many packs by chance, of these forms in turn; answers whether all were tried. What a test makes by chance of its
/// own follows from the pack's number too.
pub fn by_chance(seed: u64, count: u64, forms: &[Form], mut test: impl FnMut(&[u32], &mut Chance)) -> bool {
    let words = words_to_replay();
    let count = if words.is_some() { 1 } else { count };
    let all = each(seed, count, |number, chance| {
        let form = forms[(number % forms.len() as u64) as usize];
        let made = words.clone().unwrap_or_else(|| generate::words(chance, form));
        let made = Made(form, &made);
        test(made.1, chance);
    });
    all && words.is_none()
}
