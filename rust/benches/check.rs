//! The time per word of Check and of Resolve, on flat and on deeply nested packs of about 500, 2,000 and 8,000 words:
//!
//!     cargo bench --offline --bench check
//!
//! The library takes bytes, so the times include turning them into words, and Resolve's turning words into bytes again. A
//! plain loop that does only the first, and a plain copy of the bytes, are measured beside them, in the same rounds.
mod timed;

use cogunwa_model::packs;
use std::hint::black_box;
use timed::{ROUND, ROUNDS, Timed, median};

fn main() {
    println!(
        "Time per word in nanoseconds: the median of {ROUNDS} rounds of about {} microseconds each.",
        ROUND.as_micros()
    );
    println!(
        "Check's and Resolve's times include turning the bytes into words; the loop is plain Rust that does only this."
    );
    println!("Buffers are reused and not cleared between calls.");
    println!();
    println!("{:8} {:>6} {:>8} {:>8} {:>8} {:>8}", "pack", "words", "check", "resolve", "loop", "copy");
    for groups in [6, 24, 96] {
        measure("flat", &packs::flat(groups));
    }
    for rules in [5, 21, 84] {
        measure("nested", &packs::deep(rules));
    }
}

fn measure(shape: &str, words: &[u32]) {
    let pack = cogunwa::bytes_of(words);
    assert_eq!(cogunwa::check(&pack), Ok(()));
    let mut as_words = vec![0u32; words.len()];
    let mut copy = vec![0u8; pack.len()];
    let mut check = Timed::new(|| {
        let _ = black_box(cogunwa::check(black_box(&pack)));
    });
    let mut out = vec![0u8; pack.len()];
    assert_eq!(cogunwa::resolve(&pack, &mut out).map(|w| w.words), Ok(words.len()));
    let mut resolve = Timed::new(|| {
        let _ = black_box(cogunwa::resolve(black_box(&pack), black_box(&mut out)));
    });
    let mut to_words = Timed::new(|| {
        for (word, b) in black_box(&mut as_words).iter_mut().zip(black_box(&pack).chunks_exact(4)) {
            *word = u32::from_le_bytes([b[0], b[1], b[2], b[3]]);
        }
    });
    let mut copying = Timed::new(|| black_box(&mut copy).copy_from_slice(black_box(&pack)));
    for _ in 0..ROUNDS {
        check.round();
        resolve.round();
        to_words.round();
        copying.round();
    }
    let per_word = |times: Vec<f64>| median(times) / words.len() as f64;
    println!(
        "{shape:8} {:>6} {:>8.3} {:>8.3} {:>8.3} {:>8.3}",
        words.len(),
        per_word(check.times),
        per_word(resolve.times),
        per_word(to_words.times),
        per_word(copying.times)
    );
}
