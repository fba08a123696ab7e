//! Mistakes made on purpose in the model: each must be noticed.

use crate::compare;
use crate::damage;
use crate::library;
use cogunwa_model::faults::{self, FAULTS, Of};
use cogunwa_model::generate::{self, Form};
use cogunwa_model::{Chance, read};

/// How many packs show each fault: of accepted packs against the original, or for Lean, which it does not have, against the library;
/// of damaged ones against the library.
pub fn run(seed: u64, count: u64) -> bool {
    let mut shown = vec![0u64; FAULTS.len()];
    let mut chance = Chance::new(seed);
    let mut done = 0;
    while done < count {
        let (made, room) = generate::made(&mut chance, Form::Program);
        let words = made.pack.words();
        if words.len() > 1500 {
            continue;
        }
        done += 1;
        let told = compare::told(&made);
        for (shown, &(fault, of, _)) in shown.iter_mut().zip(FAULTS) {
            if matches!(of, Of::Tables | Of::Resolve) {
                let differs = || compare::model_differs(&words, &told, room).is_some();
                *shown += u64::from(faults::with(fault, differs));
            }
        }
    }
    leaning(seed, count, &mut shown);
    damage::packs(seed, count, |words, _| {
        for (shown, &(fault, of, _)) in shown.iter_mut().zip(FAULTS) {
            if of == Of::Check {
                *shown += u64::from(faults::with(fault, || damage::check_differs(words)));
            }
        }
    });
    println!("of {count} accepted packs against the original, as many for Lean and as many damaged ones for Check:");
    for (shown, (_, of, text)) in shown.iter().zip(FAULTS) {
        println!("  {shown:>9}  {of:?}: {text}");
    }
    shown.iter().all(|&shown| shown > 0)
}

/// The faults of Lean, on packs with paths. The library is asked once for each pair of names.
fn leaning(seed: u64, count: u64, shown: &mut [u64]) {
    for number in 0..count {
        let words = generate::words(&mut Chance::nth(seed, number), Form::Paths);
        let (bytes, reading) = (cogunwa::bytes_of(&words), read(&words).expect("made packs are accepted"));
        let pairs = compare::lean_pairs(Some(&reading), number as u32 % 100);
        let told: Vec<_> = pairs.into_iter().map(|(a, b)| (a, b, library::lean(&bytes, a, b))).collect();
        for (shown, &(fault, of, _)) in shown.iter_mut().zip(FAULTS) {
            if of == Of::Lean {
                let differs = || told.iter().any(|(a, b, answer)| reading.lean(*a, *b) != *answer);
                *shown += u64::from(faults::with(fault, differs));
            }
        }
    }
}
