//! Damaged packs, against the model: words changed, dropped and doubled, and lengths around every limit.

use crate::compare::{self, Counts};
use crate::floor;
use crate::library;
use cogunwa_model::damage::{EACH, WAYS, damage, damaged};
use cogunwa_model::generate::{self, Form};
use cogunwa_model::limits::limits;
use cogunwa_model::packs::{smallest, with_total};
use cogunwa_model::{Chance, Refusal, check};

fn compared(what: &str, words: &[u32], room: usize, counts: &mut Counts) {
    counts.packs += 1;
    counts.note(check(words).map_or_else(|refusal| format!("refused {}", refusal.number), |()| "accepted".into()));
    if let Some(how) = compare::library_differs(words, room) {
        counts.differs(what, &how, words, room);
    }
}

/// Byte counts that are not whole words, or not 6 to 8,192 of them: 1 from every operation.
fn run_bytes(counts: &mut Counts) {
    let mut bytes = cogunwa::bytes_of(&smallest());
    let wanted = Refusal { number: 1, place: 0, name: 0, other: 0 };
    bytes.resize(32_800, 0);
    for length in (0..100).chain(32_740..32_800) {
        if length == 24 || length % 4 == 0 && (24..=32_768).contains(&length) {
            continue;
        }
        counts.packs += 1;
        counts.note("refused 1".into());
        let bytes = &bytes[..length];
        let mut right = library::check(bytes) == Err(wanted);
        right &= library::kinds_of(bytes, 0) == Err(wanted) && library::lean(bytes, 0, 0) == Err(wanted);
        for operation in library::OPERATIONS {
            right &= library::run(operation, bytes, 50).is_ok_and(|answer| answer == Err(wanted));
        }
        right &= floor::differs(bytes, 50).is_none();
        if !right {
            counts.differ += 1;
            println!("{length} bytes");
        }
    }
}

/// The packs at the limits, their lengths as they are and cut short; then packs by chance, each damaged many times.
pub fn packs(seed: u64, count: u64, mut each: impl FnMut(&[u32], usize)) {
    let mut chance = Chance::new(seed);
    let mut done = 0;
    for words in limits() {
        let length = words.len();
        for cut in [0, 1, 2, 3] {
            let short = &words[..length - cut];
            each(&with_total(short.to_vec()), length);
            each(short, length);
            done += 2;
        }
        for _ in 0..20 {
            each(&damaged(&mut chance, &words), length);
            done += 1;
        }
    }
    while done < count {
        let form = if chance.once(4) { Form::Paths } else { Form::Program };
        let (made, room) = generate::made(&mut chance, form);
        let words = made.pack.words();
        if words.len() > 400 && !chance.once(20) {
            continue;
        }
        // Each word damaged in each of the first ways, and in one way more; now and then another word too.
        for at in 0..words.len().min(400) {
            for way in 0..=EACH {
                let way = if way < EACH { way } else { EACH + chance.below(WAYS - EACH) };
                let mut once = damage(&mut chance, &words, at, way);
                if chance.once(20) {
                    once = damaged(&mut chance, &once);
                }
                each(&once, room);
                done += 1;
            }
        }
    }
}

pub fn run(seed: u64, count: u64) -> Counts {
    let mut counts = Counts::default();
    run_bytes(&mut counts);
    let mut number = 0;
    packs(seed, count, |words, room| {
        compared(&format!("pack {number} of seed {seed}"), words, room, &mut counts);
        number += 1;
    });
    counts
}

/// Any words, against the model, with what it answers.
pub fn run_words(words: &[u32], room: usize) -> Counts {
    compare::show(words, room);
    let mut counts = Counts::default();
    compared("the words", words, room, &mut counts);
    counts
}

/// Whether Check by the model says otherwise than the library.
pub fn check_differs(words: &[u32]) -> bool {
    library::check(&cogunwa::bytes_of(words)) != check(words)
}
