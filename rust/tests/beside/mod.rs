//! The library beside the model: each operation's answer, and every byte of the buffer after it.
#![allow(dead_code)]

use cogunwa::{Refusal, Written, bytes_of, words_of};
use cogunwa_model::replay::Tried;
use cogunwa_model::{Outcome, Reading, read_bytes};

pub const NO_ROOM: Refusal = Refusal { number: 16, place: 0, name: 0, other: 0 };

/// What the model answers, as the wrapper says it.
pub fn said<T>(answer: Outcome<T>) -> Result<T, Refusal> {
    answer.map_err(|r| Refusal { number: r.number, place: r.place, name: r.name, other: r.other })
}

/// The words that an operation writes and its steps, 0 where it counts none.
type Given = (Vec<u32>, u32);

/// An operation that writes, of the library and of the model.
struct Operation {
    name: &'static str,
    library: fn(&[u8], &mut [u8]) -> Result<Written, Refusal>,
    model: fn(&Reading, usize) -> Outcome<Given>,
}

macro_rules! operation {
    ($name:ident, with steps) => {
        Operation { name: stringify!($name), library: cogunwa::$name, model: Reading::$name }
    };
    ($name:ident) => {
        Operation {
            name: stringify!($name),
            library: |pack, out| cogunwa::$name(pack, out).map(|words| Written { words, steps: 0 }),
            model: |reading, room| reading.$name(room).map(|words| (words, 0)),
        }
    };
}

const REWRITE: Operation = operation!(rewrite);
const ALL_KINDS: Operation = operation!(all_kinds, with steps);
const RESOLVE: Operation = operation!(resolve, with steps);
const TABLES: [Operation; 4] = [operation!(direct), operation!(innermost), operation!(alias), operation!(unresolved)];

impl Operation {
    /// Into a buffer of this many bytes.
    fn held(&self, pack: &[u8], reading: &Outcome<Reading>, room: usize) -> Result<Given, Refusal> {
        let _tried = Tried(pack);
        let name = self.name;
        let before: Vec<u8> = (0..room).map(|i| (i * 7 + 3) as u8).collect();
        let mut out = before.clone();
        let answer = (self.library)(pack, &mut out);
        let expected = said(reading.as_ref().map_err(|r| *r).and_then(|reading| (self.model)(reading, room / 4)));
        let written = expected.as_ref().map_or(vec![], |(words, _)| bytes_of(words));
        let length = expected.as_ref().map(|(words, steps)| Written { words: words.len(), steps: *steps });
        assert_eq!(answer.as_ref(), length.as_ref().map_err(|r| *r), "{name} into {room} bytes");
        let pairs = words_of(&out).into_iter().zip(words_of(&written)).enumerate();
        for (place, (found, expected)) in pairs {
            assert!(found == expected, "{name} into {room} bytes: word {place} is {found:08X}, not {expected:08X}");
        }
        assert_eq!(out[written.len()..], before[written.len()..], "{name}: the rest of {room} bytes");
        expected
    }

    fn answer(&self, pack: &[u8], room: usize) -> Result<Written, Refusal> {
        let (words, steps) = self.held(pack, &read_bytes(pack), room)?;
        Ok(Written { words: words.len(), steps })
    }
}

pub fn check(pack: &[u8]) -> Result<(), Refusal> {
    let _tried = Tried(pack);
    let answer = cogunwa::check(pack);
    assert_eq!(answer, said(cogunwa_model::check_bytes(pack)), "check");
    answer
}

/// The words are the pack's own.
pub fn rewrite(pack: &[u8], room: usize) -> Result<usize, Refusal> {
    let (words, _) = REWRITE.held(pack, &read_bytes(pack), room)?;
    assert_eq!(words, words_of(pack));
    Ok(words.len())
}

pub fn all_kinds(pack: &[u8], room: usize) -> Result<Written, Refusal> {
    ALL_KINDS.answer(pack, room)
}

pub fn resolve(pack: &[u8], room: usize) -> Result<Written, Refusal> {
    RESOLVE.answer(pack, room)
}

/// The four tables, or the refusal, which is the same for all.
pub fn tables(pack: &[u8], room: usize) -> Result<Vec<Vec<u32>>, Refusal> {
    let reading = read_bytes(pack);
    let tables = TABLES.map(|table| table.held(pack, &reading, room).map(|(words, _)| words));
    assert!(tables.iter().all(|table| table.as_ref().err() == tables[0].as_ref().err()));
    tables.into_iter().collect()
}

pub fn kinds_of(pack: &[u8], reading: &Outcome<Reading>, name: u32) -> Result<Option<usize>, Refusal> {
    let _tried = Tried(pack);
    let answer = cogunwa::kinds_of(pack, name);
    assert_eq!(answer, said(reading.as_ref().map_err(|r| *r).and_then(|reading| reading.kinds_of(name))), "of {name}");
    answer
}

pub fn lean(pack: &[u8], reading: &Outcome<Reading>, a: u32, b: u32) -> Result<bool, Refusal> {
    let _tried = Tried(pack);
    let answer = cogunwa::lean(pack, a, b);
    assert_eq!(answer, said(reading.as_ref().map_err(|r| *r).and_then(|reading| reading.lean(a, b))), "{a} on {b}");
    answer
}

/// Every operation, in rooms about what it needs and about the most that any does; names up to two that the pack does not
/// have, not all of them where they are many.
pub fn every_operation(words: &[u32]) {
    let pack = bytes_of(words);
    let reading = read_bytes(&pack);
    let _ = check(&pack);
    let model = reading.as_ref().ok();
    let (n, relations) = model.map_or((1, 0), |model| (model.pack.n, model.pack.relations.len()));
    let result = model.map_or(0, |model| model.resolve(8192).map_or(0, |(result, _)| result.len()));
    for needs in [words.len(), result, n as usize, relations, 0, 8192] {
        for room in [(4 * needs).saturating_sub(1), 4 * needs, 4 * needs + 1, 4 * needs + 7] {
            for operation in [REWRITE, ALL_KINDS, RESOLVE].iter().chain(&TABLES) {
                let _ = operation.held(&pack, &reading, room);
            }
        }
    }
    for name in (0..n).step_by(1 + n as usize / 64).chain([n - 1, n, n + 1]) {
        let _ = kinds_of(&pack, &reading, name);
        for other in (0..n).step_by(1 + n as usize / 16).chain([n - 1, n, n + 1]) {
            let _ = lean(&pack, &reading, name, other);
        }
    }
}
