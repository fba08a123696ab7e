//! The list in the layout that the program `cases` reads.
//!
//! It is of words, four bytes each, low byte first: a row of entries, each of twelve words,
//!
//!     operation, room, first, second, number, place, name, other, kept, count, times, word
//!
//! and `count` words that follow. The words of all entries stand in one row: an entry leaves the first `kept` as they are, puts
//! the words that follow after these, and after those its last field, `times` over. Its words are all up to there. What it is,
//! by its operation:
//!
//!     0        a part: its words are there for the next entry to keep
//!     1        a pack, its words: a new case, on which the calls up to the next are made
//!     2        Check
//!     3 to 11  Rewrite, all_kinds, kinds_of, lean, direct, innermost, alias, unresolved, resolve
//!     12       the end of the list; nothing stands after it
//!
//! A call has to answer number, place, name and other: those of a refusal, or 0, 0, a value and the steps. An operation that
//! writes is lent `room` words; what it has to write are the entry's words, and nothing after them. kinds_of takes the first
//! name, lean both.
//!
//! The program tells a call by two numbers, both from 1: that of its case, and its own among the calls of the case.

use crate::list::{Call, List, OPERATIONS};

/// The words of an entry that brings none.
const HEAD: usize = 12;
/// The words that the program has room for, and those that it can lend.
const WORDS: usize = 8448;
const ROOM: u32 = 10240;

/// What an entry keeps, brings and repeats.
struct Part<'w> {
    kept: usize,
    brought: &'w [u32],
    times: usize,
    word: u32,
}

#[derive(Default)]
struct Entries {
    list: Vec<u32>,
    /// What the next entry may keep words of.
    row: Vec<u32>,
}

impl Entries {
    fn entry(&mut self, operation: &str, words: &[u32], arguments: [u32; 3], answer: [u32; 4]) {
        assert!(words.len() <= WORDS && arguments[0] <= ROOM);
        let parts = self.parts(words);
        let (last, before) = parts.split_last().unwrap();
        before.iter().for_each(|part| self.put("part", [0; 3], [0; 4], part));
        self.put(operation, arguments, answer, last);
        self.row.splice(..words.len().min(self.row.len()), words.iter().copied());
    }

    fn put(&mut self, operation: &str, arguments: [u32; 3], answer: [u32; 4], part: &Part) {
        let operation = OPERATIONS.iter().position(|name| *name == operation).unwrap() as u32;
        let Part { kept, brought, times, word } = *part;
        self.list.push(operation);
        self.list.extend(arguments);
        self.list.extend(answer);
        self.list.extend([kept as u32, brought.len() as u32, times as u32, word]);
        self.list.extend(brought);
    }

    /// More than one where a word that comes again and again has others after it.
    fn parts<'w>(&self, words: &'w [u32]) -> Vec<Part<'w>> {
        let mut at = words.iter().zip(&self.row).take_while(|(a, b)| a == b).count();
        let mut kept = at;
        let mut parts = vec![];
        while at < words.len() {
            let times = words[at..].iter().take_while(|word| **word == words[at]).count();
            if times > HEAD || at + times == words.len() {
                parts.push(Part { kept, brought: &words[kept..at], times, word: words[at] });
                kept = at + times;
            }
            at += times;
        }
        if parts.is_empty() {
            parts.push(Part { kept, brought: &[], times: 0, word: 0 });
        }
        parts
    }
}

/// Room, first name and second.
fn arguments(call: &Call) -> [u32; 3] {
    match (call.operation, &call.arguments[..]) {
        ("kinds_of", &[name]) => [0, name, 0],
        ("lean", &[a, b]) => [0, a, b],
        (_, &[room]) => [room, 0, 0],
        _ => [0; 3],
    }
}

/// The bytes of a list.
pub fn written(list: &List) -> Vec<u8> {
    let mut entries = Entries::default();
    for case in &list.cases {
        entries.entry("pack", &case.words, [0; 3], [0; 4]);
        for call in &case.calls {
            entries.entry(call.operation, &call.words, arguments(call), call.answer);
        }
    }
    entries.entry("end", &[], [0; 3], [0; 4]);
    entries.list.iter().flat_map(|word| word.to_le_bytes()).collect()
}

/// What the program writes of a list where nothing differs.
pub fn totals(list: &List) -> String {
    let words = list.cases.iter().flat_map(|case| &case.words);
    let sum = words.clone().fold(0u32, |sum, &word| sum.wrapping_add(word));
    let calls = || list.cases.iter().flat_map(|case| &case.calls);
    let checks = calls().filter(|call| call.operation == "check").count();
    let rewrites = calls().filter(|call| call.operation == "rewrite").count();
    let others = calls().count() - checks - rewrites;
    let (words, cases) = (words.count(), list.cases.len());
    format!("{words} words, sum {sum:08x}, {rewrites} rewrites, {others} calls\n{cases} cases, 0 differ\n")
}

/// The packs of a list's bytes with the calls on each, or nothing where they are no list.
pub fn read(bytes: &[u8]) -> Option<Vec<(Vec<u32>, Vec<Call>)>> {
    let words: Vec<u32> =
        bytes.chunks(4).map(|word| word.try_into().map(u32::from_le_bytes)).collect::<Result<_, _>>().ok()?;
    let mut rest = &words[..];
    let mut row = vec![0; WORDS];
    let mut cases: Vec<(Vec<u32>, Vec<Call>)> = vec![];
    loop {
        let (&[operation, room, first, second, number, place, name, other, kept, count, times, word], after) =
            rest.split_first_chunk::<HEAD>()?;
        let (kept, count, times) = (kept as usize, count as usize, times as usize);
        let (brought, after) = after.split_at_checked(count)?;
        row.get_mut(kept..kept + count)?.copy_from_slice(brought);
        row.get_mut(kept + count..kept + count + times)?.fill(word);
        rest = after;
        let words = row[..kept + count + times].to_vec();
        let operation = *OPERATIONS.get(operation as usize)?;
        let arguments = match operation {
            "part" => continue,
            "pack" => {
                cases.push((words, vec![]));
                continue;
            }
            "end" => return rest.is_empty().then_some(cases),
            "check" => vec![],
            "kinds_of" => vec![first],
            "lean" => vec![first, second],
            _ => vec![room],
        };
        cases.last_mut()?.1.push(Call { operation, arguments, answer: [number, place, name, other], words });
    }
}
