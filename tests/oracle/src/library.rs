//! Cogunwa's operations, with what they do to a lent buffer.

use cogunwa_model::Refusal;

fn refusal(r: cogunwa::Refusal) -> Refusal {
    Refusal { number: r.number, place: r.place, name: r.name, other: r.other }
}

pub fn check(bytes: &[u8]) -> Result<(), Refusal> {
    cogunwa::check(bytes).map_err(refusal)
}

pub fn kinds_of(bytes: &[u8], name: u32) -> Result<usize, Refusal> {
    cogunwa::kinds_of(bytes, name).map(|place| place.unwrap_or(0)).map_err(refusal)
}

pub fn lean(bytes: &[u8], a: u32, b: u32) -> Result<bool, Refusal> {
    cogunwa::lean(bytes, a, b).map_err(refusal)
}

/// The operations that write.
#[derive(Clone, Copy, Debug, PartialEq)]
pub enum Operation {
    Rewrite,
    AllKinds,
    Direct,
    Innermost,
    Alias,
    Unresolved,
    Resolve,
}

pub const OPERATIONS: [Operation; 7] = [
    Operation::Rewrite,
    Operation::AllKinds,
    Operation::Direct,
    Operation::Innermost,
    Operation::Alias,
    Operation::Unresolved,
    Operation::Resolve,
];

/// What an operation wrote, and its steps; 0 where it counts none.
pub type Written = Result<(Vec<u32>, u32), Refusal>;

/// A room of so many words and some bytes more.
pub fn room_in_bytes(bytes: &[u8], room: usize) -> usize {
    4 * room + bytes.len() % 4 + room % 4
}

/// A buffer to lend: its bytes are such that it shows where one is changed.
pub fn buffer(length: usize) -> Vec<u8> {
    (0..length).map(|i| (i * 37 + 11) as u8 ^ 0xA5).collect()
}

/// Runs an operation in a room of so many words and some bytes more. Whatever it does not write must stay as it was; if
/// not, that is said.
pub fn run(operation: Operation, bytes: &[u8], room: usize) -> Result<Written, String> {
    let before = buffer(room_in_bytes(bytes, room));
    let mut out = before.clone();
    let plain = |words: usize| (words, 0);
    let answer = match operation {
        Operation::Rewrite => cogunwa::rewrite(bytes, &mut out).map(plain),
        Operation::AllKinds => cogunwa::all_kinds(bytes, &mut out).map(|w| (w.words, w.steps)),
        Operation::Direct => cogunwa::direct(bytes, &mut out).map(plain),
        Operation::Innermost => cogunwa::innermost(bytes, &mut out).map(plain),
        Operation::Alias => cogunwa::alias(bytes, &mut out).map(plain),
        Operation::Unresolved => cogunwa::unresolved(bytes, &mut out).map(plain),
        Operation::Resolve => cogunwa::resolve(bytes, &mut out).map(|w| (w.words, w.steps)),
    };
    let kept = answer.as_ref().map_or(0, |&(words, _)| 4 * words);
    if kept > out.len() || out[kept..] != before[kept..] {
        return Err(format!("{operation:?} changed what it had to keep"));
    }
    Ok(answer.map(|(_, steps)| (cogunwa::words_of(&out[..kept]), steps)).map_err(refusal))
}
