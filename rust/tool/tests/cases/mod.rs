//! The packs of the replayed cases (`crates/cases/stdin`), and names for packs.
#![allow(dead_code)]

use cogunwa_model::Chance;
use cogunwa_model::generate::Form;

pub struct Case {
    pub name: String,
    pub accepted: bool,
    pub words: Vec<u32>,
}

/// Every case of the list, by its number; `tests/model/src/bin/cases/entries.rs` says what the list's words
/// are.
pub fn replayed() -> Vec<Case> {
    let list = concat!(env!("CARGO_MANIFEST_DIR"), "/../../crates/cases/stdin");
    let list = std::fs::read(list).unwrap();
    let mut list = list.chunks_exact(4).map(|bytes| u32::from_le_bytes(bytes.try_into().unwrap()));
    let mut row = vec![0; 8448];
    let mut cases = vec![];
    loop {
        let head: [u32; 12] = std::array::from_fn(|_| list.next().unwrap());
        let [operation, .., kept, count, times, word] = head;
        let (from, to, end) = (kept as usize, (kept + count) as usize, (kept + count + times) as usize);
        row[from..to].fill_with(|| list.next().unwrap());
        row[to..end].fill(word);
        match operation {
            1 => cases.push(Case {
                name: format!("case {}", cases.len() + 1),
                accepted: false,
                words: row[..end].to_vec(),
            }),
            2 => cases.last_mut().unwrap().accepted = head[4] == 0,
            12 => return cases,
            _ => {}
        }
    }
}

/// What packs by chance are of, in turn.
pub const FORMS: [Form; 8] =
    [Form::Tangled, Form::Entities, Form::Mixed, Form::Mixed, Form::Mixed, Form::Program, Form::Turning, Form::Turning];

/// So many texts for names, in byte order, the first of them empty: plain ones, such with an origin, and odd ones.
pub fn texts(c: &mut Chance, count: u32) -> Vec<Vec<u8>> {
    let mut texts = std::collections::BTreeSet::from([vec![]]);
    let mut tries = 0;
    while texts.len() < count as usize {
        let text = text(c);
        tries += 1;
        let text = if tries > 3 * count { [text, tries.to_string().into_bytes()].concat() } else { text };
        texts.insert(text.into_iter().take(255).collect());
    }
    texts.into_iter().collect()
}

const ODD: [&str; 16] = [
    "relation",
    "none",
    "@7",
    "7",
    "->",
    "a b",
    "\"",
    "\\",
    "#",
    "#x",
    "x#",
    "a#b#c",
    "é",
    "\u{202E}",
    "line\nend",
    "leaf",
];

fn text(c: &mut Chance) -> Vec<u8> {
    let word = |c: &mut Chance| format!("{}{}", ["m", "kin", "Person", "_x"][c.below(4) as usize], c.below(2000));
    match c.below(10) {
        0 => ODD[c.below(16) as usize].as_bytes().to_vec(),
        1 => (0..c.below(12)).map(|_| c.below(256) as u8).collect(),
        2 => vec![b'a' + c.below(26) as u8; 200 + c.below(56) as usize],
        3..=6 => format!("m{}#{}", c.below(4), word(c)).into_bytes(),
        7 => format!("m{}", c.below(4)).into_bytes(),
        _ => word(c).into_bytes(),
    }
}
