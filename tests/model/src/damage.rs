//! Packs damaged at a word.

use crate::chance::Chance;
use crate::packs::with_total;
use crate::records::{NONE, word};

/// Values about the limits of document 01.
const VALUES: [u32; 22] =
    [0, 1, 2, 7, 8, 9, 10, 32, 33, 63, 64, 65, 511, 512, 513, 1023, 1024, 1025, 4095, 4096, 4097, NONE];

/// How many ways there are to damage a pack at a word. The first `EACH` drop it, double it, and change its kind, its value
/// twice, and both by one alike.
pub const WAYS: u32 = 20;
pub const EACH: u32 = 6;

/// A pack damaged at one word, in one of the ways; the total made right again more often than not, as a wrong one hides what
/// comes after it.
pub fn damage(r: &mut Chance, words: &[u32], at: usize, way: u32) -> Vec<u32> {
    let mut out = words.to_vec();
    let (kind, value) = (words[at] >> 24, words[at] & NONE);
    let n = words.get(1).map_or(1, |word| word & NONE);
    let any = words[r.below(words.len() as u32) as usize];
    let alike: Vec<u32> = words.iter().copied().filter(|w| w >> 24 == kind).collect();
    match way {
        0 => drop(out.remove(at)),
        1 => out.insert(at, words[at]),
        2 => out[at] = (kind ^ 1 << r.below(8)) << 24 | value,
        3 => out[at] = kind << 24 | r.one(&VALUES),
        4 => out[at] = kind << 24 | r.one(&[n, n.wrapping_sub(1), n + 1, value + 1, value.wrapping_sub(1)]) & NONE,
        5 => out[at] = r.one(&alike),
        6 => out[at] = r.below(256) << 24 | value,
        7 => out.truncate(at),
        8 => out.swap(at, (at + 1) % words.len()),
        9 => out.insert(at, any),
        10 => out[at] = any,
        11 => {
            let kinds: [u32; 15] = [64, 66, 68, 71, 72, 73, 74, 78, 96, 97, 100, 101, 102, 103, 105];
            out[at] = r.one(&kinds) << 24 | r.one(&[0, 1, 2, value]);
        }
        12 => out.extend(&words[at..(at + 3).min(words.len())]),
        // Two names more of the defaulted ones.
        13 if kind == 3 => {
            out[at] = words[at] + 2;
            // N may be damaged too, and be 0.
            let names = n.max(1);
            out.splice(at + 1..at + 1, [word(4, r.below(names)), word(4, r.below(names))]);
        }
        // A defaulted name twice, and counted.
        13 | 14 if kind == 4 && at > 2 => {
            out[2] = words[2].wrapping_add(1);
            out.insert(at, words[at]);
        }
        // One level more of a tree, above the first node from here on.
        13 | 14 => {
            let node = (at..words.len()).find(|&i| matches!(words[i] >> 24, 64..=78 | 96..=106)).unwrap_or(at);
            out.insert(node, if words[node] >> 24 < 96 { word(66, 0) } else { word(100, 0) });
        }
        15 => out[at] = kind << 24 | r.below(1 << 24),
        16 => out[at] = kind << 24 | r.below(4200),
        17 => out[at] ^= 1 << r.below(32),
        18 => out.insert(at, r.number() as u32),
        _ => out[at] = r.number() as u32,
    }
    if r.below(4) > 0 && !out.is_empty() && at != 0 { with_total(out) } else { out }
}

/// A pack damaged somewhere, in some way.
pub fn damaged(r: &mut Chance, words: &[u32]) -> Vec<u32> {
    if words.is_empty() {
        return vec![];
    }
    let (at, way) = (r.below(words.len() as u32) as usize, r.below(WAYS));
    damage(r, words, at, way)
}
