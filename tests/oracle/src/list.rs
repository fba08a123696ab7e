//! The fixed list of the original's answers, lines of text that the model's program `cases` takes up.

use crate::cases;
use crate::compare::{self, Counts, Told};
use cogunwa_model::cases::{Case, named};
use cogunwa_model::generate::{self, Form, Made};
use cogunwa_model::{Chance, read};
use std::collections::BTreeMap;
use std::fmt::Write;

const SEED: u64 = 2026;
/// Packs of more words are left out.
const MOST_WORDS: usize = 100;

const HEAD: &str = "\
# The original's answers: `bash tests/oracle/run list FILE` writes these lines.
# Resolve's words and its refusals' number, name and other, the four tables and the steps are the original's. Places, which it
# does not give, and so the words that all_kinds writes, are the model's; at each stand the original's kinds.
";

/// How many packs of each outcome.
const WANTED: [(&str, u32); 12] = [
    ("refused  9", 20),
    ("refused 10 aggregate", 25),
    ("refused 10 membership", 20),
    ("refused 11", 15),
    ("refused 12", 15),
    ("refused 13", 15),
    ("refused 14", 15),
    ("refused 15", 15),
    ("refused 16", 15),
    ("resolved, kept", 15),
    ("resolved, slots set", 60),
    ("resolved, stamped", 60),
];

fn hex(words: &[u32]) -> String {
    words.iter().map(|w| format!(" {w:X}")).collect()
}

fn lines(out: &mut String, name: &str, made: &Made, told: &Told, room: usize) {
    let words = made.pack.words();
    let reading = read(&words).unwrap();
    let digits: String = words.iter().map(|w| format!(" {w:08X}")).collect();
    writeln!(out, "{name} | ok | {0} | {0} |{digits}", words.len()).unwrap();
    let mut rooms = vec![room];
    if let Ok((result, _)) = told.answer(8192) {
        rooms.extend([result.len(), result.len() - 1]);
    }
    rooms.sort();
    rooms.dedup();
    for room in rooms {
        match told.answer(room) {
            Ok((result, steps)) => {
                writeln!(out, "{name} > resolve {room} | given {} {steps} |{}", result.len(), hex(&result)).unwrap();
            }
            Err(refused) => {
                let place = reading.resolve(room).unwrap_err().place;
                let (number, by, other) = (refused.number, refused.name, refused.other);
                writeln!(out, "{name} > resolve {room} | refused {number} {place} {by} {other} |").unwrap();
            }
        }
    }
    let (places, _) = reading.all_kinds(usize::MAX).unwrap();
    let (k, n) = (places.len(), made.pack.n);
    writeln!(out, "{name} > all_kinds {k} | given {k} {} |{}", told.tables.steps, hex(&places)).unwrap();
    let tables = &told.tables;
    for (table, words) in [
        ("direct", &tables.direct),
        ("innermost", &tables.innermost),
        ("alias", &tables.alias),
        ("unresolved", &tables.unresolved),
    ] {
        writeln!(out, "{name} > {table} {n} | given {n} 0 |{}", hex(words)).unwrap();
    }
}

/// Writes the list; says whether all of its packs are alike.
pub fn write(file: &str) -> bool {
    let mut out = String::from(HEAD);
    let mut counts = Counts::default();
    for Case { name, pack, .. } in named() {
        let made = cases::plain(pack);
        let (_, told) = compare::pack(&name, &made, 8192, &mut counts);
        lines(&mut out, &format!("original-{}", name.replace([' ', '\''], "-")), &made, &told, 8192);
    }
    let mut left: BTreeMap<&str, u32> = WANTED.into();
    let mut chance = Chance::new(SEED);
    let mut number = 0;
    while left.values().any(|&left| left > 0) {
        let (made, room) = generate::made(&mut chance, Form::Program);
        let words = made.pack.words();
        if words.len() > MOST_WORDS || made.pack.n > 18 {
            continue;
        }
        let told = compare::told(&made);
        let outcome = compare::outcome(&words, &told, room);
        let Some(left) = left.get_mut(outcome.as_str()).filter(|left| **left > 0) else { continue };
        *left -= 1;
        compare::pack(number, &made, room, &mut counts);
        lines(&mut out, &format!("original-{number}"), &made, &told, room);
        number += 1;
    }
    counts.print("the list");
    std::fs::write(file, out.lines().map(|line| line.trim_end().to_string() + "\n").collect::<String>()).unwrap();
    counts.differ == 0
}
