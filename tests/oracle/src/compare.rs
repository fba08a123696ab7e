//! Accepted packs: the original, the library and the model, side by side.

use crate::floor;
use crate::library::{self, OPERATIONS, Operation};
use crate::original::{Refused, Tables, Texts};
use cogunwa_model::dealt::dealt;
use cogunwa_model::generate::{self, Form, Made};
use cogunwa_model::replay::hex;
use cogunwa_model::{Chance, Outcome, Pack, Reading, Refusal, read};
use std::collections::BTreeMap;
use std::fmt::{Debug, Display};
use std::ops::Range;

/// How many packs had which outcome, and how many differed.
#[derive(Default)]
pub struct Counts {
    pub packs: u64,
    pub outcomes: BTreeMap<String, u64>,
    pub differ: u64,
}

impl Counts {
    pub fn note(&mut self, outcome: String) {
        *self.outcomes.entry(outcome).or_default() += 1;
    }

    /// Counts a difference, and shows where it is.
    pub fn differs(&mut self, what: impl Display, how: &str, words: &[u32], room: usize) {
        self.differ += 1;
        if self.differ < 10 {
            println!("{what}: {how}\n  room {room}\n  {}", hex(words));
        }
    }

    pub fn print(&self, what: &str) {
        println!("{what}: {} packs, {} differ", self.packs, self.differ);
        for (outcome, count) in &self.outcomes {
            println!("  {count:>9}  {outcome}");
        }
    }
}

/// What the original says of a pack.
pub struct Told {
    pub resolved: Result<Pack, Refused>,
    pub tables: Tables,
}

pub fn told(made: &Made) -> Told {
    let texts = Texts::new(&made.texts);
    Told { resolved: texts.resolved(&made.pack), tables: texts.tables(&made.pack) }
}

impl Told {
    /// What Resolve answers in a room: the words and the steps, or a refusal whose place is not known.
    pub fn answer(&self, room: usize) -> Result<(Vec<u32>, u32), Refused> {
        let words = self.resolved.as_ref().map_err(|refused| *refused)?.words();
        if words.len() > 8192 || words.len() > room {
            return Err(Refused { number: 16, name: 0, other: 0 });
        }
        Ok((words, self.tables.steps))
    }
}

fn without_place(refusal: Refusal) -> Refused {
    Refused { number: refusal.number, name: refusal.name, other: refusal.other }
}

/// Where the model says otherwise than the original: kinds, steps, tables, Resolve.
pub fn model_differs(words: &[u32], told: &Told, room: usize) -> Option<String> {
    let Ok(reading) = read(words) else { return Some("check".into()) };
    for (name, kinds) in (0..).zip(&told.tables.kinds) {
        if reading.effective_kinds(name).map(|list| list.names) != kinds.as_deref().filter(|kinds| !kinds.is_empty()) {
            return Some(format!("kinds of {name}"));
        }
    }
    if reading.steps() != told.tables.steps {
        return Some("steps".into());
    }
    let tables = reading.tables();
    let pairs = [
        ("direct", &tables.direct, &told.tables.direct),
        ("innermost", &tables.innermost, &told.tables.innermost),
        ("alias", &tables.alias, &told.tables.alias),
        ("unresolved", &tables.unresolved, &told.tables.unresolved),
    ];
    if let Some((name, ..)) = pairs.iter().find(|(_, ours, theirs)| ours != theirs) {
        return Some((*name).into());
    }
    let ours = reading.resolve(room).map_err(without_place);
    let theirs = told.answer(room);
    (ours != theirs).then(|| format!("resolve: the model {}, the original {}", answered(&ours), answered(&theirs)))
}

/// The steps and the words of an answer, or the refusal.
fn answered<R: Debug>(answer: &Result<(Vec<u32>, u32), R>) -> String {
    match answer {
        Ok((words, steps)) => format!("{steps} steps, {}", hex(words)),
        Err(refusal) => format!("{refusal:?}"),
    }
}

/// What an operation writes by the model, and the steps; 0 where it counts none.
fn expected(reading: &Reading, operation: Operation, room: usize) -> Outcome<(Vec<u32>, u32)> {
    let plain = |words: Outcome<Vec<u32>>| words.map(|words| (words, 0));
    match operation {
        Operation::Rewrite => plain(reading.rewrite(room)),
        Operation::AllKinds => reading.all_kinds(room),
        Operation::Direct => plain(reading.direct(room)),
        Operation::Innermost => plain(reading.innermost(room)),
        Operation::Alias => plain(reading.alias(room)),
        Operation::Unresolved => plain(reading.unresolved(room)),
        Operation::Resolve => reading.resolve(room),
    }
}

/// Where the library says otherwise than the model, in all operations, all fields and all words; or the floor otherwise than
/// the library.
pub fn library_differs(words: &[u32], room: usize) -> Option<String> {
    let bytes = cogunwa::bytes_of(words);
    let reading = read(words);
    let reading = reading.as_ref().map_err(|refusal| *refusal);
    if library::check(&bytes) != reading.map(|_| ()) {
        let (library, model) = (library::check(&bytes), reading.err());
        return Some(format!("check: the library {library:?}, the model {model:?}"));
    }
    let n = reading.map_or(3, |reading| reading.pack.n);
    for operation in OPERATIONS {
        let needs = match operation {
            Operation::Rewrite => words.len(),
            Operation::AllKinds => reading.map_or(2, |reading| reading.pack.relations.len()),
            _ => n as usize,
        };
        let room = room_for(operation, needs, room);
        let expected = reading.and_then(|reading| expected(reading, operation, room));
        match library::run(operation, &bytes, room) {
            Err(message) => return Some(message),
            Ok(answer) if answer != expected => {
                let (library, model) = (answered(&answer), answered(&expected));
                return Some(format!("{operation:?}: the library {library}, the model {model}"));
            }
            Ok(_) => {}
        }
    }
    for name in 0..=n.min(40) {
        let kinds = reading.and_then(|reading| reading.kinds_of(name));
        if library::kinds_of(&bytes, name) != kinds.map(|place| place.unwrap_or(0)) {
            return Some(format!("kinds of {name}"));
        }
    }
    let pairs = lean_pairs(reading.ok(), room as u32);
    let differs = |&(a, b): &(u32, u32)| library::lean(&bytes, a, b) != reading.and_then(|reading| reading.lean(a, b));
    if let Some((a, b)) = pairs.into_iter().find(differs) {
        return Some(format!("lean {a} {b}"));
    }
    floor::differs(&bytes, room)
}

/// The pairs of names for which Lean is compared: of up to 41 names each with another, be it none of the pack's, and all pairs of up
/// to eight that relations have or derivations lead to.
pub fn lean_pairs(reading: Option<&Reading>, room: u32) -> Vec<(u32, u32)> {
    let n = reading.map_or(3, |reading| reading.pack.n);
    let met = reading.map_or(vec![], |reading| reading.pack.met());
    let some: Vec<u32> = met.iter().copied().step_by(met.len().div_ceil(8).max(1)).collect();
    let others = (0..=n.min(40)).map(|name| (name, (name * 7 + room) % (n + 2)));
    others.chain(some.iter().flat_map(|&a| some.iter().map(move |&b| (a, b)))).collect()
}

/// The room for an operation that needs so many words: Resolve's own, and about as many for the others.
fn room_for(operation: Operation, needs: usize, room: usize) -> usize {
    match (operation, room % 5) {
        (Operation::Resolve, _) => room,
        (_, 0) => needs.saturating_sub(1),
        (_, 1) => needs + 2,
        _ => needs,
    }
}

/// What kind of outcome it is.
pub fn outcome(words: &[u32], told: &Told, room: usize) -> String {
    match told.answer(room) {
        Err(refused) if refused.number == 10 => {
            let place = read(words).unwrap().resolve(room).unwrap_err().place;
            format!("refused 10 {}", if words[place] >> 24 == 101 { "membership" } else { "aggregate" })
        }
        Err(refused) if refused.number == 9 => "refused  9".into(),
        Err(refused) => format!("refused {}", refused.number),
        Ok((result, _)) if result.len() != words.len() => "resolved, stamped".into(),
        Ok((result, _)) if result != words => "resolved, slots set".into(),
        Ok(_) => "resolved, kept".into(),
    }
}

/// Compares one pack; says whether all is alike. A pack that is not is shown, with what it is.
pub fn pack(what: impl Display, made: &Made, room: usize, counts: &mut Counts) -> (bool, Told) {
    let words = made.pack.words();
    let told = told(made);
    counts.packs += 1;
    counts.note(outcome(&words, &told, room));
    let differs = model_differs(&words, &told, room).or_else(|| library_differs(&words, room));
    if let Some(how) = &differs {
        counts.differs(what, how, &words, room);
        if counts.differ < 10 {
            println!("  names {:?}", made.texts);
        }
    }
    (differs.is_none(), told)
}

/// Packs by chance of these numbers, each second one dealt out again.
pub fn by_chance(seed: u64, numbers: Range<u64>) -> Counts {
    let mut counts = Counts::default();
    let mut chance = Chance::new(seed);
    for number in (0..numbers.end).step_by(2) {
        let (made, room) = generate::made(&mut chance, Form::Program);
        let again = Made { pack: dealt(&mut chance, &made.pack), texts: made.texts.clone() };
        if number + 1 < numbers.start {
            continue;
        }
        let (_, told) = pack(format_args!("pack {number} of seed {seed}"), &made, room, &mut counts);
        let (_, told_again) = pack(format_args!("pack {} of seed {seed}", number + 1), &again, room, &mut counts);
        if let Some(how) = dealt_differs(&told, &told_again, room) {
            let what = format_args!("pack {number} of seed {seed}, dealt out again");
            counts.differs(what, &how, &made.pack.words(), room);
        }
    }
    counts
}

/// Compares one pack of `by_chance` and the one that is its counterpart, and shows both.
pub fn one_by_chance(seed: u64, number: u64) -> Counts {
    let first = number - number % 2;
    let mut chance = Chance::new(seed);
    for at in (0..=first).step_by(2) {
        let (made, room) = generate::made(&mut chance, Form::Program);
        let again = dealt(&mut chance, &made.pack);
        if at == first {
            println!("names {:?}", made.texts);
            for (pack, number) in [(made.pack, first), (again, first + 1)] {
                println!("pack {number} of seed {seed}");
                show(&pack.words(), room);
            }
        }
    }
    by_chance(seed, first..first + 2)
}

/// Prints words, and what the model answers to them.
pub fn show(words: &[u32], room: usize) {
    println!("  room {room}\n  {}", hex(words));
    match read(words) {
        Err(refusal) => println!("  check: {refusal:?}"),
        Ok(reading) => {
            for operation in OPERATIONS {
                let room = if operation == Operation::Resolve { room } else { usize::MAX };
                println!("  {operation:?}: {}", answered(&expected(&reading, operation, room)));
            }
        }
    }
}

/// Demand 3, of the original itself.
fn dealt_differs(a: &Told, b: &Told, room: usize) -> Option<String> {
    if a.tables.kinds != b.tables.kinds || a.tables.steps != b.tables.steps {
        return Some("kinds or steps".into());
    }
    match (a.answer(room), b.answer(room)) {
        (Ok(_), Ok(_)) => {
            let sorted = |told: &Told| told.resolved.as_ref().ok().map(Pack::sorted);
            (sorted(a) != sorted(b)).then(|| "records".into())
        }
        (Err(a), Err(b)) => {
            let either = |r: Refused| (10..=15).contains(&r.number);
            (a != b && !(either(a) && either(b))).then(|| format!("{a:?} {b:?}"))
        }
        (a, b) => Some(format!("{a:?} {b:?}")),
    }
}
