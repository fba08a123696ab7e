//! How long Resolve takes, the original's, ours and the floor's, on the same packs in the same rounds.
//!
//! Ours goes from bytes to bytes, Check included, and so does the floor, which is C that does the same unproved. The
//! original resolves a program in memory; its copy, which it rewrites, is made outside the time.

use crate::cases::plain;
use crate::floor;
use crate::original::Texts;
use cogunwa_model::packs::{count, derivation, derived, holds, leaf, member, rule, same, typed};
use cogunwa_model::records::{Derivation, Pack, Relation, Rule, Tree};
use std::hint::black_box;
use std::time::{Duration, Instant};

const ROUNDS: usize = 401;

/// Typed relations, chains of eight derived ones with membership tests, and rules with aggregates; a quarter is stamped.
fn mixed(typed_count: u32, rules: u32) -> Pack {
    let of = |i: u32| 100 + i % typed_count;
    let kind = |i: u32| 1 + i % 8;
    let mut relations: Vec<Relation> = (0..typed_count).map(|i| typed(of(i), &[kind(i), kind(i + 1)])).collect();
    for j in 0..4 * typed_count {
        let source = if j % 8 == 0 { of(j / 8) } else { 399 + j };
        let mut tests = vec![member(of(j), (1, 0)), holds()];
        if j % 4 != 0 {
            tests.push(Tree::leaf(104, 0));
        }
        let predicate = Tree::new(97, tests.len() as u32, &[], tests);
        relations.push(derived(400 + j, Derivation { predicate, ..derivation(source) }));
    }
    let reads = |i: u32| {
        let inner = same(count(of(i + 1), (1, 0), None), leaf());
        count(if i % 2 == 0 { of(i) } else { 400 + i % (4 * typed_count) }, (1, 0), Some(inner))
    };
    let body = |i: u32| Tree::new(68, 3, &[], vec![reads(3 * i), reads(3 * i + 1), reads(3 * i + 2)]);
    let rules = (0..rules).map(|i| rule(10 + i, kind(i), vec![body(i)])).collect();
    Pack { n: 700, relations, rules, ..Pack::default() }
}

fn chain(length: u32, first: Relation) -> Pack {
    let relations = (1..length).map(|i| derived(100 + i, derivation(99 + i)));
    Pack { n: 700, relations: std::iter::once(first).chain(relations).collect(), ..Pack::default() }
}

/// Rules whose bodies are aggregates within where trees, as deep as trees go.
fn nested(rules: u32) -> Pack {
    let body = || (0..15).fold(count(5, (1, 0), None), |tree, i| count(5 + i % 2, (1, 0), Some(same(tree, leaf()))));
    let rules: Vec<Rule> = (0..rules).map(|i| rule(10 + i, 2, vec![body()])).collect();
    Pack { n: 100, relations: vec![typed(5, &[1, 2]), typed(6, &[2, 1])], rules, ..Pack::default() }
}

fn small() -> Pack {
    let d = Derivation { predicate: member(5, (1, 0)), entity: 3, ..derivation(5) };
    let where_tree = same(count(5, (1, 0), None), leaf());
    let rules = vec![rule(8, 2, vec![count(5, (1, 0), Some(where_tree))]), rule(9, 3, vec![count(6, (1, 0), None)])];
    Pack { n: 10, relations: vec![typed(5, &[1, 2]), derived(6, d)], rules, ..Pack::default() }
}

fn median(mut times: Vec<Duration>) -> f64 {
    times.sort();
    times[times.len() / 2].as_nanos() as f64
}

/// Names as short as they can well be, and as long as they are in the original's own programs.
fn names(n: u32, long: bool) -> Vec<String> {
    let name = |i: u32| {
        if long { format!("us:statutes/7/2014/e/2/relation.member_of_household.{i:05}") } else { format!("n{i:04}") }
    };
    (0..n).map(|i| if i == 0 { String::new() } else { name(i) }).collect()
}

struct Times {
    words: usize,
    short: f64,
    long: f64,
    ours: f64,
    check: f64,
    floor: f64,
}

fn timed(call: impl FnOnce()) -> Duration {
    let start = Instant::now();
    call();
    start.elapsed()
}

fn measure(pack: &Pack) -> Times {
    let words = pack.words();
    let bytes = cogunwa::bytes_of(&words);
    let mut out = vec![0; 4 * 8192];
    let inputs = [false, true].map(|long| {
        let texts = names(pack.n, long);
        let texts = Texts::new(&texts);
        let result = texts.resolved(pack).expect("a pack that resolves").words();
        assert_eq!(cogunwa::resolve(&bytes, &mut out).unwrap().words, result.len());
        assert_eq!(cogunwa::words_of(&out[..4 * result.len()]), result);
        out.fill(0);
        assert_eq!(floor::resolve(&bytes, &mut out), Some(result.len()));
        assert_eq!(cogunwa::words_of(&out[..4 * result.len()]), result);
        texts.input(pack)
    });
    let (mut originals, mut ours, mut check, mut floor) = ([vec![], vec![]], vec![], vec![], vec![]);
    for round in 0..ROUNDS {
        for (i, (input, times)) in inputs.iter().zip(&mut originals).enumerate() {
            let mut copy = input.clone();
            times.push(timed(|| black_box(&mut copy).resolve().unwrap()));
            // Ours and the floor's each come after the original, by turns after the one or the other.
            if (round + i) % 2 == 0 {
                floor.push(timed(|| assert!(black_box(floor::resolve(black_box(&bytes), &mut out)).is_some())));
            } else {
                ours.push(timed(|| assert!(black_box(cogunwa::resolve(black_box(&bytes), &mut out)).is_ok())));
            }
        }
        check.push(timed(|| assert!(black_box(cogunwa::check(black_box(&bytes))).is_ok())));
    }
    let [short, long] = originals.map(median);
    Times { words: words.len(), short, long, ours: median(ours), check: median(check), floor: median(floor) }
}

/// The bytes of stack that a call goes down to, found by what it has overwritten.
#[inline(never)]
fn stack_of(call: &mut dyn FnMut()) -> usize {
    const DEEP: usize = 1 << 22;
    const NEAR: usize = 1 << 12;
    let here = 0u8;
    let top = &raw const here as usize;
    let at = |down: usize| (top - down) as *mut u8;
    // SAFETY: the thread's stack is far larger than DEEP, and nothing below this frame is in use.
    unsafe {
        (NEAR..DEEP).for_each(|down| at(down).write_volatile(0xA5));
        call();
        (NEAR..DEEP).rev().find(|&down| at(down).read_volatile() != 0xA5).unwrap_or(NEAR)
    }
}

pub fn run() -> bool {
    let one = typed(100, &[1]);
    let shapes: [(&str, Pack, f64); 5] = [
        ("mixed", mixed(60, 77), 15.0),
        ("one chain of 500", chain(500, one), 22.0),
        ("one ring of 500", chain(500, derived(100, derivation(599))), 17.0),
        ("nested where trees", nested(58), 4.5),
        ("small", small(), 4.0),
    ];
    println!(
        "Medians of {ROUNDS} rounds, in microseconds. Ours has Check in it and goes from bytes to bytes. The original's names"
    );
    println!("have 5 bytes in the first column and 57 in the second; the ratios are to these. The floor is plain C");
    println!("that does the same unproved; behind it is ours as a multiple of it.");
    print!("{:<20} {:>6} {:>9} {:>9} {:>9}", "pack", "words", "relations", "original", "original");
    print!(" {:>7} {:>7} {:>6} {:>6} {:>6}", "ours", "(Check)", "ratio", "ratio", "wanted");
    println!(" {:>7} {:>8}", "floor", "multiple");
    let mut met = true;
    let micro = |nanos: f64| nanos / 1000.0;
    for (name, pack, wanted) in &shapes {
        let t = measure(pack);
        let (short, long) = (t.short / t.ours, t.long / t.ours);
        met &= short >= *wanted;
        print!("{name:<20} {:>6} {:>9} {:>9.1} {:>9.1}", t.words, pack.relations.len(), micro(t.short), micro(t.long));
        print!(" {:>7.1} {:>7.1} {short:>6.1} {long:>6.1} {wanted:>6}", micro(t.ours), micro(t.check));
        println!(" {:>7.2} {:>8.2}", micro(t.floor), t.ours / t.floor);
    }
    println!();
    println!("Nanoseconds a word.");
    println!(
        "{:<20} {:>6} {:>9} {:>9} {:>7} {:>7} {:>7}",
        "pack", "words", "original", "original", "ours", "(Check)", "floor"
    );
    for (typed_count, rules) in [(4, 4), (15, 19), (60, 77)] {
        let t = measure(&mixed(typed_count, rules));
        let [a, b, c, d, e] = [t.short, t.long, t.ours, t.check, t.floor].map(|nanos| nanos / t.words as f64);
        println!("{:<20} {:>6} {a:>9.1} {b:>9.1} {c:>7.1} {d:>7.1} {e:>7.1}", "mixed", t.words);
    }
    println!();
    println!("{:<20} {:>13} {:>13} {:>13}", "bytes of stack", "original", "ours", "floor");
    for (name, pack, _) in &shapes {
        let made = plain(pack.clone());
        let mut input = Texts::new(&made.texts).input(pack);
        let bytes = cogunwa::bytes_of(&pack.words());
        let mut out = vec![0; 4 * 8192];
        let original = stack_of(&mut || input.resolve().unwrap());
        let ours = stack_of(&mut || assert!(cogunwa::resolve(&bytes, &mut out).is_ok()));
        let floor = stack_of(&mut || assert!(floor::resolve(&bytes, &mut out).is_some()));
        println!("{name:<20} {original:>13} {ours:>13} {floor:>13}");
    }
    met
}
