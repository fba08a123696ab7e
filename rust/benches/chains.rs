//! The time of All kinds, Kinds of one name, Lean, Resolve and the filtered tables, on packs of 64, 128, 256 and 512
//! relations:
//!
//!     cargo bench --offline --bench chains
//!
//! Check of the same pack, which each of them starts with, and a plain copy of the pack's bytes are measured beside them,
//! in the same rounds. A pack without relations shows what a call takes however small the pack is.
//!
//! Then Lean on packs of about 500, 2,000 and 8,000 words, most of them with paths of eight steps. Eight steps take 24 words of
//! a relation's 37, so that a pack has room for 221 such relations; of 512 relations 510 have room for one step.
mod timed;

use cogunwa_model::packs::{forked, graph, layered, named};
use cogunwa_model::records::Relation;
use std::hint::black_box;
use timed::{ROUND, ROUNDS, Timed, median};

const COUNTS: [u32; 4] = [64, 128, 256, 512];

fn main() {
    let micros = ROUND.as_micros();
    println!("Each time is the median of {ROUNDS} rounds of about {micros} microseconds. Packs have 4,096 names.");
    println!();
    println!("Microseconds a call, and nanoseconds for each relation in brackets.");
    println!();
    kinds();
    println!();
    tables();
    println!();
    println!("Lean along sources and paths: nanoseconds a call, and for each word in brackets.");
    println!();
    leaning();
}

/// Relations in a row, each inheriting from the next, and one at the end.
fn row(count: u32, last: Relation) -> Vec<Relation> {
    let mut relations: Vec<Relation> = (0..count - 1).map(|name| named(name).source(name + 1)).collect();
    relations.push(last);
    relations
}

fn kinds() {
    headed(&["copy", "check", "all kinds", "one name", "lean", "resolve"]);
    measure_kinds("no relations", 0, &graph(4096, &[]));
    for count in COUNTS {
        let chain = row(count, named(count - 1).kinds(&[1, 2]));
        measure_kinds("one chain", count, &graph(4096, &chain));
    }
    for count in COUNTS {
        let ring = row(count, named(count - 1).source(0));
        measure_kinds("one ring", count, &graph(4096, &ring));
    }
    for count in COUNTS {
        let own: Vec<Relation> = (0..count).map(|name| named(name).kinds(&[1, 2])).collect();
        measure_kinds("not derived", count, &graph(4096, &own));
    }
}

fn tables() {
    headed(&["copy", "check", "direct", "innermost", "alias", "unresolved"]);
    measure_tables("no relations", 0, &graph(4096, &[]));
    let takes = |name, kind| named(name).entity(name).entities(&[kind]);
    // Each derivation gives its entity the next name, so that innermost goes all the way.
    for count in COUNTS {
        let on: Vec<Relation> = (0..count).map(|name| takes(name, name + 1)).collect();
        measure_tables("kinds lead on", count, &graph(4096, &on));
    }
    for count in COUNTS {
        let round: Vec<Relation> = (0..count).map(|name| takes(name, (name + 1) % count)).collect();
        measure_tables("and round", count, &graph(4096, &round));
    }
    // All derivations have the list at the end of one chain of sources.
    for count in COUNTS {
        let chain = row(count, named(count - 1).kinds(&[1, 2]));
        let entities: Vec<Relation> = chain.into_iter().zip(0..).map(|(link, name)| link.entity(name)).collect();
        measure_tables("one chain", count, &graph(4096, &entities));
    }
}

const WORDS: [usize; 3] = [500, 2000, 8000];

/// Makes so many relations.
type Shape<'s> = &'s dyn Fn(u32) -> Vec<Relation>;

/// From the first name on to the last one, and to a name that nothing leads to, for which each relation is entered.
fn leaning() {
    headed(&["copy", "check", "lean, yes", "lean, no"]);
    let sources = |count| row(count, named(count - 1).kinds(&[1, 2]));
    // Eight ways from each relation to the next.
    let paths = |count: u32| (0..count).map(|name| named(name).path_over(name + 1, 8)).collect();
    let shapes: [(&str, u32, Shape); 4] = [
        ("sources", 13, &sources),
        ("eight steps", 37, &paths),
        ("layers", 37, &|count| layered(count, 4, 8)),
        ("forks", 16, &|count| forked(count)),
    ];
    for (shape, each, relations) in shapes {
        for words in WORDS {
            let count = (words as u32 / each).min(512);
            measure_leaning(shape, count, &graph(4096, &relations(count)));
        }
    }
    measure_leaning("layers, most", 221, &graph(4096, &layered(221, 4, 8)));
    measure_leaning("forks, most", 512, &graph(4096, &forked(512)));
}

fn measure_leaning(shape: &str, count: u32, words: &[u32]) {
    let pack = &cogunwa::bytes_of(words);
    let mut copy = vec![0u8; pack.len()];
    let last = count - 1;
    assert_eq!([last, 4095].map(|name| cogunwa::lean(pack, 0, name)), [Ok(true), Ok(false)]);
    let times = times(&mut [
        Box::new(|| black_box(&mut copy).copy_from_slice(black_box(pack))),
        Box::new(|| seen(cogunwa::check(black_box(pack)))),
        Box::new(|| seen(cogunwa::lean(black_box(pack), black_box(0), black_box(last)))),
        Box::new(|| seen(cogunwa::lean(black_box(pack), black_box(0), black_box(4095)))),
    ]);
    print!("{shape:13} {count:>9} {:>6}", words.len());
    for time in times {
        print!(" {:>14}", format!("{time:.0} ({:.2})", time / words.len() as f64));
    }
    println!();
}

fn headed(columns: &[&str]) {
    print!("{:13} {:>9} {:>6}", "", "relations", "words");
    for column in columns {
        print!(" {column:>14}");
    }
    println!();
}

fn shown(shape: &str, count: u32, words: usize, times: &[f64]) {
    print!("{shape:13} {count:>9} {words:>6}");
    for time in times {
        let each = if count == 0 { String::new() } else { format!(" ({:.1})", time / f64::from(count)) };
        print!(" {:>14}", format!("{:.2}{each}", time / 1000.0));
    }
    println!();
}

/// An answer that counts as used.
fn seen<T>(answer: T) {
    black_box(answer);
}

/// Nanoseconds of a call of each, in the same rounds.
fn times(calls: &mut [Box<dyn FnMut() + '_>]) -> Vec<f64> {
    let mut timed: Vec<_> = calls.iter_mut().map(Timed::new).collect();
    for _ in 0..ROUNDS {
        timed.iter_mut().for_each(Timed::round);
    }
    timed.into_iter().map(|t| median(t.times)).collect()
}

fn measure_kinds(shape: &str, count: u32, words: &[u32]) {
    let pack = &cogunwa::bytes_of(words);
    let (mut out, mut copy) = (vec![0u8; 2048], vec![0u8; pack.len()]);
    assert_eq!(cogunwa::all_kinds(pack, &mut out).map(|w| w.words), Ok(count as usize));
    // Resolve leaves the pack's words as they are.
    let mut resolved = vec![0u8; pack.len()];
    assert_eq!(cogunwa::resolve(pack, &mut resolved).map(|w| w.words), Ok(words.len()));
    // The walk goes from the first name to the last.
    let last = count.saturating_sub(1);
    let times = times(&mut [
        Box::new(|| black_box(&mut copy).copy_from_slice(black_box(pack))),
        Box::new(|| seen(cogunwa::check(black_box(pack)))),
        Box::new(|| seen(cogunwa::all_kinds(black_box(pack), black_box(&mut out)))),
        Box::new(|| seen(cogunwa::kinds_of(black_box(pack), black_box(0)))),
        Box::new(|| seen(cogunwa::lean(black_box(pack), black_box(0), black_box(last)))),
        Box::new(|| seen(cogunwa::resolve(black_box(pack), black_box(&mut resolved)))),
    ]);
    shown(shape, count, words.len(), &times);
}

fn measure_tables(shape: &str, count: u32, words: &[u32]) {
    let pack = &cogunwa::bytes_of(words);
    let mut outs = vec![vec![0u8; 16_384]; 4];
    let mut copy = vec![0u8; pack.len()];
    let tables = [cogunwa::direct, cogunwa::innermost, cogunwa::alias, cogunwa::unresolved];
    let mut calls: Vec<Box<dyn FnMut()>> = vec![
        Box::new(|| black_box(&mut copy).copy_from_slice(black_box(pack))),
        Box::new(|| seen(cogunwa::check(black_box(pack)))),
    ];
    for (table, out) in tables.into_iter().zip(&mut outs) {
        assert_eq!(table(pack, out), Ok(4096));
        calls.push(Box::new(move || seen(table(black_box(pack), black_box(out)))));
    }
    shown(shape, count, words.len(), &times(&mut calls));
}
