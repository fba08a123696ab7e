//! Check, Rewrite, All kinds and Resolve of a pack in a file: eight hexadecimal digits a word, with blanks or line ends
//! between, and comments after `#`.
//!
//!     cargo run --release --offline --example link -- ../examples/household.hex

use cogunwa::{Refusal, kinds_at, word_kind, word_value};
use std::error::Error;
use std::process::ExitCode;

fn main() -> ExitCode {
    let Some(file) = std::env::args().nth(1) else {
        eprintln!("usage: link FILE");
        return ExitCode::from(2);
    };
    let words = match read(&file) {
        Ok(words) => words,
        Err(error) => {
            eprintln!("{file}: {error}");
            return ExitCode::from(2);
        }
    };
    match show(&words) {
        Ok(()) => ExitCode::SUCCESS,
        Err(r) => {
            println!("refused {} {} {} {}: {r}", r.number, r.place, r.name, r.other);
            if let Some(&word) = words.get(r.place).filter(|_| !matches!(r.number, 1 | 16)) {
                println!("  word {} is {word:08X}: kind {}, value {}", r.place, word_kind(word), word_value(word));
            }
            ExitCode::FAILURE
        }
    }
}

fn read(file: &str) -> Result<Vec<u32>, Box<dyn Error>> {
    Ok(cogunwa::words_of_hex(&std::fs::read_to_string(file)?)?)
}

fn show(words: &[u32]) -> Result<(), Refusal> {
    let pack = cogunwa::bytes_of(words);
    println!("pack: {} words", words.len());
    cogunwa::check(&pack)?;
    println!("check: yes");
    let same = if cogunwa::rewrite_vec(&pack)? == words { "the same as the pack's" } else { "NOT the pack's" };
    println!("rewrite: {same}");

    let kinds = cogunwa::all_kinds_vec(&pack)?;
    println!("all kinds: {} relations, {} steps", kinds.places.len(), kinds.steps);
    for (relation, place) in cogunwa::relations(words).zip(kinds.places) {
        match place {
            Some(place) => println!("  relation {relation}: kinds {}, the list at word {place}", listed(words, place)),
            None => println!("  relation {relation}: none"),
        }
    }

    let resolved = cogunwa::resolve_vec(&pack)?;
    println!("resolve: {} words, {} steps", resolved.words.len(), resolved.steps);
    show_changes(words, &resolved.words);
    Ok(())
}

/// The kinds of the list whose count word is at this place.
fn listed(words: &[u32], place: usize) -> String {
    kinds_at(words, place).map(|kind| kind.to_string()).collect::<Vec<_>>().join(" ")
}

/// A line for each slot that is set another way and each empty list that is filled, with the place in the pack.
fn show_changes(words: &[u32], result: &[u32]) {
    let mut at = 1;
    for (place, &word) in words.iter().enumerate().skip(1) {
        let (before, after) = (word_value(word), word_value(result[at]));
        match word_kind(word) {
            _ if before == after => {}
            9 => println!("  word {place}, slot kinds: {}", listed(result, at)),
            21 => println!("  word {place}, slot entities: {}", listed(result, at)),
            80 => println!("  word {place}, current slot: {before} becomes {after}"),
            _ => println!("  word {place}, related slot: {before} becomes {after}"),
        }
        let filled = matches!(word_kind(word), 9 | 21) && before == 0;
        at += 1 + if filled { after as usize } else { 0 };
    }
}
