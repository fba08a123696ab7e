//! The list of packs that the program `cases` replays, made from the model, and what the program must write of it:
//!
//!     cargo run --release --bin cases -- write FOLDER    writes FOLDER/stdin and FOLDER/stdout
//!     cargo run --release --bin cases -- print           lists the calls by the numbers that the program tells
//!     cargo run --release --bin cases -- case NUMBER     lists those of one case, with all words
//!     cargo run --release --bin cases -- check FILE      holds every answer of a list to the model
//!     cargo run --release --bin cases -- mistakes FILE   how many answers of a list notice each mistake of the model
//!
//! A good pack is put together from records, a damaged one is a good one with a word changed; what each comes to is the
//! model's answer. The sections say what they are there for, and see that the model answers so. The last part is the file of
//! the original's answers, which the model is held to.
mod by_chance;
mod checking;
mod entries;
mod following;
mod list;
mod make;
mod originals;
mod turning;

use cogunwa_model::faults::{self, FAULTS, Of};
use cogunwa_model::replay::hex;
use list::{Call, List};
use std::process::ExitCode;
use std::{env, fs};

fn whole() -> List {
    let mut list = List::default();
    checking::sections(&mut list);
    following::sections(&mut list);
    turning::sections(&mut list);
    by_chance::sections(&mut list);
    originals::section(&mut list);
    list
}

fn answer(call: &Call) -> String {
    match call.answer {
        [0, 0, value, steps] => format!("given {value} {steps}"),
        [number, place, name, other] => format!("refused {number} {place} {name} {other}"),
    }
}

fn asked(call: &Call) -> String {
    call.arguments.iter().fold(call.operation.to_string(), |text, argument| format!("{text} {argument}"))
}

/// Lists every case under the headings of its section, or one with all words.
fn print(list: &List, only: Option<usize>) {
    for (i, case) in list.cases.iter().enumerate().filter(|(i, _)| only.is_none_or(|only| only == i + 1)) {
        let headings = list.headings.iter().filter(|(before, _)| *before == i);
        headings.for_each(|(_, heading)| println!("# {heading}"));
        let (number, name) = (i + 1, &case.name);
        let words = |words: &[u32]| if only.is_some() { hex(words) } else { format!("{} words", words.len()) };
        println!("{number} {name}: {}", words(&case.words));
        for (k, call) in case.calls.iter().enumerate() {
            let written = if call.words.is_empty() { String::new() } else { format!(" | {}", words(&call.words)) };
            println!("{number}.{} {name} > {} | {}{written}", k + 1, asked(call), answer(call));
        }
    }
}

type Cases = Vec<(Vec<u32>, Vec<Call>)>;

/// The cases of a file.
fn cases(file: &str) -> Cases {
    entries::read(&fs::read(file).unwrap()).expect("a list of cases")
}

/// Runs the calls of a list by the model, all or those of Check; `tell` is told the numbers of those that it answers otherwise,
/// and how.
fn differing(cases: &Cases, only_check: bool, mut tell: impl FnMut(usize, usize, &Call, &Call)) -> usize {
    let mut wrong = 0;
    for (i, (words, calls)) in cases.iter().enumerate() {
        let reading = cogunwa_model::read(words);
        let calls = calls.iter().enumerate().filter(|(_, call)| !only_check || call.operation == "check");
        for (k, call) in calls {
            let found = list::answered(&reading, call.operation, &call.arguments);
            if found != *call {
                wrong += 1;
                tell(i + 1, k + 1, call, &found);
            }
        }
    }
    wrong
}

/// Says where a list does not have the model's answers, and whether it has them all.
fn check(cases: &Cases) -> bool {
    let wrong = differing(cases, false, |case, number, call, found| {
        println!("{case}.{number} {}: {}, by the model {}", asked(call), answer(call), answer(found));
    });
    println!("{} answers, {wrong} differ", cases.iter().map(|(_, calls)| calls.len()).sum::<usize>());
    wrong == 0
}

/// Says how many answers of a list notice each mistake that the model can make, and whether each is noticed.
fn mistakes(cases: &Cases) -> bool {
    let mut all = true;
    for &(fault, of, text) in FAULTS {
        // Nothing else is run on what is no pack.
        let noticed = faults::with(fault, || differing(cases, of == Of::Check, |_, _, _, _| ()));
        println!("{noticed:6} {text}");
        all &= noticed > 0;
    }
    all
}

fn run(arguments: &[&str]) -> Option<bool> {
    match arguments {
        ["write", folder] => {
            let list = whole();
            let (bytes, totals) = (entries::written(&list), entries::totals(&list));
            let read = entries::read(&bytes).expect("what is written is a list");
            let made = list.cases.iter().map(|case| (&case.words, &case.calls));
            assert!(read.iter().map(|(words, calls)| (words, calls)).eq(made), "what is written is read");
            fs::write(format!("{folder}/stdin"), bytes).unwrap();
            fs::write(format!("{folder}/stdout"), &totals).unwrap();
            print!("{totals}");
        }
        ["print"] => print(&whole(), None),
        ["case", number] => print(&whole(), Some(number.parse().ok()?)),
        ["check", file] => return Some(check(&cases(file))),
        ["mistakes", file] => return Some(mistakes(&cases(file))),
        _ => return None,
    }
    Some(true)
}

fn main() -> ExitCode {
    let arguments: Vec<String> = env::args().skip(1).collect();
    match run(&arguments.iter().map(String::as_str).collect::<Vec<_>>()) {
        Some(true) => ExitCode::SUCCESS,
        Some(false) => ExitCode::FAILURE,
        None => {
            println!("cases write FOLDER, cases print, cases case NUMBER, cases check FILE, or cases mistakes FILE");
            ExitCode::from(2)
        }
    }
}
