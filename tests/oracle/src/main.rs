//! Compares Cogunwa's operations with the original.

include!(concat!(env!("OUT_DIR"), "/original.rs"));
mod bench;
mod cases;
mod compare;
mod damage;
mod faults;
mod floor;
mod formula;
mod library;
mod list;
mod original;
mod rulespec;

use cogunwa_model::replay::words_of_hex;
use std::process::ExitCode;

const HELP: &str = "\
compare SEED COUNT    packs made by chance, each also dealt out again
named                 document 01's cases and packs at the limits
exhaustive            all small graphs
damaged SEED COUNT    damaged packs, against the model
faults SEED COUNT     mistakes on purpose in the model; fails where one is not noticed
again SEED NUMBER     one pack of compare SEED, by its number, and the same dealt out again, with what is answered
words ROOM WORD ..    these words, eight digits each, against the model, with what it answers
list FILE             writes the fixed list of the original's answers
bench                 how long Resolve takes, the original's, ours and the floor's; fails where ours is not as fast as wanted
";

fn run(args: &[String]) -> Option<bool> {
    let number = |i: usize| args.get(i)?.parse::<u64>().ok();
    match args.first()?.as_str() {
        "compare" => {
            let counts = compare::by_chance(number(1)?, 0..number(2)?);
            counts.print("by chance");
            Some(counts.differ == 0)
        }
        "again" => {
            let counts = compare::one_by_chance(number(1)?, number(2)?);
            counts.print("again");
            Some(counts.differ == 0)
        }
        "words" => {
            let counts = damage::run_words(&words_of_hex(&args.get(2..)?.join(" "))?, number(1)? as usize);
            counts.print("words");
            Some(counts.differ == 0)
        }
        "named" => {
            let counts = cases::run_named();
            counts.print("by name");
            Some(counts.differ == 0)
        }
        "damaged" => {
            let counts = damage::run(number(1)?, number(2)?);
            counts.print("damaged");
            Some(counts.differ == 0)
        }
        "faults" => Some(faults::run(number(1)?, number(2)?)),
        "list" => Some(list::write(args.get(1)?)),
        "bench" => Some(bench::run()),
        "exhaustive" => Some(cases::run_exhaustive()),
        _ => None,
    }
}

fn main() -> ExitCode {
    // A large stack, as the model goes down as deep as a pack is long where its bound on the depth is taken away.
    let work = || run(&std::env::args().skip(1).collect::<Vec<_>>());
    match std::thread::Builder::new().stack_size(1 << 28).spawn(work).unwrap().join().unwrap() {
        Some(true) => ExitCode::SUCCESS,
        Some(false) => ExitCode::FAILURE,
        None => {
            print!("{HELP}");
            ExitCode::from(2)
        }
    }
}
