//! Packs by chance, for all operations.

use crate::list::{List, MUCH};
use cogunwa_model::damage::damaged;
use cogunwa_model::dealt::dealt;
use cogunwa_model::generate::{self, Form};
use cogunwa_model::records::Pack;
use cogunwa_model::{Chance, Reading, read};

/// The forms, how many packs of each and of how many words at most.
const FORMS: [(Form, usize, usize); 6] = [
    (Form::Program, 86, 110),
    (Form::Turning, 73, 125),
    (Form::Mixed, 16, 220),
    (Form::Tangled, 20, 180),
    (Form::Entities, 20, 160),
    (Form::Paths, 24, 200),
];

fn reading(pack: &Pack) -> Reading {
    read(&pack.words()).unwrap()
}

/// Holds the model to document 01 on a pack dealt out again: both resolve, record by record alike, or both refuse, by 9 and the
/// same name or each by one of 10 to 15.
fn alike(pack: &Pack, again: &Pack) -> bool {
    let (one, other) = (reading(pack), reading(again));
    match (one.resolve(MUCH as usize), other.resolve(MUCH as usize)) {
        (Ok((one, steps)), Ok((other, other_steps))) => {
            read(&one).unwrap().pack.sorted() == read(&other).unwrap().pack.sorted() && steps == other_steps
        }
        (Err(one), Err(other)) if one.number == 9 => (one.number, one.name) == (other.number, other.name),
        (Err(one), Err(other)) => (one.number == 16) == (other.number == 16) && other.number != 9,
        _ => false,
    }
}

pub fn sections(list: &mut List) {
    for (form, count, longest) in FORMS {
        list.section(&format!("packs by chance, each damaged, some dealt out again: {form:?}"));
        let packs = (0..).map(|number| {
            let mut r = Chance::nth(2026, number);
            let pack = generate::made(&mut r, form).0.pack;
            (format!("chance-{form:?}-{number}").to_lowercase(), r, pack)
        });
        let short = packs.filter(|(_, _, pack)| pack.words().len() <= longest).take(count);
        for (i, (name, mut r, pack)) in short.enumerate() {
            let words = pack.words();
            let case = list.ok(&name, &words);
            if i % 2 == 0 {
                case.ask();
            }
            list.any(&format!("{name}-damaged"), &damaged(&mut r, &words));
            let again = dealt(&mut r, &pack);
            assert!(pack.sorted() == again.sorted() && alike(&pack, &again), "{name}");
            if i % 3 == 0 {
                list.ok(&format!("{name}-dealt"), &again.words()).ask();
            }
        }
    }
}
