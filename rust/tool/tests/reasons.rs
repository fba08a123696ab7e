//! The reasons of `why`, held to what Resolve writes, on all replayed packs and on packs by chance; and that a wrong reason
//! is seen.
mod cases;

use cogunwa_model::packs::household;
use cogunwa_model::replay::by_chance;
use cogunwa_tool::accepted::{Accepted, accept};
use cogunwa_tool::answers::why_lines;
use cogunwa_tool::commands::resolved_text;
use cogunwa_tool::held::{compare, facts, find};
use cogunwa_tool::input::{from_bytes, from_text};
use cogunwa_tool::pack::Slots;
use cogunwa_tool::why::{Becomes, Reason};
use cogunwa_tool::{say, tell};
use std::collections::BTreeMap;

fn accepted(words: &[u32]) -> Option<Accepted> {
    accept(from_bytes("pack", cogunwa::bytes_of(words))).ok()
}

/// What was met, by how often: outcomes of nodes, refusals and stamped relations.
#[derive(Default)]
struct Met(BTreeMap<String, usize>);

impl Met {
    fn add(&mut self, what: impl Into<String>) {
        *self.0.entry(what.into()).or_default() += 1;
    }

    fn count(&self, what: &str) -> usize {
        self.0.get(what).copied().unwrap_or(0)
    }
}

/// Everything that `why` and `resolve` say of a pack. Any disagreement with the library is an error of `find`.
fn hold(name: &str, words: &[u32], met: &mut Met) {
    let Some(accepted) = accepted(words) else { return };
    let fail = |message: String| -> String { format!("{name}: {message}\n{}", accepted.text) };
    let facts = facts(&accepted).unwrap_or_else(|t| panic!("{}", fail(t.message)));
    let found = find(&accepted, &facts).unwrap_or_else(|t| panic!("{}", fail(t.message)));
    for reason in &found.reasons {
        let why = format!("{:?}", reason.why);
        met.add(format!("{:?} {}", reason.becomes(), why.split([' ', '{']).next().unwrap()));
        assert!(!tell::because(&accepted, &facts, reason).is_empty() && !tell::advice(reason).is_empty());
    }
    let all: Vec<&Reason> = found.reasons.iter().collect();
    let nodes = why_lines(&accepted, &facts, &all).lines().filter(|line| line.starts_with("  line ")).count();
    assert_eq!(nodes, all.len(), "{name}: a line for each node");
    (0..found.stamped.len()).for_each(|_| met.add("stamped"));
    match &found.resolved {
        Ok(resolved) => {
            met.add("resolved");
            as_text(&accepted.text, &resolved.words);
            resolved_text(&accepted, resolved).unwrap_or_else(|t| panic!("{}", fail(t.message)));
            let turned = all.iter().filter(|r| r.becomes() == Becomes::Turned).count();
            assert_eq!(tell::changes(&accepted, &found).len(), turned + found.stamped.len(), "{name}");
        }
        Err(refusal) => {
            met.add(format!("refused {}", refusal.number));
            let said = say::unresolved(&accepted, &facts, *refusal);
            assert!(
                said.ends_with(&format!("refusal {}", refusal.number))
                    || said.contains(&format!("refusal {}\n", refusal.number))
            );
        }
    }
}

/// The same pack as text: it resolves to a text that makes the same words, and that text changes no more.
fn as_text(text: &str, words: &[u32]) {
    let resolve = |text: &str| {
        let accepted = accept(from_text("text", text.into()).ok().unwrap()).ok().unwrap();
        let facts = facts(&accepted).ok().unwrap();
        let found = find(&accepted, &facts).ok().unwrap();
        let resolved = found.resolved.as_ref().unwrap();
        assert_eq!(resolved.words, words);
        (resolved_text(&accepted, resolved).ok().unwrap(), tell::changes(&accepted, &found).len())
    };
    let (once, _) = resolve(text);
    assert_eq!(resolve(&once), (once.clone(), 0));
}

#[test]
fn every_replayed_pack() {
    let mut met = Met::default();
    for case in cases::replayed().iter().filter(|case| case.accepted) {
        hold(&case.name, &case.words, &mut met);
    }
    println!("{:?}", met.0);
    for number in 9..=16 {
        assert!(met.count(&format!("refused {number}")) > 0, "refusal {number} was never met");
    }
    assert!(met.count("resolved") > 1000 && met.count("stamped") > 100);
}

#[test]
fn packs_by_chance() {
    let mut met = Met::default();
    let all = by_chance(2202, 2500, &cases::FORMS, |words, _| hold("a pack by chance", words, &mut met));
    println!("{:?}", met.0);
    if !all {
        return;
    }
    let whys = [
        "Turned Derived",
        "AsWritten Derived",
        "Turned OneBears",
        "AsWritten OneBears",
        "Refused BothBear",
        "Kept NoneBears",
        "Kept Undeclared",
        "Kept NoKinds",
        "Kept NotTwo",
        "Turned Members",
        "Kept AlikeKept",
        "Refused AlikeOpen",
        "Kept NotEach",
        "Kept NoMembership(InRule)",
        "Kept NoMembership(InWhere)",
        "Kept NoMembership(InPattern)",
        "Kept NoMembership(InPeriods)",
        "Kept NoMembership(Unknown)",
    ];
    for why in whys {
        assert!(met.count(why) > 0, "{why} was never met");
    }
}

/// A reason that is not Resolve's is seen: another slot, a stamp too many or too few, a refusal that is none.
#[test]
fn wrong_reasons_are_seen() {
    let words = household();
    let accepted = accepted(&words).unwrap();
    let facts = facts(&accepted).unwrap();
    let good = || find(&accepted, &facts).unwrap();
    let check = |found: &_| compare(&accepted.pack, &words, found);
    assert_eq!(check(&good()), Ok(()));

    let mut found = good();
    found.reasons[0].slots = Slots { current: 0, related: 1 };
    assert!(check(&found).is_err());
    let mut found = good();
    found.stamped.clear();
    assert!(check(&found).is_err());
    let mut found = good();
    found.stamped[0].1 = false;
    assert!(check(&found).is_err());
    let mut found = good();
    found.reasons[1].refused = Some(cogunwa::Refusal { number: 10, place: 46, name: 6, other: 1 });
    assert!(check(&found).is_err());
    let mut found = good();
    found.resolved = Err(cogunwa::Refusal { number: 10, place: 46, name: 6, other: 1 });
    assert!(check(&found).is_err());
    let mut found = good();
    found.resolved.as_mut().unwrap().words[21] ^= 1;
    let result = found.resolved.as_mut().unwrap();
    result.pack = cogunwa_tool::read::read(&result.words).unwrap();
    assert!(check(&found).is_err());
}
