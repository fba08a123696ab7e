//! The reasons, held to what Resolve wrote, record by record and word by word.

use crate::accepted::Accepted;
use crate::facts::{Facts, Resolved, ask, resolve};
use crate::pack::Pack;
use crate::trouble::{Outcome, disagreement};
use crate::why::{Reason, equal_kinds, reasons, stamped};
use cogunwa::Refusal;
use std::collections::HashMap;

/// What the library says of a pack, why each node runs as it does, and what Resolve made of it.
pub struct Findings<'a> {
    pub facts: &'a Facts,
    pub reasons: Vec<Reason<'a>>,
    /// Relations that are stamped, each with whether list 9 takes the kinds too.
    pub stamped: Vec<(usize, bool)>,
    pub resolved: Result<Resolved, Refusal>,
}

pub fn facts(accepted: &Accepted) -> Outcome<Facts> {
    ask(&accepted.input.bytes, &accepted.pack)
}

/// Works the reasons out and compares them with Resolve's answer. Where they are not the same, nothing is to be believed.
pub fn find<'a>(accepted: &'a Accepted, facts: &'a Facts) -> Outcome<Findings<'a>> {
    let pack = &accepted.pack;
    let resolved = resolve(&accepted.input.bytes)?;
    let findings = Findings { facts, reasons: reasons(pack, facts), stamped: stamped(pack, facts), resolved };
    compare(pack, &accepted.input.words, &findings).map_err(disagreement)?;
    Ok(findings)
}

pub fn compare(pack: &Pack, words: &[u32], found: &Findings) -> Result<(), String> {
    let due = equal_kinds(pack, found.facts).or_else(|| found.reasons.iter().find_map(|reason| reason.refused));
    let parts = expected(pack, words, found);
    let length = parts.iter().map(|(_, words)| words.len()).sum::<usize>();
    let due = due.or((length > cogunwa::MAX_WORDS).then_some(Refusal { number: 16, place: 0, name: 0, other: 0 }));
    match (&found.resolved, due) {
        (Err(refusal), Some(due)) if *refusal == due => Ok(()),
        (Err(refusal), Some(due)) => Err(format!("Resolve refuses by {refusal:?}, and {due:?} was worked out")),
        (Err(refusal), None) => Err(format!("Resolve refuses by {refusal:?}, for which there is no reason")),
        (Ok(_), Some(due)) => Err(format!("Resolve accepts what was worked out to be refused by {due:?}")),
        (Ok(result), None) => same_parts(&parts, &records(&result.pack, &result.words), result, length, found.facts),
    }
}

fn same_parts(
    due: &[(Part, Vec<u32>)],
    result: &[(Part, Vec<u32>)],
    resolved: &Resolved,
    length: usize,
    facts: &Facts,
) -> Result<(), String> {
    if resolved.words.len() != length || resolved.words.first() != Some(&cogunwa::word(1, length as u32)) {
        return Err(format!("Resolve writes {} words, and {length} were worked out", resolved.words.len()));
    }
    if resolved.steps != facts.steps {
        return Err("Resolve and All kinds count other steps".into());
    }
    let result: HashMap<Part, &Vec<u32>> = result.iter().map(|(part, words)| (*part, words)).collect();
    for (part, words) in due {
        let same = result
            .get(part)
            .is_some_and(|found| found[..] == words[..] || *part == Part::Header && found[1..] == words[1..]);
        if !same {
            return Err(format!("Resolve writes {part:?} another way than was worked out"));
        }
    }
    Ok(())
}

/// A record, however records are ordered: relations by name, rules by name and which of that name, blocks by their place.
#[derive(Clone, Copy, Debug, PartialEq, Eq, Hash)]
pub enum Part {
    Header,
    Relation(u32),
    Rules,
    Rule(u32, usize),
    Blocks,
    Block(usize),
}

/// The words of each record.
fn records(pack: &Pack, words: &[u32]) -> Vec<(Part, Vec<u32>)> {
    let mut starts = vec![(Part::Header, 0)];
    starts.extend(pack.relations.iter().map(|r| (Part::Relation(r.name), r.place)));
    let blocks = pack.blocks.first().map_or(words.len(), |block| block.place).saturating_sub(1);
    let rules = pack.rules.first().map_or(blocks, |rule| rule.place).saturating_sub(1);
    starts.push((Part::Rules, rules));
    let mut times: HashMap<u32, usize> = HashMap::new();
    for rule in &pack.rules {
        let time = times.entry(rule.name).or_default();
        starts.push((Part::Rule(rule.name, *time), rule.place));
        *time += 1;
    }
    starts.push((Part::Blocks, blocks));
    starts.extend(pack.blocks.iter().enumerate().map(|(i, block)| (Part::Block(i), block.place)));
    let ends = starts.iter().skip(1).map(|&(_, start)| start).chain([words.len()]);
    starts.iter().zip(ends).map(|(&(part, start), end)| (part, words.get(start..end).unwrap_or(&[]).to_vec())).collect()
}

/// The words of each record as the reasons leave them: slots set, lists put in.
fn expected(pack: &Pack, words: &[u32], found: &Findings) -> Vec<(Part, Vec<u32>)> {
    let mut set = words.to_vec();
    for reason in &found.reasons {
        let place = reason.tree.place;
        for (word, value) in [
            (place + 1, cogunwa::word(80, reason.slots.current & 0xFF_FFFF)),
            (place + 2, cogunwa::word(81, reason.slots.related & 0xFF_FFFF)),
        ] {
            if let Some(word) = set.get_mut(word) {
                *word = value;
            }
        }
    }
    let mut parts = records(pack, &set);
    for &(index, both) in &found.stamped {
        let relation = &pack.relations[index];
        let (Some(kinds), Some(d)) = (found.facts.kinds(relation.name), &relation.derivation) else { continue };
        let Some((_, words)) = parts.iter_mut().find(|(part, _)| *part == Part::Relation(relation.name)) else {
            continue;
        };
        put_in(words, d.kinds.place - relation.place, 21, kinds);
        if both {
            put_in(words, relation.kinds.place - relation.place, 9, kinds);
        }
    }
    parts
}

fn put_in(words: &mut Vec<u32>, at: usize, kind: u8, names: &[u32]) {
    let list = names.iter().map(|&name| cogunwa::word(10, name));
    words.splice(at..=at, [cogunwa::word(kind, names.len() as u32)].into_iter().chain(list));
}
