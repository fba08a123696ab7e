//! The commands that say something of a pack: why, kinds, leans and tables.

use crate::accepted::Accepted;
use crate::args::{Args, Done};
use crate::chains::whose;
use crate::commands::given;
use crate::facts::Facts;
use crate::held::{facts, find};
use crate::names::Naming;
use crate::pack::Pack;
use crate::rows::rows;
use crate::trouble::{Outcome, Trouble, disagreement, refused, unusable};
use crate::why::{Becomes, Reason};
use crate::words::nearest;
use crate::{leaning, say, tell};
use std::collections::BTreeSet;
use std::fmt::Write;

// ---- why

pub fn why(args: &Args) -> Outcome<Done> {
    let accepted = given(args)?;
    let facts = facts(&accepted)?;
    let found = find(&accepted, &facts)?;
    let asked = args.given.get(1).map(|name| citing_asked(&accepted, name)).transpose()?;
    let shown: Vec<&Reason> = found.reasons.iter().filter(|r| asked.is_none_or(|name| r.citing.name == name)).collect();
    let mut out = why_lines(&accepted, &facts, &shown);
    if shown.is_empty() {
        out = format!("{}: no node here has slots\n", accepted.input.file);
    }
    let mut beside = String::new();
    if args.has("--warn-kept") {
        beside = warnings(&accepted, &facts, &shown);
    } else {
        let kept: Vec<&Reason> = shown.iter().copied().filter(|r| r.becomes() == Becomes::Kept).collect();
        if !kept.is_empty() {
            beside = format!(
                "{}; --warn-kept points at {}\n",
                many_kept(kept.len()),
                if kept.len() == 1 { "it" } else { "them" }
            );
        }
    }
    if let Err(refusal) = found.resolved {
        beside.push_str(&say::unresolved(&accepted, &facts, refusal));
        beside.push('\n');
        return Ok(Done { out: out.into_bytes(), beside, code: 1 });
    }
    Ok(Done { out: out.into_bytes(), beside, code: 0 })
}

/// The number of a rule or relation that is asked for by name.
fn citing_asked(accepted: &Accepted, name: &str) -> Outcome<u32> {
    let Pack { rules, relations, .. } = &accepted.pack;
    let all: BTreeSet<u32> = rules.iter().map(|rule| rule.name).chain(relations.iter().map(|r| r.name)).collect();
    if let Some(found) = accepted.input.naming.find(name).filter(|found| all.contains(found)) {
        return Ok(found);
    }
    let names: Vec<String> = all.iter().map(|&name| accepted.show(name)).collect();
    let meant = nearest(name, names.iter().map(String::as_str)).map_or(String::new(), |w| format!("; is {w} meant?"));
    let name = if name.is_empty() { "\"\"" } else { name };
    Err(unusable(format!("{}: no rule and no relation has the name {name}{meant}", accepted.input.file)))
}

/// A line for each node, below a line for its rule or relation.
pub fn why_lines(accepted: &Accepted, facts: &Facts, reasons: &[&Reason]) -> String {
    let mut out = String::new();
    for group in reasons.chunk_by(|a, b| a.citing == b.citing) {
        let Some(first) = group.first() else { continue };
        _ = writeln!(out, "{}", tell::citing(accepted, first.citing));
        let row = |reason: &&Reason| {
            let line = format!("line {:<4}", accepted.line(reason.tree.place));
            let node = format!("{}:", tell::node(accepted, reason));
            vec![line, format!("{:<10}", tell::becomes(reason)), node, tell::because(accepted, facts, reason)]
        };
        out.push_str(&rows("  ", &group.iter().map(row).collect::<Vec<_>>()));
    }
    out
}

fn many_kept(count: usize) -> String {
    if count == 1 {
        "1 node is kept as it was written".into()
    } else {
        format!("{count} nodes are kept as they were written")
    }
}

/// A line on the nodes that are kept, for commands that do not list them.
pub fn kept_note(reasons: &[Reason], file: &str) -> String {
    let kept = reasons.iter().filter(|reason| reason.becomes() == Becomes::Kept).count();
    if kept == 0 {
        String::new()
    } else {
        format!("  {}; `cogunwa why {file} --warn-kept` points at them\n", many_kept(kept))
    }
}

fn warnings(accepted: &Accepted, facts: &Facts, reasons: &[&Reason]) -> String {
    let mut out = String::new();
    for reason in reasons.iter().filter(|reason| reason.becomes() == Becomes::Kept) {
        let because = tell::because(accepted, facts, reason);
        let message = format!("warning: kept as it was written: {because}");
        let citing = tell::citing(accepted, reason.citing);
        let shown = accepted.pointed(reason.tree.place, &message);
        _ = writeln!(out, "{shown}\n  in {citing}\n  help: {}", tell::advice(reason));
    }
    out
}

// ---- kinds

pub fn kinds(args: &Args) -> Outcome<Done> {
    let accepted = given(args)?;
    let facts = facts(&accepted)?;
    let Some(asked) = args.given.get(1) else {
        return Ok(Done::text(kinds_lines(&accepted, &facts)));
    };
    let name = name_asked(&accepted, asked);
    let place = cogunwa::kinds_of(&accepted.input.bytes, name).map_err(|r| no_name(&accepted, asked, r))?;
    let shown = accepted.show(name);
    let Some(relation) = facts.find(&accepted.pack, name) else {
        return Ok(Done::text(format!("{shown}  none  the pack declares no relation of this name\n")));
    };
    if place.is_some() != facts.kinds(name).is_some() {
        return Err(disagreement("Kinds of one name and All kinds do not answer alike"));
    }
    let kinds = facts.kinds(name).map_or("none".into(), |kinds| accepted.input.naming.list(kinds));
    Ok(Done::text(format!("{shown}  {kinds}  {}\n", whose(&accepted, &facts, relation))))
}

fn kinds_rows(accepted: &Accepted, facts: &Facts) -> Vec<Vec<String>> {
    let row = |relation: &crate::pack::Relation| {
        let kinds = facts.kinds(relation.name).map_or("none".into(), |kinds| accepted.input.naming.list(kinds));
        vec![accepted.show(relation.name), kinds, whose(accepted, facts, relation)]
    };
    accepted.pack.relations.iter().map(row).collect()
}

fn kinds_lines(accepted: &Accepted, facts: &Facts) -> String {
    if accepted.pack.relations.is_empty() {
        return format!("{}: the pack has no relations\n", accepted.input.file);
    }
    rows("", &kinds_rows(accepted, facts))
}

/// The number of a name; one past the last for a name that the pack does not have, so that the library refuses it.
fn name_asked(accepted: &Accepted, name: &str) -> u32 {
    accepted.input.naming.find(name).unwrap_or(accepted.pack.names)
}

fn no_name(accepted: &Accepted, name: &str, refusal: cogunwa::Refusal) -> Trouble {
    if refusal.number != 17 {
        return disagreement(format!("a name is refused by {refusal}"));
    }
    let by_text = matches!(accepted.input.naming, Naming::Texts(_));
    let names: Vec<String> = (0..accepted.pack.names).filter(|_| by_text).map(|name| accepted.show(name)).collect();
    let meant = nearest(name, names.iter().map(String::as_str)).map_or(String::new(), |w| format!("; is {w} meant?"));
    refused(format!("{}: refused: {name} is not one of the pack's names{meant}\n  refusal 17", accepted.input.file))
}

// ---- leans

pub fn leans(args: &Args) -> Outcome<Done> {
    let accepted = given(args)?;
    match &args.given[1..] {
        [] => {
            let lines = rows("", &leans_rows(&accepted)?);
            let none = || format!("{}: no relation leans on another\n", accepted.input.file);
            Ok(Done::text(if lines.is_empty() { none() } else { lines }))
        }
        [name] => {
            let asked = name_asked(&accepted, name);
            // Lean refuses a name that the pack does not have, whatever the other one is.
            cogunwa::lean(&accepted.input.bytes, asked, 0).map_err(|r| no_name(&accepted, name, r))?;
            let on = format!("{} leans on {}\n", accepted.show(asked), leant_on(&accepted, asked)?.1);
            Ok(Done::text(on + &leaning_on(&accepted, asked)?))
        }
        [a, b, ..] => {
            let [from, to] = [a, b].map(|name| name_asked(&accepted, name));
            let asked = if from >= accepted.pack.names { a } else { b };
            let leans = cogunwa::lean(&accepted.input.bytes, from, to).map_err(|r| no_name(&accepted, asked, r))?;
            let way = leaning::find(&accepted.pack, from, to, leans)?;
            let [from, to] = [from, to].map(|name| accepted.show(name));
            Ok(Done::text(match way {
                Some(way) => format!("yes: {from} leans on {to}: {}\n", leaning::told(&accepted, &way)),
                None => format!("no: {from} does not lean on {to}\n"),
            }))
        }
    }
}

/// Whether the library says that a name of the pack leans on another.
fn leans_on(accepted: &Accepted, name: u32, on: u32) -> Outcome<bool> {
    let refused = |refusal| disagreement(format!("Lean refuses a name of the pack: {refusal}"));
    cogunwa::lean(&accepted.input.bytes, name, on).map_err(refused)
}

/// The other relations that lean on a name, in words.
fn leaning_on(accepted: &Accepted, name: u32) -> Outcome<String> {
    let mut found = vec![];
    for relation in accepted.pack.relations.iter().filter(|r| r.name != name && r.derivation.is_some()) {
        if leans_on(accepted, relation.name, name)? {
            found.push(relation.name);
        }
    }
    let lean = match found.len() {
        0 => "no other relation leans on".into(),
        1 => format!("{} leans on", accepted.show(found[0])),
        _ => format!("{} lean on", accepted.input.naming.joined(&found)),
    };
    Ok(format!("{lean} {}\n", accepted.show(name)))
}

/// The names that a relation leans on, asked of the library one by one; and the same in words.
fn leant_on(accepted: &Accepted, name: u32) -> Outcome<(Vec<u32>, String)> {
    let mut found = vec![];
    for candidate in candidates(&accepted.pack) {
        if leans_on(accepted, name, candidate)? {
            found.push(candidate);
        }
    }
    let itself = if found.contains(&name) { "; it stands in a ring" } else { "" };
    let said = if found.is_empty() { "nothing".into() } else { accepted.input.naming.joined(&found) + itself };
    Ok((found, said))
}

/// The names that any relation can lean on: those that derivations lead to.
fn candidates(pack: &Pack) -> BTreeSet<u32> {
    pack.relations.iter().flat_map(leaning::moves).map(|link| link.to).collect()
}

/// A row for each relation that leans on something. Large packs take many questions, so several threads ask them.
pub fn leans_rows(accepted: &Accepted) -> Outcome<Vec<Vec<String>>> {
    let names: Vec<u32> = accepted.pack.relations.iter().filter(|r| r.derivation.is_some()).map(|r| r.name).collect();
    let row = |name: u32| {
        let (found, said) = leant_on(accepted, name)?;
        Ok::<_, Trouble>((!found.is_empty()).then(|| vec![accepted.show(name), "leans on".into(), said]))
    };
    let rows = |names: &[u32]| names.iter().map(|&name| row(name)).collect::<Outcome<Vec<_>>>();
    let threads = std::thread::available_parallelism().map_or(1, usize::from);
    let parts = std::thread::scope(|scope| {
        let chunks = names.chunks(names.len().div_ceil(threads).max(16));
        let asked: Vec<_> = chunks.map(|chunk| scope.spawn(|| rows(chunk))).collect();
        let failed = |_| Err(disagreement("a thread that asks the library has failed"));
        asked.into_iter().map(|thread| thread.join().unwrap_or_else(failed)).collect::<Outcome<Vec<_>>>()
    })?;
    Ok(parts.into_iter().flatten().flatten().collect())
}

// ---- tables

pub fn tables(args: &Args) -> Outcome<Done> {
    let accepted = given(args)?;
    let facts = facts(&accepted)?;
    let mut table = tables_rows(&accepted, &facts, args.has("--all"));
    if table.is_empty() {
        return Ok(Done::text(format!("{}: no derivation names an entity\n", accepted.input.file)));
    }
    table.insert(0, TABLES.map(String::from).to_vec());
    Ok(Done::text(rows("", &table)))
}

pub const TABLES: [&str; 5] = ["entity", "direct", "innermost", "alias", "unresolved"];

/// A row for each name of which a table says something, or for all names.
pub fn tables_rows(accepted: &Accepted, facts: &Facts, all: bool) -> Vec<Vec<String>> {
    let tables = &facts.tables;
    let said = |e: usize| {
        tables.direct[e].is_some() || tables.innermost[e].is_some() || tables.alias[e] || tables.unresolved[e]
    };
    let yes = |flag: bool| if flag { "yes".to_string() } else { "no".to_string() };
    let named = |name: Option<u32>| accepted.input.naming.show_or_none(name);
    let row = |e: usize| {
        let name = accepted.show(e as u32);
        vec![name, named(tables.direct[e]), named(tables.innermost[e]), yes(tables.alias[e]), yes(tables.unresolved[e])]
    };
    (0..tables.direct.len()).filter(|&e| all || said(e)).map(row).collect()
}
