//! The library's refusals in words, with the record named and the place pointed at.

use crate::accepted::Accepted;
use crate::facts::Facts;
use crate::input::{Form, Input};
use crate::layout::slots_text;
use crate::limits::{most, with_comma};
use crate::nodes;
use crate::pack::{NONE, Relation, Tree};
use crate::point::line_and_column;
use crate::read::{Due, Record, due};
use cogunwa::{MAX_NAMES, MAX_WORDS, Refusal};

/// What Check refuses.
pub fn unaccepted(input: &Input, refusal: Refusal) -> String {
    let place = if refusal.number == 1 { first_too_many(input) } else { refusal.place };
    let due = due(&input.words, refusal.place);
    let message = format!("refused: {}", check_message(input, refusal, due.as_ref()));
    let ended = input.form != Form::Bytes && place >= input.spans.len();
    let shown = match input.pointed(place, &message) {
        Some(shown) => shown,
        None if ended && refusal.number == 3 => at_end(input, &message),
        None => among_words(input, refusal, &message),
    };
    let record = due.filter(|_| !matches!(refusal.number, 1 | 7)).and_then(|due| record(input, due.record));
    let record = record.map_or(String::new(), |record| format!("in {record}; "));
    format!("{shown}\n  {record}refusal {}", refusal.number)
}

/// The word with which a pack becomes too long; in a text the last one before it that stands for a part of its own.
fn first_too_many(input: &Input) -> usize {
    let head = input.spans.first();
    (0..=MAX_WORDS).rev().find(|&place| input.form == Form::Hex || input.spans.get(place) != head).unwrap_or(MAX_WORDS)
}

/// Hexadecimal words that end too early: the last of them is pointed at.
fn at_end(input: &Input, message: &str) -> String {
    input.pointed(input.spans.len().saturating_sub(1), message).unwrap_or_else(|| format!("{}: {message}", input.file))
}

/// The words around a place, for packs that came as bytes.
fn among_words(input: &Input, refusal: Refusal, message: &str) -> String {
    let head = format!("{}: {message}", input.file);
    if refusal.number == 1 {
        return head;
    }
    let first = refusal.place.saturating_sub(2);
    let shown: Vec<String> = input.words.iter().skip(first).take(5).map(|word| format!("{word:08X}")).collect();
    let gap = " ".repeat(9 * (refusal.place - first));
    format!("{head}\n  word {first:>4} | {}\n            | {gap}^^^^^^^^", shown.join(" "))
}

fn record(input: &Input, record: Record) -> Option<String> {
    let named = |sort: &str, index: usize, name: Option<u32>| match name {
        Some(name) => format!("the {sort} {}", input.naming.show(name)),
        None => format!("{sort} {index}"),
    };
    match record {
        Record::Header => None,
        Record::Relation(index, name) => Some(named("relation", index, name)),
        Record::Rule(index, name) => Some(named("rule", index, name)),
        Record::Block(index) => Some(format!("block of inputs {index}")),
    }
}

fn check_message(input: &Input, refusal: Refusal, due: Option<&Due>) -> String {
    let place = refusal.place;
    let word = input.words.get(place).copied().unwrap_or(0);
    let (kind, value) = ((word >> 24) as u8, word & NONE);
    let what = due.map_or("another word", |due| due.what);
    let due_kind = due.and_then(|due| due.kind).map_or(String::new(), |kind| format!(", which is of kind {kind},"));
    match refusal.number {
        1 if input.bytes.len() % 4 != 0 => {
            format!("{} bytes make no whole words of four bytes each", input.bytes.len())
        }
        1 => format!("this has {} words; a pack has 6 to {}", input.words.len(), with_comma(MAX_WORDS)),
        2 => format!("word {place} is of kind {kind}, where {what}{due_kind} is due"),
        3 => format!("the pack ends after {place} words, where {what} is due"),
        4 => not_allowed(input, kind, value),
        5 => "this node is nested 33 deep; trees are at most 32 deep, where trees included".into(),
        6 if input.form == Form::Text => format!("{} is named as defaulted a second time", input.naming.show(value)),
        6 => format!("the defaulted name {} does not stand above the one before", input.naming.show(value)),
        7 => {
            format!("the relation {} is declared a second time{}", input.naming.show(refusal.name), before(input, word))
        }
        8 => format!("{} words are left over after the last block of inputs", input.words.len().saturating_sub(place)),
        _ => refusal.to_string(),
    }
}

/// Where a word stands for the first time.
fn before(input: &Input, word: u32) -> String {
    let span = input.words.iter().position(|&w| w == word).and_then(|place| input.spans.get(place));
    span.map_or(String::new(), |span| format!(", after line {}", line_and_column(&input.content, span.start).0))
}

/// Refusal 4, by the kind of the word.
fn not_allowed(input: &Input, kind: u8, value: u32) -> String {
    let names = input.words.get(1).map_or(0, |word| word & NONE);
    match kind {
        1 => format!("the first word says that the pack has {value} words, and it has {}", input.words.len()),
        2 => format!("the pack has {value} names; 1 to {} are allowed, the empty text included", with_comma(MAX_NAMES)),
        26 => format!("there are {value} bodies here; a rule has 1 to 64"),
        11 | 27 | 32 | 83 => format!("a flag is 0 or 1, and here it is {value}"),
        nodes::PERIODS => format!("`periods` takes a number from 0 to 7, and here it is {value}"),
        nodes::IF | nodes::NOT => format!("the value of this node is 0, and here it is {value}"),
        _ => match most(kind) {
            Some((most, what)) => format!("there are {value} {what} here; at most {} are allowed", with_comma(most)),
            None => format!("the pack has {names} names, from 0 on, and here is the name {value}"),
        },
    }
}

/// What Resolve refuses of a pack that Check accepts.
pub fn unresolved(accepted: &Accepted, facts: &Facts, refusal: Refusal) -> String {
    let citing = citing(accepted, refusal);
    match node(accepted, refusal.place) {
        _ if refusal.number == 16 => {
            format!(
                "{}: refused: resolved, the pack would have more than 8,192 words\n  refusal 16",
                accepted.input.file
            )
        }
        Some(tree) => {
            let (message, help) = node_message(accepted, facts, refusal, tree);
            let shown = accepted.pointed(refusal.place, &format!("refused: {message}"));
            format!("{shown}\n  in {citing}; refusal {}\n  {help}", refusal.number)
        }
        None => {
            let shown =
                accepted.pointed(refusal.place, &format!("refused: {}", equal_message(accepted, facts, refusal.name)));
            let help = "write the slots that are meant, and take its name from the defaulted ones";
            format!("{shown}\n  in {citing}; refusal {}\n  help: {help}", refusal.number)
        }
    }
}

fn citing(accepted: &Accepted, refusal: Refusal) -> String {
    let first_rule = accepted.pack.rules.first().map_or(usize::MAX, |rule| rule.place);
    let sort = if refusal.place >= first_rule { "rule" } else { "relation" };
    format!("the {sort} {}", accepted.show(refusal.name))
}

/// The node at a place.
fn node(accepted: &Accepted, place: usize) -> Option<&Tree> {
    let mut found = None;
    for tree in accepted.pack.trees() {
        tree.visit(&mut |node| {
            if node.place == place {
                found = Some(node);
            }
        });
    }
    found
}

fn equal_message(accepted: &Accepted, facts: &Facts, name: u32) -> String {
    let shown = accepted.show(name);
    let derivation = facts.find(&accepted.pack, name).and_then(|r: &Relation| r.derivation.as_ref());
    match derivation {
        Some(d) => {
            let kind = facts.kind_at(name, d.slots.current).map_or(String::new(), |kind| accepted.show(kind));
            format!(
                "the slots of {shown} are left to the default, {}, and both are of the kind {kind}",
                slots_text(d.slots)
            )
        }
        None => format!("the slots of {shown} are left to the default, and both are of one kind"),
    }
}

/// The sentence for a refused node, and what helps.
fn node_message(accepted: &Accepted, facts: &Facts, refusal: Refusal, tree: &Tree) -> (String, String) {
    let [relation, other] = [tree.value, refusal.other].map(|name| accepted.show(name));
    let asks = format!("{} {relation} asks for {other}", nodes::called(tree.kind));
    let (message, help) = match refusal.number {
        10 => {
            let kind = facts.direct(refusal.other).filter(|_| tree.kind != nodes::MEMBER);
            let bears = match kind.filter(|&kind| kind != refusal.other) {
                Some(kind) => format!("{}, which {other} stands for", accepted.show(kind)),
                None => other.clone(),
            };
            let node = nodes::called(tree.kind);
            (
                format!("the direction of {node} {relation} is open: both of its slots bear {bears}"),
                "say the direction with a derived relation: its own slots are taken as they are".to_string(),
            )
        }
        11 => (format!("{asks}, which is derived"), "`only` takes an input".into()),
        12 => (
            format!("{asks}, and a block of inputs of this origin is no sequence"),
            "list the inputs of that block as items".into(),
        ),
        13 => (
            format!("{asks}, {}", times_declared(accepted, refusal)),
            "an input of the same origin is declared once".into(),
        ),
        14 => (format!("{asks}, which is not declared as boolean"), "write `boolean` behind the item".into()),
        _ => owner_message(accepted, facts, tree, &asks, &other),
    };
    (message, format!("help: {help}"))
}

/// How often an input that is asked for is declared among those of the citing origin.
fn times_declared(accepted: &Accepted, refusal: Refusal) -> String {
    let pack = &accepted.pack;
    let rule = pack.rules.iter().rfind(|rule| rule.place < refusal.place).map(|rule| rule.origin);
    let relation = || pack.relations.iter().rfind(|r| r.place < refusal.place).and_then(|r| r.origin);
    let origin = rule.unwrap_or_else(relation);
    let blocks = pack.blocks.iter().filter(|block| block.origin == origin);
    let items = blocks.flat_map(|block| block.items.iter().flatten());
    let times = items.filter(|item| item.name == Some(refusal.other)).count();
    let of = origin
        .map_or("the inputs without an origin".into(), |origin| format!("the inputs of {}", accepted.show(origin)));
    match times {
        0 => format!("which {of} do not declare"),
        _ => format!("which {of} declare {times} times"),
    }
}

fn owner_message(accepted: &Accepted, facts: &Facts, tree: &Tree, asks: &str, input: &str) -> (String, String) {
    let reasons = crate::why::reasons(&accepted.pack, facts);
    let related = reasons.iter().find(|reason| reason.tree.place == tree.place).and_then(|reason| reason.related);
    match related.filter(|&kind| kind != 0) {
        Some(kind) => {
            let kind = accepted.show(kind);
            let message = format!("{asks}, which belongs to another entity than {kind}, the kind of the related slot");
            (message, format!("declare {input} for {kind}"))
        }
        None => (
            format!("{asks}, and the kind of the related slot, which must own it, is not known"),
            format!("is {} the relation that is meant? Its slots need kinds", accepted.show(tree.value)),
        ),
    }
}
