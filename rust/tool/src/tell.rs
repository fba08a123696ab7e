//! Reasons and changes in sentences.

use crate::accepted::Accepted;
use crate::facts::Facts;
use crate::held::Findings;
use crate::layout::slots_text;
use crate::nodes;
use crate::why::{Becomes, Citing, Entity, From, Lost, Reason, Why};

/// `rule NAME for ENTITY` or `relation NAME`.
pub fn citing(accepted: &Accepted, citing: Citing) -> String {
    let name = accepted.show(citing.name);
    if !citing.is_rule {
        return format!("relation {name}");
    }
    let entity = accepted.pack.rules.get(citing.index).map_or(0, |rule| rule.entity);
    format!("rule {name} for {}", accepted.show(entity))
}

/// What became of a node, in a word or two.
pub fn becomes(reason: &Reason) -> &'static str {
    match reason.becomes() {
        Becomes::Turned => "turned",
        Becomes::AsWritten => "as written",
        Becomes::Kept => "KEPT",
        Becomes::Refused => "REFUSED",
    }
}

/// The node and its slots.
pub fn node(accepted: &Accepted, reason: &Reason) -> String {
    let written = reason.tree.slots.unwrap_or(reason.slots);
    let slots = match reason.becomes() {
        Becomes::Turned => format!("{} to {}", slots_text(written), slots_text(reason.slots)),
        _ => slots_text(written),
    };
    format!("{} {} {slots}", nodes::word_of(reason.tree.kind), accepted.show(reason.tree.value))
}

/// Why a node runs the way it does.
pub fn because(accepted: &Accepted, facts: &Facts, reason: &Reason) -> String {
    let sentence = match reason.tree.kind {
        nodes::MEMBER => member_sentence(accepted, facts, reason),
        _ => aggregate_sentence(accepted, facts, reason),
    };
    let Some(refusal) = reason.refused else { return sentence };
    match reason.tree.asks {
        Some(asked) if refusal.number != 10 => {
            format!("{sentence}, but {}", asked_for(accepted, reason, refusal.number, &accepted.show(asked.name)))
        }
        _ => format!("{sentence}: the direction is open"),
    }
}

/// The kinds that the relation of a node lists.
fn listed(accepted: &Accepted, facts: &Facts, reason: &Reason) -> String {
    let relation = facts.find(&accepted.pack, reason.tree.value);
    accepted.input.naming.list(relation.map_or(&[], |relation| &relation.kinds.names))
}

fn aggregate_sentence(accepted: &Accepted, facts: &Facts, reason: &Reason) -> String {
    let relation = accepted.show(reason.tree.value);
    let listed = || listed(accepted, facts, reason);
    let bears = |kind: u32| borne(accepted, reason.entity, kind);
    match reason.why {
        Why::OneBears { slot, kind } => format!("slot {slot} alone bears {}", bears(kind)),
        Why::BothBear { kind } => format!("both slots of {relation} bear {}", bears(kind)),
        Why::NoneBears { .. } if !reason.entity.known => {
            format!("{}, so no slot of {} can bear it", unknown(reason.entity.from), listed())
        }
        Why::NoneBears { kind } => {
            format!("no slot of {} bears {}{}", listed(), bears(kind), untaken(facts, reason.entity.name))
        }
        _ => relation_sentence(accepted, facts, reason),
    }
}

fn member_sentence(accepted: &Accepted, facts: &Facts, reason: &Reason) -> String {
    let show = |name: u32| accepted.show(name);
    let listed = || listed(accepted, facts, reason);
    match reason.why {
        Why::Members { current, related } => {
            let (slot, other) = (reason.slots.current, reason.slots.related);
            let [current, related] = [current, related].map(show);
            format!(
                "slot {slot} alone bears {current}, the current kind, and slot {other} alone {related}, the related one"
            )
        }
        Why::AlikeOpen { kind } => {
            let relation = show(reason.tree.value);
            format!("current and related kind are both {}, and so are both slots of {relation}", show(kind))
        }
        Why::AlikeKept { kind } => {
            format!("current and related kind are both {}, and {} does not tell them apart", show(kind), listed())
        }
        Why::NotEach { current, related } => {
            format!("{} does not bear {} and {} in one slot each", listed(), show(current), show(related))
        }
        Why::NoMembership(lost) => lost_in(lost).into(),
        _ => relation_sentence(accepted, facts, reason),
    }
}

/// What the relation itself says, whatever runs over it.
fn relation_sentence(accepted: &Accepted, facts: &Facts, reason: &Reason) -> String {
    let relation = accepted.show(reason.tree.value);
    match reason.why {
        Why::Undeclared => format!("the pack has no relation {relation}"),
        Why::NoKinds => format!("{relation} lists no kinds, so its slots cannot be told apart"),
        Why::NotTwo { count } => {
            format!("{relation} lists {count} kinds {}; only a pair is turned", listed(accepted, facts, reason))
        }
        _ => "the relation is derived and supplies its own slots".into(),
    }
}

/// What derivations say of an entity that stands for no kind but itself.
fn untaken(facts: &Facts, entity: u32) -> &'static str {
    let said = |table: &[bool]| table.get(entity as usize).copied().unwrap_or(false);
    match facts.direct(entity) {
        None if said(&facts.tables.alias) => "; the derivations that name it as their entity do not agree on one kind",
        None if said(&facts.tables.unresolved) => "; the derivations that name it as their entity give it no kind",
        _ => "",
    }
}

fn asked_for(accepted: &Accepted, reason: &Reason, number: u32, name: &str) -> String {
    match number {
        11 => format!("{name} is derived, and only an input may be asked for"),
        12 => format!("{name} is looked for in a block of inputs that is no sequence"),
        13 => format!("{name} is not declared exactly once among the inputs of this origin"),
        14 => format!("{name} is not declared as boolean"),
        _ => match reason.related.filter(|&kind| kind != 0) {
            Some(kind) => format!("{name} belongs to another entity than {}, the related kind", accepted.show(kind)),
            None => format!("nobody can own {name}: the related kind is not known"),
        },
    }
}

/// A kind, with what it has to do with the entity.
fn borne(accepted: &Accepted, entity: Entity, kind: u32) -> String {
    let shown = accepted.show(kind);
    let role = match entity.from {
        From::Rule => "the entity of the rule",
        From::Predicate => "the related kind of the relation",
        From::Where => "which the where tree runs on",
    };
    if entity.name == kind {
        return format!("{shown}, {role}");
    }
    let role = role.strip_prefix("which ").map_or_else(|| role.to_string(), |role| format!("what {role}"));
    format!("{shown}, which {}, {role}, stands for", accepted.show(entity.name))
}

fn unknown(from: From) -> &'static str {
    match from {
        From::Rule => "the rule's entity is not known",
        From::Predicate => "the kind of the relation's related slot is not known",
        From::Where => "what the where tree runs on is not known",
    }
}

fn lost_in(lost: Lost) -> &'static str {
    match lost {
        Lost::InRule => "membership is known only in the predicate of a derived relation, not in a rule",
        Lost::InWhere => "membership is lost in a where tree",
        Lost::InPattern => "membership is lost in the patterns of nomatch",
        Lost::InPeriods => "membership is lost in periods",
        Lost::Unknown => "the relation itself has no kind at one of its slots, so membership is not known",
    }
}

/// What an author should look at where a node was kept.
pub fn advice(reason: &Reason) -> &'static str {
    match reason.why {
        Why::Undeclared => "is the name written as the relation declares it?",
        Why::NoKinds => "list the kinds of the relation's slots",
        Why::NotTwo { .. } => "nothing turns a relation with another number of slots: look at the slots yourself",
        Why::NoneBears { .. } if !reason.entity.known => "give the relation of the aggregate around it kinds",
        Why::NoneBears { .. } => "is the entity the one that is meant, and the relation?",
        Why::NoMembership(Lost::Unknown) => "give the relation kinds, or look at its slots",
        Why::NoMembership(_) => "look at the slots yourself: nothing turns a membership test here",
        _ => "look at the slots yourself: nothing turns them",
    }
}

/// What Resolve changed: a sentence for each node that was turned and each relation that was stamped.
pub fn changes(accepted: &Accepted, found: &Findings) -> Vec<String> {
    let mut out = vec![];
    for reason in found.reasons.iter().filter(|reason| reason.becomes() == Becomes::Turned) {
        let written = reason.tree.slots.unwrap_or(reason.slots);
        let (node, relation) = (nodes::called(reason.tree.kind), accepted.show(reason.tree.value));
        out.push(format!(
            "line {}, {}: {node} {relation} was turned from {} to {}: {}",
            accepted.line(reason.tree.place),
            citing(accepted, reason.citing),
            slots_text(written),
            slots_text(reason.slots),
            because(accepted, found.facts, reason)
        ));
    }
    for &(index, both) in &found.stamped {
        let relation = &accepted.pack.relations[index];
        let Some(settled) = found.facts.settled(relation.name) else { continue };
        let owner = if settled.owner == relation.name {
            "its own list".into()
        } else {
            format!("the list of {}", accepted.show(settled.owner))
        };
        let lists = if both { "its slots and its derivation were" } else { "its derivation was" };
        out.push(format!(
            "line {}, relation {}: {lists} stamped with the kinds {}, {owner}",
            accepted.line(relation.place),
            accepted.show(relation.name),
            accepted.input.naming.list(&settled.names)
        ));
    }
    out
}
