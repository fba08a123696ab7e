//! What the library says of an accepted pack: the kinds of every relation and whose they are, the filtered tables, the
//! result of Resolve.

use crate::pack::{Pack, Relation};
use crate::read::read;
use crate::trouble::{Outcome, disagreement};
use cogunwa::Refusal;
use std::collections::HashMap;

pub struct Facts {
    /// By relation, in record order.
    kinds: Vec<Option<Settled>>,
    /// How many declarations were read for the kinds.
    pub steps: u32,
    pub tables: Tables,
    /// Relations by name.
    index: HashMap<u32, usize>,
}

/// The kinds of a relation.
#[derive(Clone)]
pub struct Settled {
    pub names: Vec<u32>,
    /// The relation in whose record the list stands.
    pub owner: u32,
    /// Whether it is the list of the owner's derivation (21).
    pub derived: bool,
}

/// The filtered tables, by name.
pub struct Tables {
    pub direct: Vec<Option<u32>>,
    pub innermost: Vec<Option<u32>>,
    pub alias: Vec<bool>,
    pub unresolved: Vec<bool>,
}

pub struct Resolved {
    pub words: Vec<u32>,
    pub pack: Pack,
    pub steps: u32,
}

/// An operation that Check's yes leaves nothing to refuse by.
fn sure<T>(operation: &str, answer: Result<T, Refusal>) -> Outcome<T> {
    answer.map_err(|refusal| disagreement(format!("{operation} refuses a pack that Check accepts: {refusal}")))
}

pub fn ask(bytes: &[u8], pack: &Pack) -> Outcome<Facts> {
    let answer = sure("All kinds", cogunwa::all_kinds_vec(bytes))?;
    let settled = |place: &Option<usize>| place.map(|place| owned(pack, place)).transpose();
    let kinds = answer.places.iter().map(settled).collect::<Outcome<Vec<_>>>()?;
    if kinds.len() != pack.relations.len() {
        return Err(disagreement("All kinds does not answer one place a relation"));
    }
    let index = pack.relations.iter().enumerate().map(|(i, r)| (r.name, i)).collect();
    Ok(Facts { kinds, steps: answer.steps, tables: tables(bytes, pack.names as usize)?, index })
}

/// The list whose count word stands at a place.
fn owned(pack: &Pack, place: usize) -> Outcome<Settled> {
    let lists =
        |r: &'_ Relation| r.kinds.place == place || r.derivation.as_ref().is_some_and(|d| d.kinds.place == place);
    let found = pack.relations.iter().find(|r| lists(r)).map(|r| match &r.derivation {
        Some(d) if d.kinds.place == place => Settled { names: d.kinds.names.clone(), owner: r.name, derived: true },
        _ => Settled { names: r.kinds.names.clone(), owner: r.name, derived: false },
    });
    found.ok_or_else(|| disagreement(format!("there is no list of kinds at word {place}")))
}

/// The tables, each with a word for every name.
fn tables(bytes: &[u8], names: usize) -> Outcome<Tables> {
    let tables = Tables {
        direct: sure("Direct", cogunwa::direct_vec(bytes))?,
        innermost: sure("Innermost", cogunwa::innermost_vec(bytes))?,
        alias: sure("Alias", cogunwa::alias_vec(bytes))?,
        unresolved: sure("Unresolved", cogunwa::unresolved_vec(bytes))?,
    };
    let lengths = [tables.direct.len(), tables.innermost.len(), tables.alias.len(), tables.unresolved.len()];
    if lengths == [names; 4] { Ok(tables) } else { Err(disagreement("a table has not one word a name")) }
}

/// Resolve's answer; a refusal is one of 9 to 16.
pub fn resolve(bytes: &[u8]) -> Outcome<Result<Resolved, Refusal>> {
    match cogunwa::resolve_vec(bytes) {
        Ok(cogunwa::Resolved { words, steps, .. }) => {
            let pack = read(&words).ok_or_else(|| disagreement("the tool cannot read what Resolve writes"))?;
            Ok(Ok(Resolved { words, pack, steps }))
        }
        Err(refusal) if (9..=16).contains(&refusal.number) => Ok(Err(refusal)),
        Err(refusal) => sure("Resolve", Err(refusal)),
    }
}

impl Facts {
    pub fn settled(&self, name: u32) -> Option<&Settled> {
        self.kinds.get(*self.index.get(&name)?)?.as_ref()
    }

    pub fn kinds(&self, name: u32) -> Option<&[u32]> {
        self.settled(name).map(|settled| settled.names.as_slice())
    }

    pub fn kind_at(&self, name: u32, slot: u32) -> Option<u32> {
        self.kinds(name)?.get(slot as usize).copied()
    }

    pub fn direct(&self, entity: u32) -> Option<u32> {
        self.tables.direct.get(entity as usize).copied().flatten()
    }

    pub fn find<'a>(&self, pack: &'a Pack, name: u32) -> Option<&'a Relation> {
        pack.relations.get(*self.index.get(&name)?)
    }
}
