//! The chain walk: All kinds, Kinds of one name, Lean.

use crate::faults::{Fault::*, mistaken};
use crate::read::Reading;
use crate::records::{Derivation, NONE};
use crate::{Outcome, fits};
use std::collections::{BTreeSet, HashMap};

/// A list of kinds with any, and the place of its count word.
#[derive(Clone, Copy, Debug, PartialEq)]
pub struct List<'p> {
    pub place: usize,
    pub names: &'p [u32],
}

/// What one declaration, read at a name, comes to.
enum Step<'p> {
    Settles(Option<List<'p>>),
    Leads(u32),
}

impl Reading {
    fn step(&self, name: u32) -> Step<'_> {
        let Some(index) = self.declared(name) else { return Step::Settles(None) };
        let (relation, placed) = (&self.pack.relations[index], &self.places.relations[index]);
        let list = |place, names| Some(List { place, names }).filter(|list| !list.names.is_empty());
        let nine = list(placed.kinds, &relation.kinds);
        let Some(d) = &relation.derived else { return Step::Settles(nine) };
        if mistaken(OwnListFirst) && nine.is_some() {
            return Step::Settles(nine);
        }
        if let Some(own) = list(placed.own_kinds, &d.kinds) {
            return Step::Settles(Some(own));
        }
        if nine.is_some() && !mistaken(ListNineIgnored) {
            return Step::Settles(nine);
        }
        let no_path = match d.path.as_deref() {
            None => true,
            Some([first, ..]) if mistaken(FirstStepInherits) => return Step::Leads(first[0]),
            Some([]) if mistaken(EmptyPath) => true,
            Some(_) => mistaken(PathInherits),
        };
        if d.source != NONE && no_path { Step::Leads(d.source) } else { Step::Settles(nine) }
    }

    /// A relation's effective kinds: its own walk, with nothing settled before.
    pub fn effective_kinds(&self, name: u32) -> Option<List<'_>> {
        let mut path = BTreeSet::new();
        let mut at = name;
        while path.insert(at) {
            match self.step(at) {
                Step::Settles(list) => return list,
                Step::Leads(source) => at = source,
            }
        }
        None
    }

    pub fn kinds_of(&self, name: u32) -> Outcome<Option<usize>> {
        self.known(name)?;
        Ok(self.effective_kinds(name).map(|list| list.place))
    }

    /// The places, 0 for none, and the steps.
    pub fn all_kinds(&self, room: usize) -> Outcome<(Vec<u32>, u32)> {
        fits(self.pack.relations.len(), room)?;
        let mut settled: HashMap<u32, u32> = HashMap::new();
        let mut steps = 0;
        for relation in &self.pack.relations {
            let mut path = vec![];
            let mut at = relation.name;
            let place = loop {
                if let Some(&place) = settled.get(&at) {
                    break place;
                }
                if path.contains(&at) {
                    steps += u32::from(mistaken(RingCountedTwice));
                    break 0;
                }
                path.push(at);
                if self.declared(at).is_some() || !mistaken(UndeclaredUncounted) {
                    steps += 1;
                }
                match self.step(at) {
                    Step::Settles(list) => break list.map_or(0, |list| list.place as u32),
                    Step::Leads(source) => at = source,
                }
            };
            settled.extend(path.into_iter().map(|name| (name, place)));
        }
        Ok((self.pack.relations.iter().map(|relation| settled[&relation.name]).collect(), steps))
    }

    /// The steps of All kinds.
    pub fn steps(&self) -> u32 {
        self.all_kinds(usize::MAX).unwrap().1
    }

    /// The steps once more, not by walking: the relations, and the undeclared sources of those that inherit, each once.
    pub fn steps_by_sources(&self) -> u32 {
        let inherited = self.pack.relations.iter().filter_map(|relation| match self.step(relation.name) {
            Step::Leads(source) => Some(source),
            Step::Settles(_) => None,
        });
        let undeclared: BTreeSet<u32> = inherited.filter(|&source| self.declared(source).is_none()).collect();
        (self.pack.relations.len() + undeclared.len()) as u32
    }

    /// Whether one or more sources and steps of paths lead from `a` to `b`. Each name is entered once.
    pub fn lean(&self, a: u32, b: u32) -> Outcome<bool> {
        let [first, second] = if mistaken(SecondNameFirst) { [b, a] } else { [a, b] };
        self.known(first)?;
        self.known(second)?;
        let mut reached = BTreeSet::new();
        let mut open = vec![a];
        while let Some(name) = open.pop() {
            for next in self.edges(name) {
                let by_step = self.derivation(name).is_some_and(|d| d.source != next);
                if reached.insert(next) && !(by_step && mistaken(StepLeadsNoFurther)) {
                    open.push(next);
                }
            }
        }
        Ok(reached.contains(&b) || mistaken(LeansOnItself) && a == b)
    }

    fn derivation(&self, name: u32) -> Option<&Derivation> {
        self.pack.relations[self.declared(name)?].derived.as_ref()
    }

    /// What a name leans on at once: the source of its derivation, if it has one, then each step's relation. Lists do not
    /// matter here. A name that no relation has leans on nothing.
    fn edges(&self, name: u32) -> Vec<u32> {
        let Some(d) = self.derivation(name) else { return vec![] };
        if mistaken(ListEndsLeaning) && matches!(self.step(name), Step::Settles(Some(_))) {
            return vec![];
        }
        let mut steps: Vec<u32> = d.path.iter().flatten().map(|step| step[0]).collect();
        if mistaken(PathsNotFollowed) {
            steps.clear();
        }
        if mistaken(FirstStepAlone) {
            steps.truncate(1);
        }
        if mistaken(LastStepLost) {
            steps.pop();
        }
        if mistaken(UndeclaredStepLost) {
            steps.retain(|&step| self.declared(step).is_some());
        }
        if mistaken(MemberLeantOn) {
            steps.push(d.member);
        }
        let source = [d.source].into_iter().filter(|_| !(mistaken(PathHidesSource) && d.path.is_some()));
        source.chain(steps).filter(|&name| name != NONE).collect()
    }
}
