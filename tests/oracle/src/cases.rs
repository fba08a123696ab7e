//! The model's cases, and all small graphs, beside the original.

use crate::compare::{self, Counts};
use cogunwa_model::cases::{self, Case, asked, small};
use cogunwa_model::generate::Made;
use cogunwa_model::packs::{count, derivation, derived, leaf, member, rule, same, typed};
use cogunwa_model::records::{Derivation, NONE, Pack, Relation, Tree};

/// Plain texts for n names: no origins.
pub fn plain_texts(n: u32) -> Vec<String> {
    (0..n).map(|i| if i == 0 { String::new() } else { format!("n{i:05}") }).collect()
}

pub fn plain(pack: Pack) -> Made {
    Made { texts: plain_texts(pack.n), pack }
}

/// Whether the original came to what a case wants.
fn meets(case: &Case, told: &compare::Told) -> bool {
    let resolved = told.answer(8192).map(|(words, _)| words).map_err(|r| [r.number, r.name, r.other]);
    let last = case.pack.relations.last().map(|relation| relation.name as usize);
    let kinds = last.and_then(|last| told.tables.kinds[last].as_deref()).unwrap_or_default();
    case.wanted.is_met(&case.pack, &resolved, kinds, told.tables.steps)
}

/// Document 01's cases and packs at the limits, by name.
pub fn run_named() -> Counts {
    let mut counts = Counts::default();
    for case in cases::all() {
        let (alike, told) = compare::pack(&case.name, &plain(case.pack.clone()), 8192, &mut counts);
        let right = meets(&case, &told);
        if alike && !right {
            counts.differ += 1;
        }
        println!("  {}: {}", case.name, if alike && right { "alike" } else { "DIFFERS" });
    }
    counts
}

/// Every choice of one of each list of options.
fn each<T: Clone>(options: &[Vec<T>], mut f: impl FnMut(&[T])) {
    let mut at = vec![0; options.len()];
    loop {
        let chosen: Vec<T> = at.iter().zip(options).map(|(&i, of)| of[i].clone()).collect();
        f(&chosen);
        let Some(next) = (0..at.len()).find(|&i| at[i] + 1 < options[i].len()) else { return };
        at[next] += 1;
        at[..next].fill(0);
    }
}

const FIRST: u32 = 5;

/// All that a relation can be, in a graph of the relations from FIRST on.
fn options(name: u32, graph: u32, full: bool) -> Vec<Option<Relation>> {
    let mut all = vec![None];
    let lists: &[&[u32]] = if full { &[&[], &[1], &[1, 2], &[2, 1], &[1, 1], &[1, 2, 1]] } else { &[&[1, 2], &[2, 2]] };
    all.extend(lists.iter().map(|kinds| Some(typed(name, kinds))));
    let sources = (FIRST..=FIRST + graph).chain([NONE]);
    let paths: &[Option<Vec<[u32; 3]>>] = &[None, Some(vec![]), Some(vec![[FIRST, 0, 1]])];
    let paths = if full { paths } else { &paths[..2] };
    let own: &[&[u32]] = &[&[], &[2, 1]];
    let nines: &[&[u32]] = if full { &[&[], &[1, 2]] } else { &[&[]] };
    let slots: &[(u32, u32)] = if full { &[(0, 1), (0, 0), (1, 5)] } else { &[(0, 1)] };
    let entities: &[u32] = if full { &[NONE, 1, 3] } else { &[NONE, 3, 4] };
    for source in sources {
        for path in paths {
            for own in own {
                for nine in nines {
                    for &(current_slot, related_slot) in slots {
                        for &entity in entities {
                            let kinds = own.to_vec();
                            let d = Derivation {
                                path: path.clone(),
                                current_slot,
                                related_slot,
                                entity,
                                kinds,
                                ..derivation(source)
                            };
                            all.push(Some(Relation { kinds: nine.to_vec(), ..derived(name, d) }));
                        }
                    }
                }
            }
        }
    }
    all
}

/// All graphs of two relations with every option, and of three with fewer; each read from three entities.
fn run_graphs(graph: u32, full: bool) -> Counts {
    let mut counts = Counts::default();
    let options: Vec<_> = (0..graph).map(|i| options(FIRST + i, graph, full)).collect();
    each(&options, |chosen| {
        let mut relations: Vec<Relation> = chosen.iter().flatten().cloned().collect();
        for (i, r) in relations.iter_mut().enumerate() {
            if let Some(d) = &mut r.derived {
                d.predicate = member(FIRST + (i as u32 + 1) % graph, (7, 9));
            }
        }
        let reads = (0..graph).map(|i| count(FIRST + i, (7, 9), None)).collect::<Vec<_>>();
        let rules = [1, 3].map(|entity| rule(8, entity, vec![Tree::new(68, graph, &[], reads.clone())]));
        let defaulted = if counts.packs % 4 == 0 { vec![FIRST, FIRST + 1] } else { vec![] };
        let pack = Pack { n: 10, defaulted, relations, rules: rules.to_vec(), blocks: vec![] };
        compare::pack("a graph", &plain(pack), 8192, &mut counts);
    });
    counts
}

/// Four derivations with every entity and kind of three.
fn run_filters() -> Counts {
    let mut counts = Counts::default();
    let mut options = vec![];
    for entity in [NONE, 1, 2, 3] {
        for kind in 1..=3 {
            options.push((entity, kind));
        }
    }
    each(&vec![options; 4], |chosen| {
        let mut relations: Vec<Relation> = chosen
            .iter()
            .zip(FIRST..)
            .map(|(&(entity, kind), name)| {
                derived(name, Derivation { entity, kinds: vec![kind, 4], ..derivation(NONE) })
            })
            .collect();
        relations.push(typed(9, &[1, 2]));
        let rules = (1..=3).map(|entity| rule(8, entity, vec![count(9, (7, 9), None)])).collect();
        let pack = Pack { n: 10, relations, rules, ..Pack::default() };
        compare::pack("a graph", &plain(pack), 8192, &mut counts);
    });
    counts
}

/// A membership test and an aggregate under every kind of node, with all kinds of three and slots of three.
fn run_trees() -> Counts {
    let mut counts = Counts::default();
    let of_scalar: [fn(Tree) -> Tree; 7] = [
        |inner| inner,
        |inner| Tree::new(66, 3, &[], vec![inner]),
        |inner| Tree::new(67, 3, &[], vec![leaf(), inner]),
        |inner| Tree::new(70, 1, &[], vec![inner]),
        |inner| Tree::new(72, 1, &[], vec![inner, leaf()]),
        |inner| Tree::new(72, 1, &[], vec![leaf(), inner]),
        |inner| Tree::new(73, 1, &[], vec![leaf(), inner]),
    ];
    let of_judgment: [fn(Tree) -> Tree; 5] = [
        |inner| inner,
        |inner| Tree::new(98, 1, &[], vec![inner]),
        |inner| Tree::new(100, 0, &[], vec![inner]),
        |inner| Tree::new(103, 6, &[(85, 1)], vec![inner]),
        |inner| same(count(6, (7, 9), Some(inner)), leaf()),
    ];
    let range = |n: u32| (0..n).collect::<Vec<u32>>();
    let options = [range(7), range(5), range(3), range(3), range(3), range(3), range(3), range(3)];
    each(&options, |c| {
        let inner = of_judgment[c[1] as usize](member(5, (7, 9)));
        let nested = same(of_scalar[c[0] as usize](asked(inner)), count(5, (9, 7), None));
        let d = Derivation {
            kinds: vec![1 + c[2], 1 + c[3]],
            current_slot: c[4],
            related_slot: c[5],
            predicate: nested,
            ..derivation(NONE)
        };
        let relations = vec![typed(5, &[1 + c[6], 1 + c[7]]), derived(6, d)];
        compare::pack("a tree", &plain(small(relations, vec![])), 8192, &mut counts);
    });
    counts
}

pub fn run_exhaustive() -> bool {
    let mut right = true;
    let mut done = |what: &str, counts: Counts| {
        counts.print(what);
        right &= counts.differ == 0;
    };
    done("all graphs of two relations", run_graphs(2, true));
    done("all graphs of three relations", run_graphs(3, false));
    done("all of four filtered entities", run_filters());
    done("tests and aggregates in trees", run_trees());
    right
}
