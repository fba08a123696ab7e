//! The chain operations: All kinds, Kinds of one name, Lean and the four tables.

use crate::list::{List, TABLES};
use crate::make::*;
use cogunwa_model::packs::{forked, layered, named, typed, with_total};
use cogunwa_model::records::{NONE, Pack, Relation, Rule};
use cogunwa_model::{packs, word};

pub fn sections(list: &mut List) {
    worked(list);
    leaning(list);
    leaning_far(list);
    graphs(list);
    lists(list);
    many(list);
    sizes(list);
    entities(list);
    directs(list);
    damaged(list);
}

fn of(n: u32, relations: &[Relation]) -> Pack {
    Pack { n, relations: relations.to_vec(), ..Pack::default() }
}

/// A pack of these relations, and with them reversed: calls of every operation.
fn graph(list: &mut List, name: &str, n: u32, relations: &[Relation]) {
    both_ways(list, name, &of(n, relations));
}

fn both_ways(list: &mut List, name: &str, pack: &Pack) {
    list.ok(name, &pack.words()).ask();
    if pack.relations.len() > 1 {
        let mut reversed = pack.clone();
        reversed.relations.reverse();
        list.ok(&format!("{name}-reversed"), &reversed.words()).ask();
    }
}

/// The same at the edges of rooms and names, for all names and all pairs of those that relations, sources and steps have.
fn graph_edges(list: &mut List, name: &str, n: u32, relations: &[Relation]) {
    let case = list.ok(name, &of(n, relations).words());
    let pairs = square(&case.pack().met());
    case.ask_edges(&(0..n).collect::<Vec<_>>(), &pairs);
}

/// The steps of the last case, and the places that All kinds writes.
fn assert_kinds(list: &List, steps: u32, places: &[u32]) {
    let case = list.cases.last().unwrap();
    let found = case.reading.as_ref().unwrap().all_kinds(usize::MAX).unwrap();
    assert_eq!(found, (places.to_vec(), steps), "{}", case.name);
}

fn worked(list: &mut List) {
    list.section("chains: 01's worked cases; the steps are the paper's, and the places counted by hand");
    let mut by_hand = |name: &str, relations: &[Relation], steps: u32, places: &[u32]| {
        graph_edges(list, name, 10, relations);
        assert_kinds(list, steps, places);
    };
    let five = || typed(5, &[1, 2]);
    by_hand("K1", &[five(), follows(6, 5)], 2, &[7, 7]);
    by_hand("K2", &[follows(5, 6), follows(6, 5)], 2, &[0, 0]);
    by_hand("K3", &[follows(5, 9)], 2, &[0]);
    by_hand("K4", &[follows(5, 5)], 1, &[0]);
    by_hand("K5", &[follows(6, 5).path(0)], 1, &[0]);
    by_hand("K5-declared", &[five(), follows(6, 5).path(0)], 2, &[7, 0]);
    by_hand("K6", &[five().entities(&[2, 1])], 1, &[17]);
    graph_edges(list, "I1", 7, &[entity_of(0, 3, &[4], 0), entity_of(1, 4, &[3], 0), entity_of(2, 5, &[3], 0)]);
    let ring = list.cases.last().unwrap().reading.as_ref().unwrap();
    assert_eq!(ring.direct(7).unwrap(), [NONE, NONE, NONE, 4, 3, 3, NONE]);
    assert_eq!(ring.innermost(7).unwrap(), [NONE; 7]);
    graph(list, "A4", 6, &[five(), entity_of(4, 3, &[2, 0], 0)]);
    // 3 on to 4, 4 on to 5, 5 to itself; 6 takes 0 and 1; 0 is named and takes nothing.
    let takers =
        [(1, 3, 4), (2, 4, 5), (3, 5, 5), (4, 6, 0), (5, 6, 1)].map(|(x, e, kind)| entity_of(x, e, &[kind], 0));
    graph(list, "innermost-itself", 8, &[&takers[..], &[entity_of(6, 0, &[], 0)]].concat());
    let reading = list.cases.last().unwrap().reading.as_ref().unwrap();
    assert_eq!(reading.innermost(8).unwrap(), [NONE, NONE, NONE, 5, 5, 5, NONE, NONE]);
    assert_eq!(reading.alias(8).unwrap(), [0, 0, 0, 1, 1, 0, 1, 0]);
    assert_eq!(reading.unresolved(8).unwrap(), [1, 0, 0, 0, 0, 0, 0, 0]);
    // Field 12 leads on whatever else the declaration says.
    graph_edges(
        list,
        "leaning",
        8,
        &[
            follows(1, 2),
            follows(2, 3).entities(&[1]),
            follows(3, 4).path_over(4, 1),
            named(4).kinds(&[5]).source(5),
            follows(6, 6),
            typed(7, &[1]),
        ],
    );
    let lean = |list: &List, a: u32, b: u32| list.cases.last().unwrap().reading.as_ref().unwrap().lean(a, b).unwrap();
    assert!(lean(list, 1, 5) && lean(list, 6, 6) && !lean(list, 5, 1) && !lean(list, 1, 1) && !lean(list, 1, 7));
    // A ring of 0 and 1, which 3 leads to through 2; 4 to itself; 5 is not declared.
    graph_edges(
        list,
        "leaning-in-rings",
        6,
        &[follows(0, 1), follows(1, 0), follows(2, 0), follows(3, 2), follows(4, 4)],
    );
    assert!(lean(list, 0, 0) && lean(list, 3, 1) && lean(list, 4, 4) && !lean(list, 2, 2) && !lean(list, 0, 2));
}

/// Lean for all pairs of names that a pack of these relations meets, of which just these lean; and the same reversed.
fn leans(list: &mut List, name: &str, n: u32, relations: &[Relation], wanted: &[(u32, u32)]) {
    let reversed: Vec<Relation> = relations.iter().rev().cloned().collect();
    let orders = [(format!("leaning-{name}"), relations), (format!("leaning-{name}-reversed"), &reversed)];
    for (name, relations) in orders.into_iter().take(relations.len()) {
        let case = list.ok(&name, &of(n, relations).words());
        let pairs = square(&case.pack().met());
        pairs.iter().for_each(|&(a, b)| case.call("lean", &[a, b]));
        let reading = case.reading.as_ref().unwrap();
        let leaning: Vec<_> = pairs.into_iter().filter(|&(a, b)| reading.lean(a, b).unwrap()).collect();
        assert_eq!(leaning, wanted, "{name}");
    }
}

/// All pairs of these names.
fn square(names: &[u32]) -> Vec<(u32, u32)> {
    names.iter().flat_map(|&a| names.iter().map(move |&b| (a, b))).collect()
}

/// All pairs of a name and a later one, of so many.
fn rising(count: u32) -> Vec<(u32, u32)> {
    (0..count).flat_map(|a| (a + 1..count).map(move |b| (a, b))).collect()
}

fn leaning(list: &mut List) {
    list.section("chains: what leans on what by steps of paths and by sources; the pairs were found by hand");
    leans(list, "step", 4, &[named(1).steps(&[2]), named(2)], &[(1, 2)]);
    leans(list, "source-and-step", 5, &[follows(1, 2).steps(&[3]), named(2), named(3)], &[(1, 2), (1, 3)]);
    let eight: Vec<u32> = (1..9).collect();
    let on_each: Vec<(u32, u32)> = eight.iter().map(|&step| (0, step)).collect();
    leans(list, "eight-steps", 9, &[named(0).steps(&eight)], &on_each);
    leans(list, "eight-steps-one-declared", 9, &[follows(0, 8).steps(&eight), named(5)], &on_each);
    leans(list, "steps-of-one-relation", 3, &[named(0).path_over(2, 8), follows(2, 1)], &[(0, 1), (0, 2), (2, 1)]);
    leans(list, "no-steps", 3, &[follows(1, 2).path(0), named(2)], &[(1, 2)]);
    leans(list, "no-steps-and-no-source", 3, &[named(1).path(0), named(2).derived()], &[]);
    // Names stand in other fields too, and nothing leans on these.
    let elsewhere = named(1).origin(2).kinds(&[2]).entities(&[2]).entity(2).member(2).predicate(exists(2, atom(2)));
    leans(list, "other-fields", 4, &[elsewhere.clone(), named(2)], &[]);
    leans(list, "other-fields-and-a-step", 5, &[elsewhere.steps(&[3]), named(2), named(3)], &[(1, 3)]);
    // Steps of one path do not lean on each other.
    let diamond = [named(0).steps(&[1, 2]), follows(1, 3), named(2).steps(&[3]), named(3)];
    leans(list, "diamond", 4, &diamond, &[(0, 1), (0, 2), (0, 3), (1, 3), (2, 3)]);
    // Rings by a step, and by a source and a step; of one name; what leads in, and what a ring leads to.
    leans(list, "ring-of-steps", 3, &[named(1).steps(&[2]), named(2).steps(&[1])], &square(&[1, 2]));
    let last = [follows(1, 2), follows(2, 0).steps(&[0, 0, 1])];
    leans(list, "ring-by-a-last-step", 4, &last, &[(1, 0), (1, 1), (1, 2), (2, 0), (2, 1), (2, 2)]);
    leans(list, "step-over-itself", 3, &[named(1).steps(&[1])], &[(1, 1)]);
    leans(list, "last-step-over-itself", 3, &[follows(1, 2).steps(&[2, 2, 1]), named(2)], &[(1, 1), (1, 2)]);
    let fed = [named(0).steps(&[1]), follows(1, 2), named(2).steps(&[4, 3]), named(3).steps(&[1]), follows(4, 5)];
    let into = [1, 2, 3, 4, 5].map(|b| (0, b));
    let round = [1, 2, 3].into_iter().flat_map(|a| (1..6).map(move |b| (a, b)));
    leans(list, "ring-fed", 6, &fed, &into.into_iter().chain(round).chain([(4, 5)]).collect::<Vec<_>>());
    let two = [named(0).steps(&[1, 0]), named(1).steps(&[2]), follows(2, 1), named(3).steps(&[3])];
    leans(list, "rings-apart", 4, &two, &[(0, 0), (0, 1), (0, 2), (1, 1), (1, 2), (2, 1), (2, 2), (3, 3)]);
    // Undeclared names are leant on, by any step, and lean on nothing.
    let lost = [named(1).steps(&[5, 2, 6]), named(2), follows(3, 1), named(0).steps(&[3])];
    let of_lost = [2, 5, 6].map(|b| (1, b)).into_iter().chain([1, 2, 5, 6].map(|b| (3, b)));
    leans(
        list,
        "undeclared-steps",
        7,
        &lost,
        &[1, 2, 3, 5, 6].map(|b| (0, b)).into_iter().chain(of_lost).collect::<Vec<_>>(),
    );
    // A source and a step in turn; lists settle nothing here.
    let turns = |kinds: &[u32]| {
        let link = |name: u32| if name % 2 == 0 { follows(name, name + 1) } else { named(name).steps(&[name + 1]) };
        let listed = |name: u32| if name % 3 == 0 { link(name).kinds(kinds) } else { link(name).entities(kinds) };
        (0..6).map(listed).collect::<Vec<Relation>>()
    };
    leans(list, "in-turn", 7, &turns(&[]), &rising(7));
    leans(list, "in-turn-lists", 7, &turns(&[1, 2]), &rising(7));
    let mut cut = turns(&[]);
    cut[3] = typed(3, &[4, 5]);
    let until_three: Vec<_> = rising(7).into_iter().filter(|&(a, b)| a < 3 && b < 4 || a > 3).collect();
    leans(list, "in-turn-cut", 7, &cut, &until_three);
    // Each over all of the next two layers, the last two over names that are not declared.
    let layers: Vec<_> = (0..8).flat_map(|a| (a / 2 * 2 + 2..12).map(move |b| (a, b))).collect();
    leans(list, "in-layers", 12, &layered(8, 2, 4), &layers);
}

fn leaning_far(list: &mut List) {
    list.section("chains: leaning along many steps, and of names about N");
    for n in [2, 4096] {
        let last = n - 1;
        let about = [(0, last), (last, 0), (0, 0), (last, last), (0, n), (n, 0), (last, n), (n, n + 1), (u32::MAX, 0)];
        for (name, relation) in [("to", named(0).steps(&[last])), ("from", named(last).steps(&[0, last]))] {
            let case = list.ok(&format!("leaning-{name}-{last}"), &of(n, &[relation]).words());
            about.iter().for_each(|&(a, b)| case.call("lean", &[a, b]));
        }
    }
    // As many as fit: paths of eight steps in layers, a source and a step each, a ring of steps.
    let ring: Vec<Relation> = (0..511).map(|name| named(name).steps(&[(name + 1) % 511])).collect();
    let dealt = |relations: &[Relation]| {
        let (even, odd): (Vec<_>, Vec<_>) = relations.iter().cloned().partition(|relation| relation.name % 2 == 0);
        [even, odd].concat()
    };
    for (name, relations, round) in [
        ("layers", layered(221, 4, 8), false),
        ("layers-dealt", dealt(&layered(221, 4, 8)), false),
        ("forks", forked(512), false),
        ("forks-dealt", dealt(&forked(512)), false),
        ("ring", ring, true),
    ] {
        let last = relations.len() as u32 - 1;
        let case = list.ok(&format!("leaning-far-{name}"), &of(4096, &relations).words());
        for at in [0, 1, 5, 100, last - 1, last] {
            [(0, at), (at, last), (at, at), (last, at), (at, 4095)]
                .iter()
                .for_each(|&(a, b)| case.call("lean", &[a, b]));
        }
        let reading = case.reading.as_ref().unwrap();
        let found = [(0, last), (last, 0), (last, last), (0, 4095)].map(|(a, b)| reading.lean(a, b).unwrap());
        assert_eq!(found, [true, round, round, false], "{name}");
    }
}

fn graphs(list: &mut List) {
    list.section("chains: chains and rings of 1, 2 and 3, what leads there, and sources that are not declared");
    let owner = || typed(4, &[1, 2]);
    for k in 1..4 {
        let links: Vec<Relation> = (0..k).map(|i| follows(i, if i + 1 < k { i + 1 } else { 4 })).collect();
        let ring: Vec<Relation> = (0..k).map(|i| follows(i, (i + 1) % k)).collect();
        let feeders = [follows(5, 4), follows(4, k - 1)];
        graph(list, &format!("chain-{k}"), 6, &[&links[..], &[owner()]].concat());
        graph(list, &format!("chain-{k}-owner-between"), 6, &[&links[1..], &[owner()], &links[..1]].concat());
        graph(list, &format!("chain-{k}-to-nothing"), 6, &[&links[..], &[named(4)]].concat());
        graph(list, &format!("chain-{k}-undeclared"), 6, &links);
        graph(list, &format!("ring-{k}"), 4, &ring);
        graph(list, &format!("ring-{k}-fed"), 7, &[&feeders[..], &ring, &[follows(6, 0)]].concat());
        let after = [follows(4, 0), follows(5, 4), follows(6, k - 1)];
        graph(list, &format!("ring-{k}-fed-after"), 7, &[&ring[..], &after].concat());
    }
    let all = |pairs: &[(u32, u32)]| pairs.iter().map(|&(name, source)| follows(name, source)).collect::<Vec<_>>();
    graph(list, "two-rings", 8, &all(&[(0, 1), (1, 0), (2, 3), (3, 4), (4, 2), (5, 2), (6, 0)]));
    for (name, between) in [
        ("list-21", follows(1, 2).entities(&[5])),
        ("list-9", follows(1, 2).kinds(&[5])),
        ("path-0", follows(1, 2).path(0)),
        ("path-1", follows(1, 2).path_over(2, 1)),
        ("no-source", named(1).derived()),
        ("no-derivation", named(1)),
    ] {
        graph(list, &format!("ring-cut-by-{name}"), 6, &[follows(0, 1), between, follows(2, 0)]);
    }
    let tails = all(&[(0, 2), (1, 2), (2, 3), (4, 2), (5, 3)]);
    graph(list, "shared-tail", 8, &[&tails[..3], &[typed(3, &[7])], &tails[3..]].concat());
    graph(list, "shared-tail-to-nothing", 8, &[&tails[..3], &[named(3)], &tails[3..4]].concat());
    graph(list, "two-tails", 8, &[follows(0, 2), follows(1, 3), typed(2, &[4]), typed(3, &[5, 6])]);
    graph(list, "undeclared-shared", 10, &all(&[(0, 9), (1, 9), (2, 8), (3, 9), (4, 0), (5, 8)]));
    assert_kinds(list, 6 + 2, &[0; 6]);
    let not_read = [
        follows(0, 9).path(0),
        follows(1, 8).entities(&[2]),
        follows(2, 7).path_over(7, 8),
        named(3).kinds(&[6]).source(6),
        follows(4, 0),
    ];
    list.ok("undeclared-not-read", &of(10, &not_read).words()).ask();
    assert_kinds(list, 5, &[0, 17 + 11, 0, 31 + 37 + 3, 0]);
    graph(list, "undeclared-read-and-not", 10, &[follows(0, 9).path(0), follows(1, 9)]);
    assert_kinds(list, 2 + 1, &[0; 2]);
    for k in [0, 1, 8] {
        let over = |first: Relation| [first, typed(1, &[4, 5]), follows(2, 0)];
        graph(list, &format!("path-of-{k}"), 6, &over(follows(0, 1).path_over(1, k)));
        list.ok(&format!("path-of-{k}-list-21"), &of(6, &over(follows(0, 1).path_over(1, k).entities(&[3]))).words())
            .ask();
        // After 6 to 9, 11 to 13, the path and 17 to 20; list 9 of the next relation after one kind and a predicate more.
        let place = 4 + 4 + 3 + 3 * k + 4;
        assert_kinds(list, 3, &[place, place + 3 + 3, place]);
    }
    graph(list, "source-none", 4, &[named(0).derived(), follows(1, 0), named(2).kinds(&[3]).derived()]);
    graph(list, "source-none-path", 4, &[named(0).path(0), follows(1, 0)]);
}

fn lists(list: &mut List) {
    list.section("chains: lists of 1 and 8 in list 9 and in list 21, alone and both, and which settles");
    for a in [0, 1, 8] {
        let nine: Vec<u32> = (0..a).collect();
        graph(list, &format!("list-9-of-{a}"), 9, &[typed(0, &nine), follows(1, 0)]);
        for b in [0, 1, 8] {
            let own: Vec<u32> = (9 - b..9).collect();
            let first = follows(0, 2).kinds(&nine).entities(&own);
            let relations = [first, follows(1, 0), typed(2, &[3, 4]), typed(3, &[1])];
            both_ways(list, &format!("list-9-of-{a}-and-21-of-{b}"), &of(9, &relations));
        }
    }
    list.section("chains: where lists stand: defaulted names before, rules and blocks after, trees between");
    let tree = || {
        let within = exists(1, node(100, 0, [node(97, 0, [])]));
        node(97, 2, [packs::member(1, (0, 1)), within])
    };
    let between = [
        named(2).kinds(&[1]).source(1).predicate(tree()),
        follows(3, 2).predicate(tree()),
        named(1).kinds(&[4, 5]).entities(&[5, 4]).path(3).predicate(tree()),
        follows(4, 1),
    ];
    for k in [0, 1, 6] {
        let pack = with_defaulted(of(6, &between), &(0..k).collect::<Vec<_>>());
        both_ways(list, &format!("lists-after-{k}-defaulted"), &pack);
    }
    let rules: Vec<Rule> = vec![packs::rule(1, 0, vec![leaf(), tree()]); 2];
    let pack = with_blocks(Pack { rules, ..of(6, &between) }, &[block(2, &[item(3, true, 4)])]);
    both_ways(list, "lists-before-rules", &pack);
}

fn many(list: &mut List) {
    list.section("chains: 512 relations");
    let some = [0, 1, 255, 510, 511, 512, 699];
    let pairs = [(0, 511), (0, 1), (0, 512), (511, 0), (0, 0), (511, 512), (512, 0), (255, 254), (600, 0)];
    let each = |source: &dyn Fn(u32) -> u32| (0..512).map(|i| follows(i, source(i))).collect::<Vec<_>>();
    let with = |mut relations: Vec<Relation>, i: usize, relation: Relation| {
        relations[i] = relation;
        relations
    };
    let own = |kinds: &dyn Fn(u32) -> Vec<u32>| (0..512).map(|i| typed(i, &kinds(i))).collect::<Vec<_>>();
    for (name, relations, steps, deal) in [
        ("chain", with(each(&|i| i + 1), 511, typed(511, &[1, 2])), 512, true),
        ("chain-undeclared", each(&|i| i + 1), 513, true),
        ("chain-back", with(each(&|i| i.max(1) - 1), 0, named(0).entities(&[3])), 512, false),
        ("ring", each(&|i| (i + 1) % 512), 512, false),
        ("ring-fed", each(&|i| if i < 511 { i + 1 } else { 256 }), 512, true),
        ("rings-of-2", each(&|i| i ^ 1), 512, false),
        ("rings-of-1", each(&|i| i), 512, false),
        ("one-undeclared", each(&|_| 699), 513, false),
        ("one-source", with(each(&|_| 511), 511, typed(511, &[9])), 512, false),
        (
            "pairs",
            (0..512).map(|i| if i % 2 == 0 { typed(i, &[i, i + 1]) } else { follows(i, i - 1) }).collect(),
            512,
            false,
        ),
        ("own", own(&|i| vec![i]), 512, false),
        ("plain", own(&|_| vec![]), 512, false),
    ] {
        let case = list.ok(&format!("{name}-512"), &of(700, &relations).words());
        case.ask_edges(&some, &pairs);
        assert_eq!(case.reading.as_ref().unwrap().steps(), steps, "{name}");
        if deal {
            let (even, odd): (Vec<_>, Vec<_>) = relations.iter().cloned().partition(|relation| relation.name % 2 == 0);
            let case = list.ok(&format!("{name}-512-dealt"), &of(700, &[even, odd].concat()).words());
            case.ask_of(&some, &pairs);
            assert_eq!(case.reading.as_ref().unwrap().steps(), steps, "{name}");
        }
    }
}

fn sizes(list: &mut List) {
    list.section("chains: N = 1 and N = 4,096, no relations, and large rooms");
    let ends = [0, 1, 511, 512, 4094, 4095];
    let own: Vec<Relation> = (0..512).map(|i| follows(i, 1000 + i)).collect();
    let case = list.ok("undeclared-512", &of(4096, &own).words());
    case.ask_edges(&ends, &[(0, 1000), (1000, 0), (511, 1511), (511, 1510)]);
    assert_eq!(case.reading.as_ref().unwrap().steps(), 1024);
    let far = [follows(4095, 0), follows(0, 4094), typed(4094, &[4095, 0]), entity_of(7, 4095, &[4095], 0)];
    list.ok("names-4096", &of(4096, &far).words()).ask_edges(&ends, &[(4095, 4094), (4094, 4095), (4095, 0)]);
    list.ok("no-relations-4096", &of(4096, &[]).words()).ask_edges(&ends, &[(0, 4095)]);
    let after = with_defaulted(of(4096, &[follows(4095, 1), typed(1, &[2])]), &(0..512).collect::<Vec<_>>());
    list.ok("after-512-defaulted", &after.words()).ask_edges(&ends, &[(4095, 1), (1, 4095)]);
    assert_kinds(list, 2, &[4 + 512 + 13 + 3; 2]);
    graph_edges(list, "names-1", 1, &[follows(0, 0)]);
    graph_edges(list, "names-1-kinds", 1, &[named(0).kinds(&[0]).entity(0)]);
    graph_edges(list, "names-1-nothing", 1, &[]);
    graph_edges(list, "no-relations", 3, &[]);
    let case = list.ok("rooms-far", &of(3, &[typed(0, &[1]), follows(2, 0)]).words());
    for operation in ["all_kinds"].into_iter().chain(TABLES) {
        [100, 4096, 8448].iter().for_each(|&room| case.call(operation, &[room]));
    }
}

fn entities(list: &mut List) {
    list.section("chains: the kinds that entities take");
    for (slot, k) in [(0, 1), (1, 1), (1, 2), (2, 2), (7, 8), (8, 8), (NONE, 8), (0, 8)] {
        let kinds: Vec<u32> = (1..=k).collect();
        graph(list, &format!("slot-{slot}-of-{k}"), 10, &[entity_of(1, 9, &kinds, slot)]);
        let inherits = follows(1, 2).entity(9).current_slot(slot);
        graph(list, &format!("slot-{slot}-of-{k}-inherited"), 10, &[typed(2, &kinds), inherits]);
    }
    graph(list, "entity-none", 6, &[named(1).entities(&[4]), entity_of(2, 5, &[4], 0)]);
    let none =
        [follows(1, 1).entity(5), follows(2, 3).entity(4), entity_of(3, 2, &[1], 0), follows(4, 3).path(0).entity(0)];
    graph(list, "entity-no-kinds", 6, &none);
    // The kinds that 5 takes, and what direct and alias come to there.
    for (name, kinds, direct, alias) in [
        ("one", &[4][..], 4, 1),
        ("equal", &[4, 4, 4], 4, 1),
        ("unlike", &[4, 3], NONE, 1),
        ("unlike-last", &[4, 4, 3], NONE, 1),
        ("unlike-between", &[4, 3, 4], NONE, 1),
        ("itself", &[5], 5, 0),
        ("itself-twice", &[5, 5], 5, 0),
        ("itself-and-another", &[5, 1], NONE, 1),
        ("zero", &[0], 0, 1),
        ("no", &[], NONE, 0),
    ] {
        let takers: Vec<Relation> = kinds.iter().zip(0..).map(|(&k, i)| entity_of(i, 5, &[k], 0)).collect();
        // Out of range, and no kinds.
        let more = [entity_of(4, 5, &[1, 2], 2), follows(5, 5).entity(5)];
        graph(list, &format!("entity-{name}"), 6, &takers);
        graph(list, &format!("entity-{name}-and-nothing"), 6, &[takers, more.to_vec()].concat());
        let reading = list.cases.last().unwrap().reading.as_ref().unwrap();
        let found = [reading.direct(6).unwrap()[5], reading.alias(6).unwrap()[5], reading.unresolved(6).unwrap()[5]];
        assert_eq!(found, [direct, alias, kinds.is_empty().into()], "{name}");
    }
    let nine = named(1).kinds(&[2, 3]).slots(1, 0).entity(5);
    graph(list, "entity-list-9", 6, std::slice::from_ref(&nine));
    graph(list, "entity-both-lists", 6, &[nine.entities(&[3, 4])]);
}

fn directs(list: &mut List) {
    list.section("chains: direct leading on, in rings and to itself");
    let leads = |i: u32, kind: u32| entity_of(i, i, &[kind], 0);
    for k in [1, 2, 3, 5] {
        let steps: Vec<Relation> = (0..k).map(|i| leads(i, i + 1)).collect();
        let ring: Vec<Relation> = (0..k).map(|i| leads(i, (i + 1) % k)).collect();
        graph(list, &format!("direct-chain-{k}"), 8, &steps);
        graph(list, &format!("direct-chain-{k}-to-itself"), 8, &[&steps[..], &[leads(k, k)]].concat());
        let unlike = [leads(k, 0), entity_of(k + 1, k, &[7], 0)];
        graph(list, &format!("direct-chain-{k}-to-unlike"), 8, &[&steps[..], &unlike].concat());
        graph(list, &format!("direct-chain-{k}-of-all-names"), k + 1, &steps);
        graph(list, &format!("direct-ring-{k}"), 8, &ring);
        let fed = [entity_of(6, 7, &[6], 0), entity_of(7, 6, &[k - 1], 0)];
        graph(list, &format!("direct-ring-{k}-fed"), 8, &[&ring[..], &fed].concat());
        let innermost = list.cases.last().unwrap().reading.as_ref().unwrap().innermost(8).unwrap();
        assert_eq!(innermost[7], if k == 1 { 0 } else { NONE });
    }
    graph(list, "direct-names-4096", 4096, &[leads(4095, 4094), leads(4094, 0), leads(0, 4093)]);
    for (name, n, ring) in [("chain", 700, 513), ("ring", 700, 512), ("ring-of-all-names", 512, 512)] {
        let relations: Vec<Relation> = (0..512).map(|i| leads(i, (i + 1) % ring)).collect();
        list.ok(&format!("direct-{name}-512"), &of(n, &relations).words()).ask_of(&[0, 511], &[]);
    }
}

fn damaged(list: &mut List) {
    list.section("chains: Check's refusals come first, in every room and of every name");
    let pack = with_defaulted(of(10, &[follows(5, 6), follows(6, 9), typed(7, &[1, 2])]), &[1, 2]);
    let words = pack.words();
    let at = |kind: u8, nth: usize| place(&words, kind, nth);
    let deep = nested(said(), |t| node(100, 0, [t]), 32);
    let too_deep = of(10, &[follows(5, 6), follows(6, 9).predicate(deep), named(7)]);
    for (name, number, words) in [
        ("empty", 1, vec![]),
        ("short", 1, cut(&words, 5)),
        ("long", 1, vec![0; 8193]),
        ("kind", 2, put(&words, at(12, 0), 13, 6)),
        ("last-kind", 2, put(&words, at(28, 0), 29, 0)),
        ("cut", 3, cut(&words, words.len() - 1)),
        ("value", 4, put(&words, at(12, 0), 12, 10)),
        ("total", 4, put(&words, 0, 1, 6)),
        ("deep", 5, too_deep.words()),
        ("falling", 6, put(&words, at(4, 1), 4, 1)),
        ("used", 7, put(&words, at(6, 2), 6, 5)),
        ("left-over", 8, with_total([&words[..], &[word(28, 0)]].concat())),
    ] {
        let length = words.len() as u32;
        let case = list.refused(number, &format!("chains-{name}"), &words);
        case.ask_edges(&[0, 9], &[(0, 0), (9, 10)]);
        [0, length.saturating_sub(1), length, length + 3].iter().for_each(|&room| case.call("resolve", &[room]));
    }
}
