//! Packs that go as far as they can in one way or another.

use crate::packs::{self, Words, forked, graph, layered, named};
use crate::records::NONE;

/// All of them, with what they are; one has a word too many, and half of the deep trees a level.
pub fn all() -> Vec<(&'static str, Vec<u32>)> {
    let mut all = vec![
        ("the largest pack", packs::of_length(8192)),
        ("a word too many", packs::of_length(8193)),
        ("512 sources in a row", sources(|name| name + 1)),
        ("512 sources in a row, back", sources(|name| (name + 513) % 514)),
        ("512 sources in a ring", sources(|name| (name + 1) % 512)),
        ("221 paths of eight steps in layers", graph(4096, &layered(221, 4, 8))),
        ("512 sources and 510 steps", graph(4096, &forked(512))),
        ("512 direct kinds in a row", kinds_in_a_row()),
        ("1,024 rules", rules(1024, &[(64, 0)])),
        ("4,000 atoms", atoms()),
        ("many rules and relations", packs::flat(96)),
        ("many deep trees", packs::deep(84)),
        ("blocks", blocks()),
        ("sums within sums", nested_sums()),
    ];
    all.extend(deep_trees().into_iter().map(|words| ("a deep tree", words)));
    all
}

/// As many relations as there can be, each with a source and an entity.
pub fn sources(source: impl Fn(u32) -> u32) -> Vec<u32> {
    let relations: Vec<_> = (0..512).map(|name| named(name).source(source(name)).entity(name)).collect();
    graph(4096, &relations)
}

/// As many entities as there can be with one kind each, which leads on to the next.
pub fn kinds_in_a_row() -> Vec<u32> {
    let relations: Vec<_> = (0..512).map(|name| named(name).kinds(&[name + 1]).derived().entity(name)).collect();
    graph(4096, &relations)
}

pub fn rules(count: u32, body: &[(u8, u32)]) -> Vec<u32> {
    let mut w = Words::start(4096);
    w.put(3, 0).put(5, 0).put(22, count);
    for name in 0..count {
        w.all(&[(23, name), (24, NONE), (25, 0), (26, 1), (27, (body[0].0 >= 96).into())]).all(body);
    }
    w.put(28, 0);
    w.done()
}

/// A rule with about as many atoms as there can be.
pub fn atoms() -> Vec<u32> {
    rules(1, &[&[(97, 4000)][..], &[(102, 9), (85, 0)].repeat(4000)].concat())
}

/// A rule that asks for the last input of as many blocks as there can be.
pub fn blocks() -> Vec<u32> {
    let mut w = Words::start(4096);
    w.put(3, 0).put(5, 1).all(&[(6, 9), (7, NONE), (8, 2), (9, 2), (10, 1), (10, 2), (11, 0)]);
    w.put(22, 1).all(&[(23, 5), (24, NONE), (25, 1), (26, 1), (27, 0), (78, 9), (80, 0), (81, 1), (82, 1983)]);
    w.put(28, 64);
    for block in 0..64 {
        w.put(29, NONE).put(30, 31);
        for item in 0..31 {
            w.all(&[(31, 31 * block + item), (32, 1), (33, 2)]);
        }
    }
    w.done()
}

/// A node with one child that goes on down: whether the node and this child are judgments, the words before the child,
/// those after it.
pub type Level = (bool, bool, &'static [(u8, u32)], &'static [(u8, u32)]);

pub const LEVELS: [Level; 19] = [
    (false, false, &[(66, 0)], &[]),
    (false, false, &[(67, 0)], &[(64, 0)]),
    (false, false, &[(67, 0), (64, 0)], &[]),
    (false, false, &[(68, 2)], &[(64, 0)]),
    (false, false, &[(70, 2), (64, 0)], &[]),
    (false, true, &[(71, 0)], &[(64, 0), (64, 0)]),
    (false, false, &[(71, 0), (106, 0)], &[(64, 0)]),
    (false, false, &[(71, 0), (106, 0), (64, 0)], &[]),
    (false, false, &[(72, 1)], &[(64, 0)]),
    (false, false, &[(72, 1), (64, 0)], &[]),
    (false, false, &[(73, 1)], &[(64, 0)]),
    (false, false, &[(73, 1), (64, 0)], &[]),
    (false, true, &[(75, 9), (80, 5), (81, 6), (86, 0), (83, 1)], &[]),
    (true, false, &[(96, 0)], &[(64, 0)]),
    (true, false, &[(96, 0), (64, 0)], &[]),
    (true, true, &[(97, 2)], &[(106, 0)]),
    (true, true, &[(99, 2), (106, 0)], &[]),
    (true, true, &[(100, 0)], &[]),
    (true, true, &[(103, 9), (85, 0)], &[]),
];

/// Trees as deep as they can be, of one sort of level or of two in turn, in a rule and in a predicate.
pub fn deep_trees() -> Vec<Vec<u32>> {
    let mut all = vec![];
    for first in LEVELS {
        for second in LEVELS {
            if first.1 == second.0 && second.1 == first.0 {
                all.push(with_tree(&deep_tree([first, second], 32)));
                all.push(with_tree(&deep_tree([first, second], 33)));
            }
        }
    }
    all
}

pub fn deep_tree(levels: [Level; 2], depth: usize) -> Vec<(u8, u32)> {
    let path: Vec<Level> = (0..depth - 1).map(|level| levels[level % 2]).collect();
    let mut tree: Vec<_> = path.iter().flat_map(|level| level.2).copied().collect();
    tree.push(if path[depth - 2].1 { (101, 9) } else { (74, 9) });
    tree.extend([(80, 7), (81, 8)]);
    tree.extend(if path[depth - 2].1 { &[][..] } else { &[(86, 0), (83, 0)] });
    tree.extend(path.iter().rev().flat_map(|level| level.3));
    tree
}

/// A pack with this tree in a rule and in the predicate of a relation, and with enough leaves that it is no small one.
pub fn with_tree(tree: &[(u8, u32)]) -> Vec<u32> {
    let judgment = tree[0].0 >= 96;
    let mut w = Words::start(4096);
    w.put(3, 0).put(5, 2).all(&[(6, 9), (7, NONE), (8, 2), (9, 2), (10, 1), (10, 2), (11, 0)]);
    w.all(&[
        (6, 8),
        (7, NONE),
        (8, 2),
        (9, 0),
        (11, 1),
        (12, 9),
        (13, NONE),
        (17, 0),
        (18, 1),
        (19, 3),
        (20, NONE),
        (21, 0),
    ]);
    w.all(if judgment { tree } else { &[(106, 0)] });
    w.put(22, 2).all(&[(23, 6), (24, NONE), (25, 1), (26, 1), (27, 0), (68, 300)]).all(&[(64, 0); 300]);
    w.all(&[(23, 5), (24, NONE), (25, 1), (26, 1), (27, judgment.into())]).all(tree).put(28, 0);
    w.done()
}

/// A pack with one rule: sums whose where trees compare a sum, as deep as a tree can be.
pub fn nested_sums() -> Vec<u32> {
    let mut w = Words::start(4);
    w.put(3, 0).put(5, 1).all(&[(6, 2), (7, 0), (8, 2), (9, 2), (10, 1), (10, 3), (11, 0)]);
    w.put(22, 1).all(&[(23, 0), (24, 0), (25, 3), (26, 1), (27, 0)]);
    // Two levels each: the sum, and the comparison in its where tree.
    for _ in 0..15 {
        w.all(&[(75, 2), (80, 5), (81, 6), (86, 0), (83, 1), (96, 0)]);
    }
    w.all(&[(64, 0); 16]).put(28, 0);
    w.done()
}
