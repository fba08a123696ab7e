//! Packs at the limits of document 01.

use crate::packs::{count, derivation, derived, holds, rule, typed};
use crate::records::{Block, Derivation, Item, NONE, Pack, Tree};

/// Packs and near packs at each limit of document 01: one below it, at it, one above.
pub fn limits() -> Vec<Vec<u32>> {
    let mut all = vec![];
    let empty = Pack { n: 1, ..Pack::default() };
    let mut add = |pack: Pack| all.push(pack.words());
    for n in [0, 1, 2, 4095, 4096, 4097, NONE] {
        add(Pack { n, ..empty.clone() });
    }
    let wide = Pack { n: 4096, ..empty.clone() };
    for k in [511, 512, 513] {
        add(Pack { defaulted: (0..k).collect(), ..wide.clone() });
        add(Pack { defaulted: (0..k).rev().collect(), ..wide.clone() });
        add(Pack { relations: (0..k).map(|i| typed(i, &[])).collect(), ..wide.clone() });
        add(Pack { relations: (0..k).map(|i| typed(i.min(k - 2), &[])).collect(), ..wide.clone() });
    }
    for k in [1023, 1024, 1025] {
        add(Pack { rules: (0..k).map(|i| rule(i, 0, vec![Tree::leaf(64, 0)])).collect(), ..wide.clone() });
        let items = vec![Item { name: NONE, boolean: false, entity: NONE }; k as usize];
        add(Pack { blocks: vec![Block { origin: NONE, items: Some(items) }], ..wide.clone() });
    }
    for k in [0, 1, 63, 64, 65] {
        add(Pack { rules: vec![rule(0, 0, vec![Tree::leaf(64, 0); k])], ..wide.clone() });
        add(Pack { blocks: vec![Block { origin: NONE, items: None }; k], ..wide.clone() });
    }
    for k in [7, 8, 9] {
        add(Pack { relations: vec![typed(1, &vec![2; k])], ..wide.clone() });
        add(Pack { relations: vec![derived(1, Derivation { kinds: vec![2; k], ..derivation(NONE) })], ..wide.clone() });
        let path = Some(vec![[1, 0, 1]; k]);
        add(Pack { relations: vec![derived(1, Derivation { path, ..derivation(NONE) })], ..wide.clone() });
    }
    for depth in [31, 32, 33, 34] {
        let nots = (1..depth).fold(holds(), |tree, _| Tree::new(100, 0, &[], vec![tree]));
        add(Pack {
            relations: vec![derived(1, Derivation { predicate: nots.clone(), ..derivation(NONE) })],
            ..wide.clone()
        });
        add(Pack { rules: vec![rule(0, 0, vec![nots])], ..wide.clone() });
        let ceils = (1..depth).fold(count(1, (0, 1), None), |tree, _| Tree::new(66, 0, &[], vec![tree]));
        add(Pack { rules: vec![rule(0, 0, vec![ceils])], ..wide.clone() });
        let wheres = (1..depth).fold(holds(), |tree, i| match i % 2 {
            0 => Tree::new(96, 0, &[], vec![tree, Tree::leaf(64, 0)]),
            _ if tree.is_scalar() => Tree::new(66, 0, &[], vec![tree]),
            _ => count(1, (0, 1), Some(tree)),
        });
        add(Pack { rules: vec![rule(0, 0, vec![wheres])], ..wide.clone() });
        // Of a wrong kind, or a value that is not allowed, where the depth is one too many.
        for (kind, value) in [(96, 0), (73, 8), (65, 4096), (71, 1)] {
            let deep = (1..depth).fold(Tree::leaf(kind, value), |tree, _| Tree::new(66, 0, &[], vec![tree]));
            add(Pack { rules: vec![rule(0, 0, vec![deep])], ..wide.clone() });
        }
    }
    for total in [8190, 8191, 8192, 8193, 8194, 9000] {
        let leaves = total - 12;
        let body = Tree::new(68, leaves as u32, &[], vec![Tree::leaf(64, 0); leaves]);
        add(Pack { rules: vec![rule(0, 0, vec![body])], ..wide.clone() });
    }
    all
}
