//! Packs dealt out again: relations, rules, blocks and items in another order.

use crate::chance::Chance;
use crate::records::Pack;

/// Where each record of a pack dealt out again stood before.
pub struct Orders {
    pub relations: Vec<usize>,
    pub rules: Vec<usize>,
    pub blocks: Vec<usize>,
}

pub fn dealt(r: &mut Chance, pack: &Pack) -> Pack {
    dealt_with(r, pack).0
}

/// The pack dealt out again, and the orders of its records.
pub fn dealt_with(r: &mut Chance, pack: &Pack) -> (Pack, Orders) {
    let mut order = |count: usize| {
        let mut order: Vec<usize> = (0..count).collect();
        r.mix(&mut order);
        order
    };
    let orders = Orders {
        relations: order(pack.relations.len()),
        rules: order(pack.rules.len()),
        blocks: order(pack.blocks.len()),
    };
    let mut dealt = Pack {
        n: pack.n,
        defaulted: pack.defaulted.clone(),
        relations: orders.relations.iter().map(|&i| pack.relations[i].clone()).collect(),
        rules: orders.rules.iter().map(|&i| pack.rules[i].clone()).collect(),
        blocks: orders.blocks.iter().map(|&i| pack.blocks[i].clone()).collect(),
    };
    dealt.blocks.iter_mut().filter_map(|block| block.items.as_mut()).for_each(|items| r.mix(items));
    (dealt, orders)
}
