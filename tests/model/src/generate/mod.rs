//! Packs by chance. All of them are accepted by Check.

mod names;
mod relations;
mod trees;

use crate::chance::Chance;
use crate::records::{Block, Item, NONE, Pack, Relation, Rule, Tree};
use crate::{MOST_WORDS, Refusal, read};
use names::{Names, Origins};

/// What a pack has much of.
#[derive(Clone, Copy, Debug, PartialEq)]
pub enum Form {
    /// As a program is turned into a pack: names with texts, which give the origins; few of them, few kinds, and graphs of
    /// sources of many shapes. Mended as often as chance has it, so that Resolve comes to every end.
    Program,
    /// The same with names that are but numbers, up to 4,096, and any origins.
    Turning,
    /// Records of every form with any names, slots and origins; trees of any depth.
    Mixed,
    /// Many relations: long chains, rings, shared tails, undeclared sources.
    Tangled,
    /// Many derivations with an entity, whose kinds lead on, stay and go round.
    Entities,
    /// Many derivations with paths, whose steps lead on beside their sources.
    Paths,
}

impl Form {
    /// Whether its packs have relations, many of them, and no other records.
    fn is_graph(self) -> bool {
        matches!(self, Form::Tangled | Form::Entities | Form::Paths)
    }
}

/// A pack and the texts of its names; none where names are but numbers.
#[derive(Clone)]
pub struct Made {
    pub pack: Pack,
    pub texts: Vec<String>,
}

struct Making<'r> {
    r: &'r mut Chance,
    form: Form,
    n: u32,
    /// The names that are used, the kinds, relations and inputs among them.
    used: Vec<u32>,
    kinds: Vec<u32>,
    relations: Vec<u32>,
    inputs: Vec<u32>,
    origins: Origins,
    /// How often a membership test or an aggregate stands in a tree, in tenths.
    busy: u32,
    /// How often an aggregate is an OnlyRelated, and how often a list has one kind twice, in sixteenths.
    only: u32,
    twins: u32,
}

impl Making<'_> {
    fn name(&mut self) -> u32 {
        if self.used.len() == self.n as usize { self.r.below(self.n) } else { self.r.one(&self.used) }
    }

    fn kind(&mut self) -> u32 {
        if self.r.once(20) { self.name() } else { self.r.one(&self.kinds) }
    }

    fn relation_name(&mut self) -> u32 {
        if self.r.once(15) { self.name() } else { self.r.one(&self.relations) }
    }

    fn origin(&mut self, name: u32) -> u32 {
        match &self.origins {
            Origins::OfTexts(origins) => origins[name as usize],
            Origins::Any(origins) => self.r.one(origins),
        }
    }

    fn rule(&mut self) -> Rule {
        let name = self.name();
        let bodies = self.r.one(&[1, 1, 1, 2, 3]);
        let entity = self.kind();
        let body = |_| {
            let scalar = !self.r.once(3);
            self.some_tree(scalar)
        };
        let bodies = (0..bodies).map(body).collect();
        Rule { name, origin: self.origin(name), entity, bodies }
    }

    /// Blocks of the origins that are cited, none, one or two of each.
    fn blocks(&mut self, mut citing: Vec<u32>) -> Vec<Block> {
        citing.push(NONE);
        citing.sort();
        citing.dedup();
        let mut blocks = vec![];
        for origin in citing {
            let many = self.r.one(&[0, 1, 1, 1, 1, 2]);
            for i in 0..many {
                let items = if self.r.once(12) {
                    None
                } else if i == 0 {
                    Some(self.items())
                } else {
                    Some(vec![])
                };
                blocks.push(Block { origin, items });
            }
        }
        blocks.truncate(64);
        self.r.mix(&mut blocks);
        blocks
    }

    fn items(&mut self) -> Vec<Item> {
        let mut items = vec![];
        for input in self.inputs.clone() {
            if self.r.once(9) {
                continue;
            }
            let times = if self.r.once(15) { 2 } else { 1 };
            for _ in 0..times {
                let entity = if self.r.once(15) { NONE } else { self.kind() };
                items.push(Item { name: input, boolean: !self.r.once(8), entity });
            }
        }
        if self.r.once(5) {
            let entity = if self.r.once(2) { self.kind() } else { NONE };
            items.push(Item { name: NONE, boolean: self.r.once(2), entity });
        }
        self.r.mix(&mut items);
        items
    }
}

/// Some of the names, at least one, next to each other.
fn some(r: &mut Chance, names: &[u32], k: u32) -> Vec<u32> {
    let k = (k as usize).clamp(1, names.len());
    let from = r.below((names.len() - k + 1) as u32) as usize;
    names[from..from + k].to_vec()
}

/// A pack made by chance; not yet mended.
fn first_form(r: &mut Chance, form: Form) -> Made {
    let (names, relations) = match form {
        Form::Program => {
            let (about, relations) = match r.below(600) {
                0 => (700, 512),
                1..=9 => (120, 60),
                10..=59 => (50, 25),
                _ => (6 + r.below(24), 1 + r.below(10)),
            };
            (Names::with_texts(r, about), relations)
        }
        Form::Turning => (Names::numbers(r, form), 1 + r.below(18)),
        Form::Mixed => (Names::numbers(r, form), 1 + r.below(20)),
        Form::Tangled | Form::Entities | Form::Paths => (Names::numbers(r, form), 512),
    };
    let Names { n, used, origins, texts } = names;
    let few_kinds = matches!(form, Form::Program | Form::Turning);
    let k = if few_kinds { 1 + r.below(4) } else { n };
    let mut kinds = some(r, &used, k);
    if r.once(6) {
        kinds.push(0);
    }
    let relation_names = some(r, &used, relations);
    let k = 1 + r.below(3);
    let inputs = some(r, &used, k);
    let busy = r.one(&[1, 2, 3, 4, 6]);
    let (only, twins) = (r.one(&[0, 0, 1, 2, 5]), r.one(&[0, 2, 6, 14]));
    let mut m =
        Making { r, form, n, used, kinds, relations: relation_names.clone(), inputs, origins, busy, only, twins };
    let mut declared = relation_names;
    if form.is_graph() {
        let often = 10 + m.r.below(91);
        declared.retain(|_| m.r.often(often));
    } else {
        declared.retain(|_| !m.r.once(8));
    }
    let mut relations = match form {
        Form::Entities => m.entities(declared),
        Form::Paths => m.paths(declared),
        _ => m.graph(declared),
    };
    if few_kinds && m.r.once(3) {
        m.filters(&mut relations);
    }
    m.r.mix(&mut relations);
    if form.is_graph() {
        return Made { pack: Pack { n, relations, ..Pack::default() }, texts };
    }
    let rules = m.r.one(&[0, 1, 1, 2, 3, 5]);
    let mut rules: Vec<Rule> = (0..rules).map(|_| m.rule()).collect();
    let typed = |r: &&Relation| r.derived.is_none() && r.kinds.len() == 2;
    let typed: Vec<u32> = relations.iter().filter(typed).map(|r| r.name).collect();
    if !typed.is_empty() && m.r.once(2) {
        relations.iter_mut().filter_map(|r| r.derived.as_mut()).for_each(|d| m.turn_to(&mut d.predicate, &typed));
        rules.iter_mut().for_each(|r| r.bodies.iter_mut().for_each(|body| m.turn_to(body, &typed)));
    }
    let blocks = m.blocks(rules.iter().map(|r| r.origin).chain(relations.iter().map(|r| r.origin)).collect());
    let mut defaulted: Vec<u32> = relations.iter().map(|r| r.name).collect();
    let often = m.r.one(&[3, 10, 40]);
    defaulted.retain(|_| m.r.once(often));
    if m.r.once(4) {
        defaulted.push(m.name());
    }
    defaulted.sort();
    defaulted.dedup();
    Made { pack: Pack { n, defaulted, relations, rules, blocks }, texts }
}

/// Takes away what a pack is refused for, or puts in what it lacks.
fn mend(r: &mut Chance, pack: &mut Pack, refusal: Refusal) {
    let Refusal { number, place, name, other } = refusal;
    if number == 9 {
        pack.defaulted.retain(|&d| d != name);
        return;
    }
    let origin = pack.rules.iter().find(|rule| rule.name == name).map(|rule| rule.origin);
    let origin = origin.or(pack.relations.iter().find(|rel| rel.name == name).map(|rel| rel.origin)).unwrap_or(NONE);
    let kinds: Vec<u32> = pack.relations.iter().flat_map(|rel| rel.kinds.clone()).collect();
    if (12..=15).contains(&number) && !r.once(4) && !kinds.is_empty() {
        for block in &mut pack.blocks {
            if block.origin == origin {
                block.items.get_or_insert_default().retain(|item| item.name != other);
            }
        }
        if !pack.blocks.iter().any(|block| block.origin == origin) && pack.blocks.len() < 64 {
            pack.blocks.push(Block { origin, items: Some(vec![]) });
        }
        let item = Item { name: other, boolean: true, entity: r.one(&kinds) };
        if let Some(block) = pack.blocks.iter_mut().find(|block| block.origin == origin) {
            block.items.get_or_insert_default().push(item);
        }
        return;
    }
    if let Some(node) = pack.node_at(place) {
        *node = if node.is_scalar() { Tree::leaf(64, 3) } else { Tree::leaf(106, 3) };
    }
}

/// A pack made by chance, and a room for its result.
pub fn made(r: &mut Chance, form: Form) -> (Made, usize) {
    let mut made = first_form(r, form);
    let mut words = made.pack.words();
    while words.len() > MOST_WORDS {
        let most = made.pack.relations.len() / 2;
        made.pack.relations.truncate(most);
        made.pack.rules.truncate(1);
        words = made.pack.words();
    }
    if !matches!(form, Form::Program | Form::Turning) {
        return (made, MOST_WORDS);
    }
    let mends = r.one(&[0, 0, 1, 2, 5, 20, 40]);
    let mut room = MOST_WORDS;
    for i in 0..=mends {
        let reading = read(&words).expect("made packs are accepted");
        match reading.resolve(MOST_WORDS) {
            Ok((result, _)) => {
                let length = result.len();
                room = match r.below(10) {
                    0 => length - 1,
                    1 => r.below(length as u32) as usize,
                    2 => length + 3,
                    3 => 8192,
                    4 => 9000,
                    _ => length,
                };
                break;
            }
            Err(refusal) if i < mends && refusal.number < 16 && !(is_rare(refusal.number) && r.once(2)) => {
                mend(r, &mut made.pack, refusal);
                words = made.pack.words();
                if words.len() > MOST_WORDS {
                    return self::made(r, form);
                }
            }
            Err(_) => {
                room = r.one(&[0, 10, 8192]);
                break;
            }
        }
    }
    (made, room)
}

/// Refusals that come up seldom are let stand more often.
fn is_rare(number: u32) -> bool {
    matches!(number, 10 | 11 | 12 | 14)
}

/// The words of a pack made by chance.
pub fn words(r: &mut Chance, form: Form) -> Vec<u32> {
    made(r, form).0.pack.words()
}
