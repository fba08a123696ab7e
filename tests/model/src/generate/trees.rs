//! Trees by chance.

use super::{Form, Making};
use crate::read::children;
use crate::records::{NONE, Tree};

impl Making<'_> {
    pub fn slot(&mut self) -> u32 {
        if self.form == Form::Mixed && self.r.once(5) {
            return self.r.below(1 << 24);
        }
        self.r.one(&[0, 1, 1, 0, 0, 1, 2, 7, NONE])
    }

    pub fn opaque(&mut self) -> u32 {
        let any = self.r.below(1 << 24);
        let small = self.r.below(32);
        self.r.one(&[small, small, small, any, NONE])
    }

    fn children(&mut self, scalar: bool, count: u32, left: u32) -> Vec<Tree> {
        (0..count).map(|_| self.tree(scalar, left - 1)).collect()
    }

    /// A tree of at most this depth.
    fn tree(&mut self, scalar: bool, left: u32) -> Tree {
        if scalar { self.scalar(left) } else { self.judgment(left) }
    }

    fn scalar(&mut self, left: u32) -> Tree {
        let aggregate = self.r.below(10) < self.busy;
        let kind = match (aggregate, left) {
            (true, _) if self.r.below(16) < self.only => 78,
            (true, _) => self.r.one(&[74, 74, 75, 76, 77]),
            (_, 1) => self.r.one(&[64, 64, 65]),
            _ => self.r.one(&[64, 65, 66, 67, 68, 69, 70, 71, 71, 72, 72, 73, 73]),
        };
        let few = self.r.one(&[0, 1, 1, 2, 2, 3]);
        match kind {
            64 => Tree::leaf(64, self.opaque()),
            65 => Tree::leaf(65, self.name()),
            66 | 67 => Tree::new(kind, self.opaque(), &[], self.children(true, u32::from(kind) - 65, left)),
            68..=70 => Tree::new(kind, few, &[], self.children(true, few, left)),
            71 => {
                let mut children = self.children(false, 1, left);
                children.extend(self.children(true, 2, left));
                Tree::new(71, 0, &[], children)
            }
            72 => Tree::new(72, few, &[], self.children(true, few + 1, left)),
            73 => {
                let v = self.r.below(8);
                Tree::new(73, v, &[], self.children(true, 1 + v % 2, left))
            }
            78 => {
                let kind = if self.r.once(12) { 84 } else { 82 };
                let input = if self.r.once(20) { self.name() } else { self.r.one(&self.inputs) };
                let fields = [(80, self.slot()), (81, self.slot()), (kind, input)];
                Tree::new(78, self.relation_name(), &fields, vec![])
            }
            _ => {
                let inner = left > 1 && self.r.once(2);
                let fields = [(80, self.slot()), (81, self.slot()), (86, self.opaque()), (83, inner as u32)];
                Tree::new(kind, self.relation_name(), &fields, self.children(false, inner as u32, left))
            }
        }
    }

    fn judgment(&mut self, left: u32) -> Tree {
        let member = self.r.below(10) < self.busy;
        let kind = match (member, left) {
            (true, _) => 101,
            (_, 1) => self.r.one(&[102, 104, 105, 105, 106, 106, 106]),
            _ => self.r.one(&[96, 96, 96, 96, 96, 97, 98, 99, 100, 102, 103, 103, 104, 105, 106]),
        };
        let few = self.r.one(&[0, 1, 1, 2, 2, 3]);
        match kind {
            96 => Tree::new(96, self.opaque(), &[], self.children(true, 2, left)),
            97..=99 => Tree::new(kind, few, &[], self.children(false, few, left)),
            100 => Tree::new(100, 0, &[], self.children(false, 1, left)),
            101 => {
                let fields = [(80, self.slot()), (81, self.slot())];
                Tree::new(101, self.relation_name(), &fields, vec![])
            }
            102 => Tree::new(102, self.relation_name(), &[(85, self.opaque())], vec![]),
            103 => Tree::new(103, self.relation_name(), &[(85, self.opaque())], self.children(false, 1, left)),
            105 => Tree::leaf(105, self.name()),
            _ => Tree::leaf(kind, self.opaque()),
        }
    }

    /// One branch down to the depth where nodes may stand last, with a small tree at its end.
    fn deep(&mut self, scalar: bool, left: u32) -> Tree {
        if left <= 2 {
            return self.tree(scalar, left);
        }
        let leaf = |m: &mut Self, scalar: bool| m.tree(scalar, 1);
        if scalar {
            match self.r.below(7) {
                0 => Tree::new(66, self.opaque(), &[], vec![self.deep(true, left - 1)]),
                1 => Tree::new(67, self.opaque(), &[], vec![leaf(self, true), self.deep(true, left - 1)]),
                2 => Tree::new(71, 0, &[], vec![self.deep(false, left - 1), leaf(self, true), leaf(self, true)]),
                3 => Tree::new(72, 1, &[], vec![self.deep(true, left - 1), leaf(self, true)]),
                4 => Tree::new(70, 2, &[], vec![self.deep(true, left - 1), leaf(self, true)]),
                5 => Tree::new(73, 3, &[], vec![self.deep(true, left - 1), leaf(self, true)]),
                _ => {
                    let fields = [(80, self.slot()), (81, self.slot()), (86, self.opaque()), (83, 1)];
                    Tree::new(74, self.relation_name(), &fields, vec![self.deep(false, left - 1)])
                }
            }
        } else {
            match self.r.below(4) {
                0 => Tree::new(96, self.opaque(), &[], vec![self.deep(true, left - 1), leaf(self, true)]),
                1 => Tree::new(98, 2, &[], vec![leaf(self, false), self.deep(false, left - 1)]),
                2 => Tree::new(100, 0, &[], vec![self.deep(false, left - 1)]),
                _ => Tree::new(103, self.relation_name(), &[(85, self.opaque())], vec![self.deep(false, left - 1)]),
            }
        }
    }

    /// A node of any kind that has children. One of them goes on down, the others stay shallow.
    fn slender(&mut self, scalar: bool, left: u32) -> Tree {
        if left == 1 || self.r.once(25) {
            return self.tree(scalar, 1);
        }
        let kind = self.r.one(match scalar {
            true => &[66, 67, 68, 69, 70, 71, 72, 73, 74, 75, 76, 77],
            false => &[96, 97, 98, 99, 100, 103][..],
        });
        let few = if self.r.often(90) { 1 } else { self.r.below(4) };
        let value = match kind {
            68..=70 | 72 | 97..=99 => few,
            71 | 100 => 0,
            73 => self.r.below(8),
            74..=77 | 103 => self.relation_name(),
            _ => self.opaque(),
        };
        let fields = match kind {
            74..=77 => vec![(80, self.slot()), (81, self.slot()), (86, self.opaque()), (83, self.r.often(90).into())],
            103 => vec![(85, self.opaque())],
            _ => vec![],
        };
        let mut tree = Tree::new(kind, value, &fields, vec![]);
        let (judgments, scalars) = children(&tree);
        let main = self.r.below((judgments + scalars).max(1));
        for child in 0..judgments + scalars {
            let scalar = child >= judgments;
            let child =
                if child == main { self.slender(scalar, left - 1) } else { self.tree(scalar, (left - 1).min(2)) };
            tree.children.push(child);
        }
        tree
    }

    pub fn some_tree(&mut self, scalar: bool) -> Tree {
        if self.form == Form::Mixed && self.r.often(90) {
            let depth = 1 + self.r.below(32);
            return self.slender(scalar, depth);
        }
        match self.r.below(40) {
            0 => self.deep(scalar, 32),
            1 => {
                let depth = 5 + self.r.below(28);
                self.deep(scalar, depth)
            }
            _ => {
                let depth = 1 + self.r.below(5);
                self.tree(scalar, depth)
            }
        }
    }

    pub fn predicate(&mut self) -> Tree {
        if self.form.is_graph() {
            return Tree::leaf(self.r.one(&[104, 106]), 0);
        }
        match self.r.below(12) {
            0..=3 => Tree::leaf(106, self.opaque()),
            4..=6 => self.framed(),
            _ => self.some_tree(false),
        }
    }

    /// A membership test within one to three nodes of chosen kinds.
    fn framed(&mut self) -> Tree {
        let mut tree = Tree::new(101, self.relation_name(), &[(80, self.slot()), (81, self.slot())], vec![]);
        let frames = 1 + self.r.below(3);
        for _ in 0..frames {
            let asked = |m: &mut Self, tree: Tree| Tree::new(71, 0, &[], vec![tree, m.tree(true, 1), m.tree(true, 1)]);
            let scalar = match self.r.below(9) {
                0 => {
                    tree = Tree::new(97, 2, &[], vec![self.tree(false, 1), tree]);
                    continue;
                }
                1 => {
                    tree = Tree::new(103, self.relation_name(), &[(85, self.opaque())], vec![tree]);
                    continue;
                }
                2 => asked(self, tree),
                3 | 4 => Tree::new(72, 2, &[], vec![self.tree(true, 1), asked(self, tree), self.tree(true, 1)]),
                5 | 6 => Tree::new(72, 1, &[], vec![asked(self, tree), self.tree(true, 1)]),
                7 => Tree::new(73, 7, &[], vec![self.tree(true, 1), asked(self, tree)]),
                _ => {
                    let fields = [(80, self.slot()), (81, self.slot()), (86, self.opaque()), (83, 1)];
                    Tree::new(75, self.relation_name(), &fields, vec![tree])
                }
            };
            tree = Tree::new(96, self.opaque(), &[], vec![scalar, self.tree(true, 1)]);
        }
        tree
    }

    /// Lets membership tests and aggregates name relations of these more often.
    pub fn turn_to(&mut self, tree: &mut Tree, typed: &[u32]) {
        if matches!(tree.kind, 74..=78 | 101) && self.r.once(2) {
            tree.value = self.r.one(typed);
        }
        tree.children.iter_mut().for_each(|child| self.turn_to(child, typed));
    }
}
