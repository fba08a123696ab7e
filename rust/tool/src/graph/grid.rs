//! Where boxes stand. Each has a column and a row; a source stands one column left of what comes from it, the members of
//! a ring below each other. Between columns and between rows there are lanes in which no box stands, for arrows.

use super::{Arrow, Drawing, Sort};

#[derive(Clone, Copy, Debug, PartialEq, Eq)]
pub struct Cell {
    pub column: usize,
    pub row: usize,
}

pub struct Grid {
    /// By box.
    pub cells: Vec<Cell>,
    /// For each box the arrow that is drawn as a branch of its tree, if it is one.
    pub branch: Vec<Option<usize>>,
    pub columns: usize,
    pub rows: usize,
}

pub fn grid(drawing: &Drawing) -> Grid {
    let count = drawing.boxes.len();
    let branch = branches(count, &drawing.arrows);
    let mut children = vec![vec![]; count];
    for (child, arrow) in branch.iter().enumerate() {
        if let Some(arrow) = arrow.map(|a| &drawing.arrows[a]).filter(|arrow| arrow.sort != Sort::Ring) {
            children[arrow.to].push(child);
        }
    }
    let mut placing = Placing { children, cells: vec![None; count], row: 0 };
    for start in 0..count {
        for member in roots(start, &branch, &drawing.arrows) {
            placing.tree(member);
        }
    }
    let cells: Vec<Cell> = placing.cells.into_iter().map(|cell| cell.unwrap_or(Cell { column: 0, row: 0 })).collect();
    let columns = cells.iter().map(|cell| cell.column + 1).max().unwrap_or(0);
    Grid { cells, branch, columns, rows: placing.row }
}

/// The arrow to the source of each box; without one, the first arrow along a path that closes no ring.
fn branches(count: usize, arrows: &[Arrow]) -> Vec<Option<usize>> {
    let mut branch = vec![None; count];
    for (i, arrow) in arrows.iter().enumerate().filter(|(_, arrow)| arrow.sort != Sort::Path) {
        branch[arrow.from] = Some(i);
    }
    for (i, arrow) in arrows.iter().enumerate().filter(|(_, arrow)| arrow.sort == Sort::Path) {
        if branch[arrow.from].is_none() && !leads(arrow.to, arrow.from, &branch, arrows) {
            branch[arrow.from] = Some(i);
        }
    }
    branch
}

/// Whether branches lead from one box to another, or to it right away.
fn leads(mut from: usize, to: usize, branch: &[Option<usize>], arrows: &[Arrow]) -> bool {
    for _ in 0..=branch.len() {
        if from == to {
            return true;
        }
        match branch[from] {
            Some(arrow) => from = arrows[arrow].to,
            None => return false,
        }
    }
    false
}

/// Where the tree begins that a box belongs to: its root, or the members of its ring in their order.
fn roots(start: usize, branch: &[Option<usize>], arrows: &[Arrow]) -> Vec<usize> {
    let mut at = start;
    for _ in 0..branch.len() {
        match branch[at].map(|a| &arrows[a]) {
            None => return vec![at],
            Some(arrow) if arrow.sort == Sort::Ring => break,
            Some(arrow) => at = arrow.to,
        }
    }
    let mut ring = vec![at];
    let mut next = at;
    while let Some(arrow) = branch[next].map(|a| &arrows[a]).filter(|arrow| arrow.to != at && ring.len() < branch.len())
    {
        next = arrow.to;
        ring.push(next);
    }
    ring
}

struct Placing {
    children: Vec<Vec<usize>>,
    cells: Vec<Option<Cell>>,
    row: usize,
}

impl Placing {
    /// Places a root and all that comes from it, if that is not done yet. A box stands in the row of its first child.
    fn tree(&mut self, root: usize) {
        if self.cells[root].is_some() {
            return;
        }
        let mut open = vec![(root, 0, true)];
        while let Some((at, column, first)) = open.pop() {
            if !first {
                self.row += 1;
            }
            self.cells[at] = Some(Cell { column, row: self.row });
            let children = &self.children[at];
            open.extend(children.iter().enumerate().rev().map(|(i, &child)| (child, column + 1, i == 0)));
        }
        self.row += 1;
    }
}
