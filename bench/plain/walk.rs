//! The walk over the pieces of a search, by workers with shared words, and the selection with which it begins.

use std::sync::atomic::{AtomicI64, AtomicU32, Ordering};
use std::thread;

use crate::classes::{BLOCKS, Bound, Classes};
use crate::problem::among;

/// How many places must be left for a node to get prices of its own.
const LEAST_LEFT_TO_REPRICE: usize = 10;

#[derive(Clone, Copy)]
pub struct Best {
    pub accepted: u32,
    pub welfare: i64,
}

impl Best {
    /// Greater welfare ranks above; of two equal ones, the selection that accepts the first place at which they differ.
    fn ranks_above(self, other: Best) -> bool {
        let first = (self.accepted ^ other.accepted).trailing_zeros();
        self.welfare > other.welfare || self.welfare == other.welfare && first < 32 && self.accepted >> first & 1 == 1
    }
}

/// The selection, if it is eligible and has a greater welfare than `best`.
fn better_eligible(classes: &Classes, bound: &Bound, best: Best, accepted: u32) -> Option<Best> {
    let welfare = classes.welfare(accepted, bound, best.welfare + 1)?;
    (classes.problem.admits_all(accepted) && !classes.loses(accepted)).then_some(Best { accepted, welfare })
}

/// The best of the selections that one turned decision makes, from the place on, or else `best`.
fn best_turn(classes: &Classes, bound: &Bound, best: Best, base: u32, from: usize) -> Best {
    (from..classes.problem.blocks.len()).fold(best, |best, place| better_eligible(classes, bound, best, base ^ 1 << place).unwrap_or(best))
}

/// From the empty selection, repeats the turn that gains most or, if none gains, the best pair of turns.
fn first_selection(classes: &Classes) -> Best {
    let mut bound = Bound::empty();
    let places: Vec<usize> = (0..classes.problem.blocks.len()).collect();
    classes.write_pricing(0, &places, &mut bound);
    let welfare = classes.welfare(0, &bound, i64::MIN / 2).expect("nothing accepted balances");
    let mut best = Best { accepted: 0, welfare };
    loop {
        let from = best;
        best = best_turn(classes, &bound, from, from.accepted, 0);
        if best.welfare == from.welfare {
            best = places.iter().fold(best, |best, first| best_turn(classes, &bound, best, from.accepted ^ 1 << first, first + 1));
        }
        if best.welfare == from.welfare {
            return best;
        }
    }
}

/// Which blocks the links, groups and prices accept only together, or not together.
struct Conflicts {
    needs: [u32; BLOCKS],
    needed_by: [u32; BLOCKS],
    excludes: [u32; BLOCKS],
}

impl Conflicts {
    fn of(classes: &Classes) -> Conflicts {
        let mut found = Conflicts { needs: [0; BLOCKS], needed_by: [0; BLOCKS], excludes: [0; BLOCKS] };
        for (place, block) in classes.problem.blocks.iter().enumerate() {
            found.needed_by[place] = block.descendants;
            for other in among(block.descendants) {
                found.needs[other] |= 1 << place;
            }
            let by_prices = (0..classes.problem.blocks.len()).filter(|other| classes.are_rivals(place, *other));
            for other in among(block.rivals).chain(by_prices) {
                found.exclude(place, other);
            }
        }
        found
    }

    /// Adds two blocks of which at most one is accepted.
    fn exclude(&mut self, one: usize, other: usize) {
        self.excludes[one] |= 1 << other;
        self.excludes[other] |= 1 << one;
    }

    fn forbids(&self, place: usize, accept: bool, taken: u32, rejected: u32) -> bool {
        if accept { self.needs[place] & rejected != 0 || self.excludes[place] & taken != 0 } else { self.needed_by[place] & taken != 0 }
    }
}

/// The words that the workers of a search share.
struct Shared {
    drawn: AtomicU32,
    greatest: AtomicI64,
}

/// Decisions on some blocks, the places that are left, and a bound.
#[derive(Clone, Copy)]
struct Node<'a> {
    taken: u32,
    rejected: u32,
    left: &'a [usize],
    bound: i64,
}

/// One worker's walk over the pieces that it draws.
struct Walk<'a> {
    classes: &'a Classes<'a>,
    conflicts: &'a Conflicts,
    shared: &'a Shared,
    /// The greatest welfare read.
    read: i64,
    /// The best of the present piece.
    best: Option<Best>,
}

impl Walk<'_> {
    /// Whether no selection of the node can change the best: none reaches the welfare read, or only ties are left, and none ranks above.
    fn passes(&self, node: Node) -> bool {
        let top = || node.left.iter().fold(node.taken, |top, place| top | 1 << place);
        let is_tie = |best: Best| node.bound == best.welfare && !Best { accepted: top(), ..best }.ranks_above(best);
        node.bound < self.read || self.best.is_some_and(is_tie)
    }

    fn visit(&mut self, node: Node, bound: &Bound) {
        self.read = self.shared.greatest.load(Ordering::SeqCst);
        if self.passes(node) {
            return;
        }
        if node.left.len() < LEAST_LEFT_TO_REPRICE {
            self.branch(node, bound);
        } else {
            self.branch_repriced(node, bound);
        }
    }

    #[inline(never)]
    fn branch_repriced(&mut self, node: Node, bound: &Bound) {
        let mut own = Bound::empty();
        self.classes.write_pricing(node.taken, node.left, &mut own);
        let most = own.most(node.taken, node.left);
        if most >= node.bound {
            self.branch(node, bound);
        } else if !self.passes(Node { bound: most, ..node }) {
            self.branch(Node { bound: most, ..node }, &own);
        }
    }

    fn branch(&mut self, node: Node, bound: &Bound) {
        let Some((place, left)) = node.left.split_first() else {
            return self.leaf(node.taken, bound);
        };
        let gain = bound.gains[*place];
        for accept in [gain >= 0, gain < 0] {
            if self.conflicts.forbids(*place, accept, node.taken, node.rejected) {
                continue;
            }
            let own = 1 << place;
            let next = if accept {
                Node { taken: node.taken | own, left, bound: node.bound + gain.min(0), ..node }
            } else {
                Node { rejected: node.rejected | own, left, bound: node.bound - gain.max(0), ..node }
            };
            self.visit(next, bound);
        }
    }

    fn leaf(&mut self, accepted: u32, bound: &Bound) {
        let Some(welfare) = self.classes.welfare(accepted, bound, self.read) else { return };
        let found = Best { accepted, welfare };
        let is_above = self.best.is_none_or(|best| found.ranks_above(best));
        if is_above && self.classes.problem.admits_all(accepted) && !self.classes.loses(accepted) {
            self.best = Some(found);
            self.shared.greatest.fetch_max(welfare, Ordering::SeqCst);
        }
    }

    /// The best of a piece: the first blocks are decided by the digits of its number, the first by the greatest digit.
    fn piece(&mut self, number: u32, depth: usize, order: &[usize]) -> Option<Best> {
        self.best = None;
        let taken = (0..depth).filter(|place| number >> (depth - 1 - place) & 1 == 0).fold(0, |taken, place| taken | 1 << place);
        if self.classes.problem.admits_all(taken) {
            let mut bound = Bound::empty();
            self.classes.write_pricing(taken, order, &mut bound);
            let rejected = ((1 << depth) - 1) & !taken;
            self.visit(Node { taken, rejected, left: order, bound: bound.most(taken, order) }, &bound);
        }
        self.best
    }

    /// The best of the pieces that are drawn, until none is left.
    fn pieces(&mut self, depth: usize, order: &[usize]) -> Option<Best> {
        let mut best: Option<Best> = None;
        loop {
            let number = self.shared.drawn.fetch_add(1, Ordering::SeqCst);
            if number >= 1 << depth {
                return best;
            }
            if let Some(found) = self.piece(number, depth, order)
                && best.is_none_or(|best| found.ranks_above(best))
            {
                best = Some(found);
            }
        }
    }
}

/// The places from the depth on, by falling volume over all periods, and of equal ones the first in book order.
fn order(classes: &Classes, depth: usize) -> Vec<usize> {
    let blocks = &classes.problem.blocks;
    let mut places: Vec<usize> = (depth..blocks.len()).collect();
    places.sort_by_key(|place| -blocks[*place].volumes.iter().map(|pair| pair.1).sum::<i64>());
    places
}

/// The best selection, by workers that each have a thread of their own.
pub fn search(classes: &Classes, workers: usize, depth: usize) -> Best {
    let shared = &Shared { drawn: AtomicU32::new(0), greatest: AtomicI64::new(first_selection(classes).welfare) };
    let (conflicts, order) = (&Conflicts::of(classes), &order(classes, depth));
    let work = || {
        let mut walk = Walk { classes, conflicts, shared, read: 0, best: None };
        walk.pieces(depth, order)
    };
    let answers: Vec<Option<Best>> = thread::scope(|scope| {
        let others: Vec<_> = (1..workers).map(|_| scope.spawn(work)).collect();
        let own = work();
        others.into_iter().map(|other| other.join().expect("an answer")).chain([own]).collect()
    });
    let best = answers.into_iter().flatten().reduce(|one, other| if other.ranks_above(one) { other } else { one });
    best.expect("some selection is eligible")
}
