//! A closed book as the search sees it: the hourly orders of each period, and the blocks.

use std::collections::HashMap;

/// The limits, as the code of `dam` has them.
#[allow(dead_code)]
#[path = "../../crates/dam_book/src/limits.rt"]
mod limits;

pub const LOWEST: i64 = limits::LOWEST_PRICE as i64;
pub const HIGHEST: i64 = limits::HIGHEST_PRICE as i64;

/// An order in one period.
#[derive(Clone, Copy)]
pub struct Step {
    pub sells: bool,
    pub price: i64,
    pub volume: i64,
}

pub struct Block {
    pub sells: bool,
    pub price: i64,
    /// Each of its periods, counted from 0, with the volume there.
    pub volumes: Vec<(usize, i64)>,
    /// The parent, as a set of blocks by bits.
    pub parent: u32,
    /// The blocks whose chain of parents leads to it, in the same way.
    pub descendants: u32,
    /// The earlier blocks of its group, in the same way.
    pub rivals: u32,
}

impl Block {
    /// The volume of this block in a period, 0 if it has none there.
    pub fn volume(&self, at: usize) -> i64 {
        self.volumes.iter().find(|pair| pair.0 == at).map_or(0, |pair| pair.1)
    }

    /// The net volume of this block in a period, if it is accepted.
    pub fn change(&self, volume: i64) -> i64 {
        if self.sells { volume } else { -volume }
    }
}

pub struct Problem {
    pub hours: Vec<Vec<Step>>,
    pub blocks: Vec<Block>,
}

impl Problem {
    /// Reads a journal of a closed day whose records are all submits that are accepted.
    pub fn read(text: &str) -> Problem {
        let mut lines = text.lines().map(|line| line.split(',').collect::<Vec<_>>());
        let periods = lines.next().expect("a day")[1].parse().expect("periods");
        let mut problem = Problem { hours: vec![Vec::new(); periods], blocks: Vec::new() };
        // The blocks that later ones may name, and the members of each group, as sets of blocks by bits.
        let (mut names, mut groups) = (HashMap::new(), HashMap::<_, u32>::new());
        for fields in lines.filter(|fields| fields[0] == "submit") {
            let (sells, price) = (fields[4] == "sell", fields[5].parse().expect("a price"));
            let volumes = volumes_of(fields[6]);
            if fields[3] == "hour" {
                let (at, volume) = volumes[0];
                problem.hours[at].push(Step { sells, price, volume });
                continue;
            }
            let own = 1 << problem.blocks.len();
            let parent = names.get(&(fields[1], fields[7])).copied().unwrap_or(0);
            names.insert((fields[1], fields[2]), own);
            let members = groups.entry((fields[1], fields[8])).or_default();
            let rivals = if fields[8].is_empty() { 0 } else { *members };
            *members |= own;
            problem.add(Block { sells, price, volumes, parent, descendants: 0, rivals });
        }
        problem
    }

    /// Adds a block, as a descendant of its parent and of those above.
    fn add(&mut self, block: Block) {
        let own = 1 << self.blocks.len();
        let mut above = block.parent;
        while above != 0 {
            let ancestor = &mut self.blocks[above.trailing_zeros() as usize];
            ancestor.descendants |= own;
            above = ancestor.parent;
        }
        self.blocks.push(block);
    }

    /// Whether links and groups admit a block next to the blocks accepted before it.
    pub fn admits(&self, accepted: u32, place: usize) -> bool {
        let block = &self.blocks[place];
        accepted & block.parent == block.parent && accepted & block.rivals == 0
    }

    /// Whether links and groups admit a selection.
    pub fn admits_all(&self, accepted: u32) -> bool {
        (0..self.blocks.len()).all(|place| accepted >> place & 1 == 0 || self.admits(accepted & ((1 << place) - 1), place))
    }
}

/// The places of a set's blocks.
pub fn among(set: u32) -> impl Iterator<Item = usize> {
    let mut left = set;
    std::iter::from_fn(move || {
        let place = left.trailing_zeros() as usize;
        left &= left.wrapping_sub(1);
        (place < u32::BITS as usize).then_some(place)
    })
}

/// Reads `PERIOD:VOLUME;..`.
fn volumes_of(text: &str) -> Vec<(usize, i64)> {
    let pair = |text: &str| {
        let (period, volume) = text.split_once(':').expect("a pair");
        (period.parse::<usize>().expect("a period") - 1, volume.parse().expect("a volume"))
    };
    text.split(';').map(pair).collect()
}
