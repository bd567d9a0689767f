//! The classes of a problem's periods, and bounds by prices.

use crate::curve::{self, Curve, Line};
use crate::problem::{Problem, among};

pub const BLOCKS: usize = 24;
pub const PERIODS: usize = 100;

/// The periods in which every block has the same volume.
struct Class {
    curve: Curve,
    /// The net volume of each block in each of them.
    nets: [i32; BLOCKS],
}

/// At some prices, the surplus of all hourly orders, the gain of each block, and the line over each class.
pub struct Bound {
    base: i64,
    pub gains: [i64; BLOCKS],
    lines: [Line; PERIODS],
}

impl Bound {
    pub fn empty() -> Bound {
        Bound { base: 0, gains: [0; BLOCKS], lines: [Line::default(); PERIODS] }
    }

    /// The greatest bound of the selections that accept `taken` and any of the places that are left.
    pub fn most(&self, taken: u32, left: &[usize]) -> i64 {
        let taken: i64 = among(taken).map(|place| self.gains[place]).sum();
        self.base + taken + left.iter().map(|place| self.gains[*place].max(0)).sum::<i64>()
    }
}

/// -1 for each accepted block, and 0 for each other.
fn masks(accepted: u32) -> [i32; BLOCKS] {
    std::array::from_fn(|place| -((accepted >> place & 1) as i32))
}

pub struct Classes<'a> {
    pub problem: &'a Problem,
    classes: Vec<Class>,
    /// Each block's value, by its limit.
    values: [i64; BLOCKS],
}

impl Classes<'_> {
    pub fn of(problem: &Problem) -> Classes<'_> {
        let nets: Vec<[i32; BLOCKS]> = (0..problem.hours.len())
            .map(|at| std::array::from_fn(|place| problem.blocks.get(place).map_or(0, |block| block.change(block.volume(at)) as i32)))
            .collect();
        let mut classes = Vec::new();
        for (at, own) in nets.iter().enumerate() {
            if nets[..at].contains(own) {
                continue;
            }
            let least = own.iter().map(|net| net.min(&0)).sum();
            let most = own.iter().map(|net| net.max(&0)).sum();
            let members = (at..nets.len()).rev().filter(|other| nets[*other] == *own);
            let segments = members.fold(curve::flat(least, most), |sum, at| curve::sum(&curve::segments(&problem.hours[at]), &sum));
            classes.push(Class { curve: Curve::of(segments), nets: *own });
        }
        let mut values = [0; BLOCKS];
        for (value, block) in values.iter_mut().zip(&problem.blocks) {
            *value = block.volumes.iter().map(|pair| -block.change(pair.1) * block.price).sum();
        }
        Classes { problem, classes, values }
    }

    /// Writes a bound by the prices at the middle of the net volumes of the selections that accept `taken` and any of the places left.
    pub fn write_pricing(&self, taken: u32, left: &[usize], bound: &mut Bound) {
        let mut weights: [i32; BLOCKS] = std::array::from_fn(|place| 2 * (taken >> place & 1) as i32);
        for place in left {
            weights[*place] = 1;
        }
        bound.base = 0;
        bound.gains = self.values;
        for (class, line) in self.classes.iter().zip(&mut bound.lines) {
            let twice: i32 = class.nets.iter().zip(&weights).map(|(net, weight)| net * weight).sum();
            *line = class.curve.line_near(twice >> 1);
            bound.base += line.surplus;
            for (gain, net) in bound.gains.iter_mut().zip(&class.nets) {
                *gain += i64::from(*net) * i64::from(line.price);
            }
        }
    }

    /// The welfare of a selection: the bound less the distance of each class from its line; `None` if it is less than `least`.
    pub fn welfare(&self, accepted: u32, bound: &Bound, least: i64) -> Option<i64> {
        let masks = masks(accepted);
        let mut welfare = bound.most(accepted, &[]);
        for (class, line) in self.classes.iter().zip(&bound.lines) {
            let net: i32 = class.nets.iter().zip(&masks).map(|(net, mask)| net & mask).sum();
            let own = class.curve.line_at(net)?;
            welfare -= line.surplus - own.surplus + i64::from(line.price - own.price) * i64::from(net);
            if welfare < least {
                return None;
            }
        }
        Some(welfare)
    }

    /// The weights at which the volumes of a sell and of a buy cancel in the first class that has both; `None` if no class has.
    fn weights(&self, sell: usize, buy: usize) -> Option<(i64, i64)> {
        let bought_and_sold = |class: &Class| (-i64::from(class.nets[buy]), i64::from(class.nets[sell]));
        self.classes.iter().map(bought_and_sold).find(|(bought, sold)| *bought > 0 && *sold > 0)
    }

    /// Whether at any prices one of two blocks without descendants, a sell and a buy, loses. Then no eligible selection accepts both. They
    /// are rivals if their gains, times the weights, are below 0 together at the best prices of each class.
    pub fn are_rivals(&self, sell: usize, buy: usize) -> bool {
        let blocks = &self.problem.blocks;
        if blocks[sell].descendants | blocks[buy].descendants != 0 {
            return false;
        }
        let Some((one, other)) = self.weights(sell, buy) else { return false };
        let best = |class: &Class| {
            let volume = one * i64::from(class.nets[sell]) + other * i64::from(class.nets[buy]);
            let (low, high) = class.curve.prices();
            (volume * i64::from(low)).max(volume * i64::from(high))
        };
        one * self.values[sell] + other * self.values[buy] + self.classes.iter().map(best).sum::<i64>() < 0
    }

    /// Whether an accepted block loses, with its accepted descendants, at the clearing prices of a selection that balances.
    pub fn loses(&self, accepted: u32) -> bool {
        let masks = masks(accepted);
        let mut gains = self.values;
        for class in &self.classes {
            let net: i32 = class.nets.iter().zip(&masks).map(|(net, mask)| net & mask).sum();
            let price = class.curve.price(net);
            for (gain, net) in gains.iter_mut().zip(&class.nets) {
                *gain += i64::from(*net) * i64::from(price);
            }
        }
        let family = |place: usize| among(self.problem.blocks[place].descendants & accepted).map(|other| gains[other]).sum::<i64>();
        among(accepted).any(|place| gains[place] + family(place) < 0)
    }
}
