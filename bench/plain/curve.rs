//! The greatest welfare of periods over the net volume, as straight segments, with the prices of the periods added up.

use crate::problem::{HIGHEST, LOWEST, Step};

/// A straight line over the net volume, whose slope is the prices of some periods, added up.
#[derive(Clone, Copy, Default)]
pub struct Line {
    pub price: i32,
    pub surplus: i64,
}

/// A line that holds from this net volume down to the next segment's, and the clearing prices at this net volume, added up.
#[derive(Clone, Copy)]
pub struct Segment {
    pub most: i32,
    pub line: Line,
    pub dot: i32,
}

/// The price between the least and the greatest supporting one.
fn price_between(low: i64, high: i64) -> i64 {
    match (low == LOWEST, high == HIGHEST) {
        (true, false) => high,
        (false, true) => low,
        _ => (low + high).div_euclid(2),
    }
}

/// The segments of no period.
pub fn flat(least: i32, most: i32) -> Vec<Segment> {
    [most, least].map(|most| Segment { most, line: Line::default(), dot: 0 }).to_vec()
}

/// The segments of one period. All orders stand in one stack of supply by rising price: the sells, and for each buy the supply of its part
/// that isn't served.
pub fn segments(orders: &[Step]) -> Vec<Segment> {
    let mut rising = orders.to_vec();
    rising.sort_by_key(|step| step.price);
    let buys = || rising.iter().filter(|step| !step.sells);
    let volume: i64 = buys().map(|step| step.volume).sum();
    let worth: i64 = buys().map(|step| step.volume * (step.price - LOWEST)).sum();
    let (mut before, mut cost, mut previous) = (0, 0, LOWEST);
    let mut found = Vec::new();
    for (price, own) in rising.iter().map(|step| (step.price, step.volume)).chain([(HIGHEST, 0)]) {
        let most = volume - before;
        let line = Line { price: price as i32, surplus: worth - cost - (price - LOWEST) * most };
        found.push(Segment { most: most as i32, line, dot: price_between(previous, price) as i32 });
        before += own;
        cost += (price - LOWEST) * own;
        previous = price;
    }
    found
}

/// The last place from this one on whose segment holds at the net volume.
fn place_from(segments: &[Segment], mut place: usize, net: i32) -> usize {
    while place + 1 < segments.len() && segments[place + 1].most >= net {
        place += 1;
    }
    place
}

/// The sum of two lists of segments, at the net volumes that both have.
pub fn sum(a: &[Segment], b: &[Segment]) -> Vec<Segment> {
    let (Some(first), Some(second)) = (a.first(), b.first()) else { return Vec::new() };
    let mut at = first.most.min(second.most);
    if a[a.len() - 1].most > at || b[b.len() - 1].most > at {
        return Vec::new();
    }
    let (mut left, mut right) = (place_from(a, 0, at), place_from(b, 0, at));
    let mut found = Vec::new();
    loop {
        let dot = |segment: Segment| if segment.most == at { segment.dot } else { segment.line.price };
        let (one, other) = (a[left], b[right]);
        let line = Line { price: one.line.price + other.line.price, surplus: one.line.surplus + other.line.surplus };
        found.push(Segment { most: at, line, dot: dot(one) + dot(other) });
        if left + 1 == a.len() || right + 1 == b.len() {
            return found;
        }
        at = a[left + 1].most.max(b[right + 1].most);
        (left, right) = (place_from(a, left, at), place_from(b, right, at));
    }
}

/// The segments of a class of periods, and near which of them a net volume is.
pub struct Curve {
    segments: Vec<Segment>,
    hints: Vec<u16>,
    shift: u32,
}

impl Curve {
    pub fn of(segments: Vec<Segment>) -> Curve {
        let mut curve = Curve { segments, hints: Vec::new(), shift: 0 };
        if curve.segments.is_empty() {
            return curve;
        }
        let range = (curve.top() - curve.bottom()) as u32;
        while (range >> curve.shift) as usize > 8 * curve.segments.len() {
            curve.shift += 1;
        }
        let mut place = 0;
        for hint in 0..=(range >> curve.shift) {
            place = place_from(&curve.segments, place, curve.top() - (hint << curve.shift) as i32);
            curve.hints.push(place as u16);
        }
        curve
    }

    fn top(&self) -> i32 {
        self.segments[0].most
    }

    fn bottom(&self) -> i32 {
        self.segments[self.segments.len() - 1].most
    }

    fn has(&self, net: i32) -> bool {
        !self.segments.is_empty() && self.bottom() <= net && net <= self.top()
    }

    fn segment(&self, net: i32) -> Segment {
        let hint = self.hints[((self.top() - net) as u32 >> self.shift) as usize];
        self.segments[place_from(&self.segments, hint as usize, net)]
    }

    /// The line of the segment at the net volume, or at the nearer end.
    pub fn line_near(&self, net: i32) -> Line {
        if self.segments.is_empty() { Line::default() } else { self.segment(net.clamp(self.bottom(), self.top())).line }
    }

    /// The line of the segment at the net volume; `None` if some period doesn't balance there.
    pub fn line_at(&self, net: i32) -> Option<Line> {
        self.has(net).then(|| self.segment(net).line)
    }

    /// The clearing prices at a net volume at which every period balances, added up.
    pub fn price(&self, net: i32) -> i32 {
        let segment = self.segment(net);
        if segment.most == net { segment.dot } else { segment.line.price }
    }

    /// The clearing prices at the greatest and at the least net volume, added up. Those at any other one lie between them.
    pub fn prices(&self) -> (i32, i32) {
        if self.segments.is_empty() { (0, 0) } else { (self.price(self.top()), self.price(self.bottom())) }
    }
}
