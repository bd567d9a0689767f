//! The search for the best selection of blocks in plain Rust with std only, for comparison, without any proof: its walk is `dam`'s, but
//! without limits on net volumes, and a piece begins with the prices of all its decisions. `twin WORKERS CUT < JOURNAL` prints the
//! welfare. It reads the journals that `make_family.py` and `make_blocks.py` print, which have only
//! submits that are accepted.
//!
//! The bound of a node is by prices: any price for each period bounds the welfare of every selection. Some pairs of a sell and a buy are
//! ruled out by prices too: those of which one loses at any prices. Workers draw the pieces from one shared word and prune by another, the
//! greatest welfare that any of them has found. So one worker visits them in turn, with one incumbent for all.

mod classes;
mod curve;
mod problem;
mod walk;

use classes::Classes;
use problem::Problem;

fn main() {
    let words: Vec<usize> = std::env::args().skip(1).map(|word| word.parse().expect("a number")).collect();
    let text = std::io::read_to_string(std::io::stdin()).expect("a journal");
    let problem = Problem::read(&text);
    let best = walk::search(&Classes::of(&problem), words[0], words[1].min(problem.blocks.len()));
    println!("welfare {}", best.welfare);
}
