//! Times of building trees and of reckoning with equal weights. A line for each game: its name, its places, the worst,
//! and the nanoseconds of one building and of one reckoning, from the best of several batches.
use std::hint::black_box;
use std::time::{Duration, Instant};

use plain::{worst, Memory, Sheet, Tree};

// name, rule sheet, m, and how often a batch repeats
const GAMES: [(&str, [u8; 9], u32, u32); 4] = [
    ("small", [3, 1, 0, 1, 1, 1, 0, 0, 0], 18, 1_000),
    ("six-cards", [3, 2, 1, 1, 2, 4, 1, 0, 0], 60, 50),
    ("thirteen", [13, 1, 1, 1, 1, 1, 0, 1, 0], 1716, 2),
    ("eight", [8, 1, 1, 1, 1, 1, 2, 1, 0], 168, 2),
];

// short batches, and many of them, so that some run undisturbed
const BATCHES: usize = 300;

// the best batch, for one run, in nanoseconds
fn best<T>(repeats: u32, mut run: impl FnMut() -> T) -> u128 {
    let batch = |_| {
        let start = Instant::now();
        for _ in 0..repeats {
            black_box(run());
        }
        start.elapsed()
    };
    let least = (0..BATCHES).map(batch).min().unwrap_or(Duration::ZERO);
    (least / repeats).as_nanos()
}

fn main() {
    for (name, bytes, m, repeats) in GAMES {
        let sheet = Sheet::read(&bytes).expect("a rule sheet");
        sheet.check_words(m).expect("m can be shared out");
        let tree = Tree::build(&sheet, m);
        tree.hands().expect("sums below 2^62");
        let plan = tree.house.equal_weights(m);
        let mut memory = Memory::default();
        let kept = worst(&tree, &plan, &mut memory);
        let build = best(repeats, || Tree::build(black_box(&sheet), m));
        let reckon = best(repeats, || worst(black_box(&tree), &plan, &mut memory));
        println!("{name} {} {kept} {build} {reckon}", tree.nodes.len());
    }
}
