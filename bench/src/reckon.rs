//! The worst of a plan.
//!
//! The whole tree is counted once. An end adds its count times what the house has, for each row of the words that are
//! left. A deal or a choice of the house gives way to its trees, each counted its weight times as often, with one word
//! fewer left. The places where the guest is to choose are put together by sight: at one sight the guest makes one
//! choice for all of them. For each choice the trees after it are reckoned in the same way, and the least is added.
//! The guest remembers what it saw, so the sights of these trees are met nowhere else, and each place is gone through
//! once.

use crate::{Place, Tree};

const NONE: u32 = u32::MAX;

// a place where the guest is to choose
#[derive(Clone, Copy)]
struct Waiting {
    // its tree that is to be reckoned next
    at: u32,
    // the next one of its sight
    next: u32,
    count: u64,
    left: u32,
}

/// Memory for reckoning, to be used again and again.
#[derive(Default)]
pub struct Memory {
    waiting: Vec<Waiting>,
    // the first place that waits at each sight
    heads: Vec<u32>,
    // the sights where places wait
    met: Vec<u16>,
}

/// The least sum over all ways of the guest. The plan has a weight for each choice at each sight of the house, and
/// `tree.hands()` is not turned away.
pub fn worst(tree: &Tree, plan: &[u32], memory: &mut Memory) -> u64 {
    memory.waiting.clear();
    memory.met.clear();
    memory.heads.clear();
    memory.heads.resize(tree.guest.sights(), NONE);
    let words = tree.house.words as usize;
    let mut powers = [1; 16];
    for left in 0..words {
        powers[left + 1] = powers[left] * u64::from(tree.m);
    }
    let mut reckoning = Reckoning { tree, plan, powers, memory };
    let sum = reckoning.go(0, 1, words as u32);
    sum + reckoning.settle(0)
}

struct Reckoning<'a> {
    tree: &'a Tree,
    plan: &'a [u32],
    // m^0, m^1 and so on
    powers: [u64; 16],
    memory: &'a mut Memory,
}

impl Reckoning<'_> {
    // Goes through a tree down to its ends and the guest's choices. Gives what the ends add; the choices wait.
    fn go(&mut self, at: u32, count: u64, left: u32) -> u64 {
        match self.tree.nodes[at as usize].place {
            Place::Over { house } => count * u64::from(house) * self.powers[left as usize],
            Place::Deal { first } => self.spread(at, count, left, &self.tree.deals[first as usize..]),
            Place::House { sight } => {
                let first = self.tree.house.first[sight as usize];
                self.spread(at, count, left, &self.plan[first as usize..])
            }
            Place::Guest { sight } => {
                let head = &mut self.memory.heads[sight as usize];
                if *head == NONE {
                    self.memory.met.push(sight);
                }
                let next = std::mem::replace(head, self.memory.waiting.len() as u32);
                self.memory.waiting.push(Waiting { at: at + 1, next, count, left });
                0
            }
        }
    }

    // The trees of a place, by their weights.
    fn spread(&mut self, at: u32, count: u64, left: u32, weights: &[u32]) -> u64 {
        let tree = self.tree;
        let end = at + tree.nodes[at as usize].size;
        let mut next = at + 1;
        let mut sum = 0;
        for &weight in weights {
            if next == end {
                break;
            }
            sum += self.go(next, count * u64::from(weight), left - 1);
            next += tree.nodes[next as usize].size;
        }
        sum
    }

    // Reckons the sights where places wait, down to the `keep` first ones.
    fn settle(&mut self, keep: usize) -> u64 {
        let mut sum = 0;
        while self.memory.met.len() > keep {
            let sight = self.memory.met.pop().unwrap() as usize;
            let head = std::mem::replace(&mut self.memory.heads[sight], NONE);
            let sights = self.memory.met.len();
            let waiting = self.memory.waiting.len();
            let mut least = u64::MAX;
            for _ in 0..self.tree.guest.choices(sight) {
                let mut chosen = 0;
                let mut item = head;
                while item != NONE {
                    let here = &mut self.memory.waiting[item as usize];
                    let Waiting { at, next, count, left } = *here;
                    here.at += self.tree.nodes[at as usize].size;
                    chosen += self.go(at, count, left);
                    item = next;
                }
                chosen += self.settle(sights);
                self.memory.waiting.truncate(waiting);
                least = least.min(chosen);
            }
            sum += least;
        }
        sum
    }
}

/// What the best opponents of two plans, one at each chair, gain together: 2T less the two worsts, all in tokens a
/// hand, as a part and a whole. Each worst comes with its number of hands. The part is 0 if and only if both plans are
/// best.
pub fn together(table: u32, house: (u64, u64), guest: (u64, u64)) -> (u128, u128) {
    let [(kept, hands), (kept_too, hands_too)] = [house, guest].map(|(a, b)| (u128::from(a), u128::from(b)));
    let whole = hands * hands_too;
    (u128::from(table) * whole - kept * hands_too - kept_too * hands, whole)
}
