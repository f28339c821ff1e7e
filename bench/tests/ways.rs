//! The worst against all ways and all rows of words, in small games.
use plain::{play_hand, worst, Memory, Place, Refusal, Sheet, Tree};

// numbers that look like chance, the same ones each time
struct Chance(u64);

impl Chance {
    fn below(&mut self, n: u32) -> u32 {
        self.0 = self.0.wrapping_mul(6364136223846793005).wrapping_add(1442695040888963407);
        ((self.0 >> 33) % u64::from(n)) as u32
    }
}

fn some_plan(tree: &Tree, chance: &mut Chance) -> Vec<u32> {
    let mut plan = Vec::new();
    for sight in 0..tree.house.sights() {
        let mut rest = tree.m;
        for _ in 1..tree.house.choices(sight) {
            let weight = chance.below(rest + 1);
            plan.push(weight);
            rest -= weight;
        }
        plan.push(rest);
    }
    plan
}

// each way of the guest, as a choice for each sight
fn each_way(tree: &Tree, mut look: impl FnMut(&[u32])) {
    let mut way = vec![0; tree.guest.sights()];
    loop {
        look(&way);
        let Some(sight) = (0..way.len()).find(|&sight| way[sight] + 1 < tree.guest.choices(sight)) else { return };
        way[sight] += 1;
        way[..sight].fill(0);
    }
}

// what the house has from a place on, over all rows of the words that are left
fn sum(tree: &Tree, plan: &[u32], way: &[u32], at: usize, left: u32) -> u64 {
    let weights = match tree.nodes[at].place {
        Place::Over { house } => return u64::from(house) * u64::from(tree.m).pow(left),
        Place::Deal { first } => &tree.deals[first as usize..],
        Place::House { sight } => &plan[tree.house.first[sight as usize] as usize..],
        Place::Guest { sight } => {
            let mut next = at + 1;
            for _ in 0..way[sight as usize] {
                next += tree.nodes[next].size as usize;
            }
            return sum(tree, plan, way, next, left);
        }
    };
    let mut next = at + 1;
    let mut all = 0;
    for &weight in weights {
        if next == at + tree.nodes[at].size as usize {
            break;
        }
        all += u64::from(weight) * sum(tree, plan, way, next, left - 1);
        next += tree.nodes[next].size as usize;
    }
    all
}

#[test]
fn worst_is_the_least_sum() {
    let mut chance = Chance(1);
    for bytes in [
        [2, 1, 0, 1, 1, 1, 0, 0, 0],
        [2, 2, 0, 3, 2, 1, 1, 1, 0],
        [2, 3, 0, 1, 4, 1, 3, 0, 0],
        [3, 1, 0, 1, 1, 1, 0, 0, 0],
        [3, 1, 0, 2, 5, 1, 0, 1, 0],
        [3, 2, 0, 2, 3, 1, 1, 0, 0],
        [4, 1, 0, 1, 1, 1, 0, 0, 0],
    ] {
        let sheet = Sheet::read(&bytes).unwrap();
        let cards = sheet.cards() as u32;
        for m in [cards * (cards - 1), 2 * cards * (cards - 1)] {
            let tree = Tree::build(&sheet, m);
            for tree in [tree.turned(), tree] {
                tree.hands().unwrap();
                for _ in 0..10 {
                    let plan = some_plan(&tree, &mut chance);
                    let mut least = u64::MAX;
                    each_way(&tree, |way| least = least.min(sum(&tree, &plan, way, 0, tree.house.words)));
                    assert_eq!(worst(&tree, &plan, &mut Memory::default()), least, "{bytes:?} {plan:?}");
                }
            }
        }
    }
}

// a hand of the guest by its way: the choices are asked for one by one
fn by_way(tree: &Tree, plan: &[u32], way: &[u32], words: &[u32]) -> u32 {
    let mut choices = Vec::new();
    loop {
        match play_hand(tree, plan, &choices, words) {
            Ok(house) => return house,
            Err(Refusal { number: 12, place }) => {
                assert_eq!(place, choices.len());
                choices.push(way[asked(tree, plan, &choices, words)] as u8);
            }
            Err(other) => panic!("{other:?}"),
        }
    }
}

// the sight where a hand stands after these choices
fn asked(tree: &Tree, plan: &[u32], choices: &[u8], words: &[u32]) -> usize {
    let (mut words, mut choices) = (words.iter(), choices.iter());
    let mut at = 0;
    loop {
        let weights = match tree.nodes[at].place {
            Place::Over { .. } => panic!("over"),
            Place::Deal { first } => &tree.deals[first as usize..],
            Place::House { sight } => &plan[tree.house.first[sight as usize] as usize..],
            Place::Guest { sight } => {
                let Some(&choice) = choices.next() else { return sight.into() };
                at += 1;
                for _ in 0..choice {
                    at += tree.nodes[at].size as usize;
                }
                continue;
            }
        };
        let word = *words.next().unwrap();
        let mut below = weights[0];
        let mut choice = 0;
        at += 1;
        while word >= below {
            at += tree.nodes[at].size as usize;
            choice += 1;
            below += weights[choice];
        }
    }
}

#[test]
fn worst_is_met_by_hands() {
    let sheet = Sheet::read(&[2, 1, 0, 1, 2, 1, 1, 1, 0]).unwrap();
    let mut chance = Chance(2);
    let tree = Tree::build(&sheet, 4);
    for tree in [tree.turned(), tree] {
        let n = tree.house.words;
        for _ in 0..3 {
            let plan = some_plan(&tree, &mut chance);
            let mut least = u64::MAX;
            each_way(&tree, |way| {
                let rows = 0..u64::from(tree.m).pow(n);
                let kept = rows.map(|row| {
                    let words: Vec<u32> = (0..n).map(|i| (row / u64::from(tree.m).pow(i)) as u32 % tree.m).collect();
                    u64::from(by_way(&tree, &plan, way, &words))
                });
                least = least.min(kept.sum());
            });
            assert_eq!(worst(&tree, &plan, &mut Memory::default()), least);
        }
    }
}
