//! The files of the programs, and what they print.

use std::fmt::Write;

use crate::{refuse, together, worst, Chair, Memory, Place, Refusal, Sheet, Tree, ROOM};

fn number(bytes: &[u8]) -> u32 {
    u32::from_le_bytes([bytes[0], bytes[1], bytes[2], bytes[3]])
}

/// A plan of exactly these bytes.
pub fn read_plan(bytes: &[u8], chair: &Chair, m: u32) -> Result<Vec<u32>, Refusal> {
    if bytes.len() != 4 * chair.weights() {
        return refuse(7, bytes.len());
    }
    let plan: Vec<u32> = bytes.chunks_exact(4).map(number).collect();
    for sight in 0..chair.sights() {
        let weights = &plan[chair.first[sight] as usize..chair.first[sight + 1] as usize];
        if weights.iter().map(|&weight| u64::from(weight)).sum::<u64>() != u64::from(m) {
            return refuse(8, sight);
        }
    }
    Ok(plan)
}

/// What each file begins with: a rule sheet, m and a plan; and what follows.
pub struct Start<'a> {
    pub tree: Tree,
    pub hands: u64,
    pub plan: Vec<u32>,
    pub rest: &'a [u8],
}

pub fn read_file(bytes: &[u8], room: usize) -> Result<Start<'_>, Refusal> {
    let (sheet, bytes) = bytes.split_at(bytes.len().min(9));
    let sheet = Sheet::read(sheet)?;
    sheet.check_places(room)?;
    if bytes.len() < 4 {
        return refuse(4, 0);
    }
    let (m, bytes) = bytes.split_at(4);
    let m = number(m);
    sheet.check_words(m)?;
    let tree = Tree::build(&sheet, m);
    let hands = tree.hands()?;
    let (plan, rest) = bytes.split_at(bytes.len().min(4 * tree.house.weights()));
    let plan = read_plan(plan, &tree.house, m)?;
    Ok(Start { tree, hands, plan, rest })
}

fn refusal_text(refusal: Refusal) -> String {
    format!("refused {} at {}\n", refusal.number, refusal.place)
}

/// What `reckon` prints for a file.
pub fn reckon_text(bytes: &[u8]) -> String {
    reckoned(bytes).unwrap_or_else(refusal_text)
}

fn reckoned(bytes: &[u8]) -> Result<String, Refusal> {
    let Start { tree, hands, plan, rest } = read_file(bytes, ROOM)?;
    let mut memory = Memory::default();
    let kept = worst(&tree, &plan, &mut memory);
    let mut text = format!(
        "places {} sights {} and {} words {} table {}\nworst {kept} of {hands}\n",
        tree.nodes.len(),
        tree.house.sights(),
        tree.guest.sights(),
        tree.house.words,
        tree.table
    );
    if !rest.is_empty() {
        let turned = tree.turned();
        let hands_too = turned.hands()?;
        let plan_too = read_plan(rest, &turned.house, turned.m)?;
        let kept_too = worst(&turned, &plan_too, &mut memory);
        let (gap, _) = together(tree.table, (kept, hands), (kept_too, hands_too));
        let verdict = if gap == 0 { "best" } else { "open" };
        let _ = write!(text, "worst {kept_too} of {hands_too}\n{verdict}\n");
    }
    Ok(text)
}

// the weight that a word falls into, where they are laid end to end; they sum to more than the word
fn falls(weights: &[u32], mut word: u32) -> usize {
    let mut at = 0;
    while word >= weights[at] {
        word -= weights[at];
        at += 1;
    }
    at
}

/// What the house has after a hand.
pub fn play_hand(tree: &Tree, plan: &[u32], choices: &[u8], words: &[u32]) -> Result<u32, Refusal> {
    let mut at = 0;
    let mut chosen = 0;
    let mut used = 0;
    loop {
        let weights = match tree.nodes[at].place {
            Place::Over { house } => return Ok(house.into()),
            Place::Deal { first } => Some(&tree.deals[first as usize..]),
            Place::House { sight } => Some(&plan[tree.house.first[sight as usize] as usize..]),
            Place::Guest { .. } => None,
        };
        let choice = match weights {
            Some(weights) => {
                let Some(&word) = words.get(used) else { return refuse(10, words.len()) };
                if word >= tree.m {
                    return refuse(9, used);
                }
                used += 1;
                falls(weights, word)
            }
            None => {
                let Some(&choice) = choices.get(chosen) else { return refuse(12, choices.len()) };
                chosen += 1;
                choice.into()
            }
        };
        let end = at + tree.nodes[at].size as usize;
        at += 1;
        for _ in 0..choice {
            at += tree.nodes[at].size as usize;
            if at == end {
                return refuse(11, chosen - 1);
            }
        }
    }
}

/// What `play` prints for a file.
pub fn play_text(bytes: &[u8]) -> String {
    played(bytes).unwrap_or_else(refusal_text)
}

fn played(bytes: &[u8]) -> Result<String, Refusal> {
    let Start { tree, plan, mut rest, .. } = read_file(bytes, ROOM)?;
    let mut text = String::new();
    while !rest.is_empty() {
        let choices = take_counted(&mut rest, 1);
        let words: Vec<u32> = take_counted(&mut rest, 4).chunks_exact(4).map(number).collect();
        match play_hand(&tree, &plan, choices, &words) {
            Ok(house) => {
                let _ = writeln!(text, "house {house} guest {}", tree.table - house);
            }
            Err(refusal) => text.push_str(&refusal_text(refusal)),
        }
    }
    Ok(text)
}

// A count, 0 where it is missing, and after it so many things of some bytes each, or what there is of them.
fn take_counted<'a>(rest: &mut &'a [u8], bytes_each: usize) -> &'a [u8] {
    let Some((&count, after)) = rest.split_first() else { return &[] };
    let (taken, after) = after.split_at(after.len().min(usize::from(count) * bytes_each));
    *rest = after;
    taken
}
