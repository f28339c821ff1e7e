//! The tree of a rule sheet.

use crate::{refuse, Player, Refusal, Sheet};

/// A place of the tree. A tree has at most 65,536 places, so all numbers here fit 16 bits.
#[derive(Clone, Copy, Debug, PartialEq, Eq)]
pub enum Place {
    /// The hand is over, and the house has so much.
    Over { house: u16 },
    /// A card is dealt; the weights begin there in the tree's `deals`.
    Deal { first: u16 },
    /// The house is to choose.
    House { sight: u16 },
    /// The guest is to choose.
    Guest { sight: u16 },
}

/// A place and the number of places from it down, itself counted. Its first tree begins right after it, each further
/// one right after the tree before.
#[derive(Clone, Copy, Debug, PartialEq, Eq)]
pub struct Node {
    pub place: Place,
    pub size: u32,
}

/// What a player's chair has.
#[derive(Clone, Debug, PartialEq, Eq)]
pub struct Chair {
    /// Where the weights of each sight begin in a plan, and at the end how many weights there are.
    pub first: Vec<u32>,
    /// The largest number of deals and choices of the player on a path through the tree.
    pub words: u32,
}

impl Chair {
    pub fn sights(&self) -> usize {
        self.first.len() - 1
    }

    /// How many weights a plan has.
    pub fn weights(&self) -> usize {
        self.first[self.sights()] as usize
    }

    /// How many choices there are at a sight.
    pub fn choices(&self, sight: usize) -> u32 {
        self.first[sight + 1] - self.first[sight]
    }

    /// The plan that weighs all choices of a sight the same. Any rest of the division goes to the first choice.
    pub fn equal_weights(&self, m: u32) -> Vec<u32> {
        let mut plan = Vec::with_capacity(self.weights());
        for sight in 0..self.sights() {
            let choices = self.choices(sight);
            plan.push(m / choices + m % choices);
            plan.extend((1..choices).map(|_| m / choices));
        }
        plan
    }
}

#[derive(Clone, Debug, PartialEq, Eq)]
pub struct Tree {
    /// All places, each before its trees, and trees in order.
    pub nodes: Vec<Node>,
    /// The weights of all deals.
    pub deals: Vec<u32>,
    pub house: Chair,
    pub guest: Chair,
    /// 2T, the tokens on the table.
    pub table: u32,
    pub m: u32,
}

impl Tree {
    /// The tree of a rule sheet with at most 65,536 places, for an m that can be shared out at each deal.
    pub fn build(sheet: &Sheet, m: u32) -> Tree {
        let mut builder = Builder {
            sheet,
            m,
            purse: sheet.purse(),
            nodes: Vec::with_capacity(sheet.places()),
            deals: Vec::new(),
            left: [0; 13],
            seats: [Seat::new(sheet), Seat::new(sheet)],
        };
        builder.left[..sheet.ranks].fill(sheet.copies as u32);
        builder.whole();
        let [house, guest] = builder.seats.map(Seat::chair);
        Tree { nodes: builder.nodes, deals: builder.deals, house, guest, table: 2 * sheet.purse(), m }
    }

    /// The tree from the other chair.
    pub fn turned(&self) -> Tree {
        let turn = |node: &Node| Node {
            place: match node.place {
                Place::Over { house } => Place::Over { house: self.table as u16 - house },
                Place::Deal { first } => Place::Deal { first },
                Place::House { sight } => Place::Guest { sight },
                Place::Guest { sight } => Place::House { sight },
            },
            size: node.size,
        };
        Tree {
            nodes: self.nodes.iter().map(turn).collect(),
            deals: self.deals.clone(),
            house: self.guest.clone(),
            guest: self.house.clone(),
            table: self.table,
            m: self.m,
        }
    }

    /// m^n, in how many hands the worst is reckoned. Turned away where 2T times as many is 2^62 or more.
    pub fn hands(&self) -> Result<u64, Refusal> {
        let mut all = u128::from(self.table);
        for _ in 0..self.house.words {
            all *= u128::from(self.m);
            if all >= 1 << 62 {
                return refuse(6, 0);
            }
        }
        Ok((all / u128::from(self.table)) as u64)
    }
}

const NONE: u16 = u16::MAX;

// what is known of a player while the tree is built
struct Seat {
    // the number of each sight that was met, by rank, shown card, ending of the first round and spot
    numbers: Vec<u16>,
    first: Vec<u32>,
    weights: u32,
    words: u32,
}

impl Seat {
    fn new(sheet: &Sheet) -> Seat {
        let second = if sheet.public { sheet.endings() * sheet.ranks } else { 0 };
        let keys = sheet.ranks * (1 + second) * sheet.spots();
        Seat { numbers: vec![NONE; keys], first: Vec::with_capacity(keys / 2 + 1), weights: 0, words: 0 }
    }

    fn number(&mut self, key: usize, choices: u32) -> u16 {
        let known = self.numbers[key];
        if known != NONE {
            return known;
        }
        let new = self.first.len() as u16;
        self.numbers[key] = new;
        self.first.push(self.weights);
        self.weights += choices;
        new
    }

    fn chair(mut self) -> Chair {
        self.first.push(self.weights);
        Chair { first: self.first, words: self.words }
    }
}

// a hand in play
#[derive(Clone, Copy)]
struct Hand {
    ranks: [usize; 2],
    paid: [u32; 2],
    // the deals and the choices of each player so far
    words: [u32; 2],
    // where the keys of this round's sights begin, for each player
    keys: [usize; 2],
    // the public card's rank
    shown: Option<usize>,
    // where the weights of the public card's deal begin
    last_deal: u16,
}

struct Builder<'a> {
    sheet: &'a Sheet,
    m: u32,
    purse: u32,
    nodes: Vec<Node>,
    deals: Vec<u32>,
    // how many cards of each rank are left
    left: [u32; 13],
    seats: [Seat; 2],
}

impl Builder<'_> {
    // Opens a place; its size is known when it is closed.
    fn open(&mut self, place: Place) -> usize {
        self.nodes.push(Node { place, size: 0 });
        self.nodes.len() - 1
    }

    fn close(&mut self, at: usize) {
        self.nodes[at].size = (self.nodes.len() - at) as u32;
    }

    fn over(&mut self, house: u32, hand: &Hand) {
        self.nodes.push(Node { place: Place::Over { house: house as u16 }, size: 1 });
        for (seat, words) in self.seats.iter_mut().zip(hand.words) {
            seat.words = seat.words.max(words);
        }
    }

    fn turn(&mut self, player: Player, spot: usize, choices: u32, hand: &mut Hand) -> usize {
        let who = player as usize;
        let sight = self.seats[who].number(hand.keys[who] + spot, choices);
        hand.words[who] += 1;
        self.open(match player {
            Player::House => Place::House { sight },
            Player::Guest => Place::Guest { sight },
        })
    }

    // Writes down the weights of a deal after `gone` cards; gives where they begin.
    fn weigh(&mut self, gone: usize) -> u16 {
        let first = self.deals.len() as u16;
        let each = self.m / (self.sheet.cards() - gone) as u32;
        let left = &self.left[..self.sheet.ranks];
        self.deals.extend(left.iter().filter(|&&copies| copies > 0).map(|copies| each * copies));
        first
    }

    // The two hidden cards are dealt.
    fn whole(&mut self) {
        let ranks = self.sheet.ranks;
        let spots = self.sheet.spots();
        let first = self.weigh(0);
        let top = self.open(Place::Deal { first });
        for house in 0..ranks {
            self.left[house] -= 1;
            let first = self.weigh(1);
            let second = self.open(Place::Deal { first });
            for guest in 0..ranks {
                if self.left[guest] == 0 {
                    continue;
                }
                self.left[guest] -= 1;
                let last_deal = if self.sheet.public { self.weigh(2) } else { 0 };
                self.round(Hand {
                    ranks: [house, guest],
                    paid: [self.sheet.ante; 2],
                    words: [2; 2],
                    keys: [house * spots, guest * spots],
                    shown: None,
                    last_deal,
                });
                self.left[guest] += 1;
            }
            self.close(second);
            self.left[house] += 1;
        }
        self.close(top);
    }

    // A round from its start.
    fn round(&mut self, mut hand: Hand) {
        let begins = self.sheet.begins;
        let start = self.turn(begins, 0, 2, &mut hand);
        self.checked(begins.other(), hand);
        self.bet(begins, 0, hand);
        self.close(start);
    }

    // After one check.
    fn checked(&mut self, player: Player, mut hand: Hand) {
        let here = self.turn(player, 1, 2, &mut hand);
        self.ended(0, hand);
        self.bet(player, 1, hand);
        self.close(here);
    }

    // A player bets; `checks` is 1 if the other had checked.
    fn bet(&mut self, player: Player, checks: usize, mut hand: Hand) {
        hand.paid[player as usize] += self.sheet.bets[usize::from(hand.shown.is_some())];
        self.answer(player.other(), checks, 0, hand);
    }

    // A player answers a bet or a raise: folds, calls, or raises.
    fn answer(&mut self, player: Player, checks: usize, raises: usize, mut hand: Hand) {
        let who = player as usize;
        let step = checks * (self.sheet.raises + 1) + raises;
        let may_raise = raises < self.sheet.raises;
        let here = self.turn(player, 2 + step, if may_raise { 3 } else { 2 }, &mut hand);
        let house = match player {
            Player::House => self.purse - hand.paid[0],
            Player::Guest => self.purse + hand.paid[1],
        };
        self.over(house, &hand);
        hand.paid[who] = hand.paid[1 - who];
        self.ended(1 + step, hand);
        if may_raise {
            hand.paid[who] += self.sheet.bets[usize::from(hand.shown.is_some())];
            self.answer(player.other(), checks, raises + 1, hand);
        }
        self.close(here);
    }

    // A round ended without a fold: the public card is shown, or the hand is over.
    fn ended(&mut self, ending: usize, hand: Hand) {
        if self.sheet.public && hand.shown.is_none() {
            self.show(ending, hand);
            return;
        }
        let put_in = hand.paid[0];
        let [house, guest] = hand.ranks.map(|rank| (Some(rank) == hand.shown, rank));
        let has = match house.cmp(&guest) {
            std::cmp::Ordering::Greater => self.purse + put_in,
            std::cmp::Ordering::Less => self.purse - put_in,
            std::cmp::Ordering::Equal => self.purse,
        };
        self.over(has, &hand);
    }

    // The public card, and the second round.
    fn show(&mut self, ending: usize, mut hand: Hand) {
        let ranks = self.sheet.ranks;
        let spots = self.sheet.spots();
        let deal = self.open(Place::Deal { first: hand.last_deal });
        hand.words = hand.words.map(|words| words + 1);
        for shown in 0..ranks {
            let gone = hand.ranks.iter().filter(|&&rank| rank == shown).count();
            if self.sheet.copies > gone {
                hand.shown = Some(shown);
                // the keys of the first round take one row of spots for each rank
                hand.keys =
                    hand.ranks.map(|own| (ranks + (own * self.sheet.endings() + ending) * ranks + shown) * spots);
                self.round(hand);
            }
        }
        self.close(deal);
    }
}
