//! Rule sheets.

use crate::{refuse, Refusal, MOST_PLACES};

#[derive(Clone, Copy, Debug, PartialEq, Eq)]
pub enum Player {
    House = 0,
    Guest = 1,
}

impl Player {
    pub fn other(self) -> Player {
        match self {
            Player::House => Player::Guest,
            Player::Guest => Player::House,
        }
    }
}

#[derive(Clone, Debug)]
pub struct Sheet {
    pub ranks: usize,
    pub copies: usize,
    pub public: bool,
    pub ante: u32,
    /// The bets of the two rounds.
    pub bets: [u32; 2],
    pub raises: usize,
    pub begins: Player,
}

// the least and the greatest of each byte
const RANGES: [(u8, u8); 9] = [(2, 13), (1, 4), (0, 1), (1, 10), (1, 10), (1, 10), (0, 3), (0, 1), (0, 0)];

impl Sheet {
    pub fn read(bytes: &[u8]) -> Result<Sheet, Refusal> {
        if bytes.len() != 9 {
            return refuse(1, bytes.len());
        }
        for (at, (&byte, (least, most))) in bytes.iter().zip(RANGES).enumerate() {
            if byte < least || byte > most {
                return refuse(2, at);
            }
        }
        let sheet = Sheet {
            ranks: bytes[0].into(),
            copies: bytes[1].into(),
            public: bytes[2] == 1,
            ante: bytes[3].into(),
            bets: [bytes[4].into(), bytes[5].into()],
            raises: bytes[6].into(),
            begins: if bytes[7] == 0 { Player::House } else { Player::Guest },
        };
        if sheet.cards() < sheet.deals() {
            return refuse(2, 9);
        }
        Ok(sheet)
    }

    /// The cards of the deck.
    pub fn cards(&self) -> usize {
        self.ranks * self.copies
    }

    /// How many cards are dealt in a hand.
    pub fn deals(&self) -> usize {
        2 + usize::from(self.public)
    }

    /// T, what each player sits down with.
    pub fn purse(&self) -> u32 {
        let times = 1 + self.raises as u32;
        self.ante + self.bets[0] * times + if self.public { self.bets[1] * times } else { 0 }
    }

    /// In how many places of a round a player is to act: at the start, after a check, and after a bet and each raise
    /// in two ways, as the check was made or not.
    pub fn spots(&self) -> usize {
        2 + 2 * (self.raises + 1)
    }

    /// In how many ways a round can end without a fold: two checks, or a call of a bet or a raise.
    pub fn endings(&self) -> usize {
        1 + 2 * (self.raises + 1)
    }

    /// How many places the tree has, without building it.
    pub fn places(&self) -> usize {
        let acting = self.spots();
        let folds = 2 * (self.raises + 1);
        let endings = self.endings();
        let mut all = 1 + self.ranks;
        for house in 0..self.ranks {
            for guest in 0..self.ranks {
                if house == guest && self.copies == 1 {
                    continue;
                }
                let ending = if self.public {
                    let shown = (0..self.ranks).filter(|&rank| {
                        let gone = usize::from(rank == house) + usize::from(rank == guest);
                        self.copies > gone
                    });
                    1 + shown.count() * (acting + folds + endings)
                } else {
                    1
                };
                all += acting + folds + endings * ending;
            }
        }
        all
    }

    /// Turns away a tree with more places than there is room for, or more than any tree may have.
    pub fn check_places(&self, room: usize) -> Result<(), Refusal> {
        let places = self.places();
        if places > room {
            return refuse(13, 0);
        }
        if places > MOST_PLACES {
            return refuse(3, 0);
        }
        Ok(())
    }

    /// Turns away an m that is out of its range or can't be shared out at a deal.
    pub fn check_words(&self, m: u32) -> Result<(), Refusal> {
        if !(2..=1_000_000).contains(&m) {
            return refuse(4, 0);
        }
        for deal in 0..self.deals() {
            if !(m as usize).is_multiple_of(self.cards() - deal) {
                return refuse(5, deal);
            }
        }
        Ok(())
    }
}
