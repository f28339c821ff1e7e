//! Reads a rule sheet and m on standard input and writes them with the house's plan of equal weights: a file for `reckon`.
use std::io::{Read, Write};

use plain::{Sheet, Tree};

fn main() -> std::io::Result<()> {
    let mut bytes = Vec::new();
    std::io::stdin().read_to_end(&mut bytes)?;
    let sheet = Sheet::read(&bytes[..9]).expect("a rule sheet");
    let m = u32::from_le_bytes(bytes[9..13].try_into().expect("four bytes of m"));
    sheet.check_words(m).expect("m can be shared out");
    let plan = Tree::build(&sheet, m).house.equal_weights(m);
    bytes.truncate(13);
    bytes.extend(plan.into_iter().flat_map(u32::to_le_bytes));
    std::io::stdout().write_all(&bytes)
}
