//! Published figures of Kuhn poker and Leduc poker, and figures of larger games.
use plain::{together, worst, Memory, Sheet, Tree};

fn tree(bytes: [u8; 9], m: u32) -> Tree {
    let sheet = Sheet::read(&bytes).unwrap();
    sheet.check_places(plain::MOST_PLACES).unwrap();
    sheet.check_words(m).unwrap();
    Tree::build(&sheet, m)
}

fn equal(tree: &Tree) -> (u64, u64) {
    let plan = tree.house.equal_weights(tree.m);
    (worst(tree, &plan, &mut Memory::default()), tree.hands().unwrap())
}

#[test]
fn equal_weights_lose() {
    for (bytes, m, part, whole) in
        [([3, 1, 0, 1, 1, 1, 0, 0, 0], 18, 11, 12), ([3, 2, 1, 1, 2, 4, 1, 0, 0], 60, 1709, 360)]
    {
        let tree = tree(bytes, m);
        let (gap, hands) = together(tree.table, equal(&tree), equal(&tree.turned()));
        assert_eq!(gap * whole, hands * part);
    }
}

#[test]
fn large_games() {
    for (bytes, m, places, kept) in [
        ([13, 1, 1, 1, 1, 1, 0, 1, 0], 1716, 47_750, 29_186_582_493_758_976),
        ([8, 1, 1, 1, 1, 1, 2, 1, 0], 168, 50_577, 19_994_947_164_831_744),
    ] {
        let tree = tree(bytes, m);
        assert_eq!(tree.nodes.len(), places);
        assert_eq!(equal(&tree).0, kept);
    }
}

// every rule sheet: the places counted are the places built, and turning twice changes nothing
#[test]
fn all_sheets() {
    let mut built = 0;
    for ranks in 2..=13 {
        for copies in 1..=4 {
            for public in 0..=1 {
                for raises in 0..=3 {
                    for begins in 0..=1 {
                        let bytes = [ranks, copies, public, 2, 3, 5, raises, begins, 0];
                        let Ok(sheet) = Sheet::read(&bytes) else { continue };
                        if sheet.check_places(plain::MOST_PLACES).is_err() {
                            continue;
                        }
                        let cards = sheet.cards() as u32;
                        let tree = Tree::build(&sheet, cards * (cards - 1) * (cards - 2).max(1));
                        assert_eq!(tree.nodes.len(), sheet.places());
                        assert_eq!(tree.nodes[0].size as usize, tree.nodes.len());
                        assert_eq!(tree.house.sights(), tree.guest.sights());
                        assert_eq!(tree, tree.turned().turned());
                        built += 1;
                    }
                }
            }
        }
    }
    assert!(built > 300);
}
