//! Reads tree text from the inside: a leaf sign is a tree, and `(`, two trees and `)` become a tree, until nothing can be put
//! together any more. It is a tree text if one tree is left.

use crate::tree::{number_of_tree, Tree, CONSTANT_HEIGHT};

/// The longest text that is read.
pub const LONGEST_READ: usize = 94;
/// A text has three signs for each pair, and one more.
pub const MOST_PAIRS: usize = (LONGEST_READ - 1) / 3;

pub const NOT_TREE_TEXT: u8 = 15;
pub const NOT_FOLDED: u8 = 16;
pub const TOO_TALL: u8 = 17;

/// A constant, or the refusal number.
pub type Read = Result<u32, u8>;

/// What is left of a text: signs that no tree has taken in, and trees.
enum Piece {
    Sign(u8),
    Tree(Tree),
}

fn piece(sign: &u8) -> Piece {
    match sign {
        b'o' => Piece::Tree(Tree::Empty),
        b'*' => Piece::Tree(Tree::Full),
        _ => Piece::Sign(*sign),
    }
}

/// The pair that four pieces are, not folded.
fn pair(pieces: &[Piece]) -> Option<Piece> {
    match pieces {
        [Piece::Sign(b'('), Piece::Tree(left), Piece::Tree(right), Piece::Sign(b')')] => {
            let (left, right) = (Box::new(left.clone()), Box::new(right.clone()));
            Some(Piece::Tree(Tree::Pair(left, right)))
        }
        _ => None,
    }
}

/// Where the first pair begins whose halves are trees, and that pair.
fn first_pair(pieces: &[Piece]) -> Option<(usize, Piece)> {
    let mut fours = pieces.windows(4).enumerate();
    fours.find_map(|(at, four)| Some((at, pair(four)?)))
}

/// The tree, folded or not, that is written so.
pub fn tree_of_text(text: &[u8]) -> Option<Tree> {
    let mut pieces: Vec<Piece> = text.iter().map(piece).collect();
    while let Some((at, tree)) = first_pair(&pieces) {
        pieces.splice(at..at + 4, [tree]);
    }
    match &pieces[..] {
        [Piece::Tree(tree)] => Some(tree.clone()),
        _ => None,
    }
}

/// Whether some pair of the tree could be folded.
pub fn could_be_folded(tree: &Tree) -> bool {
    let Tree::Pair(left, right) = tree else {
        return false;
    };
    let here = Tree::pair(Tree::clone(left), Tree::clone(right)) != *tree;
    here || could_be_folded(left) || could_be_folded(right)
}

/// What docs/SPEC.md says of a text in 6.5.1, 6.5.2, 7.1.16 to 7.1.18 and 7.3, a part for each of its words.
pub struct Words {
    pub longest: usize,
    pub tree: fn(&[u8]) -> Option<Tree>,
    pub could_be_folded: fn(&Tree) -> bool,
    pub is_taller: fn(&Tree) -> bool,
    /// The refusal numbers of no tree text, a pair that could be folded, and a tree that is too tall.
    pub numbers: [u8; 3],
    pub constant: fn(&Tree) -> u32,
}

pub const AS_WRITTEN: Words = Words {
    longest: LONGEST_READ,
    tree: tree_of_text,
    could_be_folded,
    is_taller: |tree| tree.height() > CONSTANT_HEIGHT,
    numbers: [NOT_TREE_TEXT, NOT_FOLDED, TOO_TALL],
    constant: number_of_tree,
};

impl Words {
    pub fn read(&self, text: &[u8]) -> Read {
        let [not_tree_text, not_folded, too_tall] = self.numbers;
        if text.len() > self.longest {
            return Err(not_tree_text);
        }
        let tree = (self.tree)(text).ok_or(not_tree_text)?;
        if (self.could_be_folded)(&tree) {
            Err(not_folded)
        } else if (self.is_taller)(&tree) {
            Err(too_tall)
        } else {
            Ok((self.constant)(&tree))
        }
    }
}

pub fn constant_of_text(text: &[u8]) -> Read {
    AS_WRITTEN.read(text)
}

/// The number that is given: the constant in the low 32 bits, the refusal number in byte 4.
pub fn packed(read: Read) -> u64 {
    read.map_or_else(|number| u64::from(number) << 32, u64::from)
}
