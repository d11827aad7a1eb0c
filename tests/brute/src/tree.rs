//! Shares as plain trees: folding, height, leaves, join and text.

#[derive(Clone, Debug, PartialEq, Eq, Hash)]
pub enum Tree {
    Empty,
    Full,
    Pair(Box<Tree>, Box<Tree>),
}

/// The height at which constants stand in a question: 32 leaves.
pub const CONSTANT_HEIGHT: u32 = 5;
/// The height at which a shown row stands: 1,024 leaves.
pub const ROW_HEIGHT: u32 = 10;

impl Tree {
    pub fn leaf(full: bool) -> Tree {
        if full {
            Tree::Full
        } else {
            Tree::Empty
        }
    }

    /// A pair, folded where both halves are the same leaf.
    pub fn pair(left: Tree, right: Tree) -> Tree {
        match (&left, &right) {
            (Tree::Empty, Tree::Empty) => Tree::Empty,
            (Tree::Full, Tree::Full) => Tree::Full,
            _ => Tree::Pair(Box::new(left), Box::new(right)),
        }
    }

    /// The folded tree with these leaves; their number is a power of two.
    pub fn from_leaves(leaves: &[bool]) -> Tree {
        if let [only] = leaves {
            return Tree::leaf(*only);
        }
        let (left, right) = leaves.split_at(leaves.len() / 2);
        Tree::pair(Tree::from_leaves(left), Tree::from_leaves(right))
    }

    pub fn height(&self) -> u32 {
        match self {
            Tree::Empty | Tree::Full => 0,
            Tree::Pair(left, right) => 1 + left.height().max(right.height()),
        }
    }

    /// Unfolded to a height, unless it is taller.
    pub fn unfolded(&self, height: u32) -> Option<Vec<bool>> {
        (self.height() <= height).then(|| self.leaves(height))
    }

    /// Unfolded to a height that is no less than the tree's own.
    pub fn leaves(&self, height: u32) -> Vec<bool> {
        match self {
            Tree::Empty => vec![false; 1 << height],
            Tree::Full => vec![true; 1 << height],
            Tree::Pair(left, right) => {
                let mut leaves = left.leaves(height - 1);
                leaves.extend(right.leaves(height - 1));
                leaves
            }
        }
    }

    /// Both unfolded to one height and joined leaf by leaf; undefined where two full leaves meet.
    pub fn join(&self, other: &Tree) -> Option<Tree> {
        let height = self.height().max(other.height());
        let mut joined = Vec::new();
        for (a, b) in self.leaves(height).into_iter().zip(other.leaves(height)) {
            joined.push(join_leaves(a, b)?);
        }
        Some(Tree::from_leaves(&joined))
    }

    pub fn text(&self) -> String {
        match self {
            Tree::Empty => "o".to_string(),
            Tree::Full => "*".to_string(),
            Tree::Pair(left, right) => format!("({}{})", left.text(), right.text()),
        }
    }
}

pub fn join_leaves(a: bool, b: bool) -> Option<bool> {
    match (a, b) {
        (false, false) => Some(false),
        (false, true) | (true, false) => Some(true),
        (true, true) => None,
    }
}

/// Leaf i is bit i mod 8, lowest first, of byte i div 8.
pub fn leaves_of_bytes(bytes: &[u8]) -> Vec<bool> {
    let mut leaves = Vec::new();
    for byte in bytes {
        for bit in 0..8 {
            leaves.push((byte >> bit) % 2 == 1);
        }
    }
    leaves
}

pub fn bytes_of_leaves(leaves: &[bool]) -> Vec<u8> {
    let mut bytes = vec![0; leaves.len() / 8];
    for (i, full) in leaves.iter().enumerate() {
        if *full {
            bytes[i / 8] |= 1 << (i % 8);
        }
    }
    bytes
}

/// A constant as a number: leaf i at bit i.
pub fn tree_of_number(number: u32) -> Tree {
    Tree::from_leaves(&leaves_of_bytes(&number.to_le_bytes()))
}

pub fn number_of_tree(tree: &Tree) -> u32 {
    let bytes = bytes_of_leaves(&tree.leaves(CONSTANT_HEIGHT));
    u32::from_le_bytes([bytes[0], bytes[1], bytes[2], bytes[3]])
}

pub fn tree_of_row(row: &[u8]) -> Tree {
    Tree::from_leaves(&leaves_of_bytes(row))
}

pub fn row_of_tree(tree: &Tree) -> Vec<u8> {
    bytes_of_leaves(&tree.leaves(ROW_HEIGHT))
}

/// The least k with n ≤ 2^k.
pub fn splits(n: usize) -> u32 {
    let mut k = 0;
    while n > 1 << k {
        k += 1;
    }
    k
}
