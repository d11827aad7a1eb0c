"""A broken clause: how it fails at a leaf of the rows, in words."""

from front_end.question import CLAUSES, CONSTANTS, EQUAL, JOIN, MAY_READ, MAY_WRITE, NO_JOIN, UNEQUAL, WITH
from front_end.trees import TALLEST, TALLEST_ROW, write_tree

LEAVES = 1 << TALLEST_ROW  # of a row
OVERLAP, SURPLUS, SHORTFALL = "overlap", "surplus", "shortfall"  # the ways in which a positive clause fails
SIDES = ["left", "right"]
VALUES = ["empty", "full"]

# How each positive clause reads as a join at a leaf, from the values of its terms: its parts and their sum. Shares that are held together may
# give any sum.
AS_JOIN = {
    JOIN: lambda a, b, c: (a, b, c),
    EQUAL: lambda a, b: (a, 0, b),
    MAY_WRITE: lambda a: (a, 0, 1),
    WITH: lambda a, b: (a, b, a | b),
}

# In which ways it can fail, and what each means for it (docs/FORMAT.md, "How a clause fails at a leaf").
WAYS = {
    (JOIN, OVERLAP): "both parts are full",
    (JOIN, SURPLUS): "just one part is full and the sum is empty",
    (JOIN, SHORTFALL): "both parts are empty and the sum is full",
    (EQUAL, SURPLUS): "the left side is full and the right side is empty",
    (EQUAL, SHORTFALL): "the left side is empty and the right side is full",
    (MAY_WRITE, SHORTFALL): "the share is empty",
    (WITH, OVERLAP): "both shares are full",
}

# What holds at every leaf where a disequation is broken.
NEGATED = {NO_JOIN: JOIN, UNEQUAL: EQUAL, MAY_READ: "{} is empty"}


def way_of(a, b, whole):
    """How the test of a join comes out at a leaf where its parts and their sum have these values: None where it holds."""
    if a and b:
        return OVERLAP
    return None if (a | b) == whole else SHORTFALL if whole else SURPLUS


def in_words(path):
    """A path in words, as far as its last step to the right: from there on all steps go to the left."""
    steps = list(path)
    while steps and steps[-1] == "left":
        steps.pop()
    rest = [] if len(steps) == len(path) else ["then always left"] if steps else ["always left"]
    return ", ".join(steps + rest)


class Broken:
    """A clause of the first system that rows break: its number and, if it is positive, the way in which it fails and the leftmost leaf where it
    does; for a disequation they are None."""

    def __init__(self, asked, rows, number, way, leaf):
        self.asked, self.rows = asked, rows
        self.number, self.way, self.leaf = number, way, leaf
        self.line, command, *self.terms = asked.first_system()[number]
        self.sort = CLAUSES[command]

    def fits(self):
        """Whether way and leaf are there exactly for a positive clause, and the values of its terms at the leaf give that way."""
        if self.sort.disequation or self.way is None:
            return self.sort.disequation and self.way is None
        return self.leaf < LEAVES and way_of(*AS_JOIN[self.sort.words](*map(self.value, self.terms))) == self.way

    def value(self, term):
        """The value of a term at the leaf."""
        if term >= CONSTANTS:
            return self.asked.question.constants[term - CONSTANTS] >> (self.leaf >> (TALLEST_ROW - TALLEST)) & 1
        return self.rows[term] >> self.leaf & 1

    def tree(self, term):
        """The tree text of a term."""
        return write_tree(self.asked.question.constants[term - CONSTANTS]) if term >= CONSTANTS else write_tree(self.rows[term], TALLEST_ROW)

    def words(self):
        return [self.asked.word(self.line, term) for term in self.terms]

    def shares(self):
        """The terms of the clause by their words, but for a sum that is told as the join of the very parts: where they overlap it is no share."""
        words = self.words()
        return {word: term for word, term in zip(words, self.terms) if len(words) < 3 or word != " join ".join(words[:2])}

    def values(self):
        """Whether each of these terms is full or empty at the leaf; None for a disequation."""
        return None if self.way is None else {word: VALUES[self.value(term)] for word, term in self.shares().items()}

    def path(self):
        """The steps from the root to the leaf, each to the left or to the right; None for a disequation."""
        return None if self.way is None else [SIDES[self.leaf >> level & 1] for level in reversed(range(TALLEST_ROW))]

    def plain(self):
        """What the judging program says of it."""
        return f"{self.number}" if self.way is None else f"{self.number} {self.way} at {self.leaf}"

    def sentences(self):
        """What is said of it, in words."""
        head = f"broken: clause {self.number}, line {self.line.number}: {self.line}"
        if self.way is None:
            return [head, f"at every leaf: {NEGATED[self.sort.words].format(*self.words())}"]
        values = ", ".join(f"{word} is {value}" for word, value in self.values().items())
        return [head, f"{self.way} ({WAYS[self.sort.words, self.way]}): {values}",
                f"at leaf {self.leaf:,} of {LEAVES:,}, the leftmost that fails: {in_words(self.path())}"]
