"""Shares as tree text and as leaves: 32 of a constant, 1,024 of a row.

Tree text is 'o' (empty), '*' (full) or '(' left right ')', always folded. The leaves are a number, leaf i at bit i.
"""

import re

from front_end.files import quote

TALLEST = 5  # of a constant
TALLEST_ROW = 10  # of a row, the share of a variable
NOT_TREE_TEXT, NOT_FOLDED, TOO_TALL = 15, 16, 17  # refusal numbers, told in this order
FOLDABLE = re.compile(r"\(([o*])\1\)")  # a pair of two equal leaves


class TreeFault(Exception):
    """What is wrong with a tree text: the refusal number, at which of its characters, and in words."""

    def __init__(self, number, at, what):
        super().__init__(what)
        self.number = number
        self.at = at
        self.what = what


def no_tree_text(at, what):
    return TreeFault(NOT_TREE_TEXT, at, f"no tree text: {what}")


def longest(tallest=TALLEST):
    """The most characters that the text of a folded tree has: 2^tallest leaves, and two brackets for each pair."""
    return 3 * (1 << tallest) - 2


def read_tree(text, tallest=TALLEST):
    """The 2^tallest leaves of a tree text. Faults of its form come first, its length among them, then a pair that could be folded, then the
    height. All characters before a fault of the form are single bytes, so they are counted as bytes are."""
    pairs = []  # of each pair that is not closed yet: how many halves it has so far
    tall = None
    leaves = next_leaf = 0
    most = longest(tallest)
    for at, sign in enumerate(text):
        if at > 0 and not pairs:
            raise no_tree_text(at, "the tree ends before this character")
        if at == most:
            raise no_tree_text(at, f"it is too long: a folded tree with at most {tallest} pairs one in the other has at most {at:,} characters")
        wants_half = not pairs or pairs[-1] < 2
        if sign not in ("(o*" if wants_half else ")"):
            due = "'(', 'o' or '*'" if wants_half else "')'"
            raise no_tree_text(at, f"{due} is due here, not {quote(sign)}")
        if sign == "(":
            pairs.append(0)
            if len(pairs) > tallest and tall is None:
                tall = at
            continue
        if sign == ")":
            pairs.pop()
        else:
            width = (1 << tallest) >> len(pairs)
            if sign == "*":
                leaves |= ((1 << width) - 1) << next_leaf
            next_leaf += width
        if pairs:
            pairs[-1] += 1
    if pairs or not text:
        raise no_tree_text(len(text), "it ends before the tree does")
    unfolded = FOLDABLE.search(text)
    if unfolded:
        pair, leaf = unfolded.group(0, 1)
        raise TreeFault(NOT_FOLDED, unfolded.start(), f"a pair of two equal leaves must be folded: write '{leaf}' for '{pair}'")
    if tall is not None:
        raise TreeFault(TOO_TALL, tall, f"the tree is too tall: at most {tallest} pairs may stand one in the other")
    return leaves


def write_tree(leaves, height=TALLEST):
    """The tree text of 2^height leaves."""
    if height == 0:
        return "*" if leaves else "o"
    half = 1 << (height - 1)
    left = write_tree(leaves & ((1 << half) - 1), height - 1)
    right = write_tree(leaves >> half, height - 1)
    if left == right and len(left) == 1:
        return left
    return f"({left}{right})"


def unfold(leaves):
    """The leaves of a constant, unfolded to those of a row."""
    return read_tree(write_tree(leaves), TALLEST_ROW)


def join(a, b):
    """The join of two shares, all leaves at once: None, undefined, exactly if some leaf is full in both, and otherwise their sum."""
    return None if a & b else a + b
