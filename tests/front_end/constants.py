"""Tests of constants, from tree text and joined: what the front end makes of them against the library's calls."""

from collections import Counter
from itertools import product
from random import Random

import make
from front_end.trees import TreeFault, join, longest, read_tree, write_tree
from harness import check, library_joins, library_reads

SIGNS = b"o*()x"
FULL, UNDEFINED = (1 << 32) - 1, 1 << 32  # the full share; what the library gives for a join that is undefined
DAMAGE = SIGNS + b"o*() O\n\0\xc3\xa4\xff"  # among them the two bytes of a letter, and one that is no text


def front_end_reads(text):
    """What the call is to give for a text: its leaves, or the refusal number in byte 4."""
    try:
        return read_tree(text.decode("utf-8", "surrogateescape"))
    except TreeFault as fault:
        return fault.number << 32


def compare(texts):
    """Front end and library read each text alike, and what they read is written so. Gives the refusal numbers that were seen, 0 for none."""
    texts = list(dict.fromkeys(texts))
    seen = set()
    for text, given in zip(texts, library_reads(texts)):
        check(f"{text[:200]!r} read", front_end_reads(text), given)
        seen.add(given >> 32)
        if given >> 32 == 0:
            check(f"{text!r} read and written", write_tree(given).encode(), text)
    return seen


def test_short_texts():
    """Every text of up to 7 signs."""
    seen = compare(bytes(signs) for length in range(8) for signs in product(SIGNS, repeat=length))
    check("short texts are read and refused", seen, {0, 15, 16})


def random_tree(random, leaves, lean):
    """The text of a folded tree with so many leaves. lean is how often a half is a leaf: never in the lowest trees, always in the tallest."""
    if leaves == 1:
        return random.choice([b"o", b"*"])
    if leaves == 2:
        return random.choice([b"(o*)", b"(*o)"])
    few = 1 if random.random() < lean else leaves // 2
    left = random.choice([few, leaves - few])
    return b"(%b%b)" % (random_tree(random, left, lean), random_tree(random, leaves - left, lean))


def unfolded(random, text):
    """A tree text with a pair in the place of a leaf."""
    at = random.choice([at for at, sign in enumerate(text) if sign in b"o*"])
    return b"%b(%b)%b" % (text[:at], text[at:at + 1] * 2, text[at + 1:])


def test_trees():
    """Trees with up to 36 leaves and of every height up to 35, folded and not, and what is left of them after some damage."""
    random = Random(17)
    texts = []
    for leaves, lean, _ in product(range(1, 37), (0, 0.2, 0.5, 0.8, 1), range(3)):
        tree = random_tree(random, leaves, lean)
        texts += [tree, unfolded(random, tree), *(make.damaged(random, tree, DAMAGE) for _ in range(4))]
    check("trees are read and refused for every reason", compare(texts), {0, 15, 16, 17})


def test_lengths():
    """Texts that are nearly too long, and such whose length is that of a tree text if it is read as 8 or 16 bits."""
    tree = random_tree(Random(18), 32, 0)
    check("the longest tree text", (len(tree), longest()), (94, 94))
    texts = [tree[:length].ljust(length, bytes([sign])) for length in range(90, 100) for sign in SIGNS]
    texts += [text.ljust(len(text) + (1 << bits), bytes([sign])) for text in (b"(o*)", tree) for bits in (8, 16) for sign in SIGNS]
    check("lengths are taken and refused", compare(texts), {0, 15})


def test_written():
    """Each constant, written by the front end and read by the library, is itself."""
    random = Random(19)
    constants = [make.random_leaves(random) for _ in range(300)] + [random.getrandbits(32) for _ in range(300)]
    for leaves, given in zip(constants, library_reads([write_tree(leaves).encode() for leaves in constants])):
        check(f"{leaves:08X} written and read", given, leaves)


def compare_joins(pairs):
    """Front end and library join the numbers of each pair alike, in either order. Gives how many joins were defined, and how many not."""
    pairs = [pair for a, b in pairs for pair in ((a, b), (b, a))]
    seen = Counter()
    for (a, b), given in zip(pairs, library_joins(pairs)):
        check(f"{a:08X} join {b:08X}", join(a, b), None if given == UNDEFINED else given)
        seen[given != UNDEFINED] += 1
    return seen[True], seen[False]


def test_low_joins():
    """Every pair of trees no taller than 2. Each of the 4 parts is full in one tree, in the other or in none if the join is defined."""
    trees = [sum(0xFF << 8 * part for part in range(4) if bits >> part & 1) for bits in range(16)]
    check("joins of low trees", compare_joins(product(trees, repeat=2)), (2 * 3**4, 2 * (16**2 - 3**4)))


def test_single_leaves():
    """At each leaf: two numbers that are full in common there and nowhere else, and the same with the leaf in one of them."""
    random = Random(20)
    for leaf in range(32):
        bit, mask = 1 << leaf, random.getrandbits(32)
        pairs = [(0, 0), (FULL ^ bit, 0), (random.getrandbits(32) & mask & ~bit, random.getrandbits(32) & ~mask & ~bit)]
        check(f"joins at leaf {leaf}, in one", compare_joins((a | bit, b) for a, b in pairs), (6, 0))
        check(f"joins at leaf {leaf}, in both", compare_joins((a | bit, b | bit) for a, b in pairs), (0, 6))


def test_random_joins():
    """Pairs of any numbers, nearly all of which are full in common somewhere, and pairs that are full in common nowhere."""
    random = Random(21)
    pairs = [(make.random_leaves(random), make.random_leaves(random)) for _ in range(500)]
    check("joins of any numbers are defined and undefined", min(compare_joins(pairs)) > 0, True)
    pairs = [(number & mask, number & ~mask) for number, mask in ((random.getrandbits(32), random.getrandbits(32)) for _ in range(500))]
    check("joins of numbers apart", compare_joins(pairs), (1000, 0))
