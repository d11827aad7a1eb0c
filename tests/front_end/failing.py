"""Tests of how a positive clause fails at a leaf: what ask says, of every sort of clause and way, and of shares that are joined or named in several ways."""

import itertools
import json
from collections import Counter
from random import Random

import make
from front_end.question import read_question
from front_end.text import write_text
from front_end.trees import write_tree
from harness import check, library_judges
from judging import (ACCEPTED, EQUALS, JOINS, ROW, ROWS, SORTS, TALL, WITHS, WRITES, check_judged, fails, judged,
                     never, packed, way_at, way_down)

SIDES = ["left", "right"]


def leaf_tree(leaf):
    """The tree in which that leaf of 1,024 alone is full."""
    return write_tree(1 << leaf, 10)


# A question, rows, and what is said of them.
FAILING = [
    # Leaves at both ends and in between, with the whole path where it ends to the right.
    ("satisfiable\nfree a\na is o", f"a {TALL}", fails("0, line 3: a is o", EQUALS, "surplus", "a is full, o is empty", 0, "always left")),
    ("satisfiable\nfree a\na is o", f"a {leaf_tree(1)}",
     fails("0, line 3: a is o", EQUALS, "surplus", "a is full, o is empty", 1, "left, left, left, left, left, left, left, left, left, right")),
    ("satisfiable\nfree a b\na with b", f"a {leaf_tree(17)}\nb {leaf_tree(17)}",
     fails("0, line 3: a with b", WITHS, "overlap", "a is full, b is full", 17, "left, left, left, left, left, right, left, left, left, right")),
    ("satisfiable\nfree a b\na with b", f"a {leaf_tree(20)}\nb *",
     fails("0, line 3: a with b", WITHS, "overlap", "a is full, b is full", 20, "left, left, left, left, left, right, left, right, then always left")),
    ("satisfiable\nfree a\na may write", "a (((((((((*(*o))*)*)*)*)*)*)*)*)",
     fails("0, line 3: a may write", WRITES, "shortfall", "a is empty", 3, "left, left, left, left, left, left, left, left, right, right")),
    ("satisfiable\nfree a\na is o", f"a {leaf_tree(512)}", fails("0, line 3: a is o", EQUALS, "surplus", "a is full, o is empty", 512, "right, then always left")),
    ("satisfiable\nfree a\no is a", f"a {leaf_tree(1022)}",
     fails("0, line 3: o is a", EQUALS, "shortfall", "o is empty, a is full", 1022, "right, right, right, right, right, right, right, right, right, then always left")),
    ("satisfiable\nfree a\na is o", f"a {leaf_tree(1023)}",
     fails("0, line 3: a is o", EQUALS, "surplus", "a is full, o is empty", 1023, "right, right, right, right, right, right, right, right, right, right")),
    # The leftmost leaf counts, whatever happens to the right of it.
    ("satisfiable\nfree a b c\na join b is c", "a ((o*)*)\nb (o*)\nc (o*)",
     fails("0, line 3: a join b is c", JOINS, "surplus", "a is full, b is empty, c is empty", 256, "left, right, then always left")),
    ("satisfiable\nfree a b c\na join b is c", "a (o*)\nb (o*)\nc ((o*)*)",
     fails("0, line 3: a join b is c", JOINS, "shortfall", "a is empty, b is empty, c is full", 256, "left, right, then always left")),
    ("satisfiable\nfree a b c\na join b is c", "a (o*)\nb (o(o*))\nc (o*)",
     fails("0, line 3: a join b is c", JOINS, "overlap", "a is full, b is full, c is full", 768, "right, right, then always left")),
    ("satisfiable\nfree a b c\na join b is c", "a o\nb (*o)\nc o",
     fails("0, line 3: a join b is c", JOINS, "surplus", "a is empty, b is full, c is empty", 0, "always left")),
    ("satisfiable\nfree a b\na with b", "a (*(o*))\nb (o(o*))",
     fails("0, line 3: a with b", WITHS, "overlap", "a is full, b is full", 768, "right, right, then always left")),
    # The lowest clause counts, though another fails further to the left.
    ("satisfiable\nfree a b\na is (*o)\nb may write", "a (*(o*))\nb o",
     fails("0, line 3: a is (*o)", EQUALS, "surplus", "a is full, (*o) is empty", 768, "right, right, then always left")),
    # A share that stands twice is told once.
    ("satisfiable\nfree a b\na join a is b", "a (o*)\nb (o*)",
     fails("0, line 3: a join a is b", JOINS, "overlap", "a is full, b is full", 512, "right, then always left")),
    ("satisfiable\nfree a\na join a is a", "a *", fails("0, line 3: a join a is a", JOINS, "overlap", "a is full", 0, "always left")),
    # Constants as the line names them: by name, also where two have one tree, or by tree, also where that has a name.
    ("satisfiable\nfree a\nlet L = (*o)\nlet M = (*o)\na is M", "a o", fails("0, line 5: a is M", EQUALS, "shortfall", "a is empty, M is full", 0, "always left")),
    ("satisfiable\nfree a\nlet L = (*o)\na is (*o)", "a o", fails("0, line 4: a is (*o)", EQUALS, "shortfall", "a is empty, (*o) is full", 0, "always left")),
    ("satisfiable\nfree a\nlet L = (*o)\nlet R = (o*)\nL join a is L\na join L is R", "a o",
     fails("1, line 6: a join L is R", JOINS, "surplus", "a is empty, L is full, R is empty", 0, "always left")),
    # Where the line calls one share in two ways, by the first.
    ("satisfiable\nfree a\nlet L = (*o)\nL join a is (*o)", "a (*o)",
     fails("0, line 4: L join a is (*o)", JOINS, "overlap", "L is full, a is full", 0, "always left")),
    ("satisfiable\nfree a\nlet L = (*o)\n(*o) join a is L", "a (*(*o))",
     fails("0, line 4: (*o) join a is L", JOINS, "overlap", "(*o) is full, a is full", 0, "always left")),
    ("satisfiable\nfree may\nmay  may write # now", "may (*o)",
     fails("0, line 3: may may write", WRITES, "shortfall", "may is empty", 512, "right, then always left")),
    ("satisfiable\nlet W = ((*o)o) join (o*)\nW with ((o*)o)\nW may write", "",
     fails("1, line 4: W may write", WRITES, "shortfall", "W is empty", 256, "left, right, then always left")),
]
# The same, with joins inside a clause.
INSIDE = [
    # A join that is undefined fails where its parts overlap, also if one is full further to the left.
    ("satisfiable\nfree a b c d\na join b join c is d", "a *\nb (o*)\nc o\nd *",
     fails("0, line 3: a join b join c is d", JOINS, "overlap", "a is full, b is full", 512, "right, then always left")),
    ("satisfiable\nfree a b c d\na join b join c is d", "a (*o)\nb (o*)\nc (o(o*))\nd *",
     fails("1, line 3: a join b join c is d", JOINS, "overlap", "a join b is full, c is full, d is full", 768, "right, right, then always left")),
    ("satisfiable\nfree a b c d\na join b join c join d is *", "a ((*o)o)\nb ((o*)o)\nc (o(*o))\nd o",
     fails("2, line 3: a join b join c join d is *", JOINS, "shortfall", "a join b join c is empty, d is empty, * is full", 768,
           "right, right, then always left")),
    # Joins on both sides: the sum of the right one is told as the left one.
    ("satisfiable\nfree a b c d\na join b is c join d", "a *\nb o\nc (*o)\nd *",
     fails("1, line 3: a join b is c join d", JOINS, "overlap", "c is full, d is full, a join b is full", 0, "always left")),
    ("satisfiable\nfree a b c d\na join b is c join d", "a *\nb o\nc (*o)\nd o",
     fails("1, line 3: a join b is c join d", JOINS, "shortfall", "c is empty, d is empty, a join b is full", 512, "right, then always left")),
    ("satisfiable\nfree a b c d\na join b is c join d", "a o\nb o\nc (*o)\nd o",
     fails("1, line 3: a join b is c join d", JOINS, "surplus", "c is full, d is empty, a join b is empty", 0, "always left")),
    ("satisfiable\nfree a b c d\na join b is c join d join (o*)", "a *\nb o\nc (*o)\nd (o(o*))",
     fails("2, line 3: a join b is c join d join (o*)", JOINS, "overlap", "c join d is full, (o*) is full, a join b is full", 768,
           "right, right, then always left")),
    # Before 'may' and round 'with'.
    ("satisfiable\nfree a b\na join b may write", "a (*o)\nb (o(*o))",
     fails("1, line 3: a join b may write", WRITES, "shortfall", "a join b is empty", 768, "right, right, then always left")),
    ("satisfiable\nfree a b\na join b may write", "a *\nb (o*)",
     fails("0, line 3: a join b may write", JOINS, "overlap", "a is full, b is full", 512, "right, then always left")),
    ("satisfiable\nfree a b c\na join b with c", "a (*o)\nb (o(*o))\nc (o*)",
     fails("1, line 3: a join b with c", WITHS, "overlap", "a join b is full, c is full", 512, "right, then always left")),
    ("satisfiable\nfree a b c d\na join b with c join d", "a (*o)\nb o\nc (o*)\nd (o(o*))",
     fails("1, line 3: a join b with c join d", JOINS, "overlap", "c is full, d is full", 768, "right, right, then always left")),
    ("satisfiable\nfree a b\na join b with a join b", "a (o*)\nb o",
     fails("2, line 3: a join b with a join b", WITHS, "overlap", "a join b is full", 512, "right, then always left")),
    # Behind clauses of the second system that have joins inside too, and own variables.
    ("entails\nfree a b c\nown x\nthen\na join x join b is c\nx may read\nif\na join b join c is *\nthen\na join b join x is c\nif\na join c join b is c",
     "a (*o)\nb (o*)\nc o",
     fails("3, line 12: a join c join b is c", JOINS, "surplus", "a join c is full, b is empty, c is empty", 0, "always left")),
    # Disequations: what holds at every leaf.
    ("satisfiable\nfree a b\na join b may read", "a o\nb o", never("1, line 3: a join b may read", "a join b is empty")),
    ("satisfiable\nfree a b\na join b may read", "a (*o)\nb (*o)",
     fails("0, line 3: a join b may read", JOINS, "overlap", "a is full, b is full", 0, "always left")),
    ("satisfiable\nfree a b\nnot a join b is (*o)", "a ((*o)o)\nb ((o*)o)", never("0, line 3: not a join b is (*o)", "a join b is (*o)")),
    ("satisfiable\nfree a b\nlet L = (*o)\nL is not a", "a (*o)\nb o", never("0, line 4: L is not a", "L is a")),
    ("satisfiable\nfree a\na may read", "a o", never("0, line 3: a may read", "a is empty")),
]


def test_failing():
    """Rows that were worked by hand."""
    for case in FAILING + INSIDE:
        check_judged(*case)
    said = "".join(due for *_, due in FAILING + INSIDE)
    check("each way of each sort of clause was worked", [meaning for sort in SORTS for meaning in sort.values() if f"({meaning})" not in said], [])


def test_every_value():
    """Each sort of clause with all values of its shares at one leaf, by itself: the rest of the rows is empty or full, so that the clause holds there."""
    for words, sort, rest in [("a join b is c", JOINS, 0), ("a is b", EQUALS, 0), ("a may write", WRITES, 1), ("a with b", WITHS, 0)]:
        names = [word for word in words.split() if len(word) == 1]
        for values, leaf in itertools.product(itertools.product((0, 1), repeat=len(names)), (0, 1, 63, 64, 511, 512, 700, 1023)):
            shares = [(1 << 1024) - 1 ^ (1 - value) << leaf if rest else value << leaf for value in values]
            rows = "\n".join(f"{name} {write_tree(share, 10)}" for name, share in zip(names, shares))
            way, told = way_at(sort, values), ", ".join(f"{name} is {['empty', 'full'][value]}" for name, value in zip(names, values))
            due = fails(f"0, line 3: {words}", sort, way, told, leaf, way_down(leaf)) if way else ACCEPTED
            check_judged(f"satisfiable\nfree {' '.join(names)}\n{words}", rows, due)


COMMANDS = {0x10: JOINS, 0x12: EQUALS, 0x30: WRITES, 0x32: WITHS}


def lowest(question, rows):
    """The number that the library is to give for rows that break a clause, leaf by leaf; None where they break none. Of a disequation only its number is due."""
    leaves = [rows[ROW * number:ROW * number + ROW] for number in range(12)]

    def value(term, leaf):
        return question.constants[term - 0x20] >> leaf // 32 & 1 if term >= 0x20 else leaves[term][leaf // 8] >> leaf % 8 & 1

    number = 0
    for command, *terms in question.clauses:
        if command not in (0x10, 0x11, 0x12, 0x13, 0x30, 0x31, 0x32):
            continue
        at = [[value(term, leaf) for term in terms] for leaf in range(1024)]
        if command in COMMANDS:
            failing = next((leaf for leaf in range(1024) if way_at(COMMANDS[command], at[leaf])), None)
            if failing is not None:
                return packed(f"broken {number} {way_at(COMMANDS[command], at[failing])} at {failing}")
        elif not any(values[0] if command == 0x31 else way_at([EQUALS, JOINS][command == 0x11], values) for values in at):
            return packed(f"broken {number}")
        number += 1
    return None


def test_tall_rows():
    """Random questions with rows as tall as can be, leaf by leaf: the library's number, and --json."""
    random, seen = Random(34), Counter()
    for _ in range(250):
        string = make.random_question(random)
        question = read_question(string)
        base = make.random_leaves(random, 10)
        shares = [random.choice([base, (1 << 1024) - 1 ^ base, 0, base & ~(1 << random.randrange(1024))]) for _ in range(question.free)]
        rows = b"".join(share.to_bytes(ROW, "little") for share in shares).ljust(ROWS, b"\0")
        due, [number] = lowest(question, rows), library_judges([(string, rows)])
        name = f"{[hex(share) for share in shares]} for {string.hex(' ')}"
        check(name, number if number & 0xFF == 2 else None, due)
        said = json.loads(judged(write_text(question), "".join(f"v{at:02} {write_tree(share, 10)}\n" for at, share in enumerate(shares)), "--json")[1])
        way, leaf = number >> 40 & 0xFF, number >> 48
        path = [SIDES[leaf >> level & 1] for level in range(9, -1, -1)]
        check(f"--json of {name}", (said["way"], said["leaf"], said["path"]), ([*JOINS][way - 1], leaf, path) if way else (None, None, None))
        seen[number & 0xFF, way] += 1
        seen["far"] += leaf >= 64
    check("every way, disequations, and leaves behind the first word were seen", [key for key in [(2, way) for way in range(4)] + ["far"] if seen[key] < 10], [])
