"""Tests of constants that 'let' joins: what a line defines is compared with the join of its trees, leaf by leaf.

Nothing here is taken from front_end. The leaves of a share are a list, 1 for a full leaf.
"""

from random import Random

from cases import UNDEFINED
from harness import check, command
from joins import leaves

LEAVES = 32


def unfolded(tree):
    number = leaves(tree, 5)
    return [number >> leaf & 1 for leaf in range(LEAVES)]


def folded(share):
    """The tree text of a list of leaves."""
    if len(set(share)) == 1:
        return "o*"[share[0]]
    half = len(share) // 2
    return f"({folded(share[:half])}{folded(share[half:])})"


def random_tree(random, apart):
    """A tree with few full leaves; often it has none where another share is full."""
    width = 1 << random.randrange(6)
    share = [full for _ in range(LEAVES // width) for full in [int(random.random() < 0.3)] * width]
    return folded([full * (1 - other) for full, other in zip(share, apart)] if random.randrange(5) else share)


class Text:
    """A text of 'let' lines that grows, and what is due: the leaves of each constant by its name, or the first error."""

    def __init__(self):
        self.lines = ["satisfiable"]
        self.lets = {}
        self.error = None

    def add(self, random):
        """Adds a line that joins up to four trees and constants of lines before."""
        name, share = f"c{len(self.lets)}", [0] * LEAVES
        line = f"let {name} ="
        for number in range(random.choice([1, 2, 2, 3, 4])):
            line += " join" * (number > 0) + " " * random.randrange(1, 4)
            named = self.lets and random.randrange(3) == 0
            word = random.choice(list(self.lets)) if named else random_tree(random, share)
            share = self.join(word, share, len(line) + 1)
            line += word
        self.lines.append(line)
        self.lets[name] = share

    def join(self, word, share, column):
        """The join of what a word stands for to a share. Where it is undefined, that is the error, if there is none before."""
        pairs = list(zip(self.lets[word] if word in self.lets else unfolded(word), share))
        if (1, 1) in pairs and self.error is None:
            shown = word if len(word) <= 40 else word[:40] + "..."
            common = folded([int(pair == (1, 1)) for pair in pairs])
            self.error = f"-:{len(self.lines) + 1}:{column}: {UNDEFINED.format(shown, folded(share), common)}\n"
        return [int(1 in pair) for pair in pairs]

    def string(self):
        """The bytes that are due: the head, each constant with leaf i at bit i mod 8 of byte i div 8, and the end."""
        constants = [sum(full << leaf for leaf, full in enumerate(share)) for share in self.lets.values()]
        return b"\1\0\0\0" + b"".join(b"\3" + number.to_bytes(4, "little") for number in constants) + b"\0"


def test_random_lets():
    """Random texts define what their trees join to, which explain writes so that it is read again, or have the error that is due."""
    random = Random(22)
    seen = []
    for _ in range(600):
        text = Text()
        for _ in range(random.randrange(1, 6)):
            text.add(random)
        given = "\n".join(text.lines)
        found = command("ask", "--bytes", "-", given=given.encode())
        check(f"bytes of {given!r}", found, (2, b"", text.error) if text.error else (0, text.string(), ""))
        if not text.error:
            explained = command("explain", "-", given=text.string())[1]
            check(f"explained, in bytes again: {given!r}", command("ask", "--bytes", "-", given=explained)[1], text.string())
        seen.append(text.error is None)
    check("joins were defined and undefined", [truth for truth in (True, False) if seen.count(truth) < 100], [])


def tall(tree):
    """The height of a tree text: how many pairs stand one in the other."""
    depths = [0]
    for sign in tree:
        depths.append(depths[-1] + {"(": 1, ")": -1}.get(sign, 0))
    return max(depths)


def said(height, tree):
    """What is printed of a question of satisfiability with the share c."""
    return 0, f"answer yes\nheight {height}\nc {tree}\n".encode()


def test_let_and_clause():
    """What 'let' defines is what the clause 'a join b is c' has as c, and where the clause has none, 'let' has an error. The clause names a and b, and
    after 'let' only their join is named: its height is given."""
    random = Random(23)
    seen = []
    for _ in range(150):
        one = random_tree(random, [0] * LEAVES)
        other = random_tree(random, unfolded(one))
        head = f"satisfiable\nfree c\nlet a = {one}\nlet b = {other}\n"
        by_clause = command("ask", "-", given=f"{head}a join b is c".encode())[:2]
        by_let = command("ask", "-", given=f"{head}let d = a join b\nc is d".encode())[:2]
        whole = [sum(pair) for pair in zip(unfolded(one), unfolded(other))]
        defined = 2 not in whole
        tree = folded(whole) if defined else None
        check(f"{head!r}: the clause", by_clause, said(max(tall(one), tall(other)), tree) if defined else (1, b"answer no\n"))
        check(f"{head!r}: 'let'", by_let, said(tall(tree), tree) if defined else (2, b""))
        seen.append((defined, defined and tall(tree) < max(tall(one), tall(other))))
    check("clauses had a join and none", [truth for truth in (True, False) if [defined for defined, _ in seen].count(truth) < 10], [])
    check("a join was lower than its parts", any(lower for _, lower in seen), True)


T, U = "(((((*o)o)o)o)o)", "(((((o*)*)*)*)*)"  # one leaf of 32, and the other 31
NO = "answer no\nheight {}\na {}\nreason: this solution of the first system cannot {} (line 6)\n"
# Texts with constants that no clause names, and what is printed: the height is told by those that are named.
UNNAMED = [
    (f"satisfiable\nfree a\nlet t = {T}\nlet l = (*o)\na join l is *", "answer yes\nheight 1\na (o*)\n"),
    (f"satisfiable\nfree a\nlet t = {T}\nlet u = {U}\nlet f = t join u\na is f", "answer yes\nheight 0\na *\n"),
    (f"satisfiable\nfree a\nlet t = {T}\nlet u = {U}\nlet f = t join u\na join t is f", f"answer yes\nheight 5\na {U}\n"),
    (f"satisfiable\nfree a\nlet t = {T}\na may read", "answer yes\nheight 0\na *\n"),
    ("satisfiable\nfree a\n" + "".join(f"let c{n} = {T}\n" for n in range(30)) + "let l = (*o)\nlet f = *\na join l is f", "answer yes\nheight 1\na (o*)\n"),
    (f"entails\nfree a\nlet t = {T}\nlet r = (o*)\nthen\na is r", NO.format(1, "(*o)", "meet 'a is r'")),
    (f"entails\nfree a\nlet t = {T}\nlet r = (o*)\nthen\na is not t", NO.format(5, T, "have 'a is not t'")),
]


def test_lets_that_no_clause_names():
    for text, due in UNNAMED:
        status = int(due.startswith("answer no"))
        check(f"printed for {text!r}", command("ask", "-", given=text.encode()), (status, due.encode(), ""))
