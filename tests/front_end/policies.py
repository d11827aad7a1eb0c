"""Tests of 'may write', 'may read' and 'with': what they say together, what they say in older words, and what denies them."""

import itertools
import json
import re
from random import Random

from harness import check, command

# How the clauses are written without the new words.
OLDER = {"{} may write": "{} is *", "{} may read": "{} is not o", "{} with {}": "{} join {} is {} join {}"}
OLD = ["{} join {} is {}", "not {} join {} is {}", "{} is {}", "{} is not {}"]
TREES = ["o", "*", "(*o)", "(o*)", "((o*)(*o))"]


def asked(*lines):
    """What ask says of a text, errors too, on one line."""
    _, out, errors = command("ask", "-", given="\n".join(lines).encode())
    return " ".join((out.decode() + errors).split())


def answered(lines):
    """The same as numbers and trees: verdict, reason, the number of the disequation, height, solution."""
    said = json.loads(command("ask", "--json", "-", given="\n".join(lines).encode())[1])
    number = said["disequation"] and said["disequation"]["number"]
    return said["answer"], said["reason"], number, said["height"], said["solution"]


def test_writer_and_reader():
    """A writer and a reader that may be held together solve no system: neither in any order, nor where both are one share, nor beside other clauses."""
    for writer, reader in [("a", "b"), ("b", "a"), ("a", "a"), ("*", "a"), ("a", "(*o)"), ("*", "*"), ("a join b", "c"), ("a", "b join c"), ("a join b", "b join c")]:
        for pair in ((writer, reader), (reader, writer)):
            for clauses in itertools.permutations([f"{writer} may write", f"{reader} may read", "{} with {}".format(*pair)]):
                lines = ["free a b c", *clauses[:2], "c is (*o)", clauses[2]]
                check(f"satisfiable {clauses}", asked("satisfiable", *lines), "answer no")
                said = asked("entails", *lines, "then", "* is o")
                check(f"entails {clauses}", said, "answer yes reason: the first system has no solution")
    for clauses in itertools.combinations(["a may write", "b may read", "a with b"], 2):
        check(f"two of them have a solution: {clauses}", asked("satisfiable", "free a b", *clauses)[:10], "answer yes")


def random_clause(random, names):
    """A clause with the new words, often, and how it is written without them."""
    clause = random.choice([*OLDER, *OLDER, *OLD])
    shares = random.choices(names, k=clause.count("{}"))
    return clause.format(*shares), OLDER.get(clause, clause).format(*shares * 2)


def random_texts(random):
    """A question with the new words and the same without them."""
    kind = random.randrange(2)
    free, own = ["a", "b", "c", "d"][:random.randrange(1, 5)], ["x", "y"][:random.randrange(3) if kind else 0]
    head = [["satisfiable", "entails"][kind], f"free {' '.join(free)}"] + ([f"own {' '.join(own)}"] if own else [])
    texts = head[:], head[:]
    for second in range(1 + kind):
        for text in texts:
            text.append(["if", "then"][second])
        for _ in range(random.randrange(4)):  # with a fresh variable for each there are 12 at most
            for text, clause in zip(texts, random_clause(random, free * 4 + own * 4 * second + TREES)):
                text.append(clause)
    return texts


def test_older_words():
    """The new clauses are answered as what they stand for: the same verdict, height, solution, reason and number."""
    random = Random(17)
    seen = set()
    for _ in range(300):
        new, old = random_texts(random)
        said = answered(new)
        check(f"{new} and {old}", said, answered(old))
        if new != old:
            seen.add(said[:2])
    due = {("yes", None), ("no", None), ("yes", 0), ("yes", 1), ("no", 2), ("no", 3)}
    check("every answer was seen", seen, due)


# A clause, and a line that says it does not hold, in words that are refused; two negations say that it holds.
DENIED = [("a may write", "a may not write"), ("a may write", "a not may write"), ("a may read", "not a may read"), ("a with b", "not a with b"),
          ("a with b", "a not with b"), ("a with b", "a with not b"), ("a join b may write", "a join b may not write"), ("a join b may read", "not a join b may read")]
DENIED_TWICE = [("a may write", "not a may not write"), ("a may read", "not a may not read"), ("a join b may write", "not a join b may not write"),
                ("a join b may read", "not a join b may not read"), ("a with b", "not a not with b"), ("a with b", "not a with not b")]


def test_denied():
    """Where a negation was meant, the clauses that the message names hold exactly where the clause does not, and with two negations exactly
    where it does. Joins are to be defined."""
    for clause, denied in DENIED + DENIED_TWICE:
        errors = command("ask", "-", given=f"satisfiable\nfree a b\n{denied}".encode())[2]
        clauses = re.findall(r"'(.*?)'", re.split("of its own|two negations", errors, maxsplit=1)[1])
        for a, b in itertools.product(TREES, repeat=2):
            head = ["satisfiable", "free p q r t", f"let a = {a}", f"let b = {b}"]
            if "join" not in clause or asked(*head, "a with b") != "answer no":
                said = [asked(*head, *lines)[:10].strip() for lines in ([clause], clauses)]
                found = set(said) <= {"answer yes", "answer no"}, said[0] == said[1]
                check(f"{denied} and {clauses}, {a} and {b}: {said}", found, (True, (clause, denied) in DENIED_TWICE))
