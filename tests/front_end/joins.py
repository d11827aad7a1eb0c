"""Tests of what clauses mean, with joins inside and without: random questions are compared with it, by going through all shares.

Nothing here is taken from front_end. A share is a number with 2^levels bits, one for each leaf. How tall the shares must be that are
gone through is SPEC 5: h + c(d) and h + c(d+1) for solutions, and c(e) more for own variables.
"""

import itertools
import json
from random import Random

from harness import check, command

TREES = {0: ["o", "*"], 1: ["(*o)", "(o*)"]}  # by height


class Clause:
    """'left is right', each a list of words that are to be joined; negated or not."""

    def __init__(self, left, right, negated=False):
        self.left, self.right, self.negated = left, right, negated

    def __str__(self):
        left, right = " join ".join(self.left), " join ".join(self.right)
        if self.negated:
            return f"not {left} is {right}" if len(self.left) > 1 else f"{left} is not {right}"
        return f"{left} is {right}"

    def holds(self, shares):
        left, right = total(self.left, shares), total(self.right, shares)
        return (left is not None and left == right) != self.negated

    def met(self, shares):
        """Whether what is positive in it holds: nothing of a disequation is."""
        return self.negated or self.holds(shares)

    def fresh(self):
        """How many variables more it has in bytes."""
        return max(len(self.left + self.right) - 3, 0)


class Policy(Clause):
    """'left may write', 'left may read' or 'left with right', as the verb says. That the joins inside are defined is positive, in a disequation too."""

    def __init__(self, left, verb, right=()):
        super().__init__(list(left), list(right), verb == "may read")
        self.verb = verb

    def __str__(self):
        return f"{' join '.join(self.left)} {self.verb} {' join '.join(self.right)}".rstrip()

    def holds(self, shares):
        whole = total(self.left + self.right, shares)
        return whole is not None and {"may write": whole == shares["*"], "may read": whole > 0, "with": True}[self.verb]

    def met(self, shares):
        return total(self.left, shares) is not None if self.negated else self.holds(shares)

    def fresh(self):
        return len(self.left) - 1 + max(len(self.right) - 1, 0)


def total(words, shares):
    """The join of some shares, None where it is undefined."""
    whole = 0
    for word in words:
        if whole & shares[word]:
            return None
        whole |= shares[word]
    return whole


def leaves(tree, levels):
    """The leaves of a tree text, unfolded to 2^levels."""
    signs = iter(tree)

    def read(width):
        sign = next(signs)
        if sign != "(":
            return (1 << width) - 1 if sign == "*" else 0
        low = read(width // 2)
        whole = low | read(width // 2) << (width // 2)
        next(signs)
        return whole

    return read(1 << levels)


def up_to(height, levels):
    """All shares no taller than a height, unfolded to 2^levels leaves."""
    width = 1 << (levels - height)
    block = (1 << width) - 1
    for bits in range(1 << (1 << height)):
        yield sum(block << (width * leaf) for leaf in range(1 << height) if bits >> leaf & 1)


def log(number):
    """The least k with number at most 2^k."""
    return max(number - 1, 0).bit_length()


class Meaning:
    """What a question asks, by the definitions of SPEC 2 and 4.3."""

    def __init__(self, kind, free, own, clauses):
        """Each of the clauses has its system before it, 0 or 1."""
        self.kind, self.free, self.own, self.clauses = kind, free, own, clauses
        self.first, self.second = ([clause for system, clause in clauses if system == wanted] for wanted in (0, 1))
        self.disequations = [clause for clause in self.second if clause.negated]
        words = {word for _, clause in clauses for word in clause.left + clause.right}
        self.trees = {tree: height for height, trees in TREES.items() for tree in trees if tree in words}
        tallest = max(self.trees.values(), default=0)
        self.height = tallest + log(sum(clause.negated for clause in self.first) + kind)
        self.levels = max(self.height, tallest) + log(len(self.disequations))
        self.constants = {tree: leaves(tree, self.levels) for tree in ["*", *self.trees]}

    def text(self):
        lines = ["entails" if self.kind else "satisfiable"]
        lines += [f"free {' '.join(self.free)}"] if self.free else []
        lines += [f"own {' '.join(self.own)}"] if self.own else []
        now = 0
        for system, clause in self.clauses:
            lines += [["if", "then"][system]] if system != now else []
            lines.append(str(clause))
            now = system
        lines += ["then"] if self.kind and "then" not in lines else []
        return "\n".join(lines)

    def variables(self):
        """How many variables the question has in bytes."""
        return len(self.free + self.own) + sum(clause.fresh() for _, clause in self.clauses)

    def cost(self):
        """How many choices of shares there are."""
        return 1 << len(self.free) * (1 << self.height) + len(self.own) * (1 << self.levels)

    def solutions(self):
        for values in itertools.product(up_to(self.height, self.levels), repeat=len(self.free)):
            shares = {**self.constants, **dict(zip(self.free, values))}
            if all(clause.holds(shares) for clause in self.first):
                yield shares

    def beside(self, shares):
        """All own shares that meet the second system's positive clauses beside a solution, with which of its disequations each has."""
        found = set()
        for values in itertools.product(range(1 << (1 << self.levels)), repeat=len(self.own)):
            all_shares = {**shares, **dict(zip(self.own, values))}
            if all(clause.met(all_shares) for clause in self.second):
                found.add(tuple(clause.holds(all_shares) for clause in self.disequations))
        return found

    def missed(self, shares):
        """Why a solution does not extend: reason 2, or 3 with each disequation that it cannot have; nothing if it extends."""
        met = self.beside(shares)
        if not met:
            return [(2, None)]
        return [(3, number) for number in range(len(self.disequations)) if not any(had[number] for had in met)]

    def answer(self):
        """Verdict, reason, disequation number."""
        solutions = list(self.solutions())
        if self.kind == 0:
            return ("yes" if solutions else "no"), None, None
        if not solutions:
            return "yes", 1, None
        reasons = [self.missed(shares) for shares in solutions]
        every = all(any(all(had) for had in self.beside(shares)) for shares in solutions)
        check(f"every solution extends or is missed: {self.text()!r}", every, not any(reasons))
        worst = min((reason for found in reasons for reason in found), key=lambda reason: (reason[0], reason[1] or 0), default=None)
        return ("no", *worst) if worst else ("yes", 0, None)


def random_clause(random, words):
    """A clause with up to four shares joined on its left, and up to two on its right."""
    if random.randrange(3) == 0:
        left, right = (random.choices(words, k=random.choice([1, 1, 2, most])) for most in (3, 2))
        verb = random.choice(["may write", "may read", "with"])
        return Policy(left, verb, right if verb == "with" else ())
    if random.randrange(4) == 0:
        return Clause(random.choices(words, k=random.choice([1, 1, 2])), random.choices(words, k=1), True)
    left = random.choice([1, 2, 3, 3, 4])
    return Clause(random.choices(words, k=left), random.choices(words, k=random.choice([1, 2]) if left > 1 else 1))


def random_meaning(random):
    kind = random.randrange(4) > 0
    free, own = ["a", "b", "c"][:random.randrange(1, 4)], ["x", "y"][:random.randrange(3) if kind else 0]
    trees = TREES[0] + (TREES[1] if random.randrange(2) else [])
    clauses = [(0, random_clause(random, free * 3 + trees)) for _ in range(random.randrange(3) if kind else random.randrange(1, 5))]
    clauses += [(1, random_clause(random, free * 2 + own * 3 + trees)) for _ in range(random.randrange(1, 4) if kind else 0)]
    random.shuffle(clauses)
    return Meaning(int(kind), free, own, clauses)


def compare(meaning):
    """Asks a question and compares the answer, and the shown solution, with the meaning. Gives the kind of answer it was."""
    text = meaning.text()
    verdict, reason, number = meaning.answer()
    status, out, errors = command("ask", "--json", "-", given=text.encode())
    said = json.loads(out)
    named = said["disequation"] and said["disequation"]["number"]
    check(f"the answer to {text!r}", (status, said["answer"], said["reason"], named), (int(verdict == "no"), verdict, reason, number))
    due = verdict == ("no" if meaning.kind else "yes")
    check(f"a solution is shown for {text!r}", list(said["solution"] or []) if due else said["solution"], meaning.free if due else None)
    if due:
        shares = {**meaning.constants, **{name: leaves(tree, meaning.levels) for name, tree in (said["solution"] or {}).items()}}
        check(f"the solution shown for {text!r}", [str(clause) for clause in meaning.first if not clause.holds(shares)], [])
        check(f"it does not extend, for {text!r}", meaning.kind == 0 or (reason, number) in meaning.missed(shares), True)
    return verdict, reason, meaning.variables() > len(meaning.free + meaning.own), any(isinstance(clause, Policy) for _, clause in meaning.clauses)


def test_meaning():
    """Random questions, with joins inside their clauses and without, with the clauses of a policy and without."""
    random = Random(14)
    seen = []
    while len(seen) < 700:
        meaning = random_meaning(random)
        if meaning.variables() <= 12 and meaning.cost() <= 1 << 15:
            seen.append(compare(meaning))
    due = {(*answer, inside, policy) for answer in [("yes", None), ("no", None), ("yes", 0), ("yes", 1), ("no", 2), ("no", 3)]
           for inside in (False, True) for policy in (False, True)}
    check("every kind of answer was seen, with joins inside and without, with a policy and without", due - set(seen), set())


def test_order():
    """In which order the parts of a join stand changes no answer."""
    for parts in itertools.permutations("abcd"):
        text = f"entails\nfree a b c d e\na join b join c join d is e\nthen\n{' join '.join(parts)} is e"
        said = b"answer yes\nreason: every solution of the first system extends to the second\n"
        check(f"the parts in the order {parts}", command("ask", "-", given=text.encode()), (0, said, ""))
