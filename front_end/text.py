"""Questions as readable text, both ways."""

from front_end.files import LONG_NAME, LONG_WORD, quote, shown
from front_end.lines import NAME, NAME_DUE, Line, TextFault, text_end, word_lines
from front_end.question import (CLAUSES, COMMANDS, CONSTANTS, EQUAL, JOIN, MAY_READ, MAY_WRITE, MOST_VARIABLES, NO_JOIN, UNEQUAL, WITH, Fault,
                                Question)
from front_end.trees import TALLEST, join, write_tree

LONGEST = 255  # characters of a name
KINDS = ["satisfiable", "entails"]
KEPT = KINDS + ["free", "own", "let", "if", "then", "not", "join", "is", "o"]
STARTS = KINDS + ["free", "own", "let", "if", "then"]  # the words that a line starts with, if it is no clause
RESERVED = f"{', '.join(KEPT[:-1])} and {KEPT[-1]}"

NOT_INSIDE = ("a negated clause has one join, 'not a join b is c': give the join inside it a variable of its own, as in 'a join b is t' and "
              "'not t join c is d', which also asks that a join b is defined")
NOT_WITH = ("that shares may not be held together cannot be said as one clause: give their common part a variable of its own, as in "
            "'p join q is a', 'p join r is b' and 'p may read'")
TWICE = "two negations: write '{}'"
NO_SECOND = ("'entails' needs a second system: write a line 'then', and below it the clauses that are to follow from "
             "those above")
NO_SHARE = "'{}' is no share: write 'o' for the empty one, '*' for the full one"
NO_SHARES = ("0", "1", "empty", "full")  # they are taken for shares

# What other languages have where a clause has its verb, and what is written for it.
VERBS = {"=": "'is' for it", "!": "'is not' for '!='", "+": "'join' for it", "can": "'may' for it"}

# What is due where a share is, and how a name comes to be one; the same for a share that a 'let' joins.
SHARE_DUE = "a name or a tree", "a line 'free {}' before the first clause makes it a variable"
CONSTANT_DUE = "a tree or a constant's name", "a line 'let {} = (*o)' before this one makes it a constant"

# What stands behind 'may': the clause, and how to write that it does not hold.
RIGHTS = {"write": (MAY_WRITE, "is not *"), "read": (MAY_READ, "is o")}

FORM = f"""The text: one thing a line; '#' starts a comment.

    satisfiable                    or: entails; the first line
    free writer reader rest owner  free variables, by name
    own part                       own variables of the second system
    let L = (*o)                   a constant, as tree text
    let W = L join (o(*o))         a constant that is joined while the text is read, of trees and of constants of lines before, or 'let B = L';
                                   an error if the join is undefined; 'free', 'own' and 'let' stand before the first clause
    writer join reader is rest     a join
    not writer join reader is *    its negation: another share, or undefined
    a join b join c is d join e    joins inside: all are defined and both sides are one share; each counts as a variable more, one less than
                                   the sides have joins; not with 'not'
    writer is L                    an equality
    reader is not o                its negation
    owner may write                it is full
    reader may read                it is not empty
    writer with reader             they may be held together: their join is defined
    a join b with c                joins inside 'may' and 'with': all are defined; each counts as a variable more
    then                           from here on: the second system; 'entails' needs this line
    if                             from here on: the first system again

A name is letters a to z, small or capital, digits and '_', with no digit first; {RESERVED}
cannot be names. A share in a clause is a name or tree text. Tree text has no spaces; in a clause it is the first constant with that
tree, and if there is none, it becomes one, after those of 'let'.
"""


def starts_tree(word):
    return word == "o" or word[:1] in ("(", "*", ")")


def turned(line):
    """The clause 'c is a join b' with the join before 'is', as far as it is one."""
    words = str(line).split(" ")
    middle = words.index("is")
    negated = words[middle + 1] == "not"
    whole, parts = words[:middle], words[middle + 1 + negated:]
    if len(parts) % 2 == 0 or parts[1::2] != ["join"] * (len(parts) // 2):
        whole, parts = ["c"], ["a", "join", "b"]
    return shown(" ".join(["not"] * negated + parts + ["is"] + whole))


def verb(line):
    """The word behind the next shares and the joins between them; where that is 'not', the word after it."""
    ahead = 1
    while line.peek(ahead) == "join":
        ahead += 2
    return line.peek(ahead + (line.peek(ahead) == "not"))


def beside(line):
    """How many negations stand beside the verb, which is the next word that is none."""
    before = line.peek() == "not"
    return before + (line.peek(before + 1) == "not")


def denial(line, right, joined):
    """How to write that a share has not that right. The share stands before the next word, or it is a join."""
    share, first = ("t", "give the join a variable of its own, as in 'a join b is t', and ") if joined else (shown(line.peek(-1)), "")
    return f"'may {right}' has no negation of its own: {first}write '{share} {RIGHTS[right][1]}'"


def granted(line, right):
    """How to write that what stands before the next word has that right, where it was denied twice."""
    side = [word for word in str(line).split(" ")[:line.at] if word != "not"]
    return TWICE.format(f"{shown(' '.join(side))} may {right}")


def no_share(line, word, due):
    """The fault of a word that cannot be the name of a share, where something is due; None if it can be."""
    if word in NO_SHARES:
        return line.fault(NO_SHARE.format(word))
    if not NAME.fullmatch(word) or word in KEPT:
        return line.no_name(due)
    return None


def meant(word):
    """The word that a line was to start with, where it is written large or with a ':' behind it; None for any other."""
    small = word.rstrip(":").lower()
    return small if small in STARTS and small != word else None


def read_constant(line, constants, no_constant, tallest):
    """Takes a tree text or the name of a constant, and gives its leaves. 'constants' has the leaves of those with a name, 'no_constant' gives
    the fault of any other word."""
    word = line.peek()
    if starts_tree(word):
        return line.take_tree(tallest)
    if word not in constants:
        raise no_constant(line, word)
    line.take("a constant")
    return constants[word]


def read_joined(line, constants, no_constant, tallest=TALLEST):
    """Takes constants with 'join' between them, to the end of the line, and gives the leaves of their join."""
    so_far = read_constant(line, constants, no_constant, tallest)
    while line.skip("join"):
        word, column = line.peek(), line.column()
        leaves = read_constant(line, constants, no_constant, tallest)
        joined = join(so_far, leaves)
        if joined is None:
            before, common = (shown(write_tree(share, tallest)) for share in (so_far, so_far & leaves))
            what = f"the join is undefined: {quote(word)} and what stands before it, '{before}', have the common part '{common}'"
            raise TextFault(what, line.number, column)
        so_far = joined
    if line.peek():
        raise line.due("'join' or the end of the line")
    return so_far


class TextReader:
    """Reads a question line by line."""

    def __init__(self):
        self.question = None
        self.free = []
        self.own = []
        self.clauses = []  # of each clause its line
        self.words = {}  # of each share in a clause of the first system its word, the first in that line, from the line's number and its term
        self.lets = {}  # the constants that have names
        self.lines = {}  # where each name was defined
        self.second = False  # whether the next clause is one of the second system
        self.has_second = False  # whether a line starts that system

    def read(self, line):
        word = line.peek()
        if meant(word) and word not in self.lines and (self.question or meant(word) in KINDS):
            raise line.fault(f"write '{meant(word)}' for {quote(word)}")
        if self.question is None:
            self.read_kind(line)
        elif word in KINDS:
            second = self.question.kind == 1 and not self.has_second and self.question.clauses
            cure = "before the second system write 'then'" if second else "a file asks one question"
            raise line.fault(f"the kind of question stands in the first line alone: {cure}")
        elif word in ("free", "own", "let"):
            if self.question.clauses:
                raise line.fault(f"'{word}' must stand before the first clause")
            if word == "let":
                self.read_let(line)
            else:
                self.read_variables(line)
        elif word in ("if", "then"):
            self.read_system(line)
        else:
            self.read_clause(line)
        line.finish()

    def read_kind(self, line):
        if line.peek() not in KINDS:
            raise line.due("'satisfiable' or 'entails'")
        self.question = Question(KINDS.index(line.take("the kind")), 0, 0)

    def read_name(self, line):
        """Takes a new name."""
        name = line.peek()
        if not NAME.fullmatch(name):
            raise line.no_name(NAME_DUE)
        if len(name) > LONGEST:
            raise line.fault(f"the name {quote(name)} has {len(name):,} characters: it may have {LONGEST}")
        if name in KEPT:
            raise line.fault(f"'{name}' cannot be a name: {RESERVED} have a meaning of their own")
        if name in self.lines:
            raise line.fault(f"{quote(name)} is defined already, in line {self.lines[name]}")
        self.lines[name] = line.number
        return line.take("a name")

    def need_entails(self, line, what):
        if self.question.kind == 0:
            raise line.fault(f"{what} a question that asks 'entails': write that in the first line")

    def read_variables(self, line):
        if line.peek() == "own":
            self.need_entails(line, "own variables need")
        names = self.free if line.take("free or own") == "free" else self.own
        while True:
            with line.here():
                names.append(self.read_name(line))
                self.question.set_head(self.question.kind, len(self.free), len(self.own))
            if not line.peek():
                return

    def read_let(self, line):
        line.expect("let")
        name = self.read_name(line)
        line.expect("=")
        with line.here():
            self.lets[name] = self.question.define(read_joined(line, self.named_constants(), self.no_constant))

    def named_constants(self):
        """The leaves of each constant that has a name."""
        return {name: self.question.constants[term - CONSTANTS] for name, term in self.lets.items()}

    def no_constant(self, line, word):
        """The fault of a word that is no constant, where 'let' joins constants."""
        if word in self.free + self.own:
            return line.fault(f"a constant is due here, and {quote(word)} is a variable: a join with a variable is a clause, as in 'a join b is c'")
        if word in self.lines:
            return line.fault(f"a constant of a line before is due here, and {quote(word)} is the one that this line defines")
        return self.unknown(line, word, *CONSTANT_DUE)

    def read_system(self, line):
        if line.peek() == "then":
            self.need_entails(line, "a second system needs")
        self.second = line.take("the system") == "then"
        self.has_second = self.has_second or self.second

    def read_clause(self, line):
        """A clause. The word behind its first shares says of which sort it is."""
        with line.here():
            negated = line.skip("not")
            word = verb(line)
            left = self.read_join(line, 2 if negated and word not in ("may", "with") else None)
            if word == "may":
                self.read_may(line, negated, left)
            elif word == "with":
                self.read_with(line, negated, left)
            elif len(left) == 1:
                self.read_equality(line, negated, left)
            else:
                self.read_whole(line, negated, left)

    def read_may(self, line, negated, side):
        """The rest of 'a may write' or 'a may read'. Where its negation was meant, the message says how to write it."""
        negations = negated + beside(line)
        right = line.peek(1 + beside(line))
        if negations and right in RIGHTS:
            raise line.fault(granted(line, right) if negations == 2 else denial(line, right, len(side) > 1))
        line.expect("may")
        if right not in RIGHTS:
            raise line.due("'write' or 'read'")
        line.take("the right")
        line.finish()
        self.add_sides(line, RIGHTS[right][0], side)

    def read_with(self, line, negated, left):
        """The rest of 'a with b'. Where its negation was meant, the message says how to write it."""
        negations = negated + beside(line)
        if negations:
            raise line.fault(TWICE.format("a with b") if negations == 2 else NOT_WITH)
        line.expect("with")
        right = self.read_join(line)
        if line.peek() == "with":
            raise line.fault("'with' stands once in a clause: of three shares that are held together write 'a join b with c'")
        line.finish()
        self.add_sides(line, WITH, left, right)

    def read_whole(self, line, negated, left):
        """The rest of a join, after its parts."""
        self.expect_is(line, negated)
        if line.peek() == "not":
            raise line.fault("the negation of a join is written 'not a join b is c'" if len(left) == 2 else NOT_INSIDE)
        right = self.read_join(line, 1 if negated else None)
        line.finish()
        if negated:
            self.add(line, NO_JOIN, left + right)
        else:
            self.add_joins(line, left, right)

    def read_equality(self, line, negated, left):
        """The rest of an equality. Where a join was meant, the message says how to write it."""
        if negated:
            raise line.fault("the negation of an equality is written 'a is not b'") if line.peek() == "is" else line.due("'join'")
        self.expect_is(line, negated)
        negated = line.skip("not")
        right = self.read_share(line)
        if line.peek() == "join":
            raise line.fault(f"a join stands before 'is': write '{turned(line)}'")
        line.finish()
        self.add(line, UNEQUAL if negated else EQUAL, [*left, right])

    def expect_is(self, line, negated):
        if not line.skip("is"):
            hint = f": write {VERBS[line.peek()]}" if line.peek() in VERBS else ""
            raise line.due("'is'" if negated else "'join', 'is', 'may' or 'with'", hint)

    def read_join(self, line, most=None):
        """Takes shares with 'join' between them; of a negated clause not more than so many."""
        terms = [self.read_share(line)]
        while line.peek() == "join":
            if len(terms) == most:
                raise line.fault(NOT_INSIDE)
            line.take("'join'")
            terms.append(self.read_share(line))
        return terms

    def add(self, line, words, terms):
        self.question.add(COMMANDS[words, self.second], terms)
        self.clauses.append(line)

    def add_sides(self, line, words, *sides):
        """Adds a clause of that sort over lists of shares that are to be joined. Each join gets a fresh variable."""
        self.check_fresh(sum(len(side) - 1 for side in sides))
        self.add(line, words, [self.join(line, side) for side in sides])

    def add_joins(self, line, left, right):
        """Adds 'left is right', two lists of shares that are to be joined. Each join inside gets a fresh variable."""
        self.check_fresh(len(left) + len(right) - 3)
        whole = self.join(line, left, right[0] if len(right) == 1 else None)
        self.join(line, right, whole)

    def check_fresh(self, fresh):
        """Raises a fault if there is no room for so many fresh variables."""
        variables = self.question.free + self.question.own + fresh
        if fresh > 0 and variables > MOST_VARIABLES:
            raise Fault(5, f"the joins inside this clause need {fresh} variable{'s' if fresh > 1 else ''} more, which makes {variables}: "
                           f"there may be {MOST_VARIABLES}, free and own together")

    def join(self, line, terms, whole=None):
        """Adds clauses that join terms one after the other to a whole, which is a fresh variable if none is given, and gives it."""
        so_far, *others = terms
        for number, term in enumerate(others, 1):
            result = whole if number == len(others) and whole is not None else self.fresh()
            self.add(line, JOIN, [so_far, term, result])
            so_far = result
        return so_far

    def fresh(self):
        """A variable without a name, that stands for a join: free for the first system, own for the second (docs/FORMAT.md)."""
        return self.question.add_own() if self.second else self.question.add_free()

    def read_share(self, line):
        """Takes a name or a tree text, and gives its term."""
        word = line.peek()
        term = self.read_term(line, word)
        if not self.second:
            self.words.setdefault((line.number, term), word)
        return term

    def read_term(self, line, word):
        """Takes that word, a name or a tree text, and gives its term."""
        if starts_tree(word):
            with line.here():
                return self.constant(line.take_tree())
        if word in self.own and not self.second:
            raise line.fault(f"{quote(word)} is an own variable, and they stand in the second system alone: "
                             f"write 'then' before this clause, or make {quote(word)} free")
        if word not in self.lines:
            raise self.unknown(line, word, *SHARE_DUE)
        line.take("a share")
        return self.lets[word] if word in self.lets else self.names().index(word)

    def names(self):
        """The names of the variables in order, None for those without one."""
        fresh_free, fresh_own = self.question.free - len(self.free), self.question.own - len(self.own)
        return self.free + [None] * fresh_free + self.own + [None] * fresh_own

    def unknown(self, line, word, due, cure):
        """The fault of a word that is no share, where one is due; 'cure' says how a name comes to be one."""
        fault = no_share(line, word, due)
        if fault:
            return fault
        if line.peek(1) == "=":
            return line.fault(f"nothing is named {quote(word)}: a constant is defined by 'let', before the first clause: "
                              f"write 'let {shown(word, LONG_NAME)} = {shown(self.joined_or_example(line), LONG_NAME)}'")
        return line.fault(f"nothing is named {quote(word)}: {cure.format(shown(word, LONG_WORD))}")

    def joined_or_example(self, line):
        """What stands behind '=', if 'let' takes it, and otherwise a tree."""
        joined = line.rest(2)
        try:
            if "=" not in joined:
                read_joined(Line(line.number, joined), self.named_constants(), self.no_constant)
                return joined
        except TextFault:
            pass
        return "(*o)"

    def constant(self, leaves):
        """The term of the first constant with these leaves, which is a new one if there is none."""
        constants = self.question.constants
        if leaves in constants:
            return CONSTANTS + constants.index(leaves)
        return self.question.define(leaves)


def decode(string):
    """The text of a file's bytes. A byte order mark before it is left out. Bytes that are no UTF-8 are kept: they may stand in a
    comment, and a message shows them."""
    if string[:2] in (b"\xff\xfe", b"\xfe\xff"):
        raise TextFault("the text is in UTF-16: save it as UTF-8", 1, 1)
    text = string.decode("utf-8", "surrogateescape")
    return text[1:] if text.startswith("\ufeff") else text


class Asked:
    """What a text asks: the question; the names of its variables in order, None for one that stands for a join; of each clause its line; the
    leaves of each constant that has a name; of each share in a clause of the first system its word, the first in that line, from the line's
    number and its term."""

    def __init__(self, question, names, clauses, constants, words):
        self.question = question
        self.names = names
        self.clauses = clauses
        self.constants = constants
        self.words = words

    def disequation(self, number):
        """The line of a disequation of the second system."""
        return self.clauses[self.question.alike(second=True, disequation=True)[number]]

    def second_lines(self):
        """The lines with positive clauses of the second system, each once."""
        numbers = self.question.alike(second=True, disequation=False)
        return list(dict.fromkeys(self.clauses[number] for number in numbers))

    def first_system(self):
        """The clauses of the first system as they stand in bytes, each with its line before it: one with joins inside stands there for each."""
        return [(line, *clause) for line, clause in zip(self.clauses, self.question.clauses) if not CLAUSES[clause[0]].second]

    def first_clauses(self):
        """The lines of these clauses."""
        return [line for line, *_ in self.first_system()]

    def joined(self, term):
        """The two terms of the first system that are joined to a variable without a name, in the first clause that has it."""
        return next(terms[:2] for _, _, *terms in self.first_system() if terms[-1] == term)

    def word(self, line, term):
        """A term of a clause of the first system as its line has it: a name, a tree text, or such words with 'join' between them."""
        if (line.number, term) in self.words:
            return self.words[line.number, term]
        return " join ".join(self.word(line, part) for part in self.joined(term))


def read_text(text):
    """What a text asks."""
    if text[:1] == "\x01":
        raise TextFault("this is a question in bytes, and no text: './explain' makes a text of it", 1, 1)
    reader = TextReader()
    for line in word_lines(text):
        reader.read(line)
    if reader.question is None:
        raise TextFault("the text asks nothing: 'satisfiable' or 'entails' is due in its first line", 1, 1)
    if reader.question.kind == 1 and not reader.has_second:
        raise TextFault(NO_SECOND, *text_end(text))
    return Asked(reader.question, reader.names(), reader.clauses, reader.named_constants(), reader.words)


def in_clauses(question):
    """How many of the last constants need no 'let': short ones, unlike all others, that the clauses name in their order."""
    named = dict.fromkeys(term - CONSTANTS for clause in question.clauses for term in clause[1:] if term >= CONSTANTS)
    constants, count = question.constants, 0
    for constant in range(len(constants) - 1, -1, -1):
        short = len(write_tree(constants[constant])) <= len("(*o)")
        wanted = range(constant, len(constants))
        if not short or constants.count(constants[constant]) > 1 or [c for c in named if c in wanted] != list(wanted):
            break
        count += 1
    return count


def write_text(question):
    """A text that asks this very question. Its variables are named as the printing program names them."""
    variables = [f"v{number:02}" for number in range(question.free + question.own)]
    lets = len(question.constants) - in_clauses(question)
    trees = [write_tree(leaves) for leaves in question.constants]
    constants = [f"c{number:02}" for number in range(lets)] + trees[lets:]
    lines = [KINDS[question.kind]]
    for word, names in (("free", variables[:question.free]), ("own", variables[question.free:])):
        if names:
            lines.append(" ".join([word] + names))
    lines += [f"let {name} = {tree}" for name, tree in zip(constants[:lets], trees)]
    second = False
    for command, *terms in question.clauses:
        sort = CLAUSES[command]
        if sort.second != second:
            second = not second
            lines.append("then" if second else "if")
        lines.append(sort.words.format(*(constants[term - CONSTANTS] if term >= CONSTANTS else variables[term] for term in terms)))
    if question.kind == 1 and "then" not in lines:
        lines.append("then")
    return "".join(line + "\n" for line in lines)
