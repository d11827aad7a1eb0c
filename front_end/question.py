"""A question: its limits, and its bytes both ways. docs/FORMAT.md has the format."""

from typing import NamedTuple

MOST_VARIABLES = 12
MOST_CONSTANTS = 32
MOST_POSITIVE = 64
MOST_DISEQUATIONS = 31

END, HEAD, CONSTANT = 0x00, 0x01, 0x03  # the commands that are no clauses


class ClauseSort(NamedTuple):
    """A sort of clause in one system."""

    second: bool  # whether that is the second system
    disequation: bool
    words: str  # how text writes it, with '{}' for each term


# The sorts of clauses, as text writes them.
JOIN, NO_JOIN, EQUAL, UNEQUAL = "{} join {} is {}", "not {} join {} is {}", "{} is {}", "{} is not {}"
MAY_WRITE, MAY_READ, WITH = "{} may write", "{} may read", "{} with {}"

# Of each sort its commands in the first and in the second system, and whether it is a disequation.
SORTS = [
    (JOIN, 0x10, 0x20, False),
    (NO_JOIN, 0x11, 0x21, True),
    (EQUAL, 0x12, 0x22, False),
    (UNEQUAL, 0x13, 0x23, True),
    (MAY_WRITE, 0x30, 0x38, False),
    (MAY_READ, 0x31, 0x39, True),
    (WITH, 0x32, 0x3A, False),
]
SYSTEMS = (False, True)  # whether it is the second
CLAUSES = {commands[second]: ClauseSort(second, disequation, words) for words, *commands, disequation in SORTS for second in SYSTEMS}
COMMANDS = {(sort.words, sort.second): command for command, sort in CLAUSES.items()}

# How many operand bytes each command has.
OPERANDS = {END: 0, HEAD: 3, CONSTANT: 4, **{command: sort.words.count("{}") for command, sort in CLAUSES.items()}}

# Terms: a variable is its number, a constant is CONSTANTS and its number.
CONSTANTS = 0x20

MEANINGS = {
    1: "the first byte is missing or is not 01",
    2: "no byte where a command is due, or its operands are cut short",
    3: "an unknown command byte",
    4: "a second head, or a constant after a clause",
    5: "kind above 1, more than 12 variables, or own variables with kind 0",
    6: "a 33rd constant",
    7: "a 65th positive clause or a 32nd disequation in one system",
    8: "a term that names nothing defined, or an own variable in a clause of the first system",
    9: "a clause of the second system with kind 0",
    10: "bytes after the end",
}


class Fault(Exception):
    """A rule of the format that a question would break: the refusal number, and what is wrong in words."""

    def __init__(self, number, what):
        super().__init__(what)
        self.number = number
        self.what = what


class Refusal(Exception):
    """Why a byte string is no question: number and place as the library gives them, and where the command at fault ends."""

    def __init__(self, number, place, end, what):
        super().__init__(what)
        self.number = number
        self.place = place
        self.end = end
        self.what = what


def ordinal(number):
    """64th, 32nd and so on."""
    ending = "th" if number // 10 % 10 == 1 else {1: "st", 2: "nd", 3: "rd"}.get(number % 10, "th")
    return f"{number}{ending}"


class Question:
    """Head, constants (as 32 leaves) and clauses (the command, then its terms). Each step breaks no rule or raises a Fault."""

    def __init__(self, kind, free, own):
        self.set_head(kind, free, own)
        self.constants = []
        self.clauses = []

    def set_head(self, kind, free, own):
        if kind > 1:
            raise Fault(5, f"kind {kind}: it is 0 (satisfiable) or 1 (entails)")
        if free + own > MOST_VARIABLES:
            raise Fault(5, f"{free + own} variables: there may be {MOST_VARIABLES}, free and own together")
        if kind == 0 and own > 0:
            raise Fault(5, "own variables need a question that asks 'entails'")
        self.kind, self.free, self.own = kind, free, own

    def add_free(self):
        """Adds a free variable and gives its term. Own variables are numbered after the free ones, so their terms grow by one."""
        new = self.free
        self.set_head(self.kind, self.free + 1, self.own)
        self.clauses = [(command, *(term + (new <= term < CONSTANTS) for term in terms)) for command, *terms in self.clauses]
        return new

    def add_own(self):
        """Adds an own variable and gives its term."""
        self.set_head(self.kind, self.free, self.own + 1)
        return self.free + self.own - 1

    def define(self, leaves):
        """Adds a constant and gives its term."""
        if len(self.constants) == MOST_CONSTANTS:
            raise Fault(6, f"a {ordinal(MOST_CONSTANTS + 1)} constant: there may be {MOST_CONSTANTS}")
        self.constants.append(leaves)
        return CONSTANTS + len(self.constants) - 1

    def check_system(self, second):
        if second and self.kind == 0:
            raise Fault(9, "a second system needs a question that asks 'entails'")

    def alike(self, second, disequation):
        """Which of the clauses are disequations of one system, or its positive clauses."""
        return [number for number, clause in enumerate(self.clauses) if CLAUSES[clause[0]][:2] == (second, disequation)]

    def check_room(self, second, disequation):
        most, what = (MOST_DISEQUATIONS, "disequation") if disequation else (MOST_POSITIVE, "positive clause")
        if len(self.alike(second, disequation)) == most:
            system = "second" if second else "first"
            raise Fault(7, f"a {ordinal(most + 1)} {what} in the {system} system: there may be {most}")

    def check_term(self, term, second):
        if term < self.free or CONSTANTS <= term < CONSTANTS + len(self.constants):
            return
        if not self.free <= term < self.free + self.own:
            raise Fault(8, f"term {term:02X} names no variable of the head and no constant defined")
        if not second:
            raise Fault(8, "an own variable in a clause of the first system")

    def add(self, command, terms):
        second, disequation, _ = CLAUSES[command]
        self.check_system(second)
        self.check_room(second, disequation)
        for term in terms:
            self.check_term(term, second)
        self.clauses.append((command, *terms))


def write_question(question):
    """The bytes of a question."""
    string = bytearray([HEAD, question.kind, question.free, question.own])
    for leaves in question.constants:
        string.append(CONSTANT)
        string += leaves.to_bytes(4, "little")
    for clause in question.clauses:
        string += bytes(clause)
    string.append(END)
    return bytes(string)


def command_end(string, place):
    """Where the command at a place ends, its operands taken along."""
    if place == len(string):
        raise Refusal(2, place, place, "the bytes end where a command is due; the last command is 00")
    command = string[place]
    if command not in OPERANDS:
        raise Refusal(3, place, place + 1, f"no command is {command:02X}")
    operands = OPERANDS[command]
    end = place + 1 + operands
    if end > len(string):
        what = f"command {command:02X} has {operands} operand byte{'s' if operands > 1 else ''}, and {len(string) - place - 1} of them are there"
        raise Refusal(2, place, len(string), what)
    return end


def obey(question, command, operands):
    """The question after one more command; before the head there is none."""
    if command == HEAD:
        if question:
            raise Fault(4, "there is a head already")
        return Question(*operands)
    if command == CONSTANT:
        if question.clauses:
            raise Fault(4, "constants stand before the first clause")
        question.define(int.from_bytes(operands, "little"))
    elif command != END:
        question.add(command, operands)
    return question


def read_question(string):
    """The question that a byte string is. Commands are judged from the left, and the first fault is raised as a Refusal."""
    if string[:1] != bytes([HEAD]):
        found = f"it starts with {string[0]:02X}" if string else "there is no byte"
        raise Refusal(1, 0, min(1, len(string)), f"a question starts with 01, and {found}")
    question, place, command = None, 0, None
    while command != END:
        end = command_end(string, place)
        command = string[place]
        try:
            question = obey(question, command, string[place + 1:end])
        except Fault as fault:
            raise Refusal(fault.number, place, end, fault.what) from None
        place = end
    if place < len(string):
        raise Refusal(10, place, place + 1, "the question ends with the byte before")
    return question
