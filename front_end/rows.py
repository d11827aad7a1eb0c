"""Rows to be judged: a share for each free variable of a question, as text and as bytes."""

import re

from front_end.files import LONG_NAME, quote, shown
from front_end.lines import NAME, TextFault, text_end, word_lines
from front_end.question import COMMANDS, CONSTANTS, JOIN, MOST_VARIABLES
from front_end.text import CONSTANT_DUE, KEPT, decode, no_share, read_joined
from front_end.trees import TALLEST_ROW, unfold

ROW_BYTES = (1 << TALLEST_ROW) // 8
ROWS_BYTES = MOST_VARIABLES * ROW_BYTES
# The lines of an answer that are no rows.
PASSED_OVER = re.compile(r"answer (yes|no)|height \d{1,2}|reason \d( \d{1,2})?|reason: [^=]+", re.ASCII)
IN_BYTES = ("these are rows in bytes, and no text: the judging program reads them, and behind them what './ask --bytes FILE' writes "
            "(joins inside a clause of the first system have rows too)")

FORM = """Rows to be judged, with --judge: one free variable a line, by the question's names, each once; '#' starts a comment.

    writer = (*o)                  a share, as tree text, at most 10 pairs one in the other
    reader (o(*o))                 '=' may be left out, and lines 'answer ..', 'height ..', 'reason ..' and
                                   'reason: ..' are passed over: an answer can be pasted
    rest = L join (o(*o))          trees and constants of the question may be joined; an error if the join is undefined
"""


class RowsReader:
    """Reads rows line by line, for what a text asks."""

    def __init__(self, asked):
        free = asked.question.free
        self.free = [name for name in asked.names[:free] if name]
        self.own = [name for name in asked.names[free:] if name]
        self.constants = {name: unfold(leaves) for name, leaves in asked.constants.items()}
        self.rows = {}  # the leaves of each variable that was read
        self.lines = {}  # and its line
        self.passed = {}  # the last line that was passed over, from its first word

    def read(self, line):
        """Reads a line. With '=' it is never one that is passed over, so that any name and any constant can be written."""
        if PASSED_OVER.fullmatch(str(line)):
            self.passed[line.peek()] = line
            return
        name = self.read_name(line)
        if line.peek() == "is":
            raise line.due("'=' or a tree", ": write '=' for it")
        line.skip("=")
        self.rows[name] = read_joined(line, self.constants, self.no_constant, TALLEST_ROW)
        self.lines[name] = line.number

    def read_name(self, line):
        """Takes the name of a free variable that has no row yet."""
        word = line.peek()
        if not NAME.fullmatch(word) or word in KEPT:
            raise line.no_name("the name of a free variable")
        if word in self.lines:
            raise line.fault(f"{quote(word)} has a row already, in line {self.lines[word]}")
        if word not in self.free:
            raise line.fault(self.no_free_variable(word))
        return line.take("a name")

    def no_free_variable(self, word):
        """What is said of a name that has no row."""
        if word in self.own:
            return f"{quote(word)} is an own variable, and rows are those of the free ones alone: leave this line out"
        if word in self.constants:
            return f"{quote(word)} is a constant of the question, and rows are those of the free variables alone: leave this line out"
        free = f"its free variables are {', '.join(self.free)}" if self.free else "it has no free variable"
        return f"the question names nothing {quote(word)}: {shown(free)}"

    def no_constant(self, line, word):
        """The fault of a word that is no constant, where a share is due."""
        due = CONSTANT_DUE[0]
        if word.endswith((",", ";")):
            return line.due(due, f": a line has one variable and its share, and no '{word[-1]}' behind them")
        what = f"{quote(word)} is a variable" if word in self.free + self.own else f"the question has no constant {quote(word)}"
        return no_share(line, word, due) or line.fault(f"{due} is due here, and {what}")

    def finish(self, text):
        """Raises a fault, at the end of the text, if a free variable has no row."""
        missing = [name for name in self.free if name not in self.rows]
        if missing:
            lines = "a line for it is" if len(missing) == 1 else "a line for each is"
            passed = "".join(map(self.passed_over, missing))
            raise TextFault(f"no row for {shown(', '.join(missing), LONG_NAME)}: {lines} due before the text ends{passed}", *text_end(text))

    def passed_over(self, name):
        """What is said of a line that starts with that name and was passed over, if there is one: where it can be a row, how to write it."""
        if name not in self.passed:
            return ""
        line = self.passed[name]
        share = line.rest(1)
        return f", and line {line.number} was passed over" + (f": write '{name} = {share}'" if share in self.constants else "")


def in_bytes(string):
    """Whether rows seem to be in bytes: there are as many, with a byte 00 among them or no UTF-8."""
    try:
        return len(string) == ROWS_BYTES and "\0" in string.decode()
    except UnicodeDecodeError:
        return True


def read_rows(string, asked):
    """The leaves of each free variable of what a text asks, in order, from the bytes of a text of rows. A comment may have any bytes, so only
    what is wrong as a text is taken for rows in bytes."""
    reader = RowsReader(asked)
    try:
        text = decode(string)
        for line in word_lines(text):
            reader.read(line)
        reader.finish(text)
    except TextFault as fault:
        raise TextFault(IN_BYTES, 1, 1) if in_bytes(string) else fault from None
    return with_joins(asked.question, [reader.rows[name] for name in reader.free])


def with_joins(question, named):
    """The rows of the named free variables, and after them those of the variables that stand for a join inside a clause: that very join. Where
    it is undefined the clause is broken whatever the row is; with the leaves that are full in either, it fails nowhere but where they overlap."""
    rows = named + [None] * (question.free - len(named))
    constants = [unfold(leaves) for leaves in question.constants]
    for command, *terms in question.clauses:
        if command == COMMANDS[JOIN, False] and terms[2] < CONSTANTS and rows[terms[2]] is None:
            a, b = (constants[term - CONSTANTS] if term >= CONSTANTS else rows[term] for term in terms[:2])
            rows[terms[2]] = a | b
    return rows


def write_rows(rows):
    """The bytes of rows: 12 rows of 128, those of no free variable zero."""
    return b"".join(leaves.to_bytes(ROW_BYTES, "little") for leaves in rows).ljust(ROWS_BYTES, b"\0")
