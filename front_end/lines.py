"""The lines of a text, word by word, and what is said where something else is due."""

import re
from contextlib import contextmanager

from front_end.files import LONG_NAME, Trouble, quote
from front_end.question import Fault
from front_end.trees import TALLEST, TreeFault, read_tree

WORD = re.compile(r"=|[^\s=]+")
NAME = re.compile(r"[A-Za-z_][A-Za-z_0-9]*")
NAME_DUE = "a name (letters a to z, digits and '_', no digit first)"

# Characters that no text has, because an editor or a terminal may show it otherwise than it is read: a clause on a
# line of its own that is in a comment, a line that is wiped out. And characters that it has in comments alone. With
# what is said of them; {} is the character's number.
HIDING = {
    "\r\v\f\x1c\x1d\x1e\x85\u2028\u2029": "a line break ({}) stands here that is no line feed: end each line with a line feed",
    "\u202a\u202b\u202c\u202d\u202e\u2066\u2067\u2068\u2069": "a character ({}) stands here that turns the order of what is shown: remove it",
    "\0": "a byte 00 stands here, so this is no UTF-8: save the text as UTF-8",
    "\x01-\x08\x0e-\x1b\x1f\x7f-\x84\x86-\x9f": "a control character ({}) stands here: remove it",
}
STRANGE = {"\ufeff": "a byte order mark stands here: it may only be the start of the file, so remove it"}


class TextFault(Trouble):
    """What is wrong with a text."""


def refuse(signs, text, number):
    """Raises a fault at the first of some characters that a line has."""
    found = re.search(f"[{''.join(signs)}]", text)
    if found:
        what = next(what for group, what in signs.items() if re.match(f"[{group}]", found.group()))
        raise TextFault(what.format(f"U+{ord(found.group()):04X}"), number, found.start() + 1)


def code_lines(text):
    """The lines of a text, numbered, without comments. A line feed ends a line, and a carriage return may stand before it."""
    for number, line in enumerate(text.split("\n"), 1):
        line = line[:-1] if line.endswith("\r") else line
        refuse(HIDING, line, number)
        yield number, line.split("#")[0].rstrip()


class Line:
    """The words of one line, taken from the left."""

    def __init__(self, number, code):
        self.number = number
        refuse(STRANGE, code, number)
        self.words = [(found.group(), found.start() + 1) for found in WORD.finditer(code)]
        self.words.append(("", len(code) + 1))
        self.at = 0  # the next word

    def __str__(self):
        return " ".join(word for word, _ in self.words[:-1])

    def peek(self, ahead=0):
        """The next word, or one after or before it; empty at the end of the line."""
        return self.words[min(self.at + ahead, len(self.words) - 1)][0]

    def rest(self, ahead):
        """The words from the next one on, or from one after it."""
        return " ".join(word for word, _ in self.words[self.at + ahead:-1])

    def column(self):
        return self.words[self.at][1]

    def fault(self, what):
        """A fault at the next word."""
        return TextFault(what, self.number, self.column())

    def due(self, what, hint=""):
        found = f"not {quote(self.peek())}" if self.peek() else "and the line ends"
        return self.fault(f"{what} is due here, {found}{hint}")

    def skip(self, word):
        """Takes that word if it is next, and says whether it was."""
        if self.peek() != word:
            return False
        self.at += 1
        return True

    def expect(self, word):
        if not self.skip(word):
            raise self.due(f"'{word}'")

    def take(self, what):
        """Takes a word, whatever it is."""
        if not self.peek():
            raise self.due(what)
        self.at += 1
        return self.words[self.at - 1][0]

    def take_tree(self, tallest=TALLEST):
        """Takes a tree text, and gives its 2^tallest leaves."""
        with self.here():
            try:
                leaves = read_tree(self.peek(), tallest)
            except TreeFault as fault:
                raise self.spaces(fault, tallest) or fault from None
        self.take("a tree")
        return leaves

    def spaces(self, fault, tallest):
        """What is said of a tree text that ends too soon, if the words after it are the rest of it."""
        first, depth = self.peek(), 0
        for number, (word, _) in enumerate(self.words[self.at:], 1):
            depth += word.count("(") - word.count(")")
            if depth <= 0:
                break
        if fault.at < len(first) or depth != 0 or number == 1:
            return None
        words = [word for word, _ in self.words[self.at:self.at + number]]
        if "join" in words:
            return TreeFault(fault.number, fault.at, "no tree text: a join stands without brackets round it")
        whole = "".join(words)
        try:
            read_tree(whole, tallest)
            write = f": write '{whole}'" if len(whole) <= LONG_NAME else ""
            return TreeFault(fault.number, fault.at, f"tree text has no spaces{write}")
        except TreeFault:
            return TreeFault(fault.number, fault.at, "tree text has no spaces")

    def no_name(self, due):
        """The fault of a next word that is no name, where something is due."""
        word = self.peek()
        if re.fullmatch(r"[0-9][A-Za-z_0-9]*", word):
            return self.fault(f"{quote(word)} starts with a digit, and a name does not: write {quote('_' + word)}, for example")
        parts = [part for part in re.split("[,;]", word) if part]
        if parts and parts != [word] and all(map(NAME.fullmatch, parts)):
            return self.fault(f"names are parted by spaces: write {quote(' '.join(parts))} for {quote(word)}")
        return self.due(due)

    def finish(self):
        if self.peek():
            alone = self.peek() in ("if", "then")
            raise self.due("the end of the line", ": it stands on a line of its own" if alone else "")

    @contextmanager
    def here(self):
        """Faults inside are faults at the word that is next now."""
        column = self.column()
        try:
            yield
        except Fault as fault:
            raise TextFault(fault.what, self.number, column) from None
        except TreeFault as fault:
            raise TextFault(fault.what, self.number, column + fault.at) from None


def word_lines(text):
    """The lines of a text that have words."""
    for number, code in code_lines(text):
        line = Line(number, code)
        if line.peek():
            yield line


def text_end(text):
    """Where a text ends, but for a comment: its last line and the column behind it."""
    [(_, code)] = code_lines(text.rpartition("\n")[2])
    return text.count("\n") + 1, len(code) + 1
