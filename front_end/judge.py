"""Judgements: what the judging program says of rows, read so that nothing lost or cut is taken for a judgement."""

import re

from front_end.answer import file_name
from front_end.broken import OVERLAP, SHORTFALL, SURPLUS, Broken
from front_end.text import KINDS
from front_end.trees import TALLEST_ROW, write_tree

SAID = re.compile(rf"(accepted|broken|extends)(?: (0|[1-9]\d?)(?: ({OVERLAP}|{SURPLUS}|{SHORTFALL}) at (0|[1-9]\d{{0,3}}))?)?\n", re.ASCII)

# What a judgement means, from the kind of question and its word (docs/FORMAT.md, "What judging gives").
MEANINGS = {
    (0, "accepted"): "the rows solve the system",
    (0, "broken"): "the rows break a clause of the system; the lowest that they break is named",
    (1, "accepted"): "the rows solve the first system, and no own shares extend them to the second",
    (1, "broken"): "the rows break a clause of the first system; the lowest that they break is named",
    (1, "extends"): "the rows solve the first system, and some own shares extend them to the second",
}


class Judgement:
    """Accepted, broken or extends, of rows for what a text asks; for broken the clause, otherwise None."""

    def __init__(self, asked, rows, word, broken):
        self.asked = asked
        self.rows = rows
        self.word = word
        self.broken = broken

    def meaning(self):
        return MEANINGS[self.asked.question.kind, self.word]

    def plain(self):
        """The line of the judging program."""
        return f"{self.word} {self.broken.plain()}" if self.broken else self.word

    def sentences(self):
        """What it says, in words."""
        return self.broken.sentences() if self.broken else [f"{self.word}: {self.meaning()}"]

    def shown(self):
        """The tree text of each named free variable and, behind them, of each other share of the broken clause."""
        trees = {name: write_tree(row, TALLEST_ROW) for name, row in zip(self.asked.names, self.rows) if name}
        others = self.broken.shares() if self.broken else {}
        return trees | {word: self.broken.tree(term) for word, term in others.items()}


def read_judgement(said, asked, rows):
    """The judgement of rows that the program's output is, or None if it is not exactly one."""
    found = SAID.fullmatch(said)
    if not found or (asked.question.kind, found[1]) not in MEANINGS or (found[1] == "broken") != (found[2] is not None):
        return None
    if found[2] is None:
        return Judgement(asked, rows, found[1], None)
    if int(found[2]) >= len(asked.first_clauses()):
        return None
    broken = Broken(asked, rows, int(found[2]), found[3], None if found[4] is None else int(found[4]))
    return Judgement(asked, rows, found[1], broken) if broken.fits() else None


def to_object(name, rows_name, judgement=None, trouble=None, at=None):
    """What --json says of rows: always the same keys, None where there is nothing to say; 'at' is the file that has the error."""
    said = dict.fromkeys(["file", "rows", "judgement", "question", "meaning", "clause", "way", "leaf", "path", "values", "error"])
    said.update(file=file_name(name), rows=file_name(rows_name))
    if trouble:
        said["error"] = {"file": file_name(at), "line": trouble.line, "column": trouble.column, "message": trouble.what}
        return said
    said.update(judgement=judgement.word, question=KINDS[judgement.asked.question.kind], meaning=judgement.meaning())
    broken = judgement.broken
    if broken:
        said["clause"] = {"number": broken.number, "line": broken.line.number, "text": str(broken.line)}
        said.update(way=broken.way, leaf=broken.leaf, path=broken.path(), values=broken.values())
    return said
