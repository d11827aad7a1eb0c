"""Answers: what the printing program says, read so that nothing lost or cut is taken for an answer."""

import os
import re

from front_end.text import KINDS
from front_end.trees import TreeFault, read_tree

SAID = re.compile(r"answer (yes|no)\n(?:height (\d{1,2})\n((?:v\d\d [(o*)]+\n)*))?(?:reason (\d)(?: (\d{1,2}))?\n)?", re.ASCII)

# What an answer means, from the kind of question, the verdict and the reason (docs/FORMAT.md, "What asking gives").
MEANINGS = {
    (0, "yes", None): "satisfiable",
    (0, "no", None): "not satisfiable",
    (1, "yes", 0): "the first system has a solution, and every one extends to the second",
    (1, "yes", 1): "the first system has no solution",
    (1, "no", 2): "some solution of the first cannot even meet the second's positive clauses",
    (1, "no", 3): "the positive clauses can always be met; the disequation named is the lowest that some solution cannot have beside them",
}


def cited(line):
    """A clause as it stands in the text, with its line."""
    return f"'{line}' (line {line.number})"


def together(lines):
    """The positive clauses of the second system, which stand in these lines."""
    if len(lines) == 1:
        return cited(lines[0])
    *numbers, last = [str(line.number) for line in lines]
    return f"the positive clauses of the second (lines {', '.join(numbers)} and {last})"


class Answer:
    """A verdict. With a shown solution its height and a tree text for each free variable, of an entailment the reason, and for
    reason 3 the disequation number; what there is not is None."""

    def __init__(self, verdict, height, trees, reason, disequation):
        self.verdict = verdict
        self.height = height
        self.trees = trees
        self.reason = reason
        self.disequation = disequation

    def named(self, names):
        """The shown trees by name; variables without a name are left out."""
        return {name: tree for name, tree in zip(names, self.trees) if name}

    def shown(self, names):
        """The lines of docs/SPEC.md, 9.2, but for the reason, with these names for v00 and so on."""
        lines = [f"answer {self.verdict}"]
        if self.height is not None:
            lines.append(f"height {self.height}")
            lines += [f"{name} {tree}" for name, tree in self.named(names).items()]
        return lines

    def lines(self):
        """The lines of docs/SPEC.md, 9.2."""
        lines = self.shown([f"v{number:02}" for number in range(len(self.trees))])
        if self.reason is not None:
            lines.append(f"reason {self.reason}" + ("" if self.disequation is None else f" {self.disequation}"))
        return lines

    def told(self, asked):
        """The same lines with the text's own names, and the reason in words."""
        return self.shown(asked.names) + ([] if self.reason is None else [f"reason: {self.words(asked)}"])

    def words(self, asked):
        """What the answer says, in words, beside the solution that is shown."""
        if asked.question.kind == 0:
            return "this is a solution" if self.verdict == "yes" else "there is no solution"
        if self.reason == 0:
            return "every solution of the first system extends to the second"
        if self.reason == 1:
            return "the first system has no solution"
        if self.reason == 2:
            return f"this solution of the first system cannot meet {together(asked.second_lines())}"
        missed = asked.disequation(self.disequation)
        positive = [line for line in asked.second_lines() if line is not missed]  # a line with joins inside has both
        beside = f" beside {together(positive)}" if positive else ""
        return f"this solution of the first system cannot have {cited(missed)}{beside}"

    def has_its_solution(self, question):
        """Whether a solution is shown exactly where one is due, with a tree for each free variable, none of them taller than said."""
        due = self.verdict == ("yes" if question.kind == 0 else "no")
        if self.height is None or not due:
            return self.height is None and not due
        try:
            for tree in self.trees:
                read_tree(tree, self.height)
        except TreeFault:
            return False
        return len(self.trees) == question.free

    def has_its_reason(self, question):
        """Whether the reason is one of this verdict, and names a disequation exactly where one is due."""
        named = self.disequation is not None and self.disequation < len(question.alike(second=True, disequation=True))
        return (question.kind, self.verdict, self.reason) in MEANINGS and (named if self.reason == 3 else self.disequation is None)


def read_answer(said, question):
    """The answer to a question that the program's output is, or None if it is not exactly one."""
    found = SAID.fullmatch(said)
    if not found:
        return None
    verdict, rows = found[1], found[3] or ""
    height, reason, disequation = (None if found[group] is None else int(found[group]) for group in (2, 4, 5))
    answer = Answer(verdict, height, [row[4:] for row in rows.splitlines()], reason, disequation)
    whole = answer.has_its_solution(question) and answer.has_its_reason(question) and answer.lines() == said.splitlines()
    return answer if whole else None


def file_name(name):
    """The name of a file, for --json."""
    return os.fsencode(name).decode("utf-8", "backslashreplace")


def to_object(name, asked=None, answer=None, trouble=None):
    """What --json says of a question: always the same keys, None where there is nothing to say."""
    said = dict.fromkeys(["file", "answer", "question", "reason", "meaning", "disequation", "height", "solution", "error"])
    said["file"] = file_name(name)
    if trouble:
        said["error"] = {"line": trouble.line, "column": trouble.column, "message": trouble.what}
        return said
    said.update(answer=answer.verdict, question=KINDS[asked.question.kind], reason=answer.reason, height=answer.height,
                meaning=MEANINGS[asked.question.kind, answer.verdict, answer.reason])
    if answer.disequation is not None:
        line = asked.disequation(answer.disequation)
        said["disequation"] = {"number": answer.disequation, "line": line.number, "text": str(line)}
    if answer.height is not None:
        said["solution"] = answer.named(asked.names)
    return said
