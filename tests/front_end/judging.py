"""Tests of --judge: rows as text, what is wrong with them, what is said of them, and the library's call beside it."""

import json
import os
import pty
import re
import subprocess
from collections import Counter
from random import Random

import cases
import make
from front_end.judge import read_judgement
from front_end.question import read_question
from front_end.rows import read_rows
from front_end.text import read_text, write_text
from front_end.trees import write_tree
from harness import FOLDER, TOP, check, command, file, judging_program, library_judges, process, program, surroundings, wrong_program
from joins import Clause, Policy, random_meaning, total, up_to

WORDS = ["refused", "accepted", "broken", "extends"]  # what byte 0 of the library's number says
ROWS, ROW = 1536, 128  # bytes

# Questions. MIXED has clauses 0 and 1 of its first system in lines 7 and 11; the joins inside INSIDE's line 3 are two clauses.
WHOLE = "satisfiable\nfree a b c\nlet L = (*o)\n# a comment\na join b is c\na is not o\n  b   is L # left\n"
MIXED = "entails\nfree a\nown x y\nthen\nx join y is a\nif\na is not o\nthen\nx is not o\nif\na is not *\nthen\ny is not o"
INSIDE = "satisfiable\nfree a b c d\na join b join c is d\nd is not *"
FULL_OWN = "entails\nfree a\nown x\na is not *\nthen\nx is not o\nx with a\nx join a is *"
NAMED = "satisfiable\nfree answer height reason\nlet yes = *\nanswer is yes\nheight is (*o)\nreason is o"
TALL = "(" * 10 + "*o)" + "o)" * 9  # a tree of height 10
SOLVED = "a = (o*)\nb = L\nc = *\n"  # rows that solve WHOLE

ACCEPTED = "accepted: the rows solve the system"
NO_EXTENSION = "accepted: the rows solve the first system, and no own shares extend them to the second"
EXTENDS = "extends: the rows solve the first system, and some own shares extend them to the second"

# How a positive clause fails: the sorts of clauses and the ways.
JOINS = {"overlap": "both parts are full", "surplus": "just one part is full and the sum is empty", "shortfall": "both parts are empty and the sum is full"}
EQUALS = {"surplus": "the left side is full and the right side is empty", "shortfall": "the left side is empty and the right side is full"}
WRITES, WITHS = {"shortfall": "the share is empty"}, {"overlap": "both shares are full"}
SORTS = [JOINS, EQUALS, WRITES, WITHS]


def fails(clause, sort, way, values, leaf, path):
    """What is said of a positive clause that is broken."""
    return f"broken: clause {clause}\n{way} ({sort[way]}): {values}\nat leaf {leaf:,} of 1,024, the leftmost that fails: {path}"


def never(clause, everywhere):
    """What is said of a disequation that is broken."""
    return f"broken: clause {clause}\nat every leaf: {everywhere}"


# A question, rows, and what is said of them.
JUDGED = [
    (WHOLE, "a = (o*)\nb = L\nc = *", ACCEPTED),
    (WHOLE, "c *\na (o*)\nb (*o)\n", ACCEPTED),
    (WHOLE, "answer yes\nheight 1\na (o*)\nb (*o)\nc *\n", ACCEPTED),
    (WHOLE, "\ufeff# rows\r\n\r\n a=(o*) # a = o\r\nb\t(*o)\n\nc = L join (o*)\r", ACCEPTED),
    (WHOLE, b"a (o*) # \xff\xfe\nb L\nc (o(o*)) join L join (o(*o))", ACCEPTED),
    (WHOLE, "a = (o*)\nb = L\nc = (*o)",
     fails("0, line 5: a join b is c", JOINS, "surplus", "a is full, b is empty, c is empty", 512, "right, then always left")),
    (WHOLE, "a = *\nb = L\nc = *", fails("0, line 5: a join b is c", JOINS, "overlap", "a is full, b is full, c is full", 0, "always left")),
    (WHOLE, "a = o\nb = L\nc = (*(o(*o)))",
     fails("0, line 5: a join b is c", JOINS, "shortfall", "a is empty, b is empty, c is full", 768, "right, right, then always left")),
    (WHOLE, "a = o\nb = L\nc = L", never("1, line 6: a is not o", "a is o")),
    (WHOLE, "a = L\nb = (o*)\nc = *", fails("2, line 7: b is L", EQUALS, "shortfall", "b is empty, L is full", 0, "always left")),
    (WHOLE, "a = (o(o*))\nb = (*(*o))\nc = *", fails("2, line 7: b is L", EQUALS, "surplus", "b is full, L is empty", 512, "right, then always left")),
    (WHOLE, "a = o\nb = o\nc = o", never("1, line 6: a is not o", "a is o")),
    # Clauses of the second system in between are not counted, and own shares may be taller than the rows.
    (MIXED, "a = o", never("0, line 7: a is not o", "a is o")),
    (MIXED, "a = *", never("1, line 11: a is not *", "a is *")),
    (MIXED, "a = (*o)", EXTENDS),
    (MIXED, f"a = {TALL}", EXTENDS),
    (FULL_OWN, "a = (*o)", EXTENDS),
    (FULL_OWN.replace("x is not o", "x is (*o)"), "a = (o*)", EXTENDS),
    (FULL_OWN.replace("x is not o", "x is (*o)"), "a = (*o)", NO_EXTENSION),
    (FULL_OWN, "a = *", never("0, line 4: a is not *", "a is *")),
    # Joins inside a clause: the rows of their variables are not given, and follow from the others.
    (INSIDE, "a ((*o)o)\nb ((o*)o)\nc (o(*o))\nd (*(*o))", ACCEPTED),
    (INSIDE, "a *\nb *\nc o\nd *", fails("0, line 3: a join b join c is d", JOINS, "overlap", "a is full, b is full", 0, "always left")),
    (INSIDE, "a ((*o)o)\nb ((o*)o)\nc (o(*o))\nd *",
     fails("1, line 3: a join b join c is d", JOINS, "shortfall", "a join b is empty, c is empty, d is full", 768, "right, right, then always left")),
    (INSIDE, "a ((*o)o)\nb ((o*)o)\nc (*o)\nd (*o)",
     fails("1, line 3: a join b join c is d", JOINS, "overlap", "a join b is full, c is full, d is full", 0, "always left")),
    (INSIDE, "a ((*o)o)\nb ((o*)o)\nc (o*)\nd *", never("2, line 4: d is not *", "d is *")),
    # Names that an answer's other lines start with, and a constant that an answer's first line ends with.
    (NAMED, "answer yes\nheight 1\nreason 3 12\nanswer = yes\nheight (*o)\nreason o", ACCEPTED),
    (NAMED, "answer no\nheight 10\nanswer = o\nheight = (*o)\nreason = o\nreason 0",
     fails("0, line 4: answer is yes", EQUALS, "shortfall", "answer is empty, yes is full", 0, "always left")),
    # As many bytes as rows have that are in bytes, also with a comment of bytes that are no text.
    (WHOLE, f"{SOLVED}#".ljust(ROWS, "-"), ACCEPTED),
    (WHOLE, f"{SOLVED}#".encode().ljust(ROWS, b"\xff"), ACCEPTED),
    # No free variable; no clause; policies; the tallest tree, and the longest text of one.
    ("satisfiable", "", ACCEPTED),
    ("satisfiable", "# nothing\n\nanswer yes\nheight 0\n", ACCEPTED),
    ("satisfiable\n* is o", "", fails("0, line 2: * is o", EQUALS, "surplus", "* is full, o is empty", 0, "always left")),
    ("entails\nthen", "", EXTENDS),
    ("entails\nthen\n* is o", "", NO_EXTENSION),
    ("satisfiable\nfree a b\na may read\na with b\nb may write", "a (*o)\nb (o*)",
     fails("2, line 5: b may write", WRITES, "shortfall", "b is empty", 0, "always left")),
    ("satisfiable\nfree a\na is not o", f"a {TALL}", ACCEPTED),
    ("satisfiable\nfree a\na is (((((*o)o)o)o)o)", f"a {TALL}",
     fails("0, line 3: a is (((((*o)o)o)o)o)", EQUALS, "shortfall", "a is empty, (((((*o)o)o)o)o) is full", 1, "left, " * 9 + "right")),
    ("satisfiable\nfree a b\na join b is *", "a {0}\nb {1}".format(*(write_tree((1 << 1024) // 3 * one, 10) for one in (1, 2))), ACCEPTED),
]

DUE, NO_ROW = cases.CONSTANT, "is due before the text ends"
PART = "entails\nfree a b\nown x\nlet L = (*o)\na is b\nthen"
ALONE = "and rows are those of the free {}alone: leave this line out"
NAME = "the name of a free variable"
IN_BYTES = "these are rows in bytes, and no text: the judging program reads them, and behind them what './ask --bytes FILE' writes " \
    "(joins inside a clause of the first system have rows too)"
ONE = "a line has one variable and its share, and no '{}' behind them"


def balanced(leaves):
    """A folded tree with so many leaves, as low as it can be. Its text has three characters for each leaf, less two."""
    half = leaves // 2
    return "*" if leaves == 1 else "(o*)" if leaves == 2 else f"({balanced(half)}{balanced(leaves - half)})"


def spaced(tree):
    """A tree with one space in it."""
    return f"{tree[:9]} {tree[9:]}"


# Rows for PART, and where and why they are refused.
FAULTS = [
    ("", f"1:1: no row for a, b: a line for each {NO_ROW}"),
    ("a = o", f"1:6: no row for b: a line for it {NO_ROW}"),
    ("\nb o # a = o\n", f"3:1: no row for a: a line for it {NO_ROW}"),
    ("answer yes\nheight 0\nreason 0", f"3:9: no row for a, b: a line for each {NO_ROW}"),
    ("answer yes\nreason: the first system has no solution", f"2:41: no row for a, b: a line for each {NO_ROW}"),
    ("reason: a = b", f"1:1: {NAME} is due here, not 'reason:'"),
    ("reason:", f"1:1: {NAME} is due here, not 'reason:'"),
    (f"{SOLVED}#".encode().ljust(ROWS, b"\0"), f"1:1: {IN_BYTES}"),
    ("a o # \x1b[1A", "1:7: a control character (U+001B) stands here: remove it"),
    ("a o\n z = o", "2:2: the question names nothing 'z': its free variables are a, b"),
    ("A o", "1:1: the question names nothing 'A': its free variables are a, b"),
    ("answer maybe", "1:1: the question names nothing 'answer': its free variables are a, b"),
    ("height = 3", "1:1: the question names nothing 'height': its free variables are a, b"),
    ("height 3 2", "1:1: the question names nothing 'height': its free variables are a, b"),
    ("height 300", "1:1: the question names nothing 'height': its free variables are a, b"),
    ("reason 3 1 1", "1:1: the question names nothing 'reason': its free variables are a, b"),
    ("v00 o", "1:1: the question names nothing 'v00': its free variables are a, b"),
    ("x o", f"1:1: 'x' is an own variable, {ALONE.format('ones ')}"),
    ("a o\nb o\nx = (*o)", f"3:1: 'x' is an own variable, {ALONE.format('ones ')}"),
    ("L = (*o)", f"1:1: 'L' is a constant of the question, {ALONE.format('variables ')}"),
    ("a o\n\nb o\na o", "4:1: 'a' has a row already, in line 1"),
    ("a o\na", "2:1: 'a' has a row already, in line 1"),
    ("a", f"1:2: {DUE} is due here, and the line ends"),
    ("a = # o", f"1:4: {DUE} is due here, and the line ends"),
    ("a = = o", f"1:5: {DUE} is due here, not '='"),
    ("= o", f"1:1: {NAME} is due here, not '='"),
    ("(*o)", f"1:1: {NAME} is due here, not '(*o)'"),
    ("o *", f"1:1: {NAME} is due here, not 'o'"),
    ("free a b", f"1:1: {NAME} is due here, not 'free'"),
    ("7a = o", "1:1: '7a' starts with a digit, and a name does not: write '_7a', for example"),
    ("a, o", "1:1: names are parted by spaces: write 'a' for 'a,'"),
    ("a is o", "1:3: '=' or a tree is due here, not 'is': write '=' for it"),
    ("a is not o", "1:3: '=' or a tree is due here, not 'is': write '=' for it"),
    ("a = 1", "1:5: '1' is no share: write 'o' for the empty one, '*' for the full one"),
    ("a 0", "1:3: '0' is no share: write 'o' for the empty one, '*' for the full one"),
    ("a = b", f"1:5: {DUE} is due here, and 'b' is a variable"),
    ("a = L join x", f"1:12: {DUE} is due here, and 'x' is a variable"),
    ("a = R", f"1:5: {DUE} is due here, and the question has no constant 'R'"),
    ("a = L join", f"1:11: {DUE} is due here, and the line ends"),
    ("a = L, b = (o*)", f"1:5: {DUE} is due here, not 'L,': {ONE.format(',')}"),
    ("a L;", f"1:3: {DUE} is due here, not 'L;': {ONE.format(';')}"),
    ("a = (*o) join R, b = o", f"1:15: {DUE} is due here, not 'R,': {ONE.format(',')}"),
    ("a = L L", "1:7: 'join' or the end of the line is due here, not 'L'"),
    ("a (*o) (o*)", "1:8: 'join' or the end of the line is due here, not '(o*)'"),
    ("a = L join (o*) join (o(o*))", f"1:22: {cases.UNDEFINED.format('(o(o*))', '*', '(o(o*))')}"),
    ("a (*", "1:5: no tree text: it ends before the tree does"),
    ("a = (*x)", "1:7: no tree text: '(', 'o' or '*' is due here, not 'x'"),
    ("a = *o", "1:6: no tree text: the tree ends before this character"),
    ("a = (o *)", "1:7: tree text has no spaces: write '(o*)'"),
    ("a = (o " + "(o " * 9 + "*" + ")" * 10, "1:7: tree text has no spaces: write '" + "(o" * 10 + "*" + ")" * 10 + "'"),
    # What is to be written is not repeated where it is long.
    (f"a = {spaced(balanced(100))}", f"1:14: tree text has no spaces: write '{balanced(100)}'"),
    (f"a = {spaced(balanced(101))}", "1:14: tree text has no spaces"),
    ("a = (o(**))", "1:7: a pair of two equal leaves must be folded: write '*' for '(**)'"),
    (f"a = ({TALL}o)", "1:15: the tree is too tall: at most 10 pairs may stand one in the other"),
    (f"a {'(o' * 1600}", "1:3073: no tree text: it is too long: a folded tree with at most 10 pairs one in the other has at most 3,070 characters"),
    ("a (*o)\rb = o", "1:7: a line break (U+000D) stands here that is no line feed: end each line with a line feed"),
    ("a = o # \u202e", "1:9: a character (U+202E) stands here that turns the order of what is shown: remove it"),
    ("a\0 = o", "1:2: a byte 00 stands here, so this is no UTF-8: save the text as UTF-8"),
    (b"\xff\xfea\0", "1:1: the text is in UTF-16: save it as UTF-8"),
    # Rows in bytes, and a byte fewer or more. What they start with may be what a text in UTF-16, or one with a byte order mark, starts with.
    (bytes(ROWS), f"1:1: {IN_BYTES}"),
    (b"\xff" * ROW + b"\xc3\xa4" + bytes(ROWS - ROW - 2), f"1:1: {IN_BYTES}"),
    (bytes(ROWS - 1), "1:1: a byte 00 stands here, so this is no UTF-8: save the text as UTF-8"),
    (bytes(ROWS + 1), "1:1: a byte 00 stands here, so this is no UTF-8: save the text as UTF-8"),
    (b"\xff\xfe" + bytes(ROWS - 2), f"1:1: {IN_BYTES}"),
    (b"\xfe\xff" + bytes(ROWS - 2), f"1:1: {IN_BYTES}"),
    (b"\xff\xfe" + bytes(ROWS - 1), "1:1: the text is in UTF-16: save it as UTF-8"),
    (b"\xef\xbb\xbf" + bytes(ROWS - 3), f"1:1: {IN_BYTES}"),
    (b"\xef\xbb\xbf" + bytes(ROWS), "1:1: a byte 00 stands here, so this is no UTF-8: save the text as UTF-8"),
    (b"\xff" * ROWS, f"1:1: {IN_BYTES}"),
    (b"\x55" * (ROWS - 1) + b"\xff", f"1:1: {IN_BYTES}"),
    (b"\xff" * (ROWS - 1), f"1:1: {NAME} is due here, not '" + "\\xff" * 40 + "...'"),
    (b"\xff" * (ROWS + 1), f"1:1: {NAME} is due here, not '" + "\\xff" * 40 + "...'"),
    # A text of as many bytes keeps its own message.
    ("a = o\n#".ljust(ROWS, "-"), f"2:1: no row for b: a line for it {NO_ROW}"),
    ("a = o\n# \u00e4".ljust(ROWS - 1, "-"), f"2:1: no row for b: a line for it {NO_ROW}"),
    (b"\xff o", f"1:1: {NAME} is due here, not '\\xff'"),
]

# Rows with a line that is passed over and starts with the name of a variable without a row, for constants 'no' and 'L', and why they are refused.
PASSED = [
    ("free answer b", "answer no\nb = L", f"2:6: no row for answer: a line for it {NO_ROW}, and line 1 was passed over: write 'answer = no'"),
    ("free answer b", "b = L\n  answer\tno # so\n", f"3:1: no row for answer: a line for it {NO_ROW}, and line 2 was passed over: write 'answer = no'"),
    ("free answer b", "answer yes\nb = L\nanswer no", f"3:10: no row for answer: a line for it {NO_ROW}, and line 3 was passed over: write 'answer = no'"),
    ("free answer b", "answer no", f"1:10: no row for answer, b: a line for each {NO_ROW}, and line 1 was passed over: write 'answer = no'"),
    # What no constant is named cannot be written.
    ("free answer", "\nanswer yes", f"2:11: no row for answer: a line for it {NO_ROW}, and line 2 was passed over"),
    ("free answer height reason", "answer no\nheight 3\nreason 3 1",
     f"3:11: no row for answer, height, reason: a line for each {NO_ROW}, and line 1 was passed over: write 'answer = no', and line 2 was passed over, "
     "and line 3 was passed over"),
    # The line is passed over, and the row that is missing is another one.
    ("free answer b", "answer no\nanswer = no", f"2:12: no row for b: a line for it {NO_ROW}"),
    ("free b", "answer no\nheight 0", f"2:9: no row for b: a line for it {NO_ROW}"),
]


def as_bytes(text):
    return text if isinstance(text, bytes) else text.encode()


def judged(question, rows, *options):
    """Judges rows for a question, both as text, inside this process."""
    return command("ask", "--judge", *options, str(file("question.shares", as_bytes(question))), "-", given=as_bytes(rows))


def plain(said):
    """What the judging program says where ask says so."""
    word, clause, way, leaf = re.fullmatch(r"(\w+)(?:: clause (\d+),.*\n(?:at every.*|(\w+) .*\nat leaf ([\d,]+) .*)|: the rows.*)?", said).groups()
    return " ".join([word, *([clause] if clause else []), *([way, "at", leaf.replace(",", "")] if way else [])])


def packed(said):
    """The number that the library gives where the judging program says so."""
    word, *numbers = said.split()
    if word == "refused":
        return int(numbers[0]) << 8 | int(numbers[2]) << 16
    clause, way, _, leaf = [*numbers, "holds", "at", "0"] if len(numbers) == 1 else numbers or ["0", "holds", "at", "0"]
    return WORDS.index(word) | int(clause) << 32 | ["holds", *JOINS].index(way) << 40 | int(leaf) << 48


def check_judged(question, rows, due):
    """Judges rows; the bytes that ask hands over are judged alike by the program and by the library."""
    name, status = f"{rows!r} for {question!r}", int(not due.startswith("accepted"))
    check(name, judged(question, rows), (status, f"{due}\n".encode(), ""))
    check(f"--plain: {name}", judged(question, rows, "--plain"), (status, f"{plain(due)}\n".encode(), ""))
    status, string, errors = judged(question, rows, "--bytes")
    due_bytes = command("ask", "--bytes", "-", given=as_bytes(question))[1]
    check(f"--bytes: {name}", (status, string[ROWS:], errors), (0, due_bytes, ""))
    check(f"the program: {name}", judging_program(string), plain(due))
    check(f"the library: {name}", library_judges([(string[ROWS:], string[:ROWS])]), [packed(plain(due))])


def test_judged():
    """Rows that were worked by hand."""
    for question, rows, due in JUDGED:
        check_judged(question, rows, due)


def test_row_bytes():
    """Which bytes rows are: leaf i is bit i mod 8 of byte i div 8, and rows of no free variable are zero."""
    question = "entails\nfree a b c\nown x\nlet L = (*o)\na join b join c is *\nthen"
    string = judged(question, f"c {TALL}\na = L join (o(o*))\nb *", "--bytes")[1]
    due = b"\xff" * 64 + bytes(32) + b"\xff" * 32 + b"\xff" * 128 + b"\1" + bytes(127)
    check("rows of the named variables", string[:3 * ROW], due)
    check("the row of a join that is undefined: full where one of its parts is", string[3 * ROW:4 * ROW], b"\xff" * 128)
    check("rows of no free variable", string[4 * ROW:ROWS], bytes(8 * ROW))
    string = judged(question, "a (*o)\nb (o(*o))\nc o", "--bytes")[1]
    check("the row of a join", string[3 * ROW:4 * ROW], b"\xff" * 96 + bytes(32))


def test_row_faults():
    for rows, due in FAULTS:
        check(f"fault of rows {rows[:60]!r}", judged(PART, rows), (2, b"", f"-:{due}\n"))
    for free, rows, due in PASSED:
        check(f"passed over in {rows!r}", judged(f"satisfiable\n{free}\nlet no = o\nlet L = (*o)", rows), (2, b"", f"-:{due}\n"))
    found = judged("satisfiable\nfree answer\nlet no = o\nanswer is no", "answer = no")
    check("what is to be written", found, (0, f"{ACCEPTED}\n".encode(), ""))
    nothing = "the question names nothing 'a': it has no free variable"
    check("rows for no variable", judged("satisfiable", "a = o"), (2, b"", f"-:1:1: {nothing}\n"))
    long = "satisfiable\n" + "".join(f"free {sign * 255}\n" for sign in "abc")
    errors = judged(long, "")[2]
    check("long names", (len(errors) < 500, "..." in errors, errors.count("\n")), (True, True, 1))


def piped(question, rows):
    """What the judging program prints for a question as text and for rows in bytes, as docs/FORMAT.md says how they are judged."""
    script = '(cat ROWS; "$ASK" --bytes FILE) | "$ZIMORGAL_JUDGE_CLI"'
    file("FILE", question)
    file("ROWS", rows)
    return subprocess.run(["sh", "-c", script], stdout=subprocess.PIPE, cwd=FOLDER.name, env=surroundings({"ASK": str(TOP / "ask")}), check=True).stdout


def test_rows_in_bytes():
    """Rows in bytes, by the judging program: the joins inside a clause of the first system have rows too, behind those that have names."""
    for question, rows in [(INSIDE, "a ((*o)o)\nb ((o*)o)\nc (o(*o))\nd (*(*o))"),
                           ("satisfiable\nfree a b c d\na join b with c join d", "a (*o)\nb o\nc o\nd (o*)"),
                           ("entails\nfree a b c d\na join b may read\nthen\na join b join c is d", "a (*o)\nb o\nc o\nd (o*)")]:
        string = judged(question, rows, "--bytes")[1][:ROWS]
        check(f"{rows!r} in bytes for {question!r}", piped(question, string), b"accepted\n")
        zeroed = string[:4 * ROW].ljust(ROWS, b"\0")
        check(f"{rows!r} in bytes for {question!r}, and no joins", (string != zeroed, piped(question, zeroed)), (True, b"broken 0 surplus at 0\n"))
        check(f"{rows!r} in bytes for {question!r} as text", judged(question, string), (2, b"", f"-:1:1: {IN_BYTES}\n"))
    rows = judged(WHOLE, SOLVED, "--bytes")[1][:ROWS]
    check("no joins inside", piped(WHOLE, rows), b"accepted\n")


def test_judge_command():
    """Ways to call it: which file is at fault, standard input once, what cannot be asked for together."""
    question, rows = file("judge.shares", WHOLE).name, file("judge.rows", "a (o*)\nb (*o)\nc *\n").name
    check("two files", process("ask", "--judge", question, rows), (0, f"{ACCEPTED}\n".encode(), ""))
    found = process("ask", "--judge", "-", rows, given=WHOLE.encode())
    check("the question from standard input", found, (0, f"{ACCEPTED}\n".encode(), ""))
    check("the rows from standard input", process("ask", question, "-", "--judge", given=b"a o\nb L\nc L"),
          (1, b"broken: clause 1, line 6: a is not o\nat every leaf: a is o\n", ""))
    check("an error in the question comes first", process("ask", "--judge", "-", "none.rows", given=b"entails\nfree a a"),
          (2, b"", "-:2:8: 'a' is defined already, in line 2\n"))
    check("no such rows", process("ask", "--judge", question, "none.rows"), (2, b"", "none.rows: it could not be read: No such file or directory\n"))
    check("an error in the rows names their file", process("ask", "--judge", question, file("faulty.rows", "a o\nb p").name),
          (2, b"", f"faulty.rows:2:3: {DUE} is due here, and the question has no constant 'p'\n"))
    found = process("ask", "--judge", question, "faulty.rows", ZIMORGAL_JUDGE_CLI="no/program")
    check("an error in the rows comes before the program's", found[2][:12], "faulty.rows:")
    check("--bytes runs no program", process("ask", "--judge", "--bytes", question, rows, ZIMORGAL_JUDGE_CLI="no/program")[0], 0)
    check("the printing program is not run", process("ask", "--judge", question, rows, ZIMORGAL_CLI="no/program")[0], 0)
    for arguments, due in [((question,), "--judge takes two files, FILE and ROWS"), ((question, rows, rows), "--judge takes two files, FILE and ROWS"),
                           (("-", "-"), "'-' may stand once: standard input is read to its end")]:
        check(f"ask --judge {arguments}", process("ask", "--judge", *arguments), (2, b"", f"{due} ('ask --help' says what may be written)\n"))
    help_text = process("ask", "--help")[1].decode()
    missing = [form for form in ("writer = (*o)", "reader (o(*o))", "rest = L join (o(*o))") if not re.search(f"^ +{re.escape(form)}  ", help_text, re.M)]
    check("the help has the forms of a row", missing, [])
    check("the help has the ways in which a clause fails", [way for way in JOINS if f"'{way}'" not in help_text], [])


def test_pasted():
    """The answer to each example that shows a solution, pasted back, is accepted; of the others the rows are missing."""
    seen = Counter()
    for example in sorted((TOP / "examples").glob("*.shares")):
        answer = command("ask", str(example))[1]
        found = command("ask", "--judge", str(example), "-", given=answer)
        if b"\nheight " in answer:
            said = ACCEPTED if answer.startswith(b"answer yes\n") else NO_EXTENSION
            check(f"the answer to {example.name}", found, (0, f"{said}\n".encode(), ""))
        else:
            check(f"the answer to {example.name} shows nothing", (found[0], "no row for" in found[2]), (2, True))
        seen[found[0]] += 1
    check("examples of both sorts", (seen[0] >= 10, seen[2] >= 5), (True, True))


KEYS = ["file", "rows", "judgement", "question", "meaning", "clause", "way", "leaf", "path", "values", "error"]
# A question and rows, the status, and what --json says of them, but for the files.
OBJECTS = [
    (WHOLE, "a (o*)\nb L\nc *", 0, {"judgement": "accepted", "question": "satisfiable", "meaning": "the rows solve the system"}),
    (WHOLE, "a L\nb (o*)\nc *", 1, {"judgement": "broken", "question": "satisfiable", "clause": {"number": 2, "line": 7, "text": "b is L"},
                                    "way": "shortfall", "leaf": 0, "path": ["left"] * 10, "values": {"b": "empty", "L": "full"},
                                    "meaning": "the rows break a clause of the system; the lowest that they break is named"}),
    (INSIDE, "a ((*o)o)\nb ((o*)o)\nc (o(*o))\nd *", 1,
     {"judgement": "broken", "question": "satisfiable", "clause": {"number": 1, "line": 3, "text": "a join b join c is d"}, "way": "shortfall",
      "leaf": 768, "path": ["right"] * 2 + ["left"] * 8, "values": {"a join b": "empty", "c": "empty", "d": "full"},
      "meaning": "the rows break a clause of the system; the lowest that they break is named"}),
    (MIXED, "a *", 1, {"judgement": "broken", "question": "entails", "clause": {"number": 1, "line": 11, "text": "a is not *"},
                       "meaning": "the rows break a clause of the first system; the lowest that they break is named"}),
    (MIXED, "a (*o)", 1, {"judgement": "extends", "question": "entails",
                          "meaning": "the rows solve the first system, and some own shares extend them to the second"}),
    ("entails\nfree a\nthen\na is *", "a (*o)", 0, {"judgement": "accepted", "question": "entails",
                                                    "meaning": "the rows solve the first system, and no own shares extend them to the second"}),
    (WHOLE, "a o\nb L", 2, {"error": {"file": "json.rows", "line": 2, "column": 4, "message": f"no row for c: a line for it {NO_ROW}"}}),
    ("entails a", "", 2, {"error": {"file": "json.shares", "line": 1, "column": 9, "message": "the end of the line is due here, not 'a'"}}),
]


def test_judge_json():
    """--json: one object on a line, always with the same keys."""
    for question, rows, status, said in OBJECTS:
        names = file("json.shares", question).name, file("json.rows", rows).name
        due = {key: None for key in KEYS} | dict(zip(("file", "rows"), names)) | said
        found = process("ask", "--judge", "--json", *names)
        check(f"--json of {rows!r} for {question!r}", (found[0], json.loads(found[1]), found[2]), (status, due, ""))
        check(f"the keys for {question!r}", (list(json.loads(found[1])), found[1].count(b"\n"), found[1].isascii()), (KEYS, 1, True))
    question, silent = file("judge.shares", "entails\nthen").name, wrong_program("wrong", "exit 0")
    for rows, at, message in [("none.rows", "none.rows", "it could not be read: No such file or directory"),
                              ("json.rows", question, "the judging program gave no judgement: it printed nothing")]:
        status, out, errors = process("ask", "--judge", "--json", question, rows, ZIMORGAL_JUDGE_CLI=silent)
        due = {"file": at, "line": None, "column": None, "message": message}
        check(f"--json, {message}", (status, json.loads(out)["error"], errors), (2, due, ""))
    no_text = file(os.fsdecode(b"\xff"), "entails a").name
    for names, at in [((question, no_text), "rows"), ((no_text, question), "file")]:
        said = json.loads(process("ask", "--judge", "--json", *names)[1])
        check(f"--json, a name that is no text, of {at}", (said[at], said["error"]["file"]), ("\\xff", "\\xff"))


# What is no whole judgement of rows for MIXED, which has two clauses in its first system, both disequations.
NO_JUDGEMENT = ["", "accepted", "accepted\n\n", "accepted 0\n", "accept\n", "broken\n", "broken \n", "broken 2\n", "broken 00\n", "broken 01\n", "broken -1\n",
                "broken 1", "broken 1 \n", " broken 1\n", "broken \u0661\n", "broken 1\nextends\n", "extends 0\n", "extends", "Extends\n", "refused 18 at 0\n",
                "accepted\r\n", "answer yes\n", "broken " + "1" * 9999 + "\n", "broken 0 overlap at 0\n", "broken 0 surplus at 0\n", "broken 1 shortfall at 0\n",
                "broken 1 holds at 0\n", "broken 1 at 0\n"]
# And of rows for WHOLE with a and b full at leaf 0; a full, b and c empty at leaf 512; all three empty at leaf 768.
NO_FAILING = ["broken 0\n", "broken 2\n", "broken 3 overlap at 0\n", "broken 0 overlap\n", "broken 0 overlap at\n", "broken 0 overlap at \n", "broken 0 overlap 0\n",
              "broken 0 at 0\n", "broken overlap at 0\n", "broken 0 overlap at 00\n", "broken 0 surplus at 0512\n", "broken 0 overlap at -0\n", "broken 0 overlap at +0\n",
              "broken 00 overlap at 0\n", "broken 0 overlap at 0 \n", "broken 0 overlap at 0 0\n", "broken 0 overlap at 0\n\n", "broken 0 overlap at 0\r\n",
              "broken 0 overlap at 0\naccepted\n", " broken 0 overlap at 0\n", "broken 0  overlap at 0\n", "broken 0 overlap  at 0\n", "broken 0 overlap at  0\n",
              "broken 0 Overlap at 0\n", "broken 0 overlaps at 0\n", "broken 0 holds at 0\n", "broken 0 overlap at \u0660\n", "broken 0 overlap at 0.0\n",
              "broken 0 1 at 0\n", "broken 0 overlap in 0\n", "accepted overlap at 0\n", "accepted 0 overlap at 0\n", "extends 0 overlap at 0\n",
              "broken 0 overlap at 1024\n", "broken 0 surplus at 1024\n", "broken 0 shortfall at 1024\n", "broken 0 overlap at 9999\n", "broken 0 overlap at 10000\n",
              "broken 0 overlap at " + "1" * 9999 + "\n",
              # Another way than the values at the leaf give, or none of the clause; a leaf where it holds; a disequation.
              "broken 0 surplus at 0\n", "broken 0 shortfall at 0\n", "broken 0 overlap at 512\n", "broken 0 shortfall at 512\n", "broken 0 surplus at 768\n",
              "broken 0 overlap at 768\n", "broken 2 overlap at 0\n", "broken 2 surplus at 0\n", "broken 2 shortfall at 512\n", "broken 1 overlap at 0\n"]


def test_whole_judgements():
    """Each judgement is taken, and nothing that is lost, cut or not one of these rows."""
    mixed, rows = read_text(MIXED), [0]
    for said in ("accepted\n", "broken 0\n", "broken 1\n", "extends\n"):
        check(f"{said!r} is taken", read_judgement(said, mixed, rows).plain() + "\n", said)
        for length in range(len(said)):
            check(f"{said[:length]!r} is cut", read_judgement(said[:length], mixed, rows), None)
    for said in NO_JUDGEMENT:
        check(f"{said!r} is no judgement", read_judgement(said, mixed, rows), None)


def test_whole_failings():
    """The same of positive clauses. Way and leaf are there exactly for them, and are those that the values of the clause's shares give."""
    whole = read_text(WHOLE)
    rows = read_rows(b"a = (*(*o))\nb = L\nc = L", whole)
    for said in ("accepted\n", "broken 1\n", "broken 0 overlap at 0\n", "broken 0 surplus at 512\n"):
        check(f"{said!r} is taken", read_judgement(said, whole, rows).plain() + "\n", said)
        for length in range(len(said)):
            check(f"{said[:length]!r} is cut", read_judgement(said[:length], whole, rows), None)
    for said in NO_FAILING:
        check(f"{said!r} is no judgement", read_judgement(said, whole, rows), None)
    check("rows of a satisfiability do not extend", read_judgement("extends\n", whole, rows), None)
    last = read_rows(f"a = o\nb = (*{'(o' * 9}*{')' * 10}\nc = *".encode(), whole)
    for said in ("broken 2 surplus at 1023\n", "broken 0 shortfall at 1022\n"):
        check(f"{said!r} is taken", read_judgement(said, whole, last).plain() + "\n", said)
    for said in ("broken 2 surplus at 1022\n", "broken 2 surplus at 1024\n", "broken 0 shortfall at 1023\n", "broken 2 surplus at 102\n"):
        check(f"{said!r} is no judgement of other rows", read_judgement(said, whole, last), None)
    policy = read_text("satisfiable\nfree a b\na with b\na may write\na is b")
    rows = read_rows(b"a = (*(*o))\nb = (*o)", policy)  # both are full at leaf 0, a alone at leaf 512, and none at leaf 768
    for said in ("broken 0 overlap at 0\n", "broken 1 shortfall at 768\n", "broken 2 surplus at 512\n"):
        check(f"{said!r} is taken, of a policy", read_judgement(said, policy, rows).plain() + "\n", said)
    for said in ("broken 0 surplus at 512\n", "broken 0 shortfall at 768\n", "broken 1 overlap at 0\n", "broken 1 surplus at 0\n", "broken 1 shortfall at 512\n",
                 "broken 1 shortfall at 1024\n", "broken 1 shortfall at 2000\n", "broken 2 overlap at 0\n", "broken 2 shortfall at 512\n"):
        check(f"{said!r} is no judgement, of a policy", read_judgement(said, policy, rows), None)


def test_lost_judgements():
    """A judging program that does not do its work."""
    names = file("judge.shares", WHOLE).name, file("judge.rows", "a (o*)\nb (*o)\nc *\n").name
    real = f'"{os.environ["ZIMORGAL_JUDGE_CLI"]}"'
    for script, due in [(f"{real} | head -c 8", "gave no whole judgement: it printed 'accepted'"), (f"{real}; exit 3", "ended with status 3"),
                        (f"{real}; kill -9 $$", "was ended by signal 9"), ("exit 0", "gave no judgement: it printed nothing"),
                        ("echo lost >&2", "gave no judgement: it printed nothing; its error: lost"),
                        ("echo broken 3", "gave no whole judgement: it printed 'broken 3\\n'"),
                        ("echo broken 0", "gave no whole judgement: it printed 'broken 0\\n'"),
                        ("echo broken 0 overlap at 0", "gave no whole judgement: it printed 'broken 0 overlap at 0\\n'"),
                        ("echo extends", "gave no whole judgement: it printed 'extends\\n'"),
                        ("echo refused 19 at 0", "refused the rows and the question: refused 19 at 0")]:
        found = process("ask", "--judge", *names, ZIMORGAL_JUDGE_CLI=wrong_program("wrong", script))
        check(f"a program that does {script}", found, (2, b"", f"judge.shares: the judging program {due}\n"))
    due = "judge.shares: the judging program no/program could not be run: No such file or directory ($ZIMORGAL_JUDGE_CLI names it)\n"
    check("no such program", process("ask", "--judge", *names, ZIMORGAL_JUDGE_CLI="no/program"), (2, b"", due))
    warned = process("ask", "--judge", *names, ZIMORGAL_JUDGE_CLI=wrong_program("wrong", f"echo warning >&2; {real}"))
    check("a warning beside a judgement", warned, (0, f"{ACCEPTED}\n".encode(), "judge.shares: warning\n"))


def typed(string):
    """What the judging program prints, and its errors, where a string is typed on a terminal: byte 04 ends the input, which can go on after that."""
    ours, theirs = pty.openpty()
    try:
        os.write(ours, string)
        done = subprocess.run([os.environ["ZIMORGAL_JUDGE_CLI"]], stdin=theirs, stdout=subprocess.PIPE, stderr=subprocess.PIPE, timeout=20)
    finally:
        os.close(ours)
        os.close(theirs)
    return done.stdout, done.stderr


def test_typed():
    """Input that ends before the rows are all there has no question, though it could go on. A machine may have no terminal to give."""
    try:
        for end in pty.openpty():
            os.close(end)
    except OSError as error:
        print(f"no terminal here, so typing is not tested: {error}")
        return
    check("input that ends", typed(b"\4\4"), (b"refused 1 at 0\n", b""))
    due = b"", b"zimorgal_judge_cli: standard input could not be read\n"
    check("input that goes on after its end", typed(b"\4\1\0\0\0\0\4\4"), due)


def solution(string):
    """The shown shares of a question in bytes, as tree texts; None where nothing is shown."""
    lines = program(string)
    return [line[4:] for line in lines if re.match(r"v\d\d ", line)] if lines[1:] and lines[1].startswith("height ") else None


def candidates(random, shown, free):
    """Rows for a question: those that are shown, those with one changed, and any."""
    if shown is not None:
        yield shown
    for _ in range(2 if shown else 0):
        changed = shown[:]
        changed[random.randrange(free)] = random.choice([*shown, "o", "*", write_tree(make.random_leaves(random, 10), 10)])
        yield changed
    for tallest in (0, 2, 10) if free else ():
        yield [write_tree(make.random_leaves(random, tallest), tallest) for _ in range(free)]


def test_beside_the_library():
    """Random questions and rows, by ask, by the program and by the library. What is shown is accepted."""
    random, seen = Random(31), Counter()
    for _ in range(150):
        string = make.random_question(random)
        asked = read_question(string)
        text, shown = write_text(asked), solution(string)
        for trees in candidates(random, shown, asked.free):
            rows = "".join(f"v{number:02} {tree}\n" for number, tree in enumerate(trees))
            status, given, errors = judged(text, rows, "--bytes")
            check(f"the bytes of {rows!r} for {text!r}", (status, len(given), given[ROWS:], errors), (0, ROWS + len(string), string, ""))
            [number] = library_judges([(string, given[:ROWS])])
            said = judging_program(given)
            check(f"program and library, {rows!r} for {text!r}", packed(said), number)
            check(f"ask, {rows!r} for {text!r}", judged(text, rows, "--plain"), (int(said != "accepted"), f"{said}\n".encode(), ""))
            if trees == shown:
                check(f"what is shown for {text!r}", said, "accepted")
            seen[said.split()[0]] += 1
    check("every judgement was seen", [word for word in WORDS[1:] if seen[word] < 15], [])


def test_library_refusals():
    """Refusals, which ask never meets: of the question first, then of the rows' length, then of a bit in a row of no free variable."""
    question, faulty = bytes.fromhex("01 01 01 01 00"), bytes.fromhex("01 01 01 01 04")
    zero, own, last = bytes(ROWS), bytes(ROW) + b"\1" + bytes(ROWS - ROW - 1), bytes(ROWS - 1) + b"\x80"
    due = [(question, zero, 3), (question, own, 19 << 8), (question, last, 19 << 8), (question, b"\xff" * ROW + bytes(ROWS - ROW), 3),
           (faulty, own, 3 << 8 | 4 << 16), (b"", b"", 1 << 8)]
    due += [(question, bytes(length), 18 << 8) for length in (0, 1, ROW, ROWS - 1, ROWS + 1, 2 * ROWS)]
    due += [(question, own + b"\0", 18 << 8), (faulty, b"", 3 << 8 | 4 << 16)]
    given = library_judges([pair[:2] for pair in due])
    for (string, rows, number), found in zip(due, given):
        check(f"{string.hex()} with {len(rows)} bytes of rows", hex(found), hex(number))
        if len(rows) == ROWS:
            check(f"the program, {string.hex()}", packed(judging_program(rows + string)), number)


def first_undefined(words, shares):
    """At which join, from 0, the joins of some shares from the left are undefined first; None where none is."""
    return next((number for number in range(len(words) - 1) if total(words[:number + 2], shares) is None), None)


def parts(clause):
    """How many clauses a clause of a text is in bytes."""
    joins = len(clause.left) - 1 + max(len(clause.right) - 1, 0)
    return joins + 1 if isinstance(clause, Policy) else 1 if clause.negated else max(joins, 1)


def broken_part(clause, shares):
    """Which of them is the first that is broken, where the clause is."""
    if isinstance(clause, Clause) and parts(clause) == 1:
        return 0
    left, right = first_undefined(clause.left, shares), first_undefined(clause.right, shares)
    return left if left is not None else parts(clause) - 1 if right is None else len(clause.left) - 1 + right


def pieces(clause):
    """The clauses that a clause of a text is in bytes: of each its sort, None for a disequation, and for each term the words that are joined to it."""
    joins = [(JOINS, [side[:at], side[at:at + 1], side[:at + 1]]) for side in (clause.left, clause.right) for at in range(1, len(side))]
    if isinstance(clause, Policy):
        return joins + [({"may write": WRITES, "may read": None, "with": WITHS}[clause.verb], [clause.left, clause.right][:2 if clause.right else 1])]
    if clause.negated or len(clause.left) == 1:
        return [(None if clause.negated else EQUALS, [*([word] for word in clause.left), clause.right])]
    return joins[:-1] + [(JOINS, [*joins[-1][1][:2], clause.left if len(clause.right) > 1 else clause.right])]


def way_at(sort, values):
    """In which way a positive clause of a sort fails where its terms have these values, by the definitions; None where it holds. The sum of parts that
    cannot be joined has no value."""
    full = sum(values[:2] if sort in (JOINS, WITHS) else values[:1])
    if full == 2:
        return "overlap"
    due = full if sort is WITHS or values[-1] is None else 1 if sort is WRITES else values[-1]
    return None if full == due else "surplus" if full else "shortfall"


def way_down(leaf):
    """The path to a leaf of 1,024, in words."""
    steps = f"{leaf:010b}".rstrip("0")
    words = [["left", "right"][int(step)] for step in steps]
    return ", ".join(words + ([] if len(steps) == 10 else ["then always left"] if steps else ["always left"]))


def told_broken(head, sort, terms, shares, levels):
    """What is to be said of a broken clause with that sort and these terms; shares have 2^levels leaves."""
    if sort is None:
        words = [" join ".join(term) for term in terms]
        return never(head, ["{} is empty", "{} is {}", "{} join {} is {}"][len(words) - 1].format(*words))
    whole = {" join ".join(term): total(term, shares) for term in terms}
    for leaf in range(1 << levels):
        values = {word: None if share is None else share >> leaf & 1 for word, share in whole.items()}
        way = way_at(sort, [values[" join ".join(term)] for term in terms])
        if way:
            told = ", ".join(f"{word} is {['empty', 'full'][value]}" for word, value in values.items() if value is not None)
            return fails(head, sort, way, told, leaf << (10 - levels), way_down(leaf << (10 - levels)))
    return "it does not fail"


def meant(meaning, shares):
    """What is to be said of shares, by the definitions, and of a broken clause its sort; the own ones are gone through."""
    number = 0
    for system, clause in meaning.clauses:
        if system == 0 and not clause.holds(shares):
            part = broken_part(clause, shares)
            sort, terms = pieces(clause)[part]
            return told_broken(f"{number + part}, line {{}}: {clause}", sort, terms, shares, meaning.levels), sort
        number += parts(clause) if system == 0 else 0
    check(f"how many clauses the first system of {meaning.text()!r} is in bytes", len(read_text(meaning.text()).first_clauses()), number)
    if meaning.kind == 0:
        return ACCEPTED, None
    return EXTENDS if any(all(had) for had in meaning.beside(shares)) else NO_EXTENSION, None


def test_judged_meaning():
    """Random questions with joins inside and rows no taller than is shown, against what the clauses mean. Each way of each sort of clause is met."""
    random, seen, ways = Random(32), Counter(), Counter()
    while min(seen[key] for key in [(word, inside) for word in WORDS[1:] for inside in (False, True)]) < 25 and sum(seen.values()) < 4000:
        meaning = random_meaning(random)
        if meaning.variables() > 12 or meaning.cost() > 1 << 15:
            continue
        values = [random.choice(list(up_to(random.randrange(meaning.height + 1), meaning.levels))) for _ in meaning.free]
        solutions = list(meaning.solutions()) if random.randrange(2) else []
        shares = random.choice(solutions) if solutions else {**meaning.constants, **dict(zip(meaning.free, values))}
        rows = "".join(f"{name} {write_tree(shares[name], meaning.levels)}\n" for name in meaning.free)
        due, sort = meant(meaning, shares)
        status, out, errors = judged(meaning.text(), rows)
        line = re.search(r"line (\d+): (.*)", out.decode())
        if line:
            check(f"the line that is named, {rows!r} for {meaning.text()!r}", meaning.text().split("\n")[int(line[1]) - 1], line[2])
        found = (status, re.sub(r"line \d+", "line {}", out.decode()), errors)
        check(f"{rows!r} for {meaning.text()!r}", found, (int(not due.startswith("accepted")), f"{due}\n", ""))
        seen[re.match(r"\w+", due)[0], any(clause.fresh() for clause in meaning.first)] += 1
        ways.update(meaning for meaning in (sort or {}).values() if f"({meaning})" in due)
    check("every judgement was seen, with joins inside and without", min(seen.values()) >= 25 and len(seen) == 6, True)
    check("every way was seen", [meaning for sort in SORTS for meaning in sort.values() if ways[meaning] < 5], [])
