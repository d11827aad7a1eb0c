"""Hostile input, the same in every run: random bytes, random words, damaged examples, long and deep texts.

Whatever is given, a command ends with one of its statuses, and an error is one line that names a place inside the text.
"""

import json
import re
from random import Random
from xml.etree import ElementTree

import make
from harness import TOP, check, command, file, judging_program, program_says

WORDS = ["satisfiable", "entails", "free", "own", "let", "if", "then", "not", "join", "is", "=", "o", "*", "(*o)", "(o*)", "(o *)", "(oo)", "((*o)o)",
         "(" * 7, ")", "(*", "a", "b", "c", "x", "y", "a", "b", "c", "a,", "7a", "0", "1", "#", "# o", "\t", "\r", "\ufeff", "\0", "\x1b[31m", "\u00e4",
         "\u2028", "\u202e", "\x85", "\xa0", "L", "L", "_", "a" * 300, "join join", "is not", "not a join b is", "a join b join c is", "may", "with", "write", "read",
         "may write", "may read", "may not", "a with b", "a join b with", "let L =", "let a = L join", "L join (o*)"]
HEADS = ["satisfiable\nfree a b c\n", "entails\nfree a b\nown c x y\nlet L = (*o)\n", "entails\nfree a b c x y\nthen\n",
         "entails\nfree a may read\nown with write\nthen\n", ""]


def random_words(random):
    lines = [" ".join(random.choices(WORDS, k=random.randrange(8))) for _ in range(random.randrange(8))]
    return (random.choice(HEADS) + "\n".join(lines)).encode()


def random_clauses(random):
    """Clauses that are often right."""
    shares = ["a", "b", "c", "a", "b", "o", "*", "(*o)", "((o*)(*o))"]
    lines = []
    for _ in range(random.randrange(6)):
        sides = [" join ".join(random.choices(shares, k=random.choice([1, 1, 2, 2, 3]))) for _ in range(2)]
        clause = random.choice(["{} is {}", "{} is {}", "{} is not {}", "{} with {}", "{} may write", "{} may read"])
        lines.append(random.choice(["", "", "not "]) + clause.format(*sides))
        lines += random.choice([[], [], ["then"], ["if"]])
    return (random.choice(HEADS[:2]) + "\n".join(lines)).encode()


def damaged_example(random, examples):
    text = bytearray(random.choice(examples))
    for _ in range(random.randrange(1, 5)):
        at, end = sorted(random.choices(range(len(text) + 1), k=2))
        change = random.randrange(5)
        if change == 0:
            text[at:at + 1] = bytes([random.randrange(256)])
        elif change == 1:
            text[at:at] = random.choice(WORDS).encode()
        elif change == 2:
            del text[at:min(end, at + 20)]
        elif change == 3:
            text[at:at] = text[at:min(end, at + 40)]
        else:
            text[at:at] = b"\n"
    return bytes(text)


def odd_texts():
    """Long lines, many lines, deep trees, many words."""
    for sign in ("a", "(", ")", "*", "o", " ", "\t", "\n", "#", "=", "a ", "( ", "(o", "\0", "\x1b", "\u00e4", "\ufeff"):
        for head in ("", "satisfiable\n", "satisfiable\nfree a\n", "satisfiable\nfree a\na is ", "satisfiable\nlet a = ", "satisfiable\nfree "):
            yield (head + sign * 20000).encode()
    for head, part, tail in (("satisfiable\nfree a\na", " join a", " is a"), ("satisfiable\nfree a\na join a is a", " join a", ""), ("satisfiable\nfree a\na is a", " join a", ""),
                             ("satisfiable\nfree a\nnot a", " join a", " is o"), ("satisfiable\nfree", " a", ""), ("satisfiable\nfree a", "\na is a", ""),
                             ("satisfiable\nlet a = (*o)\nlet b = a", " join o", " join (o*)"), ("satisfiable\nlet a = *", " join *", ""), ("satisfiable\nW", " = W", ""),
                             ("satisfiable\nlet a = o", " join", ""), ("satisfiable\nfree a\n(o", " (o", ""),
                             ("satisfiable\nfree a\na is ((((((*o)o)o)o)o)", "o)", "")):
        yield (head + part * 5000 + tail).encode()
    for size in (0, 1, (1 << 20) - 1, 1 << 20):
        yield b"#" * size


ROW_WORDS = ["a", "b", "c", "a =", "b =", "c =", "a", "b", "c", "o", "*", "(*o)", "(o*)", "((o*)(*o))", "L", "join", "join (o*)", "=", "is", "x", "answer yes", "height 3",
             "reason: so it is", "reason:",
             "reason 3 1", "answer", "height", "#", "(oo)", "(o *)", "(" * 12, ")", "0", "7a", "\t", "\r", "\0", "\x1b[31m", "\u2028", "\xa0", "\u00e4", "d" * 300, "(o" * 700]
JUDGED = "entails\nfree a b c\nown x\nlet L = (*o)\na join b is c\na is not o\nthen\nx join c is *\nx is not o"


def random_rows(random):
    """Rows for JUDGED, often right."""
    trees = random.choice([["(*o)", "(o*)", "*"], ["((*o)o)", "((o*)o)", "L"], ["L", "o", "L"], ["o", "o", "o"], ["L", "L", "*"], random.choices(ROW_WORDS, k=3)])
    lines = [f"{name}{random.choice([' ', ' = ', '='])}{tree}" for name, tree in zip("abc", trees)]
    for _ in range(random.choice([0, 0, 1, 2])):
        lines.insert(random.randrange(len(lines) + 1), " ".join(random.choices(ROW_WORDS, k=random.randrange(4))))
    random.shuffle(lines)
    return "\n".join(lines).encode()


def odd_rows():
    """Long lines, many lines, deep trees, many words."""
    for sign in ("a", "(", ")", "*", "o", " ", "\t", "\n", "#", "=", "a ", "( ", "(o", "(o ", "L ", "\0", "\x1b", "\u00e4", "\ufeff", "height 3\n", "a = o\n"):
        for head in ("", "a ", "a = ", "a = L join ", "b o\nc o\na "):
            yield (head + sign * 20000).encode()
    for head, part, tail in (("b o\nc o\na o", " join o", ""), ("b o\nc o\na o", " join o", " join L"), ("a L", " join o", " join L"), ("a L", " join", ""), ("a", " = a", ""),
                             ("b o\nc o", "\n# a o", "\na o"), ("b o\nc o", "\nanswer no", "\na o"), ("a ((((((((((*o)o)o)o)o)o)o)o)o)o)", "o)", "")):
        yield (head + part * 40000 + tail).encode()
    for size in (0, (1 << 20) - 1, 1 << 20):
        yield b"#" * size
    for sign in ("(", "(o", "( ", "a ", "=", "o join "):
        yield ("a = " + sign * (1 << 20))[:1 << 20].encode()


def fits(text, errors):
    """Whether errors are one line that prints and names a place inside a text."""
    found = re.fullmatch(r"-:(\d+):(\d+): (.{10,900})\n", errors)
    if not found or not found[3].isprintable():
        return False
    lines = text.decode("utf-8", "surrogateescape").removeprefix("\ufeff").split("\n")
    line, column = int(found[1]), int(found[2])
    return line <= len(lines) and 1 <= column <= len(lines[line - 1]) + 1


def try_text(text):
    """Asks a text, and gives its status."""
    status, out, errors = command("ask", "-", given=text)
    name = f"ask {text[:200]!r}"
    if status == 2:
        check(name, (out, fits(text, errors) or errors), (b"", True))
    else:
        check(name, (status, out.split(b"\n")[0], errors), (status, [b"answer yes", b"answer no"][status], ""))
    return status


def try_formats(text, status):
    """The other forms of the output say the same, and can be read."""
    said = json.loads(command("ask", "--json", "-", given=text)[1])
    check(f"--json of {text!r}", ["yes", "no", None].index(said["answer"]), status)
    if status < 2:
        check(f"--svg of {text!r}", ElementTree.fromstring(command("ask", "--svg", "-", given=text)[1]).tag, "{http://www.w3.org/2000/svg}svg")
        string = command("ask", "--bytes", "-", given=text)[1]
        check(f"the program takes the bytes of {text!r}", program_says(string), "answer")
        check(f"explained, in bytes again: {text!r}", command("ask", "--bytes", "-", given=command("explain", "-", given=string)[1])[1], string)


def test_random_texts():
    random = Random(15)
    examples = [file.read_bytes() for file in sorted((TOP / "examples").glob("*.shares"))]
    seen = []
    for number in range(1000):
        kind = number % 4
        text = (random.randbytes(random.randrange(100)) if kind == 0 else random_words(random) if kind == 1 else
                random_clauses(random) if kind == 2 else damaged_example(random, examples))
        seen.append(try_text(text))
        if number % 5 == 0 or kind == 2 and number % 3 == 0:
            try_formats(text, seen[-1])
    check("answers and errors were seen", {status for status in (0, 1, 2) if seen.count(status) < 30}, set())


def test_odd_texts():
    for text in odd_texts():
        try_text(text)
        status, out, errors = command("explain", "-", given=text)
        check(f"explain {text[:40]!r}", (status, out.count(b"\n") in (4, 5), errors), (1, True, ""))
    check("line ends before a letter", command("explain", "-", given=b"\n" * 20000 + b"z")[0], 1)


def try_rows(rows, question):
    """Judges rows, and gives what is said of them."""
    status, out, errors = command("ask", "--judge", question, "-", given=rows)
    said = out.decode().split("\n")[0].split(":")[0]
    name = f"ask --judge {rows[:200]!r}"
    if status == 2:
        check(name, (out, fits(rows, errors) or errors), (b"", True))
    else:
        lines = 1 if said != "broken" else 2 if b"\nat every leaf: " in out else 3
        check(name, (out.count(b"\n"), said in [["accepted"], ["broken", "extends"]][status], errors), (lines, True, ""))
    return said


def test_random_rows():
    """Random rows; --json says the same, and what was judged is judged alike from its bytes."""
    random, question = Random(33), str(file("rows.shares", JUDGED))
    seen = []
    for number in range(500):
        rows = random_rows(random) if number % 10 else random.randbytes(random.randrange(60))
        seen.append(try_rows(rows, question))
        if number % 3 == 0:
            said = json.loads(command("ask", "--judge", "--json", question, "-", given=rows)[1])
            check(f"--json of {rows!r}", (said["judgement"] or "", said["error"] is None), (seen[-1], bool(seen[-1])))
        if number % 3 == 0 and seen[-1]:
            svg = ElementTree.fromstring(command("ask", "--judge", "--svg", question, "-", given=rows)[1])
            check(f"--svg of {rows!r}", svg.tag, "{http://www.w3.org/2000/svg}svg")
        if number % 5 == 0 and seen[-1]:
            string = command("ask", "--judge", "--bytes", question, "-", given=rows)[1]
            check(f"the program judges the bytes of {rows!r}", judging_program(string).split()[0], seen[-1])
    check("judgements and errors were seen", [word for word in ("accepted", "broken", "extends", "") if seen.count(word) < 15], [])


def test_odd_rows():
    question = str(file("rows.shares", JUDGED))
    seen = {try_rows(rows, question) for rows in odd_rows()}
    check("odd rows are judged, too", seen, {"", "broken"})


def test_random_strings():
    """explain, with bytes and with hexadecimal digits."""
    random = Random(16)
    for number in range(250):
        string = random.randbytes(random.randrange(60)) if number % 2 else make.damaged(random, make.random_question(random))
        status, out, errors = command("explain", "-", given=string)
        check(f"explain {string!r}", (status, errors, b"\x1b" in out), (1 - (program_says(string) == "answer"), "", False))
        text = string if number % 2 else make.damaged(random, string.hex(" ").encode())
        status, out, errors = command("explain", "--hex", "-", given=text)
        check(f"explain --hex {text!r}", (status in (0, 1), bool(out) != bool(errors), not errors or fits(text, errors)), (True, True, True))
