"""Tests of ways to call ask and explain."""

import json
import os
import re
import subprocess
import time
from pathlib import Path
from threading import Timer
from unittest import mock

import cases
from front_end.question import SORTS, write_question
from front_end.text import read_text
from harness import FOLDER, TOP, check, command, file, library_version, process, program, surroundings, wrong_program

YES = b"satisfiable\nfree a\na is (*o)\n"
NO = b"entails\nfree left right\nown rest\nleft join right is *\nthen\n\nrest is not o\n  left   is not o# here\nrest is *\n"
FAULTY = b"entails\nfree a a\n"
YES_SAYS = b"answer yes\nheight 1\na (*o)\n"
NO_SHOWN = b"answer no\nheight 0\nleft o\nright *\n"
NO_SAYS = NO_SHOWN + b"reason: this solution of the first system cannot have 'left is not o' (line 8) beside " \
    b"'rest is *' (line 9)\n"
NO_PLAIN = b"answer no\nheight 0\nv00 o\nv01 *\nreason 3 1\n"
REPEATED = ":2:8: 'a' is defined already, in line 2\n"


def test_ask():
    """Ways to call ask, one question at a time. The status says yes, no, or that there is no answer."""
    check("ask, yes", process("ask", file("yes.shares", YES).name), (0, YES_SAYS, ""))
    check("ask, no", process("ask", file("no.shares", NO).name), (1, NO_SAYS, ""))
    check("ask, standard input", process("ask", "-", given=NO), (1, NO_SAYS, ""))
    check("ask --plain", process("ask", "--plain", "no.shares"), (1, NO_PLAIN, ""))
    check("ask, an error names the file", process("ask", file("faulty.shares", FAULTY).name), (2, b"", f"faulty.shares{REPEATED}"))
    check("ask, no such file", process("ask", "none.shares"), (2, b"", "none.shares: it could not be read: No such file or directory\n"))
    no_program = "-: the printing program no/program could not be run: No such file or directory ($ZIMORGAL_CLI names it)\n"
    check("no such program", process("ask", "-", given=NO, ZIMORGAL_CLI="no/program"), (2, b"", no_program))
    check("an error in the text comes first", process("ask", "-", given=FAULTY, ZIMORGAL_CLI="no/program"), (2, b"", f"-{REPEATED}"))
    found = process("ask", "--bytes", "-", given=b"entails\nthen", ZIMORGAL_CLI="no/program")
    check("--bytes runs no program", found[0], 0)


# An entailment for each reason, and what the last line says of it, with the clauses as they stand in the text.
REASONS = [
    ("entails\nfree a\na is *\nthen\na is not o", "every solution of the first system extends to the second"),
    ("entails\nfree a\na is *\nthen", "every solution of the first system extends to the second"),
    ("entails\nfree a\na join a is *\nthen\na is o", "the first system has no solution"),
    ("entails\nfree a\nthen\n\n  a   is * # full", "this solution of the first system cannot meet 'a is *' (line 5)"),
    ("entails\nfree a b\nthen\na is *\nif\nb is o\nthen\nb is not *\nb join a is a\na may write",
     "this solution of the first system cannot meet the positive clauses of the second (lines 4, 9 and 10)"),
    ("entails\nfree a b c\nthen\na join b join c is *\na may read",
     "this solution of the first system cannot meet 'a join b join c is *' (line 4)"),
    ("entails\nfree a\nthen\na is not o", "this solution of the first system cannot have 'a is not o' (line 4)"),
    ("entails\nfree a b\na is *\nthen\na is not o\nif\na is a\nthen\nb  is   not o # b",
     "this solution of the first system cannot have 'b is not o' (line 9)"),
    ("entails\nfree a\nown b\na may write\nthen\nb with a\nb may read",
     "this solution of the first system cannot have 'b may read' (line 7) beside 'b with a' (line 6)"),
    ("entails\nfree a b\na with b\nthen\na join b may read\na is a",
     "this solution of the first system cannot have 'a join b may read' (line 5) beside 'a is a' (line 6)"),
]


def test_reasons():
    """Why an entailment is answered so, in words with the clauses and their lines; --plain has the program's lines,
    byte for byte. What is printed can be judged."""
    for text, due in REASONS:
        status, out, errors = command("ask", "-", given=text.encode())
        *shown, last = out.decode().splitlines()
        asked = read_text(text)
        said = "".join(line + "\n" for line in program(write_question(asked.question)))
        check(f"the reason for {text!r}", (status, last, errors), (int("answer no" in said), f"reason: {due}", ""))
        check(f"--plain of {text!r}", command("ask", "--plain", "-", given=text.encode()), (status, said.encode(), ""))
        named = {f"v{number:02}": name for number, name in enumerate(asked.names)}
        plain = [line.split(" ") for line in said.splitlines()[:-1]]
        lines = [" ".join([named.get(word[0], word[0]), *word[1:]]) for word in plain if named.get(word[0], word[0])]
        check(f"the other lines for {text!r}", shown, lines)
        if status == 1:
            found = command("ask", "--judge", str(file("reason.shares", text)), "-", given=out)
            said = found[0], found[1].split(b":")[0], found[2]
            check(f"pasted, the answer to {text!r}", said, (0, b"accepted", ""))


def test_version():
    """The version is that of the header and of the library."""
    number = library_version()
    due = f"{number >> 16}.{number >> 8 & 255}.{number & 255}"
    for name in ("ask", "explain", "docs/draw"):
        check(f"{name} --version", process(name, "--version"), (0, f"{name} {due}\n".encode(), ""))
        check(f"{name} --help has it", b"--version" in process(name, "--help")[1], True)
    with mock.patch("front_end.files.HEADER", Path(FOLDER.name, "zimorgal.h")):
        said = "include/zimorgal.h, which has the version, could not be read: No such file or directory\n"
        check("no header", command("ask", "--version"), (2, b"", said))


def test_arguments():
    for arguments, due in [(("--plain", "--bytes", "-"), "argument --bytes: not allowed with argument --plain"),
                           ((), "the following arguments are required: FILE"),
                           (("--bytes", "a", "b"), "--bytes takes one file"), (("--svg", "a", "b"), "--svg takes one file"),
                           (("-", "a", "-"), "'-' may stand once: standard input is read to its end"),
                           (("--jso", "-"), "unrecognized arguments: --jso")]:
        check(f"ask {arguments}", process("ask", *arguments), (2, b"", f"{due} ('ask --help' says what may be written)\n"))
    status, out, errors = process("ask", "--help")
    check("the help lists the reserved words", cases.KEPT.split(" have")[0] in out.decode(), True)
    clauses = [words for words, *_ in SORTS if not re.search(f"^ +{words.replace('{}', '[^ ]+')}  ", out.decode(), re.M)]
    check("the help has each sort of clause", clauses, [])
    check("the help has a join of constants", re.search(r"^ +let \w+ = \S+ join \S+  ", out.decode(), re.M) is not None, True)
    check("the help tells the statuses", (status, errors, [line.split() for line in cases.STATUSES if line not in out.decode()]), (0, "", []))


def test_several():
    """Several files: each answer stands under its file's name, and the status is the worst."""
    for name, text in (("yes.shares", YES), ("no.shares", NO), ("faulty.shares", FAULTY)):
        file(name, text)
    both = b"yes.shares:\n" + YES_SAYS + b"no.shares:\n" + NO_SAYS
    check("yes and no", process("ask", "yes.shares", "no.shares"), (1, both, ""))
    check("yes and yes", process("ask", "yes.shares", "-", given=YES), (0, b"yes.shares:\n" + YES_SAYS + b"-:\n" + YES_SAYS, ""))
    found = process("ask", "yes.shares", "faulty.shares", "no.shares")
    check("an error among them", found, (2, both, f"faulty.shares{REPEATED}"))
    found = process("ask", "none.shares", "yes.shares")
    check("one that is not there", found, (2, b"yes.shares:\n" + YES_SAYS, "none.shares: it could not be read: No such file or directory\n"))
    hostile = file("a\x1b\nb", YES).name
    check("a name with control bytes", process("ask", hostile, hostile), (0, (b"a\\x1b\\nb:\n" + YES_SAYS) * 2, ""))


# Texts with what --json says of each, but for the file.
OBJECTS = [
    (YES, 0, {"answer": "yes", "question": "satisfiable", "meaning": "satisfiable", "height": 1, "solution": {"a": "(*o)"}}),
    (b"satisfiable\na is o", 2, {"error": {"line": 2, "column": 1, "message": "nothing is named 'a': " + cases.UNKNOWN.format("a")}}),
    (b"satisfiable\nfree a\na join a is *", 1, {"answer": "no", "question": "satisfiable", "meaning": "not satisfiable"}),
    (b"satisfiable", 0, {"answer": "yes", "question": "satisfiable", "meaning": "satisfiable", "height": 0, "solution": {}}),
    (b"entails\nfree a\na is *\nthen\na is not o", 0,
     {"answer": "yes", "question": "entails", "reason": 0, "meaning": "the first system has a solution, and every one extends to the second"}),
    (b"entails\n* is o\nthen", 0,
     {"answer": "yes", "question": "entails", "reason": 1, "meaning": "the first system has no solution"}),
    (b"entails\nfree a\nthen\na is *", 1,
     {"answer": "no", "question": "entails", "reason": 2, "height": 0, "solution": {"a": "o"},
      "meaning": "some solution of the first cannot even meet the second's positive clauses"}),
    (NO, 1, {"answer": "no", "question": "entails", "reason": 3, "height": 0, "solution": {"left": "o", "right": "*"},
             "disequation": {"number": 1, "line": 8, "text": "left is not o"},
             "meaning": "the positive clauses can always be met; the disequation named is the lowest that some solution cannot have beside them"}),
    (b"entails\nfree a\na may write\nthen\na  with (*o) # both\na may read", 1,
     {"answer": "no", "question": "entails", "reason": 2, "height": 1, "solution": {"a": "*"},
      "meaning": "some solution of the first cannot even meet the second's positive clauses"}),
    (b"entails\nfree a\nown b\na may write\nthen\nb with a\n  b may   read # more", 1,
     {"answer": "no", "question": "entails", "reason": 3, "height": 0, "solution": {"a": "*"}, "disequation": {"number": 0, "line": 7, "text": "b may read"},
      "meaning": "the positive clauses can always be met; the disequation named is the lowest that some solution cannot have beside them"}),
    (b"\xa0\xff", 2,
     {"error": {"line": 1, "column": 1, "message": "'satisfiable' or 'entails' is due here, not '\\xa0\\xff'"}}),
    (b"entails \x1b\xff", 2,
     {"error": {"line": 1, "column": 9, "message": "a control character (U+001B) stands here: remove it"}}),
    (b"entails\n* is o", 2, {"error": {"line": 2, "column": 7, "message": cases.NO_SECOND}}),
]
KEYS = ["file", "answer", "question", "reason", "meaning", "disequation", "height", "solution", "error"]


def test_json():
    """--json: an object a question, each on its line, always with the same keys."""
    due = []
    for number, (text, _, said) in enumerate(OBJECTS):
        name = file(f"json{number}.shares", text).name
        due.append({key: None for key in KEYS} | {"file": name} | said)
    for (text, status, _), whole in zip(OBJECTS, due):
        found = process("ask", "--json", whole["file"])
        check(f"ask --json of {text!r}", (found[0], json.loads(found[1]), found[2]), (status, whole, ""))
        check(f"the keys of {text!r}", (list(json.loads(found[1])), found[1].count(b"\n"), found[1].isascii()), (KEYS, 1, True))
    status, out, errors = process("ask", "--json", *(whole["file"] for whole in due))
    check("ask --json of all", (status, [json.loads(line) for line in out.splitlines()], errors), (2, due, ""))
    for arguments, message in [(("none.shares",), "it could not be read: No such file or directory"), (("-",), "the printing program gave no answer: it printed nothing")]:
        status, out, errors = process("ask", "--json", *arguments, given=YES, ZIMORGAL_CLI=wrong_program("wrong", "exit 0"))
        check(f"ask --json of {arguments}", (status, json.loads(out)["error"], errors), (2, {"line": None, "column": None, "message": message}, ""))
    name = os.path.join(os.fsencode(FOLDER.name), b"not\xfftext\n")
    Path(os.fsdecode(name)).write_bytes(YES)
    out = process("ask", "--json", name)[1]
    check("a name that is no text", json.loads(out)["file"], os.path.join(FOLDER.name, "not\\xfftext\n"))


def write_when_read(path, content, reader):
    """Writes to a named pipe as soon as a process reads it, if it does not end before."""
    while reader.poll() is None:
        try:
            with open(os.open(path, os.O_WRONLY | os.O_NONBLOCK), "wb") as pipe:
                pipe.write(content)
            return
        except OSError:
            time.sleep(0.01)


def test_streamed():
    """An answer is written before the next question is read. A command that keeps it back would wait for ever, and is ended."""
    waits = Path(FOLDER.name, "waits")
    os.mkfifo(waits)
    for option in ("--json", "--plain"):
        asking = subprocess.Popen([str(TOP / "ask"), option, str(file("yes.shares", YES)), str(waits)], stdout=subprocess.PIPE, env=surroundings({}))
        late = Timer(60, asking.kill)
        late.start()
        first = asking.stdout.readline()  # the first answer's line comes though the second question is not there yet
        late.cancel()
        write_when_read(waits, NO, asking)
        rest = asking.stdout.read()
        asking.stdout.close()
        check(f"streamed {option}", (b"yes.shares" in first, b"no" in rest, asking.wait()), (True, True, 1))


def test_explain():
    for bytes_due, text in cases.EXPLAINED:
        string = bytes.fromhex(bytes_due)
        written = "".join(line + "\n" for line in text).encode()
        check(f"explain {bytes_due}", command("explain", "-", given=string), (0, written, ""))
        check(f"explained, in bytes again: {bytes_due}", command("ask", "--bytes", "-", given=written), (0, string, ""))
    check("explain --hex", command("explain", "--hex", "-", given=b"01 000000 # head\n\n00"), (0, b"satisfiable\n", ""))
    check("explain --hex, line ends", command("explain", "--hex", "-", given=b"01 00\r\n00 # 00\r\n00 00\r"), (0, b"satisfiable\n", ""))
    hidden = "-:1:16: a line break (U+000D) stands here that is no line feed: end each line with a line feed\n"
    check("explain --hex, bytes that seem to be no comment", command("explain", "--hex", "-", given=b"01 00 00 # head\r00 00"), (1, b"", hidden))
    for text, place, found in (("01 0g", "1:4", "0g"), ("01\n 0", "2:2", "0")):
        due = f"-:{place}: two hexadecimal digits are due here, not '{found}'\n"
        check(f"explain --hex of {text!r}", command("explain", "--hex", "-", given=text.encode()), (1, b"", due))
    check("explain, no such file", process("explain", "no"), (2, b"", "no: it could not be read: No such file or directory\n"))


def test_explain_hints():
    """Text given for bytes, hexadecimal digits for bytes, bytes for hexadecimal digits: the hint says which command reads it."""
    ask = "this is text: './ask FILE' asks a question that is written as text"
    digits = "these are hexadecimal digits: './explain --hex FILE' reads them"
    for text, hint in [("satisfiable\nfree a\n", ask), ("# a comment with \u00fc\r\n\tentails", ask), ("\ufeffentails", ask), ("anything else", ask),
                       ("01 00 00 00 00", digits), ("0100 # head\n\n00 00\n00", digits), ("01000000zz", ask), ("satisfiable\0", None),
                       ("entails\x1b", None), (b"entails \xff", None), ("", None), ("\n", ask)]:
        status, out, errors = command("explain", "-", given=text if isinstance(text, bytes) else text.encode())
        lines = out.decode().splitlines()
        check(f"explain {text!r}", (status, len(lines), lines[4:], errors), (1, 5 if hint else 4, [f"hint:    {hint}"] if hint else [], ""))
    for text, place, found, hint in [("# text\n entails", "2:2", "en", "; './ask FILE' asks a question that is written as text"),
                                     ("satisfiable", "1:1", "sa", "; './ask FILE' asks a question that is written as text"),
                                     ("\x01\0\0\0\0", "1:1", "\\x01\\x00", "; the file starts with byte 01: leave out --hex"),
                                     ("01 entails", "1:4", "en", "")]:
        due = f"-:{place}: two hexadecimal digits are due here, not '{found}'{hint}\n"
        check(f"explain --hex {text!r}", command("explain", "--hex", "-", given=text.encode()), (1, b"", due))
    check("explain of an example", process("explain", str(TOP / "examples" / "printed.shares"))[1].decode().splitlines()[4:], [f"hint:    {ask}"])
