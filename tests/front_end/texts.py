"""Tests of questions as text: their bytes, what is refused, limits, and the way back."""

from random import Random

import cases
import make
from front_end.question import read_question, write_question
from front_end.text import read_text, write_text
from front_end.trees import read_tree, write_tree
from harness import check, command, process, program, program_says


def as_bytes(text):
    return text if isinstance(text, bytes) else text.encode()


def test_bytes():
    for text, due in cases.BYTES:
        check(f"bytes of {text!r}", command("ask", "--bytes", "-", given=as_bytes(text)), (0, bytes.fromhex(due), ""))


def test_faults():
    for text, due in cases.FAULTS:
        check(f"fault of {text[:60]!r}", command("ask", "-", given=as_bytes(text)), (2, b"", f"-:{due}\n"))


def test_hints():
    """What a message says to write is accepted: in place of the line, or of the tree at its end."""
    for clause, kept in [("c is a join b", ""), ("c is not a join b", ""), ("a is (o *)", "a is "), ("a is ( (* o ) (o *))", "a is "),
                         ("W = (*o) join (o*)", ""), ("W = (o *) join (*o)", ""), ("W = (*o) join R", ""), ("W = a join b", ""), ("W =", ""),
                         ("let W = (*o) join ( o *)", "let W = (*o) join ")]:
        status, _, errors = command("ask", "--bytes", "-", given=(cases.CLAUSE + clause).encode())
        hint = errors.split("write '")[1].split("'")[0]
        check(f"the hint for {clause!r}", (status, command("ask", "--bytes", "-", given=(cases.CLAUSE + kept + hint).encode())[::2]), (2, (0, "")))


def test_limits():
    for name, text, more, due in cases.EDGES:
        status, out, errors = command("ask", "-", given=text.encode())
        check(name, (out[:7], status, errors), (b"answer ", int(out.startswith(b"answer no\n")), ""))
        check(f"{name}, and one", command("ask", "-", given=(text + more).encode()), (2, b"", f"-:{due}\n"))
    status, string, errors = command("ask", "--bytes", "-", given=cases.LONGEST.encode())
    check("the longest question", (status, len(string), errors), (0, 925, ""))
    check("the longest question is answered", program_says(string), "answer")
    check("the longest question, explained", command("ask", "--bytes", "-", given=command("explain", "-", given=string)[1])[1], string)


def test_round_trips():
    """Random questions, as bytes, as text, and as the same bytes again; the program takes each."""
    random = Random(6)
    for number in range(400):
        string = make.random_question(random)
        text = write_text(read_question(string))
        check(f"round trip of {string.hex(' ')}", write_question(read_text(text).question), string)
        check(f"the program takes {string.hex(' ')}", program_says(string), "answer")
        if number % 100 == 0:
            status, explained, _ = process("explain", "-", given=string)
            check(f"commands on {string.hex(' ')}", (status, process("ask", "--bytes", "-", given=explained)), (0, (0, string, "")))


def constant_question(leaves):
    """Asks for v0 equal to one constant."""
    return bytes([0x01, 0, 1, 0, 0x03, *leaves.to_bytes(4, "little"), 0x12, 0, 0x20, 0])


def test_trees():
    """Tree text both ways; the program writes the same text."""
    random = Random(8)
    for _ in range(100):
        leaves = make.random_leaves(random)
        text = write_tree(leaves)
        check(f"{leaves:08X} written", text, program(constant_question(leaves))[2][4:])
        check(f"{text} read", read_tree(text), leaves)
