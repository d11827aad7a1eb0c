"""Tests of what the printing program says: nothing of it may be lost, and ask prints what it answered."""

import re
import shutil
from pathlib import Path
from random import Random

import make
from front_end.answer import read_answer
from front_end.question import read_question
from harness import FOLDER, TOP, check, command, file, process, program, surroundings, wrong_program

# A question as text for each shape of answer, and the answer.
SHAPES = [
    ("satisfiable\nfree a b\na join b is *\na is not o\nb is not o", "answer yes\nheight 1\nv00 (*o)\nv01 (o*)\n"),
    ("satisfiable", "answer yes\nheight 0\n"),
    ("satisfiable\nfree a\na join a is *", "answer no\n"),
    ("entails\nfree a\na is *\nthen\na is not o", "answer yes\nreason 0\n"),
    ("entails\nfree a\na join a is *\nthen\na is o", "answer yes\nreason 1\n"),
    ("entails\nfree a\na is (*o)\nthen\na is *", "answer no\nheight 1\nv00 (*o)\nreason 2\n"),
    ("satisfiable\nfree a b\na may read\nb may read\na with b", "answer yes\nheight 1\nv00 (*o)\nv01 (o*)\n"),
    ("entails\nfree a\na may read\nthen\na may write", "answer no\nheight 1\nv00 (o*)\nreason 2\n"),
    ("entails\nfree a\nown b c\na may write\nthen\nb may read\na with c\nc may read", "answer no\nheight 0\nv00 *\nreason 3 1\n"),
    ("entails\nfree a b\na is *\nthen\na is not o\nb is not o", "answer no\nheight 0\nv00 *\nv01 o\nreason 3 1\n"),
    ("entails\nthen\no is not o", "answer no\nheight 0\nreason 3 0\n"),
]
# What no whole answer to the last but one of them is.
WRONG = ["", "answer no", "answer no\n", "answer no\nheight 0\nv00 *\nv01 o\nreason 3 1", "answer no\nheight 0\nv00 *\nv01 o\nreason 3\n",
         "answer no\nheight 0\nv00 *\nv01 o\n", "answer no\nheight 0\nv00 *\nreason 3 1\n", "answer no\nheight 0\nv01 o\nv00 *\nreason 3 1\n",
         "answer no\nheight 0\nv00 *\nv01 \nreason 3 1\n", "answer no\nheight 0\nv00 *\nv01 (*o)\nreason 3 1\n",
         "answer no\nheight 1\nv00 *\nv01 (oo)\nreason 3 1\n", "answer no\nheight 1\nv00 *\nv01 (o\nreason 3 1\n",
         "answer no\nheight 00\nv00 *\nv01 o\nreason 3 1\n", "answer no\nheight 0\nv00 *\nv01 o\nreason 3 01\n",
         "answer no\nheight 0\nv00 *\nv01 o\nreason 3 2\n", "answer no\nheight 0\nv00 *\nv01 o\nreason 2 1\n",
         "answer no\nheight 0\nv00 *\nv01 o\nreason 0\n", "answer no\nheight 0\nv00 *\nv01 o\nv02 o\nreason 3 1\n",
         "answer no\nv00 *\nv01 o\nreason 3 1\n", "answer yes\nheight 0\nv00 *\nv01 o\nreason 3 1\n", "answer yes\nreason 3 1\n",
         "answer yes\n", "answer yes\nreason 2\n", "answer yes\nheight 0\nreason 0\n", "answer maybe\nreason 0\n", "answer \nreason 0\n",
         "answer yes\nreason 0\n\n", "answer yes\nreason 0\nanswer yes\nreason 0\n", "answer yes\r\nreason 0\r\n", "refused 3 at 4\n",
         "reason 0\nanswer yes\n", " answer yes\nreason 0\n", "answer yes\nreason \u0663\n",
         "answer no\nheight " + "0" * 9999 + "\nv00 *\nv01 o\nreason 3 1\n", "answer no\nheight 0\nv00 *\nv01 o\nreason 3 " + "1" * 9999 + "\n"]


def question_bytes(text):
    return command("ask", "--bytes", "-", given=text.encode())[1]


def writes(said):
    """An answer in the pieces that the program writes."""
    return re.findall(r"answer \w+\n|height |reason |(?<=\n)v|\d\d?|[(o*)]+|[ \n]", said)


def test_whole_answers():
    """Every shape of answer is taken. With any piece lost, and cut at any place, it is not."""
    random = Random(12)
    for text, said in SHAPES:
        question, pieces = read_question(question_bytes(text)), writes(said)
        check(f"the pieces of {said!r}", "".join(pieces), said)
        check(f"the answer to {text!r}", "".join(line + "\n" for line in program(question_bytes(text))), said)
        check(f"{said!r} is taken", read_answer(said, question).lines(), said.splitlines())
        for length in range(len(said)):
            check(f"{said[:length]!r} is cut", read_answer(said[:length], question), None)
        for _ in range(60):
            kept = [piece for piece in pieces if random.randrange(4)]
            if len(kept) < len(pieces):
                check(f"{kept} lacks a piece", read_answer("".join(kept), question), None)
    question = read_question(question_bytes(SHAPES[-2][0]))
    for said in WRONG:
        check(f"{said!r} is no answer", read_answer(said, question), None)


def test_random_answers():
    """Answers to random questions are taken as they are."""
    random = Random(13)
    for _ in range(150):
        string = make.random_question(random)
        lines = program(string)
        answer = read_answer("".join(line + "\n" for line in lines), read_question(string))
        check(f"the answer to {string.hex(' ')}", answer and answer.lines(), lines)


def test_lost_answers():
    """A program whose output is lost or cut, or that does not do its work."""
    path = file("shape.shares", SHAPES[0][0])
    real = f'"{surroundings({})["ZIMORGAL_CLI"]}"'
    for script, due in [(f"{real} > /dev/full", "gave no answer: it printed nothing"),
                        (f"{real} <&-", "refused the question: refused 1 at 0|gave no answer: it printed nothing")]:
        status, out, errors = process("ask", path.name, ZIMORGAL_CLI=wrong_program("wrong", script))
        said = re.fullmatch(f"shape.shares: the printing program ({due})(; its error: [ -~]+)?\n", errors)
        check(f"a program that does {script}: {errors}", (status, out, bool(said)), (2, b"", True))
    for script, due in [
            (f"{real} | head -c 26", "the printing program gave no whole answer: it printed 'answer yes\\nheight 1\\nv00 (*'"),
            (f"{real}; exit 3", "the printing program ended with status 3"),
            (f"{real}; kill -9 $$", "the printing program was ended by signal 9"),
            ("exit 0", "the printing program gave no answer: it printed nothing"),
            ("echo lost >&2; exit 0", "the printing program gave no answer: it printed nothing; its error: lost"),
            ("printf 'answer yes\\n'", "the printing program gave no whole answer: it printed 'answer yes\\n'"),
            ("printf '\\033[2J\\377'", "the printing program gave no whole answer: it printed '\\x1b[2J\\xff'"),
            ("head -c 99999 /dev/zero", "the printing program gave no whole answer: it printed '" + "\\x00" * 40 + "...'")]:
        found = process("ask", path.name, ZIMORGAL_CLI=wrong_program("wrong", script))
        check(f"a program that does {script}", found, (2, b"", f"shape.shares: {due}\n"))
    warned = process("ask", path.name, ZIMORGAL_CLI=wrong_program("wrong", f"echo 'a\x1bwarning' >&2; {real}"))
    check("a warning beside a whole answer", warned, (0, b"answer yes\nheight 1\na (*o)\nb (o*)\n", "shape.shares: a\\x1bwarning\n"))


def test_not_built():
    """Where there is no program yet, the message says what builds it."""
    bare = Path(FOLDER.name, "bare")
    bare.mkdir()
    for name in ("ask", "docs/draw"):
        Path(bare, name).parent.mkdir(exist_ok=True)
        shutil.copy(TOP / name, bare / name)
    for name in ("front_end", "examples"):
        shutil.copytree(TOP / name, bare / name)
    what = ("the printing program is not built: 'rt ci' in the folder that has 'ask' builds crates/zimorgal_cli/out/zimorgal_cli "
            "($ZIMORGAL_CLI can name another)\n")
    for arguments in (("ask", str(TOP / "examples" / "printed.shares")), ("docs/draw",)):
        status, out, errors = process(str(bare / arguments[0]), *arguments[1:], ZIMORGAL_CLI="")
        check(f"{arguments} before anything is built", (status, out, errors[-len(what):], errors.count("\n")), (2, b"", what, 1))
    what = what.replace("printing", "judging").replace("zimorgal_cli", "zimorgal_judge_cli").replace("ZIMORGAL_CLI", "ZIMORGAL_JUDGE_CLI")
    found = process(str(bare / "ask"), "--judge", file("no.shares", "satisfiable").name, "-", ZIMORGAL_JUDGE_CLI="")
    check("ask --judge before anything is built", found, (2, b"", f"no.shares: {what}"))
