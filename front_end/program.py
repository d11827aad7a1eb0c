"""Runs the printing program and the judging program, and takes nothing but a whole answer, or judgement, from them."""

import os
import re
import subprocess
from pathlib import Path
from typing import NamedTuple

from front_end.answer import read_answer
from front_end.files import Trouble, complain, quote, reason, shown
from front_end.judge import read_judgement
from front_end.question import write_question
from front_end.rows import write_rows

CRATES = Path(__file__).resolve().parent.parent / "crates"


class Program(NamedTuple):
    """A program that is run."""

    name: str  # in messages
    file: str  # its crate, in whose folder out/ it is built
    variable: str  # of the environment: it can name another
    takes: str
    gives: str


PRINTING = Program("the printing program", "zimorgal_cli", "ZIMORGAL_CLI", "the question", "answer")
JUDGING = Program("the judging program", "zimorgal_judge_cli", "ZIMORGAL_JUDGE_CLI", "the rows and the question", "judgement")


class ProgramFault(Trouble):
    """The program could not be run, or did not do its work."""


def path(program):
    """Where a program is: where its variable says, or where it was built."""
    named, built = os.environ.get(program.variable), CRATES / program.file / "out" / program.file
    if not named and not built.exists():
        raise ProgramFault(f"{program.name} is not built: 'rt ci' in the folder that has 'ask' builds "
                           f"crates/{program.file}/out/{program.file} (${program.variable} can name another)")
    return named or str(built)


def run(program, string):
    """What a program prints for a byte string, and what it says on standard error."""
    place = path(program)
    try:
        done = subprocess.run([os.path.abspath(place)], input=string, stdout=subprocess.PIPE, stderr=subprocess.PIPE)
    except OSError as error:
        raise ProgramFault(f"{program.name} {shown(place)} could not be run: {reason(error)} (${program.variable} names it)") from None
    if done.returncode < 0:
        raise ProgramFault(f"{program.name} was ended by signal {-done.returncode}")
    if done.returncode > 0:
        raise ProgramFault(f"{program.name} ended with status {done.returncode}")
    return [stream.decode("utf-8", "surrogateescape") for stream in (done.stdout, done.stderr)]


def fault(program, said, error):
    """Why what a program said is not what it is to give."""
    if re.fullmatch(r"refused \d+ at \d+\n", said):
        what = f"refused {program.takes}: {said[:-1]}"
    elif said:
        what = f"gave no whole {program.gives}: it printed {quote(said)}"
    else:
        what = f"gave no {program.gives}: it printed nothing"
    return ProgramFault(f"{program.name} {what}" + (f"; its error: {shown(error.strip())}" if error else ""))


def give(program, string, read, name):
    """What a program gives for a byte string of a file of that name, as 'read' reads it. A warning beside it is passed on."""
    said, error = run(program, string)
    given = read(said)
    if given is None:
        raise fault(program, said, error)
    if error:
        complain(f"{shown(name)}: {shown(error.strip())}")
    return given


def ask(question, name):
    """The answer to a question that stands in a file of that name."""
    return give(PRINTING, write_question(question), lambda said: read_answer(said, question), name)


def to_judge(asked, rows):
    """The bytes that the judging program reads: the rows, then the question."""
    return write_rows(rows) + write_question(asked.question)


def judge(asked, rows, name):
    """The judgement of rows for what the text in a file of that name asks."""
    return give(JUDGING, to_judge(asked, rows), lambda said: read_judgement(said, asked, rows), name)
