"""What the tests share: counting cases, and running the commands and the two programs."""

import io
import os
import runpy
import subprocess
import sys
import tempfile
from pathlib import Path
from unittest import mock

TOP = Path(__file__).resolve().parent.parent.parent
FOLDER = tempfile.TemporaryDirectory()  # the commands run here, and tests write their files here
CALLER = Path(FOLDER.name, "call_library")  # a program that calls the library
passed = failed = 0


def check(name, found, due):
    """Counts one case."""
    global passed, failed
    if found == due:
        passed += 1
    else:
        failed += 1
        print(f"FAILED {name}\n  due:   {due!r}\n  found: {found!r}")


def file(name, content):
    """Writes a file, and gives its path."""
    path = Path(FOLDER.name, name)
    path.write_bytes(content if isinstance(content, bytes) else content.encode())
    return path


def wrong_program(name, script):
    """A shell script in the place of a program."""
    path = file(name, f"#!/bin/sh\n{script}\n")
    path.chmod(0o755)
    return str(path)


def surroundings(changes):
    """A user's environment: nothing that changes what Python does, and what the case asks."""
    kept = {name: value for name, value in os.environ.items() if not name.startswith("PYTHON")}
    return {**kept, **changes}


def process(name, *arguments, given=b"", **environment):
    """Runs a command of the repository, from another folder: its status, what it writes, and its errors as text."""
    done = subprocess.run([str(TOP / name), *arguments], input=given, stdout=subprocess.PIPE, stderr=subprocess.PIPE,
                          cwd=FOLDER.name, env=surroundings(environment))
    return done.returncode, done.stdout, done.stderr.decode()


def command(name, *arguments, given=b""):
    """The same inside this process, which is sooner done."""
    out, errors = io.TextIOWrapper(io.BytesIO()), io.StringIO()
    status = 0
    with mock.patch.multiple(sys, argv=[name, *arguments], stdin=io.TextIOWrapper(io.BytesIO(given)), stdout=out, stderr=errors,
                             path=list(sys.path)):
        try:
            runpy.run_path(str(TOP / name), run_name="__main__")
        except SystemExit as end:
            status = end.code or 0
        out.flush()
    return status, out.buffer.getvalue(), errors.getvalue()


def program(string, variable="ZIMORGAL_CLI"):
    """What the printing program, or the one that another variable names, says of a byte string, as lines, each ended by byte 0A. It says nothing
    on standard error."""
    done = subprocess.run([os.environ[variable]], input=string, stdout=subprocess.PIPE, stderr=subprocess.PIPE, check=True)
    *lines, rest = done.stdout.decode("ascii").split("\n")
    if rest or done.stderr:
        raise ValueError(f"the program says {done.stdout!r} and {done.stderr!r}")
    return lines


def program_says(string):
    """Its first line, or only 'answer' where it answers."""
    said = program(string)[0]
    return "answer" if said in ("answer yes", "answer no") else said


def judging_program(string):
    """The line that the judging program says of a byte string."""
    [line] = program(string, "ZIMORGAL_JUDGE_CLI")
    return line


def build_caller(archive):
    """Compiles the program that calls the library."""
    strict = ["-std=c99", "-Wall", "-Wextra", "-Werror", "-pedantic", "-Wconversion", f"-I{TOP / 'include'}"]
    subprocess.run(["gcc", *strict, TOP / "tests" / "front_end" / "call_library.c", archive, "-o", CALLER], check=True)


def library_calls(given):
    """The numbers that the library's calls give, for input of call_library.c."""
    return [int(line, 16) for line in subprocess.run([CALLER], input=given, stdout=subprocess.PIPE, check=True).stdout.split()]


def library_reads(texts):
    """What the library's call on tree text gives for each of some byte strings."""
    return library_calls(b"".join(b"%d:%b" % (len(text), text) for text in texts))


def library_joins(pairs):
    """What the library's join gives for each of some pairs of numbers."""
    return library_calls(b"".join(b"%d+%d\n" % pair for pair in pairs))


def library_version():
    """The library's version, a byte for each of its three numbers."""
    return library_calls(b"0?")[0]


def library_judges(pairs):
    """What the library's judge gives for each of some pairs of a question and rows, both as bytes."""
    return library_calls(b"".join(b"%d&%d:%b%b" % (len(question), len(rows), question, rows) for question, rows in pairs))
