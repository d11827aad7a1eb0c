"""Tests of output that is lost or cut, of streams that are closed, and of what messages echo."""

import fcntl
import os
import re
import resource
import signal
import struct
import subprocess
import termios
import time
from unittest import mock

from harness import FOLDER, TOP, check, command, file, process, surroundings

ANSWERED = TOP / "examples" / "third_part.shares"
JUDGED = ("--judge", str(ANSWERED), "judged.rows")
EXTENDING = "editor ((*o)o)\nplayer ((o*)o)\nboth (*o)\nlogger (o(*o))\nlist (*(*o))\n"
# Commands that print, with what they are given.
PRINTING = [("ask", str(ANSWERED)), ("ask", "--bytes", str(ANSWERED)), ("ask", "--plain", str(ANSWERED)), ("ask", "--json", str(ANSWERED)),
            ("ask", "--svg", str(ANSWERED)), ("ask", "--help"), ("explain", "question.bytes"), ("explain", str(ANSWERED)),
            ("ask", "--version"), ("explain", "--version"),
            ("explain", "--help"), ("docs/draw",), ("ask", *JUDGED), ("ask", "--json", *JUDGED), ("ask", "--plain", *JUDGED),
            ("ask", "--bytes", *JUDGED), ("ask", "--svg", *JUDGED)]


def end(arguments, before=None, given=subprocess.DEVNULL, out=subprocess.PIPE, errors=subprocess.PIPE, **environment):
    """Runs a command whose streams are as they are given: its status and its errors. 'before' runs in the new process."""
    done = subprocess.run([str(TOP / arguments[0]), *arguments[1:]], stdin=given, stdout=out, stderr=errors, preexec_fn=before,
                          cwd=FOLDER.name, env=surroundings(environment))
    return done.returncode, (done.stderr or b"").decode()


def unread():
    """A pipe that nobody reads."""
    reader, writer = os.pipe()
    os.close(reader)
    return writer


def small_files():
    """No file may grow over 8 bytes, so that a write is taken in part and the next one fails."""
    resource.setrlimit(resource.RLIMIT_FSIZE, (8, 8))


def small_memory():
    resource.setrlimit(resource.RLIMIT_AS, (1 << 29, 1 << 29))


def lost(why):
    return 3, f"standard output: it could not be written: {why}\n"


def test_lost_output():
    """Output that cannot be written has a status of its own and one line, with Python's buffers and without."""
    file("question.bytes", bytes.fromhex("01 00 00 00 00"))
    file("judged.rows", EXTENDING)
    check("the rows extend", process("ask", *JUDGED)[:2], (1, b"extends: the rows solve the first system, and some own shares extend them to the second\n"))
    for buffers, commands in (({}, PRINTING), ({"PYTHONUNBUFFERED": "1"}, PRINTING[:2])):
        for arguments in commands:
            with open("/dev/full", "wb") as full:
                check(f"{arguments} with {buffers}, a full disk", end(arguments, out=full, **buffers), lost("No space left on device"))
            check(f"{arguments} with {buffers}, closed", end(arguments, before=lambda: os.close(1), **buffers), lost("it is closed"))
        for arguments in commands[:2]:
            with open("/dev/full", "wb") as full:
                check(f"{arguments} with {buffers}, two full disks", end(arguments, out=full, errors=full, **buffers), (3, ""))
            writer = unread()
            found = end(arguments, out=writer, **buffers)
            check(f"{arguments} with {buffers}, a pipe that nobody reads", found, (3, ""))
            os.close(writer)
            with open(file("cut", b""), "wb") as small:
                check(f"{arguments} with {buffers}, a disk for a part of it", end(arguments, before=small_files, out=small, **buffers), lost("File too large"))


def test_read_in_part():
    """Whoever reads the output may end before it does, as 'head' does: nothing is said, nothing more is asked, and the
    status tells it."""
    for option in ("--json", "--plain"):
        reader, writer = os.pipe()
        many = [str(file(f"many{number}.shares", ANSWERED.read_bytes())) for number in range(20)]
        asking = subprocess.Popen([str(TOP / "ask"), option, *many, "none.shares"], stdout=writer,
                                  stderr=subprocess.PIPE, cwd=FOLDER.name, env=surroundings({}))
        os.close(writer)
        with open(reader, "rb") as first:
            said = first.readline()
        errors = asking.communicate()[1]
        check(f"the first line of {option}", said.startswith((b"{", b"/")), True)
        check(f"and no more of {option}", (asking.returncode, errors), (3, b""))


def test_no_room():
    """A pipe that is full, and that does not wait."""
    for buffers, why in (({}, "write could not complete without blocking"), ({"PYTHONUNBUFFERED": "1"}, "it takes no more")):
        reader, writer = os.pipe()
        os.set_blocking(writer, False)
        try:
            while True:
                os.write(writer, bytes(4096))
        except BlockingIOError:
            check(f"a full pipe with {buffers}", end(PRINTING[0], out=writer, **buffers), lost(why))
        os.close(reader)
        os.close(writer)


def test_lost_errors():
    """A message that cannot be written changes no status."""
    for buffers in ({}, {"PYTHONUNBUFFERED": "1"}):
        with open("/dev/full", "wb") as full:
            check("a full disk for errors", end(("ask", "none.shares"), errors=full, **buffers), (2, ""))
        check("errors closed", end(("ask", "none.shares"), before=lambda: os.close(2), errors=None, **buffers), (2, ""))
        closed = subprocess.run([str(TOP / "ask"), "none.shares"], stdout=subprocess.PIPE, preexec_fn=lambda: os.close(2),
                                cwd=FOLDER.name, env=surroundings(buffers))
        check("errors closed: none of them in the output", (closed.returncode, closed.stdout), (2, b""))
    check("all streams closed", end(("ask", str(ANSWERED)), before=lambda: os.closerange(0, 3))[0], 3)


def test_input():
    """Standard input that is closed, or no file."""
    closed = (2, "-: it could not be read: it is closed\n")
    check("ask, input closed", end(("ask", "-"), before=lambda: os.close(0)), closed)
    check("explain, input closed", end(("explain", "-"), before=lambda: os.close(0)), closed)
    check("ask --judge, input closed", end(("ask", "--judge", str(ANSWERED), "-"), before=lambda: os.close(0)), closed)
    check("ask --judge, a folder", end(("ask", "--judge", str(ANSWERED), ".")), (2, ".: it could not be read: Is a directory\n"))
    check("ask, a folder", end(("ask", ".")), (2, ".: it could not be read: Is a directory\n"))
    for name in ("ask", "explain --hex", f"ask --judge {ANSWERED}"):
        with open("/dev/zero", "rb") as zeros:
            check(f"{name}, input without an end", end((*name.split(), "-"), before=small_memory, given=zeros),
                  (2, "-: it could not be read: it has more than 1,048,576 bytes\n"))
    with open("/dev/zero", "rb") as zeros:
        check("explain, input without an end", end(("explain", "-"), before=small_memory, given=zeros), (1, ""))


def unread_bytes(descriptor):
    """How many bytes of a pipe nobody has read yet."""
    return struct.unpack("i", fcntl.ioctl(descriptor, termios.FIONREAD, bytes(4)))[0]


def test_interrupt():
    """An interrupt ends a command as it ends any other: by the signal, with nothing said."""
    waiting = subprocess.Popen([str(TOP / "ask"), "-"], stdin=subprocess.PIPE, stdout=subprocess.PIPE, stderr=subprocess.PIPE, env=surroundings({}))
    waiting.stdin.write(b"satisfiable")
    waiting.stdin.flush()
    while unread_bytes(waiting.stdin.fileno()) and waiting.poll() is None:  # until it reads
        time.sleep(0.01)
    waiting.send_signal(signal.SIGINT)
    out, errors = waiting.communicate()
    check("an interrupt", (waiting.returncode, out, errors), (-signal.SIGINT, b"", b""))


def test_own_errors():
    """An error of the command itself, or of how it was put there, ends with 2: Python's own status would be that of an answer."""
    with mock.patch("front_end.text.read_text", side_effect=RecursionError("two\nlines")):
        status, out, errors = command("ask", "-", given=b"satisfiable")
    due = "this is an error in the command itself, please report it: RecursionError: two\\nlines "
    check("an error of its own", (status, out, errors[:len(due)], errors.count("\n")), (2, b"", due, 1))
    for name in ("ask", "explain"):
        alone = file(name, (TOP / name).read_bytes())
        alone.chmod(0o755)
        done = subprocess.run([alone, "-"], input=b"satisfiable", stdout=subprocess.PIPE, stderr=subprocess.PIPE, env=surroundings({}))
        due = f"{name}: the folder front_end is missing beside it (No module named 'front_end')\n"
        check(f"{name} without front_end", (done.returncode, done.stdout, done.stderr.decode()), (2, b"", due))
    for changes in ({"PYTHONSAFEPATH": "1"}, {"PYTHONOPTIMIZE": "2"}, {"LC_ALL": "C", "PYTHONUTF8": "0", "PYTHONCOERCECLOCALE": "0"},
                    {"PYTHONIOENCODING": "ascii"}, {"COLUMNS": "1"}):
        for arguments in (("ask", "--bytes", "-"), ("ask", "--help")):
            status, out, errors = process(*arguments, given="satisfiable # \u00fc".encode(), **changes)
            check(f"{arguments} with {changes}", (status, bool(out), errors), (0, True, ""))


HOSTILE = "\x1b[2J\x07\u202e\x00\x7f" + "x" * (1 << 19)
UNSEEN = "\u200b\ue000\u00ad\udc9b" + "x" * (1 << 19)  # it is no control character, and none of it prints


def test_echo():
    """What a message repeats is escaped and cut, and a message is one line."""
    hostile, unseen = HOSTILE.encode(), UNSEEN.encode("utf-8", "surrogateescape")
    argument = HOSTILE.replace("\x00", "").replace("x" * (1 << 19), "x" * 3000)
    texts = [hostile, b"satisfiable\nfree " + hostile, b"satisfiable\nfree a\na is " + hostile, b"satisfiable\nlet a = (" + hostile,
             b"satisfiable\nfree " + b"a" * (1 << 19), b"satisfiable\n" + b"a" * (1 << 19) + b" is o", b"entails\n\xff\xfe\x80",
             b"satisfiable\nfree a\na is o\rentails", b"satisfiable\na\x85 is o", unseen,
             b"satisfiable\nfree " + unseen, b"satisfiable\nfree a\na is " + unseen, b"satisfiable\nlet a = (" + unseen]
    runs = [(f"text {text[:40]!r}", command("ask", "-", given=text)) for text in texts]
    rows = [hostile, b"editor " + hostile, b"editor = (" + hostile, b"editor = o join " + hostile, b"a" * (1 << 19), b"editor " + b"a" * (1 << 19),
            b"editor (*o) " + b"b" * (1 << 19), b"", b"editor \xff\xfe", b"editor o\rplayer o", unseen,
            b"editor " + unseen, b"editor = (" + unseen, b"editor = o join " + unseen]
    runs += [(f"rows {text[:40]!r}", command("ask", "--judge", str(ANSWERED), "-", given=text)) for text in rows]
    runs += [("hexadecimal", command("explain", "--hex", "-", given=given)) for given in (hostile, unseen)]
    for name in ("ask", "explain", "docs/draw"):
        runs.append((f"{name}, a file's name", command(name, argument)))
        runs.append((f"{name}, a name with line ends", command(name, "a\nb\n")))
        runs.append((f"{name}, an option", command(name, "--" + argument)))
        runs.append((f"{name}, a name that is no text", process(name, b"\xff\xfe")))
    runs.append(("a program's name", process("ask", str(ANSWERED), ZIMORGAL_CLI=argument)))
    file("judged.rows", EXTENDING)
    runs.append(("a judging program's name", process("ask", *JUDGED, ZIMORGAL_JUDGE_CLI=argument)))
    runs.append(("the name of a file with rows", command("ask", "--judge", str(ANSWERED), argument)))
    runs.append(("an empty name", process("ask", "")))
    for name, (status, out, errors) in runs:
        ends = status == (1 if name == "hexadecimal" else 2) and out == b""
        check(f"echo of {name}: {errors[:80]!r}", (ends, bool(re.fullmatch(r"[!-~][ -~]{10,700}\n", errors))), (True, True))
