"""What the commands share: arguments, reading, writing, messages, and how a command ends."""

import argparse
import contextlib
import os
import re
import signal
import sys
from pathlib import Path

HEADER = Path(__file__).resolve().parent.parent / "include" / "zimorgal.h"
FAULT, LOST = 2, 3  # how a command ends: an error, and output that could not be written
MOST_BYTES = 1 << 20  # of a file that is read
LONG_WORD, LONG_NAME = 40, 300  # how many characters of a word, and of a file's name, a message has


class Trouble(Exception):
    """Why there is no answer, in words; if it is something in a text, where: lines and columns count from 1."""

    def __init__(self, what, line=None, column=None):
        super().__init__(what)
        self.what = what
        self.line = line
        self.column = column

    def told(self, name):
        """The message, for a file of that name."""
        place = "" if self.line is None else f":{self.line}:{self.column}"
        return f"{shown(name) or quote(name)}{place}: {self.what}"


class FileFault(Trouble):
    """Why a file cannot be read."""


def escape(sign):
    """A character as it is shown: itself if it prints, a byte that is no text as \\xNN, any other by its number."""
    if 0xDC80 <= ord(sign) <= 0xDCFF:
        return f"\\x{ord(sign) - 0xDC00:02x}"
    return sign if sign.isprintable() else sign.encode("unicode_escape").decode()


def shown(text, most=LONG_NAME):
    """Text for a message: on one line, escaped, and cut if it is long."""
    return "".join(map(escape, text[:most])) + ("..." if len(text) > most else "")


def quote(word):
    return f"'{shown(word, LONG_WORD)}'"


def reason(error):
    """Why a call of the system failed."""
    return shown(error.strerror or str(error))


def forget(stream):
    """Sends what a stream still holds nowhere, so that Python does not fail on it when it ends."""
    with contextlib.suppress(OSError, ValueError):
        os.dup2(os.open(os.devnull, os.O_WRONLY), stream.fileno())


def complain(message):
    """Writes one line to standard error. Where that is closed or full there is nobody to tell."""
    if sys.stderr is None:
        return
    try:
        sys.stderr.write(message + "\n")
        sys.stderr.flush()
    except (OSError, ValueError):
        forget(sys.stderr)


def stop(status, message):
    complain(message)
    sys.exit(status)


def write_all(stream, string):
    """Writes all of a byte string, also to a stream that takes only a part at a time."""
    rest = memoryview(string)
    while rest:
        taken = stream.write(rest)
        if not taken:
            raise BlockingIOError(None, "it takes no more")
        rest = rest[taken:]
    stream.flush()


def put(string):
    """Writes a byte string to standard output, at once and whole, or stops: with a message, unless whoever reads it
    wants no more, as 'head' does."""
    try:
        if sys.stdout is None:
            raise OSError(None, "it is closed")
        write_all(sys.stdout.buffer, string)
    except OSError as error:
        if sys.stdout is not None:
            forget(sys.stdout)
        if isinstance(error, BrokenPipeError):
            sys.exit(LOST)
        stop(LOST, f"standard output: it could not be written: {reason(error)}")


def put_line(line):
    put(f"{line}\n".encode())


def first_bytes(name, most):
    """At most so many bytes of a file, of standard input for '-'."""
    try:
        if name != "-":
            with open(name, "rb") as file:
                return file.read(most)
        if sys.stdin is None:
            raise OSError(None, "it is closed")
        return sys.stdin.buffer.read(most)
    except OSError as error:
        raise FileFault(f"it could not be read: {reason(error)}") from None


def read_file(name):
    """The bytes of a file."""
    string = first_bytes(name, MOST_BYTES + 1)
    if len(string) > MOST_BYTES:
        raise FileFault(f"it could not be read: it has more than {MOST_BYTES:,} bytes")
    return string


def version():
    """The version, from the header, where it stands alone."""
    try:
        header = HEADER.read_text()
    except OSError as error:
        stop(FAULT, f"include/{HEADER.name}, which has the version, could not be read: {reason(error)}")
    define = r"^#define ZIMORGAL_VERSION_{} (\d+)$"
    return ".".join(re.search(define.format(part), header, re.M)[1] for part in ("MAJOR", "MINOR", "PATCH"))


class Version(argparse.Action):
    """Prints the version, like any other output, and ends."""

    def __call__(self, parser, *_):
        put_line(f"{parser.prog} {version()}")
        sys.exit(0)


def help_layout(prog):
    return argparse.RawDescriptionHelpFormatter(prog, width=140)


class Arguments(argparse.ArgumentParser):
    """The arguments of a command. Help is written like any other output, and an error is one line."""

    def __init__(self, prog, description, epilog):
        super().__init__(prog=prog, description=description, epilog=epilog, allow_abbrev=False, formatter_class=help_layout)
        self.add_argument("--version", action=Version, nargs=0, help="print the version and end")

    def print_help(self, file=None):
        put(self.format_help().encode())

    def error(self, message):
        stop(FAULT, f"{shown(message)} ('{self.prog} --help' says what may be written)")


def run(main):
    """Runs a command to its end. An error of its own ends with FAULT: Python would end with 1, which can be an answer."""
    signal.signal(signal.SIGINT, signal.SIG_DFL)
    try:
        sys.exit(main())
    except Exception as error:
        place = error.__traceback__
        while place.tb_next:
            place = place.tb_next
        what, name = shown(f"{type(error).__name__}: {error}"), os.path.basename(place.tb_frame.f_code.co_filename)
        stop(FAULT, f"this is an error in the command itself, please report it: {what} ({name}, line {place.tb_lineno})")
