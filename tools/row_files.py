"""Files of rows: scripts, and what is asked of each. rows/README.md says how such a file is written."""

import os
import re
import sys
import typing
from functools import partial

import kit

ESCAPE = re.compile(rb"\\(?:x(?P<hex>[0-9a-fA-F]{2})|(?P<other>[^x]))")
ESCAPED = {b"n": b"\n", b"r": b"\r", b"t": b"\t"}


class Fault(Exception):
    """What a file of rows lacks."""


class Question(typing.NamedTuple):
    """What is asked of a script, and the answer that is expected."""

    line: str
    words: list
    # The name of the script's file, as the words have it.
    file: str
    script: bytes
    status: int
    text: str


class Row(typing.NamedTuple):
    """A script's name, and the questions about it."""

    name: str
    questions: list


def bytes_of(line):
    """Returns a line of a script, its escapes resolved, with a line feed unless it ends in a backslash."""
    line = line.encode()
    escapes = ESCAPE.sub(b"", line)
    if b"\\" in escapes[:-1]:
        raise Fault(f"two digits are wanted after \\x in {line}")
    end = b"" if escapes.endswith(b"\\") else b"\n"
    line = line if end else line[:-1]
    return ESCAPE.sub(lambda it: bytes.fromhex(it["hex"].decode()) if it["hex"] else ESCAPED.get(it["other"], it["other"]), line) + end


def lines_of(line, filling):
    """Returns a line of a script with the filling in it, or, as `@1-64 cell a{}`, its copies."""
    if not line.startswith("@"):
        return [line.replace("{}", filling)]
    found = re.match(r"@(\d+)-(\d+)(?: (.*))?$", line)
    if not found:
        raise Fault(f"no range in {line!r}")
    numbers = range(int(found[1]), int(found[2]) + 1)
    return [(found[3] or "").replace("{}", str(it)).replace("{+}", str(it + 1)) for it in numbers]


def script_of(lines, filling):
    """Returns the script of these lines."""
    return b"".join(bytes_of(it) for line in lines for it in lines_of(line, filling))


def question_of(asking, printed, file, script):
    """Returns the question of a line that asks, with the lines that are expected to be printed below it."""
    found = re.match(r"([$%])(.*?)=>\s*(\d+)(?: (.*))?$", asking)
    if not found:
        raise Fault(f"no answer in {asking!r}")
    filling, words = (found[2].strip(), "check f") if found[1] == "%" else ("", found[2])
    # (no line that is printed is empty, so an empty one separates rows)
    text = "".join(f"{it}\n" for it in (found[4], *printed) if it)
    words = ["" if it == '""' else it for it in words.split()]
    return Question(asking, words, file, script(filling), int(found[3]), text)


def parts_of(lines, marks):
    """Returns the lines above the first that begins with one of the marks, and from each such line those to the next."""
    starts = [number for number, line in enumerate(lines) if line.startswith(marks)]
    ends = [*starts[1:], len(lines)]
    return lines[: (starts or [len(lines)])[0]], [lines[at:end] for at, end in zip(starts, ends)]


def row_of(name, lines, file="f", script=None):
    """Returns the row of these lines: a script, unless it is given, and what is asked of it."""
    own, asked = parts_of(lines, ("$ ", "% "))
    if not asked:
        raise Fault(f"nothing is asked in row {name!r}")
    make = partial(script_of, own) if script is None else lambda _: script
    return Row(name, [question_of(it[0], it[1:], file, make) for it in asked])


def read(path):
    """Returns the text of a file, as bytes."""
    try:
        with open(path, "rb") as it:
            return it.read()
    except OSError as error:
        raise Fault(error.strerror) from error


def rows_of(path):
    """Returns the rows of a file. A file NAME.expected has what is asked of NAME.lvish beside it."""
    try:
        lines = read(path).decode().split("\n")
    except UnicodeDecodeError as error:
        raise Fault("no text") from error
    if path.endswith(".expected"):
        script = path.removesuffix(".expected") + ".lvish"
        name = os.path.basename(script)
        return [row_of(name, lines, name, read(script))]
    _, rows = parts_of(lines, "== ")
    if not rows:
        raise Fault("no rows")
    return [row_of(it[0][3:], it[1:]) for it in rows]


def all_files():
    """Returns the files of rows and of examples in this repository."""
    folders = (("rows", ".rows"), ("examples", ".expected"), ("examples/tutorial", ".expected"))
    found = [f"{kit.ROOT}/{at}/{it}" for at, end in folders for it in sorted(os.listdir(f"{kit.ROOT}/{at}")) if it.endswith(end)]
    return found or sys.exit("there are no files of rows")
