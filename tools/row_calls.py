"""The calls of programs that the questions of rows ask for, and what is answered to a question.

A question is about `lvish`, but for those that a probe answers: `lvish_probe` or, about boards, `lvish_board_probe`.
"""

import subprocess
import tempfile
import typing
from collections import Counter

import kit

LVISH, PROBE, BOARD_PROBE = "lvish", "lvish_probe", "lvish_board_probe"
# Where a run of `rt ci` leaves them.
PATHS = {it: f"{kit.ROOT}/crates/{it}/out/{it}" for it in (LVISH, PROBE, BOARD_PROBE)}
# The questions of the first probe.
OF_PROBE = ("canonical", "faults", "order", "replayed", "report")
WORKERS = ("1", "2", "8")
OFTEN, LISTS, PICKS = 100, 200, 40
# The seconds that a call may take.
SECONDS = 120


class Call(typing.NamedTuple):
    """A program's name, its words, and the bytes of its standard input and of its file."""

    program: str
    words: tuple
    given: bytes
    file: str
    script: bytes


class Ran(typing.NamedTuple):
    """How a call ended, and what it printed. A status below 0 is a signal."""

    status: int
    text: str
    said: str


def program_of(question):
    """Returns the name of the program that is asked."""
    first = question.words[0] if question.words else ""
    return BOARD_PROBE if first == "board" else PROBE if first in OF_PROBE else LVISH


def picks_of(number):
    """Returns the picks of the list with this number, by a linear congruence."""
    picks = []
    for _ in range(PICKS):
        number = (number * 6364136223846793005 + 1442695040888963407) % 2**64
        picks.append(str(number >> 45))
    return picks


def board_input(question):
    """Returns the input of a board: the script, and the calls that the expected lines name."""
    calls = [it.split(" -> ")[0] for it in question.text.splitlines()]
    return question.script + "".join(f"{it}\n" for it in ("-- calls", *calls)).encode()


def calls_of(question):
    """Returns the calls that a question asks for."""
    words, file, script = question.words, question.file, question.script
    first, program = words[0] if words else "", program_of(question)
    if program == BOARD_PROBE:
        return [Call(program, tuple(words[1:]), board_input(question), file, script)]
    if program == PROBE:
        return [Call(program, tuple(words), script, file, script)]
    if first == "cuts":
        return [Call(program, ("check", file), b"", file, script[:it]) for it in range(len(script) + 1)]
    if first == "lists":
        asked = [("pick", file, "--all", *it) for it in ([], *map(picks_of, range(LISTS)))]
    elif first == "often":
        asked = [(*words[1:], "--workers", it) for it in WORKERS for _ in range(OFTEN)]
    elif first == "said":
        asked = [words[1:]]
    elif first == "run" and "--workers" not in words:
        asked = [words, *([*words, "--workers", it] for it in WORKERS)]
    else:
        asked = [words]
    return [Call(program, tuple(it), b"" if it else script, file, script) for it in asked]


def shown(line):
    """Returns a printed line as a row's script has it, with its escapes."""
    return "".join(chr(it) if 32 <= it <= 126 and it != 92 else f"\\x{it:02x}" for it in line) or "\\n\\"


def laid_out(ran):
    """Returns the lines of a layout, as a row's script has them."""
    lines = bytes_of(ran.text).split(b"\n")
    return "".join(f"{shown(it)}\n" for it in lines[:-1]) + (f"{shown(lines[-1])}\\\n" if lines[-1] else "")


def answer_to(question, rans):
    """Returns the status and the text that answer a question, by what its calls came to."""
    first = question.words[0] if question.words else ""
    if first == "cuts":
        return 0, stretches([it.status for it in rans])
    if first == "lists":
        return 0, ends(rans)
    if first == "said":
        return rans[0].status, rans[0].text + rans[0].said
    if first == "layout":
        return rans[0].status, laid_out(rans[0])
    usual = rans[0]
    other = next((it for it in rans if it[:2] != usual[:2]), None)
    text = usual.text
    if usual.status == 2 and program_of(question) == LVISH:
        text += f"refused: {usual.said.split(' ')[0]}\n"
    return usual.status, text if other is None else f"{text}or, of {len(rans)} runs, also {other.status} {other.text}"


def stretches(statuses):
    """Returns a line for each stretch of calls that end with one status."""
    starts = [at for at in range(len(statuses)) if not at or statuses[at] != statuses[at - 1]]
    lasts = [*(it - 1 for it in starts[1:]), len(statuses) - 1]
    return "".join(f"{at} to {last}: status {statuses[at]}\n" for at, last in zip(starts, lasts))


def parted(text):
    """Returns the trace that is printed of a run by picks, and its report."""
    lines = text.splitlines()
    is_step = [it.startswith(("run ", "hand ")) and " = " not in it for it in lines]
    count = is_step.index(False) if False in is_step else len(lines)
    return lines[:count], lines[count:]


def ends(rans):
    """Returns how many lists of picks end like the run without any, and whether their traces differ."""
    usual, *others = [(it.status, *parted(it.text)) for it in rans]
    alike = sum(status == 0 == usual[0] and report == usual[2] for status, _, report in others)
    traces = Counter(tuple(trace) for _, trace, _ in others)
    return f"{alike} of {len(others)} lists end alike, by {'traces that differ' if len(traces) > 1 else 'one trace'}\n"


def run(words, given, folder=None):
    """Runs a program, its words first its path, with the given bytes as its standard input, and returns what came of it."""
    try:
        ran = subprocess.run(words, cwd=folder, input=given, capture_output=True, timeout=SECONDS)
    except (OSError, subprocess.TimeoutExpired) as error:
        return Ran(-1, "", str(error))
    # (bytes that are no text come back by `bytes_of`)
    return Ran(ran.returncode, ran.stdout.decode(errors="surrogateescape"), ran.stderr.decode(errors="replace"))


def bytes_of(text):
    """Returns the bytes that a program printed as this text."""
    return text.encode(errors="surrogateescape")


class Calls:
    """Makes calls of the programs with these paths, each in a folder of the room where its file lies."""

    def __init__(self, paths, room):
        self.paths, self.room, self.folders = paths, room, {}

    def folder_of(self, call):
        """Returns the folder with a call's file."""
        own = call.file, call.script
        if own not in self.folders:
            folder = tempfile.mkdtemp(dir=self.room)
            with open(f"{folder}/{call.file}", "wb") as it:
                it.write(call.script)
            self.folders[own] = folder
        return self.folders[own]

    def words_of(self, call):
        """Returns the words of a call, its program's path first."""
        return [self.paths[call.program], *call.words]

    def make(self, call):
        """Makes a call, and returns what came of it. A layout is laid out again, and where that changes it, the change counts."""
        words, folder = self.words_of(call), self.folder_of(call)
        if call.words[:1] != ("layout",):
            return run(words, call.given, folder)
        ran = run([words[0], "fmt", *words[2:]], call.given, folder)
        again = run([words[0], "fmt", "-"], bytes_of(ran.text), folder)
        return ran if again == ran else again
