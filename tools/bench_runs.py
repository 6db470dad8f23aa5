"""The programs that tools/bench compares, and runs of them: time, memory, and whether they printed what they had to."""

import fcntl
import glob
import os
import signal
import subprocess
import sys
import time
import typing

import kit

PEER = f"{kit.ROOT}/tools/peer"
BUILD = ["rustc", "--edition", "2024", "-O", "-C", "codegen-units=1", "-C", "lto=fat", "-C", "panic=abort"]
# The seconds after which a run is ended.
LIMIT = 60
# The least that a pipe can hold.
PIPE = 4096


class Wrong(Exception):
    """What a program printed otherwise than it had to."""


class Ran(typing.NamedTuple):
    """Seconds by the clock, and of processors."""

    clock: float
    processor: float


def peer():
    """Returns the peer's path; it is compiled where a source is younger, and kept beside them."""
    made, sources = f"{PEER}/out/peer", glob.glob(f"{PEER}/src/*.rs")
    if os.path.exists(made) and os.path.getmtime(made) > max(map(os.path.getmtime, sources)):
        return made
    os.makedirs(os.path.dirname(made), exist_ok=True)
    fresh = f"{made}-{os.getpid()}"
    try:
        subprocess.run([*BUILD, "-o", fresh, f"{PEER}/src/main.rs"], check=True)
    except (OSError, subprocess.CalledProcessError) as error:
        sys.exit(f"the peer can't be compiled: {error}")
    os.rename(fresh, made)
    return made


class Runs:
    """Runs of programs on the workloads of a folder, with a file for what they print."""

    def __init__(self, folder):
        self.folder, self.printed = folder, f"{folder}/printed"

    def command(self, program, entry, workers=1):
        """Returns the words with which a program runs a workload."""
        words = [f"{self.folder}/{entry['file']}" if it == "FILE" else it for it in entry["words"]]
        return [program, *words, *(["--workers", str(workers)] if words[0] == "run" else [])]

    def judge(self, words, entry, status, got):
        """Raises Wrong unless the program ended as it had to, and printed that."""
        with open(f"{self.folder}/{entry['expected']}", "rb") as it:
            expected = it.read()
        if (status, got) != (entry["status"], expected):
            raise Wrong(f"{' '.join(words)}: status {status}, not {entry['status']}; it printed ..{got[-60:]!r}, not ..{expected[-60:]!r}")

    def time(self, program, entry, workers=1):
        """Runs a program once; returns what it took."""
        words = self.command(program, entry, workers)
        out = os.open(self.printed, os.O_RDWR | os.O_CREAT | os.O_TRUNC)
        try:
            start = time.perf_counter()
            status, used = ended(os.posix_spawn(program, words, os.environ, file_actions=[(os.POSIX_SPAWN_DUP2, out, 1)]))
            clock = time.perf_counter() - start
            self.judge(words, entry, status, os.pread(out, os.fstat(out).st_size, 0))
        finally:
            os.close(out)
        return Ran(clock, used.ru_utime + used.ru_stime)

    def together(self, program, entry, count):
        """Returns the seconds that so many processes take that are begun together."""
        words, start = self.command(program, entry), time.perf_counter()
        ran = [subprocess.Popen(words, stdout=subprocess.DEVNULL) for _ in range(count)]
        if any([it.wait() for it in ran]):
            raise Wrong(f"{' '.join(words)}: of {count} at once, not all ended with status 0")
        return time.perf_counter() - start

    def memory(self, program, entry):
        """Returns the megabytes that a program held at most when it began to print, and while it did."""
        words = self.command(program, entry)
        kilobytes, status, got = most_held(words)
        self.judge(words, entry, status, got)
        return kilobytes / 1000


def most_held(words):
    """Returns the kilobytes that a program held at most when it began to print, and while it did, its status, and what it printed.

    (What the system says of an ended process counts the memory of the one that started it. So the program gets a pipe
    that is full: it sleeps when it has something to print, and is looked at then.)
    """
    got = b""
    reader, writer = os.pipe()
    fcntl.fcntl(writer, fcntl.F_SETPIPE_SZ, PIPE)
    os.write(writer, b" " * PIPE)
    actions = [
        (os.POSIX_SPAWN_DUP2, writer, 1),
        (os.POSIX_SPAWN_OPEN, 2, os.devnull, os.O_WRONLY, 0),
        (os.POSIX_SPAWN_CLOSE, reader),
    ]
    process = os.posix_spawn(words[0], words, os.environ, file_actions=actions)
    os.close(writer)
    held = [held_by(process, "S")]
    while piece := os.read(reader, PIPE):
        got += piece
        held.append(held_by(process))
    os.close(reader)
    return max(held), ended(process)[0], got[PIPE:]


def held_by(process, state=""):
    """Returns the kilobytes that a process has held at most, once it is in a state, if one is given; 0 where it has ended."""
    kilobytes = 0
    while True:
        with open(f"/proc/{process}/status", encoding="ascii") as it:
            said = dict(line.split(":", 1) for line in it)
        if "VmHWM" not in said:
            return kilobytes
        kilobytes = int(said["VmHWM"].split()[0])
        if said["State"].strip().startswith(state):
            return kilobytes
        time.sleep(0.001)


def ended(process):
    """Waits for a process, but not for ever; returns its status and what it used."""

    def end(*_):
        os.kill(process, signal.SIGKILL)

    signal.signal(signal.SIGALRM, end)
    signal.alarm(LIMIT)
    _, status, used = os.wait4(process, 0)
    signal.alarm(0)
    return os.waitstatus_to_exitcode(status), used
