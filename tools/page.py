"""What tools that measure put into a page of docs/: a table, with a line on what it was made of, when and where."""

import datetime
import os
import re
import subprocess
import sys

import kit

END = "<!-- end -->"


def machine():
    """Returns what processors there are, and how many of them one may have."""
    with open("/proc/cpuinfo") as it:
        model = re.search(r"(?m)^model name\s*: (.*)$", it.read())
    return f"{len(os.sched_getaffinity(0))} processors ({model[1] if model else 'of no known model'})"


def commit():
    """Returns the commit that is checked out, and whether something is changed beside it."""
    asked = (["rev-parse", "--short", "HEAD"], ["status", "--porcelain", "-uno"])
    said = [subprocess.run(["git", "-C", kit.ROOT, *it], capture_output=True, text=True).stdout.strip() for it in asked]
    return f"commit {said[0] or 'unknown'}{', with changes' if said[1] else ''}"


def made_of(words):
    """Returns what begins such a line: the command, the commit, the date and the machine."""
    return f"`{' '.join(words)}`, {commit()}, {datetime.date.today()}, {machine()}"


def around(page, tool):
    """Returns what stands in the page before the tool's line, and from the line of its end on."""
    begin = f"<!-- {tool} -->"
    with open(page, encoding="utf-8") as it:
        before, found, rest = it.read().partition(begin)
    _, end, after = rest.partition(END)
    if not found or not end:
        sys.exit(f"{page} has no lines {begin} and {END}")
    return f"{before}{begin}\n", f"\n{end}{after}"


def put_into(page, tool, text):
    """Puts the text between these, in place of what stands there."""
    before, after = around(page, tool)
    with open(page, "w", encoding="utf-8") as it:
        it.write(before + text + after)
