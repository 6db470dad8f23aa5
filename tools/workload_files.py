"""All workloads of tools/bench: which there are, and how they are written into a folder."""

import json
import os
import sys

import workload_runs as runs
import workload_texts as texts

LONGEST = 65_536


def kinds():
    """Yields each workload's name, size, unit, what it is, and how to make it."""
    for make, (sizes, unit) in runs.KINDS.items():
        for size in sizes:
            yield make.__name__, size, unit, make.__doc__, lambda make=make, size=size: make(size)
    for count in runs.WALKS:
        about = f"a walk through a graph, {count:,} statements at each node"
        yield f"walk-{count}", runs.NODES, "nodes", about, lambda count=count: runs.walk(count)
    for name, shape in texts.SHAPES.items():
        for size in texts.SIZES:
            yield f"check-{name}", size, "bytes", shape.__doc__, lambda shape=shape, size=size: texts.check(shape(size))


def is_among(name, names):
    """Whether a workload is one of these names, or of one of these families; of no names, it always is."""
    return not names or name in names or name.partition("-")[0] in names


def write(folder, only):
    """Writes the workloads of these names into a folder; returns what its manifest says."""
    os.makedirs(folder, exist_ok=True)
    entries = []
    for name, size, unit, about, make in kinds():
        if not is_among(name, only):
            continue
        made, base = make(), f"{name}-{size}"
        if len(made.script) > LONGEST:
            sys.exit(f"{base} has {len(made.script)} bytes")
        entry = {"name": name, "n": size, "unit": unit, "about": about, "file": f"{base}.lvish", "expected": f"{base}.expected"}
        entry |= {"words": made.words, "status": 0, "steps": made.steps, "statements": made.statements, "bytes": len(made.script)}
        for file, text in ((entry["file"], made.script), (entry["expected"], made.output)):
            with open(f"{folder}/{file}", "w", encoding="ascii") as it:
                it.write(text)
        entries.append(entry)
    with open(f"{folder}/manifest.json", "w", encoding="ascii") as it:
        json.dump(entries, it, indent=1)
    return entries
