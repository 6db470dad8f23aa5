"""The kit's `rt`, as a module for the tools of this repository."""

import importlib.machinery
import importlib.util
import os
import shutil
import sys

ROOT = os.path.dirname(os.path.dirname(os.path.abspath(__file__)))

LACKS_RT = "`rt`, the command of the Rattle kit, is missing on PATH: README.md, 'What it stands on', says which kit"


def load():
    """Returns the kit's rt, with the crates' handles set as the file HANDLES has them."""
    found = shutil.which("rt")
    if not found:
        sys.exit(LACKS_RT)
    loader = importlib.machinery.SourceFileLoader("rt", os.path.realpath(found))
    rt = importlib.util.module_from_spec(importlib.util.spec_from_loader("rt", loader))
    loader.exec_module(rt)
    rt.rtlib.Crate = rt.Crate
    # (its first call sets a signal's handler, which only the main thread may)
    rt.rtlib.guarded()
    rt.Crate.allowed = rt.handles_of(ROOT)
    return rt
