"""`rt try` without the check beside it, which takes as long as the program and only warns of reserved names.

    python3 tests/rows/try.py [FLAGS]    in the folder of a crate, with the flags of `rt try`

The gate checks the libraries anyway, and these programs aren't proved."""

import importlib.machinery
import importlib.util
import os
import shutil
import sys


def load_rt():
    """The kit's own command as a module."""
    path = os.path.realpath(shutil.which("rt") or sys.exit("rows: there is no command rt"))
    loader = importlib.machinery.SourceFileLoader("rt", path)
    rt = importlib.util.module_from_spec(importlib.util.spec_from_loader("rt", loader))
    loader.exec_module(rt)
    return rt


sys.dont_write_bytecode = True
rt = load_rt()
# `rt try` itself compiles by another program.
rt.rtlib.RATTLE = shutil.which("true")
sys.exit(rt.main(["try", *sys.argv[1:]]))
