"""Runs the program of src/, compiled without proof by `rt try`."""

import importlib.machinery
import importlib.util
import os
import shutil
import subprocess
import sys
import tempfile

import zones

HERE = os.path.dirname(os.path.realpath(__file__))
TOP = os.path.dirname(os.path.dirname(os.path.dirname(HERE)))


def rows_of_top():
    """The script `tests/rows/run` as a module."""
    loader = importlib.machinery.SourceFileLoader("rows_run", f"{TOP}/tests/rows/run")
    module = importlib.util.module_from_spec(importlib.util.spec_from_loader("rows_run", loader))
    loader.exec_module(module)
    return module


def lines_of(zone):
    """The lines of a zone that the program reads, all but the last."""
    yield f"zone {zone.origin.to_wire().hex()} {zone.proof}"
    for owner, kind, data in zone.records:
        yield f"{owner.to_wire().hex()} {zones.TTL} {kind} {data.to_wire().hex()}"


def answers(runs):
    """The lines that the program answers to the lines of each run. Of each run `rt try` passes on 1 MiB."""
    with tempfile.TemporaryDirectory(prefix="circles.") as room:
        rows_of_top().copy_into(room)
        with open(f"{HERE}/uses.txt", encoding="utf-8") as uses, open(f"{room}/crates.txt", "a", encoding="utf-8") as crates:
            crates.write(uses.read())
        os.makedirs(f"{room}/crates/circles/src")
        for file in os.listdir(f"{HERE}/src"):
            shutil.copy(f"{HERE}/src/{file}", f"{room}/crates/circles/src/{file[:-len('.txt')]}")
        os.mkdir(f"{room}/runs")
        for at, lines in enumerate(runs):
            with open(f"{room}/runs/{at:06}", "w", encoding="ascii") as file:
                file.writelines(f"{line}\n" for line in lines)
        words = [sys.executable, f"{TOP}/tests/rows/try.py", "--seconds", "600", "--cases", f"{room}/runs"]
        ran = subprocess.run(words, cwd=f"{room}/crates/circles", capture_output=True, text=True)
    if ran.returncode:
        sys.exit(f"the program ended with status {ran.returncode}: {(ran.stderr + ran.stdout)[-2000:]}")
    # (the name of each run comes before its answers)
    return [line for line in ran.stdout.splitlines() if line and not line.startswith("== ")]
