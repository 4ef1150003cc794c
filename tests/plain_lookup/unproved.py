"""Asks the libraries without proof, by the question `answers` of the rows' program (tests/rows/vectors), which takes zones of any
types. The program is compiled once, by `rt try`, and run for some thousand requests at a time."""

import importlib.machinery
import importlib.util
import os
import subprocess
import tempfile

import wire
from lookup import ANAME, same

ROWS = os.path.join(os.path.dirname(os.path.realpath(__file__)), "../rows")
# Of each run 1 MiB is passed on, of replies in hex; these are octets.
OCTETS_A_RUN = 250_000
SECONDS_A_RUN = 300


def runner():
    """The module `tests/rows/run`."""
    loader = importlib.machinery.SourceFileLoader("rows_run", f"{ROWS}/run")
    module = importlib.util.module_from_spec(importlib.util.spec_from_loader("rows_run", loader))
    loader.exec_module(module)
    return module


def is_last(lines, at):
    """Whether no later ANAME takes the place of this one: the program adds a record to its set."""
    return not any(lines[at].type == line.type == ANAME and same(lines[at].owner, line.owner) for line in lines[at + 1:])


def row(asked):
    """The row that asks a zone."""
    lines = [wire.record_text(line) for at, line in enumerate(asked.lines) if is_last(asked.lines, at)]
    messages = [wire.request_octets(request).hex() for request in asked.requests]
    return "\t".join(["answers", wire.name_text(asked.origin), "- " + "\\n".join(lines), "tcp", *messages])


def runs_of(rows, lengths):
    """The rows of each run, whose replies have no more octets than one run may have, as these lengths say."""
    runs, octets = [[]], 0
    for row, length in zip(rows, lengths):
        if runs[-1] and octets + length > OCTETS_A_RUN:
            runs, octets = [*runs, []], 0
        runs[-1].append(row)
        octets += length
    return runs


def answers_of(runs, output):
    """The rows' answers, which stand behind the name of each run and some lines of the program's own."""
    answers = []
    for said, rows in zip(output.split("== ")[1:], runs, strict=True):
        answers += said.splitlines()[-len(rows):]
    return answers


def ask(runs, room):
    """What the program answers to the rows of these runs."""
    runner().copy_into(room)
    os.mkdir(f"{room}/runs")
    for at, rows in enumerate(runs):
        with open(f"{room}/runs/{at:06}", "w", encoding="ascii") as file:
            file.writelines(row + "\n" for row in rows)
    data = [word for it in os.listdir(f"{ROWS}/vectors/data") for word in ("--data", f"{it}=data/{it}")]
    words = ["rt", "try", *data, "--seconds", str(SECONDS_A_RUN), "--cases", f"{room}/runs"]
    ran = subprocess.run(words, cwd=f"{room}/crates/vectors", capture_output=True, text=True)
    if ran.returncode != 0:
        raise wire.Malformed(f"rt try ended with status {ran.returncode}: {ran.stderr[-2000:]}")
    return answers_of(runs, ran.stdout)


def served(every_asked, lengths):
    """The replies to the requests of each zone; so many octets are expected."""
    if not every_asked:
        return []
    with tempfile.TemporaryDirectory(prefix="unproved-") as room:
        answers = ask(runs_of(map(row, every_asked), lengths), room)
    return [[bytes.fromhex(reply) for reply in answer.split("\t")] for answer in answers]
