#!/usr/bin/python3
"""Compares what the loader makes of random lines of zone texts with what dnspython reads in them.

    ./compare.py [--seed N] [--count N] [--show N] [--repository FOLDER]

The loader is compiled without proof from the sources of this repository, or of another. README.md has the rules by which the two
differ on purpose. The status is 1 where they differ otherwise."""

import argparse
import collections
import importlib.machinery
import importlib.util
import os
import random
import re
import shutil
import struct
import subprocess
import sys
import tempfile
import time

sys.dont_write_bytecode = True
import texts

try:
    import dns.exception
    import dns.name
    import dns.rdata
    import dns.rdataclass
    import dns.rdatatype
    import dns.tokenizer
    import dns.ttl
    import dns.version
except ImportError:
    sys.exit("compare: dnspython is missing: apt-get install python3-dnspython")

HERE = os.path.dirname(os.path.realpath(__file__))
TOP = os.path.dirname(os.path.dirname(HERE))
# Of each run 1 MiB of answers is passed on.
LINES_A_RUN = 1_000
USES = "zone_texts: authority dns_names_wire dns_rdata anyhow\n"


# dnspython.

def read_or(cause, read, *words):
    """What dnspython reads, or the cause where it refuses the text; some texts end it with other errors than its own."""
    try:
        return read(*words)
    except Exception:
        return cause


def data_of(kind, text, octets):
    """The data's octets, or why there are none."""
    if kind == dns.rdatatype.TXT and read_or(None, dns.tokenizer.Tokenizer(text).get_remaining) == []:
        return "NotReadBack"  # (no octets are a TXT without strings)
    kind = dns.rdatatype.NS if kind == texts.TYPES["ANAME"] else kind  # (a name too; dnspython doesn't know it)
    data = octets or read_or("Data", dns.rdata.from_text, dns.rdataclass.IN, kind, text, None, False)
    if isinstance(data, dns.rdata.Rdata):
        return read_or("NotReadBack", data.to_wire)  # (only a relative name has no octets)
    return data


def reading(line, octets=None):
    """The record's octets in hex, or the first cause, in the loader's order, why there is none."""
    fields = re.split("[ \t]+", line.strip(" \t"))
    if len(fields) < 4:
        return "FieldCount"
    kind, rest = re.match(r"[^ \t]+[ \t]+" * 3 + r"([^ \t]+)(.*)", line.lstrip(" \t")).groups()
    kind = kind.upper()
    name = read_or("Owner", dns.name.from_text, fields[0], None)
    ttl = read_or("Ttl", dns.ttl.from_text, fields[1])
    klass = read_or("Class", dns.rdataclass.from_text, fields[2])
    number = texts.TYPES["ANAME"] if kind == "ANAME" else read_or("UnknownType", dns.rdatatype.from_text, kind)
    causes = [it for it in (name, ttl, klass, number) if isinstance(it, str)]
    if not isinstance(name, str) and not name.is_absolute():
        causes.append("Owner")
    if klass not in (dns.rdataclass.IN, "Class"):
        causes.append("Class")
    data = None if isinstance(number, str) else data_of(number, rest, octets)
    causes += [data] if isinstance(data, str) else []
    if causes:
        return min(causes, key=texts.ORDER.index)
    return (name.to_wire() + struct.pack("!HHIH", number, 1, ttl, len(data)) + data).hex()


def expected(line):
    """What the loader is to answer: what dnspython reads in the text that has our meaning, unless a rule refuses the line."""
    said = reading(line.there, line.octets)
    return min(filter(None, [line.cause, said]), key=texts.ORDER.index) if line.cause and said in texts.ORDER else line.cause or said


# The loader.

def rows_of(repository):
    """The module `tests/rows/run` of a repository."""
    loader = importlib.machinery.SourceFileLoader("rows_run", f"{repository}/tests/rows/run")
    module = importlib.util.module_from_spec(importlib.util.spec_from_loader("rows_run", loader))
    loader.exec_module(module)
    return module


def loaded(lines, repository):
    """What the loader answers to each line: the octets of its record in hex, or the cause."""
    with tempfile.TemporaryDirectory(prefix="zone_texts.") as room:
        rows_of(repository).copy_into(room)
        with open(f"{room}/crates.txt", "a", encoding="utf-8") as file:
            file.write(USES)
        os.makedirs(f"{room}/crates/zone_texts/src")
        shutil.copy(f"{HERE}/src/main.rt.txt", f"{room}/crates/zone_texts/src/main.rt")
        os.mkdir(f"{room}/runs")
        for at in range(0, len(lines), LINES_A_RUN):
            with open(f"{room}/runs/{at:09}", "w", encoding="utf-8") as file:
                file.writelines(line + "\n" for line in lines[at:at + LINES_A_RUN])
        words = ["rt", "try", "--seconds", "600", "--cases", f"{room}/runs"]
        ran = subprocess.run(words, cwd=f"{room}/crates/zone_texts", capture_output=True, text=True)
    # (the name of each run comes before its answers)
    answers = [line for line in ran.stdout.splitlines() if line and not line.startswith("== ")]
    if ran.returncode or len(answers) != len(lines):
        sys.exit(f"compare: {len(answers)} answers to {len(lines)} lines, status {ran.returncode}: {ran.stderr[-2000:]}")
    return [line.removeprefix("line 1: ") for line in answers]


def main():
    parser = argparse.ArgumentParser(description=__doc__, formatter_class=argparse.RawDescriptionHelpFormatter)
    parser.add_argument("--seed", type=int, default=1)
    parser.add_argument("--count", type=int, default=10_000, help="of lines")
    parser.add_argument("--show", type=int, default=10, help="how many lines without a reason are printed")
    parser.add_argument("--repository", default=TOP)
    words = parser.parse_args()
    began, maker = time.time(), texts.Maker(random.Random(words.seed))
    lines = [maker.line() for _ in range(words.count)]
    answers = loaded([line.here for line in lines], words.repository)
    reasons, causes, differ, wrong = collections.Counter(), collections.Counter(), 0, 0
    for line, answer in zip(lines, answers):
        causes[answer if answer in texts.ORDER else "loaded"] += 1
        if expected(line) != answer:
            wrong += 1
            if wrong <= words.show:
                print(line.here, f"  here:      {answer}", f"  expected:  {expected(line)}", f"  dnspython: {reading(line.here)}", sep="\n")
        elif line.rules and reading(line.here) != answer:
            differ += 1
            reasons.update(line.rules)
    for cause in ["loaded", *texts.ORDER]:
        print(f"{causes[cause]:7,} {cause}")
    for rule, count in reasons.most_common():
        print(f"{count:7,} differ by the rule: {rule}")
    print(f"seed {words.seed}: {len(lines):,} lines in {time.time() - began:.0f} seconds, {len(lines) - differ - wrong:,} as dnspython "
          f"{dns.version.version} reads them, {differ:,} differ by these rules, {wrong} differ otherwise")
    return 1 if wrong else 0


if __name__ == "__main__":
    sys.exit(main())
