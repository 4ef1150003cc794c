"""Runs of a program under callgrind, and what they counted."""

import collections
import os
import re
import shutil
import subprocess
import sys

import generate
import replies

HERE = os.path.dirname(os.path.abspath(__file__))
TOP = os.path.dirname(HERE)
# Where the generated files and the counts go; never committed.
FOLDER = os.path.join(HERE, "out")
# Programs that no gate proves: a folder each, whose sources end in .txt, and uses.txt.
PROGRAMS = os.path.join(HERE, "programs")

# What takes memory from the C library, and how many callers are told apart behind each.
ALLOCATORS = ("malloc", "calloc", "realloc", "aligned_alloc", "posix_memalign")
CALLERS = 8
# The C library's calls into the kernel, whose instructions callgrind does not see.
SYSTEM = ("read", "write")

# The zone is dropped at the end, and what the heap's fast bins then cost turns on what was freed last: with a large
# zone, a few questions more or less change it by thousands of instructions each. So they are turned off; questions
# never reach them, for the heap's per-thread cache serves what they take.
HEAP = {"GLIBC_TUNABLES": "glibc.malloc.mxfast=0"}

# What a run counted: all instructions; calls of ALLOCATORS and SYSTEM, by the function called and, for ALLOCATORS, the
# functions that the call came through; and by function the instructions of its own, those with what it calls, and
# how often it is called.
Run = collections.namedtuple("Run", "instructions calls own inclusive called")


class Failed(Exception):
    """A run that says nothing."""


def callgrind(program, zone_file, questions_file, base):
    """Runs the program under callgrind; leaves its replies in base.replies and the counts in base.callgrind."""
    command = [
        "valgrind", "--tool=callgrind", f"--callgrind-out-file={base}.callgrind",
        *(f"--separate-callers{CALLERS}={name}" for name in ALLOCATORS),
        program, generate.ORIGIN, zone_file, "0",
    ]
    environment = {**os.environ, **HEAP}
    with open(questions_file, "rb") as asked, open(base + ".replies", "wb") as said, open(base + ".log", "wb") as log:
        status = subprocess.run(command, stdin=asked, stdout=said, stderr=log, env=environment).returncode
    if status != 0:
        with open(base + ".log", errors="replace") as log:
            raise Failed(f"status {status} of {' '.join(command)}\n{log.read()}")


def split_callers(name):
    """A function and its callers, which callgrind joins by apostrophes; those between < and > are a name's own."""
    parts, depth = [""], 0
    for letter in name:
        depth += (letter == "<") - (letter == ">")
        if letter == "'" and depth <= 0:
            parts.append("")
        else:
            parts[-1] += letter
    # What stands between < and > says for which types a function was built, as a number.
    return tuple(re.sub(r"(::)?<.*>", "", part) for part in parts)


def read_counts(path):
    """The Run of a callgrind file: https://valgrind.org/docs/manual/cl-format.html."""
    names, run = {}, Run(0, *(collections.Counter() for _ in range(4)))
    function = callee = None
    is_call = False

    def name_of(line):
        number, _, name = line.rstrip("\n").partition("=")[2].partition(" ")
        if name:
            names[number] = split_callers(name)
        return names[number]

    with open(path, errors="replace") as lines:
        for line in lines:
            if line.startswith("fn="):
                function = name_of(line)
            elif line.startswith("cfn="):
                callee = name_of(line)
            elif line.startswith("calls="):
                count = int(line[6:].split()[0])
                run.called[callee[0]] += count
                if callee[0] in ALLOCATORS + SYSTEM:
                    run.calls[callee] += count
                is_call = True
            elif line.startswith("summary:"):
                run = run._replace(instructions=int(line.split()[1]))
            elif function and line[0] in "+-*0123456789":
                instructions = int(line.split()[1])
                if not is_call:
                    run.own[function[0]] += instructions
                if not is_call or callee[0] != function[0]:
                    run.inclusive[function[0]] += instructions
                is_call = False
    if not run.instructions:
        raise Failed(f"no counts in {path}")
    return run


def check_kinds(kinds, names, kind):
    """Hits are to be hits, misses and deep names misses, names below cuts referrals, and those below the wildcard hits; hosts of
    many addresses have as many answers, and names below name servers that are alike are referrals to all of them."""
    hit, miss, referral = {(replies.NO_ERROR, 1, 0)}, {(replies.NX_DOMAIN, 0, 1)}, {(replies.NO_ERROR, 0, 1)}
    wanted = {
        "hit": hit, "opt": hit, "short": set(), "miss": miss, "deep": miss, "empty": set(),
        "cuts.hit": hit, "cuts.miss": miss, "cuts.delegation": referral, "cuts.referral": referral,
        "cuts.wildcard": hit, "cuts.deep": hit, "cuts.empty": set(),
        "sets.answers28": {(replies.NO_ERROR, generate.ADDRESSES, 0)}, "sets.empty": set(),
        "sets.adversarial": {(replies.NO_ERROR, 0, len(generate.ALIKE_SERVERS))},
    }
    if kind in wanted and set(kinds) != wanted[kind]:
        raise Failed(f"replies of a wrong kind to {names}.{kind}: {dict(kinds)}")


def count(program, folder, names, kind):
    """One run of the program over files that generate.write_all left in the folder, its replies checked."""
    base = os.path.join(folder, f"{names}.{kind}")
    zone_file = os.path.join(folder, generate.zone_of(names, kind))
    callgrind(program, zone_file, base, base)
    with open(zone_file) as zone, open(base, "rb") as asked, open(base + ".replies", "rb") as said:
        try:
            kinds = replies.check_stream(zone.read(), asked.read(), said.read())
        except replies.Wrong as wrong:
            raise Failed(f"wrong replies to {names}.{kind}: {wrong}") from None
    check_kinds(kinds, names, kind)
    return read_counts(base + ".callgrind")


def minus(counter, base):
    """A Counter less another, with what falls below zero."""
    difference = collections.Counter(counter)
    difference.subtract(base)
    return difference


def one(program, words, folder):
    """What a run of a program counted, with these words and no input."""
    path = f"{folder}/one.callgrind"
    command = ["valgrind", "--tool=callgrind", f"--callgrind-out-file={path}", program, *words]
    run = subprocess.run(command, stdin=subprocess.DEVNULL, capture_output=True, text=True)
    if run.returncode != 0:
        raise Failed(f"status {run.returncode} of {' '.join(command)}\n{run.stderr}")
    return read_counts(path)


def allocations(run):
    """How often a run took memory."""
    return sum(run.called[name] for name in ALLOCATORS)


def each(program, words, count, folder):
    """Instructions and allocations of one of count operations, less a run of none; the count is the last word."""
    none = one(program, [*words, "0"], folder)
    some = one(program, [*words, str(count)], folder)
    return (some.instructions - none.instructions) / count, (allocations(some) - allocations(none)) / count


def uses_of(path):
    """The libraries that each crate uses, by the lines of a file in the form of crates.txt."""
    uses = {}
    with open(path, encoding="utf-8") as lines:
        for line in lines:
            name, colon, libraries = line.partition("#")[0].partition(":")
            if colon:
                uses[name.strip()] = libraries.split()
    return uses


def below(crate, uses):
    """A crate and those of the repository that stand below it."""
    return {crate}.union(*(below(library, uses) for library in uses[crate] if library in uses))


def copy_below(name, uses, copy):
    """Puts a program of PROGRAMS into a new folder, as a crate over links to those below it and to their libraries."""
    crates = sorted(below(name, uses))
    for crate in crates:
        if crate != name:
            # What checks keep beside a built library plays no part above it.
            shutil.copytree(
                os.path.join(TOP, "crates", crate), os.path.join(copy, "crates", crate),
                ignore=shutil.ignore_patterns("incremental"), copy_function=os.link,
            )
    source = os.path.join(copy, "crates", name, "src")
    os.makedirs(source)
    for file in os.listdir(os.path.join(PROGRAMS, name)):
        shutil.copy(os.path.join(PROGRAMS, name, file), os.path.join(source, file[:-len(".txt")]))
    shutil.copy(os.path.join(TOP, "HANDLES"), copy)
    with open(os.path.join(copy, "crates.txt"), "w", encoding="utf-8") as lines:
        lines.writelines(f"{crate}: {' '.join(uses[crate])}\n" for crate in crates)


def build(name, words, program):
    """Proves and builds a program of PROGRAMS: its libraries in the repository, which keeps them, and the rest in a copy."""
    ours = uses_of(os.path.join(TOP, "crates.txt"))
    uses = {**ours, **uses_of(os.path.join(PROGRAMS, "uses.txt"))}
    for library in uses[name]:
        if library in ours:
            done = subprocess.run(["rt", "lib"], cwd=os.path.join(TOP, "crates", library), stdout=sys.stderr)
            if done.returncode != 0:
                raise Failed(f"the library {library} was not built")
    copy = f"{program}.copy"
    shutil.rmtree(copy, ignore_errors=True)
    try:
        copy_below(name, uses, copy)
        crate = os.path.join(copy, "crates", name)
        # The program is run once it is built, without input.
        subprocess.run(["rt", "run", "--", *words, "0"], cwd=crate, stdin=subprocess.DEVNULL, stdout=subprocess.DEVNULL)
        shutil.copy(os.path.join(crate, "out", name), program)
    except FileNotFoundError as missing:
        raise Failed(f"{name} was not built: {missing}") from None
    finally:
        # The gate refuses crates outside crates/, so no copy stays.
        shutil.rmtree(copy, ignore_errors=True)


def server(path):
    """The built program: the one given, else the repository's, which its script builds where it is missing."""
    if path:
        return os.path.abspath(path)
    made = os.path.join(TOP, "crates", "authority_program", "out", "authority_program")
    if not os.path.exists(made):
        subprocess.run([os.path.join(TOP, "authority"), "--build"], stdin=subprocess.DEVNULL)
    return made


def built(path, name, words):
    """The built program: the one given, else that of PROGRAMS, which is proved and built where it is missing."""
    if path:
        return os.path.abspath(path)
    program = os.path.join(FOLDER, "programs", name)
    if not os.access(program, os.X_OK):
        os.makedirs(os.path.dirname(program), exist_ok=True)
        build(name, words, program)
    return program
