"""Runs the program of keyed/: a server of zones, each with its policy of transfers, with one key."""

import contextlib
import functools
import importlib.machinery
import importlib.util
import os
import shutil
import subprocess
import sys
import tempfile
import time

import passing

HERE = os.path.dirname(os.path.abspath(__file__))
TOP = os.path.dirname(os.path.dirname(HERE))


def module(path):
    """A script as a module."""
    loader = importlib.machinery.SourceFileLoader(os.path.basename(path), path)
    made = importlib.util.module_from_spec(importlib.util.spec_from_loader(loader.name, loader))
    loader.exec_module(made)
    return made


def copy_into(room):
    """Makes a repository of links to the crates, and of the program."""
    module(f"{TOP}/tests/rows/run").copy_into(room)
    with open(f"{HERE}/keyed/uses.txt") as uses, open(f"{room}/crates.txt", "a") as crates:
        crates.write(uses.read())
    os.makedirs(f"{room}/crates/keyed/src")
    for file in os.listdir(f"{HERE}/keyed/src"):
        shutil.copy(f"{HERE}/keyed/src/{file}", f"{room}/crates/keyed/src/{file[:-len('.txt')]}")


def opened(pipe, run, log):
    """The end of a named pipe that is written, once the program has opened the other."""
    while True:
        with contextlib.suppress(OSError):
            end = os.open(pipe, os.O_WRONLY | os.O_NONBLOCK)
            os.set_blocking(end, True)
            return open(end, "wb")
        if run.poll() is not None:
            sys.exit("the program did not start:\n" + open(log).read())
        time.sleep(0.1)


class Trial:
    """One run of the program by `rt try`, whose streams are named pipes. `rt try` copies the zone files."""

    def __init__(self, room, name, secret, zones):
        copy_into(room)
        pipes, self.log = [f"{room}/messages", f"{room}/replies"], f"{room}/log"
        for pipe in pipes:
            os.mkfifo(pipe)
        files = [word for _, origin, file in zones for word in ("--data", f"{origin}zone={file}")]
        served = [word for policy, origin, _ in zones for word in (policy, origin, f"{origin}zone")]
        words = ["rt", "try", "--seconds", "600", *files, "--", *pipes, name, secret, *served]
        with open(self.log, "w") as log:
            self.run = subprocess.Popen(words, cwd=f"{room}/crates/keyed", stdin=subprocess.DEVNULL, stdout=log, stderr=log)
        try:
            self.stdin = opened(pipes[0], self.run, self.log)
            self.stdout = open(pipes[1], "rb")
        except BaseException:
            self.run.terminate()
            raise

    def end(self):
        self.stdin.close()
        if self.run.wait() != 0:
            sys.exit("the program failed:\n" + open(self.log).read())


@contextlib.contextmanager
def tried(name, secret, zones):
    with tempfile.TemporaryDirectory(prefix="keyed-") as room:
        run = Trial(room, name, secret, zones)
        try:
            yield functools.partial(passing.answer_of, run)
        finally:
            run.end()


@contextlib.contextmanager
def started(words, name, secret, zones):
    served = [word for zone in zones for word in zone]
    run = subprocess.Popen([*words, "/dev/stdin", "/dev/stdout", name, secret, *served], stdin=subprocess.PIPE, stdout=subprocess.PIPE)
    try:
        yield functools.partial(passing.answer_of, run)
    finally:
        run.stdin.close()
        run.wait()


def server(words, name, secret, zones):
    """A function from a frame to the frame of its reply: that of a compiled program, which these words start, or of a trial.
    Zones are their policies, origins and files."""
    return started(words, name, secret, zones) if words else tried(name, secret, zones)
