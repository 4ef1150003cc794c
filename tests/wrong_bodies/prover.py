"""Wrong bodies tried on the prover: the bodies of a crate in rounds, each round a check of a copy."""

import importlib.machinery
import importlib.util
import os
import re
import shutil
import subprocess
import sys
import tempfile
from concurrent.futures import ThreadPoolExecutor

import bodies

JUDGED = re.compile(r"^(?:fn|impl) (\S+): (proved|not proved|no proof)(.*)$", re.M)
PROOF = re.compile(r"^(?:\./)?proofs/(\S+)/\w+\.antt:\d+:\d+: error", re.M)
ENDED = re.compile(r"^(?:logic|only)=", re.M)
OWN = re.compile(r"did not prove|was not admitted|is a hole")


def load_rt():
    """The kit's own command as a module, which reads the files of each crate once."""
    path = os.path.realpath(shutil.which("rt") or sys.exit("wrong_bodies: there is no command rt"))
    loader = importlib.machinery.SourceFileLoader("rt", path)
    rt = importlib.util.module_from_spec(importlib.util.spec_from_loader("rt", loader))
    loader.exec_module(rt)
    plain, stamps = rt.rtlib.Crate.stamp, {}

    def stamp(crate):
        if crate.folder not in stamps:
            stamps[crate.folder] = plain(crate)
        return stamps[crate.folder]

    rt.rtlib.Crate.stamp = stamp
    rt.rtlib.guarded()
    return rt


def crates_of(rt):
    """The crates by name. Their libraries stand apart from those of `rt lib`, since they hold statements alone, as the
    gate's do: a check over them takes a fifth of the time."""
    crates = {it.name: it for it in rt.rtlib.crates_below(bodies.TOP)}
    for crate in crates.values():
        for it in [*crate.below(), crate]:
            it.rlib = f"{it.folder}/out/statements/{it.name}.rlib"
    return crates


def build(rt, crates, jobs):
    """Proves what stands below these crates and isn't built as it is now, as many at once as there are jobs."""
    needed = {it.name: it for crate in crates for it in crate.below()}
    made = {}

    def make(crate):
        # Those below come first in `needed`, and so in the pool.
        if not all(made[it.name].result() for it in crate.deps):
            return False
        stamp = f"{crate.folder}/out/statements/stamp"
        if rt.rtlib.text_of(stamp) == crate.stamp() and os.path.isdir(crate.rlib):
            return True
        print(f"wrong_bodies: proving {crate.name}", flush=True)
        shutil.rmtree(os.path.dirname(stamp), ignore_errors=True)
        os.makedirs(os.path.dirname(stamp))
        words = crate.words(["--jobs", "1"], keeps=False)
        ran = run([rt.rtlib.RATTLE, "build", *words, "--statements", "-o", crate.rlib], crate.folder)
        if ran.returncode == 0:
            with open(stamp, "w", encoding="utf-8") as file:
                file.write(crate.stamp())
        return ran.returncode == 0

    with ThreadPoolExecutor(jobs) as pool:
        for name, crate in needed.items():
            made[name] = pool.submit(make, crate)
    failed = [name for name in needed if not made[name].result()]
    if failed:
        sys.exit(f"wrong_bodies: not proved: {' '.join(failed)}")


def run(words, folder):
    how = {"stdin": subprocess.DEVNULL, "stdout": subprocess.PIPE, "stderr": subprocess.STDOUT}
    return subprocess.run(words, cwd=folder, errors="replace", text=True, **how)


class Verdicts:
    """What a check says: the functions and impls it judged, those proved, and those with a failure of their own. That a
    function it calls isn't proved is none of its own."""

    def __init__(self, output):
        judged = JUDGED.findall(output)
        errors = set(PROOF.findall(output))
        self.paths = [path for path, _, _ in judged]
        self.proved = {path for path, word, _ in judged if word == "proved"}
        self.own = {
            path
            for path, word, rest in judged
            if word != "proved" and (OWN.search(rest) or "/".join(path.split("::")[1:]) in errors)
        }

    def of(self, body):
        """True where a function that the body touches is refused, False where all of them are proved, else None."""
        mine = [path for function in body.touched.values() for path in function.named_in(self.paths)]
        if any(path in self.own for path in mine):
            return True
        return False if mine and self.proved.issuperset(mine) else None


# The bodies of a round: of a large one nothing is heard for long, since its slowest body holds up all others.
ROUND = 6


class Trial:
    """The wrong bodies of one crate, tried in rounds of at most one a function, each over a copy of what a check of the crate
    as it stands keeps."""

    def __init__(self, rt, crate, say, slots, jobs, share):
        """There are `jobs` slots, one for each check that may run at once; the crate as it stands is proved by `share` processes."""
        self.rt, self.crate, self.say = rt, crate, say
        self.slots, self.jobs, self.share = slots, jobs, share
        self.refused, self.failed = [], []

    def run(self):
        """Tries all bodies; those that a round doesn't tell are tried alone."""
        waiting = []
        for edit in bodies.edits_of(self.crate.name):
            body = bodies.Body(self.crate.name, edit)
            if body.fault:
                self.fail(body, f"BAD EDIT: {body.fault}")
            else:
                waiting.append(body)
        with tempfile.TemporaryDirectory(prefix="wrong-bodies-") as self.kept, ThreadPoolExecutor(self.jobs) as pool:
            groups = rounds_of(waiting) if self.stands() else []
            while groups:
                groups = [later for again in pool.map(self.try_together, groups) for later in again]

    def stands(self):
        """Whether the crate is proved as it stands; what its check kept is what each round begins with."""
        with self.slots:
            self.say(f"{self.crate.name}: proving it as it stands")
            words = [*self.crate.words(["--jobs", str(self.share)], keeps=False), "--incremental", self.kept]
            ran = run([self.rt.rtlib.RATTLE, "check", *words], self.crate.folder)
        if ran.returncode != 0:
            self.failed.append(self.crate)
            self.say(f"{self.crate.name}: NOT PROVED\n{ran.stdout[-2000:]}")
        return ran.returncode == 0

    def fail(self, body, why):
        self.failed.append(body)
        self.say(f"{self.crate.name}/{body.name}: {why}")

    def try_together(self, chosen):
        """Tries one round, and returns those that are to be tried again."""
        texts, is_alone = texts_with(chosen), len(chosen) == 1
        output = self.check(texts, [it.proved_as() for body in chosen for it in body.touched.values()])
        unread = [it for it in output.split("\n") if self.rt.unread(it, texts)]
        if unread or not ENDED.search(output):
            if is_alone:
                self.fail(chosen[0], f"DOES NOT COMPILE: {(unread or output.split(chr(10)))[0][:200]}")
                return []
            return [chosen[: len(chosen) // 2], chosen[len(chosen) // 2 :]]
        verdicts, again = Verdicts(output), []
        for body in chosen:
            told = verdicts.of(body)
            if told:
                self.refused.append(body)
            elif is_alone:
                names = ", ".join(it.name for it in body.touched.values())
                self.fail(body, f"NOT REFUSED: with it {names} is {'not judged by itself' if told is None else 'proved'}")
            else:
                again.append([body])
        self.say(f"{self.crate.name}: {len(self.refused)} refused so far")
        return again

    def check(self, texts, paths):
        """What a check of these functions says, of a copy with these texts in place of its own. Where a path fits no function
        or several, the whole crate is checked."""
        with self.slots, tempfile.TemporaryDirectory(prefix="wrong-body-") as room:
            kept = shutil.copytree(self.kept, f"{room}/kept")
            for part in self.rt.rtlib.PARTS:
                if os.path.isdir(f"{self.crate.folder}/{part}"):
                    shutil.copytree(f"{self.crate.folder}/{part}", f"{room}/{part}")
            for path, text in texts.items():
                with open(f"{room}/{path}", "w", encoding="utf-8") as file:
                    file.write(text)
            words = [*self.crate.words(["--jobs", "1"], keeps=False), "--incremental", kept]
            only = [word for path in paths for word in ("--only", path)] if all(paths) else []
            ran = run([self.rt.rtlib.RATTLE, "check", *words, *only], room)
            if only and ran.returncode == 2:
                ran = run([self.rt.rtlib.RATTLE, "check", *words], room)
            return ran.stdout


def texts_with(chosen):
    """The texts with these bodies in place, none of which touches what another does."""
    texts = {}
    for body in chosen:
        texts = body.applied(texts)
    return texts


def rounds_of(waiting):
    """These bodies in rounds, in each at most one of a function."""
    rounds = []
    while waiting:
        chosen, touched, texts = [], set(), {}
        for body in waiting:
            applied = None if touched & body.touched.keys() else body.applied(texts)
            if applied is not None and len(chosen) < ROUND:
                chosen.append(body)
                touched |= body.touched.keys()
                texts = applied
        rounds.append(chosen)
        waiting = [it for it in waiting if it not in chosen]
    return rounds
