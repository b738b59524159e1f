#!/usr/bin/env python3
"""Compares the program with the model, byte for byte.

    python3 compare.py PROGRAM --seed S --count N --jobs J
    python3 compare.py PROGRAM --show SEED:NUMBER [--keep FOLDER]

With `--weights 1,7,2000` the program runs each case once more for each of these
weights, and its answer must be the same.

Each case runs in a scratch working folder that has `contexts/` with the case's
files.  Standard input is a file.  Status, standard output and standard error
are compared.  Ends with status 1 where any case differs.

A program may end with status 7 and the line `error: out of memory`, since it
has a limit on the calls for terms and contexts that are under way.  Such an
answer is counted apart.  It differs only where the model had fewer than
`--chain` of these calls under way.
"""

import argparse
import collections
import multiprocessing
import os
import shlex
import shutil
import signal
import sys
import tempfile
import traceback

sys.setrecursionlimit(1000000)

from cases import case, label_of, readable, show  # noqa: E402
from jsonld.command import Answer, answer  # noqa: E402

MEMORY = b"error: out of memory\n"
AT_ONCE = 100
ENVIRONMENT = dict(os.environb)
SCRATCH = "/dev/shm"
"""Where scratch folders stand, if it is there: files in memory."""


class TookTooLong(Exception):
    """The program didn't end in time."""


def _alarm(*_):
    raise TookTooLong()


class Scratch:
    """A folder in which cases run, one after another."""

    def __init__(self, program, seconds):
        self.program = program
        self.seconds = seconds
        self.root = tempfile.mkdtemp(prefix="compare-", dir=scratch_place())
        self.work = os.path.join(self.root, "work")
        os.mkdir(self.work)
        self.files = {name: os.path.join(self.root, name)
                      for name in ("in", "out", "err")}
        self.has_contexts = False
        signal.signal(signal.SIGALRM, _alarm)

    def close(self):
        os.chdir("/")
        shutil.rmtree(self.root)

    def run(self, one):
        """The program's answer to the case."""
        contexts = os.path.join(self.work, "contexts")
        if self.has_contexts:
            remove(contexts)
        self.has_contexts = one.folder is not None
        if self.has_contexts:
            write_folder(contexts, one.folder)
        with open(self.files["in"], "wb") as file:
            file.write(one.data)
        os.chdir(self.work)
        new = os.O_WRONLY | os.O_CREAT | os.O_TRUNC
        words = [word.encode("utf-8", "surrogateescape") for word in one.words]
        pid = os.posix_spawn(
            self.program, [os.fsencode(self.program)] + words, ENVIRONMENT,
            file_actions=[
                (os.POSIX_SPAWN_OPEN, 0, self.files["in"], os.O_RDONLY, 0),
                (os.POSIX_SPAWN_OPEN, 1, self.files["out"], new, 0o600),
                (os.POSIX_SPAWN_OPEN, 2, self.files["err"], new, 0o600)])
        try:
            signal.setitimer(signal.ITIMER_REAL, self.seconds)
            _, status = os.waitpid(pid, 0)
            status = os.waitstatus_to_exitcode(status)
        except TookTooLong:
            os.kill(pid, signal.SIGKILL)
            os.waitpid(pid, 0)
            status = "too long"
        finally:
            signal.setitimer(signal.ITIMER_REAL, 0)
        with open(self.files["out"], "rb") as file:
            out = file.read()
        with open(self.files["err"], "rb") as file:
            err = file.read()
        return Answer(status, out, err)


def scratch_place():
    """The folder for scratch folders, or None for the usual one."""
    if tempfile.tempdir is None and os.access(SCRATCH, os.W_OK):
        return SCRATCH
    return None


def remove(path):
    if os.path.isdir(path):
        shutil.rmtree(path)
    elif os.path.exists(path):
        os.remove(path)


def write_folder(path, folder):
    """Writes a case's folder of contexts."""
    if isinstance(folder, bytes):
        with open(path, "wb") as file:
            file.write(folder)
        return
    os.mkdir(path)
    for name, data in folder.items():
        inner = os.path.join(path, name)
        if data is None:
            os.mkdir(inner)
        else:
            with open(inner, "wb") as file:
                file.write(data)


def model_answer(one):
    try:
        return answer(one.words, one.data, one.folder)
    except Exception:
        return Answer("model raised", b"", traceback.format_exc().encode())


def same(one, other):
    return (one.status, one.out, one.err) == (
        other.status, other.out, other.err)


def label(got):
    """What an answer is counted as."""
    if type(got.status) is not int or got.status < 0:
        return "status %s" % got.status
    return "%s (status %d)" % (label_of(got.status, got.err), got.status)


class Tally:
    """What came of some cases."""

    def __init__(self):
        self.agreed = 0
        self.memory = 0
        self.differing = []
        self.model = collections.Counter()
        self.program = collections.Counter()

    def join(self, other):
        self.agreed += other.agreed
        self.memory += other.memory
        self.differing += other.differing
        self.model += other.model
        self.program += other.program

    def add(self, number, due, got, chain):
        self.model[label(due)] += 1
        self.program[label(got)] += 1
        if same(due, got):
            self.agreed += 1
        elif ((got.status, got.out, got.err) == (7, b"", MEMORY)
              and due.deepest >= chain):
            self.memory += 1
        else:
            self.differing.append(number)


_scratch = None


def _open_scratch(program, seconds):
    global _scratch
    _scratch = Scratch(program, seconds)


def weighed(one, weights):
    """The case, and the same with each of the weights."""
    if one.kind == "words":
        return [one]
    words = list(one.words)
    if "--weight" in words:
        at = words.index("--weight")
        del words[at:at + 2]
    return [one] + [one._replace(words=words + ["--weight", weight])
                    for weight in weights]


def _some_cases(task):
    seed, first, last, chain, weights = task
    tally = Tally()
    for number in range(first, last):
        one = case(seed, number)
        due = model_answer(one)
        answers = [_scratch.run(each) for each in weighed(one, weights)]
        others = [got for got in answers[1:] if not same(got, answers[0])]
        tally.add(number, due, others[0] if others else answers[0], chain)
    return tally


def compare(program, options):
    """Runs all cases and joins what came of them."""
    end = options.first + options.count
    tasks = [(options.seed, first, min(first + AT_ONCE, end), options.chain,
              options.weights)
             for first in range(options.first, end, AT_ONCE)]
    whole = Tally()
    if options.jobs == 1:
        _open_scratch(program, options.seconds)
        try:
            for task in tasks:
                whole.join(_some_cases(task))
        finally:
            _scratch.close()
        return whole
    scratch = tempfile.mkdtemp(prefix="compare-all-", dir=scratch_place())
    tempfile.tempdir = scratch
    try:
        fork = multiprocessing.get_context("fork")
        with fork.Pool(options.jobs, _open_scratch,
                       (program, options.seconds)) as pool:
            for tally in pool.imap_unordered(_some_cases, tasks):
                whole.join(tally)
    finally:
        tempfile.tempdir = None
        shutil.rmtree(scratch)
    return whole


def show_both(program, seed, number, seconds, weights):
    """A case, whole, and what both sides answer."""
    one = case(seed, number)
    print("--- %d:%d (%s)" % (seed, number, one.kind))
    show(one)
    scratch = Scratch(program, seconds)
    try:
        answers = [scratch.run(each) for each in weighed(one, weights)]
    finally:
        scratch.close()
    due = model_answer(one)
    got = answers[0]
    others = [side for side in answers[1:] if not same(side, got)]
    for name, side in [("model", due), ("program", got)] + [
            ("at another weight", side) for side in others]:
        print("%-8s status %s" % (name, side.status))
        print("%-8s out %s" % (name, readable(side.out)))
        print("%-8s err %s" % (name, readable(side.err)))
    print("%s; calls for terms and contexts under way: %d" % (
        "same" if same(due, got) and not others else "different", due.deepest))


def keep(program, seed, number, folder):
    """Writes the case into a folder, with a script that runs it."""
    one = case(seed, number)
    os.makedirs(folder)
    if one.folder is not None:
        write_folder(os.path.join(folder, "contexts"), one.folder)
    with open(os.path.join(folder, "input"), "wb") as file:
        file.write(one.data)
    line = b'cd "$(dirname "$0")" && ' + b" ".join(
        shlex.quote(word).encode("utf-8", "surrogateescape")
        for word in [program] + one.words) + b" < input\n"
    with open(os.path.join(folder, "run.sh"), "wb") as file:
        file.write(b"#!/bin/sh\n" + line)
    print("kept in %s: sh %s/run.sh" % (folder, folder))


def report(tally, options):
    names = sorted(set(tally.model) | set(tally.program),
                   key=lambda name: (-tally.model[name], name))
    print("%9s %9s  answer" % ("model", "program"))
    for name in names:
        print("%9d %9d  %s" % (tally.model[name], tally.program[name], name))
    print("%d cases, %d agreed, %d out of memory on long chains, "
          "%d different" % (options.count, tally.agreed, tally.memory,
                            len(tally.differing)))


def main():
    words = argparse.ArgumentParser(description=__doc__.split("\n")[0])
    words.add_argument("program")
    words.add_argument("--seed", type=int, default=1)
    words.add_argument("--count", type=int, default=10000)
    words.add_argument("--jobs", type=int, default=1)
    words.add_argument("--first", type=int, default=0,
                       help="the number of the first case")
    words.add_argument("--print", type=int, default=5, dest="shown",
                       help="how many differing cases are printed whole")
    words.add_argument("--seconds", type=float, default=30.0,
                       help="how long the program may take for a case")
    words.add_argument("--chain", type=int, default=200,
                       help="how many calls under way make a long chain")
    words.add_argument("--weights", default=[], metavar="W,W,..",
                       type=lambda text: text.split(","),
                       help="weights at which each case is run once more")
    words.add_argument("--show", metavar="SEED:NUMBER")
    words.add_argument("--keep", metavar="FOLDER")
    options = words.parse_args()
    program = os.path.abspath(shutil.which(options.program)
                              or options.program)
    if options.show:
        seed, number = map(int, options.show.split(":"))
        if options.keep:
            keep(program, seed, number, os.path.abspath(options.keep))
        show_both(program, seed, number, options.seconds, options.weights)
        return 0
    tally = compare(program, options)
    tally.differing.sort()
    for number in tally.differing[:options.shown]:
        show_both(program, options.seed, number, options.seconds,
                  options.weights)
    if len(tally.differing) > options.shown:
        print("--- others: " + " ".join(
            "%d:%d" % (options.seed, number)
            for number in tally.differing[options.shown:][:100]))
    report(tally, options)
    return 1 if tally.differing else 0


if __name__ == "__main__":
    sys.exit(main())
