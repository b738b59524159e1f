#!/usr/bin/env python3
"""The generator of cases.

    python3 cases.py --codes N [--seed S]    what the model answers to N cases
    python3 cases.py --show SEED:NUMBER      one case and the model's answer

A case is made from a seed and a number alone.  It is a list of words, the
bytes of standard input, and a folder of contexts: None where there is none, or
a dict from names to bytes, in which None stands for a folder in the place of a
file.  See README.md for the kinds of cases.
"""

import argparse
import base64
import collections
import json
import random
import shlex
import sys
import time

sys.setrecursionlimit(1000000)

from jsonld import refusals  # noqa: E402
from jsonld.command import answer  # noqa: E402
from making.alphabet import BASES  # noqa: E402
from making.documents import random_case  # noqa: E402
from making.farther import farther_case  # noqa: E402
from making.maker import bytes_of  # noqa: E402
from making.nodes import nodes_case  # noqa: E402
from making.outside import byte_case, folder_case, words_case  # noqa: E402
from making.sentences import sentence_case  # noqa: E402

Case = collections.namedtuple("Case", "kind words data folder")


def written(folder, maker):
    """The folder with bytes in the place of texts and trees."""
    if folder is None:
        return None
    return {name: part.encode("utf-8") if type(part) is str
            else bytes_of(part, maker) for name, part in folder.items()}


WEIGHTS = (1, 1, 2, 3, 4, 5, 7, 10, 20, 100, 2000, 1000000)


def words_for(maker, folder):
    made = ["flatten" if maker.likely(maker.flattens) else "expand"]
    if maker.likely(0.55):
        base = maker.of(BASES)
        made.extend(["--base=" + base] if maker.likely(0.3)
                    else ["--base", base])
    if folder is not None and maker.likely(0.97) or maker.likely(0.02):
        made.insert(1 + maker.times(len(made) - 1)
                    if len(made) < 3 else maker.one(1, 3), "--contexts")
    if maker.likely(0.3):
        made.extend(["--weight", str(maker.of(WEIGHTS))])
    return made


KINDS = [
    ("random", 0.2, lambda rng: random_case(rng, False)),
    ("changed", 0.11, lambda rng: random_case(rng, True)),
    ("sentence", 0.31, sentence_case),
    ("nodes", 0.18, nodes_case),
    ("farther", 0.08, farther_case),
    ("bytes", 0.07, byte_case),
    ("words", 0.02, words_case),
    ("folder", 0.03, folder_case)]


def case(seed, number):
    """The case of this seed and number."""
    rng = random.Random("%d:%d" % (seed, number))
    share = rng.random()
    for kind, part, make in KINDS:
        share -= part
        if share < 0:
            break
    made = make(rng)
    maker, tree, folder = made[:3]
    words = made[3] if len(made) > 3 else words_for(maker, folder)
    data = tree if type(tree) is bytes else bytes_of(tree, maker)
    if kind != "folder":
        folder = written(folder, maker)
    return Case(kind, words, data, folder)


def readable(data):
    """Bytes as one line of JSON or base64, and which of the two."""
    try:
        return "text " + json.dumps(data.decode("utf-8"), ensure_ascii=False)
    except UnicodeDecodeError:
        return "base64 " + base64.b64encode(data).decode()


def show(one, out=sys.stdout):
    """A case, whole."""
    print("words:   " + " ".join(shlex.quote(word) for word in one.words)
          .encode("utf-8", "backslashreplace").decode(), file=out)
    print("input:   " + readable(one.data), file=out)
    if isinstance(one.folder, bytes):
        print("contexts is a file", file=out)
    else:
        for name, data in (one.folder or {}).items():
            if data is None:
                print("contexts/%s is a folder" % name, file=out)
            elif len(data) > 100000:
                print("contexts/%s: %d bytes" % (name, len(data)), file=out)
            else:
                print("contexts/%s: %s" % (name, readable(data)), file=out)


def label_of(status, err):
    """The code or line of an answer, without its place."""
    if status == 0:
        return "done"
    line = err.decode("utf-8", "replace").partition("\n")[0]
    line = line[len("error: "):] if line.startswith("error: ") else line
    line = line.partition(" at ")[0]
    return "context index line" if line.startswith("context index") else line


def codes(seed, count):
    counted = collections.Counter()
    by_kind = collections.Counter()
    spent = {"making": 0.0, "model": 0.0}
    deepest, slowest = 0, (0.0, 0)
    for number in range(count):
        begun = time.perf_counter()
        one = case(seed, number)
        made = time.perf_counter()
        try:
            got = answer(one.words, one.data, one.folder)
        except Exception:
            print("raised at %d:%d" % (seed, number))
            show(one)
            raise
        spent["making"] += made - begun
        took = time.perf_counter() - made
        spent["model"] += took
        slowest = max(slowest, (took, number))
        label = label_of(got.status, got.err)
        counted[label] += 1
        by_kind[one.kind, "done" if label == "done" else "other"] += 1
        deepest = max(deepest, got.deepest)
    for label, many in counted.most_common():
        print("%7d  %s" % (many, label))
    missing = [code for code in refusals.CODES if not counted[code]]
    print("codes that didn't come: " + (", ".join(missing) or "none"))
    for kind, _, _ in KINDS:
        print("kind %-9s %6d done, %6d other" % (
            kind, by_kind[kind, "done"], by_kind[kind, "other"]))
    print("calls under way at most: %d" % deepest)
    print("the slowest took %.0f ms: %d:%d" % (
        slowest[0] * 1000, seed, slowest[1]))
    print("making %.1f s, model %.1f s: %d cases a second in the model" % (
        spent["making"], spent["model"], count / (spent["model"] or 1)))


def main():
    words = argparse.ArgumentParser(description=__doc__.split("\n")[0])
    words.add_argument("--codes", type=int, metavar="N")
    words.add_argument("--seed", type=int, default=1)
    words.add_argument("--show", metavar="SEED:NUMBER")
    words = words.parse_args()
    if words.show:
        one = case(*map(int, words.show.split(":")))
        show(one)
        got = answer(one.words, one.data, one.folder)
        print("status:  %d\nout:     %s\nerr:     %s" % (
            got.status, readable(got.out), readable(got.err)))
    if words.codes:
        codes(words.seed, words.codes)


if __name__ == "__main__":
    main()
