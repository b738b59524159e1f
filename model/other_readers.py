#!/usr/bin/env python3
"""Lets other readers of N-Quads read what the program and the model write.

    python3 other_readers.py PROGRAM --seed S --count N --jobs J

Each case is a list of valid quads.  The program has to write the same bytes as
the model, from these and from an unusual way to write the quads.  Then `serdi
-i nquads -o nquads` and `rapper -i nquads -o nquads` read the bytes, if they
are installed, and what they write is read by the model.  It has to be the same
list, but for what `known` says of the reader.  Ends with status 1 else.
"""

import argparse
import collections
import concurrent.futures
import os
import re
import shutil
import subprocess
import sys
import tempfile

from compare_quads import answers, model_answer, request
from making.quads import quad_list
from quads import BadLine, Blank, Iri, Literal, read, written

AT_ONCE = 100
READERS = {"serdi": ["serdi", "-i", "nquads", "-o", "nquads"],
           "rapper": ["rapper", "-q", "-i", "nquads", "-o", "nquads"]}
REFUSED = "refused"


def labels(quad):
    return [term.label for term in quad if type(term) is Blank]


def of_texts(quad, change):
    """The quad with each IRI and each literal's text changed."""
    return quad._replace(**{
        name: Iri(change(term.text)) if type(term) is Iri else term._replace(
            lexical=change(term.lexical), datatype=change(term.datatype))
        for name, term in quad._asdict().items()
        if type(term) in (Iri, Literal)})


def serdi(quad):
    """serdi 0.30: a label has no colon, which is Turtle's grammar."""
    if any(":" in label[2:] for label in labels(quad)):
        return "a label with a colon", REFUSED
    return None


def rapper(quad):
    """rapper 2.0.15: a text ends before U+FFFE and the like, tags are lowered,
    and a label has no hyphen or dot right behind letters beyond ASCII alone."""
    if any(re.match(r"_:[^\x00-\x7f]+[-.]", label) for label in labels(quad)):
        return "a hyphen or dot behind letters beyond ASCII", REFUSED
    cut = of_texts(quad, lambda text: re.split("[\0\ufffe\uffff]", text)[0])
    if cut != quad:
        return "U+0000, U+FFFE or U+FFFF in a text, which ends there", cut
    thing = quad.object
    if type(thing) is Literal and thing.language is not None \
            and thing.language != thing.language.lower():
        return "a tag with capitals, which are lowered", quad._replace(
            object=thing._replace(language=thing.language.lower()))
    return None


known = {"serdi": serdi, "rapper": rapper}
"""For a quad that the reader doesn't give back: why, and what it gives."""


def read_by(reader, quads, path):
    """What the reader makes of the quads: quads, or REFUSED."""
    with open(path, "wb") as file:
        file.write(written(quads))
    ran = subprocess.run(READERS[reader] + [path], stdout=subprocess.PIPE,
                         stderr=subprocess.DEVNULL)
    if ran.returncode:
        return REFUSED
    try:
        return read(ran.stdout)
    except BadLine as bad:
        return "wrote what can't be read: %s" % bad


def some_lists(task):
    """Counts of what came, and the differences, of some lists."""
    program, seed, first, last, readers, folder = task
    lists = [quad_list(seed, number) for number in range(first, last)]
    counted, differing = collections.Counter(), []
    for form in (0, 1):
        told = answers(program, [request(
            b"read", pair[1] if form else written(pair[0])) for pair in lists])
        for number, pair, got in zip(range(first, last), lists, told):
            if got == model_answer(written(pair[0])):
                counted["program", "written the same"] += 1
            else:
                differing.append((number, "program", pair[form], got))
    path = os.path.join(folder, str(first))
    for number, (quads, _) in zip(range(first, last), lists):
        for reader in readers:
            if read_by(reader, quads, path) == quads:
                counted[reader, "lists read the same"] += 1
                counted[reader, "quads read the same"] += len(quads)
                differing += [(number, reader, written([quad]), "the same")
                              for quad in quads if known[reader](quad)]
                continue
            counted[reader, "lists taken quad by quad"] += 1
            for quad in quads:
                why, due = known[reader](quad) or ("quads read the same", quad)
                got = read_by(reader, [quad], path)
                counted[reader, why] += 1
                if got != (due if due is REFUSED else [due]):
                    differing.append((number, reader, written([quad]), got))
    return counted, differing


def main():
    words = argparse.ArgumentParser(description=__doc__.split("\n")[0])
    words.add_argument("program")
    words.add_argument("--seed", type=int, default=1)
    words.add_argument("--count", type=int, default=10000)
    words.add_argument("--jobs", type=int, default=1)
    options = words.parse_args()
    readers = [reader for reader in READERS if shutil.which(reader)]
    counted, differing = collections.Counter(), []
    with tempfile.TemporaryDirectory() as folder, \
            concurrent.futures.ProcessPoolExecutor(options.jobs) as pool:
        tasks = [(os.path.abspath(options.program), options.seed, first,
                  min(first + AT_ONCE, options.count), readers, folder)
                 for first in range(0, options.count, AT_ONCE)]
        for many, some in pool.map(some_lists, tasks):
            counted += many
            differing += some
    for (reader, what), many in sorted(counted.items()):
        print("%9d  %s: %s" % (many, reader, what))
    for number, reader, data, got in differing[:20]:
        print("--- %d:%d %s\n%r\n%r" % (
            options.seed, number, reader, data, got))
    print("%d lists, %d different" % (options.count, len(differing)))
    return 1 if differing else 0


if __name__ == "__main__":
    sys.exit(main())
