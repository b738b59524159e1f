#!/usr/bin/env python3
"""Measures single calls on inputs of growing size: calls.py PROGRAM, for instance calls.py crates/call_bench/out/call_bench.

`resolve` resolves references of up to three segments with dots, `canonical` writes a document of plain nodes canonically;
the time of `canonical` has the reading of the document in it. `read` reads a document of which every other value is a
number. `load` reads a folder of 100 contexts, each of 100 terms,
and looks their IRIs up. `process` reads a context and processes it, and `copy` does the same and then copies the outcome
100,000 times. Prints one table.

calls.py PROGRAM quads [BYTES ..] measures reading N-Quads alone (`lines`) and reading and writing them again (`quads`), beside
`serdi -i nquads -o nquads` on the same file, where it is installed. `serdi -b` writes in blocks.
"""
import os
import shutil
import subprocess
import sys
import tempfile

from run import HERE, measure, processor

REFERENCES = ["../../g", "g;x=1/../y", "?y", "//g/a/./b", "a/b/../../c/%d", "http://e/%d/../x", "#f%d"]


def references(count):
    for i in range(count):
        reference = REFERENCES[i % len(REFERENCES)]
        yield reference % i if "%d" in reference else reference


def numbers(size):
    """A document of about this many bytes, of which every other value is a number."""
    node = '{"@id":"http://e/%d","http://e/p":[%d,-%d,0,9007199254740992,"%d",true,null,{"@version":1.1}]}'
    count = size // (len(node) + 16)
    yield "["
    for i in range(count):
        yield ("," if i else "") + node % (i, i + 1, i + 1, i)
    yield "]"


def context(terms):
    """A context in which each term but for the first needs the prefix, and every tenth has a type."""
    entries = ['"p":"http://e/v#"']
    for i in range(terms - 1):
        entries.append(('"t%d":{"@id":"p:t%d","@type":"@id"}' if i % 10 == 0 else '"t%d":"p:t%d"') % (i, i))
    return "{%s}" % ",".join(entries)


def fill(folder, count, terms):
    """Writes a folder of contexts with its index, and gives their IRIs."""
    iris = ["http://e/c%d" % i for i in range(count)]
    with open(os.path.join(folder, "index.txt"), "w") as index:
        for i, iri in enumerate(iris):
            index.write("%s c%d.json\n" % (iri, i))
            with open(os.path.join(folder, "c%d.json" % i), "w") as out:
                out.write('{"@context":%s}' % context(terms))
    return iris


def quads(program, path, sizes):
    """Rows for N-Quads of about these sizes."""
    serdi = ["serdi", "-i", "nquads", "-o", "nquads"]
    for size in sizes:
        with open(path, "wb") as out:
            subprocess.run([sys.executable, os.path.join(HERE, "quads.py"), str(size)], stdout=out, check=True)
        for call in ("lines", "quads"):
            show(program, call, "quads", path)
        if shutil.which("serdi"):
            row("serdi", "quads", path, [*serdi, path])
            row("serdi -b", "quads", path, [*serdi, "-b", path])


def main():
    program = os.path.abspath(sys.argv[1])
    print("%s, %d processors" % (processor(), os.cpu_count()))
    print("%12s %12s %12s %9s %9s %9s" % ("call", "of", "bytes", "wall s", "cpu s", "peak MB"))
    with tempfile.TemporaryDirectory() as folder:
        path = os.path.join(folder, "input")
        if sys.argv[2:3] == ["quads"]:
            quads(program, path, [int(word) for word in sys.argv[3:]] or [10**6, 10**7, 10**8])
            return
        for count in (10**4, 10**5, 10**6):
            with open(path, "w") as out:
                out.writelines(line + "\n" for line in references(count))
            show(program, "resolve", "%d lines" % count, path)
        for size in (10**5, 10**6, 10**7):
            with open(path, "wb") as out:
                subprocess.run([sys.executable, os.path.join(HERE, "plain.py"), str(size)], stdout=out, check=True)
            show(program, "canonical", "a tree", path)
        for size in (10**6, 10**7, 10**8):
            with open(path, "w") as out:
                out.writelines(numbers(size))
            show(program, "read", "numbers", path)
        contexts = os.path.join(folder, "contexts")
        os.mkdir(contexts)
        with open(path, "w") as out:
            out.writelines(iri + "\n" for iri in fill(contexts, 100, 100))
        show(program, "load", "100 files", path, contexts)
        for terms in (10, 100, 1000, 10**4, 10**5):
            with open(path, "w") as out:
                out.write(context(terms))
            for call in ("process", "copy"):
                show(program, call, "%d terms" % terms, path)


def show(program, call, of, path, *words):
    row(call, of, path, [program, call, *words])


def row(call, of, path, command):
    wall, cpu, peak = measure(command, path)
    print("%12s %12s %12d %9.3f %9.3f %9.1f" % (call, of, os.path.getsize(path), wall, cpu, peak / 1e6), flush=True)


main()
