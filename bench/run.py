#!/usr/bin/env python3
"""Measures the program on documents of growing size, beside `jq -c .` on the same file, in one run.

Usage: run.py PROGRAM [BYTES ..]       plain documents of about so many bytes (1, 10 and 100 MB where none is given), flattened
       run.py PROGRAM expand [BYTES ..]  the same documents, and catalogues under one context, expanded
       run.py PROGRAM made [BYTES ..]  documents of persons.py, records.py and catalogue.py (10 and 100 MB), expanded and flattened
       run.py PROGRAM contexts [COUNT ..]  documents of each shape of contexts.py (10,000 and 100,000), expanded
       run.py PROGRAM shapes [COUNT ..]  documents of each shape of shapes.py (10,000, 30,000 and 100,000)
       run.py PROGRAM weights [BYTES ..]  plain documents and records (1 and 10 MB), and shapes that are cut at some depth, at several weights
       run.py PROGRAM greatest        two documents of 256 MiB, the greatest that is read: the usual one, and one of small objects

PROGRAM is for instance crates/jsonld_flat/out/jsonld_flat. Prints one table: bytes, processor time, peak memory, memory for each
byte of input, jq's processor time and peak, and the ratios of both. jq is left out where it isn't installed. A peak below some 20 MB is that of this script, from which
the program is started.
"""
import os
import platform
import shutil
import subprocess
import sys
import tempfile
import time

HERE = os.path.dirname(os.path.abspath(__file__))
sys.path.insert(0, HERE)
import contexts  # noqa: E402
import shapes  # noqa: E402

GREATEST = 268_435_456
WEIGHTS = ("1", "20", "2000", "1000000")
CUT = (("list", 10**5), ("pairs", 10**5), ("array", 10**6), ("graph", 10**5), ("property", 10**5), ("hidden_error", 10**5))


def measure(command, path):
    """Wall seconds, processor seconds and peak bytes of a command that reads a file."""
    with open(path, "rb") as source, open(os.devnull, "wb") as out:
        start = time.perf_counter()
        child = subprocess.Popen(command, stdin=source, stdout=out, stderr=out)
        _, status, usage = os.wait4(child.pid, 0)
        wall = time.perf_counter() - start
        child.returncode = os.waitstatus_to_exitcode(status)
    if child.returncode != 0:
        raise SystemExit("%s ended with %d" % (command[0], child.returncode))
    return wall, usage.ru_utime + usage.ru_stime, usage.ru_maxrss * 1024


def processor():
    try:
        with open("/proc/cpuinfo") as lines:
            for line in lines:
                if line.startswith("model name"):
                    return line.split(":", 1)[1].strip()
    except OSError:
        pass
    return platform.processor() or "unknown processor"


def head():
    print("%s, %d processors" % (processor(), os.cpu_count()))
    print("%-24s %11s %8s %9s %8s %8s %9s %7s %7s" % ("document", "bytes", "cpu s", "peak MB", "B/byte", "jq s", "jq MB", "time", "memory"))


def beside(path):
    """Processor seconds and peak bytes of jq on the file, where there is one."""
    jq = shutil.which("jq")
    return measure([jq, "-c", "."], path)[1:] if jq else None


def row(program, name, path, words=("flatten",), jq=None):
    """A row of the table. `jq` is what jq took, where it was measured before."""
    length = os.path.getsize(path)
    _, cpu, peak = measure([program, *words], path)
    line = "%-24s %11d %8.3f %9.1f %8.1f" % (name, length, cpu, peak / 1e6, peak / length)
    jq = jq or beside(path)
    if jq:
        line += " %8.3f %9.1f %7.2f %7.2f" % (jq[0], jq[1] / 1e6, cpu / jq[0], peak / jq[1])
    else:
        line += " %8s %9s %7s %7s" % ("-", "-", "-", "-")
    print(line, flush=True)


def written(path, script, *words):
    with open(path, "wb") as out:
        subprocess.run([sys.executable, os.path.join(HERE, script), *map(str, words)], stdout=out, check=True)


def plain(program, path, sizes):
    for size in sizes:
        written(path, "plain.py", size)
        row(program, "plain", path)


def expanded(program, path, sizes):
    for size in sizes:
        written(path, "plain.py", size)
        row(program, "plain", path, words=("expand",))
    for size in sizes:
        # a record of the catalogue has some 220 bytes
        written(path, "contexts.py", "catalogue", max(1, size // 220), "contexts")
        row(program, "catalogue", path, words=("expand",))


def made(program, path, sizes):
    for maker in ("persons", "records", "catalogue"):
        for size in sizes:
            written(path, maker + ".py", size)
            jq = beside(path)
            for word in ("expand", "flatten"):
                row(program, "%s, %s" % (maker, word), path, words=(word,), jq=jq)


def each_context(program, path, counts):
    for shape in contexts.SHAPES:
        for count in counts:
            written(path, "contexts.py", shape, count, "contexts")
            row(program, "%s %d" % (shape, count), path, words=("expand", "--base", "http://b.example/", "--contexts"))


def each_shape(program, path, counts):
    for shape in shapes.SHAPES:
        for count in counts:
            # in a process of its own, so that this one stays small; what is nested deep is wide enough as it is
            written(path, "shapes.py", shape, count // 20 if shape in ("deep", "nested_lists") else count)
            row(program, "%s %d" % (shape, count), path)


def each_weight(program, path, sizes):
    """Processor seconds at each weight, and how many times that of the greatest weight it is."""
    print("%-30s %s" % ("document", " ".join("%14s" % weight for weight in WEIGHTS)))
    made = [(maker, size, (maker + ".py", size)) for maker in ("plain", "records") for size in sizes]
    made += [(shape, count, ("shapes.py", shape, count)) for shape, count in CUT]
    for name, count, words in made:
        written(path, *words)
        for word in ("expand", "flatten"):
            took = [min(measure([program, word, "--weight", weight], path)[1] for _ in range(3)) for weight in WEIGHTS]
            print("%-30s %s" % ("%s %d, %s" % (name, count, word), " ".join("%6.3f (%5.2f)" % (cpu, cpu / took[-1]) for cpu in took)), flush=True)


def greatest(program, path):
    written(path, "plain.py", GREATEST - 200)
    row(program, "plain", path)
    small = '{"":0}'
    with open(path, "w") as out:
        out.write("[%s" % small)
        for _ in range((GREATEST - 8) // (len(small) + 1) // 1000 - 1):
            out.write((",%s" % small) * 1000)
        out.write("]")
    row(program, "empty_keys", path)


def main():
    if len(sys.argv) < 2:
        raise SystemExit(__doc__)
    program = os.path.abspath(sys.argv[1])
    words = sys.argv[2:]
    head()
    with tempfile.TemporaryDirectory() as folder:
        path = os.path.join(folder, "document.json")
        # the program takes the folder `contexts` of the folder that it runs in
        os.chdir(folder)
        if words[:1] == ["shapes"]:
            each_shape(program, path, [int(word) for word in words[1:]] or [10**4, 3 * 10**4, 10**5])
        elif words[:1] == ["weights"]:
            each_weight(program, path, [int(word) for word in words[1:]] or [10**6, 10**7])
        elif words == ["greatest"]:
            greatest(program, path)
        elif words[:1] == ["expand"]:
            expanded(program, path, [int(word) for word in words[1:]] or [10**6, 10**7, 10**8])
        elif words[:1] == ["made"]:
            made(program, path, [int(word) for word in words[1:]] or [10**7, 10**8])
        elif words[:1] == ["contexts"]:
            each_context(program, path, [int(word) for word in words[1:]] or [10**4, 10**5])
        else:
            plain(program, path, [int(word) for word in words] or [10**6, 10**7, 10**8])


if __name__ == "__main__":
    main()
