#!/usr/bin/env python3
"""Compares the program `quad_cases` with the model of N-Quads.

    python3 compare_quads.py PROGRAM --seed S --count N --jobs J
    python3 compare_quads.py PROGRAM --ranges
    python3 compare_quads.py PROGRAM --show SEED:NUMBER

PROGRAM reads a case on each line of standard input and answers with the quads,
written anew, or with line and column of the first bad line.  `--ranges` tries
some texts with every front, every byte and every character in one place of
them, see `making/quads.py`.  Ends with status 1 where any answer differs.
"""

import argparse
import collections
import concurrent.futures
import os
import re
import subprocess
import sys

from making.quads import EVERY_BYTE, EVERY_CHARACTER, EVERY_CUT, case
from quads import BadLine, read, written

AT_ONCE = 2000


# How the program's input and output are written.

_hidden = re.compile(rb"[%\x00-\x1f\x7f-\xff]").sub
_hidden_text = re.compile(rb"[^\x20-\x24\x26-\x7e]").sub


def _hex(match):
    return b"%%%02X" % match.group()[0]


def request(word, data):
    """The line that asks for this."""
    return b"%s %s\n" % (word, _hidden_text(_hex, data))


def model_answer(data):
    """What the program should say of a file."""
    try:
        return b" | ".join(_hidden(_hex, line)
                           for line in written(read(data)).split(b"\n"))
    except BadLine as bad:
        return b"%d:%d" % (bad.line, bad.column)


def answers(program, lines):
    """The program's answers to these requests."""
    ran = subprocess.run([program], input=b"".join(lines), check=True,
                         stdout=subprocess.PIPE)
    told = ran.stdout.split(b"\n")
    if len(told) != 2 * len(lines) + 1 or told[-1]:
        raise SystemExit("%d lines for %d cases" % (len(told), len(lines)))
    for line, echo in zip(lines, told[0::2]):
        if line != echo + b"\n":
            raise SystemExit("answered %r in the place of %r" % (echo, line))
    return [answer[len(b"  -> "):] for answer in told[1::2]]


# Single cases.


def is_place(answer):
    return re.fullmatch(rb"[0-9]+:[0-9]+", answer) is not None


def some_cases(task):
    """The numbers of the differing cases, and what the model said."""
    program, seed, first, last = task
    made = [case(seed, number) for number in range(first, last)]
    told = answers(program, [request(b"read", data) for _, data in made])
    differing, counted = [], collections.Counter()
    for number, (kind, data), got in zip(range(first, last), made, told):
        due = model_answer(data)
        counted[kind, "bad line" if is_place(due) else
                "quads" if due else "nothing"] += 1
        if due != got:
            differing.append(number)
    return differing, counted


def compare(program, options):
    end = options.first + options.count
    tasks = [(program, options.seed, first, min(first + AT_ONCE, end))
             for first in range(options.first, end, AT_ONCE)]
    differing, counted = [], collections.Counter()
    with concurrent.futures.ProcessPoolExecutor(options.jobs) as pool:
        for some, many in pool.map(some_cases, tasks):
            differing += some
            counted += many
    return differing, counted


def show(program, seed, number):
    kind, data = case(seed, number)
    print("--- %d:%d (%s)\n%r" % (seed, number, kind, data))
    print("model    %r" % model_answer(data))
    print("program  %r" % answers(program, [request(b"read", data)])[0])


# Whole ranges.


def short_answer(data):
    try:
        return b"ok%d" % len(read(data))
    except BadLine as bad:
        return b"%d:%d" % (bad.line, bad.column)


def is_tried(code):
    """Characters of the first plane, and those at the ends of the others."""
    return not 0xD800 <= code <= 0xDFFF and (
        code < 0x10000 or (code + 2) % 0x10000 < 4)


def texts_of(word, data):
    """Pairs of a number and a text: what the program makes of the word."""
    if word == b"cut":
        return [(size, data[:size]) for size in range(len(data) + 1)]
    with_ = [(code, bytes([code])) for code in range(256)] \
        if word == b"bytes" else [(code, chr(code).encode("utf-8"))
                                  for code in range(0x110000) if is_tried(code)]
    return [(code, data.replace(b"@@", one, 1)) for code, one in with_]


def runs(word, data):
    """The model's answers, those in a row together, and their number."""
    made = []
    texts = texts_of(word, data)
    for number, text in texts:
        answer = short_answer(text)
        if made and made[-1][0] == answer:
            made[-1][2] = number
        else:
            made.append([answer, number, number])
    return b", ".join(
        b"%X %s" % (first, answer) if first == last
        else b"%X-%X %s" % (first, last, answer)
        for answer, first, last in made), len(texts)


def ranges(program):
    """Pairs of a word and a text, to be tried whole."""
    asked = [(b"cut", text) for text in EVERY_CUT]
    for text in EVERY_BYTE:
        if b"@@" in text:
            asked.append((b"bytes", text))
            continue
        # a byte in each place: put in, and in the place of another
        for at in range(len(text) + 1):
            asked.append((b"bytes", text[:at] + b"@@" + text[at:]))
            asked.append((b"bytes", text[:at] + b"@@" + text[at + 1:]))
    asked += [(word, text) for text in EVERY_CHARACTER
              for word in (b"bytes", b"chars")]
    told = answers(program, [request(word, text) for word, text in asked])
    tried, differing = 0, 0
    for (word, text), got in zip(asked, told):
        due, many = runs(word, text)
        tried += many
        if due != got:
            differing += 1
            print("--- %s %r\nmodel    %s\nprogram  %s" % (
                word.decode(), text, due.decode(), got.decode()))
    print("%d texts in %d ranges, %d ranges different"
          % (tried, len(asked), differing))
    return differing


def main():
    words = argparse.ArgumentParser(description=__doc__.split("\n")[0])
    words.add_argument("program")
    words.add_argument("--seed", type=int, default=1)
    words.add_argument("--count", type=int, default=300000)
    words.add_argument("--first", type=int, default=0,
                       help="the number of the first case")
    words.add_argument("--jobs", type=int, default=1)
    words.add_argument("--ranges", action="store_true")
    words.add_argument("--show", metavar="SEED:NUMBER")
    options = words.parse_args()
    program = os.path.abspath(options.program)
    if options.show:
        show(program, *map(int, options.show.split(":")))
        return 0
    if options.ranges:
        return 1 if ranges(program) else 0
    differing, counted = compare(program, options)
    for number in differing[:5]:
        show(program, options.seed, number)
    for (kind, answer), many in sorted(counted.items()):
        print("%9d  %s: %s" % (many, kind, answer))
    print("%d cases, %d different%s" % (
        options.count, len(differing), "".join(
            " %d:%d" % (options.seed, number) for number in differing[:100])))
    return 1 if differing else 0


if __name__ == "__main__":
    sys.exit(main())
