#!/usr/bin/env python3
"""Writes the folders of crates/ctx_cases/data whose files are too long or too alike to be written by hand.

`chains`: an IRI that ends in `n/` names the one without it, so `http://e/empty/` with 32 times `n/` behind it begins a chain
of 33 remote contexts. `scoped`: scoped contexts in one another, files that import themselves, and chains of scoped contexts
that come back to their first file. `unreadable`: a file that is nested too deep. The rest of `data` is written by hand.
"""
import os

DATA = os.path.join(os.path.dirname(os.path.abspath(__file__)), "..", "crates", "ctx_cases", "data")


def write(folder, name, text):
    os.makedirs(os.path.join(DATA, folder), exist_ok=True)
    with open(os.path.join(DATA, folder, name), "w", newline="") as out:
        out.write(text)


def context(text):
    return '{"@context":%s}\n' % text


def scoping(text):
    """A context of one term with this scoped context."""
    return '{"a":{"@id":"http://e/a","@context":%s}}' % text


def nested(count, text):
    """That many scoped contexts in one another, of which this is the innermost."""
    for _ in range(count):
        text = scoping(text)
    return text


def chain(kind, count, link, last):
    """The lines of a chain: what ends it, and the links before."""
    yield "http://e/%s/ %s\n" % (kind, last)
    for links in range(1, count):
        yield "http://e/%s/%s %s\n" % (kind, "n/" * links, link)


def write_chains():
    write("chains", "link.json", context('"../"'))
    lines = []
    for kind, last in (
        ("empty", context("{}")),
        ("gone", context('"http://e/gone"')),
        ("broken", "{\n"),
        ("import", context('{"@import":"a"}')),
    ):
        write("chains", kind + ".json", last)
        lines += chain(kind, 33, "link.json", kind + ".json")
    write("chains", "index.txt", "".join(lines))


def write_scoped():
    lines = []
    for name, text in (
        ("first", nested(43, '{"@import":"http://e/scoped/second"}')),
        ("second", nested(43, '{"@import":"http://e/scoped/third"}')),
        ("third", nested(42, "{}")),
    ):
        write("scoped", name + ".json", context(text))
        lines.append("http://e/scoped/%s %s.json\n" % (name, name))
    for name, count in (("one", 1), ("hundred", 100)):
        term = '"t%%d":{"@id":"http://e/a","@context":{"@import":"http://e/own/%s"}}' % name
        write("scoped", name + ".json", context("{%s}" % ",".join(term % number for number in range(count))))
        lines.append("http://e/own/%s %s.json\n" % (name, name))
    write("scoped", "link.json", context(scoping('"../"')))
    for count in (1, 2, 30):
        kind = "way-%d" % count
        first = "http://e/%s/%s" % (kind, "n/" * (count - 1))
        write("scoped", kind + ".json", context(scoping('["%s",{"b":"http://e/b"}]' % first)))
        lines += chain(kind, count, "link.json", kind + ".json")
    write("scoped", "index.txt", "".join(lines))


write_chains()
write_scoped()
write("unreadable", "deep.json", '{"@context":{},"a":%s%s}\n' % ("[" * 200, "]" * 200))
