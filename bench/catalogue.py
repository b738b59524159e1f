#!/usr/bin/env python3
"""Writes a catalogue of about a given size: catalogue.py BYTES [SEED].

Its entries stand under one context. Each has a title by languages, copies by their shelf and reviews by their id. Every fourth entry
brings a context of its own, under which its notes are texts of another language and its maker is an IRI; making.py has the numbers.
"""
from making import count_for, numbers, size_and_seed, write_items

CONTEXT = (
    '{"@vocab":"http://c/v#","xsd":"http://www.w3.org/2001/XMLSchema#","title":{"@container":"@language"},'
    '"copies":{"@container":"@index"},"reviews":{"@container":"@id"},"made":{"@type":"xsd:date"},"maker":{"@type":"@id"}}'
)
OWN = '"@context":{"@language":"%s","maker":{"@id":"http://c/v#by","@type":"@id"}},'
LANGUAGES = ("da", "fr", "la")


def entry(i, x):
    own = OWN % LANGUAGES[x % 3] if i % 4 == 0 else ""
    title = '{"de":"Buch %d","en":"Book %d"}' % (i, i)
    copies = '{"A%d":{"state":"good"},"B%d":[{"state":"worn"},{"state":"lost"}]}' % (x % 50, x // 8192 % 50)
    reviews = '{"http://c/review/%d":{"stars":%d}}' % (i, x // 65536 % 6)
    return '{%s"@id":"http://c/book/%d","@type":"Book","title":%s,"made":"19%02d-05-%02d","maker":"http://c/person/%d","note":"n%d","copies":%s,"reviews":%s}' % (
        own, i, title, x % 100, x % 28 + 1, x % 1000, x % 9, copies, reviews,
    )


def main():
    size, seed = size_and_seed(__doc__)
    # of four entries one brings a context
    of_one = lambda i: (len(entry(4 * i, 2**31 - 1)) + 3 * len(entry(4 * i + 1, 2**31 - 1))) // 4
    count = count_for(size, of_one)
    entries = (entry(i, x) for i, x in zip(range(count), numbers(seed)))
    write_items('{"@context":%s,"@graph":[' % CONTEXT, entries, "]}")


if __name__ == "__main__":
    main()
