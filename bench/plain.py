#!/usr/bin/env python3
"""Writes a plain JSON-LD document of about a given size: plain.py BYTES [SEED].

Node i has a label, a reference to another node and two tags, chosen by the numbers of making.py.
"""
from making import count_for, numbers, size_and_seed, write_items


def node(i, x, count):
    return (
        '{"@id":"http://g/n%d",'
        '"http://g/v#label":[{"@value":"%d"}],'
        '"http://g/v#next":[{"@id":"http://g/n%d"}],'
        '"http://g/v#tag":[{"@value":"t%d"},{"@value":"t%d"}]}'
    ) % (i, i, x % count, (x // 65536) % 3, (x // 8192) % 3)


def main():
    size, seed = size_and_seed(__doc__)
    count = count_for(size, lambda count: len(node(count, count - 1, count)))
    write_items("[", (node(i, x, count) for i, x in zip(range(count), numbers(seed))), "]")


if __name__ == "__main__":
    main()
