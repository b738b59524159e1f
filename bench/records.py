#!/usr/bin/env python3
"""Writes a document of many small records of about a given size: records.py BYTES [SEED].

Record i stands under one vocabulary and has a label, a reference to another record, a part without an id that has a number, a list of
two numbers, and two tags, chosen by the numbers of making.py.
"""
from making import count_for, numbers, size_and_seed, write_items

RECORD = (
    '{"@id":"http://g/n%d","label":"%d","next":{"@id":"http://g/n%d"},"part":[{"of":%d}],'
    '"seq":{"@list":[%d,%d]},"tag":["t%d","t%d"]}'
)


def record(i, x, count):
    return RECORD % (i, i, x % count, i, i, x % 7, x // 65536 % 3, x // 8192 % 3)


def main():
    size, seed = size_and_seed(__doc__)
    count = count_for(size, lambda count: len(record(count, count - 1, count)))
    records = (record(i, x, count) for i, x in zip(range(count), numbers(seed)))
    write_items('{"@context":{"@vocab":"http://g/v#"},"@graph":[', records, "]}")


if __name__ == "__main__":
    main()
