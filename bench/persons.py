#!/usr/bin/env python3
"""Writes a document of persons of about a given size: persons.py BYTES [SEED].

Each person is described three times, in different places under one context: with a year in a register, as the author of a work, and as
someone who knows two others. The works name their authors in no order, and the third part begins with another person than the first.
So a flattener has to put each person together from afar. making.py has the numbers.
"""
from making import count_for, numbers, size_and_seed, write_items

CONTEXT = '{"@vocab":"http://p/v#","knows":{"@type":"@id"}}'


def person(i):
    return '"@id":"http://p/person/%d"' % i


def registered(i, x):
    return '{%s,"@type":"Person","name":"Person %d","born":%d}' % (person(i), i, 1800 + x % 200)


def author(i, x):
    return '{"@id":"http://p/work/%d","@type":"Work","title":"Work %d","creator":{%s,"note":"n%d"}}' % (x, x, person(i), x % 9)


def acquainted(i, x, count):
    first, second = x % count, x // 65536 % count
    return '{%s,"knows":["http://p/person/%d","http://p/person/%d"],"name":"P. %d"}' % (person(i), first, second, i)


def shuffled(count, chosen):
    """The numbers below `count`, each once, in no order."""
    keys = [next(chosen) for _ in range(count)]
    return sorted(range(count), key=keys.__getitem__)


def rows(count, seed):
    chosen = numbers(seed)
    for i in range(count):
        yield registered(i, next(chosen))
    for i in shuffled(count, chosen):
        yield author(i, next(chosen))
    for i in range(count):
        yield acquainted((i + count // 3) % count, next(chosen), count)


def main():
    size, seed = size_and_seed(__doc__)
    of_one = lambda i: len(registered(i, i)) + len(author(i, 2**31)) + len(acquainted(i, 2**31, i)) + 2
    write_items('{"@context":%s,"@graph":[' % CONTEXT, rows(count_for(size, of_one), seed), "]}")


if __name__ == "__main__":
    main()
