#!/usr/bin/env python3
"""Writes N-Quads of about a given size: quads.py BYTES [SEED].

They are those of a document of nodes, each with a label, a reference to another node, a part, a list of two numbers and
two tags: eleven quads a node, with plain literals, typed ones, IRIs and blank nodes. The numbers are those of making.py.
"""
import sys

from making import numbers, size_and_seed

RDF = "http://www.w3.org/1999/02/22-rdf-syntax-ns#"
XSD = "http://www.w3.org/2001/XMLSchema#"
NODE = "".join([
    '<http://g/n{i}> <http://g/v#label> "{i}" .\n',
    "<http://g/n{i}> <http://g/v#next> <http://g/n{to}> .\n",
    "<http://g/n{i}> <http://g/v#part> _:b{i} .\n",
    '_:b{i} <http://g/v#of> "{i}"^^<' + XSD + "integer> .\n",
    "<http://g/n{i}> <http://g/v#seq> _:c{first} .\n",
    "_:c{first} <" + RDF + 'first> "{i}"^^<' + XSD + "integer> .\n",
    "_:c{first} <" + RDF + "rest> _:c{second} .\n",
    "_:c{second} <" + RDF + 'first> "{seven}"^^<' + XSD + "integer> .\n",
    "_:c{second} <" + RDF + "rest> <" + RDF + "nil> .\n",
    '<http://g/n{i}> <http://g/v#tag> "t{one}" .\n',
    '<http://g/n{i}> <http://g/v#tag> "t{two}" .\n',
])


def node(i, x, count):
    return NODE.format(i=i, to=x % count, first=2 * i, second=2 * i + 1, seven=x % 7, one=x // 65536 % 3, two=x // 8192 % 3)


def main():
    size, seed = size_and_seed(__doc__)
    count = max(1, size // len(node(50000, 50000, 100000)))
    for i, x in zip(range(count), numbers(seed)):
        sys.stdout.write(node(i, x, count))


if __name__ == "__main__":
    main()
