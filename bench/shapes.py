#!/usr/bin/env python3
"""Writes a JSON document of one shape: shapes.py SHAPE COUNT. `SHAPES` says of each what it has."""
import os
import random
import sys

sys.path.insert(0, os.path.dirname(os.path.abspath(__file__)))
import colliding  # noqa: E402

SHAPES = {
    "values": "one item with COUNT different values",
    "references": "one item with references to COUNT different nodes",
    "references_shuffled": "the same, in no order",
    "repeats": "one item with COUNT values, of which each stands twice",
    "items": "COUNT items of one id, each with one value that no other has",
    "same_item": "COUNT items that are all equal",
    "properties": "COUNT items of one id, each with another property, ascending",
    "properties_descending": "the same, descending",
    "properties_shuffled": "the same, in no order",
    "wide": "one item with COUNT properties, ascending",
    "wide_shuffled": "the same, in no order",
    "nodes_descending": "COUNT nodes with descending ids",
    "long_ids": "COUNT nodes whose ids share their first 210 bytes",
    "repeated_keys": "one item in which one key stands COUNT times",
    "long_text": "one value with a text of 20 COUNT bytes",
    "empty_keys": "COUNT objects that have just the empty key, with 0",
    "small_lists": "COUNT rows of an object, an empty array and an object with an array",
    "deep": "COUNT arrays inside one another, a hundred deep each",
    "wide_map": "one object with COUNT keys in no order",
    "thousand_keys": "one object in which COUNT members share 1,000 keys",
    "numbers": "one item with COUNT different numbers under one property",
    "tagged": "one item with COUNT texts in languages under one property",
    "typed": "one item with COUNT typed values under one property",
    "types": "one item with COUNT different types",
    "labels": "COUNT items that refer to one another by labels of blank nodes",
    "unnamed": "COUNT items without an id, each inside a property of one without an id",
    "graphs": "COUNT graphs of one node each, descending",
    "one_graph": "COUNT items that each state one node of one graph",
    "colliding": "one graph of COUNT nodes whose ids have one hash under a hasher without a secret",
    "one_tree": "one item in which COUNT nodes are nested, a hundred under each",
    "reversed": "one node to which COUNT nodes point by a reverse property",
    "included": "one block of COUNT included nodes",
    "list": "one list of COUNT items",
    "lists": "COUNT lists under one property, all equal",
    "nested_lists": "COUNT lists nested sixty deep",
    "array": "one item with COUNT texts under one property",
    "pairs": "one item with an array of two, of which the second is such an array, and so on sixty deep, with COUNT texts in all",
    "graph": "one graph of COUNT nodes",
    "property": "COUNT nodes under one property of one node",
    "hidden_error": "a block of included nodes that has just a reverse property with COUNT nodes, and COUNT texts behind it",
    "peers": "COUNT records under a vocabulary, with numbers, lists and nodes without an id",
}
ONE = '"@id":"http://g/one"'


def value(i):
    return '{"@value":"v%d"}' % i


def reference(i):
    return '{"@id":"http://g/n%d"}' % i


def node(i):
    return '{"@id":"http://g/n%d","http://g/v#p":"v"}' % i


def pairs(depth, count):
    """Arrays of two, with the texts spread over the levels."""
    here = ",".join('"v%d"' % i for i in range(max(1, count // 60)))
    return "[%s]" % here if depth == 0 else "[[%s],%s]" % (here, pairs(depth - 1, count))


def prop(i):
    return '"http://g/v#p%07d":[{"@value":"v"}]' % i


def item(entries, name=ONE):
    return '{%s,"http://g/v#p":[%s]}' % (name, ",".join(entries))


def shuffled(numbers):
    numbers = list(numbers)
    random.Random(1).shuffle(numbers)
    return numbers


def colliding_rows(count):
    graph, names = colliding.ids(count)
    nodes = ",".join('{"@id":"%s","http://g/v#p":"v"}' % name for name in names)
    return ['{"@id":"%s","@graph":[%s]}' % (graph, nodes)]


def one_tree(count):
    """Nodes under one item: each hundred of them stands under one that stands under the item."""
    leaf = '{"@id":"http://g/n%d","http://g/v#label":"v%d"}'
    hundreds = [",".join(leaf % (i, i) for i in range(first, min(first + 100, count))) for first in range(0, count, 100)]
    return ['{%s,"http://g/v#p":[%s]}' % (ONE, ",".join('{"@id":"http://g/h%d","http://g/v#p":[%s]}' % row for row in enumerate(hundreds)))]


def rows(shape, count):
    numbers = range(count)
    half = (count + 1) // 2
    some = {
        "values": lambda: [item(map(value, numbers))],
        "references": lambda: [item(map(reference, numbers))],
        "references_shuffled": lambda: [item(map(reference, shuffled(numbers)))],
        "repeats": lambda: [item(value(i % half) for i in numbers)],
        "items": lambda: [item([value(i)]) for i in numbers],
        "same_item": lambda: [item([value(1)])] * count,
        "properties": lambda: ["{%s,%s}" % (ONE, prop(i)) for i in numbers],
        "properties_descending": lambda: ["{%s,%s}" % (ONE, prop(i)) for i in reversed(numbers)],
        "properties_shuffled": lambda: ["{%s,%s}" % (ONE, prop(i)) for i in shuffled(numbers)],
        "wide": lambda: ["{%s,%s}" % (ONE, ",".join(map(prop, numbers)))],
        "wide_shuffled": lambda: ["{%s,%s}" % (ONE, ",".join(map(prop, shuffled(numbers))))],
        "nodes_descending": lambda: [item([value(1)], '"@id":"http://g/n%07d"' % (count - i)) for i in numbers],
        "long_ids": lambda: [item([value(1)], '"@id":"http://g/%s%d"' % ("x" * 200, i)) for i in numbers],
        "repeated_keys": lambda: ["{%s,%s}" % (ONE, ",".join('"http://g/v#p":[%s]' % value(i) for i in numbers))],
        "long_text": lambda: [item(['{"@value":"%s"}' % ("y" * (20 * count))])],
        "empty_keys": lambda: ['{"":0}'] * count,
        "small_lists": lambda: ['[{"a":1},[],{"b":[0]}]'] * count,
        "deep": lambda: ["[" * 100 + "]" * 100] * count,
        "wide_map": lambda: ["{%s}" % ",".join('"k%07d":0' % i for i in shuffled(numbers))],
        "numbers": lambda: [item(map(str, numbers))],
        "tagged": lambda: [item('{"@value":"v%d","@language":"en"}' % i for i in numbers)],
        "typed": lambda: [item('{"@value":"v%d","@type":"http://g/T"}' % i for i in numbers)],
        "types": lambda: ['{%s,"@type":[%s]}' % (ONE, ",".join('"http://g/T%d"' % i for i in shuffled(numbers)))],
        "labels": lambda: ['{"@id":"_:n%d","http://g/v#p":{"@id":"_:n%d"}}' % (i, (i * 7 + 1) % count) for i in numbers],
        "unnamed": lambda: ['{"http://g/v#p":{"http://g/v#q":"v%d"}}' % i for i in numbers],
        "graphs": lambda: ['{"@id":"http://g/g%07d","@graph":{%s,"http://g/v#p":"v"}}' % (count - i, ONE) for i in numbers],
        "one_graph": lambda: ['{"@id":"http://g/g","@graph":{"@id":"http://g/n%d","http://g/v#p":"v"}}' % i for i in numbers],
        "colliding": lambda: colliding_rows(count),
        "one_tree": lambda: one_tree(count),
        "reversed": lambda: ['{%s,"@reverse":{"http://g/v#p":[%s]}}' % (ONE, ",".join(map(reference, shuffled(numbers))))],
        "included": lambda: ['{"@included":[%s]}' % ",".join('{"@id":"http://g/n%d","http://g/v#p":"v"}' % i for i in numbers)],
        "list": lambda: [item(['{"@list":[%s]}' % ",".join(map(reference, numbers))])],
        "lists": lambda: [item(['{"@list":["v"]}'] * count)],
        "nested_lists": lambda: [item(['{"@list":[' * 60 + '"v"' + ']}' * 60]) for _ in numbers],
        "peers": lambda: ['{"@context":{"@vocab":"http://g/v#"},"name":"n%d","size":%d,"parts":{"@list":[%d,"x",true]},"maker":{"name":"m%d","age":%d}}' % (i, i, i, i % 100, i % 90) for i in numbers],
        "array": lambda: [item('"v%d"' % i for i in numbers)],
        "pairs": lambda: [item([pairs(60, count)])],
        "graph": lambda: ['{"@id":"http://g/g","@graph":[%s]}' % ",".join(map(node, numbers))],
        "property": lambda: [item(map(node, numbers))],
        "hidden_error": lambda: ['{"@included":{"@reverse":{"http://g/v#r":[%s]}},"http://g/v#z":[%s]}' % (",".join(map(node, numbers)), ",".join('"v%d"' % i for i in numbers))],
        "thousand_keys": lambda: ["{%s}" % ",".join('"k%03d":%d' % (i % 1000, i) for i in shuffled(numbers))],
    }
    if shape not in some:
        raise SystemExit("no such shape: %s\n%s" % (shape, "\n".join("%-22s %s" % row for row in SHAPES.items())))
    return some[shape]()


def document(shape, count):
    return "[%s]" % ",".join(rows(shape, count))


if __name__ == "__main__":
    if len(sys.argv) != 3:
        raise SystemExit(__doc__)
    sys.stdout.write(document(sys.argv[1], int(sys.argv[2])))
