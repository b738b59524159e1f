"""Random documents, and changes to good ones."""

from .alphabet import CONTAINERS, NUMBERS, ODD_CONTAINERS, WORDS, fresh
from .maker import Maker


def random_case(rng, changes):
    """A random document; or a good one to which a few changes are made."""
    if changes:
        bad = 0.0
    else:
        bad = (0.0, 0.0, 0.015, 0.04, 0.12)[int(rng.random() * 5)]
    maker = Maker(rng, bad)
    folder = maker.folder(1 + maker.times(2)) if maker.likely(0.4) else None
    tree = maker.document()
    if changes:
        for _ in range(1 + maker.times(2)):
            roots = [tree] + [part for part in (folder or {}).values()
                              if type(part) is not str]
            change(maker, maker.of(roots) if maker.likely(0.3) else tree)
    return (maker, tree, folder)


def slots_of(tree, found):
    if type(tree) is dict:
        for key, value in tree.items():
            found.append((tree, key))
            slots_of(value, found)
    elif type(tree) is list:
        for number, value in enumerate(tree):
            found.append((tree, number))
            slots_of(value, found)


def change(maker, tree):
    """One change at a random place below the root."""
    slots = []
    slots_of(tree, slots)
    if not slots:
        return
    parent, step = maker.of(slots)
    value = parent[step]
    kind = maker.times(12)
    if kind == 0:
        parent[step] = None
    elif kind == 1:
        parent[step] = maker.of(NUMBERS)
    elif kind == 2:
        parent[step] = [value]
    elif kind == 3:
        parent[step] = maker.any()
    elif kind == 4:
        del parent[step]
    elif kind == 5 and type(parent) is dict:
        parent[maker.name()] = parent.pop(step)
    elif kind == 6 and type(parent) is dict:
        parent[maker.of(WORDS)] = parent.pop(step)
    elif kind == 7 and type(value) is dict:
        value[maker.of(WORDS)] = maker.any()
    elif kind == 8 and type(value) is dict:
        value[maker.name()] = maker.value(1)
    elif kind == 9:
        parent[step] = maker.of(WORDS)
    elif kind == 10:
        other, place = maker.of(slots)
        if type(other[place]) not in (dict, list) and type(value) not in (
                dict, list):
            parent[step], other[place] = other[place], value
    elif kind == 11:
        containers = [part for part, name in slots if name == "@container"]
        if containers:
            maker.of(containers)["@container"] = fresh(maker.of(
                CONTAINERS if maker.likely(0.7) else ODD_CONTAINERS))
    else:
        parent[step] = {maker.of(WORDS): value}
