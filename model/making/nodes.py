"""Documents around node maps: few ids, labels, properties and graphs, so that
descriptions of one node meet in many places."""

from .maker import Maker

IDS = ("http://e/a", "http://e/b", "http://e/c", "_:a", "_:b", "_:b0", "_:b1",
       "_:z")
LINKS = ("http://e/p", "http://e/q", "http://e/r", "_:p", "_:b0", "_:a")
TYPES = ("http://e/T", "http://e/a", "_:a", "_:b1", "_:t", "http://e/U")
INDEXES = ("1", "2")
ODD = (None, 5, "x", [], {}, {"@set": []}, {"@set": [{"@id": "_:a"}]})


class Nodes:
    """Makes node objects. `odd` is how likely something odd stands there."""

    def __init__(self, maker):
        self.maker = maker
        self.left = maker.one(6, 12, 25, 50)
        self.odd = maker.one(0.0, 0.0, 0.0, 0.05)
        self.indexed = maker.one(0.0, 0.03, 0.15)
        self.named = maker.one(0.5, 0.8, 0.95)

    def value(self):
        maker = self.maker
        share = maker.random()
        if share < 0.3:
            return maker.one("v", "w", 1, True)
        made = {"@value": maker.one("v", "w", "v", 1, 2, True, False)}
        if share < 0.5 and type(made["@value"]) is str:
            made["@language"] = maker.one("en", "de")
        elif share < 0.65:
            made["@type"] = maker.one("http://e/T", "http://e/D")
        if maker.likely(self.indexed):
            made["@index"] = maker.of(INDEXES)
        return made

    def list(self, depth):
        maker = self.maker
        made = {"@list": [self.entry(depth - 1)
                          for _ in range(maker.times(3))]}
        if maker.likely(self.indexed):
            made["@index"] = maker.of(INDEXES)
        return made

    def entry(self, depth):
        maker = self.maker
        share = maker.random()
        if maker.likely(self.odd):
            return maker.of(ODD)
        if share < 0.3 or self.left <= 0 or depth <= 0:
            return self.value()
        if share < 0.6:
            return {"@id": maker.of(IDS)}
        return self.list(depth) if share < 0.72 else self.node(depth - 1)

    def some(self, make, depth, most=2):
        maker = self.maker
        made = [make(depth) for _ in range(maker.times(most))]
        return made[0] if len(made) == 1 and maker.likely(0.4) else made

    def node(self, depth):
        maker = self.maker
        self.left -= 1
        made = {}
        if maker.likely(self.named):
            made["@id"] = maker.of(IDS)
        if maker.likely(0.3):
            made["@type"] = self.some(lambda _: maker.of(TYPES), 0, 3)
        if maker.likely(self.indexed):
            made["@index"] = maker.of(INDEXES)
        for _ in range(maker.times(3)):
            made[maker.of(LINKS)] = self.some(self.entry, depth, 3)
        if depth <= 0 or self.left <= 0:
            return made
        if maker.likely(0.2):
            made["@reverse"] = {
                maker.of(LINKS): self.some(self.node, depth - 1)
                for _ in range(1 + maker.times(1))}
        if maker.likely(0.2):
            made["@graph"] = self.some(self.node, depth - 1, 3)
        if maker.likely(0.12):
            made["@included"] = self.some(self.node, depth - 1)
        if maker.likely(0.15):
            items = list(made.items())
            maker.rng.shuffle(items)
            made = dict(items)
        return made


def nodes_case(rng):
    """Some node objects that speak of one another."""
    maker = Maker(rng, 0.0)
    maker.flattens = 0.95
    nodes = Nodes(maker)
    tree = [nodes.node(maker.one(1, 2, 3, 5))
            for _ in range(1 + maker.times(5))]
    if maker.likely(0.2):
        tree = {"@graph": tree}
    if maker.likely(0.15) and type(tree) is list:
        tree.insert(maker.times(len(tree)), {
            "@context": {"i": {"@id": "http://e/p", "@container": "@index",
                               "@index": maker.one("@index", "http://e/q")},
                         "g": {"@id": "http://e/q", "@container": "@graph"},
                         "s": {"@reverse": "http://e/p"}},
            "@id": maker.of(IDS), "i": {"1": {"@id": maker.of(IDS)},
                                        "2": {"@id": maker.of(IDS)}},
            "g": nodes.node(1), "s": {"@id": maker.of(IDS)}})
    return (maker, tree, None)
