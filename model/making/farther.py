"""Documents that go farther than the other kinds: more items than a document
has pieces, maps nested under `@nest`, keywords under aliases with contexts of
their own, typed index keys, unusual bases, many labels, and keys that UTF-16
and bytes put in different orders."""

from .alphabet import E, VOCABS
from .maker import Maker

MANY = (4095, 4096, 4097, 4200, 8192, 8193, 12289)
BASES = ("http://e:8080/a/b", "http://ann@e/a/b", "http://ann:x@e:80/a?q",
         "http://e/a%20b/%C3%A9", "http://e//a//b", "http://e/a/?q#f/..",
         "http://e/a?q=/../x#y?z", "file:///a/b", "urn:a/b/c", "mailto:a@e",
         "http://e?q", "http://[::1]/a", "x:a", "x:/a//", "http://e/a/./b/..")
REFERENCES = ("", "c", "../c", "../../../c", "./", "..", "/c", "//f/c", "?r",
              "#s", "//", "///c", "c/..", "c//..//d", "%2e%2e/c", "c:d", ":c",
              "./c:d", "?", "#", "c?r/../s", ";x", "/..//c")
ODD_KEYS = ("\uff01", "\U00010000", "\ue000", "\ud7ff", "\U0010ffff", "\uffff",
            "a", "\u00e9", "", "\u0000", "\"", "\\", "z", "\u2028")


def many_items(maker):
    """More items than a document has pieces, at the top or farther in."""
    many = maker.of(MANY)
    named = maker.one(1, 3, many // 2, many)
    late = maker.one(None, None, many - 1, 0, many // 3)

    def item(number):
        if number == late:
            return maker.one({"@id": 5}, {"@id": E + "0", "@index": "b"},
                             {"@type": [None]}, ["x"], {"@list": [[]]})
        made = {E + "p": {"@id": "_:n%d" % (number % named)}}
        if number % 3:
            made["@id"] = "%s%d" % (maker.one(E, "_:m"), number % named)
        if number % 7 == 0:
            made["@index"] = "a"
        return made
    items = [item(number) for number in range(many)]
    return maker.one(
        lambda: items, lambda: {"@graph": items}, lambda: {E + "q": items},
        lambda: {"@id": E + "g", "@graph": items},
        lambda: [{"@id": E + "s", E + "q": items}, {"@id": 5}],
        lambda: {"@reverse": {E + "q": items}},
        lambda: {"@included": items},
        lambda: {E + "q": {"@list": items}},
        lambda: [{E + "q": ["v"] * many}] + items[:10],
        lambda: {"@context": {"m": {"@id": E + "m", "@container": "@index"}},
                 "m": {"i": items, "j": items[:2]}})()


def many_labels(maker):
    """Some hundred labels, first used in no order."""
    names = ["_:%s%d" % (maker.one("x", "b", "a"), number)
             for number in range(maker.one(101, 120, 300))]
    maker.rng.shuffle(names)
    tree = []
    for name in names:
        node = {"@id": maker.one(name, maker.of(names), E + "a")}
        node[maker.one(E + "p", E + "q", maker.of(names))] = maker.one(
            {"@id": name}, [{"@id": maker.of(names)}, {}],
            {"@list": [{"@id": name}]})
        if maker.likely(0.2):
            node["@type"] = [maker.of(names)]
        if maker.likely(0.2):
            node = {"@id": maker.of(names), "@graph": [node]}
        tree.append(node)
    return tree


def deep_nests(maker):
    """Maps under `@nest` and its aliases, three and more deep."""
    context = {"n": "@nest", "o": {"@id": "@nest"}, "p": E + "p", "e": E,
               "m": {"@id": "@nest", "@context": {"p": E + "np", "q": maker.one(
                   E + "nq", "@type", None)}},
               "q": {"@id": E + "q", "@nest": maker.one("@nest", "n", "o")},
               "id": "@id", "T": {"@id": E + "T", "@context": {"p": E + "tp"}}}

    def body(depth):
        made = {}
        for _ in range(1 + maker.times(2)):
            made[maker.one("p", "q", E + "r", "@type", "id", "@index")] = \
                maker.one("T", "x", E + "x")
        if maker.likely(0.1):
            made[maker.one("@id", "@value", "@nest", "@context")] = maker.one(
                5, {}, E + "y")
        if maker.likely(0.15):
            made["p"] = [{"@id": E + "z", "q": ["x", "y"]}, "w"]
        if depth:
            for key in maker.rng.sample(["@nest", "n", "o", "m"],
                                        1 + maker.times(2)):
                inner = body(depth - 1)
                made[key] = maker.one(inner, [inner], [inner, body(0)])
        return made
    return {"@context": context, **body(maker.one(2, 3, 3, 4))}


def scoped_aliases(maker):
    """Aliases of keywords that have a context of their own."""
    scope = {"p": E + "sp", "q": maker.one(E + "sq", "@type", "@id", None),
             **maker.one({}, {}, {"@vocab": E + "v/"}, {"@language": "en"},
                         {"@propagate": False}, {"@base": "http://f/"},
                         {"@protected": True})}
    if maker.likely(0.1):
        scope = maker.one(None, 5, [scope, None], "none")
    words = ["@id", "@type", "@graph", "@included", "@index", "@reverse",
             "@set", "@list", "@value", "@nest", "@language", "@direction"]
    chosen = maker.rng.sample(words, 4)
    context = {"k%d" % number: {"@id": word, "@context": scope}
               for number, word in enumerate(chosen)}
    context.update({"p": E + "p", "q": E + "q"})
    inner = {"p": "x", "q": "T"}
    values = {"@id": "r", "@type": "T", "@index": "i", "@value": "v",
              "@language": "en", "@direction": "ltr",
              "@reverse": {"p": inner}, "@nest": inner, "@set": inner,
              "@list": [inner], "@graph": [inner], "@included": inner}
    made = {}
    for number in range(1 + maker.times(2)):
        made["k%d" % number] = values[chosen[number]]
    if maker.likely(0.5):
        made = {"p": made, "k0": values[chosen[0]]}
    return {"@context": context, **made, "q": maker.one("U", inner)}


def typed_indexes(maker):
    """Maps of indexes whose index key is a property with a type."""
    kind = maker.one("@vocab", "@id", "@json", "@none", E + "D", "i")
    context = {"e": E, "D": E + "D", "i": {"@id": E + "i", "@type": kind},
               "m": {"@id": E + "m", "@container": maker.one(
                   "@index", ["@index", "@set"], ["@graph", "@index"]),
                   "@index": maker.one("i", "i", "e:i", E + "i", "j")},
               "j": {"@id": E + "j", "@language": "en", "@direction": "rtl"},
               "vx": {"@id": E + "vx", "@type": "@id"}}
    if kind == "i":
        context["i"]["@type"] = "e:D"
    if maker.likely(0.4):
        context["@vocab"] = maker.of(VOCABS)
    if maker.likely(0.3):
        context["@language"] = "de"
    keys = ["vx", "x", "e:x", "_:b", "", "@none", "../x", "@type", "D",
            "http://e/x"]
    value = {maker.of(keys): maker.one(
        {"@id": E + "n"}, "x", [{"i": "own"}, {E + "i": {"@id": "_:o"}}],
        {"@value": "v"}, [{"@id": "r", "vx": "s"}], {"@graph": []},
        {E + "j": "k"}, [{}, None]) for _ in range(1 + maker.times(3))}
    return {"@context": context, "m": value}


def odd_bases(maker):
    """References under bases with ports, users, empty segments and the like."""
    inner = {"@base": maker.one(maker.of(BASES), maker.of(REFERENCES), None)}
    node = {"@id": maker.of(REFERENCES),
            "@type": [maker.of(REFERENCES), maker.of(REFERENCES)],
            E + "p": [{"@id": maker.of(REFERENCES)} for _ in range(3)]}
    other = {"@context": inner, "@id": maker.of(REFERENCES),
             E + "q": {"@id": maker.of(REFERENCES), "@type": "t"}}
    return maker.one([node, other], {**node, E + "r": other}, [other, node])


def json_literals(maker):
    """JSON literals whose keys UTF-16 and bytes put in different orders."""
    def any(depth):
        if depth == 0 or maker.likely(0.2):
            return maker.one("x", 1, None, True, [], {}, "\U00010000",
                             9007199254740992, -1)
        if maker.likely(0.3):
            return [any(depth - 1) for _ in range(maker.times(3))]
        keys = maker.rng.sample(ODD_KEYS, 1 + maker.times(5))
        return {key: any(depth - 1) for key in keys}
    return maker.one(
        lambda: {E + "p": {"@type": "@json", "@value": any(3)}},
        lambda: {"@context": {"j": {"@id": E + "j", "@type": "@json"}},
                 "j": [any(2), {"@value": any(1)}, {"@context": any(1)}]},
        lambda: {"@context": {"m": {"@id": E + "m", "@type": "@json",
                                    "@container": maker.one(
                                        "@set", "@index", "@list")}},
                 "m": any(3)},
        lambda: {"x:" + key: any(1) for key in maker.rng.sample(ODD_KEYS, 4)})()


KINDS = ((0.015, many_items), (0.065, many_labels), (0.2, deep_nests),
         (0.22, scoped_aliases), (0.2, typed_indexes), (0.15, odd_bases),
         (0.15, json_literals))


def farther_case(rng):
    """One of these documents, at times twice in one."""
    maker = Maker(rng, 0.0)
    maker.flattens = 0.6
    share = maker.random()
    for part, make in KINDS:
        share -= part
        if share < 0:
            break
    tree = make(maker)
    if make in (deep_nests, scoped_aliases, typed_indexes) \
            and maker.likely(0.3):
        tree = maker.one([tree, make(maker)], {E + "p": [tree, make(maker)]},
                         {"@graph": [tree], E + "q": make(maker)})
    if make is not odd_bases:
        return (maker, tree, None)
    command = "flatten" if maker.likely(0.5) else "expand"
    return (maker, tree, None, [command, "--base", maker.of(BASES)])
