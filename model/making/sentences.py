"""Documents made around one part of the algorithms each.

Each function gives a body, which is a map.  Those that make files in the
folder of contexts too take the folder.
"""

import json

from .alphabet import (
    ALIASES, BASES, BY_KEYWORD, COMPACT, CONTAINERS, E, IRIS, LANGUAGES, MARK,
    NO_WORDS, ODD_CONTAINERS, ODD_TERMS, ODD_VOCABS, RELATIVE, REMOTE, TERMS,
    VOCABS, WORDS, fresh)
from .errors import one_error, two_errors_in_one_map
from .maker import Maker


def _put(maker, *keys):
    """A map of some of the keys, each with a value that may fit it."""
    made = {}
    for key in keys:
        if maker.likely(0.55):
            made[maker.word(key)] = odd_value(maker, key)
    return made


def odd_value(maker, key):
    """A value for a keyword: fitting or not, about as often."""
    if maker.likely(0.12):
        return maker.any()
    if key == "@value":
        return maker.one(maker.scalar(), "v", 5, None, True, [], {}, ["x"])
    if key in ("@language", "@index"):
        return maker.one("en", "i", "", 5, None) if maker.likely(0.3) else "en"
    if key == "@direction":
        return maker.one("ltr", "rtl", "ltr", "up", None)
    if key == "@type":
        return maker.one("@json", maker.full_iri(), maker.iri(), [], None, 5,
                         ["@json"], ["T", maker.iri()], "T", "_:t", "@foo",
                         ["@foo", "@id"], ["T", 5])
    if key == "@id":
        return maker.one(maker.iri(), maker.iri(), maker.name(), 5, None, [],
                         "@foo", "@type")
    if key in ("@list", "@set", "@graph", "@included"):
        return maker.one([], None, "x", [maker.value(1), [maker.value(1)]],
                         maker.value(1), {"@list": ["x"]}, {"@set": ["x"]},
                         maker.node(1), [maker.node(1), None],
                         {"@value": "x"}, [{"@set": maker.one(None, [])}])
    if key in ("@reverse", "@nest"):
        return maker.one(
            {E + "p": maker.value(1)}, {E + "p": maker.node(1)}, [], None, "x",
            {"@id": E + "x"}, {"@value": "x"}, [{E + "q": "x"}, {}],
            {E + "p": {"@list": []}, E + "q": "x"}, maker.node(1),
            {"@context": maker.context(1), E + "p": maker.node(1)})
    return maker.any()


def value_objects(maker):
    return {maker.full_iri(): _put(maker, "@value", "@value", "@type",
                                   "@language", "@direction", "@index", "@id")
            if maker.likely(0.6) else maker.value_object()}


def sets_and_lists(maker):
    made = _put(maker, maker.one("@set", "@list"), "@index")
    if maker.likely(0.4):
        made.update(_put(maker, "@type", "@id", "@set", "@list", "@language"))
    return {maker.full_iri(): maker.one(made, [made], [[made], "x"])}


def keyword_entries(maker):
    return _put(maker, *maker.rng.sample(
        ["@id", "@type", "@graph", "@included", "@index", "@reverse", "@nest",
         "@set", "@list", "@value", "@language", "@direction", "@none",
         "@json", "@vocab"], 3))


def collisions(maker):
    word = maker.one("@id", "@type", "@graph", "@included", "@index",
                     "@reverse", "@set", "@list", "@value", "@nest",
                     "@language", "@direction")
    names = [name for name in BY_KEYWORD.get(word, [])] + ["y", "Y", word]
    chosen = maker.rng.sample(names, 2)
    context = {name: word for name in chosen if name != word}
    made = {"@context": context}
    for name in chosen:
        made[name] = odd_value(maker, word) if maker.likely(0.5) else {
            "@id": E + "x", "@index": "i", "@value": "v", "@language": "en",
            "@direction": "ltr"}.get(word, {E + "p": {}})
    if maker.likely(0.3):
        made = {"@context": context, "@nest": made}
        made["@nest"].pop("@context")
        made[chosen[0]] = odd_value(maker, word)
    return maker.one(made, {"@context": made.pop("@context"), E + "p": made})


def dropped_keys(maker):
    context = {"a": None, "b": {"@id": None}, "c": "@foo", "d": "@none"}
    if maker.likely(0.5):
        context["@vocab"] = maker.of(VOCABS)
    return {"@context": context,
            maker.one("a", "b", "c", "d", "@foo", "x", "x/y", ":x"):
            maker.value(2), maker.name(): maker.value(1)}


def value_expansions(maker):
    definition = {"@id": E + "p"}
    if maker.likely(0.7):
        definition["@type"] = maker.one("@id", "@vocab", "@json", "@none",
                                        E + "T", "@id", "@vocab")
    if maker.likely(0.4):
        definition["@language"] = maker.one(None, "de")
    if maker.likely(0.4):
        definition["@direction"] = maker.one(None, "rtl")
    if maker.likely(0.2):
        definition["@container"] = maker.one("@list", "@set", ["@set"])
    context = {"p": definition, "a": E + "a", "@vocab": E}
    if maker.likely(0.5):
        context["@language"] = "en"
    if maker.likely(0.5):
        context["@direction"] = "ltr"
    if maker.likely(0.5):
        del context["@vocab"]
    return {"@context": context, "p": maker.one(
        maker.scalar(), maker.name(), [maker.scalar(), maker.iri(), "@foo"],
        maker.any(), maker.iri())}


def language_maps(maker):
    definition = {"@id": E + "p", "@container": maker.one(
        "@language", ["@language", "@set"])}
    if maker.likely(0.3):
        definition["@direction"] = maker.one(None, "rtl")
    if maker.likely(0.1):
        definition["@type"] = maker.one("@json", "@id")
    context = {"p": definition, "none": "@none"}
    if maker.likely(0.4):
        context["@direction"] = "ltr"
    if maker.likely(0.2):
        context["@vocab"] = E
    return {"@context": context, "p": maker.one(
        maker.map_of(LANGUAGES + ["@none", "none", "@foo"], 1,
                     lambda _: maker.one("x", "y", None, maker.scalar(), [])),
        maker.map_of(LANGUAGES + ["@none"], 1, lambda _: "x"),
        maker.value(1))}


def index_maps(maker):
    container = maker.one(
        "@index", "@id", "@type", ["@graph", "@id"], ["@graph", "@index"],
        ["@graph", "@id", "@set"], ["@index", "@set"], ["@type", "@set"],
        ["@id", "@set"], "@index")
    definition = {"@id": E + "p", "@container": container}
    context = {"p": definition, "none": "@none", "null": None, "e": E,
               "T": {"@id": E + "T", "@context": maker.one(
                   {"q": E + "tq"}, None, {"@propagate": True, "q": E + "tq"},
                   {"p": E + "tp"}, 5 if maker.likely(0.1) else {})},
               "q": E + "q"}
    if "@index" in container and maker.likely(0.6):
        definition["@index"] = maker.one("e:i", E + "i", "q", E + "p", "a")
        if maker.likely(0.5):
            context["a"] = {"@id": E + "i"}
            if maker.likely(0.6):
                context["a"]["@type"] = maker.one("@id", "@vocab", "@json",
                                                  E + "T")
    if maker.likely(0.3):
        context["@vocab"] = E + "v/"
    if maker.likely(0.3):
        definition["@type"] = maker.one("@id", "@vocab", "@none", E + "T",
                                        "@json")
    if maker.likely(0.2):
        definition["@context"] = maker.one(
            {"q": E + "sq"}, None, {"@propagate": False, "q": E + "sq"})
    second = {}
    if maker.likely(0.25):
        # The index key becomes another name for a keyword, or for nothing.
        for key in ("q", "a"):
            second[key] = maker.one("@type", "@id", "@index", "@value", None,
                                    "@graph", "@list", "@set", "@language")
        second["@vocab"] = maker.one(None, E)
    value = maker.map_of(
        ["a", "b", "T", "@none", "none", "null", "@foo", "", "e:x", "_:b",
         E + "i", "../r"], 2,
        lambda depth: maker.one(
            maker.value(depth), maker.node(depth), "x",
            {"@id": E + "x", "q": "y"}, {"@type": "T", "q": "y"},
            {"@index": "own", "q": "z"}, {"@value": "v"}, {"@list": ["x"]},
            {"@graph": [{"@id": E + "g", "q": "w"}]}, {"@type": "U"},
            {"@graph": [], "@id": "_:g"}, {"@graph": [], E + "p": "x"},
            {"@value": "v", "@type": E + "T"}))
    body = {"p": value}
    if maker.likely(0.3):
        body["@type"] = maker.one("T", ["T", "U"])
    body["@context"] = [context, second] if second else context
    if maker.likely(0.15):
        body["@reverse"] = {"p": body.pop("p")}
    return body


def graph_containers(maker):
    return {"@context": {"p": {"@id": E + "p", "@container": maker.one(
        "@graph", ["@graph", "@set"], ["@graph"], ["@graph", "@index"])},
        "r": {"@reverse": E + "r"}},
        "p": maker.one(maker.node(2), [maker.node(2), "x"], None, [], "x",
                       {"@graph": [maker.node(1)]}, {"@set": [{}]},
                       {"@graph": [], "@id": E + "g"}, {"@list": ["x"]})}


def list_containers(maker):
    return {"@context": {"p": {"@id": E + "p", "@container": maker.one(
        "@list", ["@list"])}, "id": "@id"},
        "p": maker.one([], None, "x", ["x", ["y", []], [[["z"]]]],
                       {"@list": [["x"], None]}, {"@set": ["x", ["y"]]},
                       [{"@list": ["x"]}, {"@list": []}], maker.value(2),
                       {"@list": "x", "@index": "i"}, [maker.value(2)],
                       {"@value": None}, [[{"@value": None}]])}


def reverse_terms(maker):
    context = {"r": {"@reverse": maker.one(E + "r", "_:r", "e:r")}, "e": E,
               "s": {"@reverse": E + "s", "@container": maker.one(
                   "@set", "@index", None)}, "rev": "@reverse",
               "p": {"@id": E + "p", "@container": "@list"}}
    value = maker.one(maker.node(1), [maker.node(1), maker.node(1)], "x",
                      {"@list": []}, {"@value": "x"}, [], None,
                      {"i": maker.node(1), "j": [{}]}, {"@id": E + "y"},
                      [{"@id": E + "y"}, "x"])
    body = {maker.one("r", "s"): value}
    if maker.likely(0.5):
        body = {maker.one("@reverse", "rev"): body}
        if maker.likely(0.5):
            body[maker.one("@reverse", "rev")] = odd_value(maker, "@reverse")
        if maker.likely(0.5):
            body["@reverse"] = maker.one(
                {maker.one("p", "r", "s", E + "q"): value,
                 maker.one("p", "r", "e:q"): maker.node(1)},
                {"@type": "x"}, [value], 5)
    if maker.likely(0.3):
        body[maker.one("r", "s", "1")] = value
    body["@context"] = context
    return body


def nests(maker):
    context = {"n": "@nest", "z": {"@id": "@nest"}, "v": "@value", "e": E,
               "p": {"@id": E + "p", "@nest": "n"}, "T": {
                   "@id": E + "T", "@context": {"p": E + "tp"}}}
    def nested(depth):
        made = {}
        for key in maker.rng.sample(
                ["@nest", "n", "z", "p", "e:q", "@id", "@type", "@value", "v",
                 "@context", "@index", "@graph"], 1 + maker.times(2)):
            if key in ("@nest", "n", "z"):
                made[key] = nested(depth - 1) if depth else maker.one(
                    None, 5, [], [{}, None], {"p": {"@id": 5}})
            elif key in ("@value", "v"):
                if maker.likely(0.25):
                    made[key] = "x"
            elif key in ("p", "e:q"):
                made[key] = maker.value(1)
            else:
                made[key] = {"@id": maker.iri(), "@type": "T", "@index": "i",
                             "@graph": [], "@context": {"p": E + "no"}}[key]
                if maker.likely(0.2):
                    made[key] = maker.any()
        return maker.one(made, made, [made], [made, {"p": "w"}])
    body = nested(2)
    if type(body) is list:
        body = {"@nest": body}
    body["@context"] = context
    return body


def type_scopes(maker):
    local = lambda: maker.one(
        {"q": maker.full_iri()}, {"q": {"@id": E + "q", "@type": "@id"}}, None,
        {"@propagate": True, "q": E + "tq"}, {"@vocab": E + "tv/"}, [],
        {"@propagate": False, "T": None}, {"type": None, "kind": "@type"},
        {"U": {"@id": E + "U", "@context": {"q": E + "uq"}}},
        [None, {"q": E + "nq"}], {"@base": E + "tb/"}, {"p": None},
        {"@protected": True, "q": E + "pq"}, maker.context(1))
    context = {"q": E + "q", "p": {"@id": E + "p"}, "type": "@type", "id":
               "@id", "T": {"@id": E + "T", "@context": local()},
               "U": {"@id": E + "U", "@context": local()}, "val": "@value",
               "t": {"@id": E + "t", "@type": "@vocab"}}
    if maker.likely(0.4):
        context["p"]["@context"] = local()
    if maker.likely(0.3):
        context["T"]["@protected"] = True
    context["m"] = {"@id": E + "m", "@container": maker.one(
        "@index", "@id", "@type", "@type", ["@graph", "@id"], "@set")}
    if maker.likely(0.2):
        context["m"]["@context"] = local()
    inner = maker.one(
        {"q": "x", "@id": "y"}, {"id": "T"}, {"@id": "T", "q": "T"}, "T",
        {"val": "x"}, {"@value": "x", "@type": E + "T"}, [{"q": "x"}, "y"],
        {"@type": "U", "q": {"q": "deep"}}, {"@set": [{"q": "x"}]},
        {"@list": [{"q": "x"}, "z"]}, {"@context": {}, "id": "x"},
        {"@type": "T", "p": {"q": "a"}}, {"@included": [{"q": "x"}]},
        {"@graph": [{"q": "x"}, {"@id": "x", "p": {"q": "y"}}]},
        {"@type": ["@json"], "@value": {"q": 1}}, {})
    body = {"@context": context, maker.one("@type", "type"): maker.one(
        "T", ["T", "U"], ["U", "T"], ["T", "T"], [], ["T", 5], [5, "U"], None,
        "U", ["@json"]), "q": maker.one("x", "T", inner), "p": inner, "t": "T"}
    if maker.likely(0.5):
        body["m"] = {maker.one("T", "U", "x", "@none"): maker.one(
            inner, [inner, {"q": "x"}]), "U": {"q": "x", "m": {"T": inner}}}
    if maker.likely(0.2):
        body[maker.one("type", "kind", "@type")] = maker.one("U", "T", "@json")
    if maker.likely(0.15):
        body["@value"] = {"x": 1}
    return body


def property_scopes(maker):
    local = maker.one(
        {"q": E + "sq"}, None, {"@language": "de"}, {"@type": {"@protected":
                                                               True}},
        {"@vocab": E + "sv/"}, {"p": {"@id": E + "p2", "@type": "@id"}},
        {"@propagate": False, "q": E + "sq"}, [], [{"q": None}],
        {"p": {"@id": E + "p", "@context": {"q": E + "sq2"}}}, "c1",
        {"@protected": True, "q": E + "sq"}, {"@base": E + "sb/"},
        maker.context(1))
    return {"@context": {"@vocab": E, "p": {
        "@id": E + "p", "@context": local, "@protected": maker.likely(0.3)},
        "q": {"@id": E + "q", "@protected": maker.likely(0.4)},
        "l": {"@id": E + "l", "@container": "@list", "@context": local}},
        maker.one("p", "p", "l"): maker.one(
            "x", 5, {"q": "x", "p": "y"}, ["x", {"q": {"q": "z"}}],
            {"@value": "x"}, {"@list": ["x", {"q": "y"}]}, {"@set": "x"},
            {"@context": {"q": E + "own"}, "q": "x"}, {"@id": "x"},
            {"@context": None, "q": "x"}, [["x"], [{"q": ["y"]}]])}


def protected_terms(maker):
    def value():
        return maker.one(E + "p", {"@id": E + "p"}, {"@id": E + "p", "@type":
                         maker.one("@id", "@vocab")}, None, E + "other",
                         {"@id": E + "p", "@protected": maker.one(True, False)},
                         {"@id": E + "p", "@language": maker.one(None, "en")},
                         {"@id": E + "p", "@container": "@set"}, "@foo",
                         {"@reverse": E + "p"}, {"@id": E + "p", "@context":
                         maker.one({}, None, {"q": E + "q"}, "http://e/c1")},
                         {"@id": E + "p", "@prefix": True}, {"@id": "@foo"},
                         E, {"@id": E}, {"@id": E, "@prefix": True},
                         {"@id": E + "p", "@nest": "@nest"},
                         {"@id": E + "p", "@direction": "ltr"},
                         {"@id": E + "p", "@container": "@index", "@index":
                          E + "i"})
    first = {"@protected": maker.one(True, True, False, 5), "p": value()}
    if maker.likely(0.3):
        first["type"] = {"@id": "@type", "@protected": True}
    if maker.likely(0.2):
        first["@type"] = {"@protected": True}
    second = {"p": value() if maker.likely(0.6) else first["p"]}
    if type(first["p"]) is dict and maker.likely(0.3):
        # One entry more, or one less, or the same in other words.
        second["p"] = dict(first["p"])
        if len(second["p"]) > 1 and maker.likely(0.5):
            second["p"].popitem()
        else:
            second["p"].update(maker.one(
                {"@nest": "@nest"}, {"@prefix": True}, {"@prefix": False},
                {"@language": "en"}, {"@direction": None}, {"@type": "@id"},
                {"@container": "@set"}, {"@context": {}}))
    if maker.likely(0.3):
        second["@protected"] = maker.one(True, False)
    if maker.likely(0.2):
        second["@type"] = {"@container": "@set"}
    if maker.likely(0.2):
        second = None
    scoped = {"s": {"@id": E + "s", "@context": second}}
    third = {"p": value()}
    body = maker.one(
        {"@context": [first, {"p": first["p"]}, third], "p": "x"},
        {"@context": [first, {"p": first["p"]}, None], "p": "x"},
        {"@context": [first, None, third], "p": "x"},
        {"@context": [first, None], E + "q": {"@context": second, "p": "x"}},
        {"@context": [first, scoped], "s": {"@context": third, "p": "x"}},
        {"@context": [first, second], "p": "x"},
        {"@context": first, E + "q": {"@context": second, "p": "x"}},
        {"@context": [first, scoped], "s": {"p": "x"}, "p": "y"},
        {"@context": [first, scoped], "s": "x"},
        {"@context": [first, scoped], "@type": "s", "p": "x"},
        {"@context": [first, {"@propagate": False, "p": E + "p"}]},
        {"@context": [first, [None]]}, {"@context": [[first], second]})
    return body


def protected_twins(maker):
    """A protected term, and one more definition that differs in one entry."""
    one = {"@id": maker.one(E, E + "p"), "@type": maker.one("@id", "@vocab"),
           "@container": maker.one("@index", "@set"), "@context": maker.one(
               {"q": E + "q"}, None, []), "@nest": "@nest", "@prefix":
           maker.one(True, False), "@language": "en", "@direction": "ltr"}
    for key in list(one)[1:]:
        if maker.likely(0.5):
            del one[key]
    if one.get("@container") == "@index":
        one["@index"] = E + "i"
    other = dict(one)
    key = maker.of(["@type", "@context", "@nest", "@prefix", "@language",
                    "@direction", "@protected", "@index", "@container"])
    if key in other and maker.likely(0.6):
        del other[key]
    else:
        other[key] = {
            "@type": "@none", "@context": maker.one({"q": E + "q2"}, True, {}),
            "@nest": "n", "@prefix": maker.one(True, False), "@language":
            maker.one(None, "de"), "@direction": maker.one(None, "rtl"),
            "@protected": maker.one(True, False), "@index": E + "j",
            "@container": ["@set"]}[key]
    if maker.likely(0.2):
        other = dict(reversed(other.items()))
    contexts = [{"@protected": True, "p": one}, {"p": other}]
    return maker.one({"@context": contexts, "p": "x"},
                     {"@context": contexts[0], E + "r": {
                         "@context": contexts[1], "p": {"q": "x"}}})


def term_definitions(maker):
    """One term with odd entries."""
    term = maker.of(ODD_TERMS) if maker.likely(0.35) else maker.of(TERMS)
    definition = {}
    odd = {
        "@id": lambda: maker.one(maker.iri(), maker.of(ODD_TERMS), None, 5,
                                 term, "@context", "@type", "@foo", "b", E + "#",
                                 maker.of(ODD_TERMS)),
        "@type": lambda: maker.one("@id", "@vocab", "@json", "@none", "b", 5,
                                   maker.iri(), "@foo", "_:t", "@set", None,
                                   "b:x", E + "T"),
        "@reverse": lambda: maker.one(maker.iri(), 5, "@type", "@foo", "b",
                                      "b:x", E + "r", E + "r", None, "x"),
        "@container": lambda: fresh(maker.of(
            CONTAINERS if maker.likely(0.75) else ODD_CONTAINERS)),
        "@index": lambda: maker.one("b", E + "i", 5, "@type", "_:i", "b:x",
                                    None),
        "@context": lambda: maker.one({}, None, 5, maker.context(1), [[]],
                                      {"@context": 5}, {term: E + "x"}),
        "@language": lambda: maker.one("en", None, 5, []),
        "@direction": lambda: maker.one("ltr", None, 5, "up"),
        "@nest": lambda: maker.one("@nest", "n", "@id", "@foo", 5, None),
        "@prefix": lambda: maker.one(True, True, True, False, 5, None),
        "@protected": lambda: maker.one(True, False, 5, None),
        "@set": lambda: True, "x": lambda: 1}
    for key in maker.rng.sample(list(odd), 1 + maker.times(3)):
        definition[key] = odd[key]()
    if "@id" not in definition and "@reverse" not in definition and \
            maker.likely(0.7):
        definition["@id"] = E + "p"
    if "@index" in definition and maker.likely(0.7):
        definition["@container"] = maker.one("@index", ["@graph", "@index"])
    value = definition if maker.likely(0.8) else maker.one(
        None, 5, [], True, maker.iri(), maker.of(ODD_TERMS), term)
    context = {term: value}
    if maker.likely(0.5):
        context["b"] = maker.one(E, E + "b", "@type", None, "@foo", "c:d",
                                 {"@id": E + "b", "@prefix": maker.likely(0.5)})
    if maker.likely(0.5):
        context["@vocab"] = maker.of(VOCABS)
    if maker.likely(0.3):
        context["e"] = E
    if maker.likely(0.3):
        context = dict(reversed(context.items()))
    return {"@context": context, term: maker.shaped(value, 1), "b:x": "y",
            maker.name(): maker.name()}


def prefixes(maker):
    """Terms that rest on one another, in rings and in chains."""
    names = maker.rng.sample(["a", "b", "c", "A", "_", "", "x", "@x",
                              "@base", "type", "a:b", "b:c", "c/d"], 4)
    context = {}
    for name in names:
        text = "%s%s%s" % (maker.of(names), maker.one(":", ":", "", "://", "/"),
                           maker.one("x", "", "#", "/", ":y"))
        if maker.likely(0.4):
            text = maker.one(E, E + "#", "_:b", "@type", "urn:u", "rel", None)
        context[name] = text if maker.likely(0.6) else maker.one(
            {"@id": text}, {"@id": text, "@prefix": maker.one(True, False)},
            {"@type": text}, {"@reverse": text} if text else {}, {}, None)
    if maker.likely(0.5):
        context["@vocab"] = maker.one(E, "a:", "b:x", "")
    name = maker.of(names)
    return {"@context": maker.one(context, [context, {"d": "a:x"}]),
            name: "x", name + ":y": {"@id": name + ":" + maker.of(names)},
            "@type": maker.of(names) + ":T", "d": 1}


def iri_texts(maker):
    context = {"e": E, "p": {"@id": E + "p", "@type": "@id"}, "x": None,
               "v": {"@id": E + "v", "@type": "@vocab"}, "a": "@type",
               "f": {"@id": E + "f", "@prefix": maker.likely(0.5)}, "g": E}
    if maker.likely(0.5):
        context["@vocab"] = maker.of(VOCABS)
    if maker.likely(0.5):
        context["@base"] = maker.one(None, *BASES)
    texts = RELATIVE + COMPACT + NO_WORDS + WORDS + [
        "f:x", "g:x", "x:y", "a:x", "p", "x", "a", "v", "1a:../x", "e:../x",
        "a+b:c", "http://e/a/../b", "http:x", "e:", "::", ":", "g://x",
        "?a/../b", "#a/../b", "a/./b/..", "../../../z", "//h", "b/..//c",
        "x:y:z", "\u00e9:x", "./g:h", "a?b?c#d#e"]
    return {"@context": context, "@id": maker.of(texts), "@type": [
        maker.of(texts)], "p": [maker.of(texts), maker.of(texts)],
        "v": maker.of(texts), maker.of(texts): "x",
        maker.of(texts): {"@id": maker.of(texts)}}


def base_and_vocab(maker):
    contexts = []
    for _ in range(1 + maker.times(3)):
        context = {}
        if maker.likely(0.5):
            context["@base"] = maker.one(None, "", "x/y", "../z", "?q", "#f",
                                         5, "//h", *BASES)
        if maker.likely(0.5):
            context["@vocab"] = maker.one(None, 5, *(VOCABS + ODD_VOCABS))
        if maker.likely(0.2):
            context["@language"] = maker.one(None, "en", 5)
        if maker.likely(0.2):
            context["@direction"] = maker.one(None, "rtl", "up", 5)
        if maker.likely(0.1):
            context["@propagate"] = maker.one(True, False, 5, None)
        if maker.likely(0.1):
            context["@version"] = maker.one(MARK, MARK, 1, "1.1", None)
        if maker.likely(0.2):
            context["a"] = maker.one(E + "a", "@type", None, "b")
        contexts.append(context if maker.likely(0.85) else maker.one(
            None, None, None, None, [], 5))
    inner = {"@id": maker.iri(), "t": "y", "a": maker.iri()}
    if maker.likely(0.6):
        inner["@context"] = maker.one(
            None, None, [None, {"@vocab": E + "w/"}], {"@base": "x/"},
            {"@base": None}, {"@vocab": "w/"}, {"@language": None})
    return {"@context": contexts, "@id": maker.iri(), "t": maker.text(),
            "a": "x", "@type": maker.name(), E + "p": inner}


def imports_and_remotes(maker, folder):
    """Contexts in files that name, import and hold one another."""
    many = 1 + maker.times(2)
    maker.remote = REMOTE[:many]
    index = ""
    for number, iri in enumerate(maker.remote, 1):
        index += "%s c%d.json\n" % (iri, number)
        other = maker.of(maker.remote)
        definition = maker.definition(1)
        definition.update(maker.one(
            {}, {}, {"@import": other}, {"@propagate": maker.one(False, 5)},
            {"@version": maker.one(1, MARK)}, {"@base": maker.of(BASES)},
            {"s": {"@id": E + "s", "@context": other}},
            {"s": {"@id": E + "s", "@context": {"@import": other}}},
            {"s": {"@id": E + "s", "@context": [other, {"q": E + "q"}]}},
            {"@base": 5}, {"@protected": True}, {"p": E + "p%d" % number}))
        folder["c%d.json" % number] = maker.one(
            *[{"@context": definition}] * 5, {"@context": other},
            {"@context": [other, definition]}, {"@context": None}, {}, 5, [],
            {"@context": [definition]}, {"@context": 5}, "{", "[1.5]", "[1.1]")
    folder["index.txt"] = index
    one = maker.of(maker.remote)
    if maker.likely(0.1):
        folder["c1.json"] = {"@context": {"p": E + "p", **maker.one(
            {"@version": 1}, {"@propagate": False}, {"@propagate": 5},
            {"@protected": True}, {"@base": "b/"})}}
        return {"@context": {"@import": maker.remote[0]}, "p": {"p": "x"},
                E + "q": {"@context": maker.one({"p": E + "x"}, {}, {
                    "@import": maker.remote[0], "@propagate": False}),
                    "p": {"p": "y"}}}
    used = maker.one(
        one, one, [one, one], "x/../c1", one.replace("/c", "/x/../c"),
        "./c1", {"@import": "x/../c2"}, {"@import": one}, {"@import": one, "p": E + "x"},
        {"@import": maker.one("c1", "none", 5, "http://e/none", "")}, "none",
        "http://e/none", ["c2", {"p": E + "own"}], {"@import": one, "@base":
                                                    "b/"}, "c1",
        {"s": {"@id": E + "s", "@context": one}}, "../c1", "#", "",
        {"@import": one, "@propagate": False},
        {"@import": one, "@protected": True})
    return {"@context": used, "p": "x", "s": {"q": "y", "p": "z"}, "@id": "r",
            E + "q": {"@context": maker.one(one, None, {}), "p": 1}}


def files_apart(maker, folder):
    """Files in different places, and texts that are resolved against them."""
    folder["index.txt"] = "".join("%s %s\n" % pair for pair in (
        ("http://e/c1", "c1"), ("http://f/d/c2", "c2"), ("http://f/c1", "c3"),
        ("http://f/d/c1", "c4")))
    text = lambda: maker.one("c1", "../c1", "./c1", "/c1", "//e/c1", "c2",
                             "http://e/c1", "//f/d/../c1", "d/c2", "")
    same = {"@id": E + "s", "@context": maker.one(text(), {}, {"q": E + "q"}, {
        "@import": text()})}
    marks = maker.likely(0.5)
    for number, name in enumerate(("c1", "c2", "c3", "c4")):
        folder[name] = {"@context": {
            "q": "%s%s" % (E, name), **maker.one(
                {"s": same, **({"@protected": True} if marks else {})},
                {"s": same}, {"@import": text()}, {}, {})}}
        if number == 1 and maker.likely(0.4):
            folder[name] = {"@context": [text(), {"r": E + "r"}]}
    used = maker.one(["http://e/c1", "http://f/d/c2"], "http://f/d/c2",
                     ["http://f/c1", "http://f/d/c1"], {"@import": text()},
                     ["http://e/c1", {"s": same}], text(), [{"s": same,
                      "@protected": True}, "http://f/d/c2"])
    return {"@context": used, "q": "x", "s": maker.one("y", {"q": "y"}),
            E + "p": {"@context": text(), "q": "z"}}


def long_chains(maker, folder):
    """Chains of remote contexts, of scoped contexts and of terms."""
    kind = maker.times(5)
    if kind == 5:
        # Files whose scoped contexts import the next file.
        many = maker.one(3, 127, 128, 129, 130, 131, 132)
        index = ""
        for number in range(1, many + 1):
            index += "http://e/c%d c%d\n" % (number, number)
            folder["c%d" % number] = {"@context": {"s": maker.one(
                {"@id": E + "s", "@context": {"@import": "c%d" % (number + 1)}}
                if number < many else E + "s")}}
        folder["index.txt"] = index
        return {"@context": maker.one(
            "http://e/c1", "http://e/c2", {"@import": "http://e/c1"},
            {"@import": "http://e/c3"}), "s": {"s": {"s": "x"}}}
    if kind <= 1:
        many = maker.one(31, 32, 33, 34, 3)
        index = ""
        for number in range(1, many + 1):
            index += "http://e/c%d c%d\n" % (number, number)
            following = "http://e/c%d" % (number + 1)
            if number == many:
                inner = maker.one({}, "http://e/c1", {"p": E + "p"})
            elif kind:
                inner = [{"p%d" % (number % 3): E + "p"}, following]
            else:
                inner = following
            folder["c%d" % number] = {"@context": inner}
        folder["index.txt"] = index
        return {"@context": maker.one("http://e/c1", "http://e/c2", {
            "s": {"@id": E + "s", "@context": "http://e/c1"}}), "p": "x",
            "p1": 1, "s": "y"}
    if kind == 2:
        many = maker.one(20, 60, 100, 150, 400)
        context = {"t%03d" % number: "t%03d:x" % (
            number + maker.one(1, 1, 1, 2)) for number in range(many)}
        context["t%03d" % many] = maker.one(E, "t000:x", None)
        context["t%03d" % (many + 1)] = E
        return {"@context": context, "t000": "x", "t001:y": "z"}
    if kind == 3:
        local = {"q": E + "q"}
        for _ in range(maker.one(5, 20, 25)):
            local = {"q": {"@id": E + "q", "@context": local}}
        return {"@context": local, "q": {"q": {"q": {"q": "x"}}}}
    # A file that a scoped context in it imports.
    folder["index.txt"] = "http://e/c1 c1\nhttp://e/c2 c2\n"
    folder["c1"] = {"@context": {"s": {"@id": E + "s", "@context": {
        "@import": maker.one("http://e/c1", "http://e/c2", "c2")}}}}
    folder["c2"] = {"@context": maker.one(
        {"p": E + "p"}, {"s": {"@id": E + "s", "@context": {
            "@import": "http://e/c1"}}})}
    return {"@context": maker.one("http://e/c1", {"@import": "c1"}, "c1"),
            "s": {"s": "x", "p": "y"}, "p": 1}


def node_maps(maker):
    """Nodes that meet: for flattening."""
    maker.flattens = 0.7
    ids = ["_:x", "_:y", "_:b0", E + "a", E + "b"]
    def node(depth):
        made = {}
        if maker.likely(0.8):
            made["@id"] = maker.of(ids)
        if maker.likely(0.3):
            made["@type"] = [maker.of(ids) for _ in range(1 + maker.times(1))]
        if maker.likely(0.15):
            made["@index"] = maker.one("1", "1", "2")
        if depth <= 0:
            return made
        for _ in range(maker.times(3)):
            inner = lambda: maker.one(
                node(depth - 1), node(depth - 1), maker.one("v", "w", 1, True,
                                                            MARK, 0, False)
                if maker.likely(0.9) else None, {"@value": "v"},
                {"@value": 1, "@index": "i"}, {"@list": [
                    "x", node(depth - 1), {"@list": [node(0)]}]},
                {"@list": []})
            made[maker.one(E + "p", E + "q", "_:p", E + "r")] = [
                inner() for _ in range(maker.times(2))]
        if maker.likely(0.2):
            made["@graph"] = [node(depth - 1) for _ in range(maker.times(2))]
        if maker.likely(0.15):
            made["@included"] = [node(depth - 1)]
        if maker.likely(0.2):
            made["@reverse"] = {maker.one(E + "p", "_:p", E + "r"): [
                node(depth - 1) for _ in range(maker.times(2))]}
        return made
    tree = [node(3) for _ in range(1 + maker.times(3))]
    text = json.dumps(tree).replace("1.1", "2")
    return {"@graph": json.loads(text)}


def compact_terms(maker):
    """Prefixes that may or may not be ones, and terms that rest on them."""
    prefix = maker.one(
        E, "http://e?", "http://e#", "x:[", "x:]", "x:@", "x:!", "_:p",
        "http://e/b", {"@id": E}, {"@id": E, "@prefix": True}, "@type", None,
        {"@id": E, "@prefix": False}, {"@id": "http://e/b", "@prefix": True},
        {"@id": None, "@prefix": True}, {"@id": "_:p"}, {"@reverse": E})
    name = maker.one("b", "b", "b", "a", ":a")
    context = {name: prefix}
    for term in (name + ":x", maker.one("a/b", ":a:b", name + "://x", "c:d")):
        if maker.likely(0.7):
            context[term] = maker.one(
                {}, {}, {"@type": "@id"}, None, term, {"@id": term}, E + "x",
                {"@id": E + "x"}, {"@id": "http://e/bx"}, {"@container": "@set"},
                {"@reverse": term}, {"@id": name + ":x"}, "_:px",
                {"@prefix": False} if maker.likely(0.2) else {})
    if maker.likely(0.4):
        context["@vocab"] = maker.one(E, E + "#", "_:v")
    if maker.likely(0.5):
        context = dict(reversed(context.items()))
    texts = [name + ":x", name + ":y", name + "://x", "a/b", ":a:b", "://x",
             ":x", ":a://b", name, "c:d", "_:x", name + ":"]
    return {"@context": context, maker.of(texts): maker.of(texts),
            maker.of(texts): {"@id": maker.of(texts), "@type":
                              maker.of(texts)}, "@id": maker.of(texts)}


def type_aliases(maker):
    """Types whose contexts change which keys mean `@type`."""
    context = {
        "type": "@type", "q": E + "q",
        "T": {"@id": E + "T", "@context": maker.one(
            {"type": None}, {"kind": "@type"}, {"type": E + "type"},
            {"j": "@json"}, {"j": None}, {"j": E + "j"},
            {"kind": "@type", "V": {"@id": E + "V2", "@context": {
                "q": E + "vq2"}}}, [None, {"@protected": True, "q": E + "tq"}],
            {"@protected": True, "type": "@type"}, {"V": E + "V3"})},
        "V": {"@id": E + "V", "@context": {"q": E + "vq"}},
        "W": {"@id": E + "W", "@context": {"q": {"@id": E + "wq", "@type":
                                                 "@id"}}}}
    if maker.likely(0.4):
        context["kind"] = "@type"
    body = {"@context": context, "@type": maker.one(
        "T", ["T"], ["T", "T"], ["V", "T"], ["W", "T", "V"], ["W", "V"], [],
        ["T", "j"], ["T", "j"])}
    if maker.likely(0.5):
        context["j"] = maker.one("@json", E + "j", None)
    for key in ("type", "kind"):
        if maker.likely(0.6):
            body[key] = maker.one("V", "W", ["V", "W"], ["W", "V"], "T",
                                  "@json", ["x", "@json"])
    body["q"] = maker.one("x", {"q": "y"}, {"@type": "V", "q": "z"})
    if maker.likely(0.25):
        body["@value"] = maker.one("x", {"q": "y"}, [])
    return body


def input_types(maker):
    """Value objects whose value may be any JSON, or may not."""
    types = lambda: maker.one(
        "@json", ["@json"], ["@json", E + "T"], [E + "T", "@json"], [],
        ["@json", 5], "j", ["j"], E + "T", [5, "@json"], [E + "T", "j"], None)
    body = {"@value": maker.any() if maker.likely(0.5) else maker.one(
        {}, [], {"a": [1, None]}, "x", None, 5)}
    for key in maker.rng.sample(["@type", "A", "kind"], 1 + maker.times(1)):
        body[key] = types()
    if maker.likely(0.2):
        body["@index"] = "i"
    if maker.likely(0.15):
        body[maker.one("@language", "@direction")] = "ltr"
    body["@context"] = {"A": "@type", "kind": "@type", "j": "@json"}
    return {E + "p": body}


def previous_contexts(maker):
    """What goes back to the earlier context, and what doesn't."""
    def names(mark):
        made = {"q": E + mark + "q", "e": E + mark + "/"}
        for key, values in (
                ("val", ["@value", "@id", None]), ("id", ["@id", None]),
                ("@vocab", [E + mark + "v/", None]), ("none", ["@none", None]),
                ("@base", [E + mark + "b/", None]), ("U", [E + mark + "U", {
                    "@id": E + mark + "U", "@context": {
                        "q": E + mark + "uq"}}]),
                ("m", [{"@id": E + mark + "m", "@container": maker.one(
                    "@id", "@type", "@index", ["@graph", "@id"])}]),
                ("l", [{"@id": E + mark + "l", "@container": "@list"}]),
                ("type", ["@type"])):
            if maker.likely(0.55):
                made[key] = maker.of(values)
        return made
    scoped = names("s")
    if maker.likely(0.15):
        scoped["@propagate"] = maker.likely(0.5)
    first = names("o")
    kind = maker.times(3)
    inner = lambda: maker.one(
        {"val": "x"}, {"val": "x", "@type": "U"}, {"id": "e:x"},
        {"@value": "x", "@type": "e:T"}, {"@id": "e:x"}, {"@id": "y"},
        {"@id": "y", "q": "z"}, {"@id": "e:x", "@type": "U"}, {"q": {"q": "x"}},
        {"val": "e:x"}, "x", ["x", {"q": "y"}], {"@value": "x"},
        {"m": {"U": {"q": "a"}, "none": {"q": "b"}, "e:k": "c"}},
        {"l": [{"q": "x"}, ["y"]]}, {"@set": {"q": "y"}},
        {"@list": [{"@id": "y"}, {"q": "y"}]}, {"@type": "U", "q": "y"},
        {"@context": {}, "q": "x"}, {"@context": {}, "@id": "y"})
    used = {"q": inner(), "e:p": inner()}
    for key in ("m", "l", "U"):
        if maker.likely(0.5):
            used[key] = maker.one(inner(), {
                maker.one("U", "none", "e:k", "@none", "x"): inner(),
                maker.one("U", "val", "y"): [inner(), inner()]})
    if kind == 0:
        return {"@context": first, E + "n": {"@context": {
            "@propagate": False, **scoped}, **used}}
    first["n"] = {"@id": E + "n", "@context": {"@propagate": False, **scoped}}
    first["T"] = {"@id": E + "T", "@context": scoped}
    if kind == 1:
        return {"@context": first, "n": {**used, "@type": maker.one(
            "U", ["U", "T"])} if maker.likely(0.5) else used}
    return {"@context": first, "@type": maker.one("T", ["T", "U"]), **used}


def index_keys(maker):
    """Index maps whose indexes go into a property."""
    context = {
        "i": maker.one(E + "i", {"@id": E + "i", "@type": maker.one(
            "@id", "@vocab", "@json", E + "D", "@none")},
            {"@id": E + "i", "@language": "de"}, "@type" if maker.likely(0.3)
            else E + "i", {"@id": E + "i", "@container": "@list"}),
        "j": E + "j", "e": E}
    context["m"] = {"@id": E + "m", "@container": maker.one(
        "@index", ["@index", "@set"], ["@graph", "@index"]),
        "@index": maker.one("i", "i", "i", "e:i", E + "j", "j")}
    if maker.likely(0.3):
        context["@language"] = "en"
    if maker.likely(0.3):
        context["m"]["@type"] = maker.one("@id", "@vocab")
    if maker.likely(0.2):
        context["@vocab"] = E + "v/"
    contexts = [context]
    if maker.likely(0.4):
        contexts.append({"i": maker.one(
            "@type", "@id", "@value", "@value", "@index", None, "@type",
            "@id", "@graph", {"@id": None},
            "@set", "@language", "@list", "@included", "@reverse", "@nest",
            {"@id": E + "i", "@type": "@vocab"}), "j": maker.one(None, E + "k")})
    item = lambda: maker.one(
        "x", {"@id": E + "x"}, {"@id": E + "x", "j": "y", "e:i": "z"},
        {"@index": "own"}, {"@value": "v"}, {"@type": E + "T", "@id": "y"},
        {"@value": "v", "@type": E + "T"}, {"@list": ["x"]}, {"e:i": ["a", "b"]},
        {"@graph": {"j": "x"}}, {"@value": "v", "@index": "own"}, None, 5,
        ["x", {"j": "x"}])
    return {"@context": contexts, "m": {maker.one(
        "a", "@none", "e:a", "@foo", "", "@type"): item(),
        maker.one("b", "none", "_:b"): item()}}


def plain_lists(maker):
    """Documents that expand to plain lists, or nearly."""
    maker.flattens = 0.8
    def node():
        made = {"@id": maker.one(E + "a", E + "b", "urn:u", "x:y")}
        for _ in range(maker.times(3)):
            made[maker.one(E + "p", E + "q", "urn:p")] = [maker.one(
                {"@value": maker.text()}, {"@id": maker.of(IRIS)}, "v")
                for _ in range(maker.times(3))]
        if maker.likely(0.04):
            made[maker.one("@type", "_:p", "@index", E + "p")] = maker.one(
                "x", ["x"], {"@id": "_:b"}, 5)
        return made
    return {"@graph": [node() for _ in range(maker.times(5))]}


SENTENCES = [
    value_objects, value_objects, sets_and_lists, keyword_entries,
    keyword_entries, collisions, dropped_keys, value_expansions, language_maps,
    index_maps, index_maps, index_maps, graph_containers, list_containers,
    reverse_terms, reverse_terms, nests, nests, type_scopes, type_scopes,
    property_scopes, protected_terms, term_definitions, term_definitions,
    term_definitions, prefixes, iri_texts, base_and_vocab, node_maps,
    one_error, one_error, one_error, one_error, two_errors_in_one_map,
    compact_terms, compact_terms, compact_terms, type_aliases, input_types,
    previous_contexts, previous_contexts, previous_contexts, index_keys,
    index_keys, protected_terms, protected_twins, protected_twins,
    base_and_vocab, language_maps]
WITH_FOLDER = [imports_and_remotes, imports_and_remotes, long_chains,
               files_apart]


def sentence(maker, folder):
    if maker.likely(0.12):
        return maker.of(WITH_FOLDER)(maker, folder)
    return maker.of(SENTENCES)(maker)


def sentence_case(rng):
    """One or two bodies, in some place of a document."""
    maker = Maker(rng, (0.0, 0.02, 0.1)[int(rng.random() * 3)])
    folder = {}
    if maker.likely(0.3):
        # Aliases that the outermost context defines.
        for alias in rng.sample(sorted(ALIASES), 6):
            maker.aliases.setdefault(ALIASES[alias], []).append(alias)
    share = maker.random()
    if share < 0.05:
        tree = plain_lists(maker)
    elif share < 0.45:
        tree = sentence(maker, folder)
    elif share < 0.65:
        # Two errors, in one order of keys or the other.
        keys = rng.sample([E + "a", E + "b", E + "c/~d", "urn:a", "x:Z",
                           E + "\u00e9", E + "\uff01", E + "\U00010000"], 2)
        tree = {keys[0]: sentence(maker, folder),
                keys[1]: sentence(maker, folder)}
        if maker.likely(0.4):
            tree.update(keyword_entries(maker))
    else:
        tree = placed(maker, sentence(maker, folder))
        if maker.likely(0.3):
            tree = placed(maker, tree)
    if maker.aliases and maker.likely(0.85) and type(tree) is dict:
        outer = {alias: word for word, aliases in maker.aliases.items()
                 for alias in aliases}
        inner = tree.get("@context", outer)
        tree["@context"] = outer if inner is outer else (
            [outer] + (inner if type(inner) is list else [inner]))
    return (maker, tree, folder or None)


def placed(maker, body):
    """A document with the body in some place."""
    p = maker.one(E + "p", E + "q/r~", "urn:p")
    return maker.one(
        lambda: [body], lambda: [maker.value(1), body, {"@id": 5}],
        lambda: {p: body}, lambda: {p: [body, "x"]},
        lambda: {"@graph": [body]}, lambda: {"@graph": body, "@id": E + "g"},
        lambda: {"@included": [body]}, lambda: {"@nest": body},
        lambda: {"@nest": [{}, {p: body}]}, lambda: {"@reverse": {p: body}},
        lambda: {p: {"@list": [body]}}, lambda: {p: {"@set": [["x", body]]}},
        lambda: {p: {"@set": body}}, lambda: {p: {"@list": body}},
        lambda: {"@context": {"m": {"@id": E + "m", "@container": maker.one(
            "@index", "@id", "@type", ["@graph", "@id"], ["@graph", "@index"],
            "@set", "@list", "@graph")}}, "m": maker.one(
                {"k/~": body}, {"k": ["x", body]}, body, [body])},
        lambda: {"@context": {"m": {"@reverse": E + "m"}}, "m": body},
        lambda: {"@context": {"m": {"@id": E + "m", "@type": "@json"}},
                 "m": body},
        lambda: {"@context": {"T": {"@id": E + "T", "@context": {
            "p": E + "tp"}}}, "@type": "T", E + "p": body})()
