"""For each error code a few ways to it, some of which are none."""

from .alphabet import ODD_CONTAINERS, fresh

ERRORS = {
    "colliding keywords": lambda m: {"@context": {"i": "@id"}, "i": "x:y",
                                     "@id": "x:y"},
    "cyclic IRI mapping": lambda m: {"@context": m.one(
        {"a": "b:x", "b": "a:x"}, {"a": "a:x"}, {"a": {"@type": "b"}, "b": {
            "@id": "a:x"}}, {"a:b": {}, "a": "a:b"}, {"a": {"@reverse": "b"},
                                                     "b": "a"})},
    "invalid @id value": lambda m: {"@id": m.one(5, None, True, [], {}, ["x"])},
    "invalid @import value": lambda m: {"@context": {"@import": m.one(
        5, None, [], {})}},
    "invalid @included value": lambda m: {"@included": m.one(
        None, "x", 5, {"@value": 1}, {"@list": []}, {"@set": None}, {})},
    "invalid @index value": lambda m: {"@index": m.one(5, None, [], ["x"])},
    "invalid @nest value": lambda m: m.one(
        {"@nest": m.one(5, "x", [{}, 5], {"@value": "x"}, [[{}]])},
        {"@context": {"a": {"@id": "x:a", "@nest": m.one(
            "@id", 5, None, "@type", ["@nest"])}}}),
    "invalid @prefix value": lambda m: {"@context": {"a": {
        "@id": "x:a", "@prefix": m.one(5, None, "true", [])}}},
    "invalid @propagate value": lambda m: {"@context": {"@propagate": m.one(
        5, None, "false", [])}},
    "invalid @protected value": lambda m: {"@context": {m.one("a", "@type"): {
        "@protected": m.one(5, None, "true", [])}}},
    "invalid @reverse value": lambda m: {"@reverse": m.one(5, None, [], "x")},
    "invalid @version value": lambda m: {"@context": {"@version": m.one(
        1, "1.1", None, True, [])}},
    "invalid base direction": lambda m: m.one(
        {"@context": {"@direction": m.one("up", 5, True, "LTR")}},
        {"@context": {"a": {"@id": "x:a", "@direction": m.one("", 5)}}},
        {"x:p": {"@value": "x", "@direction": m.one(None, "up")}}),
    "invalid base IRI": lambda m: {"@context": [{"@base": None}, {
        "@base": m.one(5, "x", "", [], True, "//x", "1:x")}]},
    "invalid container mapping": lambda m: {"@context": {"a": {
        "@id": "x:a", "@container": fresh(m.of(ODD_CONTAINERS))}}},
    "invalid context nullification": lambda m: {"@context": {
        "@protected": True, "a": "x:a"}, "x:p": {"@context": m.one(
            None, [None], [{}, None])}},
    "invalid default language": lambda m: {"@context": {"@language": m.one(
        5, True, [], {})}},
    "invalid IRI mapping": lambda m: {"@context": m.one(
        {"a": {}}, {"a": "b"}, {"a": {"@id": 5}}, {"a/b": {}}, {"a": {
            "@reverse": m.one(5, "b", None)}}, {"x:a": "x:b"}, {"a": ""},
        {"@vocab": "x:", "a/b": "x:a/c"}, {"a": {"@id": ["x:y"]}})},
    "invalid keyword alias": lambda m: {"@context": m.one(
        {"a": "@context"}, {"a": {"@id": "@context"}}, {"a": "b", "b":
                                                        "@context"})},
    "invalid language map value": lambda m: {"@context": {"a": {
        "@id": "x:a", "@container": m.one("@language", ["@set", "@language"])}},
        "a": {"en": m.one(5, ["x", None, True], {}, [["x"]], {"@value": "x"})}},
    "invalid language mapping": lambda m: {"@context": {"a": {
        "@id": "x:a", "@language": m.one(5, True, [])}}},
    "invalid language-tagged string": lambda m: {"x:p": {
        "@value": "x", "@language": m.one(None, 5, [], ["en"])}},
    "invalid language-tagged value": lambda m: {"x:p": {
        "@value": m.one(5, True, 0), "@language": "en"}},
    "invalid local context": lambda m: {"@context": m.one(5, True, [[]], [5])},
    "invalid reverse property": lambda m: {"@context": {"a": {
        "@reverse": "x:a", **m.one({"@id": "x:b"}, {"@nest": "@nest"}, {
            "@container": m.one("@list", ["@set"], "@id", [], 5)})}}},
    "invalid reverse property map": lambda m: {"@reverse": {m.one(
        "@id", "@type", "@value", "@nest", "@none"): m.one("x:y", {}, 5)}},
    "invalid reverse property value": lambda m: m.one(
        {"@reverse": {"x:p": m.one("x", {"@list": []}, [{}, 5])}},
        {"@context": {"a": {"@reverse": "x:a"}}, "a": m.one("x", [{}, 5])}),
    "invalid scoped context": lambda m: {"@context": {"a": {
        "@id": "x:a", "@context": m.one(5, {"b": 5}, "x:none", {"@context":
                                                                {}})}}},
    "invalid set or list object": lambda m: {"x:p": {m.one(
        "@list", "@set"): [], m.one("@id", "@type", "x:q"): "x:y"}},
    "invalid term definition": lambda m: {"@context": m.one(
        {"": "x:y"}, {"a": m.one(5, True, [])}, {"a": {"@id": "x:a", "x": 1}},
        {"a": {"@id": "x:a", "@index": "x:i"}}, {"x:a": {"@prefix": True}},
        {"@vocab": "x:", "a/b": {"@prefix": False}},
        {"a": {"@id": "@type", "@prefix": True}},
        {"a": {"@id": "x:a", "@container": "@index", "@index": m.one(
            5, "i", "@type", "_:i", None)}})},
    "invalid type mapping": lambda m: {"@context": {"a": {
        "@id": "x:a", "@type": m.one(5, None, "b", "@set", "_:b", "@foo")}}},
    "invalid type value": lambda m: {"@type": m.one(
        5, None, ["x", 5], {}, [["x"]], True)},
    "invalid typed value": lambda m: {"x:p": {"@value": m.scalar() or "x",
                                              "@type": m.one(
        "_:t", [], ["x:y"], ["@json"], "@id", "@none", "@vocab")}},
    "invalid value object": lambda m: {"x:p": m.one(
        {"@value": "x", "@id": "x:y"}, {"@value": "x", "x:q": "y"},
        {"@value": "x", "@type": "x:y", "@language": "en"},
        {"@value": None, "@type": "x:y", "@direction": "ltr"},
        {"@value": "x", "@set": []}, {"@value": [], "@type": "@json",
                                      "@language": "en"})},
    "invalid value object value": lambda m: {"x:p": {"@value": m.one(
        {}, [], ["x"], {"@value": "x"})}},
    "invalid vocab mapping": lambda m: {"@context": [{"@vocab": None}, {
        "@vocab": m.one(5, True, "@type", "@foo", [], "1:x", "//")}]},
    "keyword redefinition": lambda m: {"@context": {m.one(
        "@id", "@type", "@context", "@graph", "@none"): m.one(
            "x:y", None, {}, {"@container": "@set", "@id": "@type"},
            {"@container": ["@set"]}, {"@container": "@list"})}},
    "keyword redefinition, or a good @type": lambda m: {"@context": {
        "@type": m.one({"@container": ["@set"]}, {"@container": "@set"}, {},
                       {"@protected": True}, {"@protected": False,
                                              "@container": "@list"},
                       {"@container": "@set", "@protected": True}, None,
                       {"@container": None})}, "@type": "x:y"},
    "invalid reverse property, or a good one": lambda m: {"@context": {"a": {
        "@reverse": "x:a", "@container": m.one(
            ["@set"], ["@index"], None, "@set", "@index", [], "@list"),
        "@type": m.one("@id", "x:t")}}, "a": {"i": {"@id": "x:y"}}},
    "invalid @nest value, or a good one": lambda m: {"@context": {"a": {
        "@id": "x:a", "@nest": m.one("@foo", "@nest", "n", "@set", "")}},
        "a": 1},
    "loading remote context failed": lambda m: {"@context": m.one(
        "x:none", "none", {"@import": "x:none"}, [{}, ""])},
    "protected term redefinition": lambda m: {"@context": [{
        "@protected": True, "a": "x:a"}, {"a": m.one(
            None, "x:b", {"@id": "x:a", "@type": "@id"}, {"@id": None}, {
                "@id": "x:a", "@context": {}})}]},
    "conflicting indexes": lambda m: {"x:p": [
        {"@id": "x:a", "@index": "1"}, {"@id": "x:a", "@index": "2"}]},
    "none": lambda m: {"x:p": "v"},
}
ERROR_LIST = sorted(ERRORS)


def one_error(maker):
    return ERRORS[maker.of(ERROR_LIST)](maker)


def two_errors_in_one_map(maker):
    """Both at once, and the context of either."""
    one, other = one_error(maker), one_error(maker)
    context = [body.pop("@context") for body in (one, other)
               if "@context" in body]
    both = {**one, **other}
    both = dict(maker.rng.sample(list(both.items()), len(both)))
    if context:
        both["@context"] = context
    return both
