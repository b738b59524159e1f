#!/usr/bin/env python3
"""Writes a document with contexts: contexts.py SHAPE COUNT FOLDER. FOLDER is made, with the contexts that the document names.

`SHAPES` says of each shape what it has. Of a pair `each` and `once` both say the same of the same nodes: in one the context comes again
with each record, in the other it is given once at the top.
"""
import json
import os
import sys

TERMS = 3000
NAME = "http://c.example/catalogue"
SHAPES = {
    "catalogue": "COUNT records under one context: ids, types, dates, languages and links by terms and prefixes",
    "named_each": "COUNT records in one array, which each name the same context of %d terms" % TERMS,
    "named_once": "the same, with the context named once at the top",
    "typed_each": "COUNT nodes of a type whose scoped context has %d terms" % TERMS,
    "typed_once": "the same, with those terms in the context at the top",
    "scoped_each": "COUNT nodes under one property whose scoped context has %d terms" % TERMS,
    "scoped_once": "the same, with those terms in the context at the top",
    "scalars_each": "COUNT texts under one property whose scoped context has %d terms" % TERMS,
    "scalars_once": "the same, with those terms in the context at the top",
    "index_map": "one property with COUNT values by index",
    "language_map": "one property with COUNT strings by language",
    "id_map": "one property with COUNT nodes by id",
    "typed_list": "one list of COUNT dates",
    "wide_terms": "one node with COUNT properties, whose terms and IRIs are in different orders",
}
CONTEXT = {
    "@vocab": "http://v.example/",
    "xsd": "http://www.w3.org/2001/XMLSchema#",
    "title": {"@language": "en"},
    "names": {"@container": "@language"},
    "made": {"@type": "xsd:date"},
    "by": {"@type": "@id"},
    "parts": {"@container": "@list"},
}


def terms():
    return {"t%04d" % i: {"@id": "http://v.example/t%04d" % i, "@type": "xsd:integer"} for i in range(TERMS)}


def top(extra):
    return dict({"xsd": CONTEXT["xsd"], "name": "http://v.example/name"}, **extra)


def record(i):
    return {
        "@id": "http://c.example/book/%d" % i, "@type": "Book", "title": "Book %d" % i, "made": "1990-05-%02d" % (i % 28 + 1),
        "by": "http://c.example/person/%d" % (i % 1000), "names": {"de": "Buch %d" % i, "en": "Book %d" % i}, "parts": ["a", "b"],
    }


def node(i):
    return {"@id": "http://c.example/n%d" % i, "name": "n%d" % i, "t%04d" % (i % TERMS): i}


def typed(i):
    return dict(node(i), **{"@type": "Big"})


def document(shape, count):
    """The document, and the files of the folder."""
    numbers = range(count)
    big = {"@id": "http://v.example/Big"}
    under = {"@id": "http://v.example/under"}
    if shape == "catalogue":
        return {"@context": CONTEXT, "@graph": [record(i) for i in numbers]}, {}
    if shape == "named_each":
        return [dict({"@context": NAME}, **node(i)) for i in numbers], {NAME: top(terms())}
    if shape == "named_once":
        return {"@context": NAME, "@graph": [node(i) for i in numbers]}, {NAME: top(terms())}
    if shape == "typed_each":
        return {"@context": top({"Big": dict(big, **{"@context": terms()})}), "@graph": [typed(i) for i in numbers]}, {}
    if shape == "typed_once":
        return {"@context": top(dict(terms(), Big=big)), "@graph": [typed(i) for i in numbers]}, {}
    if shape in ("scoped_each", "scalars_each"):
        values = [node(i) for i in numbers] if shape == "scoped_each" else ["v%d" % i for i in numbers]
        return {"@context": top({"under": dict(under, **{"@context": terms()})}), "@id": "http://c.example/one", "under": values}, {}
    if shape in ("scoped_once", "scalars_once"):
        values = [node(i) for i in numbers] if shape == "scoped_once" else ["v%d" % i for i in numbers]
        return {"@context": top(dict(terms(), under=under)), "@id": "http://c.example/one", "under": values}, {}
    if shape == "index_map":
        context = {"p": {"@id": "http://v.example/p", "@container": "@index"}}
        return {"@context": context, "@id": "http://c.example/one", "p": {"i%d" % i: "v%d" % i for i in numbers}}, {}
    if shape == "language_map":
        context = {"p": {"@id": "http://v.example/p", "@container": "@language"}}
        return {"@context": context, "@id": "http://c.example/one", "p": {"x-l%d" % i: "v%d" % i for i in numbers}}, {}
    if shape == "id_map":
        context = {"p": {"@id": "http://v.example/p", "@container": "@id"}, "name": "http://v.example/name"}
        return {"@context": context, "@id": "http://c.example/one", "p": {"http://c.example/n%d" % i: {"name": "n%d" % i} for i in numbers}}, {}
    if shape == "typed_list":
        context = {"p": {"@id": "http://v.example/p", "@container": "@list", "@type": "http://www.w3.org/2001/XMLSchema#date"}}
        return {"@context": context, "@id": "http://c.example/one", "p": ["1990-05-01"] * count}, {}
    context = {"k%07d" % i: "http://v.example/p%07d" % (i * 7919 % count) for i in numbers}
    return {"@context": context, "@id": "http://c.example/one", **{"k%07d" % i: i for i in numbers}}, {}


def main():
    shape, count, folder = sys.argv[1], int(sys.argv[2]), sys.argv[3]
    written, files = document(shape, count)
    os.makedirs(folder, exist_ok=True)
    with open(os.path.join(folder, "index.txt"), "w") as index:
        for number, (iri, context) in enumerate(files.items()):
            index.write("%s c%d.jsonld\n" % (iri, number))
            with open(os.path.join(folder, "c%d.jsonld" % number), "w") as out:
                json.dump({"@context": context}, out)
    json.dump(written, sys.stdout, separators=(",", ":"))


if __name__ == "__main__":
    main()
