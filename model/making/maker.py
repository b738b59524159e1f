"""Random contexts and documents."""

import json

from .alphabet import (
    ALIASES, BASES, COMPACT, CONTAINERS, IRIS, LANGUAGES, MARK, NUMBERS,
    ODD_CONTAINERS, ODD_TERMS, ODD_VOCABS, RELATIVE, REMOTE, TERMS, TEXTS,
    VOCABS, WORDS, fresh)


class Maker:
    """Makes trees out of a small alphabet, so that names meet.

    `bad` is how likely a value is that the standard refuses.
    """

    def __init__(self, rng, bad):
        self.random = rng.random
        self.rng = rng
        self.bad = bad
        self.left = 60 if self.random() < 0.25 else 24
        self.terms = []         # pairs of a term and its definition
        self.remote = []        # IRIs of remote contexts
        self.aliases = {}       # keywords to aliases
        self.flattens = 0.4     # how likely the command is `flatten`

    # Choices.

    def one(self, *values):
        return values[int(self.random() * len(values))]

    def of(self, values):
        return values[int(self.random() * len(values))]

    def likely(self, share):
        return self.random() < share

    def wrong(self):
        return self.bad and self.random() < self.bad

    def times(self, most):
        return int(self.random() * (most + 1))

    # Names.

    def text(self):
        return self.of(TEXTS)

    def iri(self):
        share = self.random()
        if share < 0.5:
            return self.of(IRIS)
        return self.of(COMPACT if share < 0.8 else RELATIVE)

    def full_iri(self):
        return self.of(IRIS) if self.likely(0.8) else self.one("_:b", "e:a",
                                                               "e:T", "x:y")

    def name(self):
        """Any text that is likely to mean something."""
        share = self.random()
        if share < 0.3:
            return self.of(TERMS)
        if share < 0.45:
            return self.of(ODD_TERMS)
        if share < 0.6 and self.terms:
            return self.of(self.terms)[0]
        if share < 0.85:
            return self.iri()
        return self.of(TEXTS)

    def word(self, keyword):
        """A keyword, or an alias of it where one was made."""
        if keyword in self.aliases and self.likely(0.6):
            return self.of(self.aliases[keyword])
        return keyword

    # Values.

    def scalar(self):
        share = self.random()
        if share < 0.6:
            return self.name() if self.likely(0.4) else self.text()
        if share < 0.8:
            return self.of(NUMBERS)
        return self.one(True, False, None)

    def any(self, depth=2):
        """Any JSON at all."""
        share = self.random()
        if share < 0.6 or depth <= 0:
            return self.scalar()
        if share < 0.8:
            return [self.any(depth - 1) for _ in range(self.times(3))]
        made = {self.name(): self.any(depth - 1) for _ in range(self.times(3))}
        if self.likely(0.05):
            made["@version"] = MARK
        return made

    def value_object(self):
        made = {}
        value = self.scalar()
        if self.likely(0.12):
            made[self.word("@type")] = self.one("@json", "json", ["@json"],
                                                "@json")
            value = self.any()
        elif self.likely(0.3):
            made[self.word("@type")] = self.full_iri()
        elif self.likely(0.5):
            if type(value) is not str and not self.wrong():
                value = self.text()
            if self.likely(0.6):
                made[self.word("@language")] = self.of(LANGUAGES)
            if self.likely(0.4):
                made[self.word("@direction")] = self.one("ltr", "rtl")
        made[self.word("@value")] = value
        if self.likely(0.15):
            made[self.word("@index")] = self.text()
        if self.wrong():
            made[self.of(WORDS)] = self.any()
        if self.wrong():
            made[self.name()] = self.any()
        return made

    def value(self, depth):
        self.left -= 1
        share = self.random()
        if share < 0.35 or self.left <= 0:
            return self.scalar()
        if share < 0.5:
            return self.value_object()
        if share < 0.6:
            return {self.word("@id"): self.iri()}
        if depth <= 0:
            return self.name()
        if share < 0.75:
            return self.node(depth - 1)
        if share < 0.88:
            return [self.value(depth - 1) for _ in range(self.times(3))]
        made = {self.word(self.one("@list", "@set")): self.value(depth - 1)}
        if self.likely(0.2):
            made[self.word("@index")] = self.text()
        if self.wrong():
            made[self.name()] = self.any()
        return made

    def map_of(self, keys, depth, make):
        made = {}
        for _ in range(self.times(3)):
            key = self.of(keys) if self.likely(0.7) else self.name()
            made[key] = make(depth) if self.likely(0.75) else [
                make(depth) for _ in range(self.times(2))]
        return made

    def shaped(self, definition, depth):
        """A value as the term's definition wants it."""
        self.left -= 1
        if type(definition) is not dict or self.likely(0.15):
            return self.value(depth)
        container = definition.get("@container")
        words = container if type(container) is list else [container]
        if definition.get("@type") == "@json":
            return self.any()
        if "@language" in words:
            return self.map_of(LANGUAGES + ["@none", "none"], depth,
                               lambda _: self.scalar() if self.wrong()
                               else self.one(self.text(), self.text(), None))
        if "@index" in words or "@id" in words or "@type" in words:
            return self.map_of(
                TEXTS + IRIS + ["@none", "none", "T", "U", "t", "@foo"], depth,
                self.value if self.likely(0.5) else self.node)
        if "@list" in words:
            return self.one([self.value(depth), [self.value(depth - 1)]],
                            self.value(depth), {"@list": self.value(depth)})
        if "@reverse" in definition or "@graph" in words:
            return self.one(self.node(depth), [self.node(depth)],
                            self.value(depth) if self.wrong() else "a")
        return self.value(depth)

    def node(self, depth):
        self.left -= 1
        made = {}
        if self.likely(0.12):
            made["@context"] = self.context(1)
        if self.likely(0.5):
            made[self.word("@id")] = self.any() if self.wrong() else self.iri()
        if self.likely(0.4):
            made[self.word("@type")] = self.types()
        if depth > 0 and self.left > 0:
            for _ in range(self.one(1, 1, 2, 2, 3, 4)):
                self.entry(made, depth)
        return made

    def types(self):
        if self.wrong():
            return self.any()
        texts = [self.one("T", "U", "t", self.name())
                 for _ in range(1 + self.times(2))]
        return texts[0] if self.likely(0.5) else texts

    def entry(self, made, depth):
        """One entry of a node object."""
        share = self.random()
        if share < 0.6 and self.terms:
            term, definition = self.of(self.terms)
            made[term] = self.shaped(definition, depth - 1)
        elif share < 0.78:
            made[self.full_iri()] = self.value(depth - 1)
        elif share < 0.82:
            made[self.name()] = self.value(depth - 1)
        elif share < 0.86:
            made[self.word("@graph")] = self.value(depth - 1)
        elif share < 0.89:
            made[self.word("@included")] = self.value(depth) if self.wrong() \
                else self.one(self.node(depth - 1), [self.node(depth - 1)])
        elif share < 0.92:
            made[self.word("@reverse")] = self.any() if self.wrong() else {
                self.full_iri(): self.node(depth - 1)}
        elif share < 0.95:
            made[self.word("@nest")] = self.any() if self.wrong() else \
                self.one(self.node(depth - 1), [self.node(depth - 1)])
        elif share < 0.98:
            made[self.word("@index")] = self.any() if self.wrong() \
                else self.text()
        else:
            made[self.of(WORDS)] = self.any()

    # Contexts.

    def context(self, depth):
        share = self.random()
        if self.wrong():
            return self.one(5, True, [5], "no such", "http://e/none", [[]], "")
        if share < 0.04:
            return None
        if share < 0.2 and self.remote:
            iri = self.of(self.remote)
            return self.one(iri, iri, [iri])
        if share < 0.35 and depth > 0:
            made = []
            for _ in range(self.times(3)):
                item = self.context(depth - 1)
                made.extend(item if type(item) is list and not self.wrong()
                            else [item])
            return made
        return self.definition(depth)

    def definition(self, depth):
        """A context definition."""
        made = {}
        if self.likely(0.05):
            made["@version"] = self.any(0) if self.wrong() else MARK
        if self.likely(0.55):
            made["@vocab"] = self.of(ODD_VOCABS) if self.likely(
                0.05 + 2 * self.bad) else self.of(VOCABS)
        if self.likely(0.2):
            made["@base"] = self.any() if self.wrong() else self.one(
                None, self.of(BASES), self.of(BASES), self.iri())
        if self.likely(0.15):
            made["@language"] = self.any() if self.wrong() else self.one(
                None, "en", "de")
        if self.likely(0.12):
            made["@direction"] = self.any() if self.wrong() else self.one(
                None, "ltr", "rtl")
        if self.likely(0.1):
            made["@propagate"] = self.any() if self.wrong() else self.one(
                True, False, False)
        if self.likely(0.08):
            made["@protected"] = self.any() if self.wrong() else True
        if self.remote and self.likely(0.08):
            made["@import"] = self.any() if self.wrong() else self.of(
                self.remote)
        if self.likely(0.7):
            made["e"] = self.one("http://e/", "http://e/", "http://f/#")
        if self.likely(0.2):
            made["f"] = self.one("http://f/", "e:f/", {"@id": "http://f",
                                                      "@prefix": True})
        if self.likely(0.25):
            alias = self.of(list(ALIASES))
            made[alias] = self.one(ALIASES[alias], {"@id": ALIASES[alias]})
            self.aliases.setdefault(ALIASES[alias], []).append(alias)
        if self.likely(0.04):
            made["@type"] = self.one(
                {"@container": "@set"}, {"@protected": self.any(0)},
                {"@container": "@set", "@protected": True}, self.any())
        for _ in range(self.one(1, 2, 3, 4, 6)):
            if self.wrong():
                term = self.of(ODD_TERMS)
                value = self.term_value(term, "@vocab" in made, depth)
            elif self.likely(0.12):
                term, value = self.compact_term("@vocab" in made, depth)
            else:
                term = self.of(TERMS)
                value = self.term_value(term, "@vocab" in made, depth)
            made[term] = value
            self.terms.append((term, value))
        if self.likely(0.3):
            made = dict(self.rng.sample(list(made.items()), len(made)))
        return made

    def mapping(self):
        if self.wrong():
            return self.one(self.any(), self.of(ODD_TERMS))
        return self.one(self.of(IRIS), self.of(IRIS), "e:a", "e:T", "_:b", "x:y",
                        None if self.likely(0.1) else "urn:u")

    def compact_term(self, vocab, depth):
        """A term with a colon or a slash, and a definition that may do."""
        term = self.one("e:a", "e:p", "f:x", "f:T", "x:y", "_:t", "e://x",
                        "http://e/p", "urn:u", *(["a/b", "p/"] if vocab
                                                 else ["e:p/q"]))
        value = self.term_value(term, True, depth)
        if type(value) is str:
            return term, self.one({}, term, {"@id": term})
        if type(value) is dict and "@id" in value and self.likely(0.9):
            del value["@id"]
        return term, value

    def term_value(self, term, vocab, depth):
        share = self.random()
        if share < 0.25:
            return self.mapping()
        if share < 0.27 or self.wrong():
            return self.one(None, self.any())
        made = {}
        if not vocab or self.likely(0.5):
            made["@id"] = self.mapping()
        if self.likely(0.1):
            made["@reverse"] = self.mapping()
            if not self.wrong():
                made.pop("@id", None)
            if self.likely(0.4):
                made["@container"] = self.one("@set", "@index", None)
        elif self.likely(0.5):
            container = fresh(self.of(
                ODD_CONTAINERS if self.wrong() else CONTAINERS))
            made["@container"] = container
            if "@index" in (container if type(container) is list
                            else [container]) and self.likely(0.4):
                made["@index"] = self.name() if self.wrong() else self.one(
                    "http://e/i", "e:i", "http://e/p", "_:i" if self.wrong()
                    else "urn:i")
        if self.likely(0.25):
            made["@type"] = self.any() if self.wrong() else self.one(
                "@id", "@vocab", "@json", "@none", "http://e/T", "e:T")
        if depth > 0 and self.likely(0.18):
            made["@context"] = self.context(depth - 1)
        if self.likely(0.12):
            made["@language"] = self.any() if self.wrong() else self.one(
                None, "en", "de")
        if self.likely(0.1):
            made["@direction"] = self.any() if self.wrong() else self.one(
                None, "ltr", "rtl")
        if self.likely(0.05):
            made["@nest"] = self.any() if self.wrong() else self.one(
                "@nest", "nest", "a")
        if self.likely(0.06):
            made["@prefix"] = self.any() if self.wrong() else self.one(
                True, False)
        if self.likely(0.06):
            made["@protected"] = self.any() if self.wrong() else self.one(
                True, True, False)
        if self.wrong():
            made[self.name()] = self.any()
        return made

    # Whole documents.

    def folder(self, many):
        """A folder of `many` contexts; files may name one another."""
        self.remote = REMOTE[:many]
        made = {"index.txt": ""}
        for number, iri in enumerate(self.remote, 1):
            name = "c%d.json" % number
            made["index.txt"] += "%s %s\n" % (iri, name)
            made[name] = {"@context": self.context(2)}
            if self.wrong():
                made[name] = self.one(
                    {}, [], {"@context": {"@import": iri}}, 5, None,
                    {"@context": None}, {"@context": [self.definition(1)]},
                    {"@context": iri}, {"@context": [{}, self.remote[0]]})
        return made

    def document(self):
        context = self.context(2) if self.likely(0.85) else None
        depth = 2 + self.times(2)
        share = self.random()
        if share < 0.75:
            made = self.node(depth)
        elif share < 0.9:
            made = {"@graph": self.value(depth)}
            if self.likely(0.3):
                made.update(self.node(1))
        else:
            return [self.node(depth) for _ in range(self.times(3))]
        if context is not None or self.likely(0.3):
            made["@context"] = context
        return made


def bytes_of(tree, maker):
    """JSON text of the tree."""
    if maker.likely(0.9):
        text = json.dumps(tree, ensure_ascii=False, separators=(",", ":"))
    else:
        text = json.dumps(tree, ensure_ascii=maker.likely(0.5),
                          indent=maker.one(None, None, 1))
    return text.encode("utf-8")
