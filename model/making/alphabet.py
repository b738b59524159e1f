"""The small alphabet of names and values out of which cases are made."""

from jsonld.keywords import KEYWORDS

E = "http://e/"
MARK = 1.1
WORDS = sorted(KEYWORDS)
NO_WORDS = ["@foo", "@embed", "@Default", "@", "@1", "@a-b", "@type:x", "@ID"]
TERMS = ["a", "b", "p", "q", "t", "T", "U", "n", "i", "Z", "1r", "\u00e9"]
ODD_TERMS = ["a/b", "e:a", "e:p", "f:x", "x:", ":z", "a:b:c", ":a:b", "", "_:t",
             "~", "a b", "\U00010000", "\uff01", "http://e/p", "e://x", "/",
             "a\"b", "::", "e:", "x:y/z", "_:"] + NO_WORDS + WORDS
IRIS = ["http://e/a", "http://e/p", "http://e/q", "http://e/T", "http://e/v#",
        "urn:u", "http://f/x/"]
COMPACT = ["e:a", "e:p", "e:T", "f:x", "_:b", "_:c", "x:y", "e://h", "g:h"]
RELATIVE = ["a", "p", "T", "../r", "#f", "?q", "", "/s", "//h/x",
            "://x", "./d/../e", "a/b", "p q", "\u00e9", ":x", "x:", ".", "..",
            "a:b"]
TEXTS = ["v", "w", "en", "de", "ltr", "rtl", "\u00e9", "\u0001", "\U00010000",
         "\uff01", "a\"b\\c", "", "a", "p", "T", "_:b", "http://e/a", "@none",
         "none", "@type", "~/", "\u007f", "x\ny"]
NUMBERS = [0, 1, -1, 7, 10, -12, 100, 9007199254740992, -9007199254740992]
LANGUAGES = ["en", "de", "EN-us", "fr-CA", "", "no language"]
BASES = ["http://e/", "http://e/b/c?d#f", "http://e/b/c/d", "urn:x", "http://e",
         "a:b/c", "http://e/a/../b/"]
VOCABS = ["http://e/v#", "http://e/", "_:v", "urn:v:"]
ODD_VOCABS = ["", "#x", "rel", "e:", "e:v/", "f:x", "../up", "@type", "@foo",
              "a", "p", "/s", "x:", ":x", "//h/", "1:x"]
ALIASES = {"id": "@id", "type": "@type", "value": "@value", "nest": "@nest",
           "set": "@set", "list": "@list", "graph": "@graph", "kind": "@type",
           "lang": "@language", "index": "@index", "rev": "@reverse",
           "inc": "@included", "dir": "@direction", "A": "@type", "json":
           "@json", "none": "@none", "Id": "@id", "own": "@version", "z":
           "@nest"}
BY_KEYWORD = {}
for _alias, _word in ALIASES.items():
    BY_KEYWORD.setdefault(_word, []).append(_alias)
CONTAINERS = ["@graph", "@id", "@index", "@language", "@list", "@set", "@type",
              ["@graph", "@id"], ["@graph", "@index"], ["@graph", "@set"],
              ["@id", "@graph", "@set"], ["@index", "@set", "@graph"],
              ["@set", "@index"], ["@id", "@set"], ["@set", "@type"],
              ["@language", "@set"], ["@list"], ["@set"], ["@index"]]
ODD_CONTAINERS = [[], None, "@foo", "set", ["@list", "@set"], ["@set", "@set"],
                  ["@graph", "@list"], "@none", "@vocab", 5, True, {},
                  ["@graph", "@id", "@index"], ["@graph", "@id", "@set", "@set"],
                  ["@index", "@language"], ["@type", "@graph"], ["@list", "@id"],
                  ["@set", None], ["@set", ["@id"]], ["@set", "@language",
                                                      "@index"],
                  ["@graph", "@graph"], [5], {"@set": True}]
REMOTE = ["http://e/c1", "http://e/c2", "http://e/c3"]


def fresh(tree):
    """A copy of its own: a case may be changed, the lists above may not."""
    if type(tree) is list:
        return [fresh(item) for item in tree]
    if type(tree) is dict:
        return {key: fresh(value) for key, value in tree.items()}
    return tree
