#!/usr/bin/env python3
"""Worked examples: what goes in, and what must come out.

    python3 rows.py

Each example has a name that says what it shows.  Those of `flatten` are run
with whole flattening turned on; what is said of the plain lists is run
without.  Ends with status 1 where an example fails.
"""

import sys

sys.setrecursionlimit(1000000)

from jsonld import command, iris, processing, reading  # noqa: E402
from jsonld.contexts import ActiveContext, Run  # noqa: E402
from jsonld.refusals import Refused  # noqa: E402

FOLDER = {
    "index.txt": b"http://e/person person.jsonld\n",
    "person.jsonld": b'{"@context":{"@version":1.1,"@vocab":"http://e/v#",'
                     b'"xsd":"http://www.w3.org/2001/XMLSchema#",'
                     b'"knows":{"@type":"@id"},"born":{"@type":"xsd:date"},'
                     b'"Address":{"@context":{"city":"http://e/place#city"}}}}'}
PEOPLE = (
    '{"@context":"http://e/person","@graph":[{"@id":"people/ann","@type":'
    '"Person","name":"Ann","born":"1990-05-01","knows":"people/bob",'
    '"address":{"@type":"Address","city":"Oslo","name":"Home"}},'
    '{"@id":"people/bob","@type":"Person","name":"Bob"}]}')
PEOPLE_FLAT = (
    '[{"@id":"_:b0","@type":["http://e/v#Address"],"http://e/place#city":'
    '[{"@value":"Oslo"}],"http://e/v#name":[{"@value":"Home"}]},'
    '{"@id":"http://e/people/ann","@type":["http://e/v#Person"],'
    '"http://e/v#address":[{"@id":"_:b0"}],"http://e/v#born":[{"@type":'
    '"http://www.w3.org/2001/XMLSchema#date","@value":"1990-05-01"}],'
    '"http://e/v#knows":[{"@id":"http://e/people/bob"}],'
    '"http://e/v#name":[{"@value":"Ann"}]},{"@id":"http://e/people/bob",'
    '"@type":["http://e/v#Person"],"http://e/v#name":[{"@value":"Bob"}]}]')
LOOP = {"index.txt": b"http://e/c c.json\n",
        "c.json": b'{"@context":"http://e/c"}'}
ONE = '{"@id":"http://e/a","http://e/p":"v"}'
ONE_FLAT = '[{"@id":"http://e/a","http://e/p":[{"@value":"v"}]}]'
BAD = '{"@id":5}'
CONFLICT = ('{"@id":"http://e/a","@index":"1"},'
            '{"@id":"http://e/a","@index":"2"}')
USAGE = "error: usage"


def chain(length):
    """Contexts of which each names the next, and the last is empty."""
    folder = {"index.txt": b""}
    for number in range(1, length + 1):
        name = "c%d" % number
        folder["index.txt"] += ("http://e/%s %s\n" % (name, name)).encode()
        inner = '"http://e/c%d"' % (number + 1) if number < length else "{}"
        folder[name] = ('{"@context":%s}' % inner).encode()
    return folder


CHAINED = '[{"@context":"http://e/c1","http://e/p":"v"}]'

# Name, words, input, answer, folder.  An answer that begins with "error: " is
# the line on standard error, any other one the line on standard output.
WHOLE = [
    ("nothing gives nothing", "flatten", "[]", "[]"),
    ("one node", "flatten", ONE, ONE_FLAT),
    ("types get their labels before the node", "flatten",
     '{"@id":"_:n","@type":"_:t"}', '[{"@id":"_:b1","@type":["_:b0"]}]'),
    ("labels are given in order of traversal", "flatten",
     '[{"@id":"_:z","http://e/p":{"@id":"_:y"}},'
     '{"http://e/q":{"@id":"_:z"}}]',
     '[{"@id":"_:b0","http://e/p":[{"@id":"_:b1"}]},'
     '{"@id":"_:b2","http://e/q":[{"@id":"_:b0"}]}]'),
    ("nodes are in order of the bytes of issued labels", "flatten",
     "[" + ",".join(['{"http://e/p":"v"}'] * 12) + "]",
     "[" + ",".join('{"@id":"_:b%d","http://e/p":[{"@value":"v"}]}' % n
                    for n in (0, 1, 10, 11, 2, 3, 4, 5, 6, 7, 8, 9)) + "]"),
    ("equal values are dropped", "flatten", "[%s,%s]" % (ONE, ONE), ONE_FLAT),
    ("equal lists are kept", "flatten",
     '{"@id":"http://e/a","http://e/p":[{"@list":["x"]},{"@list":["x"]}]}',
     '[{"@id":"http://e/a","http://e/p":[{"@list":[{"@value":"x"}]},'
     '{"@list":[{"@value":"x"}]}]}]'),
    ("two indexes of one node conflict", "flatten", "[%s]" % CONFLICT,
     "error: conflicting indexes at http://e/a"),
    ("expansion comes before the conflict", "flatten",
     "[%s,%s]" % (CONFLICT, BAD), "error: invalid @id value at /2/@id"),
    ("the first error of two", "flatten",
     "[" + ",".join([ONE, BAD, ONE, ONE, ONE, ONE, ONE, BAD]) + "]",
     "error: invalid @id value at /1/@id"),
    ("a context from the folder", "flatten --base http://e/ --contexts",
     PEOPLE, PEOPLE_FLAT, FOLDER),
    ("the greatest number", "flatten",
     '{"@id":"http://e/a","http://e/p":9007199254740992}',
     '[{"@id":"http://e/a","http://e/p":[{"@value":9007199254740992}]}]'),
    ("a greater number", "flatten",
     '{"@id":"http://e/a","http://e/p":9007199254740993}',
     "error: number at byte 33"),
    ("a fraction", "flatten", "[1.5]", "error: number at byte 1"),
    ("the mark in a strange place", "flatten", "[1.1]",
     "error: version number at /0"),
    ("broken text", "flatten", "[1", "error: syntax"),
    ("a plain list", "flatten", ONE_FLAT, ONE_FLAT),
    ("a named graph", "flatten", '{"@id":"http://e/g","@graph":[%s]}' % ONE,
     '[{"@graph":%s,"@id":"http://e/g"}]' % ONE_FLAT),
    ("a reverse property", "flatten",
     '{"@id":"http://e/a","@reverse":{"http://e/p":{"@id":"http://e/b"}}}',
     '[{"@id":"http://e/b","http://e/p":[{"@id":"http://e/a"}]}]'),
    ("a list in a list", "flatten",
     '{"@id":"http://e/a","http://e/p":'
     '{"@list":["x",{"@list":["y","z"]},"x"]}}',
     '[{"@id":"http://e/a","http://e/p":[{"@list":[{"@value":"x"},'
     '{"@list":[{"@value":"y"},{"@value":"z"}]},{"@value":"x"}]}]}]'),
    ("a node inside its own list", "flatten",
     '{"@id":"http://e/a","http://e/p":'
     '{"@list":["x",{"@id":"http://e/a","http://e/p":"w"}]}}',
     '[{"@id":"http://e/a","http://e/p":[{"@value":"w"},'
     '{"@list":[{"@value":"x"},{"@id":"http://e/a"}]}]}]'),
    ("as deep as may be", "flatten", "[" * 127 + "]" * 127, "[]"),
    ("one too deep", "flatten", "[" * 128 + "]" * 128, "error: syntax"),
    ("32 contexts in a chain", "flatten --contexts", CHAINED,
     '[{"@id":"_:b0","http://e/p":[{"@value":"v"}]}]', chain(32)),
    ("33 contexts in a chain", "flatten --contexts", CHAINED,
     "error: context overflow at /0", chain(33)),
    ("bytes that aren't UTF-8", "flatten", b"[\xff]", "error: syntax"),
    ("the empty input", "flatten", "", "error: syntax"),
    ("a context that names itself", "flatten --contexts",
     '[{"@context":"http://e/c","http://e/p":"v"}]',
     "error: context overflow at /0", LOOP),
    ("a context that isn't in the folder", "flatten --contexts",
     '[{"@context":"http://e/none","http://e/p":"v"}]',
     "error: loading remote context failed at /0", LOOP),
    ("a context that isn't JSON", "flatten --contexts",
     '[{"@context":"http://e/c"}]',
     "error: loading remote context failed at /0",
     {"index.txt": b"http://e/c c\n", "c": b"not JSON"}),
    ("a bad line of the index", "flatten --contexts", "[]",
     "error: context index line 2",
     {"index.txt": b"http://e/x x.json\nbroken\n"}),
    ("a missing file", "flatten --contexts", "[]",
     "error: missing context file at index line 1",
     {"index.txt": b"http://e/x x.json\n"}),
] + [
    ("faulty words: " + words, words, "[]", USAGE)
    for words in ("", "flatten --base x", "flatten flatten",
                  "flatten --contexts --contexts", "flatten --workers 0",
                  "expand --base", "expand --contexts=", "help", "--help",
                  "expand --", "expand --base=http://e/ --base=http://e/")]

PLAIN = [
    ("nothing is plain", "flatten", "[]", "[]"),
    ("a plain list", "flatten", ONE_FLAT, ONE_FLAT),
    ("what expands to a plain list", "flatten", ONE, ONE_FLAT),
    ("what expands to nothing is plain", "flatten", "[1]", "[]"),
    ("broken text", "flatten", "[1", "error: syntax"),
    ("nodes are put in order of ids", "flatten",
     '[{"@id":"http://e/b","http://e/p":[{"@id":"http://e/a"}]},'
     '{"@id":"http://e/a","http://e/p":[{"@value":"v"}]}]',
     '[{"@id":"http://e/a","http://e/p":[{"@value":"v"}]},'
     '{"@id":"http://e/b","http://e/p":[{"@id":"http://e/a"}]}]'),
    ("a value alone is dropped", "expand", '{"@value":"x"}', "[]"),
    ("a language map", "expand",
     '{"@context":{"n":{"@id":"http://e/n","@container":"@language"}},'
     '"n":{"de":"x","en":["y",null]}}',
     '[{"http://e/n":[{"@language":"de","@value":"x"},'
     '{"@language":"en","@value":"y"}]}]'),
    ("a value that is a list", "expand",
     '{"http://e/p":{"@value":"x","@list":[]}}',
     "error: invalid value object at /http:~1~1e~1p"),
    ("an id that is a number", "expand", "[%s]" % BAD,
     "error: invalid @id value at /0/@id"),
    ("expansion keeps labels", "expand",
     '[{"@id":"_:z","http://e/p":{"@id":"_:y"}},'
     '{"http://e/q":{"@id":"_:z"}}]',
     '[{"@id":"_:z","http://e/p":[{"@id":"_:y"}]},'
     '{"http://e/q":[{"@id":"_:z"}]}]'),
    ("a reverse property", "expand",
     '{"@id":"http://e/a","@reverse":{"http://e/p":{"@id":"http://e/b"}}}',
     '[{"@id":"http://e/a","@reverse":'
     '{"http://e/p":[{"@id":"http://e/b"}]}}]'),
    ("the place of an error in an array", "expand",
     '[{"@id":"http://e/a","http://e/p":[{"@id":5},"x"]},{"@id":6}]',
     "error: invalid @id value at /0/http:~1~1e~1p/0/@id"),
    ("an empty array in a list is spliced away", "expand",
     '{"@id":"http://e/a","http://e/p":{"@list":[[],"x"]}}',
     '[{"@id":"http://e/a","http://e/p":[{"@list":[{"@value":"x"}]}]}]'),
    ("null after a protected term in one array", "expand",
     '{"@context":[{"@protected":true,"p":"http://e/p"},null],"p":"v"}',
     "[]"),
    ("null after a protected term", "expand",
     '{"@context":{"@protected":true,"p":"http://e/p"},'
     '"http://e/q":{"@context":null}}',
     "error: invalid context nullification at /http:~1~1e~1q"),
    ("a keyword as prefix", "expand",
     '{"@context":{"@base":null,"a":"@base:x"}}',
     "error: keyword redefinition at the root"),
    ("the container of @type in an array", "expand",
     '{"@context":{"@type":{"@container":["@set"]}}}',
     "error: keyword redefinition at the root"),
    ("the container of a reverse term in an array", "expand",
     '{"@context":{"r":{"@reverse":"http://e/r","@container":["@set"]}}}',
     "error: invalid reverse property at the root"),
    ("a reverse term in keyword form", "expand",
     '{"@context":{"r":{"@reverse":"@type"}},"r":{"@id":"http://e/x"}}', "[]"),
    ("an index key that comes later in the context", "expand",
     '{"@context":{"a":{"@id":"http://e/a","@container":"@index",'
     '"@index":"b"},"b":"http://e/b"}}',
     "error: invalid term definition at the root"),
    ("an empty reverse array adds nothing", "expand",
     '{"@context":{"r":{"@reverse":"http://e/r"}},"r":[],'
     '"http://e/p":"v"}', '[{"http://e/p":[{"@value":"v"}]}]'),
    ("a context error in a nested map", "expand",
     '{"@nest":[{"http://e/p":{"@context":5}}]}',
     "error: invalid local context at /@nest/0/http:~1~1e~1p"),
    ("the first colon may be the first character", "expand",
     '{"@context":{"@vocab":"http://e/",":a:b":{}}}', "[]"),
    ("a long whole part and a fraction", "expand",
     "[99999999999999999999999.5]", "error: number at byte 1"),
    ("a number too large for a double", "expand", "[1e999]", "error: syntax"),
    ("half of a pair", "expand", r'["\ud800"]', "error: syntax"),
    ("the last line of the index keeps its CR", "expand --contexts", "[]",
     "error: context index line 2",
     {"index.txt": b"http://e/a a\r\nhttp://e/b b\r", "a": b"{}", "b": b"{}"}),
    ("a folder that isn't there", "expand --contexts", "[]", "[]", None),
]

# Name, local context, folder, and what comes out: a code, or a function that
# looks at the outcome.
PROCESSED = [
    ("a term under a vocabulary", '{"@vocab":"http://e/","x":{"@type":"@id"}}',
     {}, lambda context: (context.terms["x"].mapping,
                          context.terms["x"].kind) == ("http://e/x", "@id")),
    ("a ring of terms", '{"a":"b:c","b":"a:c"}', {}, "cyclic IRI mapping"),
    ("a context that names itself", '"http://e/c"', LOOP, "context overflow"),
    ("a keyword as a term", '{"@context":5}', {}, "keyword redefinition"),
    ("a number as a context", "5", {}, "invalid local context"),
]

# RFC 3986, section 5.4, and a few more.
RESOLVED = [("http://a/b/c/d;p?q", reference, target) for reference, target in (
    ("g:h", "g:h"), ("g", "http://a/b/c/g"), ("./g", "http://a/b/c/g"),
    ("g/", "http://a/b/c/g/"), ("/g", "http://a/g"), ("//g", "http://g"),
    ("?y", "http://a/b/c/d;p?y"), ("g?y", "http://a/b/c/g?y"),
    ("#s", "http://a/b/c/d;p?q#s"), ("g#s", "http://a/b/c/g#s"),
    ("g?y#s", "http://a/b/c/g?y#s"), (";x", "http://a/b/c/;x"),
    ("g;x", "http://a/b/c/g;x"), ("g;x?y#s", "http://a/b/c/g;x?y#s"),
    ("", "http://a/b/c/d;p?q"), (".", "http://a/b/c/"), ("./", "http://a/b/c/"),
    ("..", "http://a/b/"), ("../", "http://a/b/"), ("../g", "http://a/b/g"),
    ("../..", "http://a/"), ("../../", "http://a/"), ("../../g", "http://a/g"),
    ("../../../g", "http://a/g"), ("../../../../g", "http://a/g"),
    ("/./g", "http://a/g"), ("/../g", "http://a/g"), ("g.", "http://a/b/c/g."),
    (".g", "http://a/b/c/.g"), ("g..", "http://a/b/c/g.."),
    ("..g", "http://a/b/c/..g"), ("./../g", "http://a/b/g"),
    ("./g/.", "http://a/b/c/g/"), ("g/./h", "http://a/b/c/g/h"),
    ("g/../h", "http://a/b/c/h"), ("g;x=1/./y", "http://a/b/c/g;x=1/y"),
    ("g;x=1/../y", "http://a/b/c/y"), ("g?y/./x", "http://a/b/c/g?y/./x"),
    ("g#s/../x", "http://a/b/c/g#s/../x"), ("http:g", "http:g"))] + [
    ("http://e", "x", "http://e/x"), ("http://e?q", "x", "http://e/x"),
    ("a:b", "x", "a:x"), ("a:b/c", "../../x", "a:/x"), (None, "../x", "../x"),
    ("http://e/a//b/", "../x", "http://e/a//x")]


def wrong_rows():
    """The examples that fail, as lines."""
    for row in WHOLE + PLAIN:
        name, words, data, due = row[:4]
        folder = row[4] if len(row) > 4 else {}
        if type(data) is str:
            data = data.encode()
        got = command.answer(words.split(), data, folder)
        line = (got.out + got.err).decode().rstrip("\n")
        status = 0
        if due.startswith("error: "):
            status = 2 if due == USAGE else 1
        if (line, got.status) != (due, status):
            yield "%s: %s, status %d" % (name, line, got.status)
    for end in range(len(PEOPLE)):
        got = command.answer(["flatten", "--contexts"],
                             PEOPLE[:end].encode(), FOLDER)
        if got.err != b"error: syntax\n":
            yield "the first %d bytes of a document" % end
    for name, local, folder, due in PROCESSED:
        run = Run(command.folders.load(folder), None)
        try:
            context = processing.context_processing(
                run, ActiveContext(None), reading.read_tree(local.encode()),
                None)
            right = callable(due) and due(context)
        except Refused as refused:
            right = refused.code == due
        if not right:
            yield name
    for base, reference, target in RESOLVED:
        got = iris.resolve(base, reference)
        if got != target:
            yield "resolve %r against %r: %r" % (reference, base, got)


def main():
    wrong = list(wrong_rows())
    for line in wrong:
        print("wrong: " + line)
    print("%d examples, %d wrong" % (
        len(WHOLE) + len(PLAIN) + len(PROCESSED) + len(RESOLVED)
        + len(PEOPLE), len(wrong)))
    return 1 if wrong else 0


if __name__ == "__main__":
    sys.exit(main())
