"""Cases of bytes, of words and of folders."""

import json

from .alphabet import BASES, E, REMOTE
from .maker import Maker, bytes_of

NUMBER_TOKENS = [
    "1.1", "1.10", "-1.1", "11e-1", "1.5", "-0", "0", "00", "01", "1e2", "1E+2",
    "-", "+1", ".5", "1.", "1.e2", "0.0", "-0.0", "1e999", "-1e999", "1e-999",
    "0e999", "0e99999999999", "1e99999999999", "1e-99999999999", "1e308",
    "1e309", "10e308", "9007199254740992", "9007199254740993",
    "-9007199254740992", "-9007199254740993", "9223372036854775808",
    "18446744073709551615", "18446744073709551616", "1" + "0" * 25,
    "1" + "0" * 400, "9" * 20 + ".5", "9" * 20 + ".", "NaN", "Infinity",
    "-Infinity", "0x1", "1_0", "1.1.1", "1.1e0", "1e", "1e+", "2e0", "12.50",
    "00.1", "1" * 400 + "e-400", "0." + "0" * 30 + "1", "1.1 ", "nul", "True"]
PIECES = [b"{", b"}", b"[", b"]", b",", b":", b'"', b"\\", b"\x00", b"\x1f",
          b"\x7f", b"\xff", b"\xc3", b"\xed\xa0\x80", b"\xef\xbb\xbf", b" ",
          b"\n", b"\r", b"\t", b"\x0b", b"\xc2\xa0", b"null", b"true", b"//",
          b"/**/", b"'", b"\\u", b"\\ud800", b"\\udc00", b"\\ud800\\udc00",
          b"\\u0000", b"\\x", b"\\/", b"1", b"1.1", b"1.5", b"-", b"e"]


def byte_case(rng):
    maker = Maker(rng, 0.0)
    kind = maker.times(8)
    if kind <= 1:
        # A number somewhere.
        tree = maker.one(
            "[%s]", '{"http://e/p":%s}', '{"@version":%s}',
            '{"@context":{"@version":%s},"http://e/p":1}', "%s",
            '{"a/~":[0,{"@version":1.1,"b":%s}],"@version":1.1}',
            '{"b":1.1,"a":{"@version":[%s]}}', '["1.5",%s,2.5]',
            '{"http://e/p":{"@type":"@json","@value":{"@version":%s,"x":0}}}',
            '{"a":1.5,"a":%s}', '{"\\"1.5":"\\\\","b":%s}')
        return (maker, (tree % maker.of(NUMBER_TOKENS)).encode(), None)
    if kind <= 3:
        # A good text with a fault.
        tree = maker.document()
        data = bytearray(bytes_of(tree, maker))
        for _ in range(1 + maker.times(1)):
            at = maker.times(len(data))
            change_ = maker.times(3)
            if change_ == 0:
                data[at:at + 1 + maker.times(2)] = b""
            elif change_ == 1:
                data[at:at] = maker.of(PIECES)
            elif change_ == 2:
                data[at:at + 1] = maker.of(PIECES)
            else:
                del data[at:]
        return (maker, bytes(data), None)
    if kind == 4:
        # Deep.
        many = maker.one(1, 5, 30, 60, 63, 64, 100, 125, 126, 127, 128, 129,
                         200, 5000)
        opening, inner, closing = maker.one(
            ("[", "", "]"), ('{"http://e/p":', "1", "}"), ("[", "{}", "]"),
            ('{"http://e/p":[', '"x"', "]}"), ('{"@graph":', "[]", "}"),
            ('{"http://e/p":{"@list":[', "{}", "]}}"), ('{"a":', "1.1", "}"),
            ('{"@nest":', "{}", "}"), ('{"@included":', "{}", "}"),
            ('{"@set":', '"x"', "}"), ('{"@reverse":{"http://e/p":', "{}",
                                       "}}"),
            ('{"http://e/p":{"@value":1,"@id":', "5", "}}"),
            ('{"p":{"i":', '"x"', "}}"))
        text = opening * many + inner + closing * many
        if opening.startswith('{"p"'):
            text = ('{"@context":{"p":{"@id":"http://e/p","@container":%s}},'
                    '"p":{"i":%s}}' % (maker.one(
                        '"@index"', '"@id"', '["@graph","@index"]',
                        '["@graph","@id"]'), text))
        return (maker, text.encode(), None)
    if kind == 5:
        # Wide.
        many = maker.one(50, 300, 1000)
        tree = maker.one(
            [{"@id": E + str(n), E + "p": "v"} for n in range(many)],
            {E + str(n): n for n in range(many)},
            {"@context": {"t%d" % n: E + str(n) for n in range(many)},
             "t7": "x"}, {E + "p": ["v"] * many},
            [{E + "p": "v"}] * (many - 1) + [{"@id": 5}])
        return (maker, bytes_of(tree, maker), None)
    if kind == 6:
        # Keys that are hard to print, in the place of an error.
        keys = ["/", "~", "~1", "~0", "a/b~c", '"', "\\", "\u00e9",
                "\U00010000", "\uff01", "\n", "\u0000", "\u007f", " ", "", "0",
                "\u2028", "'", "\ue000", "\ud7ff"]
        def key():
            return "x:" + maker.of(keys) + maker.of(keys)
        inner = maker.one({"@id": 5}, {"@context": 5}, {"@value": []},
                          {"@type": 5}, {key(): {"@index": 5}}, {"@list": 1,
                                                                "@id": "x"})
        tree = {key(): maker.one([1, inner], inner), key(): inner,
                key(): maker.text(), "@type": "T"}
        return (maker, bytes_of(maker.one(tree, [tree], [[], [tree]]), maker),
                None)
    # Equal keys, and strange texts.
    key = maker.one("@id", "@type", "http://e/p", "@context", "@value", "@list")
    one, two = (json.dumps(maker.any()) for _ in range(2))
    text = maker.one(
        '{"%s":%s,"%s":%s}', '{"http://e/q":{"%s":%s,"http://e/r":1,"%s":%s}}',
        '[{"%s":%s},{"%s":%s}]') % (
            key, one, key, maker.one(two, "1.5", "1.1", '"x"'))
    if maker.likely(0.2):
        text = maker.one("", " ", "\ufeff[]", "[] []", "[],", "null", "true",
                         '"x"', "5", "\n[]\r\n", "[]\x00", "{}x", "1.1",
                         '{"@context":"\\ud83d\\ude00"}', '"\\ud800x"',
                         '["\\udc00"]', '["\\ud800\\ud800\\udc00"]',
                         '{"\\ud800":1}', '["\\\\ud800"]', '["\\ud83d\\ude00"]')
    return (maker, text.encode("utf-8"), None)


def words_case(rng):
    maker = Maker(rng, 0.0)
    tree = maker.one([], {"@id": "a", E + "p": "v"}, {"@context": REMOTE[0]})
    words = [maker.one("expand", "flatten", "expand", "flatten", "nquads", "",
                       "Expand", "--base", "help", "--help", "flat", "-h")]
    for _ in range(maker.times(3)):
        words.extend(maker.one(
            ["--base", maker.of(BASES)], ["--base=" + maker.of(BASES)],
            ["--contexts"], ["--contexts"], ["--base"], ["--base", "--contexts"],
            ["--contexts="], ["--contexts=1"], ["--contexts", "1"], ["--"],
            ["-"], ["--bas", E], ["--base", "x"], ["--base="], ["--base", ""],
            ["--base", "-x:y"], ["--base=-x:y"], ["--base", "x:a b"],
            ["--base=x:y=z"], ["--base==x:y"], ["--base", "x:<"], ["--help"],
            ["--base", "\u00e9:x"], ["--base", "x:\u00e9"], ["-c"], ["--con"],
            ["--base", "1x:y"], ["--base", "x:\udcff"], ["--version"],
            ["flatten"], ["--base", "x:"], ["--base", "x:\\"], ["--Base", E],
            ["--base", "x:`"], ["--base", "x:\x7f"], ["--base", " x:y"],
            ["--weight", "1"], ["--weight=2000"], ["--weight", "1000000"],
            ["--weight", maker.one("0", "01", "+1", "-1", "1000001", "", "x",
                                   "1 ", "\u0661", "1.0", "9" * 30)],
            ["--weight="], ["--weight"], ["--weight", "--contexts"]))
    if maker.likely(0.1):
        words = []
    folder = {"index.txt": "http://e/c1 c1\n", "c1": {"@context": {}}}
    if maker.likely(0.3):
        folder = None
    return (maker, tree, folder, words)


INDEX_LINES = [
    b"http://e/c2 c2", b"http://e/c1 c2", b"", b"\r", b" ", b"http://e/c2",
    b"http://e/c2  c2", b"http://e/c2\tc2", b" http://e/c2 c2",
    b"http://e/c2 c2 ", b"http://e/c2 .c2", b"http://e/c2 c/2", b"e c2",
    b"http://e/c2 c2\r", b"http://e/c2 c2\r\r", b"http://e/< c2", b"1:x c2",
    b"http://e/c2 " + b"n" * 255, b"http://e/c2 " + b"n" * 256,
    b"http://e/c2 \xc3\xa9", b"http://e/\xc3\xa9 c2", b"http://e/\xff c2",
    b"http://e/c3 none", b"http://e/c3 a-b_c.D9", b"http://e/c3 -", b"\xff",
    b"http://e/c3 folder", b"http://e/c3 index.txt", b"x: c2", b"# note",
    b"http://e/c3 big", b"http://e/c3 ..", b"http://e/c2 c2\x00", b"x:\x7f c2"]


def folder_case(rng):
    maker = Maker(rng, 0.0)
    lines = [b"http://e/c1 c1"] if maker.likely(0.7) else []
    for _ in range(maker.one(0, 1, 1, 2, 3)):
        lines.append(maker.of(INDEX_LINES) if maker.likely(0.6)
                     else maker.one(b"http://e/c2 c2", b"", b"x:y c1"))
    rng.shuffle(lines)
    index = maker.one(b"\n", b"\n", b"\r\n").join(lines)
    index += maker.one(b"\n", b"\n", b"\r\n", b"", b"\r")
    file = lambda: maker.one(
        b'{"@context":{"p":"http://e/p"}}', b'{"@context":{}}', b"not JSON",
        b'{"@context":{"@version":1.1}}', b"[1.5]", b"[1.1]", b"", b"[]",
        b'{"@context":[{}]}', b"\xff", b'{"@context":"c2"}', b"{}")
    folder = {"index.txt": index, "c1": file(), "c2": file()}
    for name in ("a-b_c.D9", "-", "n" * 255):
        if maker.likely(0.5):
            folder[name] = file()
    if maker.likely(0.5):
        folder["folder"] = None
    if b"big" in index:
        folder["big"] = b"[]" + b" " * maker.one(16777214, 16777215)
    if maker.likely(0.05):
        folder["index.txt"] = None
    if maker.likely(0.05):
        del folder["index.txt"]
    if maker.likely(0.03):
        folder = maker.one(None, {}, {"c1": b"{}"}, b"a file")
    used = maker.one("http://e/c1", "http://e/c2", "http://e/c3", "c1", "c2",
                     {"@import": "http://e/c1"}, ["c1", "c2"], {})
    return (maker, {"@context": used, "p": "x", E + "q": 1}, folder, [
        maker.one("expand", "flatten"), "--contexts", "--base", "http://e/"])
