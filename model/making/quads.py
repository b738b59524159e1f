"""Files of N-Quads, good ones and faulty ones, and lists of quads.

A case is made from a seed and a number alone.  Terminals of every form are put
together into lines; in most cases one of them is faulty, or the bytes of the
file are changed afterwards.
"""

import random

from quads import RDF_LANG_STRING, XSD_STRING, Blank, Iri, Literal, Quad

RANGES = [
    (0x2D, 0x2E), (0x30, 0x3A), (0x41, 0x5A), (0x5F, 0x5F), (0x61, 0x7A),
    (0xB7, 0xB7), (0xC0, 0xD6), (0xD8, 0xF6), (0xF8, 0x2FF), (0x300, 0x36F),
    (0x370, 0x37D), (0x37F, 0x1FFF), (0x200C, 0x200D), (0x203F, 0x2040),
    (0x2070, 0x218F), (0x2C00, 0x2FEF), (0x3001, 0xD7FF), (0xF900, 0xFDCF),
    (0xFDF0, 0xFFFD), (0x10000, 0xEFFFF)]
"""Where the letters of blank node labels begin and end."""

EDGES = sorted({code for first, last in RANGES
                for code in (first - 1, first, last, last + 1)
                if not 0xD800 <= code <= 0xDFFF})
CODES = EDGES + [0, 1, 9, 0xB, 0x1F, 0x20, 0x21, 0x22, 0x27, 0x3C, 0x3E, 0x5C,
                 0x5E, 0x60, 0x7B, 0x7C, 0x7D, 0x7F, 0x80, 0x85, 0xA0, 0x7FF,
                 0x800, 0x2028, 0xFEFF, 0xFFFE, 0xFFFF, 0x1F600, 0xFFFFF,
                 0x100000, 0x10FFFF]
NO_CODES = [0xD800, 0xDBFF, 0xDC00, 0xDFFF, 0x110000, 0x7FFFFFFF, 0x80000000,
            0xFFFFFFFF, 0x10000D8, 0x1000041]
NO_UTF8 = [
    b"\x80", b"\xbf", b"\xc0\x80", b"\xc0\xa0", b"\xc1\xbf", b"\xc2", b"\xc3(",
    b"\xe0\x80\xa0", b"\xe0\x9f\xbf", b"\xe1\x80", b"\xe4\xb8", b"\xed\xa0\x80",
    b"\xed\xbf\xbf", b"\xed\xa0\xbd\xed\xb8\x80", b"\xef\xbf", b"\xf0\x80\x80",
    b"\xf0\x80\x80\xa0", b"\xf0\x8f\xbf\xbf", b"\xf0\x90\x80", b"\xf0\x9f\x98",
    b"\xf4\x90\x80\x80", b"\xf5\x80\x80\x80", b"\xf8\x88\x80\x80\x80", b"\xfe",
    b"\xff", b"\xff\xfe", b"\xe2\x82\xc3\xa9", b"\xdf"]
PIECES = NO_UTF8 + [
    b"<", b">", b'"', b"\\", b"^", b"^^", b"@", b".", b"..", b"_", b":", b"_:",
    b"#", b" ", b"\t", b"\n", b"\r", b"\r\n", b"\n\r", b"\r\r\n", b"\x00",
    b"\x0b", b"\x0c", b"\x1f", b"\x7f", b"\xc2\xa0", b"\xe2\x80\xa8", b"'",
    b"\xef\xbb\xbf", b"a", b"0", b"-", b"{", b"}", b"|", b"`", b"\xc2\xb7",
    b"\\u", b"\\U", b"\\u0041", b"\\u003A", b"\\u003e", b"\\n", b"\\t",
    b"\\uD800", b"\\U0000DFFF", b"\\U00110000", b"\\U0010FFFF", b"\\x", b"\\",
    b'""', b'"x"', b"@en", b"^^<a:b>", b"<a:b>", b"<a>", b"<>", b"<:>", b"_:a",
    b"# c\n", b" # \xff", b" . ", b". .", b"true", b"5", b"a:b", b"<<", b">>",
    b"'x'", b'"""', b"@prefix", b",", b";", b"[]", b"~", b"\xf0\x9f\x98\x80"]
LINE_ENDS = ["\n", "\n", "\n", "\r", "\r\n", "\n\r", "\r\r\n", "\n\n", ""]
GAPS = [" "] * 9 + ["", "", "\t", "  ", " \t "]
COMMENTS = ["#", "# c", "#<a:b>", "# \u00e9\t\x00 .", "##", '#"', "# \U0001F600"]


class Maker:
    """Makes terminals and lines; `bad` is how likely a part is faulty."""

    def __init__(self, rng, bad):
        self.rng = rng
        self.bad = bad

    def likely(self, share):
        return self.rng.random() < share

    def wrong(self):
        return self.bad and self.rng.random() < self.bad

    def of(self, values):
        return values[int(self.rng.random() * len(values))]

    def times(self, most):
        return int(self.rng.random() * (most + 1))

    # Characters and escapes.

    def character(self):
        share = self.rng.random()
        if share < 0.5:
            return self.of("abcxyzABCXYZ0189/#?%&=+.-_~:'(),;@!$*[]")
        return chr(self.of(CODES) if share < 0.9 else self.code())

    def code(self):
        code = self.times(self.of([0x7F, 0xFFFF, 0x10FFFF]))
        return 0x41 if 0xD800 <= code <= 0xDFFF else code

    def uchar(self, code=None):
        if code is None:
            code = self.of(CODES) if self.likely(0.7) else self.code()
        if self.wrong():
            code = self.of(NO_CODES)
        short = code < 0x10000 and self.likely(0.6)
        made = "\\%s%0*X" % (("u", 4, code) if short else ("U", 8, code))
        if self.likely(0.4):
            made = made[:2] + made[2:].lower()
        if self.wrong():
            at = 1 + self.times(len(made) - 2)
            made = made[:at] + self.of(["", "", "g", " ", "+", "\u00e9", ">"]) \
                + made[at + 1:]
        return made

    def echar(self):
        return "\\" + (self.of("axuU0/ v.\u00e9") if self.wrong()
                       else self.of("tbnrf\"'\\"))

    # Terminals.

    def iriref(self):
        if self.likely(0.4):
            return self.of(["<http://e/a>", "<http://e/p>", "<a:b>", "<a:>",
                            "<urn:x:y>", "<A+.-9:c>", "<a:\u00e9>"])
        scheme = self.of(["a", "http", "Z9", "x+y", "x.y-z"])
        if self.wrong():
            scheme = self.of(["", "1a", "+a", "\u00e9", "a_b", "a/", "_", "a b",
                              "-", self.uchar(0x61), "a" + self.uchar(0x62),
                              self.character()])
        colon = self.of([":", ":", ":", ":", "::", "\\u003A", "\\U0000003a"])
        if self.wrong():
            colon = self.of(["", "\\u0041:", "\\:", "\\u003", "/:", "\\u0040"])
        inside = "".join(self.iri_part() for _ in range(self.times(6)))
        made = "<" + scheme + colon + inside + ">"
        if self.wrong():
            made = self.of([made[1:], made[:-1], "<" + made, made + ">"])
        return made

    def iri_part(self):
        if self.wrong():
            return self.of([self.uchar(), self.echar(), self.character(), " ",
                            "<", '"', "{", "}", "|", "^", "`", "\\", "\x00"])
        code = self.of(CODES) if self.likely(0.7) else self.code()
        if code <= 0x20 or chr(code) in "<>\"{}|^`\\":
            code = 0x61
        return self.uchar(code) if self.likely(0.3) else chr(code)

    def label(self):
        if self.likely(0.3):
            return self.of(["_:a", "_:b0", "_:0", "_:a.b", "_:_", "_::", "_:a-",
                            "_:\u00e9", "_:a..b", "_:a:b", "_:b\u00b7"])
        letters = [chr(code) for code in EDGES[6:]] if self.wrong() \
            else "abYZ09_:\u00c0\u02ff\u0370\u1fff\u200c\u3001\uf900\U00010000"
        first = self.of(letters)
        rest = "".join(self.of(letters) if self.likely(0.7)
                       else self.of(".-0\u00b7\u0300\u203f")
                       for _ in range(self.times(5)))
        made = "_:" + first + rest
        if not self.wrong():
            made = made.rstrip(".")
        if self.wrong():
            made = self.of([made + ".", "_:" + self.of(".-\u00b7\u0300\u203f"),
                            "_:", "_", ":" + first, "_ :a", made + "..",
                            "_:" + chr(self.of(CODES)) + rest])
        return made

    def string(self):
        made = ""
        for _ in range(self.times(self.of([0, 2, 6]))):
            share = self.rng.random()
            one = self.echar() if share < 0.2 else self.uchar() \
                if share < 0.45 else self.character()
            made += "\\" + one if one in ('"', "\\") and not self.wrong() \
                else one
        made = '"' + made + '"'
        if self.wrong():
            made = self.of([made[1:], made[:-1], made[:-1] + "\\" + '"',
                            "'" + made[1:-1] + "'", made + '"', '""' + made])
        return made

    def tag(self):
        parts = [self.of(["en", "de", "a", "ZH", "i", "x"])]
        for _ in range(self.times(self.of([0, 1, 3]))):
            parts.append(self.of(["US", "1", "419", "x9", "latn", "a"]))
        if self.wrong():
            parts[self.times(len(parts) - 1)] = self.of(
                ["", "1", "e_n", "\u00e9", "-", "e1", "en.", ".", " ", "e n"])
        return self.of(["@@", "", "@ "] if self.wrong() else ["@"]) \
            + "-".join(parts)

    def datatype(self):
        return self.of([self.label, self.string, self.tag, lambda: "^^"])() \
            if self.wrong() else self.of([self.iriref] * 4 + [lambda: self.of([
                "<http://www.w3.org/2001/XMLSchema#string>",
                "<http://www.w3.org/2001/XMLSchema#\\u0073tring>",
                "<http://www.w3.org/1999/02/22-rdf-syntax-ns#langString>"])])()

    # Lines.

    def terms(self):
        """The terminals of a statement before its stop."""
        made = [self.of([self.iriref, self.label])(), self.iriref()]
        share = self.rng.random()
        if share < 0.35:
            made.append(self.of([self.iriref, self.label])())
        else:
            made.append(self.string())
            if share < 0.55:
                made.extend(["^" if self.wrong() else "^^", self.datatype()])
            elif share < 0.7:
                made.append(self.tag())
        if self.likely(0.4):
            made.append(self.of([self.iriref, self.label])())
        if self.wrong():
            at = self.times(len(made) - 1)
            one = self.of([self.iriref, self.label, self.string, self.tag])()
            made[at:at + self.times(1)] = self.of([[one], [], [one, one],
                                                   ["^^"], ["."], ["\ufeff"]])
        return made

    def gap(self):
        return self.of(["\x0b", "\x0c", "\u00a0", "\u2028", "\u0085", "\x00",
                        " # c", "\ufeff"]) if self.wrong() else self.of(GAPS)

    def line(self):
        share = self.rng.random()
        if share < 0.08:
            return self.of(["", " ", "\t ", " \t"])
        if share < 0.16:
            return self.of(["", " ", "\t"]) + self.of(COMMENTS)
        made = self.of(["", "", "", " ", "\t"])
        for one in self.terms():
            made += one + self.gap()
        made += self.of(["", "..", ". .", ".x", ",", ". <a:b>"]) \
            if self.wrong() else "."
        made += self.of(["", "", "", "", "", " ", "\t "])
        return made + (self.of(COMMENTS) if self.likely(0.1) else "")

    def file(self, most):
        made = ""
        for _ in range(1 + self.times(most - 1)):
            made += self.line() + self.of(LINE_ENDS)
        return made.encode("utf-8")


# Changes to the bytes of a file.


def change(maker, data):
    """The file with one change."""
    at, kind = maker.times(len(data)), maker.times(8)
    many = 1 + maker.times(maker.of([0, 0, 2, 12]))
    if kind == 0:
        return data[:at]
    if kind == 1:
        return data[:at] + data[at + many:]
    if kind == 2:
        return data[:at] + bytes([maker.times(255)]) + data[at + 1:]
    if kind == 3:
        return data[:at] + bytes([maker.times(255)]) + data[at:]
    if kind == 4:
        return data[:at] + data[at:at + many] + data[at:]
    if kind == 5:
        return data[:at] + maker.of(PIECES) + data[at + many:]
    if kind == 6:
        return data[:at] + chr(maker.of(CODES)).encode("utf-8") + data[at:]
    if kind == 7:
        return data[:at] + data[at:at + 2][::-1] + data[at + 2:]
    return data[:at] + maker.of(PIECES) + data[at:]


def case(seed, number):
    """The kind and the bytes of the case of this seed and number."""
    rng = random.Random("quads %d:%d" % (seed, number))
    share = rng.random()
    if share < 0.1:
        return "good", Maker(rng, 0.0).file(4)
    if share < 0.4:
        return "faulty", Maker(rng, rng.choice([0.01, 0.03, 0.1])).file(3)
    maker = Maker(rng, 0.0)
    data = maker.file(maker.of([1, 1, 2, 4]))
    if share < 0.5:
        at = maker.times(len(data))
        data = data[:at] + maker.of(NO_UTF8) + data[at + maker.times(1):]
        return "not UTF-8", data
    for _ in range(maker.of([1, 1, 1, 2, 3])):
        data = change(maker, data)
    return "changed", data


# Lists of quads that are valid, and unusual ways to write them.

XSD = "http://www.w3.org/2001/XMLSchema#"


class Lister(Maker):
    """Makes quads; `bad` is how likely a name or text is an unusual one."""

    def free(self, codes=None):
        code = self.of(codes or CODES) if self.likely(0.7) else self.code()
        return chr(code)

    def name(self):
        if not self.wrong():
            return Iri(self.of(["http://e/", "urn:x:", "http://e/v#"])
                       + self.of("abcdefgh") + str(self.times(30)))
        part = "".join(self.free() for _ in range(self.times(4)))
        return Iri(self.of(["a:", "http://e/", "x+y.z-0:", "http:", "Z9::"])
                   + "".join(one for one in part
                             if one > " " and one not in "<>\"{}|^`\\"))

    def blank(self):
        if not self.wrong():
            return Blank("_:" + self.of(["b", "x", "node", "c"])
                         + str(self.times(30)))
        made = "_:" + self.of("a0_:\u00c0\u0370\u200c\u3001\uf900\U00010000")
        for _ in range(self.times(4)):
            made += self.of("a0_:.-\u00b7\u0300\u203f\u00e9\u3001\U000effff")
        return Blank(made.rstrip("."))

    def node(self):
        return self.name() if self.likely(0.6) else self.blank()

    def literal(self):
        text = self.of(["", "x", "two words", "3", "a.b", "# no comment"])
        if self.wrong():
            text = "".join(self.free() for _ in range(self.times(6)))
        elif self.likely(0.3):
            text += self.of(["\"", "\\", "\n", "\r", "\t", "\u00e9", "\u4e2d",
                             "\U0001F600", "'", "\\n", "\r\n"])
        share = self.rng.random()
        if share < 0.5:
            return Literal(text, XSD_STRING, None)
        if share < 0.7:
            return Literal(text, RDF_LANG_STRING, self.of(
                ["en", "de-419", "en-us", "zh-hant-tw"]) if not self.wrong()
                else self.of(["EN", "en-US", "x-1-2-3", "a", "abcdefghijk",
                              "de-1", "i-a-b-c9"]))
        return Literal(text, self.of(
            [XSD + "integer", XSD + "date", RDF_LANG_STRING, "urn:d"])
            if not self.wrong() else self.name().text, None)

    def quad(self):
        thing = self.literal() if self.likely(0.55) else self.node()
        return Quad(self.node(), self.name(), thing,
                    self.node() if self.likely(0.4) else None)

    # The same quads, written in another way.

    def escaped(self, text, first, must):
        """The text from `first` on with escapes, some of which must be."""
        made = text[:first]
        for one in text[first:]:
            made += self.uchar(ord(one)) if one in must or self.likely(0.2) \
                else one
        return made

    def term(self, term):
        bad, self.bad = self.bad, 0.0
        if type(term) is Blank:
            made = term.label + self.of([" ", "\t"])
        elif type(term) is Iri:
            made = "<%s>" % self.escaped(
                term.text, term.text.index(":") + self.times(1), "")
        else:
            made = '"%s"' % self.escaped(term.lexical, 0, '"\\\n\r')
            if term.language is not None:
                made += self.of(GAPS) + "@" + term.language + " "
            elif term.datatype != XSD_STRING or self.likely(0.3):
                made += self.of(GAPS) + "^^" + self.of(GAPS) \
                    + self.term(Iri(term.datatype))
        self.bad = bad
        return made + self.of(GAPS)

    def loosely(self, quads):
        """Bytes that are read as these quads."""
        made = ""
        for quad in quads:
            made += self.of(["", " ", "\t", "# c\n", "\r\n", " \n"])
            made += "".join(self.term(term) for term in quad if term)
            made += "." + self.of(["\n", "\r", "\r\n", " # c\n", "#\n"])
        return made.encode("utf-8")


def quad_list(seed, number):
    """A list of valid quads, and bytes that are read as these."""
    rng = random.Random("list %d:%d" % (seed, number))
    lister = Lister(rng, 0.0 if rng.random() < 0.5 else 0.05)
    quads = [lister.quad() for _ in range(lister.times(12))]
    return quads, lister.loosely(quads)


# Whole ranges: the text is tried with every byte or character for `@@`.

EVERY_CUT = [
    b'\t<http://e/a> <http\\u003A//e/p> "x\\u00e9\\n\xc3\xa9"^^<http://e/d>'
    b" <http://e/g> . # c\xc3\xa9",
    b'_:b.0 <a:\\U0001F600> "x\\"y\\\\"@en-US-x9 _:g\xc3\xa9.-. \t',
    b"_:a<a:b>_:c.d..", b"<a:b>\t_:b .", b'<a:b><a:c>"x"^^<a:d><a:e>.#',
    b'\r\n\n\r_:a <a:b> "\xf0\x9f\x98\x80" ^^ <a:\xf0\x9f\x98\x80> _:\xe4\xb8'
    b"\x80 . # \xff", b'<a:b> <a:c> "x" @en-a-. \n<a:b>\n']
EVERY_BYTE = EVERY_CUT + [b'<a:b> <a:c> "\\@@u0041\\U00000041" .',
                          b'<a:b> <a:c> "x"@en-@@ .', b"<a:b> <a:c> _:@@ ."]
EVERY_CHARACTER = [
    b"@@<a:b> <a:c> <a:d> .", b"<@@a:b> <a:c> <a:d> .",
    b"<a@@:b> <a:c> <a:d> .", b"<a:@@b> <a:c> <a:d> .",
    b"<a:b>@@<a:c> <a:d> .", b"_:@@ <a:c> <a:d> .", b"_:a@@ <a:c> <a:d> .",
    b"_:a@@b <a:c> <a:d> .", b"_:a.@@ <a:c> <a:d> .", b'_:a <a:b> "@@" .',
    b'_:a <a:b> "\\@@" .', b'_:a <a:b> "x"@@@ .', b'_:a <a:b> "x"@@@@ .',
    b'_:a <a:b> "x"@a@@ .', b'_:a <a:b> "x"@a-@@ .', b'_:a <a:b> "x"@@ .',
    b'_:a <a:b> "x"^@@ .', b'_:a <a:b> "x"^^@@<a:b> .',
    b"_:a <a:b> _:c @@ .", b"_:a <a:b> _:c@@.", b"_:a <a:b> _:c .@@",
    b"_:a <a:b> _:c .#@@\n:", b"_:a @@ <a:b>", b'_:a <a:b> "\\u@@041" .']
