#!/usr/bin/env python3
"""N-Quads: W3C RDF 1.1 N-Quads, its grammar, and the text that is written.

    python3 quads.py < FILE      the file's quads, written anew, or its bad line
    python3 quads.py --check     a few worked lines

A term is an `Iri`, a `Blank` or a `Literal`; a `Quad` has None in the place of
a graph label where it has none.  This file stands alone and shares nothing with
the rest of the model.
"""

import collections
import re
import sys

Iri = collections.namedtuple("Iri", "text")
Blank = collections.namedtuple("Blank", "label")
"""The label begins with `_:`."""
Literal = collections.namedtuple("Literal", "lexical datatype language")
Quad = collections.namedtuple("Quad", "subject predicate object graph")

XSD_STRING = "http://www.w3.org/2001/XMLSchema#string"
RDF_LANG_STRING = "http://www.w3.org/1999/02/22-rdf-syntax-ns#langString"


class BadLine(Exception):
    """The first line that has neither nothing nor one statement.

    [Ours: lines are counted from 1, and columns in bytes from 1.  The column is
    where the first terminal that can't be read should begin, after the spaces
    and tabs there.  Where the line ends before that, also by a comment, it is
    one past the line's last byte.]
    """

    def __init__(self, line, column):
        super().__init__("bad quad at line %d column %d" % (line, column))
        self.line = line
        self.column = column


# Characters.  A line is decoded so that each byte which isn't UTF-8 becomes one
# lone surrogate.  No terminal and no comment has a character of that kind.

_NO_UTF8 = r"\ud800-\udfff"
_UCHAR = r"\\u[0-9A-Fa-f]{4}|\\U[0-9A-Fa-f]{8}"
_ECHAR = r"\\[tbnrf\"'\\]"
_BASE = ("A-Za-z\u00c0-\u00d6\u00d8-\u00f6\u00f8-\u02ff\u0370-\u037d"
         "\u037f-\u1fff\u200c-\u200d\u2070-\u218f\u2c00-\u2fef\u3001-\ud7ff"
         "\uf900-\ufdcf\ufdf0-\ufffd\U00010000-\U000effff")
_U = _BASE + "_:"
_PN = _U + "0-9\u00b7\u0300-\u036f\u203f-\u2040\\-"

_iriref = re.compile(
    r"<((?:[^\x00-\x20<>\"{}|^`\\%s]|%s)*)>" % (_NO_UTF8, _UCHAR)).match
_label = re.compile("_:[%s0-9](?:[%s.]*[%s])?" % (_U, _PN, _PN)).match
_string = re.compile(
    r'"((?:[^"\\\n\r%s]|%s|%s)*)"' % (_NO_UTF8, _ECHAR, _UCHAR)).match
_langtag = re.compile(r"@([a-zA-Z]+(?:-[a-zA-Z0-9]+)*)").match
_carets = re.compile(r"\^\^").match
_stop = re.compile(r"\.").match
_comment = re.compile(r"#[^\n\r%s]*" % _NO_UTF8).match
_spaces = re.compile(r"[ \t]*").match

_escape = re.compile("(%s)|(%s)" % (_UCHAR, _ECHAR))
_line_end = re.compile(rb"\r\n|\r|\n")
_well_formed = re.compile(
    r"[A-Za-z][A-Za-z0-9+.\-]*:[^\x00-\x20<>\"{}|^`\\]*").fullmatch
_one_char = {"t": "\t", "b": "\b", "n": "\n", "r": "\r", "f": "\f",
             '"': '"', "'": "'", "\\": "\\"}


def _character(escape):
    """The character of a UCHAR or an ECHAR, or None where there is none."""
    if escape[1] not in "uU":
        return _one_char[escape[1]]
    number = int(escape[2:], 16)
    if number > 0x10FFFF or 0xD800 <= number <= 0xDFFF:
        return None
    return chr(number)


def _parts(inside):
    """Pairs of a piece of the value and whether it was a UCHAR or ECHAR."""
    at = 0
    for match in _escape.finditer(inside):
        yield inside[at:match.start()], False
        yield _character(match.group()), True
        at = match.end()
    yield inside[at:], False


# Terminals: each takes a text and a place, and gives a value and the place
# behind it, or None where no such terminal stands there.


def iriref(text, at):
    """IRIREF.

    [Ours: the value is well-formed: a scheme stands before its first colon, and
    no escape brings in a character that can't stand there plainly.  No UCHAR
    stands before the first colon; it may be that colon.]
    """
    match = _iriref(text, at)
    if match is None:
        return None
    value, seen_colon = "", False
    for piece, escaped in _parts(match.group(1)):
        if piece is None or escaped and not seen_colon and piece != ":":
            return None
        seen_colon = seen_colon or ":" in piece
        value += piece
    return (Iri(value), match.end()) if _well_formed(value) else None


def label(text, at):
    """BLANK_NODE_LABEL, the longest one: it ends with no dot."""
    match = _label(text, at)
    return match and (Blank(match.group()), match.end())


def string(text, at):
    """STRING_LITERAL_QUOTE.  [Ours: no UCHAR is a surrogate.]"""
    match = _string(text, at)
    if match is None:
        return None
    pieces = [piece for piece, _ in _parts(match.group(1))]
    return None if None in pieces else ("".join(pieces), match.end())


def langtag(text, at):
    """LANGTAG, the longest one, without its sign.  [Ours: kept as written.]"""
    match = _langtag(text, at)
    return match and (match.group(1), match.end())


def carets(text, at):
    match = _carets(text, at)
    return match and ("^^", match.end())


def stop(text, at):
    match = _stop(text, at)
    return match and (".", match.end())


# Lines.


class _Line:
    """One line, and the place up to which it is read."""

    def __init__(self, data, number):
        self.text = data.decode("utf-8", "surrogateescape")
        self.number = number
        self.at = 0

    def take(self, *terminals):
        """The first of these terminals that stands next and its value, or two
        times None."""
        at = _spaces(self.text, self.at).end()
        for terminal in terminals:
            read = terminal(self.text, at)
            if read is not None:
                value, self.at = read
                return terminal, value
        return None, None

    def need(self, *terminals):
        """As `take`; without one of them the line is bad."""
        found, value = self.take(*terminals)
        if found is None:
            raise self.bad()
        return found, value

    def ends(self):
        """Whether nothing but spaces, tabs and a comment is left."""
        at = _spaces(self.text, self.at).end()
        match = _comment(self.text, at)
        return (match.end() if match else at) == len(self.text)

    def bad(self):
        """The line is bad at what stands next."""
        at = len(self.text) if self.ends() \
            else _spaces(self.text, self.at).end()
        before = self.text[:at].encode("utf-8", "surrogateescape")
        return BadLine(self.number, len(before) + 1)


def _object(line):
    """object, with literal."""
    found, value = line.need(iriref, label, string)
    if found is not string:
        return value
    found, tag = line.take(carets, langtag)
    if found is langtag:
        return Literal(value, RDF_LANG_STRING, tag)
    if found is carets:
        return Literal(value, line.need(iriref)[1].text, None)
    return Literal(value, XSD_STRING, None)


def _statement(data, number):
    """statement: the quad of a line, or None where it has nothing."""
    line = _Line(data, number)
    if line.ends():
        return None
    subject = line.need(iriref, label)[1]
    predicate = line.need(iriref)[1]
    thing = _object(line)
    graph = line.take(iriref, label)[1]
    line.need(stop)
    if not line.ends():
        raise line.bad()
    return Quad(subject, predicate, thing, graph)


def read(data, first_line=1):
    """nquadsDoc: the quads of these bytes in order; raises `BadLine`.

    [Ours: a line ends at CR, at LF, at CR LF taken together, or at the end.]
    """
    made = [_statement(one, number) for number, one
            in enumerate(_line_end.split(data), first_line)]
    return [quad for quad in made if quad is not None]


# Quads that can be written and read back, and their text.


def is_valid(quad):
    """Whether each term may stand where it does and is well-formed."""
    thing = quad.object
    return (_names(quad.subject) and type(quad.predicate) is Iri
            and _names(quad.predicate)
            and (quad.graph is None or _names(quad.graph))
            and (_is_literal(thing) if type(thing) is Literal
                 else _names(thing)))


def _names(term):
    if type(term) is Iri:
        return _well_formed(term.text) is not None
    read_back = type(term) is Blank and label(term.label, 0)
    return bool(read_back) and read_back[1] == len(term.label)


def _is_literal(term):
    if not _well_formed(term.datatype):
        return False
    if term.language is None:
        return True
    read_back = langtag("@" + term.language, 0)
    return (term.datatype == RDF_LANG_STRING and read_back is not None
            and read_back[0] == term.language)


_written_as = {'"': '\\"', "\\": "\\\\", "\n": "\\n", "\r": "\\r"}
_to_escape = re.compile(r'["\\\n\r]').sub


def _term(term):
    if type(term) is Iri:
        return "<%s>" % term.text
    if type(term) is Blank:
        return term.label
    quoted = '"%s"' % _to_escape(lambda one: _written_as[one.group()],
                                 term.lexical)
    if term.language is not None:
        return "%s@%s" % (quoted, term.language)
    if term.datatype == XSD_STRING:
        return quoted
    return "%s^^<%s>" % (quoted, term.datatype)


def written(quads):
    """The bytes of the quads.

    [Ours: one space between terms, ` .` and a line feed; only four characters
    are escaped.  `xsd:string`, and the datatype of a language-tagged string,
    are not written.]
    """
    return "".join(
        " ".join(_term(term) for term in quad if term is not None) + " .\n"
        for quad in quads).encode("utf-8")


CHECKS = [
    (b'<http://e/a> <http://e/p> "x" .\n# note\n<http://e/a> <http://e/p> "cut'
     b"\n\nbad", (3, 27)),
    (b"", 0), (b" \t# \xc3\xa9\r\n\r\n\n", 0), (b" # \xff", (1, 2)),
    (b"<a:b><a:c><a:d>.", 1), (b"_:a<a:b>_:c.d..", (1, 15)),
    (b"_:a<a:b>_:c.d.", 1), (b'_:a<a:b>"x"@en-.', (1, 15)),
    (b"<a:b>\r\n<a:b> <a:c>   \r", (1, 6)), (b"<a:b> # x", (1, 10)),
    (b"<a:b> # \xff", (1, 7)), (b"_:a\xff <a:b>", (1, 4)),
    (b"<a\\u003Ab> <a:b> <a:\\U0010FFFF> .", 1),
    (b"<\\u0061:b> <a:b> <a:b> .", (1, 1)),
    (b'_:a <a:b> "\\uD83D\\uDE00" .', (1, 11)),
    (b'_:a <a:b> "\\n" ^^ <a:b> _:g . # end', 1),
    (b"_:a <a:b> _:c . .", (1, 17)), (b"_:a <a:b> _:c .\n\r_:a", (3, 4)),
]


def check():
    for data, due in CHECKS:
        try:
            quads = read(data)
            got = len(quads)
            assert all(map(is_valid, quads)) and read(written(quads)) == quads
        except BadLine as bad:
            got = (bad.line, bad.column)
        if got != due:
            sys.exit("%r: %r in the place of %r" % (data, got, due))
    print("%d lines" % len(CHECKS))


def main():
    if sys.argv[1:] == ["--check"]:
        return check()
    try:
        sys.stdout.buffer.write(written(read(sys.stdin.buffer.read())))
    except BadLine as bad:
        sys.exit("error: %s" % bad)


if __name__ == "__main__":
    main()
