"""JSON text: RFC 8259, as the program's reader takes it, and the gate.

A tree is None, True or False, an int, the mark ONE_ONE, a str, a list of
trees, or a dict from str to trees.

[Ours: the text is UTF-8 without a byte order mark, arrays and maps are nested
at most 127 deep, the last of several equal keys counts, an escape that is half
of a surrogate pair is refused, and so is a number too large for a double.]
"""

import json
import re

ONE_ONE = 1.1
"""[Ours: the one number with a fraction.  It may stand only as the value of a
key `@version`, and is printed as 1.1.]"""

DEEPEST = 127
LARGEST = 9007199254740992


class Syntax(Exception):
    """The bytes aren't JSON text that the reader takes."""


class Number(Exception):
    """A number token that the gate doesn't let through."""

    def __init__(self, at):
        self.at = at


class VersionNumber(Exception):
    """The mark 1.1 stands where it may not."""

    def __init__(self, place):
        self.place = place


# Numbers.  What overflows is found as the reader finds it: at most 64 bits of
# digits are kept, and the rest goes into a decimal exponent.

_U64 = 18446744073709551615
_I32 = 2147483647
_POWERS = [float("1e%d" % n) for n in range(309)]


def _is_finite(significand, exponent):
    """Whether significand * 10 ^ exponent is no infinity for the reader."""
    number = float(significand)
    while True:
        size = abs(exponent)
        if size < len(_POWERS):
            if exponent >= 0:
                return number * _POWERS[size] != float("inf")
            return True
        if number == 0.0:
            return True
        if exponent >= 0:
            return False
        number /= 1e308
        exponent += 308


_parts = re.compile(r"-?([0-9]+)(?:\.([0-9]+))?(?:[eE]([+-]?)([0-9]+))?").fullmatch


def _can_be_read(token):
    """Whether the reader takes this number token of JSON's grammar."""
    whole, fraction, sign, power = _parts(token).groups()
    significand, exponent, full = 0, 0, False
    for digit in whole:
        if not full and significand * 10 + int(digit) > _U64:
            full = True
        if full:
            exponent += 1
        else:
            significand = significand * 10 + int(digit)
    for digit in fraction or "":
        if significand * 10 + int(digit) > _U64:
            break
        significand = significand * 10 + int(digit)
        exponent -= 1
    if power is not None:
        size = 0
        for digit in power:
            size = size * 10 + int(digit)
            if size > _I32:
                return significand == 0 or sign == "-"
        exponent = exponent - size if sign == "-" else exponent + size
        exponent = max(-_I32 - 1, min(_I32, exponent))
    return _is_finite(significand, exponent)


_refused_number = [False]


def _whole_number(token):
    if len(token) <= 15 and token != "-0":
        return int(token)
    if len(token) <= 17 and token != "-0":
        number = int(token)
        if -LARGEST <= number <= LARGEST:
            return number
    elif not _can_be_read(token):
        raise ValueError(token)
    _refused_number[0] = True
    return 0


def _other_number(token):
    if token == "1.1":
        return ONE_ONE
    if not _can_be_read(token):
        raise ValueError(token)
    _refused_number[0] = True
    return 0


def _no_constant(token):
    raise ValueError(token)


_decode = json.JSONDecoder(
    parse_int=_whole_number, parse_float=_other_number,
    parse_constant=_no_constant).decode

_brackets = re.compile(r'"(?:[^"\\]|\\.)*"|[\[\]{}]', re.DOTALL).finditer
_escapes = re.compile(r"\\(?:u([0-9a-fA-F]{4})|.)", re.DOTALL).finditer
_numbers = re.compile(rb'"(?:[^"\\]|\\.)*"|-?[0-9][-+0-9.eE]*', re.DOTALL).finditer
_accepted = re.compile(rb"0|-?[1-9][0-9]*").fullmatch


def _is_too_deep(text):
    if text.count("[") + text.count("{") <= DEEPEST:
        return False
    depth = 0
    for match in _brackets(text):
        bracket = match.group()
        if bracket in "[{":
            depth += 1
            if depth > DEEPEST:
                return True
        elif bracket in "]}":
            depth -= 1
    return False


def _has_half_of_a_pair(text):
    """An escape \\uD800 to \\uDFFF that isn't one of a pair of escapes."""
    if "\\ud" not in text and "\\uD" not in text:
        return False
    high_ends = -1
    for match in _escapes(text):
        unit = int(match.group(1), 16) if match.group(1) else 0
        if 0xDC00 <= unit <= 0xDFFF:
            if high_ends != match.start():
                return True
            high_ends = -1
            continue
        if high_ends >= 0:
            return True
        if 0xD800 <= unit <= 0xDBFF:
            high_ends = match.end()
    return high_ends >= 0


def _first_refused_number(data):
    for match in _numbers(data):
        token = match.group()
        if token[:1] == b'"' or token == b"1.1":
            continue
        if _accepted(token) and len(token) <= 17 and abs(int(token)) <= LARGEST:
            continue
        return match.start()
    raise AssertionError("a number was refused and isn't found")


def _stray_mark(tree, place):
    """The first place, in order of keys and items, of a mark that may not
    stand there; or None.  A place is a tuple of keys and item numbers."""
    if type(tree) is dict:
        for key in sorted(tree):
            value = tree[key]
            if type(value) is float:
                if key != "@version":
                    return place + (key,)
            elif type(value) in (dict, list):
                found = _stray_mark(value, place + (key,))
                if found is not None:
                    return found
    elif type(tree) is list:
        for number, value in enumerate(tree):
            if type(value) is float:
                return place + (number,)
            if type(value) in (dict, list):
                found = _stray_mark(value, place + (number,))
                if found is not None:
                    return found
    elif type(tree) is float:
        return place
    return None


def read_tree(data):
    """The tree of the bytes.

    [Ours: after the syntax come the number tokens outside strings.  Accepted
    are whole numbers of at most 2 ^ 53 in magnitude without a sign on zero,
    and the three bytes 1.1.  A refusal names the token's first byte.  Then
    comes the first mark that isn't the value of a key `@version`.]
    """
    try:
        text = data.decode("utf-8")
    except UnicodeDecodeError:
        raise Syntax() from None
    if _is_too_deep(text):
        raise Syntax()
    _refused_number[0] = False
    try:
        tree = _decode(text)
    except ValueError:
        raise Syntax() from None
    if _has_half_of_a_pair(text):
        raise Syntax()
    if _refused_number[0]:
        raise Number(_first_refused_number(data))
    if b"1.1" in data:
        place = _stray_mark(tree, ())
        if place is not None:
            raise VersionNumber(place)
    return tree
