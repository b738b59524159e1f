"""IRIs: RFC 3986, section 5 and appendix B."""

import functools
import re

_scheme = re.compile(r"[A-Za-z][A-Za-z0-9+.\-]*:").match
_well_formed = re.compile(
    r'[A-Za-z][A-Za-z0-9+.\-]*:[^\x00-\x20<>"{}|^`\\]*').fullmatch
_appendix_b = re.compile(
    r"(?:([^:/?#]+):)?(?://([^/?#]*))?([^?#]*)(?:\?([^#]*))?(?:#(.*))?",
    re.DOTALL).fullmatch


def has_form_of_iri(text):
    """[Ours: a text has the form of an IRI where a scheme (RFC 3986, section
    3.1) stands before its first colon.  Nothing more is asked.]"""
    return text is not None and _scheme(text) is not None


def is_well_formed(text):
    """[Ours: in addition no character up to U+0020 and none of
    < > " { } | ^ ` and the backslash.]"""
    return _well_formed(text) is not None


def is_blank(text):
    """A blank node identifier."""
    return text is not None and text.startswith("_:")


def split(text):
    """RFC 3986, appendix B: scheme, authority, path, query, fragment.

    A part that isn't there is None; the path is always there.
    """
    return _appendix_b(text).groups()


def remove_dot_segments(path):
    """RFC 3986, section 5.2.4, on a list of segments.

    A segment keeps the slash before it, and the first one may have none.
    """
    while path.startswith(("../", "./")):
        path = path[path.index("/") + 1:]
    if path in (".", ".."):
        return ""
    pieces = path.split("/")
    segments = [pieces[0]] if pieces[0] else []
    last = len(pieces) - 1
    for number in range(1, len(pieces)):
        piece = pieces[number]
        if piece == "..":
            if segments:
                segments.pop()
        elif piece != ".":
            segments.append("/" + piece)
            continue
        if number == last:
            segments.append("/")
    return "".join(segments)


@functools.lru_cache(4096)
def resolve(base, reference):
    """RFC 3986, section 5.2.2 (strict), 5.2.3 and 5.3.

    [Ours: nothing is normalized, and without a base a reference stays as it
    is.]
    """
    if base is None:
        return reference
    scheme, authority, path, query, fragment = split(reference)
    if scheme is not None:
        path = remove_dot_segments(path)
    else:
        base_scheme, base_authority, base_path, base_query, _ = split(base)
        if authority is not None:
            path = remove_dot_segments(path)
        else:
            if path == "":
                path = base_path
                if query is None:
                    query = base_query
            else:
                if not path.startswith("/"):
                    if base_authority is not None and base_path == "":
                        path = "/" + path
                    else:
                        path = base_path[:base_path.rfind("/") + 1] + path
                path = remove_dot_segments(path)
            authority = base_authority
        scheme = base_scheme
    made = ""
    if scheme is not None:
        made = scheme + ":"
    if authority is not None:
        made += "//" + authority
    made += path
    if query is not None:
        made += "?" + query
    if fragment is not None:
        made += "#" + fragment
    return made
