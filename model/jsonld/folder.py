"""The folder of contexts, which stands in the place of a network.

[Ours: `contexts/index.txt` names a file for each IRI of a remote context.  A
folder is here a dict from names to bytes.  In it None stands for a thing that
is there and can't be read, such as a folder.  A folder that isn't there is
None, and bytes are a file in the place of the folder.]
"""

import re

from . import reading
from .iris import is_well_formed

LARGEST_FILE = 16777216

UNREADABLE = object()
"""What a file is that `read_tree` refuses."""

_file_name = re.compile(r"[A-Za-z0-9_\-][A-Za-z0-9._\-]{0,254}").fullmatch


class IndexLine(Exception):
    """A line of the index breaks its form."""

    def __init__(self, line):
        self.line = line


class Missing(Exception):
    """The file that a line of the index names isn't there."""

    def __init__(self, line):
        self.line = line


class FolderFault(Exception):
    """Something in the folder can't be read."""


def _bytes_of(folder, name):
    """The bytes of the file of that name, or None where there is none."""
    if folder is None:
        return None
    if isinstance(folder, bytes):
        raise FolderFault()
    if name not in folder:
        return None
    data = folder[name]
    if data is None or len(data) > LARGEST_FILE:
        raise FolderFault()
    return data


def _index(data):
    """The list of triples (line, IRI, file name) of the index.

    Lines end with LF, and a CR before it is dropped.  An empty line is passed
    over.  Any other line is a well-formed IRI that no earlier line has, one
    space, and a file name of 1 to 255 ASCII letters, digits, `.`, `_` and
    `-`, which doesn't begin with `.`.
    """
    lines = data.split(b"\n")
    entries, seen = [], set()
    for number, line in enumerate(lines, 1):
        if number < len(lines) and line.endswith(b"\r"):
            line = line[:-1]
        if line == b"":
            continue
        try:
            iri, space, name = line.decode("utf-8").partition(" ")
        except UnicodeDecodeError:
            raise IndexLine(number) from None
        if (not space or not is_well_formed(iri) or not _file_name(name)
                or iri in seen):
            raise IndexLine(number)
        seen.add(iri)
        entries.append((number, iri, name))
    return entries


def load(folder):
    """The store: a dict from IRIs to trees or UNREADABLE.

    The whole index is looked at first.  Then the files are read in the order
    of its lines.
    """
    data = _bytes_of(folder, "index.txt")
    if data is None:
        return {}
    store = {}
    for number, iri, name in _index(data):
        data = _bytes_of(folder, name)
        if data is None:
            raise Missing(number)
        try:
            store[iri] = reading.read_tree(data)
        except (reading.Syntax, reading.Number, reading.VersionNumber):
            store[iri] = UNREADABLE
    return store
