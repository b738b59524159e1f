"""The command line, and the answer to it.

[Ours: all of this.]
"""

from . import folder as folders
from . import reading
from .contexts import Run
from .expansion import expand_document
from .flattening import flattening
from .iris import is_well_formed
from .node_map import node_map_generation
from .places import pointer_of, steps_of
from .printing import text_of
from .refusals import ConflictingIndexes, Refused

COMMANDS = ("flatten", "expand")
LARGEST_INPUT = 268435456
HEAVIEST = 1000000
"""The greatest weight. A weight has no say in the answer."""


class Usage(Exception):
    """The words are no order."""


class Order:
    """A command with its options."""

    def __init__(self, command):
        self.command = command
        self.base = None
        self.contexts = False
        self.weight = None


def whole_number(text, least, greatest):
    """The number that a value gives: digits without a leading zero or sign."""
    if not text or not set(text) <= set("0123456789"):
        raise Usage()
    if text[0] == "0" and text != "0" or len(text) > 20:
        raise Usage()
    if not least <= int(text) <= greatest:
        raise Usage()
    return int(text)


def read_words(words):
    """The order that the words give.

    First the command, then options in any order, each at most once.
    """
    for word in words:
        try:
            word.encode("utf-8")
        except UnicodeEncodeError:
            raise Usage() from None
    if not words or words[0] not in COMMANDS:
        raise Usage()
    order = Order(words[0])
    rest = iter(words[1:])
    for word in rest:
        name, equals, value = word.partition("=")
        if name == "--contexts" and not equals and not order.contexts:
            order.contexts = True
        elif name in ("--base", "--weight"):
            if not equals:
                value = next(rest, "-")
                if value.startswith("-"):
                    raise Usage()
            if name == "--weight" and order.weight is None:
                order.weight = whole_number(value, 1, HEAVIEST)
            elif name == "--base" and order.base is None \
                    and is_well_formed(value):
                order.base = value
            else:
                raise Usage()
        else:
            raise Usage()
    return order


class Answer:
    """What a run gives: the status and the bytes of both outputs.

    `deepest` is the greatest number of calls for terms and contexts that were
    under way at once.
    """

    def __init__(self, status, out=b"", err=b"", deepest=0):
        self.status = status
        self.out = out
        self.err = err
        self.deepest = deepest


def _refusal(status, line, deepest=0):
    return Answer(status, b"", ("error: %s\n" % line).encode("utf-8"), deepest)


def answer(words, data, folder):
    """The answer to the words, the bytes of standard input and the folder."""
    try:
        order = read_words(words)
    except Usage:
        return _refusal(2, "usage")
    store = {}
    if order.contexts:
        try:
            store = folders.load(folder)
        except folders.IndexLine as refused:
            return _refusal(1, "context index line %d" % refused.line)
        except folders.Missing as refused:
            return _refusal(1, "missing context file at index line %d"
                            % refused.line)
        except folders.FolderFault:
            return _refusal(4, "folder fault")
    if len(data) > LARGEST_INPUT:
        return _refusal(6, "input too large")
    try:
        document = reading.read_tree(data)
    except reading.Syntax:
        return _refusal(1, "syntax")
    except reading.Number as refused:
        return _refusal(1, "number at byte %d" % refused.at)
    except reading.VersionNumber as refused:
        return _refusal(1, "version number at %s" % pointer_of(refused.place))
    run = Run(store, order.base)
    try:
        tree = expand_document(run, document)
    except Refused as refused:
        return _refusal(1, "%s at %s" % (
            refused.code, pointer_of(steps_of(refused.place))), run.deepest)
    if order.command == "flatten":
        try:
            tree = flattening(node_map_generation(tree))
        except ConflictingIndexes as refused:
            return _refusal(1, "conflicting indexes at %s" % refused.node,
                            run.deepest)
    return Answer(0, (text_of(tree) + "\n").encode("utf-8"), b"", run.deepest)
