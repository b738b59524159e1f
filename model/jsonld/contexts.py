"""Active contexts and term definitions: API 4.1.1 and 4.2.1."""

ABSENT = object()
"""An entry that isn't there, where None is the null that stands there."""

NO_CONTAINER = frozenset()


class TermDefinition:
    """API 4.1.1: a term definition.

    `local` is the local context of a scoped context and `base` its base URL.
    `kind` is the type mapping, `side` the direction.
    """

    __slots__ = ("mapping", "prefix", "protected", "reverse", "base", "local",
                 "container", "side", "index", "language", "nest", "kind")

    def __init__(self, protected):
        self.mapping = None
        self.prefix = False
        self.protected = protected
        self.reverse = False
        self.base = None
        self.local = ABSENT
        self.container = NO_CONTAINER
        self.side = ABSENT
        self.index = None
        self.language = ABSENT
        self.nest = None
        self.kind = None

    def is_same_but_protected(self, other):
        """API 4.2.2 step 27.1: the two agree in all but protected."""
        for name in self.__slots__:
            if name not in ("protected", "local"):
                if getattr(self, name) != getattr(other, name):
                    return False
        return is_same_tree(self.local, other.local)


def is_same_tree(one, other):
    """Equality of trees.  In Python True is 1, and here it isn't."""
    if type(one) is not type(other):
        return False
    if type(one) is dict:
        return one.keys() == other.keys() and all(
            is_same_tree(value, other[key]) for key, value in one.items())
    if type(one) is list:
        return len(one) == len(other) and all(map(is_same_tree, one, other))
    return one is other or one == other


class ActiveContext:
    """API 4.1.1: an active context.  `original` is the original base URL.

    `known` remembers expansions of keys once the context changes no more.
    """

    __slots__ = ("base", "original", "vocab", "language", "side", "terms",
                 "previous", "known")

    def __init__(self, base):
        self.base = base
        self.original = base
        self.vocab = None
        self.language = None
        self.side = None
        self.terms = {}
        self.previous = None
        self.known = {}

    def copy(self):
        """A context of its own with equal parts."""
        made = ActiveContext(self.base)
        made.original = self.original
        made.vocab = self.vocab
        made.language = self.language
        made.side = self.side
        made.terms = self.terms.copy()
        made.previous = self.previous
        return made

    def has_protected_term(self):
        for definition in self.terms.values():
            if definition.protected:
                return True
        return False


class Run:
    """What one run of the algorithms has at hand, and what it counts."""

    __slots__ = ("store", "base", "scoped", "under_way", "deepest")

    def __init__(self, store, base):
        self.store = store
        self.base = base
        self.scoped = 0
        self.under_way = 0
        self.deepest = 0

    def enter(self):
        """A call for a term or a context begins."""
        self.under_way += 1
        if self.under_way > self.deepest:
            self.deepest = self.under_way

    def leave(self):
        """That call is over."""
        self.under_way -= 1
