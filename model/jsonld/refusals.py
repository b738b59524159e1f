"""Error codes: API 9.6, JsonLdErrorCode, as far as they are in use here."""

CODES = (
    "colliding keywords", "conflicting indexes", "context overflow",
    "cyclic IRI mapping", "invalid @id value", "invalid @import value",
    "invalid @included value", "invalid @index value", "invalid @nest value",
    "invalid @prefix value", "invalid @propagate value",
    "invalid @protected value", "invalid @reverse value",
    "invalid @version value", "invalid base direction", "invalid base IRI",
    "invalid container mapping", "invalid context entry",
    "invalid context nullification", "invalid default language",
    "invalid IRI mapping", "invalid JSON literal", "invalid keyword alias",
    "invalid language map value", "invalid language mapping",
    "invalid language-tagged string", "invalid language-tagged value",
    "invalid local context", "invalid remote context",
    "invalid reverse property", "invalid reverse property map",
    "invalid reverse property value", "invalid scoped context",
    "invalid set or list object", "invalid term definition",
    "invalid type mapping", "invalid type value", "invalid typed value",
    "invalid value object", "invalid value object value",
    "invalid vocab mapping", "keyword redefinition",
    "loading remote context failed", "protected term redefinition")


class Refused(Exception):
    """Processing is aborted with an error code, and later with its place.

    Context processing knows no place; expansion adds it.
    """

    def __init__(self, code, place=None):
        self.code = code
        self.place = place


class ConflictingIndexes(Exception):
    """API 7.2.2 step 6.8: one node, two different indexes."""

    def __init__(self, node, first, second):
        self.node = node
        self.first = first
        self.second = second
