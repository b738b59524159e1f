"""Value expansion (API 5.3), and the standard's "add value"."""

from .contexts import ABSENT
from .processing import iri_expansion


def made_array(value):
    """An array as it is, any other value as an array of one.

    [Ours: null becomes the empty array.]
    """
    if type(value) is list:
        return value
    return [] if value is None else [value]


def add_value(target, key, value):
    """The standard's "add value", as an array, and without a test for
    repeated values.

    An absent entry begins as the empty array, so an empty array as value
    leaves an empty array.
    """
    if key not in target:
        target[key] = []
    elif type(target[key]) is not list:
        target[key] = [target[key]]
    if type(value) is list:
        target[key].extend(value)
    else:
        target[key].append(value)


def value_expansion(active, active_property, value):
    """API 5.3.2, for a scalar.

    [Ours: where the text under `@id` or `@vocab` expands to null, so does the
    whole value.]
    """
    definition = active.terms.get(active_property)
    kind = definition.kind if definition is not None else None
    # 1 and 2.
    if type(value) is str and (kind == "@id" or kind == "@vocab"):
        iri = iri_expansion(active, value, document_relative=True,
                            vocab=kind == "@vocab")
        return None if iri is None else {"@id": iri}
    # 3.
    result = {"@value": value}
    # 4.
    if kind is not None and kind not in ("@id", "@vocab", "@none"):
        result["@type"] = kind
    # 5.
    elif type(value) is str:
        # 5.1 and 5.3.
        language = active.language
        if definition is not None and definition.language is not ABSENT:
            language = definition.language
        if language is not None:
            result["@language"] = language
        # 5.2 and 5.4.
        side = direction_of(active, definition)
        if side is not None:
            result["@direction"] = side
    # 6.
    return result


def direction_of(active, definition):
    """The direction mapping of a term, or else the default base direction."""
    if definition is not None and definition.side is not ABSENT:
        return definition.side
    return active.side
