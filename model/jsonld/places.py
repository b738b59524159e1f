"""Places of errors, and their print as a JSON Pointer: RFC 6901.

[Ours: all of this.  A place is THE_ROOT, or a pair of the place around it and
a step, which is a key or the number of an item.  An error of a context, a
term or an IRI is at the map or scalar whose expansion called for it.  An
error of an entry is at the entry, and one of a whole map at the map.  What is
made an array for the sake of an algorithm keeps its place.]
"""

THE_ROOT = None


def with_places(value, place):
    """Pairs of the items of a value made an array, and their places."""
    if type(value) is list:
        return [(item, (place, number)) for number, item in enumerate(value)]
    return [] if value is None else [(value, place)]


def steps_of(place):
    """The steps from the root."""
    steps = []
    while place is not THE_ROOT:
        place, step = place
        steps.append(step)
    return steps[::-1]


def pointer_of(steps):
    """RFC 6901, section 5: `~` is ~0 and `/` is ~1.

    [Ours: the root is printed as words.]
    """
    if not steps:
        return "the root"
    return "".join("/" + str(step).replace("~", "~0").replace("/", "~1")
                   for step in steps)
