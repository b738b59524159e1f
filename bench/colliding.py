"""Ids that have one hash under the default hasher of the kit's maps, whose seed is fixed.

The hasher takes 16 bytes at a time as two numbers, puts the first to its state by xor, and multiplies it by the second. So an id whose
first eight bytes are the state itself makes it 0, whatever the next eight are. The state comes from the graph's name, which can be chosen
so that these eight bytes are letters and signs.
"""
import itertools

WORD = (1 << 64) - 1
MULTIPLIER = 0x9E3779B97F4A7C15
START = 0x243F6A8885A308D3
# sixteen bytes, with the colon that an IRI has
END = b"://g/collidingid"


def folded(a, b):
    product = a * b
    return (product & WORD) ^ (product >> 64)


def word(data, at):
    return int.from_bytes(data[at : at + 8], "little")


def short(data):
    if len(data) >= 4:
        return int.from_bytes(data[:4], "little") | int.from_bytes(data[-4:], "little") << 32
    return data[0] | data[len(data) // 2] << 8 | data[-1] << 16 if data else 0


def written(state, data):
    length = len(data)
    if length <= 8:
        return folded(state ^ short(data), MULTIPLIER ^ (2 * length))
    state = (state + length) & WORD
    for at in range(0, length - 16, 16):
        state = folded(word(data, at) ^ state, word(data, at + 8) ^ MULTIPLIER)
    return folded(word(data, max(0, length - 16)) ^ state, word(data, length - 8) ^ MULTIPLIER)


def hashed(state, name):
    return written(written(state, name), b"\xff")


def graph_and_front():
    """A graph's name, and the eight bytes with which an id makes the state after it 0."""
    for number in itertools.count():
        graph = b"http://g/%d" % number
        front = ((hashed(START, graph) + 32) & WORD).to_bytes(8, "little")
        if all(0x21 <= byte <= 0x7E and byte not in b'"\\:_@' for byte in front):
            return graph, front


def ids(count):
    """A graph's name, and so many ids that have one hash in it."""
    graph, front = graph_and_front()
    names = [front + bytes(97 + number // 26**place % 26 for place in range(8)) + END for number in range(count)]
    assert len({hashed(hashed(START, graph), name) for name in names[:100]}) == 1
    return graph.decode(), [name.decode() for name in names]
