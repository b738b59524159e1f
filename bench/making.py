"""What the makers of documents share: a generator of numbers, the words of the command line, and arrays of about a given size.

The same words give the same bytes.
"""
import sys


def numbers(seed):
    """The linear congruential generator x(0) = SEED, x(i+1) = (1103515245 x(i) + 12345) mod 2^31."""
    x = seed
    while True:
        yield x
        x = (1103515245 * x + 12345) % 2**31


def size_and_seed(usage):
    """The words BYTES [SEED]; the seed is 1 where none is given."""
    if len(sys.argv) not in (2, 3):
        raise SystemExit(usage)
    return int(sys.argv[1]), int(sys.argv[2]) if len(sys.argv) > 2 else 1


def count_for(size, length):
    """How many items make a text of about this size, where an item of a text of COUNT items has about `length(COUNT)` bytes."""
    count = 1
    while count * length(count) < size:
        count = count * 5 // 4 + 1
    return max(1, size // (length(count) + 1))


def write_items(before, items, after):
    """Writes the items with commas between them."""
    out = sys.stdout
    out.write(before)
    for i, item in enumerate(items):
        out.write("," + item if i else item)
    out.write(after)
