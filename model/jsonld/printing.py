"""Compact JSON: RFC 8259.

[Ours: no white space, keys in the order of their UTF-8 bytes, which is that of
code points, and no escapes but those of `"`, the backslash and the characters
below U+0020, of which U+0008, 9, A, C and D have short ones.]
"""

import json

text_of = json.JSONEncoder(
    ensure_ascii=False, check_circular=False, sort_keys=True,
    separators=(",", ":")).encode
