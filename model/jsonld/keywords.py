"""Keywords: JSON-LD 1.1, section 1.7, without those of framing."""

import re

KEYWORDS = frozenset((
    "@base", "@container", "@context", "@direction", "@graph", "@id",
    "@import", "@included", "@index", "@json", "@language", "@list", "@nest",
    "@none", "@prefix", "@propagate", "@protected", "@reverse", "@set",
    "@type", "@value", "@version", "@vocab"))

_form = re.compile(r"@[A-Za-z]+").fullmatch


def has_keyword_form(text):
    """API 5.2.2 step 2 and 4.2.2 step 5: an at sign and ASCII letters.

    [Ours: the keywords of framing have this form and are no keywords.]
    """
    return text.startswith("@") and _form(text) is not None
