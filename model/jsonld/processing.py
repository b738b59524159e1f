"""Context processing (API 4.1), term creation (4.2), IRI expansion (5.2)."""

from .contexts import NO_CONTAINER, ActiveContext, TermDefinition
from .folder import UNREADABLE
from .iris import has_form_of_iri, is_blank, resolve
from .keywords import KEYWORDS, has_keyword_form
from .reading import ONE_ONE
from .refusals import Refused

MOST_REMOTE_CONTEXTS = 32
MOST_SCOPED_CONTEXTS = 128

_NO_TERMS = frozenset((
    "@base", "@direction", "@import", "@language", "@propagate", "@protected",
    "@version", "@vocab"))
_ENTRIES = frozenset((
    "@id", "@reverse", "@container", "@context", "@direction", "@index",
    "@language", "@nest", "@prefix", "@protected", "@type"))
_ENTRIES_OF_TYPE = frozenset(("@container", "@protected"))


def _load(run, iri):
    """API 4.1.2 steps 5.2.4 and 5.2.5: the tree behind the IRI.

    [Ours: it comes from the folder of contexts alone.]
    """
    if not has_form_of_iri(iri):
        raise Refused("loading remote context failed")
    tree = run.store.get(iri, UNREADABLE)
    if tree is UNREADABLE:
        raise Refused("loading remote context failed")
    return tree


def context_processing(run, active, local, base_url, remote_contexts=(),
                       override_protected=False, propagate=True,
                       validate_scoped=True):
    """API 4.1.2."""
    run.enter()
    # 1.
    result = active.copy()
    # 2.  [Ours: a value that is no truth value is refused in step 5.11.]
    if type(local) is dict and type(local.get("@propagate")) is bool:
        propagate = local["@propagate"]
    # 3.
    if not propagate and result.previous is None:
        result.previous = active
    # 4.
    items = local if type(local) is list else [local]
    # 5.
    for item in items:
        if item is None:
            # 5.1.  The context that was handed in is asked for protected
            # terms, not the result so far.
            if not override_protected and active.has_protected_term():
                raise Refused("invalid context nullification")
            earlier = result
            result = ActiveContext(active.original)
            if not propagate:
                result.previous = earlier
        elif type(item) is str:
            # 5.2.
            result = _remote_context(run, result, item, base_url,
                                     remote_contexts, validate_scoped)
        elif type(item) is not dict:
            # 5.3.
            raise Refused("invalid local context")
        else:
            _context_definition(run, result, item, base_url, remote_contexts,
                                override_protected)
    # 6.
    run.leave()
    return result


def _remote_context(run, result, item, base_url, remote_contexts,
                    validate_scoped):
    """API 4.1.2 step 5.2."""
    # 5.2.1.
    iri = resolve(base_url, item)
    # 5.2.2.
    if not validate_scoped and iri in remote_contexts:
        return result
    # 5.2.3.  [Ours: the limit is 32, and each item of an array begins from the
    # remote contexts that were handed in.]
    if len(remote_contexts) >= MOST_REMOTE_CONTEXTS:
        raise Refused("context overflow")
    # 5.2.5.
    tree = _load(run, iri)
    if type(tree) is not dict or "@context" not in tree:
        raise Refused("invalid remote context")
    # 5.2.6.  Override protected and propagate are the defaults.
    return context_processing(run, result, tree["@context"], iri,
                              remote_contexts + (iri,),
                              validate_scoped=validate_scoped)


def _context_definition(run, result, item, base_url, remote_contexts,
                        override_protected):
    """API 4.1.2 steps 5.4 to 5.13.  The result is changed in place."""
    # 5.5.  It is looked at before an import is merged in.
    if "@version" in item:
        version = item["@version"]
        if type(version) is not float or version != ONE_ONE:
            raise Refused("invalid @version value")
    # 5.6.
    if "@import" in item:
        if type(item["@import"]) is not str:
            raise Refused("invalid @import value")
        tree = _load(run, resolve(base_url, item["@import"]))
        if type(tree) is not dict or type(tree.get("@context")) is not dict:
            raise Refused("invalid remote context")
        if "@import" in tree["@context"]:
            raise Refused("invalid context entry")
        item = {**tree["@context"], **item}
    # 5.7.
    if "@base" in item and not remote_contexts:
        base = item["@base"]
        if base is None:
            result.base = None
        elif type(base) is not str:
            raise Refused("invalid base IRI")
        elif has_form_of_iri(base):
            result.base = base
        elif result.base is not None:
            result.base = resolve(result.base, base)
        else:
            raise Refused("invalid base IRI")
    # 5.8.  [Ours: the text is expanded with vocab as well, so that a relative
    # one is put after the vocabulary mapping that is there.]
    if "@vocab" in item:
        vocab = item["@vocab"]
        if vocab is not None:
            if type(vocab) is str:
                vocab = iri_expansion(result, vocab, document_relative=True,
                                      vocab=True)
            else:
                vocab = None
            if not has_form_of_iri(vocab) and not is_blank(vocab):
                raise Refused("invalid vocab mapping")
        result.vocab = vocab
    # 5.9.  [Ours: a language tag is kept as it is written.]
    if "@language" in item:
        language = item["@language"]
        if language is not None and type(language) is not str:
            raise Refused("invalid default language")
        result.language = language
    # 5.10.
    if "@direction" in item:
        side = item["@direction"]
        if side is not None and side != "ltr" and side != "rtl":
            raise Refused("invalid base direction")
        result.side = side
    # 5.11.
    if "@propagate" in item and type(item["@propagate"]) is not bool:
        raise Refused("invalid @propagate value")
    # 5.12 and 5.13.  [Ours: entries are taken in the order of their keys'
    # UTF-8 bytes, here and everywhere.  A value of `@protected` that is no
    # truth value is taken as false.]
    creation = Creation(run, item, base_url, item.get("@protected") is True,
                        override_protected, remote_contexts)
    for key in sorted(item):
        if key not in _NO_TERMS:
            creation.create(result, key)


class Creation:
    """What the terms of one context definition share.

    A term that IRI expansion creates on the way takes just these, so also
    `protected` as it was handed in, whatever the term under way says.
    """

    __slots__ = ("run", "local", "defined", "base_url", "protected",
                 "override_protected", "remote_contexts")

    def __init__(self, run, local, base_url, protected, override_protected,
                 remote_contexts):
        self.run = run
        self.local = local
        self.defined = {}
        self.base_url = base_url
        self.protected = protected
        self.override_protected = override_protected
        self.remote_contexts = remote_contexts

    def create(self, active, term):
        self.run.enter()
        create_term_definition(self, active, term)
        self.run.leave()


def create_term_definition(creation, active, term):
    """API 4.2.2.  The active context is changed in place."""
    defined = creation.defined
    # 1.
    if term in defined:
        if defined[term]:
            return
        raise Refused("cyclic IRI mapping")
    # 2.
    if term == "":
        raise Refused("invalid term definition")
    defined[term] = False
    # 3.
    value = creation.local[term]
    # 4.
    if term == "@type":
        if (type(value) is not dict or not value
                or not _ENTRIES_OF_TYPE.issuperset(value)
                or value.get("@container", "@set") != "@set"):
            raise Refused("keyword redefinition")
    # 5.  [Ours: the term then counts as defined.]
    elif term in KEYWORDS:
        raise Refused("keyword redefinition")
    elif has_keyword_form(term):
        defined[term] = True
        return
    # 6.
    previous = active.terms.pop(term, None)
    # 7 to 9.
    simple = False
    if value is None:
        value = {"@id": None}
    elif type(value) is str:
        value = {"@id": value}
        simple = True
    elif type(value) is not dict:
        raise Refused("invalid term definition")
    # 10.
    definition = TermDefinition(creation.protected)
    # 11.
    if "@protected" in value:
        if type(value["@protected"]) is not bool:
            raise Refused("invalid @protected value")
        definition.protected = value["@protected"]
    # 12.
    if "@type" in value:
        kind = value["@type"]
        if type(kind) is not str:
            raise Refused("invalid type mapping")
        kind = iri_expansion(active, kind, vocab=True, creation=creation)
        if (kind not in ("@id", "@json", "@none", "@vocab")
                and not has_form_of_iri(kind)):
            raise Refused("invalid type mapping")
        definition.kind = kind
    # 13.
    if "@reverse" in value:
        if _reverse_property(creation, active, value, definition):
            active.terms[term] = definition
        defined[term] = True
        return
    # 14 to 18.
    if not _iri_mapping(creation, active, term, value, simple, definition):
        # [Ours: the term then counts as defined.]
        defined[term] = True
        return
    # 19.
    if "@container" in value:
        definition.container = _container_mapping(value["@container"])
        if "@type" in definition.container:
            if definition.kind is None:
                definition.kind = "@id"
            elif definition.kind not in ("@id", "@vocab"):
                raise Refused("invalid type mapping")
    # 20.  The expansion is without the local context, so a term that comes
    # later in it doesn't help.
    if "@index" in value:
        index = value["@index"]
        if ("@index" not in definition.container or type(index) is not str
                or not has_form_of_iri(
                    iri_expansion(active, index, vocab=True))):
            raise Refused("invalid term definition")
        definition.index = index
    # 21.
    if "@context" in value:
        _scoped_context(creation, active, value["@context"])
        definition.local = value["@context"]
        definition.base = creation.base_url
    # 22.
    if "@language" in value and "@type" not in value:
        language = value["@language"]
        if language is not None and type(language) is not str:
            raise Refused("invalid language mapping")
        definition.language = language
    # 23.
    if "@direction" in value and "@type" not in value:
        side = value["@direction"]
        if side is not None and side != "ltr" and side != "rtl":
            raise Refused("invalid base direction")
        definition.side = side
    # 24.
    if "@nest" in value:
        nest = value["@nest"]
        if type(nest) is not str or nest in KEYWORDS and nest != "@nest":
            raise Refused("invalid @nest value")
        definition.nest = nest
    # 25.
    if "@prefix" in value:
        if ":" in term or "/" in term:
            raise Refused("invalid term definition")
        if type(value["@prefix"]) is not bool:
            raise Refused("invalid @prefix value")
        definition.prefix = value["@prefix"]
        if definition.prefix and definition.mapping in KEYWORDS:
            raise Refused("invalid term definition")
    # 26.
    if not _ENTRIES.issuperset(value):
        raise Refused("invalid term definition")
    # 27.
    if (not creation.override_protected and previous is not None
            and previous.protected):
        if not definition.is_same_but_protected(previous):
            raise Refused("protected term redefinition")
        definition = previous
    # 28.
    active.terms[term] = definition
    defined[term] = True


def _reverse_property(creation, active, value, definition):
    """API 4.2.2 step 13.  Whether the term gets a definition."""
    # 13.1.
    if "@id" in value or "@nest" in value:
        raise Refused("invalid reverse property")
    # 13.2.
    reverse = value["@reverse"]
    if type(reverse) is not str:
        raise Refused("invalid IRI mapping")
    # 13.3.  A keyword has the form of a keyword too.
    if has_keyword_form(reverse):
        return False
    # 13.4.
    mapping = iri_expansion(active, reverse, vocab=True, creation=creation)
    if not has_form_of_iri(mapping) and not is_blank(mapping):
        raise Refused("invalid IRI mapping")
    definition.mapping = mapping
    # 13.5.
    if "@container" in value:
        container = value["@container"]
        if container == "@set" or container == "@index":
            definition.container = frozenset((container,))
        elif container is not None:
            raise Refused("invalid reverse property")
    # 13.6 and 13.7.
    definition.reverse = True
    return True


def _iri_mapping(creation, active, term, value, simple, definition):
    """API 4.2.2 steps 14 to 18.  Whether the term gets a definition."""
    colon = term.find(":", 1)
    slash = "/" in term
    # 14.
    if "@id" in value and value["@id"] != term:
        iri = value["@id"]
        # 14.1.
        if iri is None:
            return True
        # 14.2.1.
        if type(iri) is not str:
            raise Refused("invalid IRI mapping")
        # 14.2.2.
        if iri not in KEYWORDS and has_keyword_form(iri):
            return False
        # 14.2.3.
        mapping = iri_expansion(active, iri, vocab=True, creation=creation)
        if (mapping not in KEYWORDS and not has_form_of_iri(mapping)
                and not is_blank(mapping)):
            raise Refused("invalid IRI mapping")
        if mapping == "@context":
            raise Refused("invalid keyword alias")
        definition.mapping = mapping
        # 14.2.4.
        if slash or 0 < colon < len(term) - 1:
            creation.defined[term] = True
            if iri_expansion(active, term, vocab=True,
                             creation=creation) != mapping:
                raise Refused("invalid IRI mapping")
        # 14.2.5.
        if (simple and ":" not in term and not slash
                and (is_blank(mapping) or mapping[-1:] in ":/?#[]@")):
            definition.prefix = True
    # 15.
    elif colon > 0:
        prefix, _, suffix = term.partition(":")
        # [Ours: as in IRI expansion, a blank node identifier and a suffix
        # that begins with two slashes are no compact IRIs.]
        if prefix == "_" or suffix.startswith("//"):
            definition.mapping = term
            return True
        # 15.1.
        if prefix in creation.local:
            creation.create(active, prefix)
        # 15.2 and 15.3.  [Ours: a prefix whose mapping is null helps not.]
        known = active.terms.get(prefix)
        if known is not None and known.mapping is not None:
            definition.mapping = known.mapping + suffix
        else:
            definition.mapping = term
    # 16.  Without the local context.
    elif slash:
        mapping = iri_expansion(active, term, vocab=True)
        if not has_form_of_iri(mapping):
            raise Refused("invalid IRI mapping")
        definition.mapping = mapping
    # 17.
    elif term == "@type":
        definition.mapping = "@type"
    # 18.
    elif active.vocab is not None:
        definition.mapping = active.vocab + term
    else:
        raise Refused("invalid IRI mapping")
    return True


def _container_mapping(value):
    """API 4.2.2 steps 19.1 to 19.3.

    [Ours: a keyword stands at most once in the array, and beside `@set`, save
    in the containers of graphs, stands exactly one other.]
    """
    words = value if type(value) is list else [value]
    if all(type(word) is str for word in words):
        container = frozenset(words)
        if len(container) == len(words) and container in _CONTAINERS:
            return container
    raise Refused("invalid container mapping")


_CONTAINERS = frozenset(frozenset(words.split()) for words in (
    "@graph", "@id", "@index", "@language", "@list", "@set", "@type",
    "@graph @id", "@graph @index", "@graph @id @set", "@graph @index @set",
    "@set @index", "@set @graph", "@set @id", "@set @type", "@set @language"))
assert NO_CONTAINER not in _CONTAINERS


def _scoped_context(creation, active, local):
    """API 4.2.2 step 21.3: the local context is tried.

    [Ours: it is not tried inside 128 others that are under way, but refused.
    The standard gives no end to a scoped context that imports the file in
    which it stands.]
    """
    run = creation.run
    if run.scoped >= MOST_SCOPED_CONTEXTS:
        raise Refused("invalid scoped context")
    run.scoped += 1
    try:
        context_processing(run, active, local, creation.base_url,
                           creation.remote_contexts, override_protected=True,
                           validate_scoped=False)
    except Refused:
        raise Refused("invalid scoped context") from None
    run.scoped -= 1


def iri_expansion(active, value, document_relative=False, vocab=False,
                  creation=None):
    """API 5.2.2.

    With a creation, terms of its local context are created on the way.
    """
    # 1.
    if value is None or value in KEYWORDS:
        return value
    # 2.
    if has_keyword_form(value):
        return None
    # 3.
    if (creation is not None and value in creation.local
            and not creation.defined.get(value)):
        creation.create(active, value)
    terms = active.terms
    definition = terms.get(value)
    if definition is not None:
        # 4.
        if definition.mapping in KEYWORDS:
            return definition.mapping
        # 5.
        if vocab:
            return definition.mapping
    # 6.  The first colon may be the first character.
    if value.find(":", 1) > 0:
        prefix, _, suffix = value.partition(":")
        # 6.2.
        if prefix == "_" or suffix.startswith("//"):
            return value
        # 6.3.
        if (creation is not None and prefix in creation.local
                and not creation.defined.get(prefix)):
            creation.create(active, prefix)
        # 6.4.
        definition = terms.get(prefix)
        if (definition is not None and definition.mapping is not None
                and definition.prefix):
            return definition.mapping + suffix
        # 6.5.
        if has_form_of_iri(value):
            return value
    # 7.
    if vocab and active.vocab is not None:
        return active.vocab + value
    # 8.
    if document_relative:
        return resolve(active.base, value)
    # 9.
    return value
