"""The expansion algorithm: API 5.1."""

from .contexts import ABSENT, NO_CONTAINER, ActiveContext
from .iris import has_form_of_iri
from .keywords import KEYWORDS
from .places import THE_ROOT, with_places
from .processing import context_processing, iri_expansion
from .refusals import Refused
from .values import add_value, direction_of, made_array, value_expansion

_OF_A_VALUE_OBJECT = frozenset((
    "@direction", "@index", "@language", "@type", "@value"))
_OF_A_GRAPH_OBJECT = frozenset(("@graph", "@id", "@index"))
_TYPED_MAPS = frozenset(("@index", "@id", "@type"))


def is_value_object(element):
    return "@value" in element


def is_list_object(element):
    return "@list" in element


def is_node_object(element):
    return not ("@value" in element or "@list" in element
                or "@set" in element)


def is_graph_object(element):
    """A node object with `@graph`, and beside it just `@id` and `@index`."""
    return ("@graph" in element and is_node_object(element)
            and _OF_A_GRAPH_OBJECT.issuperset(element))


def expands(active, text):
    """IRI expanding (API 5.2): vocab is true, document relative false.

    In expansion the active context changes no more, so it may remember.
    """
    known = active.known
    if text not in known:
        known[text] = iri_expansion(active, text, vocab=True)
    return known[text]


def _processed(run, place, active, local, base_url, **flags):
    """Context processing, called by the map or scalar at the place."""
    try:
        return context_processing(run, active, local, base_url, **flags)
    except Refused as refused:
        refused.place = place
        raise


def expand_document(run, document):
    """API 9.1, expand(), steps 5 and 8 with no more than a base, and the last
    step of API 5.1.2 as it stands there for the caller."""
    active = ActiveContext(run.base)
    expanded = expansion(run, active, None, document, THE_ROOT)
    if type(expanded) is dict and len(expanded) == 1 and "@graph" in expanded:
        expanded = expanded["@graph"]
    return made_array(expanded)


def expansion(run, active, active_property, element, place, from_map=False):
    """API 5.1.2.  The outcome is None, a map or an array of maps."""
    # 1.
    if element is None:
        return None
    # 5.
    if type(element) is list:
        return _expand_items(run, active, active_property,
                             with_places(element, place), from_map)
    # 3.
    definition = active.terms.get(active_property)
    scoped = definition.local if definition is not None else ABSENT
    # 4.
    if type(element) is not dict:
        if active_property is None or active_property == "@graph":
            return None
        if scoped is not ABSENT:
            # [Ours: override protected is true here as in step 8.]
            active = _processed(run, place, active, scoped, definition.base,
                                override_protected=True)
        return value_expansion(active, active_property, element)
    # 7.
    if (active.previous is not None and not from_map
            and _is_end_of_propagation(active, element)):
        active = active.previous
    # 8.
    if scoped is not ABSENT:
        active = _processed(run, place, active, scoped, definition.base,
                            override_protected=True)
    # 9.
    if "@context" in element:
        active = _processed(run, place, active, element["@context"], run.base)
    # 10.
    type_context = active
    # 11.  Whether a key expands to `@type` is asked in the active context of
    # that moment, which this loop changes.
    keys = sorted(element)
    for key in keys:
        if expands(active, key) == "@type":
            texts = [text for text in made_array(element[key])
                     if type(text) is str]
            for text in sorted(texts):
                definition = type_context.terms.get(text)
                if definition is not None and definition.local is not ABSENT:
                    active = _processed(run, place, active, definition.local,
                                        definition.base, propagate=False)
    # 12.
    result = {}
    input_type = _input_type(active, keys, element)
    _expand_entries(run, active, type_context, input_type, active_property,
                    element, place, result)
    return _finished(result, active_property, place)


def _expand_items(run, active, active_property, items, from_map):
    """API 5.1.2 step 5, over pairs of an item and its place."""
    definition = active.terms.get(active_property)
    lists = definition is not None and "@list" in definition.container
    result = []
    for item, place in items:
        outcome = expansion(run, active, active_property, item, place,
                            from_map)
        if type(outcome) is list:
            if lists:
                result.append({"@list": outcome})
            else:
                result.extend(outcome)
        elif outcome is not None:
            result.append(outcome)
    return result


def _is_end_of_propagation(active, element):
    """API 5.1.2 step 7: no key expands to `@value`, and the map isn't one
    whose only entry expands to `@id`."""
    for key in element:
        expanded = expands(active, key)
        if expanded == "@value" or expanded == "@id" and len(element) == 1:
            return False
    return True


def _input_type(active, keys, element):
    """API 5.1.2 step 12: the expansion of the last item of the first entry
    whose key expands to `@type`, where that item is a text."""
    for key in keys:
        if expands(active, key) == "@type":
            items = made_array(element[key])
            if items and type(items[-1]) is str:
                return expands(active, items[-1])
            return None
    return None


def _expand_entries(run, active, type_context, input_type, active_property,
                    element, place, result):
    """API 5.1.2 steps 13 and 14.

    The place is that of the element, which in step 14.2.2 is a nested map.
    """
    nests = []
    # 13 and 13.1.
    for key in sorted(element):
        if key == "@context":
            continue
        value = element[key]
        entry = (place, key)
        # 13.2.
        expanded = expands(active, key)
        # 13.4.
        if expanded in KEYWORDS:
            if active_property == "@reverse":
                raise Refused("invalid reverse property map", entry)
            if expanded in result and expanded not in ("@included", "@type"):
                raise Refused("colliding keywords", entry)
            if expanded == "@nest":
                nests.append(key)
            else:
                _expand_keyword(run, active, type_context, input_type,
                                active_property, expanded, value, entry,
                                result)
        # 13.3.
        elif expanded is not None and ":" in expanded:
            _expand_property(run, active, key, expanded, value, place, result)
    # 14.
    for key in nests:
        entry = (place, key)
        for nested, nested_place in with_places(element[key], entry):
            # 14.2.1.
            if type(nested) is not dict or any(
                    expands(active, inner) == "@value" for inner in nested):
                raise Refused("invalid @nest value", entry)
            # 14.2.2.  [Ours: no scoped context is processed, and the nested
            # map has nests of its own.]
            _expand_entries(run, active, type_context, input_type,
                            active_property, nested, nested_place, result)


def _expand_keyword(run, active, type_context, input_type, active_property,
                    keyword, value, entry, result):
    """API 5.1.2 steps 13.4.3 to 13.4.16."""
    if keyword == "@id":
        # 13.4.3.  [Ours: null is not added.]
        if type(value) is not str:
            raise Refused("invalid @id value", entry)
        iri = iri_expansion(active, value, document_relative=True)
        if iri is not None:
            result["@id"] = iri
    elif keyword == "@type":
        # 13.4.4.  [Ours: a type that expands to null is dropped.]
        types = _expand_types(type_context, value, entry)
        if types is not None:
            if "@type" in result:
                add_value(result, "@type", types)
            else:
                result["@type"] = types
    elif keyword == "@graph":
        # 13.4.5.
        result["@graph"] = made_array(expansion(
            run, active, "@graph", value, entry))
    elif keyword == "@included":
        # 13.4.6.  [Ours: null is refused.]
        included = expansion(run, active, None, value, entry)
        if included is None or not all(
                is_node_object(item) for item in made_array(included)):
            raise Refused("invalid @included value", entry)
        add_value(result, "@included", included)
    elif keyword == "@value":
        # 13.4.7.
        if input_type != "@json" and type(value) in (dict, list):
            raise Refused("invalid value object value", entry)
        result["@value"] = value
    elif keyword == "@language":
        # 13.4.8.
        if type(value) is not str:
            raise Refused("invalid language-tagged string", entry)
        result["@language"] = value
    elif keyword == "@direction":
        # 13.4.9.
        if value != "ltr" and value != "rtl":
            raise Refused("invalid base direction", entry)
        result["@direction"] = value
    elif keyword == "@index":
        # 13.4.10.
        if type(value) is not str:
            raise Refused("invalid @index value", entry)
        result["@index"] = value
    elif keyword == "@list":
        # 13.4.11.
        if active_property is not None and active_property != "@graph":
            result["@list"] = made_array(expansion(
                run, active, active_property, value, entry))
    elif keyword == "@set":
        # 13.4.12.
        result["@set"] = expansion(run, active, active_property, value, entry)
    elif keyword == "@reverse":
        # 13.4.13.
        _expand_reverse(run, active, value, entry, result)
    # Others.  [Ours: they are dropped.]


def _expand_types(type_context, value, entry):
    """API 5.1.2 step 13.4.4: a text, a list of texts, or None."""
    def expanded(text):
        return iri_expansion(type_context, text, document_relative=True,
                             vocab=True)

    if type(value) is str:
        return expanded(value)
    if type(value) is list and all(type(text) is str for text in value):
        return [iri for iri in map(expanded, value) if iri is not None]
    raise Refused("invalid type value", entry)


def _add_reverse(result, key, items, entry):
    """API 5.1.2 steps 13.4.13.4 and 13.13.4.  The map and an entry of it are
    made only where an item is added."""
    for item in items:
        if is_value_object(item) or is_list_object(item):
            raise Refused("invalid reverse property value", entry)
        add_value(result.setdefault("@reverse", {}), key, item)


def _expand_reverse(run, active, value, entry, result):
    """API 5.1.2 step 13.4.13."""
    # 13.4.13.1.
    if type(value) is not dict:
        raise Refused("invalid @reverse value", entry)
    # 13.4.13.2.
    outcome = expansion(run, active, "@reverse", value, entry)
    # 13.4.13.3.
    twice = outcome.get("@reverse", {})
    for key in sorted(twice):
        add_value(result, key, twice[key])
    # 13.4.13.4.
    for key in sorted(outcome):
        if key != "@reverse":
            _add_reverse(result, key, outcome[key], entry)


def _expand_property(run, active, key, expanded, value, place, result):
    """API 5.1.2 steps 13.5 to 13.14."""
    entry = (place, key)
    # 13.5.
    definition = active.terms.get(key)
    container = definition.container if definition else NO_CONTAINER
    # 13.6.
    if definition is not None and definition.kind == "@json":
        outcome = {"@value": value, "@type": "@json"}
    # 13.7.
    elif "@language" in container and type(value) is dict:
        outcome = _expand_language_map(active, definition, value, entry)
    # 13.8.
    elif type(value) is dict and not container.isdisjoint(_TYPED_MAPS):
        outcome = _expand_index_map(run, active, key, definition, value,
                                    place, entry)
    # 13.9.
    else:
        outcome = expansion(run, active, key, value, entry)
    # 13.10.
    if outcome is None:
        return
    # 13.11.
    if "@list" in container and not (
            type(outcome) is dict and is_list_object(outcome)):
        outcome = {"@list": made_array(outcome)}
    # 13.12.
    if ("@graph" in container and "@id" not in container
            and "@index" not in container):
        outcome = [{"@graph": [item]} for item in made_array(outcome)]
    # 13.13.
    if definition is not None and definition.reverse:
        _add_reverse(result, expanded, made_array(outcome), entry)
    # 13.14.
    else:
        add_value(result, expanded, outcome)


def _expand_language_map(active, definition, value, entry):
    """API 5.1.2 step 13.7."""
    outcome = []
    # 13.7.2 and 13.7.3.
    side = direction_of(active, definition)
    # 13.7.4.
    for language in sorted(value):
        for item in made_array(value[language]):
            if item is None:
                continue
            if type(item) is not str:
                raise Refused("invalid language map value", entry)
            made = {"@value": item}
            if expands(active, language) != "@none":
                made["@language"] = language
            if side is not None:
                made["@direction"] = side
            outcome.append(made)
    return outcome


def _expand_index_map(run, active, key, definition, value, place, entry):
    """API 5.1.2 step 13.8.

    [Ours: the index, the index key and the expanded index are expanded in the
    active context, not in the map context.]
    """
    container = definition.container
    outcome = []
    # 13.8.2.
    index_key = "@index" if definition.index is None else definition.index
    # 13.8.3.
    for index in sorted(value):
        # 13.8.3.1 to 13.8.3.3.
        context = active
        if (("@id" in container or "@type" in container)
                and active.previous is not None):
            context = active.previous
        if "@type" in container:
            scoping = context.terms.get(index)
            if scoping is not None and scoping.local is not ABSENT:
                context = _processed(run, place, context, scoping.local,
                                     scoping.base)
        # 13.8.3.4.
        expanded_index = expands(active, index)
        # 13.8.3.5 and 13.8.3.6.
        items = _expand_items(
            run, context, key,
            with_places(value[index], (entry, index)), True)
        # 13.8.3.7.
        for item in items:
            if "@graph" in container and not is_graph_object(item):
                item = {"@graph": [item]}
            if expanded_index != "@none":
                _put_index(active, container, index_key, index,
                           expanded_index, item, entry)
            outcome.append(item)
    return outcome


def _put_index(active, container, index_key, index, expanded_index, item,
               entry):
    """API 5.1.2 steps 13.8.3.7.2 to 13.8.3.7.5.  The item is changed."""
    if "@index" in container and index_key != "@index":
        # 13.8.3.7.2.  [Ours: nothing is put where the index or its key
        # expands to null.]
        was_value_object = is_value_object(item)
        again = value_expansion(active, index_key, index)
        expanded_key = expands(active, index_key)
        if again is not None and expanded_key is not None:
            item[expanded_key] = [again] + made_array(item.get(expanded_key))
        # The item counts as a value object as it was before.
        if was_value_object and expanded_key in item:
            raise Refused("invalid value object", entry)
    elif "@index" in container and "@index" not in item:
        # 13.8.3.7.3.
        item["@index"] = index
    elif "@id" in container and "@id" not in item:
        # 13.8.3.7.4.  [Ours: null is not added.]
        iri = iri_expansion(active, index, document_relative=True)
        if iri is not None:
            item["@id"] = iri
    elif "@type" in container:
        # 13.8.3.7.5.  [Ours: null is not added.]
        if expanded_index is not None:
            item["@type"] = [expanded_index] + made_array(item.get("@type"))


def _finished(result, active_property, place):
    """API 5.1.2 steps 15 to 20."""
    # 15.
    if "@value" in result:
        # 15.1.
        if (not _OF_A_VALUE_OBJECT.issuperset(result)
                or "@type" in result
                and ("@language" in result or "@direction" in result)):
            raise Refused("invalid value object", place)
        # 15.2.  [Ours: just the text, not an array of it.]
        if result.get("@type") != "@json":
            # 15.3.
            if result["@value"] is None:
                return None
            # 15.4.
            if "@language" in result and type(result["@value"]) is not str:
                raise Refused("invalid language-tagged value", place)
            # 15.5.
            if "@type" in result:
                kind = result["@type"]
                if type(kind) is not str or not has_form_of_iri(kind):
                    raise Refused("invalid typed value", place)
    # 16.
    elif "@type" in result and type(result["@type"]) is not list:
        result["@type"] = [result["@type"]]
    # 17.1.
    if "@value" not in result and ("@set" in result or "@list" in result):
        if len(result) - ("@index" in result) > 1:
            raise Refused("invalid set or list object", place)
    # 17.2.
    if "@set" in result:
        result = result["@set"]
    if type(result) is dict:
        # 18.
        if len(result) == 1 and "@language" in result:
            return None
        # 19.
        if active_property is None or active_property == "@graph":
            if (not result or "@value" in result or "@list" in result
                    or len(result) == 1 and "@id" in result):
                return None
    # 20.
    return result
