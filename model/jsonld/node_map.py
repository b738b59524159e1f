"""Node map generation: API 7.2, and blank node identifiers: API 7.4."""

from .contexts import is_same_tree
from .iris import is_blank
from .keywords import KEYWORDS
from .refusals import ConflictingIndexes
from .values import made_array

DEFAULT = "@default"


class Reverse:
    """The active subject as a reverse subject: API 7.2.2 step 6.5."""

    __slots__ = ("id",)

    def __init__(self, id_):
        self.id = id_


class NodeMap:
    """API 7.1.2 step 1, and the state of API 7.4."""

    def __init__(self):
        self.graphs = {DEFAULT: {}}
        self.counter = 0
        self.issued = {}

    def label(self, source=None):
        """API 7.4.2: generate a blank node identifier."""
        if source is not None and source in self.issued:
            return self.issued[source]
        made = "_:b%d" % self.counter
        self.counter += 1
        if source is not None:
            self.issued[source] = made
        return made

    def relabelled(self, text):
        return self.label(text) if is_blank(text) else text

    def node(self, graph, id_):
        nodes = self.graphs[graph]
        if id_ not in nodes:
            nodes[id_] = {"@id": id_}
        return nodes[id_]

    def add(self, element, graph=DEFAULT, subject=None, active_property=None,
            target=None):
        """API 7.2.2: node map generation.

        [Ours, for trees that expansion hardly ever gives: an element that is
        neither an array nor a map is passed over.  A map with both `@value`
        and `@list` is a value object.  A set object is taken as a node object.
        What should be an array is made one.  An `@id`, a type and an `@index`
        that is no text is passed over, and so is a `@reverse` that is no map,
        and in it a keyword as key, and a value or list object.]
        """
        # 1.
        if type(element) is list:
            for item in element:
                self.add(item, graph, subject, active_property, target)
        elif type(element) is dict:
            # 2 to 6.
            if "@value" in element:
                self._add_value(element, graph, subject, active_property,
                                target)
            elif "@list" in element:
                self._add_list(element, graph, subject, active_property,
                               target)
            else:
                self._add_node(element, graph, subject, active_property,
                               target)

    def _put(self, graph, subject, active_property, value):
        """Adds a value to a property of a node, unless it is there."""
        values = self.node(graph, subject).setdefault(active_property, [])
        if not any(is_same_tree(value, there) for there in values):
            values.append(value)

    def _add_value(self, element, graph, subject, active_property, target):
        """API 7.2.2 step 4.  [Ours: without a subject it is skipped.]"""
        if subject is None or type(subject) is Reverse:
            return
        if target is None:
            self._put(graph, subject, active_property, element)
        else:
            target.append(element)

    def _add_list(self, element, graph, subject, active_property, target):
        """API 7.2.2 step 5.  [Ours: without a subject it is skipped.]

        Equal lists are all kept, and the `@index` of a list is lost.
        """
        if subject is None or type(subject) is Reverse:
            return
        items = []
        self.add(made_array(element["@list"]), graph, subject,
                 active_property, items)
        made = {"@list": items}
        if target is None:
            node = self.node(graph, subject)
            node.setdefault(active_property, []).append(made)
        else:
            target.append(made)

    def _add_node(self, element, graph, subject, active_property, target):
        """API 7.2.2 steps 3 and 6."""
        # 3.
        types = [self.relabelled(text)
                 for text in made_array(element.get("@type"))
                 if type(text) is str]
        # 6.1 and 6.2.
        id_ = element.get("@id")
        id_ = self.relabelled(id_) if type(id_) is str else self.label()
        # 6.3.
        node = self.node(graph, id_)
        # 6.4 to 6.6.
        if type(subject) is Reverse:
            self._put(graph, id_, active_property, {"@id": subject.id})
        elif active_property is not None:
            reference = {"@id": id_}
            if target is None:
                self._put(graph, subject, active_property, reference)
            else:
                target.append(reference)
        # 6.7.
        if "@type" in element:
            there = node.setdefault("@type", []) if types else None
            for text in types:
                if text not in there:
                    there.append(text)
        # 6.8.
        index = element.get("@index")
        if type(index) is str:
            if node.get("@index", index) != index:
                raise ConflictingIndexes(id_, node["@index"], index)
            node["@index"] = index
        # 6.9.  [Ours: a blank property is relabelled here too.]
        reverse = element.get("@reverse")
        if type(reverse) is dict:
            for key in sorted(reverse):
                if key in KEYWORDS:
                    continue
                label = self.relabelled(key)
                for value in made_array(reverse[key]):
                    self.add(value, graph, Reverse(id_), label)
        # 6.10.  [Ours: the graph is made also where the array is empty.]
        if "@graph" in element:
            self.graphs.setdefault(id_, {})
            self.add(made_array(element["@graph"]), id_)
        # 6.11.
        if "@included" in element:
            self.add(made_array(element["@included"]), graph)
        # 6.12.
        for key in sorted(element):
            if key in KEYWORDS:
                continue
            label = self.relabelled(key)
            node.setdefault(label, [])
            self.add(made_array(element[key]), graph, id_, label)


def node_map_generation(items):
    """The node map of an expanded document."""
    made = NodeMap()
    made.add(items)
    return made
