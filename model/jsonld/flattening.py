"""The flattening algorithm without a context: API 7.1."""

from .node_map import DEFAULT


def _printed(nodes):
    """The nodes in order of their ids, without those of only an id."""
    return [nodes[id_] for id_ in sorted(nodes) if len(nodes[id_]) > 1]


def flattening(node_map):
    """API 7.1.2 steps 3 to 7.  The order is that of issued labels."""
    default = node_map.graphs[DEFAULT]
    # 4.
    for name in sorted(node_map.graphs):
        if name != DEFAULT:
            node = node_map.node(DEFAULT, name)
            node["@graph"] = _printed(node_map.graphs[name])
    # 5 to 7.
    return _printed(default)

