"""The labels of types that the Rust counts and document 02 does not.

The Rust compares two tables' types once, at the root (utils.rs 60 to 91, `base_equal`), as DataTypes, which are the same if their
fields are, each with its name and flag (line 88). Of two Maps at the root it takes the flags and types of key and value and
whether they are sorted (lines 65 to 87). A Map below the root is part of a field's type, so that the name and the flag of its
entries and the names of its key and value count. By document 02 they do not, at any depth.

Nothing here is taken from the model's rule, which is held to the Rust on all pairs that do not differ in this way.
"""

import model
from model import DICTIONARY, MAP


def field(image, node, free):
    """Its name, its flag, its id as a union's child, and its type."""
    record = image.nodes[node]
    return (image.name(node), record.nullable, record.id, data_type(image, node, free))


def map_type(image, node, free):
    """Whether a Map is sorted, and the flags and types of its key and value."""
    (entries,) = image.children(node)
    return (MAP, image.nodes[node].p1, [(image.nodes[k].nullable, data_type(image, k, free)) for k in image.children(entries)])


def data_type(image, node, free):
    """A node's code and parameters, and its fields; of a Dictionary the values' type, which is no field. Where `free`, of a Map
    what is taken of one at the root."""
    record, children = image.nodes[node], image.children(node)
    if record.code == MAP and free:
        return map_type(image, node, free)
    below = [(data_type if record.code == DICTIONARY else field)(image, child, free) for child in children]
    return (record.code, record.p1, record.p2, below)


def table_type(image, free=False):
    """A table's type as the Rust compares it; where `free`, with Maps below the root like those at the root."""
    return (map_type if image.nodes[0].code == MAP else data_type)(image, 0, free)


def differ(left, right):
    """Whether two accepted images have types that differ for the Rust, and in nothing but the names of Maps below the root and
    the flags of their entries."""
    a, b = model.Image(left), model.Image(right)
    return table_type(a) != table_type(b) and table_type(a, free=True) == table_type(b, free=True)
