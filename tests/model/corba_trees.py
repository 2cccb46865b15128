"""Trees of CORBA files whose leaves are numbered in their order in the text, so that it is known which of two stands first.

As all of the model it is written from the rules, with nothing of the crates in it.
"""
from collections import namedtuple

from corba import Token

Leaf = namedtuple("Leaf", "rule value at")
Tree = namedtuple("Tree", "rule parts at")


def placed(tree, places):
    """A tree whose leaves are numbered in their order in the text."""
    if isinstance(tree, str):
        return Leaf("word", tree, next(places))
    if isinstance(tree, Token):
        return Leaf(tree.kind, tree.value, next(places))
    parts = [placed(part, places) for part in tree[1:]]
    return Tree(tree[0], parts, parts[0].at)


def words_of(tree):
    """The words and marks of a tree itself."""
    return [part.value for part in tree.parts if part.rule == "word"]


def trees_of(tree):
    """The parts of a tree that are not words or marks."""
    return [part for part in tree.parts if part.rule != "word"]


def parts_of(tree, rule):
    """The parts of a list, which is its one part itself where it has no more."""
    return trees_of(tree) if tree.rule == rule else [tree]
