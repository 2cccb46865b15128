"""The interface files of the vectors, read by tests/model; the categories of vectors."""
import os
from functools import lru_cache

import corba_names
import mig
from corba_nodes import told_of_names
from files import interfaces_of

FRONTS = {".x": "onc", ".idl": "corba", ".defs": "mig"}
BACKS = ("xdr", "cdr-be", "cdr-le", "cdr12-be", "cdr12-le", "mach")  # the back ends of which there are vectors
CATEGORIES = ("values", "limits", "heads", "bodies", "trailing", "replies", "choices", "open")


def front_of(path):
    """The language of an interface file, by the end of its name."""
    return FRONTS[os.path.splitext(path)[1]]


@lru_cache(maxsize=None)
def interfaces_over(path, back):
    """What a file offers over a back end, or nothing where it is refused."""
    with open(path, encoding="utf-8") as file:
        text = file.read()
    front = front_of(path)
    if front == "onc":
        return interfaces_of(text)
    if front == "mig":
        return mig.interfaces_of(text)
    return [] if told_of_names(text.encode(), back) else corba_names.interfaces_of(text)
