"""The interface files that edits begin with, in each language, and right requests over them, by the types that the model reads."""
import json
import os
import random
from functools import lru_cache
from importlib.machinery import SourceFileLoader
from importlib.util import module_from_spec, spec_from_loader
from typing import NamedTuple

import corba_names
import corba_samples
import files
import mig
import mig_samples
import onc
from calls import BACKS
from corba_nodes import told_of_names
from samples import sample
from values import Array, Opaque, Pointer, Struct, Union

TOP = os.path.dirname(os.path.dirname(os.path.dirname(os.path.abspath(__file__))))
LONGEST_SEED = 50_000
HEAVIEST_SEED = 2_000
LONGEST_READ = {"onc": 20_000, "mig": 6_000, "corba": 6_000}
GENERATED = 30
SUFFIXES = {"onc": ".x", "mig": ".defs", "corba": ".idl"}
READERS = {"onc": files.interfaces_of, "mig": mig.interfaces_of, "corba": corba_names.interfaces_of}
TOLD = {"onc": onc.told_of_file, "corba": told_of_names}
UNREAD = (AssertionError, KeyError, IndexError, ValueError, AttributeError, TypeError, RecursionError, mig.Refused, corba_names.Refused)


class Source(NamedTuple):
    """A text, and requests from elsewhere."""
    name: str
    text: str
    lines: list


def replay():
    """The program of tests/run, for what it knows of the tables."""
    loader = SourceFileLoader("replay", f"{TOP}/tests/run")
    module = module_from_spec(spec_from_loader("replay", loader))
    loader.exec_module(module)
    return module


def files_of(front):
    """The table of files of a language."""
    table = f"{TOP}/tests/files/{front}.json"
    return table if os.path.exists(table) else f"{TOP}/tests/model/{front}_named.json"


def generated(front):
    """Random files of a language, whose generator makes them with what they have to offer."""
    for number in range(GENERATED):
        rng = generator("sources", front, number)
        if front == "mig":
            yield mig_samples.accepted(rng)[0].decode()
        elif front == "corba":
            yield corba_samples.FileMaker(rng, raises=rng.random() < 0.7).text()


def texts(front, back):
    """The names and texts of all interface files of the repository in a language, and the requests over a back end that stand beside each."""
    tables = replay()
    for row in json.loads(tables.content(files_of(front))):
        yield f"tests/files: {row['name']}", tables.spelled(row["file"]), []
    for table in sorted(os.listdir(f"{TOP}/tests/lines")):
        content = json.loads(tables.content(f"{TOP}/tests/lines/{table}"))
        if content.get("front", "onc") == front:
            rows = [row for row in content["rows"] if row.get("command") == "marshal" and row.get("over", "xdr") == back]
            lines = [row["line"].encode() for row in rows if isinstance(row["line"], str)]
            yield f"tests/lines/{table}", tables.spelled(content["file"]), [line for line in lines if b"\n" not in line]
    for table in sorted(os.listdir(f"{TOP}/tests/texts")):
        content = json.loads(tables.content(f"{TOP}/tests/texts/{table}"))
        if content["front"] == front:
            for text in {tables.spelled(row.get("file", content.get("file", ""))): None for row in content["rows"]}:
                yield f"tests/texts/{table}", text, []
    for folder in ("examples", "bench", "tests/fuzz/seeds"):
        for place, _, names in sorted(os.walk(f"{TOP}/{folder}")):
            for name in sorted(names):
                if name.endswith(SUFFIXES[front]):
                    yield os.path.relpath(f"{place}/{name}", TOP), tables.content(f"{place}/{name}").decode("latin-1"), []
    for number, text in enumerate(generated(front)):
        yield f"generated file {number}", text, []


@lru_cache(maxsize=4000)
def interfaces_in(front, text):
    """The interfaces of a text, where the model reads it: in an ONC file it looks for no faults, and others it reads slowly."""
    try:
        return READERS[front](text) if len(text) <= LONGEST_READ[front] else []
    except UNREAD:
        return []


def refusal_of(front, back, text):
    """The line with which the model refuses a text, nothing where it accepts it, or None where it is not asked."""
    if len(text) > LONGEST_READ[front]:
        return None
    octets = text.encode("latin-1")
    return mig.told_of_file(octets) if front == "mig" else TOLD[front](octets, back)


def weight(ty, known):
    """About how many items a sampled value of a type has at most."""
    if id(ty) not in known:
        element = ty.array.element if isinstance(ty, Pointer) else getattr(ty, "element", None)
        fields = [field for _, field in ty.fields] if isinstance(ty, Struct) else [*ty.arms.values(), ty.default] if isinstance(ty, Union) else [element]
        times = (ty.count.bound if ty.count.exact else 4) if isinstance(ty, (Array, Opaque)) else 1
        known[id(ty)] = times * (1 + sum(weight(field, known) for field in fields if field is not None))
    return known[id(ty)]


def sources(front, back):
    """All files that are not long, once each."""
    return list({text: Source(name, text, lines) for name, text, lines in texts(front, back) if len(text) <= LONGEST_SEED}.values())


@lru_cache(maxsize=4000)
def interfaces_of(front, source_text):
    """The interfaces of a source, where neither requests over them nor replies are long."""
    interfaces, known = interfaces_in(front, source_text), {}
    operations = [operation for interface in interfaces for operation in interface.operations]
    types = [ty for operation in operations for ty in (*operation[2], operation.result, *operation.outs, *(raised.members for raised in operation.raises))]
    return interfaces if max((weight(ty, known) for ty in types), default=0) <= HEAVIEST_SEED else []


def numbers_of(rng, back, operation):
    """The numbers of a request record: over Mach one without a reply has no local port."""
    numbers = {key: rng.choice([0, 1, 7, 2 ** 32 - 1, rng.randrange(2 ** 32)]) for key in BACKS[back].keys}
    return {key: 0 if key == "local" and operation.oneway else n for key, n in numbers.items()}


def requests(rng, front, back, source, count):
    """Right request lines over a source and a back end, and some of those that stand beside it."""
    lines, interfaces = [], [interface for interface in interfaces_of(front, source.text) if BACKS[back].operations(interface)]
    for _ in range(count if interfaces else 0):
        interface = rng.choice(interfaces)
        operations = BACKS[back].operations(interface)
        operation = rng.choice([operation for operation in operations if operation[2] or rng.random() < 0.1] or operations)
        record = {"op": f"{interface.name}.{operation[0]}", **numbers_of(rng, back, operation), "args": [ty.tree(sample(rng, ty)) for ty in operation[2]]}
        lines.append(json.dumps(record, ensure_ascii=rng.random() < 0.5).encode())
    return lines + rng.sample(source.lines, min(len(source.lines), max(1, count // 4)))


def generator(*names):
    """A generator of random choices of its own for each of the names."""
    return random.Random("/".join(map(str, names)))
