"""The figures of the last runs: bench/figures.json, which the tools that measure write, and docs/FIGURES.md, which tests/print_figures prints.

A section has the machine and the kit that its figures are of, what programs they are of where that is said, and its cells: rows by
their names, each with columns by theirs. A cell is a number, a text, or a figure with a second one.
"""
import json
import os
import subprocess

TOP = os.path.dirname(os.path.dirname(os.path.abspath(__file__)))
PATH = f"{TOP}/bench/figures.json"


def kept():
    """All sections."""
    try:
        with open(PATH, encoding="utf-8") as file:
            return json.load(file)
    except FileNotFoundError:
        return {}


def machine():
    """The machine that this runs on."""
    octets = os.sysconf("SC_PAGE_SIZE") * os.sysconf("SC_PHYS_PAGES")
    return f"{os.cpu_count()} processors, {octets / 1e9:.0f} GB"


def kit():
    """The toolchain that proves and builds."""
    try:
        told = subprocess.run(["rt", "--version"], capture_output=True, text=True, check=False).stdout.split()
    except OSError:
        told = []
    return told[0].removeprefix("rattle-kit-") if told else "not known"


def sort_of(program):
    """What sort of program is measured, by the folder that it stands in."""
    return "without proofs, at -O1" if f"{os.sep}quick{os.sep}" in os.path.abspath(program) else "proved" if f"{os.sep}out{os.sep}" in os.path.abspath(program) else "not known"


def write(sections):
    """Writes all sections, a row a line."""
    told = lambda value: json.dumps(value, ensure_ascii=False)
    parts = []
    for name, section in sorted(sections.items()):
        of = "".join(f"  {told(key)}: {told(value)},\n" for key, value in section.items() if key != "cells")
        rows = ",\n".join(f"   {told(row)}: {told(cells)}" for row, cells in section["cells"].items())
        parts.append(f' {told(name)}: {{\n{of}  "cells": {{\n{rows}\n  }}\n }}')
    with open(PATH, "w", encoding="utf-8") as file:
        file.write("{\n" + ",\n".join(parts) + "\n}\n")


def keep(name, cells, programs="", more=False):
    """Puts cells in the place of a section, or with `more` beside those that it has of the same machine, kit and programs."""
    sections, now = kept(), {"machine": machine(), "kit": kit(), "programs": programs}
    before = sections.get(name, {})
    alike = more and all(before.get(key) == value for key, value in now.items())
    sections[name] = {**now, "cells": {**before["cells"], **cells} if alike else cells}
    write(sections)
