"""The commands over raw streams: `pipe`, which writes the messages of request records, and `unpipe`, which reads them.

As all of the model it is written from the standards and docs/, with nothing of the crates in it. A table of rows,
tests/streams/NAME.json, has an interface file, its language as `front`, and rows. A row of `pipe` has `lines` and the octets
that are written as digits; one of `unpipe` has `octets` as digits, and the lines that are written. Digits may be a list, as
the text of an interface file is.
"""
import framing
from calls import BACKS, lines_of, marshal, unmarshal


def piped(back, interfaces, octets):
    """What `pipe` writes over an input, and its status."""
    answers = [marshal(BACKS[back], interfaces, line) for line in lines_of(octets)]
    framed = [framing.framed(back, bytes.fromhex(answer)) for answer in answers if not answer.startswith("!")]
    return b"".join(framed), int(len(framed) < len(answers))


def unpiped(back, interfaces, octets):
    """What `unpipe` writes over an input, and its status."""
    messages, end = framing.cut(back, octets)
    answers = [unmarshal(BACKS[back], interfaces, message.hex().encode()) for message in messages]
    answers += [f"! frame {end}"] * (end is not None)
    return "".join(f"{answer}\n" for answer in answers).encode(), int(any(answer.startswith("!") for answer in answers))


def given(row, spelled):
    """The input of a row."""
    return "".join(f"{line}\n" for line in row["lines"]).encode() if row["command"] == "pipe" else bytes.fromhex(spelled(row["octets"]))


def wanted(row, spelled):
    """The output of a row, and its status: 1 where a line is refused, which `pipe` does not write."""
    if row["command"] == "pipe":
        return bytes.fromhex(spelled(row["answer"])), row.get("status", 0)
    return "".join(f"{line}\n" for line in row["answer"]).encode(), row.get("status", int(any(line.startswith("!") for line in row["answer"])))


def told(row, interfaces, spelled):
    """The model's output of a row, and its status."""
    return (piped if row["command"] == "pipe" else unpiped)(row["over"], interfaces, given(row, spelled))
