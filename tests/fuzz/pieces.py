"""Raw streams for `unpipe`: frames of messages, edited, and the pieces in which they come."""
import fcntl
import os
import subprocess
import threading

from framing import framed

SECONDS = 60
# How much a run reads at once; and of a pipe of packets its octets, and how many pieces of what is read at once it holds.
LONGEST_READ, ROOM, HELD = 65_536, 2 ** 20, 240
# What is put into a stream or in an octet's place.
OCTETS = (0, 0, 0x80, 0x40, 0xff, 1, 24)


def fragments(rng, message):
    """A record of a message in fragments, some of them empty."""
    cuts = sorted(rng.randrange(len(message) + 1) for _ in range(rng.choice((0, 0, 1, 2, 5))))
    places = [0, *cuts, len(message)]
    parts = [message[at:end] for at, end in zip(places, places[1:])]
    return b"".join(((0x80000000 if part is parts[-1] and number == len(parts) - 1 else 0) | len(part)).to_bytes(4, "big") + part
                    for number, part in enumerate(parts))


def edited(rng, stream):
    """A stream after a few edits."""
    stream = bytearray(stream)
    for _ in range(rng.choice((0, 0, 1, 1, 2, 4))):
        at = rng.randrange(len(stream) + 1)
        kind = rng.randrange(4)
        if kind == 0 and at < len(stream):
            stream[at] = rng.choice((*OCTETS, rng.randrange(256)))
        elif kind == 1:
            del stream[at:at + rng.randrange(1, 9)]
        elif kind == 2:
            stream[at:at] = bytes(rng.choice((*OCTETS, rng.randrange(256))) for _ in range(rng.randrange(1, 9)))
        elif kind == 3:
            del stream[at:]
    return bytes(stream)


def stream_of(rng, back, messages):
    """An edited stream of a few messages, and the sizes of the pieces in which it comes."""
    frame = (lambda message: fragments(rng, message)) if back == "xdr" else (lambda message: framed(back, message))
    stream = edited(rng, b"".join(frame(rng.choice(messages)) for _ in range(rng.randrange(6))))
    return stream, [rng.choice((1, 2, 3, 4, 7, 40, 1_000, 70_000)) for _ in range(64)]


def pieces_of(stream, sizes):
    """A stream cut into pieces of such sizes."""
    at = 0
    while at < len(stream):
        size = sizes[at % len(sizes)]
        yield stream[at:at + size]
        at += size


def given(pipe, pieces):
    """Writes piece by piece, and closes the pipe; the reader may have ended before."""
    try:
        for piece in pieces:
            os.write(pipe, piece)
    except BrokenPipeError:
        pass
    finally:
        os.close(pipe)


def fed(words, stream, sizes):
    """What a run writes of an input that comes in pieces of such sizes, and its status.

    A read takes one packet of a pipe of packets, so that pieces are not joined where they are written before the run reads.
    Those of a longer input may be.
    """
    pieces, in_packets = list(pieces_of(stream, sizes)), len(stream) <= LONGEST_READ
    end, pipe = os.pipe2(os.O_CLOEXEC | (os.O_DIRECT if in_packets else 0))
    fcntl.fcntl(pipe, fcntl.F_SETPIPE_SZ, ROOM)
    writer = None if in_packets and len(pieces) <= HELD else threading.Thread(target=given, args=(pipe, pieces))
    writer.start() if writer else given(pipe, pieces)
    with subprocess.Popen(words, stdin=end, stdout=subprocess.PIPE, stderr=subprocess.DEVNULL, close_fds=False) as run:
        os.close(end)
        told, _ = run.communicate(timeout=SECONDS)
    writer.join() if writer else None
    return told, run.returncode
