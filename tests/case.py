"""What a case is, and how scripts and logs are written in the tests."""

import importlib.machinery
import importlib.util
import pathlib
from dataclasses import dataclass, field
from hashlib import sha256

_LOADER = importlib.machinery.SourceFileLoader("log_tool", str(pathlib.Path(__file__).resolve().parent.parent / "tools" / "log"))
log_tool = importlib.util.module_from_spec(importlib.util.spec_from_loader("log_tool", _LOADER))
_LOADER.exec_module(log_tool)

# The commands that are an access of an object.
ACCESSES = {"read", "write", "bump"}


@dataclass
class Case:
    """One call of the program: its words and files, and what it owes."""

    name: str
    words: list
    files: dict = field(default_factory=dict)
    said: bytes = b""
    status: int = 0
    # The files that are new or changed after the call.
    written: dict = field(default_factory=dict)


def text(*lines):
    """Lines, each ended by LF."""
    return "".join(line + "\n" for line in lines).encode()


def script(line):
    """A script in one line, with ` / ` where a line ends."""
    return text(*line.split(" / "))


def log(*threads):
    """The bytes of a log in version 1. A thread is its accesses and then its marks, each (kind, gap, thread, number)."""
    out = b"OCTL\x01" + bytes([len(threads)])
    for accesses, *marks in threads:
        out += accesses.to_bytes(4, "big") + len(marks).to_bytes(4, "big")
        for kind, gap, thread, number in marks:
            out += bytes([kind]) + gap.to_bytes(4, "big") + bytes([thread]) + number.to_bytes(8, "big")
    return out


def told(line):
    """The bytes in version 1 of a log that `show` would tell so, with ` / ` where a line ends: it may lie."""
    return log_tool.encoded(log_tool.read(script(line).decode()))


def second(content, *threads):
    """The bytes of a log in version 2, with the digest of a script and a piece for each thread that has marks."""
    out = b"OCTL\x02" + bytes([len(threads)]) + sha256(content).digest()
    for number, (_, *marks) in enumerate(threads):
        if marks:
            out += piece(number, *marks)
    return out + tail(*[accesses for accesses, *_ in threads])


def piece(number, *marks):
    out = bytes([number]) + short(len(marks))
    for kind, gap, thread, upto in marks:
        out += bytes([kind]) + short(gap) + (bytes([thread]) if kind == 1 else b"") + short(upto)
    return out


def tail(*accesses):
    return b"\xff" + b"".join(map(short, accesses))


def short(number):
    """A number in groups of 7 bits, the lowest first; bit 7 is set in every byte but the last."""
    out = b""
    while number >= 128:
        out += bytes([number % 128 + 128])
        number //= 128
    return out + bytes([number])


def frame(kind, body):
    """A frame of a marks file, with its checksum."""
    front = bytes([kind]) + len(body).to_bytes(4, "big") * 2 + body
    return front + sha256(front).digest()[:8]


def marks_head(threads, declared, *starts):
    """The head of a marks file, behind the magic and the version."""
    return b"OCTM\x01" + frame(0, bytes([threads]) + declared + b"".join(start.to_bytes(8, "big") for start in starts))


def block(thread, first, gap, digest, *marks):
    """A block of a thread. Each mark is its source, its gap, and how far its number is from the last of that source."""
    body = bytes([thread]) + first.to_bytes(8, "big") + gap.to_bytes(4, "big") + digest.to_bytes(8, "big")
    return frame(1, body + b"".join(bytes([source]) + short(since) + short(number) for source, since, number in marks))


def end(thread, events):
    return frame(2, bytes([thread]) + events.to_bytes(8, "big"))


def join(gap, thread, upto):
    return (1, gap, thread, upto)


def draw(gap, number):
    return (2, gap, 0, number)


def fence(gap, number):
    return (3, gap, 0, number)
