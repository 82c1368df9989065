"""The generated script, computed anew from docs/FORMATS.md."""

from case import text

MULTIPLIER, ADDEND = 6364136223846793005, 1442695040888963407
SUMMARY = text("threads 8", "objects 64", "accesses 160000")


def draws(number):
    """The sequence of draws that a number begins."""
    x = number
    while True:
        x = (x * MULTIPLIER + ADDEND) % 2**64
        yield x // 2**33


def access(draw, thread):
    k = draw % 16
    place = 4 * thread + k % 4 if k < 14 else 32 + draw // 16 % 32
    return f"write o{place} r0" if draw // 512 % 4 == 0 else f"read r2 o{place}"


def generated_text(number):
    """The canonical text of the script that a number generates."""
    sequence = draws(number)
    lines = ["fuel 32768", *[f"object o{place} {place}" for place in range(64)]]
    for thread in range(8):
        lines += ["thread", "set r0 1250", "set r1 1", "while r0"]
        lines += [access(next(sequence), thread) for _ in range(16)]
        lines += ["safe", "sub r0 r0 r1", "end"]
    return text(*lines)
