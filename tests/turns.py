"""Runs whose order is given: worked rows, and many small ones beside the plain machine."""

import random

import machine
from case import Case, draw, fence, join, log, script, text
from cases import COUNTED, COUNTED_LOG, COUNTED_SAID, SPLIT_READS, TWO_READS, TWO_READS_LOG, TWO_READS_SAID

HANDOVER = script("object x 5 / thread / set r0 7 / write x r0 / thread / read r0 x")

# Name, script, picks, what is said, log. Each was worked out step by step, by hand.
ROWS = [
    (
        "thread 0 first",
        HANDOVER,
        "0000",
        text("thread 0 done", "thread 1 done 7", "object x 7"),
        bytes.fromhex(
            "4f43544c 01 02 00000001 00000000 00000001 00000001 01 00000000 00 0000000000000001".replace(" ", "")
        ),
    ),
    (
        "thread 1 first",
        HANDOVER,
        "1111111",
        text("thread 0 done", "thread 1 done 5", "object x 7"),
        log((1, join(0, 1, 2)), (1, join(0, 0, 0))),
    ),
    (
        "a shared read: a draw and a fence",
        script("object x 9 / thread / thread / read r0 x / read r1 x / thread / read r0 x"),
        "1111112222222",
        text("thread 0 done", "thread 1 done 9 9", "thread 2 done 9", "object x 9"),
        log((0,), (2, join(0, 0, 0), fence(1, 1)), (1, join(0, 1, 1), draw(0, 1))),
    ),
    (
        "two threads that want what the other has",
        script(
            "object x 0 / object y 0 / thread / set r0 1 / write y r0"
            " / thread / set r0 2 / write y r0 / write x r0"
        ),
        "1111110010101001101",
        text("thread 0 done", "thread 1 done", "object x 2", "object y 1"),
        log((1, join(0, 1, 2)), (2, join(0, 0, 0), join(1, 0, 0))),
    ),
    (
        "a write that asks fifteen readers",
        script("object x 1 / thread / set r0 9 / write x r0" + " / thread / read r0 x" * 15),
        "1111111" + "2222222" + "".join(digit * 5 for digit in "3456789abcdef"),
        text("thread 0 done", *[f"thread {t} done 1" for t in range(1, 16)], "object x 9"),
        log(
            (1, join(0, 1, 2), join(0, 2, 3), *[join(0, u, 2) for u in range(3, 16)]),
            (1, join(0, 0, 0)),
            (1, join(0, 1, 1), draw(0, 1)),
            *[(1, fence(0, 1))] * 13,
        ),
    ),
    (
        "an object that is taken while its owner is marked blocked",
        script(
            "object x 0 / thread / set r0 1 / write x r0 / pause / write x r0 / thread / set r0 2 / write x r0"
        ),
        "00001111110000100",
        text("thread 0 done", "thread 1 done", "object x 1"),
        log((2, join(1, 1, 2)), (1, join(0, 0, 1))),
    ),
    (
        "a counter, thread 0 first",
        COUNTED,
        "000000",
        COUNTED_SAID,
        COUNTED_LOG,
    ),
    (
        "a counter that is taken between two bumps",
        COUNTED,
        "000" + "1111" + "000" + "11111",
        COUNTED_SAID,
        log((2, join(1, 1, 2)), (1, join(0, 0, 1))),
    ),
    (
        "a read on either side of two writes",
        TWO_READS,
        "000111100111111100011111",
        TWO_READS_SAID,
        TWO_READS_LOG,
    ),
    (
        "the same, and a region between the reads",
        SPLIT_READS,
        "000111100111111100011111",
        TWO_READS_SAID,
        TWO_READS_LOG,
    ),
    (
        "a claim that comes too late",
        script("object x 0 / thread / thread / set r0 1 / write x r0 / thread / set r0 2 / write x r0"),
        "1212121111",
        text("thread 0 done", "thread 1 done", "thread 2 done", "object x 2"),
        log((0,), (1, join(0, 0, 0)), (1, join(0, 1, 2))),
    ),
]


def cases():
    """Each row run, and its log replayed and verified."""
    for name, content, picks, said, recorded in ROWS:
        both = {"S": content, "L": recorded}
        yield Case(f"turns: {name}", ["turns", "S", "L", picks], {"S": content}, said, 0, {"L": recorded})
        yield Case(f"turns, replayed: {name}", ["replay", "S", "L"], both, said)
        yield Case(f"turns, replayed on threads: {name}", ["parallel", "S", "L"], both, said)
        yield Case(f"turns, verified: {name}", ["verify", "S", "L"], both, text("ordered"))
    for name, picks in [("none", ""), ("no digit", "01g"), ("a blank", "0 1"), ("65,537 of them", "0" * 65537)]:
        yield Case(f"turns: picks, {name}", ["turns", "S", "L", picks], {"S": HANDOVER}, text("words: not a command"), 1)
    said, recorded = machine.played(HANDOVER, "1" * 65536)
    yield Case("turns: 65,536 picks", ["turns", "S", "L", "1" * 65536], {"S": HANDOVER}, said, 0, {"L": recorded})
    yield Case(
        "turns: capitals, and digits past the last thread",
        ["turns", "S", "L", "FBD97531"],
        {"S": HANDOVER},
        text("thread 0 done", "thread 1 done 5", "object x 7"),
        0,
        {"L": log((1, join(0, 1, 2)), (1, join(0, 0, 0)))},
    )


def some_commands(dice, depth=2):
    """A few commands, among them loops that end."""
    lines = []
    for _ in range(dice.randint(0, 5)):
        kind = dice.choice(["read", "write", "read", "write", "bump", "safe", "pause", "region", "add", "while", "if"])
        if kind == "read":
            lines.append(f"read r{dice.randint(0, 3)} {dice.choice('xy')}")
        elif kind in ("write", "bump"):
            lines.append(f"{kind} {dice.choice('xy')} r{dice.randint(0, 3)}")
        elif kind == "add":
            lines += [f"set r0 {dice.randint(0, 9)}", "add r1 r0 r2"]
        elif kind == "if":
            lines += [f"if r{dice.randint(0, 3)}", *(some_commands(dice, depth - 1) if depth else []), "end"]
        elif kind == "while" and depth:
            counter = f"r{10 + depth}"
            body = some_commands(dice, depth - 1)
            lines += [f"set {counter} {dice.randint(0, 3)}", "set r15 1", f"while {counter}"]
            lines += [*body, f"sub {counter} {counter} r15", "end"]
        elif kind in ("safe", "pause", "region"):
            lines.append(kind)
    return lines


def random_runs(count):
    """Small scripts with picks: what is said and the log, as the plain machine has them."""
    dice = random.Random(1313)
    for _ in range(count):
        lines = [f"fuel {dice.choice([3, 20, 60])}", "object x 1", "object y 2"]
        for _ in range(dice.randint(1, 4)):
            lines += ["thread", *some_commands(dice)]
        content = text(*lines)
        picks = "".join(dice.choice("0123456789abcdef") for _ in range(dice.randint(1, 60)))
        yield content, picks, *machine.played(content, picks)
