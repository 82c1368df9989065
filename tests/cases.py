"""The cases of the end-to-end tests: words and files in, text, status and files out.

Expected values come from docs/FORMATS.md or are worked out by hand, never from the program.
"""

import pathlib
from hashlib import sha256

from case import Case, block, draw, end, fence, frame, join, log, marks_head, piece, script, second, short, tail, text, told

EXAMPLES = pathlib.Path(__file__).resolve().parent.parent / "examples"


def example(name):
    return (EXAMPLES / name).read_bytes()


def runs(command, name, content, said, *threads):
    """A run: its log is in version 2 with the script's digest, and behind one lock in version 1."""
    written = second(content, *threads) if command == "run" else log(*threads)
    return Case(f"{command}: {name}", [command, "S", "L"], {"S": content}, said, 0, {"L": written})


def tidied(name, content, *lines):
    return Case(f"tidy: {name}", ["tidy", "S"], {"S": content}, text(*lines))


def refused(name, content, line):
    return Case(f"refused: {name}", ["tidy", "S"], {"S": content}, text(f"script: line {line}"), 2)


def shown(name, content, said, status=0):
    return Case(f"show: {name}", ["show", "L"], {"L": content}, said, status)


def log_refused(name, content, line):
    return shown(name, content, text(f"log: {line}"), 3)


def judged(command, name, content, recorded, said, status=0):
    """A call on a script and a log; a command may have further words."""
    command, *more = command.split()
    words = [command, "S", "L", *more]
    return Case(" ".join([command, *more]) + f": {name}", words, {"S": content, "L": recorded}, said, status)


def recorded(name, content, log_bytes, said):
    """A log that a run may leave: both replays say what the run said, and all conflicts are ordered."""
    return [
        judged("replay", name, content, log_bytes, said),
        judged("parallel", name, content, log_bytes, said),
        judged("verify", name, content, log_bytes, text("ordered")),
    ]


ONE = script("object x 5 / thread / read r0 x")
HANDOVER = example("handover.octet")

# Thread 0 has x to itself, thread 1 has y, and threads 1 and 2 read z.
APART = script(
    "object x 1 / object y 10 / object z 7 / thread / read r0 x / add r0 r0 r0 / write x r0 / read r1 x"
    " / thread / read r0 z / bump y r0 / read r1 y / thread / read r2 z"
)
APART_SAID = text("thread 0 done 1 2", "thread 1 done 7 17", "thread 2 done 7", "object x 2", "object y 17", "object z 7")

# Scripts that leave the same log in whatever order their threads run: name, script, what is said, threads of the log.
SAME_RUNS = [
    ("one thread", ONE, text("thread 0 done 5", "object x 5"), (1,)),
    ("a loop of writes", example("countdown.octet"), text("thread 0 done", "object x 1"), (1000,)),
    ("a thread that is spent", example("spent.octet"), text("thread 0 spent 0", "object x 0"), (1,)),
    (
        "a first reader joins thread 0",
        script("object y 3 / thread / thread / read r0 y"),
        text("thread 0 done", "thread 1 done 3", "object y 3"),
        (0,), (1, join(0, 0, 0)),
    ),
    (
        "an owner's further accesses need no mark",
        script("object y 3 / thread / thread / read r0 y / write y r0 / read r0 y"),
        text("thread 0 done", "thread 1 done 3 3", "object y 3"),
        (0,), (3, join(0, 0, 0)),
    ),
    (
        "sixteen threads that do nothing",
        text(*["thread"] * 16),
        text(*[f"thread {t} done" for t in range(16)]),
        *[(0,)] * 16,
    ),
    (
        "the last command takes the last fuel",
        script("fuel 2 / object x 0 / thread / set r0 1 / write x r0"),
        text("thread 0 done", "object x 1"),
        (1,),
    ),
    (
        "sums and products past 64 bits",
        script(
            "object a 0 / object b 0 / object c 0 / thread / set r0 18446744073709551615 / set r1 2 / add r2 r0 r1"
            " / write a r2 / sub r2 r1 r0 / write b r2 / mul r2 r0 r1 / write c r2"
        ),
        text("thread 0 done", "object a 1", "object b 3", "object c 18446744073709551614"),
        (3,),
    ),
    (
        "a bump past 64 bits",
        script("object n 18446744073709551615 / thread / set r0 2 / bump n r0"),
        text("thread 0 done", "object n 1"),
        (1,),
    ),
    (
        "ninety thousand nested branches",
        text("thread", *["if r0"] * 90_000, *["end"] * 90_000),
        text("thread 0 done"),
        (0,),
    ),
]  # fmt: skip
# Thread 0 reads x before thread 1 writes it, and y after that wrote y.
TWO_READS = script(
    "object x 1 / object y 1 / thread / read r0 x / safe / read r1 y / thread / set r0 2 / write x r0 / write y r0"
)
SPLIT_READS = TWO_READS.replace(b"safe", b"region\nsafe")
TWO_READS_LOG = log((2, join(1, 1, 4)), (2, join(0, 0, 1), join(1, 0, 1)))
TWO_READS_SAID = text("thread 0 done 1 2", "thread 1 done", "object x 2", "object y 2")
ONE_SAID = text("thread 0 done 5", "object x 5")
RUNS = [
    *[runs("run", *each) for each in SAME_RUNS],
    Case("run: over the script's own file", ["run", "S", "S"], {"S": ONE}, ONE_SAID, 0, {"S": second(ONE, (1,))}),
    # Two logs that are written out but for their digests.
    Case(
        "run: 40 bytes", ["run", "S", "L"], {"S": ONE}, ONE_SAID, 0,
        {"L": bytes.fromhex("4f43544c0201") + sha256(ONE).digest() + bytes.fromhex("ff01")},
    ),
    Case(
        "run: 41 bytes", ["run", "S", "L"], {"S": example("countdown.octet")}, text("thread 0 done", "object x 1"), 0,
        {"L": bytes.fromhex("4f43544c0201") + sha256(example("countdown.octet")).digest() + bytes.fromhex("ffe807")},
    ),
]  # fmt: skip
LOCKED = [
    *[runs("locked", *each) for each in SAME_RUNS],
    Case("locked: over the script's own file", ["locked", "S", "S"], {"S": ONE}, ONE_SAID, 0, {"S": log((1,))}),
    Case(
        "locked: 14 bytes", ["locked", "S", "L"], {"S": ONE}, ONE_SAID, 0,
        {"L": bytes.fromhex("4f43544c01010000000100000000")},
    ),
]  # fmt: skip

EVERY_COMMAND = [
    "fuel 9", "object a 18446744073709551615", "thread", "set r0 1", "copy r1 r0", "add r2 r0 r1", "sub r3 r0 r1",
    "mul r4 r0 r1", "xor r5 r0 r1", "less r6 r0 r1", "same r7 r0 r1", "read r8 a", "write a r15", "bump a r14", "while r9",
    "if r10", "safe", "end", "pause", "region", "end",
]  # fmt: skip
OBJECTS = [f"object o{place} 0" for place in range(1024)]
LONGEST = "object " + "n" * 32 + " 1"

TIDY = [
    tidied(
        "one canonical text",
        b"# t\r\n\tobject  x 007\r\nthread # main\r\n read r0 x",
        "fuel 16384", "object x 7", "thread", "read r0 x",
    ),
    tidied("every command", text(*EVERY_COMMAND), *EVERY_COMMAND),
    tidied(
        "ninety thousand nested branches",
        text("thread", *["if r0"] * 90_000, *["end"] * 90_000),
        "fuel 16384", "thread", *["if r0"] * 90_000, *["end"] * 90_000,
    ),
    tidied("as many objects as there may be", text(*OBJECTS, "thread"), "fuel 16384", *OBJECTS, "thread"),
    tidied("as much fuel as there may be", text("fuel 262144", "thread"), "fuel 262144", "thread"),
    tidied("as much fuel for all threads", text("fuel 131072", "thread", "thread"), "fuel 131072", "thread", "thread"),
    tidied("twenty digits", text("object x 00000000000000000009", "thread"), "fuel 16384", "object x 9", "thread"),
    tidied("a name of 32 bytes", text(LONGEST, "thread"), "fuel 16384", LONGEST, "thread"),
    tidied(
        "names that are words of the language",
        text("object thread 1", "object r0 2", "object end 3", "thread", "read r0 r0"),
        "fuel 16384", "object thread 1", "object r0 2", "object end 3", "thread", "read r0 r0",
    ),
    tidied("a comment in another script", "thread # \u00fc \u20ac\n".encode(), "fuel 16384", "thread"),
    tidied(
        "a text that is longer than a script may be",
        text("object o 1", "thread", *["read r0 o"] * 104_855),
        "fuel 16384", "object o 1", "thread", *["read r0 o"] * 104_855,
    ),
]  # fmt: skip

# A cause may have several rows: the first is the plain one, and then come near misses.
REFUSED = [
    refused("1, bytes that are no UTF-8", b"thread\nsafe\n\xff\n", "3: 1 not UTF-8"),
    refused("1, before any other refusal", b"jump\nthread\nsafe \xff\n", "3: 1 not UTF-8"),
    refused("1, cut short by the end", b"thread\nsafe # \xc3", "2: 1 not UTF-8"),
    refused("1, longer than need be", b"thread\n# \xc0\x80\n", "2: 1 not UTF-8"),
    refused("2, no command", script("thread / jump r0"), "2: 2 unknown word"),
    refused("2, a capital", text("Thread"), "1: 2 unknown word"),
    refused("2, a byte order mark", "\ufeffthread\n".encode(), "1: 2 unknown word"),
    refused("2, a vertical tab", b"thread\x0b\n", "1: 2 unknown word"),
    refused("2, before the count", text("jump"), "1: 2 unknown word"),
    refused("3, too few", script("thread / set r0"), "2: 3 wrong count of words"),
    refused("3, too many", script("thread / safe / end end"), "3: 3 wrong count of words"),
    refused("3, a bump of no register", script("object x 1 / thread / bump x"), "3: 3 wrong count of words"),
    refused("3, before being misplaced", text("read r0"), "1: 3 wrong count of words"),
    refused("4, 65 bits", script("thread / set r0 18446744073709551616"), "2: 4 bad number"),
    refused("4, twenty-one digits", text("object x 000000000000000000001"), "1: 4 bad number"),
    refused("4, a sign", script("thread / set r0 +1"), "2: 4 bad number"),
    refused("4, before there being two", script("fuel 1 / fuel one"), "2: 4 bad number"),
    refused("5, a digit first", text("object 1x 0"), "1: 5 bad name"),
    refused("5, 33 bytes", text("object " + "n" * 33 + " 0"), "1: 5 bad name"),
    refused("5, another letter", "object \u00fc 0\n".encode(), "1: 5 bad name"),
    refused("6, a name given twice", script("object x 0 / object x 1"), "2: 6 name given twice"),
    refused("6, before its number", script("object x 0 / object x no"), "2: 6 name given twice"),
    refused("6, before there being too many", text(*OBJECTS, "object o0 1"), "1025: 6 name given twice"),
    refused("7, read", script("thread / read r0 x"), "2: 7 no such object"),
    refused("7, bump", script("thread / bump x r0"), "2: 7 no such object"),
    refused("7, another case", script("object x 0 / thread / write X r0"), "3: 7 no such object"),
    refused("7, from left to right", script("thread / write x r16"), "2: 7 no such object"),
    refused("7, past the last name", text(*OBJECTS, "thread", "read r0 o1023", "read r0 o1024"), "1027: 7 no such object"),
    refused("8, sixteen", script("object x 1 / thread / read r16 x"), "3: 8 bad register"),
    refused("8, of a bump", script("object x 1 / thread / bump x r16"), "3: 8 bad register"),
    refused("8, a leading zero", script("thread / copy r0 r01"), "2: 8 bad register"),
    refused("8, no number", script("thread / while r"), "2: 8 bad register"),
    refused("8, from left to right", script("thread / read R0 x"), "2: 8 bad register"),
    refused("9, a command before any thread", text("read r0 x"), "1: 9 misplaced"),
    refused("9, an object after a thread", script("thread / object x 1"), "2: 9 misplaced"),
    refused("9, fuel after a thread, before its number", script("thread / fuel none"), "2: 9 misplaced"),
    refused("10, at the end", script("thread / while r0 / safe"), "2: 10 unclosed"),
    refused("10, the innermost open one", script("thread / if r0 / while r0 / thread"), "3: 10 unclosed"),
    refused("10, where the inner one is closed", script("thread / if r0 / while r0 / end / thread"), "2: 10 unclosed"),
    refused("10, the innermost of a thousand", text("thread", *["while r0"] * 1000), "1001: 10 unclosed"),
    refused("10, before there being too many", text(*["thread"] * 16, "if r7", "thread"), "17: 10 unclosed"),
    refused("11, an end of nothing", script("thread / end"), "2: 11 end without open"),
    refused("11, one too many", script("thread / if r0 / end / end"), "4: 11 end without open"),
    refused("11, after a thousand reads", text("object x 0", "thread", *["read r0 x"] * 1000, "end"), "1003: 11 end without open"),
    refused("12, objects", text(*OBJECTS, "object more 0"), "1025: 12 too many"),
    refused("12, threads", text(*["thread"] * 17), "17: 12 too many"),
    refused("12, before the fuel", text("fuel 16384", *["thread"] * 17), "18: 12 too many"),
    refused("13, no text", b"", "1: 13 no thread"),
    refused("13, no words", b"# only\n\n", "3: 13 no thread"),
    refused("14, none", text("fuel 0"), "1: 14 bad fuel"),
    refused("14, one too much", text("fuel 262145"), "1: 14 bad fuel"),
    refused("14, a second line", script("fuel 1 / fuel 1"), "2: 14 bad fuel"),
    refused("14, too much for all threads", text("fuel 16385", *["thread"] * 16), "17: 14 bad fuel"),
    Case("refused: nothing is written", ["run", "S", "L"], {"S": b""}, text("script: line 1: 13 no thread"), 2),
]

# The prefixes of a script of 27 bytes.
CUT = ONE[:-1]
PREFIXES = [
    refused(f"the first {size} bytes of a script", CUT[:size], line)
    for sizes, line in [
        ([0, 10], "1: 13 no thread"),
        (range(1, 6), "1: 2 unknown word"),
        (range(6, 10), "1: 3 wrong count of words"),
        ([11], "2: 13 no thread"),
        (range(12, 17), "2: 2 unknown word"),
        (range(19, 22), "3: 2 unknown word"),
        (range(22, 27), "3: 3 wrong count of words"),
    ]
    for size in sizes
] + [
    tidied(f"the first {size} bytes of a script", CUT[:size], "fuel 16384", "object x 5", "thread") for size in [17, 18]
]  # fmt: skip

HANDOVER_SAID = text("thread 0 done", "thread 1 done 7", "object x 7")
HANDOVER_LOG = log((1,), (1, join(0, 0, 1)))
HANDOVER_UNMARKED = told("threads 2 / thread 0 accesses 1 marks 0 / thread 1 accesses 1 marks 0")
HANDOVER_STUCK = told(
    "threads 2 / thread 0 accesses 1 marks 1 / gap 0 join 1 1 / thread 1 accesses 1 marks 1 / gap 0 join 0 1"
)

# Thread 1 reads first, and then thread 2 does: x becomes read-shared, and thread 1 fences.
SHARED = script("object x 9 / thread / thread / read r0 x / read r1 x / thread / read r0 x")
SHARED_LOG = log((0,), (2, join(0, 0, 0), fence(1, 1)), (1, join(0, 1, 1), draw(0, 1)))

# Each thread hands one object over while it waits for the other.
CROSSED = script(
    "object x 0 / object y 0 / thread / set r0 1 / write y r0 / thread / set r0 2 / write y r0 / write x r0"
)
CROSSED_LOG = log((1, join(0, 1, 2)), (2, join(0, 0, 0), join(1, 0, 0)))

# Thread 1 joins the write of x only after the event that thread 2 joins.
KNOWN_LATER = script(
    "object x 0 / object y 0 / thread / set r0 1 / write x r0 / thread / write y r0 / thread / read r0 x"
)
KNOWN_LATER_LOG = told(
    "threads 3 / thread 0 accesses 1 marks 0 / thread 1 accesses 1 marks 1 / gap 1 join 0 1"
    " / thread 2 accesses 1 marks 1 / gap 0 join 1 1"
)

# A counter that two threads bump, the first of them twice.
COUNTED = script("object n 5 / thread / set r0 2 / bump n r0 / bump n r0 / thread / set r0 3 / bump n r0")
COUNTED_SAID = text("thread 0 done", "thread 1 done", "object n 12")
COUNTED_LOG = log((2,), (1, join(0, 0, 2)))
COUNTED_UNMARKED = told("threads 2 / thread 0 accesses 2 marks 0 / thread 1 accesses 1 marks 0")

HIGHEST = 2**64 - 1

LOGS = (
    recorded("thread 1 joins thread 0", HANDOVER, HANDOVER_LOG, HANDOVER_SAID)
    + recorded(
        "a draw and a fence", SHARED, SHARED_LOG,
        text("thread 0 done", "thread 1 done 9 9", "thread 2 done 9", "object x 9"),
    )
    + recorded(
        "objects that cross", CROSSED, CROSSED_LOG,
        text("thread 0 done", "thread 1 done", "object x 2", "object y 1"),
    )
    + recorded("a counter that two threads bump", COUNTED, COUNTED_LOG, COUNTED_SAID)
    + recorded(
        "a thread that is spent",
        example("spent.octet"),
        log((1,)),
        text("thread 0 spent 0", "object x 0"),
    )
    + recorded(
        "a flag",
        example("flag.octet"),
        log((2,), (2, join(0, 0, 2), join(1, 0, 2))),
        text("thread 0 done", "thread 1 done 1 42", "object x 42", "object flag 1"),
    )
    + recorded("threads that share nothing that is written", APART, log((3,), (3, join(0, 0, 3)), (1, join(0, 1, 2))), APART_SAID)
    + recorded("the same without marks", APART, log((3,), (3,), (1,)), APART_SAID)
    + [
        judged(
            "parallel", "a thread alone makes too few accesses", APART, log((3,), (4, join(0, 0, 3)), (1, join(0, 1, 2))),
            text("fit: thread 1 wants 4 accesses, found 3"), 4,
        ),
        judged(
            "parallel", "a thread alone would make more accesses", APART, log((2,), (3,), (1,)),
            text("fit: thread 0 wants 2 accesses, found 3"), 4,
        ),
        judged("replay", "without its mark", HANDOVER, HANDOVER_UNMARKED, HANDOVER_SAID),
        judged("verify", "without its mark", HANDOVER, HANDOVER_UNMARKED, text("unordered 0:0 1:0"), 9),
        judged("replay", "bumps without marks", COUNTED, COUNTED_UNMARKED, COUNTED_SAID),
        judged("verify", "bumps without marks", COUNTED, COUNTED_UNMARKED, text("unordered 0:1 1:0"), 9),
        judged(
            "verify",
            "two reads without marks, and then a write",
            script("object x 1 / thread / read r0 x / thread / read r0 x / thread / write x r0"),
            told(
                "threads 3 / thread 0 accesses 1 marks 0 / thread 1 accesses 1 marks 0 / thread 2 accesses 1 marks 1"
                " / gap 0 join 0 1"
            ),
            text("unordered 1:0 2:1"),
            9,
        ),
        judged("parallel", "without its mark", HANDOVER, HANDOVER_UNMARKED, text("unordered 0:0 1:0"), 9),
        judged("parallel", "bumps without marks", COUNTED, COUNTED_UNMARKED, text("unordered 0:1 1:0"), 9),
        judged("parallel", "what a thread knows only later", KNOWN_LATER, KNOWN_LATER_LOG, text("unordered 0:0 2:1"), 9),
        judged("regions", "without its mark", HANDOVER, HANDOVER_UNMARKED, text("unordered 0:0 1:0"), 9),
        judged("regions", "none", text("thread"), log((0,)), text("serial", "thread 0 done")),
        judged("regions", "a cycle of two", TWO_READS, TWO_READS_LOG, text("cycle", "hop 1:0 0:0", "hop 0:0 1:0"), 10),
        judged(
            "regions", "a way to a cycle",
            script(
                "object x 1 / object y 1 / object z 1 / thread / read r0 z / thread / read r0 x / write z r0 / read r1 y"
                " / thread / set r0 2 / write x r0 / write y r0"
            ),
            log((1, join(0, 1, 2)), (3, join(2, 2, 4)), (2, join(0, 1, 1), join(1, 1, 1))),
            text("cycle", "hop 2:0 1:0", "hop 1:0 2:0"), 10,
        ),
        judged(
            "regions", "a region between two reads", SPLIT_READS, TWO_READS_LOG,
            text("serial", "region 0:0", "region 1:0", "region 0:1") + TWO_READS_SAID,
        ),
        judged("verify", "what a thread knows only later", KNOWN_LATER, KNOWN_LATER_LOG, text("unordered 0:0 2:1"), 9),
        judged(
            "replay", "what a thread knows only later", KNOWN_LATER, KNOWN_LATER_LOG,
            text("thread 0 done", "thread 1 done", "thread 2 done 1", "object x 1", "object y 0"),
        ),
        shown(
            "a draw and a fence",
            SHARED_LOG,
            text(
                "threads 3", "thread 0 accesses 0 marks 0", "thread 1 accesses 2 marks 2", "gap 0 join 0 0",
                "gap 1 fence 1", "thread 2 accesses 1 marks 2", "gap 0 join 1 1", "gap 0 draw 1",
            ),
        ),
        shown(
            "the highest numbers, and marks after the last access",
            log((1, draw(1, HIGHEST), join(0, 1, HIGHEST)), (0, fence(0, HIGHEST))),
            text(
                "threads 2", "thread 0 accesses 1 marks 2", f"gap 1 draw {HIGHEST}", f"gap 0 join 1 {HIGHEST}",
                "thread 1 accesses 0 marks 1", f"gap 0 fence {HIGHEST}",
            ),
        ),
    ]
)  # fmt: skip

# Two payments that overlap (thread 0's is lost), and two that follow each other.
BANK = example("bank.octet")
LOST_LOG = log((3, join(1, 1, 2)), (3, join(0, 0, 1), join(1, 0, 4), join(1, 0, 4)))
LOST_SAID = text("thread 0 done 100", "thread 1 done 100", "object balance 150", "object payments 2")
PAID_LOG = log((3,), (3, join(0, 0, 3), join(2, 0, 3)))
PAID_SAID = text("thread 0 done 100", "thread 1 done 130", "object balance 180", "object payments 2")

# The stories of the README; three of the logs are in examples/.
EARLY, EARLY_UNMARKED, EARLY_MISFIT = (example(f"early{name}.log") for name in ["", "-unmarked", "-misfit"])
EARLY_SAID = text("thread 0 done", "thread 1 done 5", "object x 7")
MISFIT_SAID = text("fit: thread 1 wants 2 accesses, found 1")
STORY = [
    Case("turns: a lost payment", ["turns", "S", "L", "1"], {"S": BANK}, LOST_SAID, 0, {"L": LOST_LOG}),
    Case("turns: two payments", ["turns", "S", "L", "0"], {"S": BANK}, PAID_SAID, 0, {"L": PAID_LOG}),
    *recorded("a lost payment", BANK, LOST_LOG, LOST_SAID),
    *recorded("two payments", BANK, PAID_LOG, PAID_SAID),
    judged("regions", "a lost payment", BANK, LOST_LOG, text("cycle", "hop 1:1 0:1", "hop 0:1 1:1"), 10),
    judged("regions", "two payments", BANK, PAID_LOG, text("serial", "region 0:1", "region 1:1") + PAID_SAID),
    judged("stop balance 150", "a lost payment", BANK, LOST_LOG, text("stop 1:3 write balance 150")),
    judged("slice 1 3", "a lost payment", BANK, LOST_LOG, text("slice 1:3 write balance 150", "events 8 of 10")),
    judged(
        "trace", "a lost payment", BANK, LOST_LOG,
        text(
            "0:0 region 1 line 7", "0:0 read balance 100 line 8", "1:0 region 1 line 15", "1:0 join 0 1",
            "1:1 read balance 100 line 16", "0:1 join 1 2", "0:2 write balance 130 line 10", "0:3 update payments 0 1 line 11",
            "1:2 join 0 4", "1:3 write balance 150 line 18", "1:4 join 0 4", "1:5 update payments 1 2 line 19",
        ),
    ),
    *recorded("examples/early.log", HANDOVER, EARLY, EARLY_SAID),
    shown(
        "examples/early.log", EARLY,
        text(
            "threads 2", "thread 0 accesses 1 marks 1", "gap 0 join 1 2",
            "thread 1 accesses 1 marks 1", "gap 0 join 0 0",
        ),
    ),
    judged("replay", "examples/early-unmarked.log", HANDOVER, EARLY_UNMARKED, HANDOVER_SAID),
    judged("verify", "examples/early-unmarked.log", HANDOVER, EARLY_UNMARKED, text("unordered 0:0 1:1"), 9),
    shown(
        "examples/early-unmarked.log", EARLY_UNMARKED,
        text("threads 2", "thread 0 accesses 1 marks 0", "thread 1 accesses 1 marks 1", "gap 0 join 0 0"),
    ),
    judged("replay", "examples/early-misfit.log", HANDOVER, EARLY_MISFIT, MISFIT_SAID, 4),
    judged("verify", "examples/early-misfit.log", HANDOVER, EARLY_MISFIT, MISFIT_SAID, 4),
    shown(
        "examples/early-misfit.log", EARLY_MISFIT,
        text(
            "threads 2", "thread 0 accesses 1 marks 1", "gap 0 join 1 2",
            "thread 1 accesses 2 marks 1", "gap 0 join 0 0",
        ),
    ),
]  # fmt: skip


def profiled(name, words, said, status=0, content=SHARED, recorded=SHARED_LOG):
    return Case(f"profile: {name}", ["profile", "S", "L", *words], {"S": content, "L": recorded}, said, status)


PROFILES = [
    profiled("kinds", [], text("read 3", "write 0", "join 2", "draw 1", "fence 1")),
    profiled("one object", ["x"], text("read 3", "write 0", "other 4")),
    profiled("an unknown name", ["z"], text("words: no such object"), 1),
    profiled("an empty name", [""], text("words: no such object"), 1),
    profiled("kinds, with writes", [], text("read 0", "write 3", "join 3", "draw 0", "fence 0"), 0, CROSSED, CROSSED_LOG),
    profiled("the second object", ["y"], text("read 0", "write 2", "other 4"), 0, CROSSED, CROSSED_LOG),
    profiled("kinds, with bumps", [], text("read 0", "write 3", "join 1", "draw 0", "fence 0"), 0, COUNTED, COUNTED_LOG),
    profiled("an object that is bumped", ["n"], text("read 0", "write 3", "other 1"), 0, COUNTED, COUNTED_LOG),
    profiled("an unknown name comes before the log", ["z"], text("words: no such object"), 1, recorded=b""),
    profiled("a script that is refused comes before the name", ["z"], text("script: line 1: 13 no thread"), 2, b""),
    profiled("a log that is refused", ["x"], text("log: 1 no magic"), 3, recorded=b""),
    Case("profile: no log", ["profile", "S"], {"S": ONE}, text("words: not a command"), 1),
]

# Logs that do not fit: name, script, log, the line, and the events that the order makes before, in words.
WROTE_AND_READ = ["0:0 write x 7 line 5", "1:0 read x 7 line 7"]
MISFIT_LOGS = [
    ("each event waits for the other", HANDOVER, HANDOVER_STUCK, "stuck at 0 0", []),
    ("two threads in the log", ONE, HANDOVER_LOG, "threads 1 in the script, 2 in the log", []),
    ("too few accesses", ONE, log((2,)), "thread 0 wants 2 accesses, found 1", ["0:0 read x 5 line 3"]),
    ("too many accesses", ONE, log((0,)), "thread 0 wants 0 accesses, found 1", []),
    ("a number is drawn twice", ONE, log((1, draw(0, 1), draw(0, 1))), "stuck at 1", ["0:0 draw 1"]),
    ("a draw that is left out", ONE, log((1, draw(1, 2))), "stuck at 1", ["0:0 read x 5 line 3"]),
    (
        "a join of more events than there are", HANDOVER, log((1, join(0, 1, HIGHEST)), (1,)), "stuck at 0 1",
        ["1:0 read x 5 line 7"],
    ),
    ("a join of one event more", HANDOVER, log((1,), (1, join(0, 0, 2))), "stuck at 1 0", ["0:0 write x 7 line 5"]),
    ("a fence of a draw that is not made", ONE, log((1, fence(1, HIGHEST))), "stuck at 1", ["0:0 read x 5 line 3"]),
    (
        "an end before a mark that is left", HANDOVER, log((1,), (2, join(1, 0, 9))), "thread 1 wants 2 accesses, found 1",
        WROTE_AND_READ,
    ),
    (
        "a higher thread that does not fit comes before a lower one that is stuck", HANDOVER, log((1, join(0, 1, 9)), (2,)),
        "thread 1 wants 2 accesses, found 1", ["1:0 read x 5 line 7"],
    ),
    (
        "the lower of two threads that do not fit", HANDOVER, log((2,), (2,)), "thread 0 wants 2 accesses, found 1",
        WROTE_AND_READ,
    ),
    (
        "a pair that is not ordered, and then stuck", HANDOVER, log((1, join(1, 1, 9)), (1,)), "stuck at 1 1",
        WROTE_AND_READ,
    ),
    (
        "a pair that is not ordered, and then a misfit", HANDOVER, log((1,), (2,)), "thread 1 wants 2 accesses, found 1",
        WROTE_AND_READ,
    ),
]  # fmt: skip
MISFITS = [
    judged(command, name, content, log_bytes, text(f"fit: {line}"), 4)
    for command in ["replay", "parallel", "verify", "regions", "slice 0 0", "slice 9 0", "stop x 5", "profile"]
    for name, content, log_bytes, line, _ in MISFIT_LOGS
] + [
    judged("trace", name, content, log_bytes, text(*events, f"fit: {line}"), 4)
    for name, content, log_bytes, line, events in MISFIT_LOGS
]  # fmt: skip

# Blank lines and comments, an access in a loop, several regions before one event, and some that no event follows.
LINED = text(
    "object x 5  # where it starts", "", "thread", "# region", "  read r1 x", "\tset r2 3", "region # two of them", "region",
    "write x r2", "", "region", "bump x r2", "region", "thread # the last one", "set r0 2", "set r3 1", "while r0", "region",
    " read r1 x # in a loop", "sub r0 r0 r3", "end", "region",
)  # fmt: skip
LINED_TRACE = [
    "0:0 read x 5 line 5", "1:0 region 1 line 18", "1:0 read x 5 line 19", "0:1 region 1 line 7", "0:1 region 2 line 8",
    "0:1 join 1 1", "0:2 write x 3 line 9", "0:3 region 3 line 11", "0:3 update x 3 6 line 12", "1:1 region 2 line 18",
    "1:1 read x 6 line 19",
]  # fmt: skip

# The past of one event, the first with a number, and all events.
EVENTS = [
    judged("slice 2 2", "an access behind a draw", SHARED, SHARED_LOG, text("slice 2:2 read x 9", "events 4 of 7")),
    judged("slice 1 3", "an access behind a fence", SHARED, SHARED_LOG, text("slice 1:3 read x 9", "events 6 of 7")),
    judged("slice 1 2", "a fence", SHARED, SHARED_LOG, text("slice 1:2 fence 1", "events 5 of 7")),
    judged("slice 2 1", "a draw", SHARED, SHARED_LOG, text("slice 2:1 draw 1", "events 3 of 7")),
    judged("slice 01 00", "a join, by numbers with zeros", SHARED, SHARED_LOG, text("slice 1:0 join 0 0", "events 1 of 7")),
    judged("slice 0 0", "a write", HANDOVER, HANDOVER_LOG, text("slice 0:0 write x 7", "events 1 of 3")),
    judged("slice 2 0", "a join behind a join", SHARED, SHARED_LOG, text("slice 2:0 join 1 1", "events 2 of 7")),
    judged("slice 1 1", "the last update", COUNTED, COUNTED_LOG, text("slice 1:1 update n 9 12", "events 4 of 4")),
    judged("slice 0 1", "an update", COUNTED, COUNTED_LOG, text("slice 0:1 update n 7 9", "events 2 of 4")),
    judged("slice 1 4", "no such event", SHARED, SHARED_LOG, text("slice: events 4"), 11),
    judged(f"slice 0 {HIGHEST}", "no event at all", SHARED, SHARED_LOG, text("slice: events 0"), 11),
    judged("slice 3 0", "no such thread", SHARED, SHARED_LOG, text("slice: threads 3"), 11),
    judged(f"slice {HIGHEST} 0", "the highest number is no thread", SHARED, SHARED_LOG, text("slice: threads 3"), 11),
    judged("slice 0 0", "bumps without marks", COUNTED, COUNTED_UNMARKED, text("unordered 0:1 1:0"), 9),
    judged("slice 9 9", "neither thread nor event", SHARED, SHARED_LOG, text("slice: threads 3"), 11),
    judged("slice 9 0", "unordered before no thread", HANDOVER, HANDOVER_UNMARKED, text("unordered 0:0 1:0"), 9),
    judged("slice 0 9", "unordered before no event", HANDOVER, HANDOVER_UNMARKED, text("unordered 0:0 1:0"), 9),
    judged("stop x 9", "a read", SHARED, SHARED_LOG, text("stop 1:1 read x 9")),
    judged("stop x 8", "none", SHARED, SHARED_LOG, text("no stop")),
    judged("stop x 7", "a write before a read", HANDOVER, HANDOVER_LOG, text("stop 0:0 write x 7")),
    judged("stop n 9", "an update, by the value after", COUNTED, COUNTED_LOG, text("stop 0:1 update n 7 9")),
    judged("stop n 5", "the value before an update is none", COUNTED, COUNTED_LOG, text("no stop")),
    judged("stop n 9", "a log that is not ordered", COUNTED, COUNTED_UNMARKED, text("stop 0:1 update n 7 9")),
    judged("stop y 9", "another object with that number", SHARED, SHARED_LOG, text("words: no such object"), 1),
    judged("stop z 9", "an unknown name comes before the log", SHARED, b"", text("words: no such object"), 1),
    judged("stop z 9", "a refused script comes before the name", b"", SHARED_LOG, text("script: line 1: 13 no thread"), 2),
    judged(
        "trace", "marks of all kinds", SHARED, SHARED_LOG,
        text(
            "1:0 join 0 0", "1:1 read x 9 line 4", "2:0 join 1 1", "2:1 draw 1", "1:2 fence 1", "1:3 read x 9 line 5",
            "2:2 read x 9 line 7",
        ),
    ),
    judged(
        "trace", "updates", COUNTED, COUNTED_LOG,
        text("0:0 update n 5 7 line 4", "0:1 update n 7 9 line 5", "1:0 join 0 2", "1:1 update n 9 12 line 8"),
    ),
    judged(
        "trace", "a write", HANDOVER, HANDOVER_LOG, text("0:0 write x 7 line 5", "1:0 join 0 1", "1:1 read x 7 line 7")
    ),
    judged("trace", "a log that is not ordered", HANDOVER, HANDOVER_UNMARKED, text(*WROTE_AND_READ)),
    judged("trace", "no event", text("thread"), log((0,)), b""),
    judged("trace", "a thread that is spent", example("spent.octet"), log((1,)), text("0:0 read x 0 line 7")),
    judged("trace", "regions, and lines without a word", LINED, log((3, join(1, 1, 1)), (2,)), text(*LINED_TRACE)),
    judged(
        "trace", "a region before an access that is not made", LINED, log((2, join(1, 1, 1)), (2,)),
        text(
            *LINED_TRACE[:7], "1:1 region 2 line 18", "1:1 read x 3 line 19", "fit: thread 0 wants 2 accesses, found 3",
        ), 4,
    ),
    judged("stop x 3", "a write, without its line", LINED, log((3, join(1, 1, 1)), (2,)), text("stop 0:2 write x 3")),
]  # fmt: skip

LOG_REFUSALS = (
    [log_refused(f"the first {size} bytes", SHARED_LOG[:size], "1 no magic") for size in range(4)]
    + [log_refused(f"the first {size} bytes", SHARED_LOG[:size], f"4 cut short at {size}") for size in range(4, 86)]
    + [
        log_refused("1, other letters", b"OCTl" + ONE, "1 no magic"),
        log_refused("1, a script", ONE, "1 no magic"),
        log_refused("2, none", b"OCTL\x00\x01", "2 bad version"),
        log_refused("2, a later one, before the threads", b"OCTL\x03\x00", "2 bad version"),
        log_refused("3, none", b"OCTL\x01\x00", "3 bad threads"),
        log_refused("3, seventeen", b"OCTL\x01\x11", "3 bad threads"),
        log_refused("4, without its last byte", HANDOVER_LOG[:-1], "4 cut short at 35"),
        log_refused("4, as many marks as a number says", log((0,))[:-4] + b"\xff" * 4, "4 cut short at 14"),
        log_refused("4, a count of one mark more", HANDOVER_LOG[:21] + b"\2" + HANDOVER_LOG[22:], "4 cut short at 36"),
        log_refused("5, a whole bad mark comes before the cut", log((0,))[:-4] + b"\xff" * 18, "5 bad mark at 14"),
        log_refused("5, a count that takes in what follows", HANDOVER_LOG[:13] + b"\1" + HANDOVER_LOG[14:], "5 bad mark at 14"),
        log_refused("5, a join of its own thread", log((1,), (1, join(0, 1, 1))), "5 bad mark at 22"),
        log_refused("5, a join of no thread", log((1,), (1, join(0, 2, 1))), "5 bad mark at 22"),
        log_refused("5, no kind", log((1,), (1, (0, 0, 0, 1))), "5 bad mark at 22"),
        log_refused("5, a fourth kind", log((1,), (1, (4, 0, 0, 1))), "5 bad mark at 22"),
        log_refused("5, a gap past the last access", log((1,), (1, join(2, 0, 1))), "5 bad mark at 22"),
        log_refused("5, gaps that sum past it", log((1,), (1, join(1, 0, 1), join(2**32 - 1, 0, 1))), "5 bad mark at 36"),
        log_refused("5, a thread of a draw", log((1, (2, 0, 1, 1)), (1,)), "5 bad mark at 14"),
        log_refused("5, a thread of a fence", log((1, (3, 0, 1, 1)), (1,)), "5 bad mark at 14"),
        log_refused("5, a draw of 0", log((1, draw(0, 0))), "5 bad mark at 14"),
        log_refused("5, a fence of 0", log((1, fence(0, 0))), "5 bad mark at 14"),
        log_refused("6, one thread", log((0x40001,), (1,)), "6 too many accesses"),
        log_refused("6, their sum", log((0x40000,), (1,)), "6 too many accesses"),
        log_refused("6, a sum past 32 bits", log((1,), (2**32 - 1,)), "6 too many accesses"),
        log_refused("7, one byte more", HANDOVER_LOG + b"\0", "7 trailing at 36"),
        log_refused("7, a count of one mark fewer", HANDOVER_LOG[:21] + b"\0" + HANDOVER_LOG[22:], "7 trailing at 22"),
        log_refused("7, a second log", log((1,)) + log((1,)), "7 trailing at 14"),
        shown("as many accesses as there may be", log((0x40000,)), text("threads 1", "thread 0 accesses 262144 marks 0")),
        judged("replay", "a log that is refused", HANDOVER, b"", text("log: 1 no magic"), 3),
        judged("replay", "a script that is refused", b"", HANDOVER_LOG, text("script: line 1: 13 no thread"), 2),
        *[
            judged(command, "a log that is refused", HANDOVER, b"", text("log: 1 no magic"), 3)
            for command in ["parallel", "verify", "regions", "slice 0 0", "stop x 5", "trace"]
        ],
    ]
)

# Version 2: a log of the hand-over, and one with all kinds of marks, converted from version 1.
HANDOVER_SECOND = second(HANDOVER, (1,), (1, join(0, 0, 1)))
SHARED_SECOND = second(SHARED, (0,), (2, join(0, 0, 0), fence(1, 1)), (1, join(0, 1, 1), draw(0, 1)))
SHARED_SAID = text("thread 0 done", "thread 1 done 9 9", "thread 2 done 9", "object x 9")
# Each mark of thread 1 in a piece of its own, with one of thread 2 between them.
SHARED_PIECES = (
    SHARED_SECOND[:38] + piece(1, join(0, 0, 0)) + piece(2, join(0, 1, 1)) + piece(1, fence(1, 1)) + piece(2, draw(0, 1))
    + tail(0, 2, 1)
)  # fmt: skip
HEAD = HANDOVER_SECOND[:38]
BLANK = HANDOVER + b" "
WITH_BLANK = {"S": BLANK, "L": HANDOVER_SECOND}
OTHER_SCRIPT = text(f"fit: digest {sha256(BLANK).hexdigest()} of the script, {sha256(HANDOVER).hexdigest()} of the log")
MOST = short(2**64 - 1)


def converted(name, content, recorded, written):
    files = {"S": content, "L": recorded}
    return Case(f"convert: {name}", ["convert", "S", "L", "O"], files, text("converted"), 0, {"O": written})


def second_refused(name, content, line):
    return log_refused(f"version 2: {name}", content, line)


SECOND = [
    converted("the hand-over", HANDOVER, HANDOVER_LOG, HANDOVER_SECOND),
    converted("all kinds of marks", SHARED, SHARED_LOG, SHARED_SECOND),
    converted("to itself", SHARED, SHARED_SECOND, SHARED_SECOND),
    converted("of many pieces", SHARED, SHARED_PIECES, SHARED_SECOND),
    converted(
        "a log that is stuck", HANDOVER, HANDOVER_STUCK, second(HANDOVER, (1, join(0, 1, 1)), (1, join(0, 0, 1)))
    ),
    Case(
        "convert: the bytes", ["convert", "S", "L", "O"], {"S": HANDOVER, "L": HANDOVER_LOG}, text("converted"), 0,
        {"O": HEAD + bytes.fromhex("010101000001ff0101")},
    ),
    Case(
        "convert: over its own log", ["convert", "S", "L", "L"], {"S": HANDOVER, "L": HANDOVER_LOG}, text("converted"), 0,
        {"L": HANDOVER_SECOND},
    ),
    judged("convert", "no third file", HANDOVER, HANDOVER_LOG, text("words: not a command"), 1),
    *recorded("version 2", HANDOVER, HANDOVER_SECOND, HANDOVER_SAID),
    *recorded("version 2, all kinds of marks", SHARED, SHARED_SECOND, SHARED_SAID),
    *recorded("version 2, many pieces", SHARED, SHARED_PIECES, SHARED_SAID),
    profiled("version 2", ["x"], text("read 3", "write 0", "other 4"), recorded=SHARED_SECOND),
    shown(
        "version 2, many pieces", SHARED_PIECES,
        text(
            "threads 3", "thread 0 accesses 0 marks 0", "thread 1 accesses 2 marks 2", "gap 0 join 0 0",
            "gap 1 fence 1", "thread 2 accesses 1 marks 2", "gap 0 join 1 1", "gap 0 draw 1",
        ),
    ),
    shown(
        "version 2, the highest numbers",
        HEAD + piece(0, draw(1, 2**64 - 1), join(0, 1, 2**64 - 1)) + tail(0x3FFFF, 1),
        text(
            "threads 2", "thread 0 accesses 262143 marks 2", f"gap 1 draw {2**64 - 1}", f"gap 0 join 1 {2**64 - 1}",
            "thread 1 accesses 1 marks 0",
        ),
    ),
    # A log of another script: one blank more makes it another.
    *[
        Case(" ".join([command, *more, ": another script"]), [command, "S", "L", *more], WITH_BLANK, OTHER_SCRIPT, 4)
        for command, *more in [
            ["replay"], ["parallel"], ["verify"], ["regions"], ["slice", "0", "0"], ["stop", "x", "5"], ["trace"],
            ["profile"], ["profile", "x"], ["convert", "O"],
        ]
    ],
    Case(
        "replay: a log of another script, with other threads", ["replay", "S", "L"], {"S": ONE, "L": HANDOVER_SECOND},
        text(f"fit: digest {sha256(ONE).hexdigest()} of the script, {sha256(HANDOVER).hexdigest()} of the log"), 4,
    ),
    Case(
        "convert: two threads in the log", ["convert", "S", "L", "O"], {"S": ONE, "L": HANDOVER_LOG},
        text("fit: threads 1 in the script, 2 in the log"), 4,
    ),
    Case("convert: a log that is refused", ["convert", "S", "L", "O"], {"S": ONE, "L": b""}, text("log: 1 no magic"), 3),
    Case("convert: no log", ["convert", "S", "L", "O"], {"S": ONE}, text("read: failed"), 5),
    *[second_refused(f"the first {size} bytes", SHARED_SECOND[:size], f"4 cut short at {size}") for size in range(4, 60)],
    second_refused("no threads", b"OCTL\x02\x00", "3 bad threads"),
    second_refused("seventeen", b"OCTL\x02\x11", "3 bad threads"),
    second_refused("no kind, before the cut", HEAD + b"\x01\x01\x00", "5 bad mark at 40"),
    second_refused("a fourth kind", HEAD + b"\x01\x01\x04", "5 bad mark at 40"),
    second_refused("a gap over the limit, before its thread", HEAD + b"\x01\x01\x01" + short(262_145), "5 bad mark at 40"),
    second_refused("a join of its own thread", HEAD + b"\x01\x01\x01\x00\x01", "5 bad mark at 40"),
    second_refused("a join of no thread", HEAD + b"\x01\x01\x01\x00\x02", "5 bad mark at 40"),
    second_refused("a second mark that is bad", HEAD + b"\x01\x02\x01\x00\x00\x01\x02\x00\x00", "5 bad mark at 44"),
    second_refused("a fence of 0", HEAD + b"\x01\x01\x03\x00\x00", "5 bad mark at 40"),
    second_refused("too many accesses, before the gaps", HEAD + piece(0, draw(9, 1)) + tail(262_145), "6 too many accesses"),
    second_refused("too many accesses in sum", HEAD + tail(262_144, 1), "6 too many accesses"),
    second_refused("one byte more", HANDOVER_SECOND + b"\0", "7 trailing at 47"),
    second_refused("a number that is not shortest", HEAD + bytes.fromhex("010101000001ff018100"), "8 bad number at 46"),
    second_refused("a count that is not shortest", HEAD + b"\x01\x80\x00", "8 bad number at 39"),
    second_refused("65 bits", HEAD + b"\x01\x01\x02\x00" + MOST[:-1] + b"\x02", "8 bad number at 42"),
    second_refused("a tenth byte that goes on", HEAD + b"\x01\x01\x02\x00" + b"\x80" * 10, "8 bad number at 42"),
    second_refused("nine bytes that go on", HEAD + b"\x01\x01\x02\x00" + b"\x80" * 9, "4 cut short at 51"),
    second_refused("65 bits in the tail", HEAD + b"\xff" + b"\x80" * 9 + b"\x02", "8 bad number at 39"),
    second_refused("a tenth byte of the tail that goes on", HEAD + b"\xff" + b"\x80" * 10, "8 bad number at 39"),
    second_refused("nine bytes of the tail that go on", HEAD + b"\xff" + b"\x80" * 9, "4 cut short at 48"),
    second_refused("accesses of 64 bits", HEAD + b"\xff" + b"\x80" * 9 + b"\x01", "6 too many accesses"),
    second_refused("a piece of no thread", HEAD + bytes.fromhex("020101000001ff0101"), "9 bad piece at 38"),
    second_refused("a piece of no marks", HEAD + bytes.fromhex("010001000001ff0101"), "9 bad piece at 38"),
    second_refused("gaps over the accesses", HEAD + bytes.fromhex("010101020001ff0101"), "10 gaps over accesses of thread 1"),
    second_refused("as many marks as a number says", HEAD + b"\x01" + MOST, "11 too many marks"),
    second_refused("one mark too many", HEAD + piece(0, draw(0, 1)) + b"\x01" + short(4_793_490), "11 too many marks"),
    second_refused("not one mark too many", HEAD + piece(0, draw(0, 1)) + b"\x01" + short(4_793_489), "4 cut short at 48"),
    second_refused("version 3", b"OCTL\x03" + HANDOVER_SECOND[5:], "2 bad version"),
]  # fmt: skip

NO_COMMAND = text("words: not a command")
# Two threads and an object that starts with 7. Thread 1 makes two accesses, a join after the first; thread 0 makes three,
# and then a join and a draw.
MARKS_PIECES = [
    (marks_head(2, bytes(range(32)), 7), text("threads 2", "declared " + bytes(range(32)).hex(), "object 0 7")),
    (block(1, 0, 1, 0x1234, (0, 1, 3)), text("block 1 first 0", "gap 1 join 0 3", "gap 1 digest 0000000000001234")),
    (
        block(0, 0, 0, 2**64 - 1, (1, 3, 1), (16, 0, 300)),
        text("block 0 first 0", "gap 3 join 1 1", "gap 0 draw 300", "gap 0 digest " + 16 * "f"),
    ),
    (end(1, 3), text("end 1 events 3")),
    (end(0, 5), text("end 0 events 5")),
]
MARKS_BYTES = b"".join(each for each, _ in MARKS_PIECES)
MARKS_TEXT = b"".join(lines for _, lines in MARKS_PIECES)


def marks_told(name, content, said, status=0):
    return Case(f"marks: {name}", ["marks", "M"], {"M": content}, said, status)


def front_of_marks(size):
    """The text of the pieces that are whole in so many first bytes, and where they end."""
    at, said = 0, b""
    for each, lines in MARKS_PIECES:
        if at + len(each) > size:
            break
        at, said = at + len(each), said + lines
    return at, said


def marks_cut(size):
    at, said = front_of_marks(size)
    return marks_told(f"the first {size} bytes", MARKS_BYTES[:size], said + text(f"cut at {at}, {size - at} bytes left aside"))


def cause_of_change(place):
    """What a changed byte at a place of its piece breaks: the magic, the version, a length, or else the checksum."""
    at, _ = front_of_marks(place)
    inner = place - at
    if at == 0:
        if inner < 5:
            return "1 no magic" if inner < 4 else "2 bad version"
        inner -= 5
    return "3 bad length" if 1 <= inner < 9 else "4 bad checksum"


def marks_changed(place):
    at, said = front_of_marks(place)
    content = MARKS_BYTES[:place] + bytes([MARKS_BYTES[place] ^ 1]) + MARKS_BYTES[place + 1 :]
    return marks_told(f"byte {place} changed", content, said + text(f"marks: {cause_of_change(place)} at {at}"), 3)


def marks_broken(name, content, cause):
    """What stands behind the head is refused."""
    head, lines = MARKS_PIECES[0]
    return marks_told(name, head + content, lines + text(f"marks: {cause} at {len(head)}"), 3)


# A block of 30,000 draws: more than is taken of a file at once, and more than is said at once.
MANY_BYTES = marks_head(1, bytes(32)) + block(0, 0, 0, 0, *[(16, 0, 1)] * 30_000) + end(0, 30_000)
MANY_TEXT = text(
    "threads 1", "declared " + 64 * "0", "block 0 first 0", *[f"gap 0 draw {number}" for number in range(1, 30_001)],
    "gap 0 digest " + 16 * "0", "end 0 events 30000",
)  # fmt: skip

MARKS = [
    marks_told("whole", MARKS_BYTES, MARKS_TEXT + text("whole")),
    marks_told("a byte behind the end", MARKS_BYTES + b"\x00", MARKS_TEXT + text(f"cut at {len(MARKS_BYTES)}, 1 bytes left aside")),
    *[marks_cut(size) for size in range(len(MARKS_BYTES))],
    *[marks_changed(place) for place in range(len(MARKS_BYTES))],
    marks_broken("a second head", MARKS_PIECES[0][0][5:], "5 bad kind"),
    marks_broken("another kind", frame(3, b""), "5 bad kind"),
    marks_broken("a body that is cut", frame(2, b"\x00"), "6 bad body"),
    marks_broken("no such thread", end(2, 0), "7 bad thread"),
    marks_told(
        "an end twice", MARKS_BYTES + end(0, 5), MARKS_TEXT + text(f"marks: 8 after the end at {len(MARKS_BYTES)}"), 3
    ),
    marks_broken("a block that is missing", block(0, 1, 1, 0), "9 out of order"),
    marks_broken("a join of its own thread", block(0, 0, 0, 0, (0, 0, 1)), "10 bad mark"),
    marks_told("a log", HANDOVER_SECOND, text("marks: 1 no magic at 0"), 3),
    marks_told("many marks", MANY_BYTES, MANY_TEXT + text("whole")),
    Case("marks: no file", ["marks", "M"], {}, text("read: failed"), 5),
    Case("marks: a folder", ["marks", "."], {}, text("read: failed"), 5),
    Case("marks: two files", ["marks", "M", "M"], {"M": MARKS_BYTES}, NO_COMMAND, 1),
    Case("marks: shown as a log", ["show", "M"], {"M": MARKS_BYTES}, text("log: 1 no magic"), 3),
]  # fmt: skip

FAULTS = [
    *[
        Case(f"words: {name}", words, {"S": ONE}, NO_COMMAND, 1)
        for name, words in [
            ("none", []),
            ("an empty one", [""]),
            ("a file is missing", ["run", "S"]),
            ("too many", ["tidy", "S", "S"]),
            ("an unknown command", ["--help"]),
            ("a capital", ["Tidy", "S"]),
            ("not UTF-8", [b"tidy", b"\xff"]),
            ("no number", ["gen", "one", "S", "L"]),
            ("an empty number", ["gen", "", "S", "L"]),
            ("a number with a sign", ["gen", "-1", "S", "L"]),
            ("a number of 65 bits", ["gen", str(2**64), "S", "L"]),
            ("a number of 21 digits", ["gen", "0" * 21, "S", "L"]),
            ("a log is missing", ["gen", "1", "S"]),
            ("a log to replay on threads is missing", ["parallel", "S"]),
            ("a log with regions is missing", ["regions", "S"]),
            ("a log to trace is missing", ["trace", "S"]),
            ("trace with an object", ["trace", "S", "L", "x"]),
            ("an event is missing", ["slice", "S", "L", "0"]),
            ("a thread that is no number", ["slice", "S", "L", "x", "0"]),
            ("an event that is no number", ["slice", "S", "L", "0", "x"]),
            ("a thread of 65 bits", ["slice", "S", "L", str(2**64), "0"]),
            ("a number to stop at is missing", ["stop", "S", "L", "x"]),
            ("a number to stop at of 65 bits", ["stop", "S", "L", "x", str(2**64)]),
            ("a number to stop at with a sign", ["stop", "S", "L", "x", "+1"]),
        ]
    ],
    Case("read: no such log", ["verify", "S", "L"], {"S": ONE}, text("read: failed"), 5),
    Case(
        "read: a refused script comes before a log that is not there", ["verify", "S", "L"], {"S": b""},
        text("script: line 1: 13 no thread"), 2,
    ),
    Case("read: no such file", ["tidy", "S"], {}, text("read: failed"), 5),
]  # fmt: skip

CASES = RUNS + TIDY + REFUSED + PREFIXES + LOGS + STORY + PROFILES + MISFITS + EVENTS + LOG_REFUSALS + SECOND + MARKS + FAULTS
