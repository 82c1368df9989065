"""`hunt`: planted mistakes that it has to find, scripts in which it finds none, and litmus tests.

A litmus test is a few threads of a few accesses each. A plain machine in this file enumerates every outcome
that one memory and any order allow. Each has to be reached, and no other one ever.
"""

import itertools
import pathlib
import random
import tempfile

import judges
from case import text
from cases import example
from files import differs, first, octet

TRIES = 2_000

# Each with an object and the value that it ends with if nothing goes wrong.
MISTAKES = {
    "a lost update of two threads": (("n", 2), ["object n 0"], [["set r1 1", "read r0 n", "add r0 r0 r1", "write n r0"]] * 2),
    "a lost update of six threads": (("n", 6), ["object n 0"], [["set r1 1", "read r0 n", "add r0 r0 r1", "write n r0"]] * 6),
    "one lost update among three rounds": (
        ("n", 6),
        ["object n 0"],
        [["set r2 3", "set r1 1", "while r2", "read r0 n", "add r0 r0 r1", "write n r0", "sub r2 r2 r1", "end"]] * 2,
    ),
    "a flag that is set too early": (
        ("seen", 7),
        ["object x 0", "object flag 0", "object seen 7"],
        [["set r0 1", "write flag r0", "set r1 7", "write x r1"], ["read r0 flag", "if r0", "read r1 x", "write seen r1", "end"]],
    ),
    "check, then act": (
        ("taken", 1),
        ["object free 1", "object taken 0"],
        [["set r1 1", "read r0 free", "if r0", "write free r2", "bump taken r1", "end"]] * 2,
    ),
    "a lock that is tested and then set": (
        ("n", 2),
        ["object lock 0", "object n 0"],
        [["set r1 1", "set r2 1", "while r2", "read r2 lock", "end", "write lock r1", "read r0 n", "add r0 r0 r1", "write n r0", "write lock r3"]] * 2,
    ),
    "two locks' worth of money, read one after the other": (
        ("sum", 100),
        ["object a 50", "object b 50", "object sum 100"],
        [["set r0 40", "set r1 60", "write a r0", "write b r1"], ["read r2 a", "read r3 b", "add r4 r2 r3", "write sum r4"]],
    ),
    "an order that needs four switches": (
        ("hit", 0),
        ["object a 0", "object b 0", "object hit 0"],
        [
            ["set r0 1", "write a r0", "set r0 2", "write a r0", "set r0 3", "write a r0"],
            ["set r4 1", "read r0 a", "same r1 r0 r4", "set r4 2", "read r0 a", "same r2 r0 r4", "mul r1 r1 r2", "bump hit r1"],
        ],
    ),
    "a swap through a third place": (
        ("both", 3),
        ["object a 1", "object b 2", "object both 3"],
        [["read r0 a", "read r1 b", "write a r1", "write b r0"], ["read r0 a", "read r1 b", "add r2 r0 r1", "write both r2"]],
    ),
    "a counter that is read before the last bump": (
        ("seen", 3),
        ["object n 0", "object seen 3"],
        [["set r1 1", "bump n r1"], ["set r1 1", "bump n r1"], ["set r1 1", "bump n r1", "read r0 n", "write seen r0"]],
    ),
    "a maximum that is kept by a test": (
        ("most", 9),
        ["object most 0"],
        [[f"set r1 {value}", "read r0 most", "less r2 r0 r1", "if r2", "write most r1", "end"] for value in (5, 9)],
    ),
    "a stack whose top is read twice": (
        ("popped", 3),
        ["object top 2", "object popped 0"],
        [["set r1 1", "read r0 top", "bump popped r0", "sub r0 r0 r1", "write top r0"]] * 2,
    ),
}
# The examples that have a mistake, with an object and the value that it ends with if nothing goes wrong.
EXAMPLES = {"bank": ("balance", 180), "hidden": ("hit", 0), "lastseat": ("sold", 1), "testlock": ("n", 2)}
PETERSON = [
    [
        "set r1 1", f"set r9 {other}", "write wants%d r1" % me, "write turn r9", "set r2 1", "while r2", "read r3 wants%d" % other,
        "read r4 turn", "same r5 r4 r9", "mul r2 r3 r5", "end", "read r0 n", "add r0 r0 r1", "write n r0", "write wants%d r8" % me,
    ]
    for me, other in ((0, 1), (1, 0))
]  # fmt: skip


def script_of(objects, threads, fuel=None):
    lines = ([f"fuel {fuel}"] if fuel else []) + objects
    for thread in threads:
        lines += ["thread", *thread]
    return text(*lines)


def hunted(folder, content, *words):
    pathlib.Path(folder, "S").write_bytes(content)
    return octet(["hunt", "S", "L", *map(str, words)], folder)


def find_problem(folder, content, said, name, number):
    """What is wrong with a run that was found: its lines, its log, and that it ends otherwise."""
    lines = said.decode().split("\n")
    if not lines[0].startswith("try ") or not lines[1].startswith("preemptions "):
        return f"begins with {lines[:2]}"
    outcome = "\n".join(lines[2:]).encode()
    if f"object {name} {number}" in lines or any(line.startswith("thread") and " spent" in line for line in lines):
        return f"found {lines}"
    recorded = pathlib.Path(folder, "L").read_bytes()
    return first(
        None if recorded[4] == 2 else "the log is of version 1",
        differs("replay", octet(["replay", "S", "L"], folder), (0, outcome)),
        differs("verify", octet(["verify", "S", "L"], folder), (0, text("ordered"))),
        None if judges.is_faithful(content, recorded, outcome) else "a plain judge says that the recording is not faithful",
    )


def mistakes():
    """Each planted mistake is found, and what is kept is a recording of it; the same words find the same."""
    with tempfile.TemporaryDirectory() as folder:
        for title, ((name, number), objects, threads) in MISTAKES.items():
            content = script_of(objects, threads, 1024)
            status, said = hunted(folder, content, name, number, TRIES)
            wrong = f"status {status}, {said}" if status != 0 else find_problem(folder, content, said, name, number)
            if wrong is None and hunted(folder, content, name, number, TRIES) != (status, said):
                wrong = "the same words say something else"
            if wrong is not None:
                return f"{title}: {wrong}"
    return None


def varied(draws, objects, threads):
    """The threads in another order, each after some accesses of an object of its own: the same tries, by other schedules."""
    own = [f"object own{thread} 0" for thread in range(len(threads))]
    later = [["read r15 own%d" % thread] * draws.randrange(4) + lines for thread, lines in enumerate(threads)]
    draws.shuffle(later)
    return script_of(objects + own, later, 1024)


def variants():
    """Of a hundred variants of each planted mistake, ninety-five are found in that many tries."""
    draws = random.Random(63)
    with tempfile.TemporaryDirectory() as folder:
        for title, ((name, number), objects, threads) in MISTAKES.items():
            found = sum(hunted(folder, varied(draws, objects, threads), name, number, TRIES)[0] == 0 for _ in range(100))
            if found < 95:
                return f"{title}: only {found} of 100"
    return None


def examples():
    """The mistakes of the examples are found."""
    with tempfile.TemporaryDirectory() as folder:
        for name, (object_name, number) in EXAMPLES.items():
            content = example(f"{name}.octet")
            status, said = hunted(folder, content, object_name, number, TRIES)
            wrong = f"status {status}, {said}" if status != 0 else find_problem(folder, content, said, object_name, number)
            if wrong is not None:
                return f"{name}: {wrong}"
    return None


def nothing_found():
    """A correct lock is never called wrong, and where nothing is found no file is touched."""
    with tempfile.TemporaryDirectory() as folder:
        log = pathlib.Path(folder, "L")
        log.write_bytes(b"as before")
        lock = script_of(["object wants0 0", "object wants1 0", "object turn 0", "object n 0"], PETERSON, 8192)
        bumps = script_of(["object n 0"], [["set r1 1", "region", "bump n r1"]] * 2)
        wrong = first(
            differs("Peterson's lock", hunted(folder, lock, "n", 2, 100_000), (12, text("no other end in 100000 tries"))),
            differs("bumps", hunted(folder, bumps, "n", 2, "0050"), (12, text("no other end in 50 tries"))),
            differs("bumps, regions", hunted(folder, bumps, 50), (12, text("serial in 50 tries"))),
        )
        return wrong or (None if log.read_bytes() == b"as before" else "the log was touched")


def cycles():
    """A run whose regions have a cycle is found, and what is said of it is what `regions` says of its log."""
    with tempfile.TemporaryDirectory() as folder:
        payment = ["set r1 1", "region", "read r0 n", "add r0 r0 r1", "write n r0"]
        content = script_of(["object n 0"], [payment] * 2)
        status, said = hunted(folder, content, TRIES)
        lines = said.split(b"\n", 2)
        if status != 0 or lines[1] != b"preemptions 1":
            return f"status {status}, {said}"
        return differs("regions", octet(["regions", "S", "L"], folder), (10, lines[2]))


def judged_in_order():
    """Words, script and name are judged before anything runs."""
    with tempfile.TemporaryDirectory() as folder:
        content = script_of(["object n 0"], [["read r0 n"]])
        no_command, no_object = (1, text("words: not a command")), (1, text("words: no such object"))
        rows = [
            (["n", 0, 0], no_command),
            (["n", 0, 1_000_001], no_command),
            (["n", "x", 1], no_command),
            ([0], no_command),
            (["n", 1], no_command),
            (["m", 0, 1], no_object),
            (["n", 18446744073709551615, 1], (0, None)),
        ]
        for words, wanted in rows:
            found = hunted(folder, content, *words)
            if found[0] != wanted[0] or (wanted[1] is not None and found[1] != wanted[1]):
                return f"{words}: {found}"
        wrong = octet(["hunt", "none", "L", "m", "0", "1"], folder)
        return differs("no script", wrong, (5, text("read: failed")))


# Litmus tests: threads of accesses, `w x 1` or `r x`. What is told apart is all values read.
LITMUS = {
    "store buffering": [["w x 1", "r y"], ["w y 1", "r x"]],
    "message passing": [["w x 1", "w y 1"], ["r y", "r x"]],
    "load buffering": [["r x", "w y 1"], ["r y", "w x 1"]],
    "independent reads of independent writes": [["w x 1"], ["w y 1"], ["r x", "r y"], ["r y", "r x"]],
    "write to read causality": [["w x 1"], ["r x", "w y 1"], ["r y", "r x"]],
    "2+2W": [["w x 1", "w y 2", "r y"], ["w y 1", "w x 2", "r x"]],
    "read after write": [["w x 1", "r x"], ["w x 2", "r x"]],
    "coherence of reads": [["w x 1"], ["w x 2"], ["r x", "r x"]],
    "store buffering, three threads": [["w x 1", "r y"], ["w y 1", "r z"], ["w z 1", "r x"]],
}


def values(threads, order):
    """The values read of an order, in the threads' order."""
    memory, places, read = {}, [0] * len(threads), [[] for _ in threads]
    for thread in order:
        kind, name, *value = threads[thread][places[thread]].split()
        places[thread] += 1
        if kind == "w":
            memory[name] = int(value[0])
        else:
            read[thread].append(memory.get(name, 0))
    return tuple(itertools.chain(*read))


def allowed(threads):
    steps = [thread for thread, accesses in enumerate(threads) for _ in accesses]
    return {values(threads, order) for order in set(itertools.permutations(steps))}


def litmus_script(threads, wanted):
    """The threads, each of which tells what it read, and one that waits for all and tells whether it is this."""
    reads = [(thread, place) for thread, accesses in enumerate(threads) for place, access in enumerate(accesses) if access[0] == "r"]
    names = sorted({access.split()[1] for accesses in threads for access in accesses})
    objects = [f"object {name} 0" for name in names] + [f"object v{t}_{p} 0" for t, p in reads] + ["object done 0", "object hit 0"]
    lines = []
    for thread, accesses in enumerate(threads):
        body, told = [], []
        for place, access in enumerate(accesses):
            kind, name, *value = access.split()
            if kind == "w":
                body += [f"set r0 {value[0]}", f"write {name} r0"]
            else:
                body.append(f"read r{1 + place} {name}")
                told.append(f"write v{thread}_{place} r{1 + place}")
        lines.append([*body, *told, "set r0 1", "bump done r0"])
    judge = [f"set r1 {len(threads)}", "set r0 1", "set r4 1", "while r0", "read r2 done", "less r0 r2 r1", "safe", "end"]
    for (thread, place), value in zip(reads, wanted):
        judge += [f"read r2 v{thread}_{place}", f"set r3 {value}", "same r3 r2 r3", "mul r4 r4 r3"]
    return script_of(objects, [*lines, [*judge, "write hit r4"]], 2048)


def litmus():
    """Each outcome that sequential consistency allows is reached, and no other one."""
    with tempfile.TemporaryDirectory() as folder:
        for title, threads in LITMUS.items():
            may = allowed(threads)
            possible = [sorted({0} | {int(a.split()[2]) for t in threads for a in t if a.startswith(f"w {access.split()[1]} ")}) for t in threads for access in t if access[0] == "r"]
            for outcome in itertools.product(*possible):
                status, said = hunted(folder, litmus_script(threads, outcome), "hit", 0, TRIES)
                if (status == 0) != (outcome in may) or status not in (0, 12):
                    return f"{title}: {outcome} is {'allowed' if outcome in may else 'never so'}, and hunt ends with {status}: {said[:200]}"
    return None


TESTS = {
    "hunt: planted mistakes are found": mistakes,
    "hunt: a hundred variants of each planted mistake": variants,
    "hunt: the examples that have a mistake": examples,
    "hunt: where nothing goes wrong": nothing_found,
    "hunt: a cycle of regions": cycles,
    "hunt: words, script and name are judged first": judged_in_order,
    "hunt: litmus tests": litmus,
}
