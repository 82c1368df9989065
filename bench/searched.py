"""Scripts whose every interleaving is gone through, and the same as models for SPIN.

A model has a process for each thread. A step of it is an access, or commands on the thread's own registers.
"""

import pathlib
import re
import shutil
import subprocess

LITMUS = {
    "store buffering": ["w x, r y", "w y, r x"],
    "message passing": ["w x, w y", "r y, r x"],
    "load buffering": ["r x, w y", "r y, w x"],
    "reads of two writers": ["w x", "w y", "r x, r y", "r y, r x"],
    "write to read causality": ["w x", "r x, w y", "r y, r x"],
    "2+2W": ["w x, w y, r y", "w y, w x, r x"],
    "three buffers": ["w x, r y", "w y, r z", "w z, r x"],
}
FUEL = 32_768


def litmus(threads):
    """Each thread writes what it read to an object of its own, so that it counts."""
    lines = [f"object {name} 0" for name in sorted({access[-1] for thread in threads for access in thread.split(", ")})]
    lines += [f"object v{t}{p} 0" for t, thread in enumerate(threads) for p, access in enumerate(thread.split(", ")) if access[0] == "r"]
    for t, thread in enumerate(threads):
        accesses = thread.split(", ")
        lines += ["thread", "set r0 1"]
        lines += [f"write {a[-1]} r0" if a[0] == "w" else f"read r{1 + p} {a[-1]}" for p, a in enumerate(accesses)]
        lines += [f"write v{t}{p} r{1 + p}" for p, a in enumerate(accesses) if a[0] == "r"]
    return lines


def rounds(count, body):
    return [f"set r10 {count}", "set r11 1", "while r10", *body, "sub r10 r10 r11", "end"]


ADD = ["set r1 1", "read r0 n", "add r0 r0 r1", "write n r0"]


def adding(threads, body=ADD):
    return ["object n 0", *(line for _ in range(threads) for line in ["thread", *body])]


def peterson(count):
    lines = ["object wants0 0", "object wants1 0", "object turn 0", "object n 0"]
    for me, other in ((0, 1), (1, 0)):
        enter = ["set r1 1", f"set r9 {other}", f"write wants{me} r1", "write turn r9", "set r2 1", "while r2", f"read r3 wants{other}", "read r4 turn"]
        leave = ["same r5 r4 r9", "mul r2 r3 r5", "end", "read r0 n", "add r0 r0 r1", "write n r0", f"write wants{me} r8"]
        lines += ["thread", *(rounds(count, enter + leave) if count > 1 else enter + leave)]
    return lines


def bakery(threads):
    """Lamport's bakery with one round: a number above all others, and a wait for each lower one."""
    lines = [f"object {name}{t} 0" for name in ("choosing", "number") for t in range(threads)] + ["object n 0"]
    for me in range(threads):
        lines += ["thread", "set r1 1", f"write choosing{me} r1", "set r4 0"]
        for other in range(threads):
            lines += [f"read r2 number{other}", "less r3 r4 r2", "if r3", "copy r4 r2", "end"]
        lines += ["add r4 r4 r1", f"write number{me} r4", f"write choosing{me} r8"]
        for other in set(range(threads)) - {me}:
            lines += ["set r2 1", "while r2", f"read r2 choosing{other}", "end", "set r2 1", "while r2", f"read r3 number{other}"]
            lines += ["less r5 r3 r4", *(["same r6 r3 r4", "xor r5 r5 r6"] if other < me else []), "less r7 r8 r3", "mul r2 r5 r7", "end"]
        lines += ["read r0 n", "add r0 r0 r1", "write n r0", f"write number{me} r8"]
    return lines


def ping(count):
    """Two threads hand a flag to and fro, and add in turn."""
    lines = ["object turn 0", "object n 0"]
    for me, other in ((0, 1), (1, 0)):
        wait = [f"set r9 {other}", f"set r7 {me}", "set r2 1", "while r2", "read r3 turn", "same r4 r3 r7", "set r5 1", "sub r2 r5 r4", "end"]
        lines += ["thread", *rounds(count, wait + ["set r1 1", "read r0 n", "add r0 r0 r1", "write n r0", "write turn r9"])]
    return lines


def apart(threads, count):
    """Each thread works on an object of its own, and then adds to a shared one."""
    lines = [f"object own{t} 0" for t in range(threads)] + ["object n 0"]
    for t in range(threads):
        lines += ["thread", *rounds(count, ["set r1 1", f"read r0 own{t}", "add r0 r0 r1", f"write own{t} r0"]), "read r0 n", "set r1 1", "add r0 r0 r1", "write n r0"]
    return lines


SEARCHED = {
    **{name: litmus(threads) for name, threads in LITMUS.items()},
    "two threads that read, add and write": adding(2),
    "four such threads": adding(4),
    "six such threads": adding(6),
    "two such threads, ten rounds": adding(2, rounds(10, ADD)),
    "six threads that bump": adding(6, ["set r1 1", "bump n r1"]),
    "Peterson's lock": peterson(1),
    "Peterson's lock, five rounds": peterson(5),
    "Peterson's lock, twenty rounds": peterson(20),
    "bakery of two": bakery(2),
    "bakery of three": bakery(3),
    "a flag to and fro, ten rounds": ping(10),
    "three threads apart, ten rounds": apart(3, 10),
    "five threads apart": apart(5, 1),
}
OPEN = {"while": ("do :: ({} != 0) ->", ":: else -> break od;"), "if": ("if :: ({} != 0) ->", ":: else fi;")}
CALCULATE = {
    **dict.fromkeys(["set", "copy", "read", "write"], "{} = {};"),
    "bump": "{0} = {0} + {1};",
    **{kind: f"{{}} = ({{}} {sign} {{}});" for kind, sign in [("add", "+"), ("sub", "-"), ("mul", "*"), ("xor", "^"), ("less", "<"), ("same", "==")]},
}


def model(lines):
    """The script in Promela: a process for each thread. SPIN merges commands on a thread's own registers into one step."""
    out, opened, threads = [f"int {line.split()[1]};" for line in lines if line.startswith("object ")], [], 0
    for line in lines:
        kind, *words = line.split()
        if kind == "thread":
            out += ["}"] * bool(threads) + [f"active proctype T{threads}() {{", *(f"int r{n};" for n in range(12))]
            threads += 1
        elif kind in OPEN:
            opened.append(kind)
            out.append(OPEN[kind][0].format(*words))
        elif kind == "end":
            out.append(OPEN[opened.pop()][1])
        elif kind in CALCULATE:
            out.append(CALCULATE[kind].format(*words))
    return "\n".join([*out, "}"]) + "\n"


def spin_states(folder, lines, *options):
    """How many states SPIN stores of the script, and in how many seconds; None without SPIN."""
    if not shutil.which("spin") or not shutil.which("gcc"):
        return None
    pathlib.Path(folder, "model.pml").write_text(model(lines))
    subprocess.run(["spin", "-a", "model.pml"], cwd=folder, check=True, capture_output=True)
    subprocess.run(["gcc", "-O2", "-w", "-DSAFETY", "-DVECTORSZ=4096", *options, "-o", "pan", "pan.c"], cwd=folder, check=True, capture_output=True)
    said = subprocess.run(["./pan", "-m1000000", "-w26"], cwd=folder, check=True, capture_output=True, text=True).stdout
    stored = re.search(r"([0-9.e+]+) states, stored", said)
    took = re.search(r"elapsed time ([0-9.e-]+) seconds", said)
    return int(float(stored[1])), float(took[1]) if took else 0.0
