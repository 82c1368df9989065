#!/usr/bin/env python3
"""Runs of scripts whose threads race, each replayed and verified; and how many different logs they leave.

`tests/run` makes some of them. Called by itself, with how often each script is to be run (125 where
nothing is said: a thousand runs in all), it says how many different logs each script left, on all
processors and on one: a program whose races are rarer than another's leaves fewer. After that number
another build may be named, which makes the runs that this one judges. The exit status is 0 where
nothing was wrong. Needs Python 3 alone, and a system that keeps a process to one processor.
"""

import os
import pathlib
import sys
import tempfile

sys.path.insert(0, str(pathlib.Path(__file__).resolve().parent))

import judges  # noqa: E402
from case import ACCESSES, script, text  # noqa: E402
from files import OCTET, called, is_built, octet  # noqa: E402


def looping(threads, times, *body):
    """Threads that do the same, so many times."""
    lines = ["object x 0", "object y 0"]
    for _ in range(threads):
        lines += ["thread", f"set r0 {times}", "set r1 1", "while r0", *body, "sub r0 r0 r1", "end"]
    return text(*lines)


ON_TWO_OBJECTS = ["write x r0", "read r2 y", "write y r0", "read r2 x", "write x r0", "read r2 y"]
SCRIPTS = {
    "two threads, one access each": script("object x 5 / thread / set r0 7 / write x r0 / thread / read r0 x"),
    "two threads on two objects": looping(2, 100, *ON_TWO_OBJECTS),
    "four threads that add to one object": looping(4, 100, "bump x r1", "safe"),
    "sixteen threads on two objects": looping(16, 20, *ON_TWO_OBJECTS),
}
LARGE = looping(16, 500, *ON_TWO_OBJECTS)
LARGE_ACCESSES = 16 * 500 * sum(line.split()[0] in ACCESSES for line in ON_TWO_OBJECTS)


def on_one_processor():
    os.sched_setaffinity(0, {min(os.sched_getaffinity(0))})


PLACES = {"all processors": {}, "one processor": {"preexec_fn": on_one_processor}}


def run_once(folder, how, command="run", program=OCTET):
    """What is wrong with a run and its replays, or None; and the log."""
    status, said, *_ = called([str(program), command, "S", "L"], folder, **how)
    if status != 0:
        return f"{command} ends with {status}", b""
    wanted = {"replay": said, "parallel": said, "verify": text("ordered")}
    for judge, owed in wanted.items():
        found = octet([judge, "S", "L"], folder, **how)
        if found != (0, owed):
            return f"{command}, and then {judge}: {found!r:.300}, not {owed!r:.300}", b""
    return None, pathlib.Path(folder, "L").read_bytes()


def race(content, how, times, program=OCTET):
    """What is wrong, or None; and how many different logs there are."""
    logs = set()
    with tempfile.TemporaryDirectory() as folder:
        pathlib.Path(folder, "S").write_bytes(content)
        for _ in range(times):
            wrong, recorded = run_once(folder, how, program=program)
            if wrong is not None:
                return wrong, len(logs)
            logs.add(str(judges.read_log(recorded)))
    return None, len(logs)


def problem():
    for name, content in SCRIPTS.items():
        for place, how in PLACES.items():
            wrong, _ = race(content, how, 20)
            if wrong is not None:
                return f"{name}, on {place}: {wrong}"
    return None


def sixteen_threads():
    """Sixteen threads with 48,000 accesses to two objects end within a minute, however they wait."""
    for command in ["run", "locked"]:
        for place, how in PLACES.items():
            with tempfile.TemporaryDirectory() as folder:
                pathlib.Path(folder, "S").write_bytes(LARGE)
                wrong, recorded = run_once(folder, how, command)
                if wrong is not None:
                    return f"on {place}: {wrong}"
                if (made := sum(accesses for accesses, _ in judges.read_log(recorded))) != LARGE_ACCESSES:
                    return f"{command} on {place}: {made} accesses"
    return None


def main():
    if len(sys.argv) < 3 and not is_built():
        return 1
    times, failed = int((sys.argv[1:2] or ["125"])[0]), 0
    program = pathlib.Path((sys.argv[2:3] or [OCTET])[0]).resolve()
    for name, content in SCRIPTS.items():
        for place, how in PLACES.items():
            wrong, logs = race(content, how, times, program)
            failed += wrong is not None
            print(f"{name}, on {place}: {logs} different logs of {times}" + (f"; WRONG {wrong}" if wrong else ""), flush=True)
    return 1 if failed else 0


if __name__ == "__main__":
    sys.exit(main())
