#!/usr/bin/env python3
"""The sessions that pages show: each command after `    $ ` says the lines below it.

    tests/sessions.py PAGE ..    all of these pages, with the program OCTET and the C library in OCTET_LIB, or what is built

`tests/run` runs those that need the program alone, and `bindings/test` the others too. The commands below one heading share a shell,
and those of one page a folder. A command that records a real race has other numbers each time: those that come after are the numbers
that it had. What was left out, for want of a compiler, is said on a line of its own. Needs Python 3 alone.
"""

import os
import pathlib
import re
import shutil
import subprocess
import sys
import tempfile

TOP = pathlib.Path(__file__).resolve().parent.parent
FOLDERS = ["bin", "examples", "tools", "bindings", "program", "include"]
# What a command needs besides the program, by a word in it.
NEEDS = {"cargo": "cargo", "gcc": "gcc", "program/": "gcc", "./": "gcc"}
END, SECONDS = "\001", 600


def calls_of(page):
    """The commands of a page and what they say: `    $ ..`, and the indented lines after it."""
    calls = []
    for line in page.split("\n"):
        if line.startswith("    $ "):
            calls.append([line[6:], ""])
        elif line.startswith("    ") and calls:
            calls[-1][1] += line[4:] + "\n"
        else:
            yield from calls
            calls = []
    yield from calls


def sections(path):
    """The commands below each heading of a page, and what each says."""
    parts = re.split(r"^#+ .*\n", path.read_text(), flags=re.MULTILINE)
    return [calls for calls in map(list, map(calls_of, parts)) if calls]


def needs(calls):
    """The compilers without which these commands cannot be run."""
    return {need for word, need in NEEDS.items() if any(word in command for command, _ in calls)}


def is_told(command, shown, found, known):
    """Whether a command says what the page shows: but for the numbers of a race, which are learnt."""
    if "record" in command:
        known.clear()
    one, other = (re.split(r"([0-9]+)", text) for text in (shown, found))
    if one[::2] != other[::2]:
        return False
    if "record" in command:
        return all(known.setdefault(mine, told) == told for mine, told in zip(one[1::2], other[1::2]))
    return all(known.get(mine, mine) == told for mine, told in zip(one[1::2], other[1::2]))


def problem_of(calls, folder):
    """The first command below one heading that says something else, or None."""
    script = "".join(f"{command}\nprintf '{END}'\n" for command, _ in calls)
    done = subprocess.run(["sh", "-c", script], cwd=folder, capture_output=True, timeout=SECONDS, check=False)
    told, known = done.stdout.decode(errors="replace").split(END), {}
    for (command, shown), found in zip(calls, told):
        if not is_told(command, shown, found, known):
            return f"{command}: {found!r}, not {shown!r}; {done.stderr.decode(errors='replace')[-500:]!r}"
    return None if len(told) == len(calls) + 1 else f"{calls[-1][0]}: the shell ended before"


def problem(path, without=()):
    """What of a page's sessions is wrong, or None; those that need one of these compilers are left out."""
    with tempfile.TemporaryDirectory() as folder:
        for name in FOLDERS:
            pathlib.Path(folder, name).symlink_to(TOP / name)
        found = (problem_of(calls, folder) for calls in sections(path) if not needs(calls).intersection(without))
        return next((f"{path.relative_to(TOP)}: {wrong}" for wrong in found if wrong), None)


def main():
    if len(sys.argv) < 2:
        print(__doc__, end="", file=sys.stderr)
        return 64
    pages = [TOP / name for name in sys.argv[1:]]
    for variable, word in [("OCTET", "--program"), ("OCTET_LIB", "--library")]:
        if variable not in os.environ:
            os.environ[variable] = subprocess.run([TOP / "bin" / "octet", word], capture_output=True, text=True, check=True).stdout.strip()
    missing = [need for need in sorted(set(NEEDS.values())) if not shutil.which(need)]
    for need in missing:
        print(f"LEFT OUT: sessions that need {need}")
    wrong = [found for found in (problem(page, missing) for page in pages) if found]
    print("\n".join([*wrong, f"sessions of {len(pages)} pages: {'FAILED' if wrong else 'all as shown'}"]))
    return 1 if wrong else 0


if __name__ == "__main__":
    sys.exit(main())
