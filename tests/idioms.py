"""The scripts of docs/LANGUAGE.md do what the page says, in whatever order their threads go."""

import pathlib
import random

from files import TOP, differs, first, folder_with, octet

EXAMPLES = TOP / "examples"


def outcomes(content, runs, picks):
    """The outcomes of a script by some runs and by some random picks, each replayed to the same."""
    dice, found = random.Random(58), []
    with folder_with(S=content) as folder:
        calls = [["run", "S", "L"]] * runs
        calls += [["turns", "S", "L", "".join(dice.choices("0123456789abcdef", k=40))] for _ in range(picks)]
        for words in calls:
            status, said = octet(words, folder)
            if (status, said) != octet(["replay", "S", "L"], folder):
                raise AssertionError(f"{words}: the replay says something else")
            found.append(said.decode())
    return found


def is_done(said):
    return " spent" not in said


def a_lock():
    """Behind the lock no count is lost; without it some are."""
    content = (EXAMPLES / "lock.octet").read_bytes()
    # Without the lock: no line that names what it is made of, and no loop that waits.
    parts = content.decode().replace("set r3 1\nwhile r3\n", "\0").split("\0")
    rest = [parts[0], *(part.split("end\n", 1)[1] for part in parts[1:])]
    unlocked = "".join(line for line in "".join(rest).splitlines(True) if "wants" not in line and "turn" not in line).encode()
    locked = [said for said in outcomes(content, 30, 100) if is_done(said)]
    lost = [said for said in outcomes(unlocked, 0, 60) if not said.endswith("object count 6\n")]
    return first(
        differs("with the lock", [said for said in locked if not said.endswith("object count 6\n")], []),
        differs("how many ended", len(locked) >= 90, True),
        differs("without it", len(lost) > 10, True),
    )


def a_ring():
    """All six numbers come through, in order."""
    found = [said for said in outcomes((EXAMPLES / "ring.octet").read_bytes(), 30, 100) if is_done(said)]
    for said in found:
        # The consumer reads how many are filled, and then a number, from 6 down to 1.
        read = [int(word) for word in said.split("\n")[1].split()[3:]]
        if not said.endswith("object sum 21\n") or not is_subsequence([6, 5, 4, 3, 2, 1], read):
            return said
    return differs("how many ended", len(found) >= 90, True)


def is_subsequence(wanted, found):
    rest = iter(found)
    return all(each in rest for each in wanted)


def in_between():
    """With `pause` another thread comes in between the two writes, and without it none does."""
    content = (EXAMPLES / "torn.octet").read_bytes()
    torn, words = "thread 1 done 1 0", ["turns", "S", "L", "0000111111111111"]
    with folder_with(S=content) as folder:
        status, said = octet(words, folder)
    whole = content.replace(b"pause\n", b"")
    return first(
        differs("with it", (status, said.decode().split("\n")[1]), (0, torn)),
        differs("without it", [said for said in outcomes(whole, 30, 300) if torn in said], []),
    )


def all_on_the_page():
    """The page names the five scripts, and what they are run by."""
    page = (TOP / "docs" / "LANGUAGE.md").read_text()
    return first(
        *(
            differs(name, f"$ bin/octet turns examples/{name} " in page and pathlib.Path(EXAMPLES, name).is_file(), True)
            for name in ["countdown.octet", "flag.octet", "lock.octet", "ring.octet", "torn.octet"]
        )
    )


TESTS = {
    "docs/LANGUAGE: a lock": a_lock,
    "docs/LANGUAGE: a ring of cells": a_ring,
    "docs/LANGUAGE: in between": in_between,
    "docs/LANGUAGE: its scripts": all_on_the_page,
}
