"""The program of docs/HEAP.md, `octet_bank`: what it says and leaves, by plain judges and by `octet` itself.

It is tried where it is built (`rt ci`, or `rt run` in its folder).
"""

import pathlib
import re

import judges
from case import text
from files import TOP, called, differs, first, folder_with, octet

PROGRAM = TOP / "crates" / "octet_bank" / "out" / "octet_bank"
FIRST = re.compile(rb"balance (130|150|180) of 180\n")
SAID = re.compile(FIRST.pattern + rb"again: balance \1 of 180\n")
WORDS = b"octet_bank: two amounts below 4,294,967,296 are wanted, as in `octet_bank 30 50`\n"


def paid():
    """Both balances are the one that `octet` replays; script and log are a faithful recording by plain judges."""
    if not PROGRAM.exists():
        return None
    with folder_with() as folder:
        files = ["bank.octet", "bank.log"]
        for _ in range(100):
            status, said = called([PROGRAM, "30", "50"], folder)
            told = SAID.fullmatch(said)
            if status != 0 or told is None:
                return f"status {status}, said {said!r}"
            script, log = [pathlib.Path(folder, name).read_bytes() for name in files]
            replayed = octet(["replay", *files], folder)
            problem = first(
                differs("the balance", replayed[1].split(b"\n")[2], b"object balance " + told[1]),
                differs("verify", octet(["verify", *files], folder), (0, text("ordered"))),
                differs("tidy", octet(["tidy", "bank.octet"], folder), (0, script)),
                differs("by plain judges", judges.is_faithful(script, log, replayed[1]), True),
            )
            if problem is not None:
                return problem
    return None


def refused():
    """Words that are no two amounts, and a folder that may not be written."""
    if not PROGRAM.exists():
        return None
    with folder_with() as folder:
        pathlib.Path(folder, "bank.log").mkdir()
        words = [[], ["30"], ["30", "-1"], ["30", "4294967296"], ["30", "50", "70"]]
        return first(
            *(differs(f"{each}", called([PROGRAM, *each], folder), (1, b"", WORDS)) for each in words),
            differs("nothing is written", sorted(path.name for path in pathlib.Path(folder).iterdir()), ["bank.log"]),
            differs("a file that is a folder", called([PROGRAM, "30", "50"], folder)[:2], (3, b"")),
        )


TESTS = {
    "octet_bank: what it recorded is replayed, verified and run again": paid,
    "octet_bank: what it refuses": refused,
}
