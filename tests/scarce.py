"""Calls where no thread can be made, and where the stack is small.

What threads are for has to end all the same, and to be right. The limit on a user's threads holds
for no root user, so there the program is run as the user `nobody`.
"""

import os
import pathlib
import resource
import shutil
import tempfile

import judges
import turns
from case import text
from cases import COUNTED, COUNTED_UNMARKED, EXAMPLES, HANDOVER, HANDOVER_STUCK
from files import OCTET, called, differs, first, octet
from generated import SUMMARY
from racing import LARGE, SCRIPTS

AS_NOBODY = {"user": "nobody"} if os.geteuid() == 0 else {}


def no_threads():
    resource.setrlimit(resource.RLIMIT_NPROC, (0, 0))


def small_stack():
    resource.setrlimit(resource.RLIMIT_STACK, (65_536, 65_536))


class Alone:
    """A folder in which the program is called where no thread can be made."""

    def __init__(self, folder):
        self.folder = folder
        self.program = shutil.copy(OCTET, pathlib.Path(folder, "octet"))
        os.chmod(folder, 0o777)
        os.chmod(self.program, 0o755)

    def write(self, name, content):
        path = pathlib.Path(self.folder, name)
        path.write_bytes(content)
        os.chmod(path, 0o666)

    def call(self, *words):
        return called([self.program, *words], self.folder, preexec_fn=no_threads, **AS_NOBODY)


def recorded_alone(alone, content):
    """What is wrong with each way to run a script where no thread can be made, or None."""
    alone.write("S", content)
    for command in ["run", "locked"]:
        alone.write("L", b"")
        status, said = alone.call(command, "S", "L")
        if status != 0:
            return f"{command} of {content!r:.200}: status {status}, {said!r:.200}"
        wrong = first(
            *(
                differs(f"{command} of {content!r:.200}, and then {judge}", alone.call(judge, "S", "L"), (0, owed))
                for judge, owed in [("replay", said), ("parallel", said), ("verify", text("ordered"))]
            )
        )
        if wrong is not None:
            return wrong
    return None


def without_threads():
    """`run`, `locked`, `gen` and `parallel` end, and are right, where no thread can be made."""
    with tempfile.TemporaryDirectory() as folder:
        probe = called(["sh", "-c", "(exit 7)"], folder, preexec_fn=no_threads, **AS_NOBODY)
        if probe[0] == 7:
            return "the system makes processes in spite of the limit, so nothing was tried"
        alone = Alone(folder)
        contents = [LARGE, *SCRIPTS.values(), *(content for _, content, *_ in turns.ROWS)]
        contents += [path.read_bytes() for path in sorted(EXAMPLES.glob("*.octet"))]
        return first(
            *(recorded_alone(alone, content) for content in contents),
            *(replayed_alone(alone, content, recorded) for _, content, _, _, recorded in turns.ROWS),
            replayed_alone(alone, HANDOVER, HANDOVER_STUCK),
            replayed_alone(alone, COUNTED, COUNTED_UNMARKED),
            generated_alone(alone),
        )


def replayed_alone(alone, content, recorded):
    """What is wrong with a replay on threads of a log in which threads wait for each other, or None."""
    alone.write("S", content)
    alone.write("L", recorded)
    owed = judges.replayed(content, recorded).parallel
    return differs(f"parallel of {content} and {recorded.hex()}", alone.call("parallel", "S", "L"), owed)


def generated_alone(alone):
    alone.write("G", b"")
    alone.write("L", b"")
    return first(
        differs("gen", alone.call("gen", "1", "G", "L"), (0, SUMMARY)),
        differs("its log", alone.call("verify", "G", "L"), (0, text("ordered"))),
        differs("replay and parallel", alone.call("parallel", "G", "L"), alone.call("replay", "G", "L")),
    )


def on_a_small_stack():
    """Each command ends as ever where the stack has 64 KiB."""
    how = {"preexec_fn": small_stack, "env": {}}
    _, content, picks, said, recorded = turns.ROWS[2]
    with tempfile.TemporaryDirectory() as folder:
        here = pathlib.Path(folder)
        (here / "S").write_bytes(content)
        (here / "L").write_bytes(recorded)
        for words in [
            ["tidy", "S"], ["show", "L"], ["replay", "S", "L"], ["parallel", "S", "L"], ["verify", "S", "L"],
            ["regions", "S", "L"], ["slice", "S", "L", "2", "2"], ["stop", "S", "L", "x", "9"], ["trace", "S", "L"],
            ["profile", "S", "L"], ["convert", "S", "L", "O"], ["turns", "S", "T", picks], ["gen", "1", "G", "GL"], [],
        ]:  # fmt: skip
            found, wanted = octet(words, folder, **how), octet(words, folder)
            if found != wanted:
                return differs(" ".join(words), found, wanted)
        for command in ["run", "locked"]:
            for words in [[command, "S", "N"], ["replay", "S", "N"]]:
                found = octet(words, folder, **how)
                if found != (0, said):
                    return differs(f"{command}: {' '.join(words)}", found, (0, said))
    return None


TESTS = {
    "no thread can be made": without_threads,
    "a stack of 64 KiB": on_a_small_stack,
}
