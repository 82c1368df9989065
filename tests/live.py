"""The log that `run` writes while its threads run: killed in the middle, on a full disk, with no output.

Whatever a run leaves behind is a prefix of a log in version 2, which the program refuses as cut short.
"""

import os
import pathlib
import resource
import signal
import subprocess
import tempfile
import time

import judges
from case import script, second, text
from files import OCTET, differs, first, folder_with, in_bursts, octet
from racing import LARGE

HEAD = 38

# Thread 1 takes x from thread 0 at once, which is a mark; then both are busy for long, each with an object of its own.
LONG = text(
    "fuel 131072", "object x 0", "object a 0", "object b 0",
    *(
        line
        for first_command, name in [("set r2 0", "a"), ("write x r2", "b")]
        for line in ["thread", first_command, "set r0 10000", "set r1 1", "while r0"]
        + [f"write {name} r0"] * 10
        + ["sub r0 r0 r1", "end"]
    ),
)  # fmt: skip


def head(content):
    """The head of each log of a run of this script."""
    threads = content.split(b"\n").count(b"thread")
    return second(content, *[(0,)] * threads)[:HEAD]


def killed(folder):
    """The log of a run that was killed as soon as it had a piece; and whether it was cut."""
    log = pathlib.Path(folder, "L")
    log.unlink(missing_ok=True)
    for process in in_bursts(["run", "S", "L"], folder):
        time.sleep(0.005)  # So that a drainer that rests for a millisecond or two is due again.
        if log.exists() and log.stat().st_size > HEAD:
            process.kill()
            return log.read_bytes(), process.wait() == -signal.SIGKILL
    return log.read_bytes(), False


def cut_short(folder, name="L"):
    """What is wrong with a file that has to be a prefix of a log in version 2, or None."""
    content = pathlib.Path(folder, name).read_bytes()
    line = f"4 cut short at {len(content)}" if len(content) >= 4 else "1 no magic"
    script_content = pathlib.Path(folder, "S").read_bytes()
    owed = 3, text(f"log: {line}")
    return first(
        differs("the head", content[:HEAD], head(script_content)[: len(content)]),
        differs("by a plain reader", judges.read_log(content), line),
        *(differs(command, octet([command, "S", name], folder), owed) for command in ["replay", "parallel", "verify"]),
        differs("show", octet(["show", name], folder), owed),
    )


def killed_in_the_middle():
    """Marks are in the file while the threads are still busy, and a run that is killed leaves a prefix."""
    cuts = 0
    with folder_with(S=LONG) as folder:
        # Where the processors have much to do, many a run is over before it is killed.
        for _ in range(100):
            content, was_cut = killed(folder)
            if not was_cut or not isinstance(judges.read_log(content), str):
                continue
            cuts += 1
            if (wrong := cut_short(folder)) is not None:
                return f"{content.hex()}: {wrong}"
            if cuts == 10:
                return None
    # A log that is written at the end would be caught with a piece and no tail by mere luck.
    return f"of 100 runs {cuts} had a piece in the file and no tail"


def threads_beside_each_other():
    """What is said to have a thread for each of the script's has more than one at some time."""
    with folder_with(S=LONG) as folder:
        for words in [["run", "S", "L"], ["parallel", "S", "L"], ["locked", "S", "L"]]:
            most = 0
            for _ in range(20):
                for process in in_bursts(words, folder):
                    most = max(most, len(os.listdir(f"/proc/{process.pid}/task")))
                if most > 1:
                    break
            else:
                return f"{words[0]}: no more than one thread was seen"
    return None


def killed_at_any_time():
    """What a kill leaves: no file, or an empty one, a prefix, or a whole log of the run."""
    with folder_with(S=LARGE) as folder:
        log = pathlib.Path(folder, "L")
        for wait in range(40):
            log.unlink(missing_ok=True)
            with subprocess.Popen([str(OCTET), "run", "S", "L"], cwd=folder, stdout=subprocess.DEVNULL) as process:
                time.sleep(wait * 0.0005)
                process.kill()
            if not log.exists():
                continue
            if isinstance(judges.read_log(log.read_bytes()), str):
                wrong = cut_short(folder)
            else:
                wrong = differs("verify", octet(["verify", "S", "L"], folder), (0, text("ordered")))
            if wrong is not None:
                return f"killed after {wait / 2} ms: {wrong}"
    return None


def files_that_may_not_grow():
    """A run whose file is full ends with 6, and leaves what there was room for."""
    with folder_with(S=LARGE) as folder:
        for size in [0, 3, 10, 37, 38, 39, 45, 100, 150]:

            def limit():
                signal.signal(signal.SIGXFSZ, signal.SIG_IGN)
                resource.setrlimit(resource.RLIMIT_FSIZE, (size, size))

            wrong = first(
                differs("run", octet(["run", "S", "L"], folder, preexec_fn=limit), (6, b"")),
                differs("how much is left", pathlib.Path(folder, "L").stat().st_size, size),
                cut_short(folder),
            )
            if wrong is not None:
                return f"files of {size} bytes: {wrong}"
        return differs("/dev/full", octet(["run", "S", "/dev/full"], folder), (6, b""))


def output_that_takes_nothing():
    """A run whose outcome cannot be said has its log whole: it ends with 6, or by the system's signal."""
    with folder_with(S=LARGE) as folder, open("/dev/full", "wb") as full:
        read_end, write_end = os.pipe()
        os.close(read_end)
        wrong = None
        for output, statuses in [(full, (6,)), (write_end, (6, -signal.SIGPIPE))]:
            status, _ = octet(["run", "S", "L"], folder, stdout=output)
            wrong = first(
                wrong,
                None if status in statuses else f"status {status}",
                differs("verify", octet(["verify", "S", "L"], folder), (0, text("ordered"))),
            )
        os.close(write_end)
        return wrong


def runs_that_share_a_log():
    """Runs that write one log at once: each ends with 0. What stands in the file then is of no one run."""
    content = script("object x 5 / thread / set r0 7 / write x r0 / thread / read r0 x")
    with tempfile.TemporaryDirectory() as folder:
        pathlib.Path(folder, "S").write_bytes(content)
        for _ in range(20):
            together = [
                subprocess.Popen([str(OCTET), "run", "S", "L"], cwd=folder, stdout=subprocess.DEVNULL) for _ in range(3)
            ]
            statuses = [process.wait(60) for process in together]
            if statuses != [0, 0, 0]:
                return f"they end with {statuses}"
            status, said = octet(["replay", "S", "L"], folder)
            if status not in (0, 3, 4):
                return f"their log is replayed with {status}, {said}"
    return None


TESTS = {
    "run, parallel, locked: more than one thread": threads_beside_each_other,
    "run: killed in the middle": killed_in_the_middle,
    "run: killed at any time": killed_at_any_time,
    "run: files that may not grow": files_that_may_not_grow,
    "run: output that takes nothing": output_that_takes_nothing,
    "run: three runs, one log": runs_that_share_a_log,
}
