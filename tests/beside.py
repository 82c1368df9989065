"""Threads of the built program, with its own gate, beside each other; and memory that accesses do not take.

What runs beside each other is what the system tells of a process: how many of its threads are running, or
could run, at one moment. Of threads that take turns behind a lock, or come one after another, that is mostly one.
"""

import itertools
import pathlib
import re
import shutil
import subprocess
import tempfile
import time

from case import text
from files import OCTET, SECONDS, TOP, called, differs, first, folder_with, octet

RESTS = re.compile(r"\nvoluntary_ctxt_switches:\s+(\d+)")


def together(names, fuel, rounds):
    """Each thread is busy with an object of its own, and then all bump x, so they are not apart. An access of x before that
    would make one of them rest, for longer than another one takes."""
    threads = (
        ["thread", f"set r0 {rounds}", "set r1 1", "while r0", *[f"write {name} r0"] * 10, "safe", "sub r0 r0 r1", "end", "bump x r1"]
        for name in names
    )
    return text(f"fuel {fuel}", "object x 0", *(f"object {name} 0" for name in names), *itertools.chain(*threads))


TOGETHER = together("ab", 131072, 10000)
# Players are of use where they take half the time of one, or less.
FOUR_TOGETHER = together("abcd", 65536, 4900)


def running(number):
    """How many threads a process has, and how many of them run, or could, at this moment."""
    states = []
    for task in pathlib.Path(f"/proc/{number}/task").iterdir():
        try:
            states.append((task / "stat").read_text().rpartition(")")[2].split()[0])
        except OSError:
            pass  # It has ended.
    return len(states), states.count("R")


def seen(words, folder, calls=1):
    """Of calls that are looked at again and again: of each look with more than one thread, how many run."""
    looks = []
    for _ in range(calls):
        for process in looked_at(words, folder):
            try:
                threads, together = running(process.pid)
            except OSError:
                break
            if threads > 1:
                looks.append(together)
    return looks


def looked_at(words, folder):
    """A call, given again and again as long as it goes on."""
    until = time.monotonic() + SECONDS
    with subprocess.Popen([str(OCTET), *words], cwd=folder, stdout=subprocess.DEVNULL) as process:
        while process.poll() is None:
            yield process
            time.sleep(0.0002)
            if time.monotonic() > until:
                process.kill()
                raise subprocess.TimeoutExpired(words, SECONDS)


def share(looks, count):
    """In which part of the looks so many run."""
    return sum(together >= count for together in looks) / max(len(looks), 1)


def often(words, folder, count):
    """Whether so many were seen to run at one moment at least five times, in some calls."""
    times = 0
    for _ in range(30):
        times += sum(together >= count for together in seen(words, folder))
        if times >= 5:
            return None
    return f"{' '.join(words)}: {count} threads were seen to run at one moment {times} times"


def rests(words, folder):
    """How often the threads that a call starts gave their processor away, as behind a lock; and how many threads there are."""
    last = {}
    for process in looked_at(words, folder):
        try:
            tasks = list(pathlib.Path(f"/proc/{process.pid}/task").iterdir())
        except OSError:
            break
        for task in tasks:
            try:
                if task.name != str(process.pid):
                    last[task.name] = int(RESTS.search((task / "status").read_text())[1])
            except (OSError, TypeError):
                pass  # It has ended.
    return sum(last.values()), len(last)


def beside_each_other():
    """`run`, `gen` and `parallel` have threads that run beside each other, on scripts whose threads share what they write."""
    with folder_with(S=TOGETHER, F=FOUR_TOGETHER) as folder:
        at_once = share(seen(["run", "S", "L"], folder, 5), 2)
        rested = min(count for count, threads in (rests(["run", "S", "L"], folder) for _ in range(10)) if threads >= 2)
        return first(
            None if at_once > 0.25 else f"run: two threads run in {at_once:.0%} of the looks",
            None if rested <= 50 else f"run: its threads gave their processors away {rested} times",
            differs("whether they met", octet(["show", "L"], folder)[1].count(b"\ngap ") > 0, True),
            differs("run of four", octet(["run", "F", "K"], folder)[0], 0),
            often(["parallel", "F", "K"], folder, 2),
            often(["gen", "1", "G", "M"], folder, 4),
            often(["parallel", "G", "M"], folder, 4),
        )


def many_marks():
    """`parallel` starts no thread where two threads hand one object on at each access, and judges the log all the same."""
    counting = ["thread", "set r0 2000", "set r1 1", "while r0", "bump n r1", "safe", "sub r0 r0 r1", "end"]
    done = text("thread 0 done", "thread 1 done", "object n 4000")
    with folder_with(S=text("fuel 131072", "object n 0", *counting, *counting)) as folder:
        turned = octet(["turns", "S", "L", "0"], folder)
        pathlib.Path(folder, "T").write_bytes(octet(["show", "L"], folder)[1])
        called([TOP / "tools" / "log", "--without", "1", "5", "T", "M"], folder)
        return first(
            differs("turns", turned, (0, done)),
            differs("looks with more than one thread", seen(["parallel", "S", "L"], folder, 3), []),
            differs("parallel", octet(["parallel", "S", "L"], folder), (0, done)),
            # Each bump of a thread, but the first one of all, has a mark right before it.
            differs("without a mark", octet(["parallel", "S", "M"], folder), (9, text("unordered 0:10 1:10"))),
        )


def one_after_another():
    """`parallel` starts no thread where the second thread begins after the first one's last access, by the one mark of the log."""
    rounds = [["while r0", *[f"write {name} r0"] * 10, "sub r0 r0 r1", "end"] for name in "ab"]
    first_thread, second_thread = (["thread", "set r0 10000", "set r1 1"] for _ in "ab")
    first_thread += [*rounds[0], "bump x r1"]
    second_thread += ["bump x r1", *rounds[1]]
    script = text("fuel 131072", "object x 0", "object a 0", "object b 0", *first_thread, *second_thread)
    log = text("threads 2", "thread 0 accesses 100001 marks 0", "thread 1 accesses 100001 marks 1", "gap 0 join 0 100001")
    with folder_with(S=script, T=log) as folder:
        called([TOP / "tools" / "log", "T", "L"], folder)
        done = text("thread 0 done", "thread 1 done", "object x 2", "object a 1", "object b 1")
        return first(
            differs("looks with more than one thread", seen(["parallel", "S", "L"], folder, 3), []),
            differs("parallel", octet(["parallel", "S", "L"], folder), (0, done)),
        )


def in_turn():
    """A script of one thread is told apart from that. Where the processors have much to do, a thread that only looks now and then
    whether there are marks to be written has to wait for one, and seems to run: so one call of many is enough."""
    with folder_with(S=b"thread\n".join(TOGETHER.split(b"thread\n")[:2])) as folder:
        shares = []
        for _ in range(50):
            shares.append(share(seen(["run", "S", "L"], folder), 2))
            if shares[-1] < 0.25:
                return None
        return f"two threads run in {min(shares):.0%} of the looks, or more"


def counted(content, folder, library):
    """The fewest allocations that a run makes, of five."""
    told, found = pathlib.Path(folder, "count"), []
    pathlib.Path(folder, "S").write_bytes(content)
    for _ in range(5):
        told.write_text("0")
        done = subprocess.run(
            [str(OCTET), "run", "S", "L"], cwd=folder, capture_output=True, timeout=SECONDS, check=False,
            env={"LD_PRELOAD": str(library), "COUNT_ALLOCATIONS": str(told)},
        )  # fmt: skip
        if done.returncode != 0:
            raise AssertionError(f"status {done.returncode}, {done.stderr!r:.200}")
        found.append(int(told.read_text()))
    return min(found)


def busy(names, times):
    """A thread for each object, which makes twice so many accesses of it."""
    body = ["set r1 1", "while r0", "write {} r0", "bump {} r1", "sub r0 r0 r1", "end"]
    threads = [["thread", f"set r0 {times}", *(line.format(name) for line in body)] for name in names]
    return text("fuel 131072", *(f"object {name} 0" for name in names), *itertools.chain(*threads))


def allocations():
    """An access takes no memory: a run of twice as many accesses makes as many allocations."""
    if shutil.which("cc") is None:
        return None
    with tempfile.TemporaryDirectory() as folder:
        library = pathlib.Path(folder, "counting.so")
        subprocess.run(["cc", "-shared", "-fPIC", "-O1", "-o", library, TOP / "tests" / "counting.c", "-ldl"], check=True)
        for names in ["a", "ab"]:
            # Their texts have one length.
            once, twice = (counted(busy(names, times), folder, library) for times in ["02500", "05000"])
            if once == 0 or once != twice:
                return f"of {len(names)} threads: {once} allocations, and {twice} of twice the accesses"
    return None


TESTS = {
    "run, gen, parallel: threads beside each other": beside_each_other,
    "parallel: a log of many marks": many_marks,
    "parallel: threads one after another": one_after_another,
    "run: a thread alone": in_turn,
    "run: twice the accesses, as many allocations": allocations,
}
