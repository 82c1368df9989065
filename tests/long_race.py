"""Runs of any length over the C library: what `bindings/c/race.c` records is followed to the same lines, and a cut file to the
front of its whole blocks.

Beside it stands a plain model: it reads a marks file by docs/FORMATS.md, takes steps as long as a mark allows one, and makes the
accesses of the plan on plain cells. The program is compiled by gcc over the library that is built of these sources: where no
proved one is, over that of `bindings/unproved`. Without gcc these tests are left out, and say so.
"""

import fcntl
import functools
import itertools
import json
import os
import pathlib
import re
import shutil
import signal
import subprocess
import sys
import time
from hashlib import sha256

from case import block, end, marks_head, text
from files import OCTET, SECONDS, TOP, called, differs, first, folder_with, library, octet

DIAGRAM = TOP / "tools" / "diagram"
SOURCE = TOP / "bindings" / "c" / "race.c"
THREADS, SHARED, OWN, OBJECTS = 4, 4, 8, 36
ALL = 2**64
SPREAD, STEP, LOW = 0x9E3779B97F4A7C15, 0xD1342543DE82EF95, 2**20
# So many races, in which a thread makes so many accesses. A library without a proof has checks, and is slow.
RACES, RACES_UNPROVED = (200, 250_000), (20, 50_000)
WORDS = "wanted is `record FILE SEED ACCESSES EVERY`, `follow` with the same, or `window` with the same and LAST SCRIPT LOG"


def compiled(folder, place):
    """Compiles the program over the library of a folder."""
    kit = os.environ.get("RATTLE_KIT") or pathlib.Path(shutil.which("rt")).resolve().parent.parent
    words = ["gcc", "-std=c11", "-O2", "-Wall", "-Wextra", "-Wpedantic", "-Werror", f"-I{TOP / 'include'}", SOURCE]
    words += [folder / "liboctet_c.a", pathlib.Path(kit, "c", "liblibc_c.a"), "-lpthread", "-o", place]
    subprocess.run(words, check=True)


@functools.cache
def program():
    """The program, and whether its library is a proved one; or None twice, where there is no gcc."""
    if shutil.which("gcc") is None:
        print("tests/run: LEFT OUT: runs of any length over the C library, since there is no gcc", file=sys.stderr, flush=True)
        return None, None
    place = TOP / "build" / "race"
    place.parent.mkdir(exist_ok=True)
    # Tests may run beside each other, each in a process of its own.
    with open(place.with_suffix(".lock"), "wb") as lock:
        fcntl.flock(lock, fcntl.LOCK_EX)
        folder = library()
        compiled(folder, place.with_suffix(".new"))
        place.with_suffix(".new").replace(place)
    return place, folder.name != "unproved"


def over_the_library(test):
    """What is wrong by a test that calls the program; nothing where there is no program."""
    return None if program()[0] is None else test()


def race(verb, folder, seed, accesses, every, file="F", more=(), **how):
    return called([program()[0], verb, file, str(seed), str(accesses), str(every), *map(str, more)], folder, **how)


def refused(status, line):
    return status, b"", f"race: {line}\n".encode()


def frames_of(content):
    """Each whole frame behind the magic and the version: kind, body, and the place where it ends."""
    place = 5
    while place + 9 <= len(content):
        length = int.from_bytes(content[place + 1 : place + 5], "big")
        if place + 17 + length > len(content):
            return
        yield content[place], content[place + 9 : place + 9 + length], place + 17 + length
        place += 17 + length


def short_at(body, place):
    """A number in groups of 7 bits, and the place behind it."""
    number = shift = 0
    while True:
        number += body[place] % 128 << shift
        shift += 7
        place += 1
        if body[place - 1] < 128:
            return number, place


def steps_of(body):
    """The steps of a block: None for an access, else the source and the number of a mark."""
    place, last = 21, {}
    while place < len(body):
        source = body[place]
        gap, place = short_at(body, place + 1)
        step, place = short_at(body, place)
        last[source] = (last.get(source, 0) + step) % ALL
        yield from itertools.repeat(None, gap)
        yield source, last[source]
    yield from itertools.repeat(None, int.from_bytes(body[9:13], "big"))


class Model:
    """Four threads by the marks of a file, one after another, as far as the marks allow."""

    def __init__(self, content, seed, every):
        self.every = every
        self.cells = list(range(OBJECTS))
        self.told = [(seed * STEP + thread) % ALL for thread in range(THREADS)]
        self.events, self.accesses, self.draws = [0] * THREADS, [0] * THREADS, 0
        self.steps, self.ended = [[] for _ in range(THREADS)], [False] * THREADS
        self.made = [[] for _ in range(THREADS)]
        for kind, body, _ in frames_of(content):
            if kind == 1:
                self.steps[body[0]].extend(steps_of(body))
            elif kind == 2:
                self.ended[body[0]] = True

    def access(self, thread):
        told, made = self.told[thread], self.accesses[thread]
        number = (told + made) * SPREAD % ALL // LOW
        rest = number // self.every
        shared = number % self.every == 0
        place = rest % SHARED if shared else SHARED + thread * OWN + rest % OWN
        value = self.cells[place]
        kind = rest // OWN % 4
        made = f"read o{place} {value}"
        if kind == 0:
            value = self.cells[place] = told
            made = f"write o{place} {told}"
        elif kind == 1:
            self.cells[place] = (value + told) % ALL
            made = f"update o{place} {value} {self.cells[place]}"
        self.made[thread].append(made)
        self.told[thread] = (told * STEP + value + 1) % ALL
        self.accesses[thread] += 1

    def mark(self, source, number):
        """Makes a mark, if it may be made."""
        if source < 16:
            return self.events[source] >= number
        if source == 16 and self.draws == number - 1:
            self.draws = number
            return True
        return source == 17 and self.draws >= number

    def walk(self, thread):
        """Takes the steps of a thread up to one that waits. Tells whether it took any."""
        steps, before = self.steps[thread], self.events[thread]
        while self.events[thread] < len(steps):
            step = steps[self.events[thread]]
            if step is None:
                self.access(thread)
            elif not self.mark(*step):
                break
            self.events[thread] += 1
        return self.events[thread] > before

    def run(self):
        while any([self.walk(thread) for thread in range(THREADS)]):
            pass

    def said(self):
        self.run()
        lines = []
        for thread in range(THREADS):
            whole = self.ended[thread] and self.events[thread] == len(self.steps[thread])
            cut = "" if whole else ", where its recording ends"
            lines.append(f"thread {thread}: {self.accesses[thread]} accesses, told {self.told[thread]}{cut}")
        return text(*lines, *(f"object {object}: {value}" for object, value in enumerate(self.cells)))

    def events_with(self, thread, count):
        """How many first events of a thread have its first accesses, so many."""
        places = [place for place, step in enumerate(self.steps[thread]) if step is None]
        return places[count - 1] + 1 if count else 0

    def begins(self, last):
        """How many accesses of each thread come before the last ones: the fewest that leave out nothing that a mark waits for."""
        front = [self.events_with(thread, max(0, self.accesses[thread] - last)) for thread in range(THREADS)]
        draws = {
            step[1]: (thread, place + 1)
            for thread in range(THREADS)
            for place, step in enumerate(self.steps[thread])
            if step is not None and step[0] == 16
        }
        before = None
        while before != front:
            before = list(front)
            drawn = 0
            for thread in range(THREADS):
                for source, number in filter(None, self.steps[thread][: before[thread]]):
                    if source < 16:
                        front[source] = max(front[source], number)
                    else:
                        drawn = max(drawn, number)
            for thread, place in (draws[number] for number in range(1, drawn + 1)):
                front[thread] = max(front[thread], place)
        return [self.steps[thread][: front[thread]].count(None) for thread in range(THREADS)]


def recorded(folder, seed, accesses, every):
    """What a recording says, and its file."""
    status, *said = race("record", folder, seed, accesses, every)
    if status != 0 or len(said) != 1:
        raise AssertionError(f"a recording: {status}, {said}")
    return said[0], pathlib.Path(folder, "F").read_bytes()


def raced():
    """Races, half of them with many dependences and half with few, are followed to the same lines. Their last accesses are a script
    with its log, which leaves the same values."""
    races, accesses = RACES if program()[1] else RACES_UNPROVED
    with folder_with() as folder:
        for seed in range(races):
            words = [seed, accesses, 10 if seed % 2 else 10_000]
            said, _ = recorded(folder, *words)
            if said.count(b": %d accesses, told " % accesses) != THREADS or race("follow", folder, *words) != (0, said):
                return f"{words} is not followed to what was recorded"
            left, last = values_said(said, "", ":"), race("window", folder, *words, more=[100, "S", "L"])[0]
            replayed, made = octet(["replay", "S", "L"], folder)
            problem = first(
                differs("the window", last, 0),
                differs("verify", octet(["verify", "S", "L"], folder), (0, text("ordered"))),
                differs("replay", replayed, 0),
                differs("the values", [left[number] for number in values_said(made, "o", "")], list(values_said(made, "o", "").values())),
            )
            if problem is not None:
                return f"the window of {words}: {problem}"
    return None


def on_one_processor():
    """Threads that wait let the others have the processor, so everything ends there as well."""

    def race_there(verb, *more):
        return race(verb, folder, 7, 20_000, 10, more=more, preexec_fn=lambda: os.sched_setaffinity(0, {min(os.sched_getaffinity(0))}))

    with folder_with() as folder:
        status, said = race_there("record")
        content = pathlib.Path(folder, "F").read_bytes()
        return first(
            differs("the recording", status, 0),
            differs("the model", Model(content, 7, 10).said(), said),
            differs("following", race_there("follow"), (0, said)),
            differs("a window", race_there("window", 100, "S", "L")[0], 0),
        )


def modelled():
    """The plain model comes to the same lines."""
    with folder_with() as folder:
        for seed, every in itertools.product([0, 1, 2**64 - 1], [1, 10, 1_000_000]):
            said, content = recorded(folder, seed, 3_000, every)
            problem = first(
                differs(f"the model of {seed} {every}", Model(content, seed, every).said(), said),
                differs(f"following {seed} {every}", race("follow", folder, seed, 3_000, every), (0, said)),
            )
            if problem is not None:
                return problem
        return None


def cut():
    """A file that is cut at the end of each frame, and at each byte of one block, is followed to the front of its whole blocks."""
    with folder_with() as folder:
        _, content = recorded(folder, 5, 3_000, 10)
        ends = [(0, 5), *((kind, place) for kind, _, place in frames_of(content))]
        blocks = [(place - before, before) for (_, before), (kind, place) in itertools.pairwise(ends) if kind == 1]
        length, begin = min(blocks)
        for place in sorted({place for _, place in ends} | set(range(begin, begin + length)) | {0, 1, 4}):
            pathlib.Path(folder, "F").write_bytes(content[:place])
            wanted = (0, Model(content[:place], 5, 10).said())
            problem = differs(f"cut at {place}", race("follow", folder, 5, 3_000, 10), wanted)
            if problem is not None:
                return problem
    return None


def lines_of_spans(begins, ends):
    spans = [f"its accesses {begin} to {end - 1}" if begin < end else "none of its accesses" for begin, end in zip(begins, ends)]
    return text(*(f"thread {thread}: {span}" for thread, span in enumerate(spans)))


def accesses_traced(said):
    """The accesses of each thread by what `octet trace` says."""
    made = [[] for _ in range(THREADS)]
    for line in said.decode().splitlines():
        place, words = line.split(" ", 1)
        if words.split()[0] in ("read", "write", "update"):
            made[int(place.split(":")[0])].append(words.rsplit(" line ", 1)[0])
    return made


def values_said(said, word, separator):
    """The value of each object that is said, by its number."""
    found = re.findall(rf"^object {word}(\d+){separator} (\d+)$", said.decode(), re.MULTILINE)
    return {int(number): int(value) for number, value in found}


def window_problem(folder, model, words, asked, last=None):
    """What is wrong with a window of the recording in a folder, which the model has followed. It has so many last accesses."""
    last = last or asked
    begins = model.begins(last)
    wanted = [made[begin:] for begin, made in zip(begins, model.made)]
    problem = differs("the window", race("window", folder, *words, more=[asked, "S", "L"]), (0, lines_of_spans(begins, model.accesses)))
    if problem is not None:
        return problem
    status, said = octet(["replay", "S", "L"], folder)
    left = values_said(said, "o", "")
    return first(
        differs("verify", octet(["verify", "S", "L"], folder), (0, text("ordered"))),
        differs("replay", status, 0),
        differs("the accesses", accesses_traced(octet(["trace", "S", "L"], folder)[1]), wanted),
        differs("some values", bool(left), any(wanted)),
        differs("the values", left, {number: model.cells[number] for number in left}),
        differs("more accesses than were asked for", [len(made) > last for made in wanted], [False] * THREADS),
    )


def windowed():
    """The last accesses of a run, whole and cut, are a script with its log, which `octet` takes."""
    with folder_with() as folder:
        for every, is_cut in itertools.product([10, 1_000], [False, True]):
            words = [8, 3_000, every]
            _, content = recorded(folder, *words)
            if is_cut:
                content = content[: len(content) * 2 // 3]
                pathlib.Path(folder, "F").write_bytes(content)
            model = Model(content, 8, every)
            model.run()
            for last in [1, 100, 1_000]:
                problem = window_problem(folder, model, words, last)
                if problem is not None:
                    return f"{last} of {words}, cut: {is_cut}: {problem}"
    return None


def begun_later():
    """A window that has no room in a script's file begins later, with half of what was asked for."""
    with folder_with() as folder:
        # By these words no thread makes an access of a shared object. So threads 1 to 3 have as many as were asked for, and thread
        # 0, from which they take their objects, as many or fewer.
        words = [4, 20_000, 1_000_000]
        _, content = recorded(folder, *words)
        model = Model(content, *words[::2])
        model.run()
        # So many accesses of three threads take some 1.4 million bytes; half as many of four take 930,000.
        asked = 18_000
        problem = window_problem(folder, model, words, asked, asked // 2)
        size = pathlib.Path(folder, "S").stat().st_size
        return first(problem, None if 2**19 < size <= 2**20 else f"the script has {size} bytes")


def pictured():
    """A picture of the last thousand accesses of a longer run, which a mark orders."""
    with folder_with() as folder:
        words = [9, 20_000, 100]
        recorded(folder, *words)
        status, *_ = race("window", folder, *words, more=[250, "S", "L"])
        status_of_picture, picture = called([DIAGRAM, "--octet", OCTET, "S", "L", "--from", "1", "--to", "400"], folder)
        traced = called([DIAGRAM, "--octet", OCTET, "S", "L", "--chrome", "R"], folder)[0]
        made = json.loads(pathlib.Path(folder, "R").read_bytes())
        return first(
            differs("the window", status, 0),
            differs("the picture", (status_of_picture, picture.startswith(b"<svg")), (0, True)),
            differs("the trace", (traced, bool(made)), (0, True)),
        )


def unwindowed():
    """A window that is none: wrong words, and a file that is none."""
    with folder_with() as folder:
        recorded(folder, 1, 900, 10)
        before = sorted(path.name for path in pathlib.Path(folder).iterdir())
        last, differ = "LAST is a number from 1 to 65535", "FILE, SCRIPT and LOG have to differ"
        bad = {(): WORDS, (1, "S"): WORDS, (1, "S", "L", 1): WORDS, (0, "S", "L"): last, (65_536, "S", "L"): last, ("x", "S", "L"): last}
        bad |= {(1, "S", "S"): differ, (1, "F", "L"): differ, (1, "S", "F"): differ}
        return first(
            *(differs(f"{each}", race("window", folder, 1, 900, 10, more=each), refused(1, line)) for each, line in bad.items()),
            differs("record with more words", race("record", folder, 1, 900, 10, more=[1, "S", "L"]), refused(1, WORDS)),
            differs("no file", race("window", folder, 1, 2, 3, "N", more=[1, "S", "L"]), refused(5, "N cannot be read")),
            differs("nothing is written", sorted(path.name for path in pathlib.Path(folder).iterdir()), before),
        )


def changed():
    """A file of which one byte is another one is refused, with the place of its frame."""
    with folder_with() as folder:
        _, content = recorded(folder, 6, 1_000, 10)
        begins = [0, *(place for _, _, place in frames_of(content))]
        for begin, stop in itertools.pairwise(begins):
            for place in {begin, begin + 1, begin + 8, begin + 12, begin + 30, stop - 8, stop - 1} & set(range(begin, stop)):
                spoiled = bytearray(content)
                spoiled[place] ^= 64
                pathlib.Path(folder, "F").write_bytes(spoiled)
                wanted = refused(4, f"the file is refused at {begin}")
                problem = differs(f"changed at {place}", race("follow", folder, 6, 1_000, 10), wanted)
                if problem is not None:
                    return problem
    return None


def killed():
    """A recording that is killed in the middle is followed to where its file ends."""
    with folder_with() as folder:
        for seed in range(3):
            file = pathlib.Path(folder, "F")
            file.unlink(missing_ok=True)
            words = [program()[0], "record", "F", str(seed), "1000000000", "2"]
            with subprocess.Popen([str(word) for word in words], cwd=folder, stdout=subprocess.DEVNULL) as process:
                until = time.monotonic() + SECONDS
                while time.monotonic() < until and not (file.exists() and file.stat().st_size > 20_000):
                    time.sleep(0.001)
                process.send_signal(signal.SIGKILL)
            wanted = Model(file.read_bytes(), seed, 2).said()
            if wanted.count(b"where its recording ends") != THREADS:
                return "a killed recording has an end"
            problem = differs(f"killed, seed {seed}", race("follow", folder, seed, 1_000_000_000, 2), (0, wanted))
            if problem is not None:
                return problem
    return None


def spoiled():
    """What is no recording, or that of another run, or that of other threads."""
    head = marks_head(THREADS, sha256(b"1 100 10").digest(), *range(OBJECTS))
    other = marks_head(THREADS, sha256(b"1 100 10").digest(), *range(1, OBJECTS + 1))
    # It is compared at the end of its block.
    left = "thread 0 has left its recording: found after 5 accesses"
    files = {
        "left": head + block(0, 0, 5, 0),
        "twice": head + block(0, 0, 0, 0, (16, 0, 1), (16, 0, 0)),
        "other": other,
        "after": head + end(0, 0) + block(0, 0, 5, 0),
        "none": b"",
    }
    with folder_with(**files) as folder:
        return first(
            differs("left", race("follow", folder, 1, 100, 10, "left"), refused(7, left)),
            differs("drawn twice", race("follow", folder, 1, 100, 10, "twice"), refused(8, "the marks of twice are no recording")),
            differs("other objects", race("follow", folder, 1, 100, 10, "other"), refused(6, "the file is the recording of another run")),
            differs("other words", race("follow", folder, 1, 101, 10, "left"), refused(6, "the file is the recording of another run")),
            differs("behind an end", race("follow", folder, 1, 100, 10, "after"), refused(4, f"the file is refused at {len(head) + 26}")),
            differs("nothing", race("follow", folder, 1, 100, 10, "none"), (0, Model(b"", 1, 10).said())),
        )


def words():
    """Words that mean nothing, and files that are none."""
    seed, accesses, every = ("SEED", 0, ALL - 1), ("ACCESSES", 0, 2**42), ("EVERY", 1, 1_000_000)
    numbers = {("-1", "2", "3"): seed, (str(ALL), "2", "3"): seed, ("1", str(2**42 + 1), "3"): accesses, ("1", "", "3"): accesses}
    numbers |= {("1", "2", each): every for each in ["0", "1000001", "x", "3 "]}
    lines = {each: f"{name} is a number from {least} to {most}" for each, (name, least, most) in numbers.items()}
    bad = [[], ["record"], ["record", "F", "1", "2"], ["replay", "F", "1", "2", "3"]]
    with folder_with() as folder, open("/dev/full", "wb") as full:
        pathlib.Path(folder, "D").mkdir()
        return first(
            *(differs(f"{each}", called([program()[0], *each], folder), refused(1, WORDS)) for each in bad),
            *(differs(f"{each}", race("record", folder, *each), refused(1, line)) for each, line in lines.items()),
            differs("nothing is written", sorted(path.name for path in pathlib.Path(folder).iterdir()), ["D"]),
            differs("no file", race("follow", folder, 1, 2, 3), refused(5, "F cannot be read")),
            differs("a folder is followed", race("follow", folder, 1, 2, 3, "D"), refused(5, "D cannot be read")),
            differs("a folder is written", race("record", folder, 1, 2, 3, "D"), refused(3, "D cannot be written")),
            differs("a full disk", race("record", folder, 1, 100_000, 10, "/dev/full"), refused(3, "/dev/full cannot be written")),
            differs("a full output", race("record", folder, 1, 2, 3, stdout=full)[::2], refused(3, "what came of it cannot be said")[::2]),
        )


TESTS = {
    f"long runs: {name}": functools.partial(over_the_library, test)
    for name, test in {
        "a plain model comes to the same lines": modelled,
        "a cut file is followed to the front of its whole blocks": cut,
        "a changed byte is refused": changed,
        "a killed recording is followed": killed,
        "what is no recording of these words": spoiled,
        "what the program refuses": words,
        "the last accesses of a run are a script with its log": windowed,
        "a window that is too long begins later": begun_later,
        "a picture of the last thousand accesses": pictured,
        "a window that is none": unwindowed,
        "all of it on one processor": on_one_processor,
        "races are followed, and each has a window": raced,
    }.items()
}
