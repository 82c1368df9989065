"""What stands beside the program: the answers of `bin/octet` itself, the programs in tools/, and the documents' picture and code."""

import json
import pathlib
import re
import shutil
import tempfile

import definitions
import judges
from case import draw, fence, join, log, script, text
from cases import BANK, CASES, EARLY, EARLY_UNMARKED, LOST_LOG, SHARED, SHARED_LOG
from files import LAUNCHER, OCTET, TOP, called, differs, first, folder_with, octet

LOG, DIAGRAM, PLACES = TOP / "tools" / "log", TOP / "tools" / "diagram", TOP / "tools" / "places"
WRONG = TOP / "tests" / "wrong" / "try"
COMMANDS = re.compile(r"^- `octet ([a-z]+)", re.MULTILINE)
STATUSES = re.compile(r"^- ([0-9]+): ", re.MULTILINE)


def usage():
    """`bin/octet` says the usage by itself, also where nothing is built and nothing can be."""
    with tempfile.TemporaryDirectory() as folder:
        (pathlib.Path(folder) / "bin").mkdir()
        launcher = shutil.copy(LAUNCHER, pathlib.Path(folder) / "bin" / "octet")
        status, said = called([launcher], folder)
        formats = (TOP / "docs" / "FORMATS.md").read_text()
        commands, statuses = set(COMMANDS.findall(formats)), set(STATUSES.findall(formats.split("## Statuses")[1]))
        told = set(re.findall(r"^  octet ([a-z]+)", said.decode(), re.MULTILINE))
        numbers = set(re.findall(r"(?:^|  )([0-9]+) [a-z]", said.decode(), re.MULTILINE))
        return first(
            differs("no words", status, 0),
            differs("the commands", told, commands),
            differs("how many commands", len(told) >= 15, True),
            differs("the statuses", numbers, statuses | {"70"}),
            differs("its lines", len(said.split(b"\n")) <= 40 and max(map(len, said.split(b"\n"))) <= 100, True),
            *(differs(word, called([launcher, word], folder), (0, said)) for word in ["help", "--help", "-h"]),
            differs("--version", called([launcher, "--version"], folder), (0, text("octet of no git checkout"))),
            differs("--version here", called([LAUNCHER, "--version"], TOP)[0], 0),
            *(
                differs(f"the program, {words}", octet(words, folder), (1, text("words: not a command")))
                for words in [[], ["help"], ["--help"], ["-h"], ["--version"]]
            ),
        )


def logs_of_version_1():
    """The logs of the cases that a reader takes."""
    contents = {content for case in CASES for content in case.files.values() if content[:5] == b"OCTL\x01"}
    return [content for content in contents if not isinstance(judges.read_log(content), str)]


def text_and_back():
    """What `show` says, turned back, is the log."""
    logs = logs_of_version_1()
    with tempfile.TemporaryDirectory() as folder:
        here = pathlib.Path(folder)
        for content in logs:
            (here / "L").write_bytes(content)
            (here / "T").write_bytes(octet(["show", "L"], folder)[1])
            found = called([LOG, "T", "-"], folder)
            if found != (0, content):
                return f"of {content.hex()}: {found}"
    return differs("how many logs", len(logs) >= 20, True)


def refused_texts():
    """What `show` never says is refused, and nothing is written."""
    texts = {
        "": "the text ends early: lines of threads or marks are missing",
        "threads 1\n": "the text ends early: lines of threads or marks are missing",
        "threads 1\nthread 0 accesses 1 marks 1\n": "the text ends early: lines of threads or marks are missing",
        "threads 1\nthread 1 accesses 1 marks 0\n": "line 2: thread 0 is next",
        "threads 1\nthread 0 accesses 1 marks 0\ngap 0 draw 1\n": "line 3: 'gap 0 draw 1' may not stand here",
        "threads 1\nthread 0 accesses 01 marks 0\n": "line 2: 'thread 0 accesses 01 marks 0' may not stand here",
        "threads 1\nthread 0 accesses 4294967296 marks 0\n": "4294967296 does not fit into 4 bytes",
    }
    with tempfile.TemporaryDirectory() as folder:
        for content, line in texts.items():
            (pathlib.Path(folder) / "T").write_text(content)
            status, said, *errors = called([LOG, "T", "L"], folder)
            wanted = [f"tools/log: {line}\n".encode()]
            if (status, said, errors) != (1, b"", wanted) or (pathlib.Path(folder) / "L").exists():
                return f"{content!r}: {status}, {said}, {errors}"
    return None


# A log, a mark of it (its thread and number), and the log without it.
TAKEN_OUT = [
    (EARLY, (0, 0), EARLY_UNMARKED),
    # The gap goes to the next mark, and a join of later events names one less; one of earlier ones stays.
    (
        log((3, join(1, 1, 1), join(1, 1, 2)), (4, join(0, 0, 1), join(1, 0, 2), join(1, 0, 4))),
        (0, 0),
        log((3, join(2, 1, 2)), (4, join(0, 0, 1), join(1, 0, 1), join(1, 0, 3))),
    ),
    # Later draws and their fences fall by one.
    (log((1, draw(0, 1)), (2, draw(0, 2), fence(1, 2))), (0, 0), log((1,), (2, draw(0, 1), fence(1, 1)))),
    # A fence of no draw that is left goes too.
    (
        SHARED_LOG,
        (2, 1),
        log((0,), (2, join(0, 0, 0)), (1, join(0, 1, 1))),
    ),
]  # fmt: skip


def marks_taken_out():
    """`--without` takes one mark out, and leaves all that is left where it was in the run."""
    with tempfile.TemporaryDirectory() as folder:
        here = pathlib.Path(folder)
        for content, (thread, number), wanted in TAKEN_OUT:
            (here / "L").write_bytes(content)
            (here / "T").write_bytes(octet(["show", "L"], folder)[1])
            found = called([LOG, "--without", str(thread), str(number), "T", "-"], folder)
            if found != (0, wanted):
                return f"mark {number} of thread {thread} of {content.hex()}: {found}"
        bad = called([LOG, "--without", "0", "9", "T", "-"], folder)
        return differs("no such mark", bad, (1, b"", b"tools/log: there is no mark 9 of thread 0\n"))


def diagram(folder, *words):
    return called([DIAGRAM, "--octet", OCTET, *words], folder)


def picture_of_the_readme():
    """The picture in docs/ is what the tool makes today, by the commands of the README."""
    with folder_with(S=BANK) as folder:
        said = octet(["hunt", "S", "L", "balance", "180", "1000"], folder)[1]
        found = diagram(folder, "S", "L", "--regions")
        return first(
            differs("what was found", b"object balance 130" in said, True),
            differs("docs/bank.svg", found, (0, (TOP / "docs" / "bank.svg").read_bytes())),
            differs("the README", "(docs/bank.svg)" in (TOP / "README.md").read_text(), True),
        )


def pictures():
    """How many points, arrows and frames a picture has, and what is pale, by what the program says."""
    with folder_with(S=SHARED, L=SHARED_LOG, B=BANK, M=LOST_LOG) as folder:
        whole = diagram(folder, "S", "L")[1].decode()
        cycle = diagram(folder, "B", "M", "--regions")[1].decode()
        problems = [
            differs("accesses", whole.count('r="5.5"'), 3),
            differs("marks", whole.count('r="3.5"'), 4),
            differs("the draw on its line", whole.count('r="3"'), 1),
            differs("arrows", whole.count("marker-end"), 3),
            differs("frames", cycle.count('rx="8"'), 2),
            differs("conflicts", cycle.count("url(#red)"), 2),
        ]
        for thread, count in enumerate([4, 6]):
            for event in range(count):
                said = octet(["slice", "B", "M", str(thread), str(event)], folder)[1].split()
                past, total = int(said[-3]), int(said[-1])
                sliced = diagram(folder, "B", "M", "--slice", str(thread), str(event))[1].decode()
                points = re.findall(r'<circle [^>]* r="(?:5\.5|3\.5)" [^>]*>', sliced)
                pale = sum("#d1d5db" in point for point in points)
                problems.append(differs(f"what is pale, {thread}:{event}", (pale, len(points)), (total - past, total)))
        part = diagram(folder, "B", "M", "--from", "3", "--to", "6")[1].decode()
        problems.append(differs("a part", part.count('r="5.5"') + part.count('r="3.5"'), 4))
        return first(*problems)


def places_of_a_program():
    """Beside each access of a trace, and in the picture, stands its line of a program."""
    lines = [[f"src/bank.rs:{thread}{access}" for access in range(4)] for thread in range(2)]
    places = "".join("thread\n" + "".join(f"{line}\n" for line in thread) for thread in lines).encode()
    few = places[: places.index(b"thread", 1)]
    with folder_with(**{"S.octet": BANK, "S.log": LOST_LOG, "S.places": places, "F": few}) as folder:
        traced = octet(["trace", "S.octet", "S.log"], folder)[1].decode().splitlines()
        left, wanted = [iter(thread) for thread in lines], ""
        for line in traced:
            is_access = line.split()[1] in ("read", "write", "update")
            wanted += f"{line} at {next(left[int(line[0])])}\n" if is_access else f"{line}\n"
        found = called([PLACES, "--octet", OCTET, "S"], folder)
        picture = diagram(folder, "S.octet", "S.log", "--places", "S.places")[1].decode()
        shutil.copy(pathlib.Path(folder, "F"), pathlib.Path(folder, "S.places"))
        other = called([PLACES, "--octet", OCTET, "S"], folder)
        return first(
            differs("the trace", found, (0, wanted.encode())),
            differs("the picture", re.findall(r"  bank.rs:(\d\d)<", picture).count("01"), 1),
            differs("all accesses in it", len(re.findall(r"  bank.rs:\d\d<", picture)), wanted.count(" at ")),
            differs("another run", (other[0], b"of another run" in other[2]), (1, True)),
        )


def refused_words():
    """What is missing is told in one line."""
    here = {"S.octet": BANK, "S.log": LOST_LOG, "S.places": b"thread\nthread\n"}
    with folder_with(**here) as folder:
        told = {
            (PLACES, "nosuch"): (1, b"tools/places: nosuch.octet is not there\n"),
            (PLACES, "S"): (1, b"tools/places: S.places has no lines: `octet trace S.octet S.log` says the run without them\n"),
            (PLACES,): (2, b"tools/places: the following arguments are required: STEM; tools/places --help says what it takes\n"),
            (DIAGRAM, "nosuch"): (
                2,
                b"tools/diagram: the following arguments are required: FILE; tools/diagram --help says what it takes\n",
            ),
            (DIAGRAM, "nosuch", "S.log"): (1, b"tools/diagram: nosuch is not there\n"),
            (DIAGRAM, "S.octet", "S.log", "--places", "none"): (1, b"tools/diagram: none is not there\n"),
        }
        found = {words: called([*words, "--octet", OCTET], folder) for words in told}
        return first(*(differs(str(words[1:]), found[words], (told[words][0], b"", told[words][1])) for words in told))


def refused_pictures():
    many = script("object x 0 / thread / set r0 500 / set r1 1 / while r0 / write x r0 / sub r0 r0 r1 / end")
    with folder_with(S=many, B=BANK, M=LOST_LOG, bad=b"OCTL") as folder:
        octet(["run", "S", "L"], folder)
        status, said, error = diagram(folder, "S", "L")
        return first(
            differs("too many events", (status, said, error[:35]), (1, b"", b"tools/diagram: more than 400 events")),
            differs("a part of them", diagram(folder, "S", "L", "--from", "101", "--to", "500")[0], 0),
            differs("a log that is none", diagram(folder, "B", "bad"), (1, b"", b"tools/diagram: log: 4 cut short at 4\n")),
            differs("no event", diagram(folder, "B", "M", "--slice", "0", "9"), (1, b"", b"tools/diagram: no event 9 of thread 0\n")),
        )


def told_in(trace):
    """Of each event of a trace its words, and of an access the script's line."""
    lines = [line.split(" ", 1)[1].split(" line ") for line in trace.split("\n")[:-1]]
    return [(words, int(line[0]) if line else None) for words, *line in lines if not words.startswith("region ")]


def told_of(events):
    """The same, of trace events."""
    return [(event["name"], event["args"].get("line")) for event in events if event["ph"] == "X"]


def trace_events():
    """A slice for each event, and of each join, draw and fence a flow from what it comes after."""
    with folder_with(S=SHARED, L=SHARED_LOG, B=BANK, M=LOST_LOG) as folder:
        status = diagram(folder, "S", "L", "--chrome", "J")[0]
        events = json.loads(pathlib.Path(folder, "J").read_text())["traceEvents"]
        diagram(folder, "B", "M", "--chrome", "K")
        bank = json.loads(pathlib.Path(folder, "K").read_text())["traceEvents"]
        told, found = told_in(octet(["trace", "B", "M"], folder)[1].decode()), told_of(bank)
        starts = {event["id"]: event for event in events if event["ph"] == "s"}
        ends = {event["id"]: event for event in events if event["ph"] == "f"}
        return first(
            differs("status", status, 0),
            differs("the events", told_of(events), told_in(octet(["trace", "S", "L"], folder)[1].decode())),
            differs("the events, where there are regions", found, told),
            differs("their lines", [line for _, line in found], [8, None, 16, None, 10, 11, None, 18, None, 19]),
            differs("the flows", (sorted(starts), sorted(ends)), ([1, 2], [1, 2])),
            differs("forwards", all(starts[number]["ts"] < ends[number]["ts"] for number in starts), True),
        )


def blocks(page, language):
    """The code in one language of a page."""
    return re.findall(rf"^```{language}\n(.*?)^```$", page.read_text(), re.MULTILINE | re.DOTALL)


def code_of_the_documents():
    """What is printed stands in the crates, to the letter, so that it is proved and, where it is a test, run."""
    sources = [path.read_text() for path in (TOP / "crates").glob("*/src/**/*.rt")]
    # The tests of bindings/ run these.
    sources += [path.read_text() for path in (TOP / "bindings" / "rust" / "examples").glob("*.rs")]
    printed = 0
    for path in [TOP / "README.md", *sorted((TOP / "docs").glob("*.md"))]:
        code = blocks(path, "rust")
        printed += len(code)
        for block in code:
            for part in block.split("\n\n"):
                if not any(part.rstrip("\n") in source for source in sources):
                    return f"{path.name}: {part!r} stands in no crate"
    return differs("how many pieces of code", printed >= 4, True)


def what_the_headline_needs():
    """CLAIMS lists the files that have to be read to believe the headline, and how many definitions they have of it."""
    found = definitions.headline(definitions.modules())
    claims = (TOP / "docs" / "CLAIMS.md").read_text().split("## What to read to believe the headline")[1].split("\n## ")[0]
    listed = set()
    for crate, files in re.findall(r"^- `(\w+)`: ((?:.+\n)(?:  .+\n)*)", claims, re.MULTILINE):
        listed |= {TOP / "crates" / crate / name for name in re.findall(r"`([^`]+)`", files)}
    return first(
        differs("files", sorted(map(str, listed)), sorted(map(str, found))),
        differs("definitions", re.findall(r"speaks of (\d+)\s+definitions", claims), [str(sum(map(len, found.values())))]),
    )


def unfit(edit):
    """Why a wrong body of tests/wrong cannot be written into its crate, or None: each `old:` text stands in its file once."""
    crate, texts, path, old = TOP / "crates" / edit.parent.name, {}, None, None
    for line in edit.read_text().split("\n"):
        if line.startswith("file: "):
            path = line[6:].strip()
            texts.setdefault(path, (crate / path).read_text())
        elif line.startswith("old: "):
            old = line[5:]
        elif line.startswith("new:"):
            if texts[path].count(old) != 1:
                return f"{edit.relative_to(TOP)}: {old!r} stands in {path} {texts[path].count(old)} times"
            texts[path] = texts[path].replace(old, line[4:].removeprefix(" "))
    return None if texts else f"{edit.relative_to(TOP)} changes nothing"


def wrong_bodies():
    """Those that the gate does not try still fit the crates, and `tests/wrong/try --list` has them and those of the gate."""
    others, gate = sorted(TOP.glob("tests/wrong/*/*.edit")), sorted(TOP.glob("crates/*/must-fail/*.edit"))
    wanted = sorted([edit.parent.name, "other", edit.stem] for edit in others)
    wanted += sorted([edit.parent.parent.name, "gate", edit.stem] for edit in gate)
    status, listed = called([WRONG, "--list"], TOP)
    return first(
        *(unfit(edit) for edit in others),
        differs("the list", (status, sorted(line.split()[:3] for line in listed.decode().splitlines())), (0, sorted(wanted))),
        differs("a name", called([WRONG, "--list", "none"], TOP)[0], 64),
    )


def all_parts():
    """`tests/all` refuses other words, and `.ci/run` has the gate on a line of its own."""
    told = b"tests/all: tests/all, tests/all --after-gate, or tests/all --quick\n"
    return first(
        *(differs(f"{words}", called([TOP / "tests" / "all", *words], TOP), (64, b"", told)) for words in [["--slow"], ["--quick", "x"], [""]]),
        differs("the gate", (TOP / ".ci" / "run").read_text().split("\n").count("rt ci"), 1),
    )


TESTS = {
    "bin/octet: the usage and the version": usage,
    "tools/log: the text of a log and back": text_and_back,
    "tools/log: what is no log's text": refused_texts,
    "tools/log: a mark is taken out": marks_taken_out,
    "tools/diagram: the picture of the README": picture_of_the_readme,
    "tools/diagram: points, arrows, frames and what is pale": pictures,
    "tools/diagram: what is refused": refused_pictures,
    "tools/places, tools/diagram: missing words and files": refused_words,
    "tools/diagram: trace events": trace_events,
    "tools/places, tools/diagram: the lines of a program": places_of_a_program,
    "tests/wrong: each body fits its crate": wrong_bodies,
    "tests/all: its words": all_parts,
    "the code of the documents": code_of_the_documents,
    "the files that the headline needs": what_the_headline_needs,
}
