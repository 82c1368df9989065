"""`bin/octet` and `tools/build`: what they say, when they build, and in which order.

Where it matters what the program or `rt` does, a short script stands in its place, in a folder that is
laid out as the repository is.
"""

import importlib.machinery
import importlib.util
import os
import pathlib
import pty
import re
import shutil
import signal
import subprocess
import tempfile
import time

from case import text
from cases import BANK, LOST_LOG, MARKS_BYTES
from files import LAUNCHER, ONE, OTHERS, SECONDS, TOP, called, differs, first, folder_with

BUILD = TOP / "tools" / "build"
_LOADER = importlib.machinery.SourceFileLoader("build_tool", str(BUILD))
build_tool = importlib.util.module_from_spec(importlib.util.spec_from_loader("build_tool", _LOADER))
_LOADER.exec_module(build_tool)

NUMBERS = "0 to 18446744073709551615, in at most 20 digits"
NO_COMMAND, NO_OBJECT, FAILED = text("words: not a command"), text("words: no such object"), text("read: failed")
# Words, and what standard error says of them after `octet: `; each ends with status 1.
WRONG_WORDS = [
    (["runn", "S", "L"], NO_COMMAND, "runn is no command, see octet help"),
    (["-"], NO_COMMAND, "- is no command, see octet help"),
    (["run", "S"], NO_COMMAND, "run wants SCRIPT LOG"),
    (["replay", "S", "L", "M"], NO_COMMAND, "replay wants SCRIPT LOG"),
    (["turns", "S", "L"], NO_COMMAND, "turns wants SCRIPT LOG PICKS"),
    (["turns", "S", "L", "01g"], NO_COMMAND, "PICKS are 1 to 65536 hexadecimal digits"),
    (["turns", "S", "L", ""], NO_COMMAND, "PICKS are 1 to 65536 hexadecimal digits"),
    (["hunt", "S", "L"], NO_COMMAND, "hunt wants SCRIPT LOG NAME NUMBER TRIES, or SCRIPT LOG TRIES"),
    (["hunt", "S", "L", "0"], NO_COMMAND, "TRIES are 1 to 1000000"),
    (["hunt", "S", "L", "1000001"], NO_COMMAND, "TRIES are 1 to 1000000"),
    (["hunt", "S", "L", "balance", "-1", "9"], NO_COMMAND, f"NUMBER is {NUMBERS}"),
    (["hunt", "S", "L", "balance", "180", "00"], NO_COMMAND, "TRIES are 1 to 1000000"),
    (["hunt", "S", "L", "nothing", "180", "0001000000"], NO_OBJECT, "S has no object nothing"),
    (["outcomes"], NO_COMMAND, "outcomes wants SCRIPT, and MOST or none"),
    (["outcomes", "S", "0"], NO_COMMAND, "MOST is 1 to 2147483648"),
    (["outcomes", "S", "2147483649"], NO_COMMAND, "MOST is 1 to 2147483648"),
    (["always", "S"], NO_COMMAND, "always wants SCRIPT LOG NAME NUMBER, or SCRIPT LOG, and MOST or none"),
    (["always", "S", "L", "balance"], NO_COMMAND, "MOST is 1 to 2147483648"),
    (["always", "S", "L", "balance", "x"], NO_COMMAND, f"NUMBER is {NUMBERS}"),
    (["always", "S", "L", "balance", "180", "00"], NO_COMMAND, "MOST is 1 to 2147483648"),
    (["always", "S", "L", "nothing", "180", "02147483648"], NO_OBJECT, "S has no object nothing"),
    (["stop", "S", "L", "balance"], NO_COMMAND, "stop wants SCRIPT LOG NAME NUMBER"),
    (["stop", "S", "L", "balance", "18446744073709551616"], NO_COMMAND, f"NUMBER is {NUMBERS}"),
    (["stop", "S", "L", "balance", "000000000000000000001"], NO_COMMAND, f"NUMBER is {NUMBERS}"),
    (["stop", "S", "L", "nothing", "18446744073709551615"], NO_OBJECT, "S has no object nothing"),
    (["stop", "S", "L", "nothing", "00000000000000000001"], NO_OBJECT, "S has no object nothing"),
    (["profile", "S", "L", "nothing"], NO_OBJECT, "S has no object nothing"),
    (["profile", "S"], NO_COMMAND, "profile wants SCRIPT LOG, and a NAME or none"),
    (["slice", "S", "L", "0"], NO_COMMAND, "slice wants SCRIPT LOG T E"),
    (["slice", "S", "L", "0", "-1"], NO_COMMAND, f"T and E are numbers: {NUMBERS}"),
    (["gen", "one", "G", "L"], NO_COMMAND, f"NUMBER is {NUMBERS}"),
    (["gen", "1", "G"], NO_COMMAND, "gen wants NUMBER SCRIPT LOG"),
    (["convert", "S", "L"], NO_COMMAND, "convert wants SCRIPT LOG OUT"),
    (["show"], NO_COMMAND, "show wants LOG"),
    (["marks"], NO_COMMAND, "marks wants FILE"),
    (["tidy", "S", "T"], NO_COMMAND, "tidy wants SCRIPT"),
    ([b"tidy", b"\xff"], NO_COMMAND, "a word is not UTF-8"),
]
# What standard error says of a marks file where a log is wanted.
IS_MARKS = "N is a marks file, of a run of any length: `octet marks N` shows it"
# Words that name no file that can be read: each ends with status 5.
UNREAD = [
    (["tidy", "none"], "none is not there"),
    (["tidy", "none/S"], "none/S is not there"),
    (["tidy", "F"], "F is a folder"),
    (["tidy", ""], "the name of a file is empty"),
    (["tidy", "S/S"], "S is no folder, so S/S is no file"),
    (["tidy", "/proc/self/mem"], "/proc/self/mem is there, and to read it fails"),
    (["replay", "none", "nor"], "none is not there"),
    (["replay", "S", "F"], "F is a folder"),
    (["show", "none"], "none is not there"),
    (["marks", "none"], "none is not there"),
    (["slice", "S", "none", "0", "0"], "none is not there"),
    (["run", "none", "L"], "none is not there"),
]
# Words that name a file which cannot be written: each ends with status 6.
UNWRITTEN = [
    (["run", "S", "F"], "F is a folder"),
    (["run", "S", "none/L"], "none/L could not be written: there is no folder none"),
    (["run", "S", "S/L"], "S is no folder, so S/L is no file"),
    (["run", "S", "/dev/full"], "/dev/full takes no more"),
    (["turns", "S", "F", "0"], "F is a folder"),
    (["gen", "1", "none/G", "K"], "none/G could not be written: there is no folder none"),
    (["gen", "1", "G", "F"], "F is a folder"),
    (["convert", "S", "L", "F"], "F is a folder"),
]
# Words by which a file is lost, each of which ends with status 0.
LOST = [
    (["locked", "T", "T"], "T is read, and then written over"),
    (["run", "U", "./U"], "U is read, and then written over"),
    (["convert", "S", "M", "M"], "M is read, and then written over"),
    (["gen", "1", "N", "N"], "N gets the script, and then the log over it"),
]


COMMANDS = re.compile(r"^- `octet ([a-z]+)((?: [A-Z]+)+)` ", re.MULTILINE)


def lines(*told):
    return "".join(f"octet: {line}\n" for line in told).encode()


def answers():
    """After what the program says and its status, one line says which word or file was wrong."""
    with folder_with(S=BANK, L=LOST_LOG, M=LOST_LOG, T=ONE, U=ONE, N=MARKS_BYTES) as folder:
        os.mkdir(pathlib.Path(folder, "F"))

        def answer(words, status, said, *told):
            return differs(f"{words}", called([LAUNCHER, *words], folder), (status, said, lines(*told)))

        return first(
            *(answer(words, 1, said, told) for words, said, told in WRONG_WORDS),
            *(answer(words, 5, FAILED, told) for words, told in UNREAD),
            *(answer(words, 6, b"", told) for words, told in UNWRITTEN),
            *(answer(words, 3, text("log: 1 no magic"), IS_MARKS) for words in [["show", "N"], ["replay", "S", "N"], ["convert", "S", "N", "O"]]),
            differs("no word of what a log is", called([LAUNCHER, "marks", "L"], folder), (3, text("marks: 1 no magic at 0"))),
            *(lost(folder, *row) for row in LOST),
            differs("no warning", called([LAUNCHER, "run", "S", "O"], folder)[0], 0),
            differs("no word more", len(called([LAUNCHER, "run", "S", "O"], folder)), 2),
        )


def commands():
    """`bin/octet` knows the words of each command that FORMATS has."""
    found = COMMANDS.findall((TOP / "docs" / "FORMATS.md").read_text())
    with tempfile.TemporaryDirectory() as folder:
        return first(
            differs("how many commands", len(found) >= 15, True),
            *(
                None if told.startswith(lines(f"{command} wants{words}")[:-1]) else f"{command}: {told}"
                for command, words in found
                for told in [called([LAUNCHER, command], folder)[-1]]
            ),
        )


def words_of_the_tests():
    """`tests/run` runs the tests that have one of its words, and no others."""
    run = TOP / "tests" / "run"
    status, whole = called([run, "--list"], TOP)
    names = whole.decode().split("\n")[:-1]
    some = [name for name in names if "refused: 7," in name or "a RUN of" in name.replace("run", "RUN")]
    return first(
        differs("all", (status, len(names) > 500, len(set(names)) == len(names)), (0, True, True)),
        differs("some", called([run, "--list", "REFUSED: 7,", "a run of"], TOP), (0, text(*some))),
        differs("none", called([run, "no test has this name"], TOP)[0], 2),
    )


def lost(folder, words, told):
    status, _, *errors = called([LAUNCHER, *words], folder)
    return differs(f"{words}", (status, errors), (0, [lines("warning: " + told.replace("U is", "./U is"))]))


def outputs():
    """Which output took not all of an answer."""
    close = ["sh", "-c", 'exec "$0" "$@" >&-', str(LAUNCHER)]
    with folder_with(S=ONE) as folder, open("/dev/full", "wb") as full:
        read_end, write_end = os.pipe()
        os.close(read_end)
        unread = called([LAUNCHER, "tidy", "S"], folder, stdout=write_end)
        os.close(write_end)
        part = "standard output took not all of the answer"
        return first(
            differs(
                "closed",
                called([*close, "tidy", "S"], folder),
                (6, b"", lines("standard output is closed, so the answer could not be said")),
            ),
            differs("full", called([LAUNCHER, "tidy", "S"], folder, stdout=full), (6, None, lines(part))),
            differs(
                "full, with a file",
                called([LAUNCHER, "run", "S", "L"], folder, stdout=full),
                (6, None, lines(f"{part}, or L could not be written")),
            ),
            # The line, or the signal that the system sends.
            None if unread[0] == -signal.SIGPIPE else differs("unread", unread, (6, None, lines("nobody read all of the answer"))),
        )


def permissions():
    """Which file may not be read or written, for a user who is not root."""
    with folder_with(S=ONE, L=LOST_LOG, closed=ONE) as folder:
        here = pathlib.Path(folder)
        user = {"user": "nobody"} if os.geteuid() == 0 else {}
        tree = Tree(here / "tree", "exec >&2; case $1 in tidy) exit 5 ;; esac; exit 6")
        os.mkdir(here / "shut")
        for name, mode in {"S": 0o644, "L": 0o444, "closed": 0, "shut": 0o600, ".": 0o555}.items():
            os.chmod(here / name, mode)

        def told(*words):
            return by_itself([tree.launcher, *words], folder, **user)[2:]

        problem = first(
            differs("closed", told("tidy", "closed"), (lines("closed may not be read"),)),
            differs("shut", told("tidy", "shut/S"), (lines("shut/S may not be looked for in the folder shut"),)),
            differs("over", told("run", "S", "L"), (lines("L may not be written"),)),
            differs("new", told("run", "S", "new"), (lines("new may not be made in the folder ."),)),
        )
        os.chmod(here, 0o755)
        os.chmod(here / "shut", 0o755)
        return problem


def by_itself(words, folder, **how):
    """A call that OCTET tells nothing."""
    return called(words, folder, **{"env": OTHERS, **how})


class Tree:
    """A folder that is laid out as the repository, with scripts for the program, and for tools/build."""

    def __init__(self, top, program="", build="exit 1"):
        self.top, self.program = top, top / "crates" / "octet" / "out" / "octet"
        sources = ["octet/out", "octet/src", "octet_top/src/inner", "octet_tests/src"]
        for folder in ["bin", "tools", *(f"crates/{source}" for source in sources)]:
            (top / folder).mkdir(parents=True)
        (top / "crates.txt").write_text("octet_top:\noctet: octet_top\noctet_tests: octet_top\n")
        (top / "crates" / "octet" / "src" / "main.rt").write_text("")
        (top / "crates" / "octet_top" / "src" / "inner" / "part.rt").write_text("")
        (top / "crates" / "octet_tests" / "src" / "lib.rt").write_text("")
        self.launcher = shutil.copy(LAUNCHER, top / "bin" / "octet")
        self.write(top / "tools" / "build", build)
        for path in [top, *top.rglob("*")]:
            os.utime(path, (1, 1))
        self.write(self.program, program)

    @staticmethod
    def write(path, lines):
        path.write_text(f"#!/bin/sh\n{lines}\n")
        path.chmod(0o755)


def statuses():
    """Whatever the program ends with, `bin/octet` does; and it lends it its standard input."""
    with tempfile.TemporaryDirectory() as folder:
        tree = Tree(pathlib.Path(folder, "tree"), 'echo "$1"; cat; exit "$2"')
        numbers = [0, 2, 3, 4, 7, 8, 9, 10, 11]
        found = {number: by_itself([tree.launcher, "a b", str(number)], folder, input=b"in") for number in numbers}
        wanted = {number: (number, b"a b\nin") for number in found} | {7: (7, b"a b\nin", lines("no memory"))}
        path = {"PATH": "/none"}
        quick = Tree(pathlib.Path(folder, "quick"), "echo quick")
        return first(
            differs("statuses", found, wanted),
            # A call that has nothing to explain starts the program alone: no other is to be found.
            differs("no other program", by_itself([quick.launcher, "run", "S", "L"], folder, env=path), (0, b"quick\n")),
            differs("a closed input", by_itself(["sh", "-c", '"$0" x 0 <&-', str(tree.launcher)], folder)[0], 0),
        )


def signals():
    """A signal ends `bin/octet` and the program alike, and a program that one ended is told as such."""
    with tempfile.TemporaryDirectory() as folder:
        tree = Tree(pathlib.Path(folder, "tree"), "echo $$; exec sleep 60")
        calls = [(sent, "launcher") for sent in [signal.SIGTERM, signal.SIGINT, signal.SIGHUP]] + [(signal.SIGINT, "both")]
        calls += [(sent, "program") for sent in [signal.SIGTERM, signal.SIGKILL, signal.SIGSEGV]]
        for sent, to in calls:
            with subprocess.Popen(
                [tree.launcher, "x"], cwd=folder, stdout=subprocess.PIPE, stderr=subprocess.PIPE, env=OTHERS, start_new_session=True
            ) as process:
                program = int(process.stdout.readline())
                (os.killpg if to == "both" else os.kill)(program if to == "program" else process.pid, sent)
                _, errors = process.communicate(timeout=SECONDS)
                if (process.returncode, errors) != (-sent, b"") or is_there(program):
                    return f"{sent.name} to {to}: {process.returncode}, {errors}"
    return None


# Stands in for the program: tells what it was asked in a file, and answers as if the script had 50,000 moments.
SEARCHING = r"""echo "$@" >>"${0%/*}/calls"
for most; do :; done
case $most in *[!0-9]* | ?) most=10000000 ;; esac
echo "by $most"
[ "$most" -lt 50000 ] && exit 13
[ "$1" = always ] && exit 14
exit 0"""
# Words, the numbers of moments that the program is asked for where nobody watches and where somebody does, and what is said then.
SEARCHES = [
    (["outcomes", "S"], [""], ["10000", "100000"], (0, ["by 100000"]), [10000]),
    (["outcomes", "S", "0049999"], ["0049999"], ["0049999"], (13, ["by 0049999"]), []),
    (["outcomes", "S", "400000"], ["400000"], ["40000", "400000"], (0, ["by 400000"]), [40000]),
    (["outcomes", "S", "2147483648"], ["2147483648"], ["2147483"], (0, ["by 2147483"]), []),
    (["outcomes", "S", "2147483649"], ["2147483649"], ["2147483649"], (0, ["by 2147483649"]), []),
    (["always", "S", "L"], [""], ["10000", "100000"], (14, ["by 100000"]), [10000]),
    (["always", "S", "L", "400000"], ["400000"], ["40000", "400000"], (14, ["by 400000"]), [40000]),
    (["always", "S", "L", "x", "7"], [""], ["10000", "100000"], (14, ["by 100000"]), [10000]),
    (["always", "S", "L", "x", "7", "0400000"], ["0400000"], ["40000", "0400000"], (14, ["by 0400000"]), [40000]),
    (["run", "S", "L"], [""], [""], (0, ["by 10000000"]), []),
]


def watched(words, folder, **how):
    """A call whose standard error is a terminal."""
    ours, theirs = pty.openpty()
    try:
        found = by_itself(words, folder, stderr=theirs, **how)[:2]
        os.write(theirs, b".")
        told = b""
        while not told.endswith(b"."):
            told += os.read(ours, 4096)
        return *found, told[:-1].replace(b"\r\n", b"\n")
    finally:
        os.close(ours)
        os.close(theirs)


def progress():
    """On a terminal a long search says how far it is; elsewhere the program is called once."""
    with tempfile.TemporaryDirectory() as folder:
        tree = Tree(pathlib.Path(folder, "tree"), SEARCHING)
        aside = pathlib.Path(folder, "aside")
        aside.mkdir()
        calls = tree.program.parent / "calls"

        def asked(words):
            found = calls.read_text().splitlines()
            calls.unlink()
            whole = words[: 2 if words[0] == "outcomes" else 5 if len(words) > 4 else 3]
            return [line.removeprefix(" ".join(whole)).strip() for line in found]

        def row(words, alone, parts, answer, told):
            status, said = answer
            once = by_itself([tree.launcher, *words], folder)[2:], asked(words)
            found = watched([tree.launcher, *words], folder, env={**OTHERS, "TMPDIR": str(aside)})
            more = lines(*(f"more than {number} moments" for number in told))
            return first(
                differs(f"{words}", once, ((), alone)),
                differs(f"{words} on a terminal", (found, asked(words)), ((status, text(*said), more), parts)),
            )

        problem = first(*(row(*each) for each in SEARCHES), differs("files", list(aside.iterdir()), []))
        with open("/dev/full", "wb") as full:
            status, _, told = watched([tree.launcher, "outcomes", "S", "10000000"], folder, stdout=full)
        refused = lines("more than 10000 moments", "standard output took not all of the answer")
        none = watched([tree.launcher, "outcomes", "S", "10000000"], folder, env={**OTHERS, "TMPDIR": "/none"})
        return first(
            problem,
            differs("no room for the answer", (status, told), (6, refused)),
            differs("no room aside", none, (0, text("by 10000000"), b"")),
        )


def is_there(number):
    try:
        return pathlib.Path(f"/proc/{number}/stat").read_text().split()[2] != "Z"
    except OSError:
        return False


def builds():
    """The program is built where it is not there or a source or folder is newer, and not for the tests' crates."""
    with tempfile.TemporaryDirectory() as folder:
        build = 'echo built >&2; cp "$0.new" "${0%/*}/../crates/octet/out/octet"'
        tree = Tree(pathlib.Path(folder, "tree"), "exit 3", build)
        tree.write(tree.top / "tools" / "build.new", "exit 4")
        os.utime(tree.program, (1000, 1000))
        crates = tree.top / "crates"

        def call(change=None, when=2000):
            if change is not None:
                os.utime(change, (when, when))
            found = by_itself([tree.launcher, "x"], folder)
            tree.write(tree.program, "exit 3")
            os.utime(tree.program, (1000, 1000))
            if change is not None:
                os.utime(change, (1, 1))
            return found

        built, kept = (4, b"", b"built\n"), (3, b"")
        problem = first(
            differs("nothing is newer", call(), kept),
            differs("a list of crates", call(tree.top / "crates.txt"), built),
            differs("a source", call(crates / "octet" / "src" / "main.rt"), built),
            differs("a source further in", call(crates / "octet_top" / "src" / "inner" / "part.rt"), built),
            differs("a folder of sources", call(crates / "octet_top" / "src"), built),
            differs("a source that is older", call(crates / "octet" / "src" / "main.rt", 500), kept),
            differs("a source of tests", call(crates / "octet_tests" / "src" / "lib.rt"), kept),
        )
        tree.write(tree.top / "tools" / "build", "echo not built >&2; exit 1")
        tree.program.unlink()
        return first(problem, differs("a build that fails", by_itself([tree.launcher, "x"], folder), (70, b"", b"not built\n")))


def finds():
    """Which program `bin/octet` finds without a build, and that by OCTET, or with OCTET_BUILD, it builds none."""
    with tempfile.TemporaryDirectory() as folder:
        tree = Tree(pathlib.Path(folder, "tree"), "echo proved", "echo built >&2; exit 1")
        unproved, source = tree.top / "build" / "unproved" / "octet", tree.top / "crates" / "octet_top" / "src" / "inner" / "part.rt"
        unproved.parent.mkdir(parents=True)
        tree.write(unproved, "echo unproved")
        tree.write(pathlib.Path(folder, "other"), "echo other")
        library = tree.top / "crates" / "octet_c" / "out" / "liboctet_c.a"
        library.parent.mkdir(parents=True)
        library.touch()

        def found(proved, compiled, word="--program"):
            for path, when in [(tree.program, proved), (unproved, compiled), (library, proved)]:
                os.utime(path, (when, when))
            return by_itself([tree.launcher, word], folder)

        def call(**variables):
            return by_itself([tree.launcher, "x"], folder, env={**OTHERS, **variables})

        def path(place):
            return 0, text(str(place.resolve()))

        os.utime(source, (1000, 1000))
        ways = "`tools/build --unproved` compiles one in about a minute, `tools/build` proves it first"
        other, no_build = {"OCTET": str(pathlib.Path(folder, "other"))}, {"OCTET_BUILD": "no"}
        return first(
            differs("both", found(2000, 3000), path(tree.program)),
            differs("the older proved one", found(500, 3000), path(unproved)),
            differs("an answer by it", call(**no_build), (0, b"unproved\n")),
            differs("none", found(500, 500), (70, b"", lines(f"no program of these sources is built: {ways}"))),
            differs("no answer", call(**no_build)[:2], (70, b"")),
            differs("none, and a build", call(), (70, b"", b"built\n")),
            differs("another", call(**other), (0, b"other\n")),
            differs("another that is not there", call(OCTET="/none"), (70, b"", lines("OCTET names /none, and that is no program"))),
            # No crate below the library has a source here.
            differs("the library", found(500, 500, "--library"), path(library.parent)),
        )


def tries():
    """`try` answers by a program that is compiled without a proof, and says so."""
    with tempfile.TemporaryDirectory() as folder:
        build = '[ "$1" = --unproved ] && mkdir -p "${0%/*}/../build/unproved" && cp "$0.new" "${0%/*}/../build/unproved/octet"'
        tree = Tree(pathlib.Path(folder, "tree"), "exit 3", build)
        tree.write(tree.top / "tools" / "build.new", 'echo "$*"; exit "$2"')
        told = "nothing of the program that answers now is proved; without `try` it is proved first, which takes long"
        return first(
            differs("try", by_itself([tree.launcher, "try", "show", "0"], folder), (0, b"show 0\n", lines(told))),
            differs(
                "wrong words",
                by_itself([tree.launcher, "try", "walk", "1"], folder),
                (1, b"walk 1\n", lines(told, "walk is no command, see octet help")),
            ),
        )


# The order in which tools/build proves crates.


def plans():
    """Each crate begins when those below it are done, no more run than there is room for, and side by side is quicker."""
    crates = build_tool.crates_needed((TOP / "crates.txt").read_text())
    work = sum(build_tool.SECONDS.get(name, build_tool.UNKNOWN) for name in crates)
    problems = [
        differs("the last", list(crates)[-1], "octet"),
        differs("no tests", [name for name in crates if name.startswith("octet_tests")], []),
    ]
    wholes = {}
    for processors, memory in [(1, 4), (2, 4), (2, 8), (4, 8), (4, 16), (8, 32), (16, 3)]:
        rows = build_tool.planned(build_tool.Plan(crates, processors, memory))
        wholes[processors, memory] = max(end for _, end, _ in rows.values())
        for name, (start, end, jobs) in rows.items():
            beside = [each for each, (one, other, _) in rows.items() if one <= start < other]
            processes = [rows[each][2] for each in beside]
            needs = sum(build_tool.FIRST + build_tool.FURTHER * (number - 1) for number in processes)
            early = [each for each in crates[name] if rows[each][1] > start + 1e-6]
            if early or end <= start or not 1 <= jobs <= processors:
                problems.append(f"{name} begins at {start} with {jobs}, before {early}")
            if len(beside) > 1 and (sum(processes) > processors * 3 // 2 + 1 or needs > memory):
                problems.append(f"{beside} together, with {processes}, by {processors} processors and {memory} gigabytes")
    said = called([BUILD, "--plan", "--processors", "4", "--memory", "16"], TOP)[1]
    return first(
        *problems,
        differs("a crate at a time", abs(wholes[1, 4] - work) < 5, True),
        differs("two processors", wholes[2, 8] < 0.65 * work, True),
        differs("four processors", wholes[4, 16] < 0.42 * work, True),
        differs("little memory", wholes[16, 3] == wholes[1, 4], True),
        differs("how many lines", said.count(b"\n"), len(crates) + 1),
    )


RT = r"""
import os, pathlib, sys, time
here, top = pathlib.Path.cwd(), pathlib.Path.cwd().parent.parent
told = pathlib.Path(os.environ["TOLD"])
def tell(*words):
    with told.open("a") as file:
        file.write(" ".join(map(str, words)) + "\n")
if sys.argv[1] == "version":
    print("a kit logic dac8208d650f15bf")
elif sys.argv[1] == "lib":
    below = dict(line.split(":") for line in (top / "crates.txt").read_text().splitlines())[here.name].split()
    tell("begin", here.name, all((top / "crates" / name / "out" / "rlib" / "stamp").is_file() for name in below))
    until = time.monotonic() + 20
    while here.name in ("left", "right") and not list(top.rglob("bad.rt")):
        if told.read_text().count("begin") == 3 or time.monotonic() > until:
            break
        time.sleep(0.01)
    if (here / "src" / "bad.rt").exists():
        sys.exit("a hole")
    (here / "out" / "rlib").mkdir(parents=True, exist_ok=True)
    (here / "out" / "rlib" / "stamp").write_text("")
    print(f"crate {here.name}: modules loaded=0 checked=1")
    tell("end", here.name)
else:
    tell(sys.argv[1], here.name)
    (here / "out").mkdir(exist_ok=True)
    (here / "out" / "octet").write_text("")
    print("words: not a command")
    sys.exit(1)
"""


def side_by_side():
    """A build by an `rt` that proves nothing: what it is called for, in which order, and what is left."""
    with tempfile.TemporaryDirectory() as folder:
        top = pathlib.Path(folder)
        lists = {"low": "", "left": "low", "right": "low", "octet": "left right", "octet_tests": "low"}
        for name in lists:
            (top / "crates" / name / "src").mkdir(parents=True)
            (top / "crates" / name / "src" / "lib.rt").write_text("")
        (top / "crates.txt").write_text("".join(f"{name}: {under}\n" for name, under in lists.items()))
        (top / "tools").mkdir()
        build = shutil.copy(BUILD, top / "tools" / "build")
        (top / "path").mkdir()
        (top / "path" / "rt").write_text(f"#!/usr/bin/env python3\n{RT}")
        (top / "path" / "rt").chmod(0o755)
        told = top / "told"

        def call():
            told.write_text("")
            environment = {**os.environ, "PATH": f"{top / 'path'}:{os.environ['PATH']}", "TOLD": str(told)}
            status, _, errors = called([build, "--processors", "2", "--memory", "9"], folder, env=environment)
            return status, errors.decode().split("\n")[-2], told.read_text().split("\n")[:-1]

        status, last, calls = call()
        middle = sorted(calls[2:4]), sorted(calls[4:6])
        whole = first(
            differs("status", (status, last[:15]), (0, "octet: built in")),
            differs("the first", calls[:2], ["begin low True", "end low"]),
            differs("side by side", middle, (["begin left True", "begin right True"], ["end left", "end right"])),
            differs("the last", calls[6:], ["run octet"]),
            differs("what is kept", [name for name in lists if (top / "crates" / name / "out" / "rlib").is_dir()], ["low", "left", "right"]),
            differs("no copies are left", [path.name for path in (top / "build").iterdir()], ["proved.json"]),
            differs("its log", (top / "crates" / "octet" / "build.log").read_text().count("processor time"), 5),
            differs("once more", call()[2], ["run octet"]),
        )
        source = top / "crates" / "left" / "src" / "lib.rt"
        os.utime(source)
        whole = first(whole, differs("a newer file with what it had", call()[2], ["run octet"]))
        source.write_text("// Changed.")
        os.utime(source, (1, 1))
        whole = first(whole, differs("an older file with other contents", call()[2], ["begin left True", "end left", "run octet"]))
        (top / "crates" / "right" / "src" / "bad.rt").write_text("")
        status, last, calls = call()
        return first(
            whole,
            differs("a crate that fails", (status, last, calls), (1, "a hole", ["begin right True"])),
            differs("what it kept", (top / "crates" / "right" / "out" / "rlib").is_dir(), True),
            differs("no copies are left then", [path.name for path in (top / "build").iterdir()], ["proved.json"]),
        )


def measured_seconds():
    """What was measured stands in the place of the first guess; what is no measure does not."""
    crates = {"low": [], "high": ["low"]}
    with tempfile.TemporaryDirectory() as folder:
        kept = pathlib.Path(folder, "proved.json")
        before, build_tool.KEPT = build_tool.KEPT, kept
        try:
            found = [build_tool.measured()]
            for content in ["no rows", "[]", '{"low": {"seconds": 7}, "high": {"seconds": "7"}, "other": 7, "gone": {"seconds": 9}}']:
                kept.write_text(content)
                found.append(build_tool.measured())
        finally:
            build_tool.KEPT = before
    plan = build_tool.Plan(crates, 2, 8, found[-1])
    return first(
        differs("what is read", found, [{}, {}, {}, {"low": 7, "gone": 9}]),
        differs("the seconds", plan.seconds, {"low": 7, "high": build_tool.UNKNOWN}),
        differs("the ways", plan.ways, {"low": 7 + build_tool.UNKNOWN, "high": build_tool.UNKNOWN}),
    )


TESTS = {
    "bin/octet: which word or file is wrong": answers,
    "bin/octet: the words of each command": commands,
    "bin/octet: which output took not all": outputs,
    "bin/octet: what may not be read or written": permissions,
    "bin/octet: the program's statuses and its input": statuses,
    "bin/octet: signals": signals,
    "bin/octet: how far a search is": progress,
    "bin/octet: when it builds": builds,
    "bin/octet: what it finds without a build": finds,
    "bin/octet: try": tries,
    "tests/run: words and a list": words_of_the_tests,
    "tools/build: the plan": plans,
    "tools/build: what was measured": measured_seconds,
    "tools/build: side by side": side_by_side,
}
