"""Real files and a real standard output that are not as they should be.

Each test makes what it needs in a folder of its own, and gives the first thing that is wrong, or
None. What a root user is not refused is tried as the user `nobody`.
"""

import os
import pathlib
import resource
import shutil
import signal
import subprocess
import sys
import tempfile
import time

from case import join, log, script, second, short, tail, text
from cases import TWO_READS, TWO_READS_LOG

TOP = pathlib.Path(__file__).resolve().parent.parent
LAUNCHER = TOP / "bin" / "octet"
SECONDS = 60
FOUND = subprocess.run([LAUNCHER, "--program"], capture_output=True, check=False)
# The program that is tested: OCTET, or what is built of these sources, proved or not.
OCTET = pathlib.Path(os.fsdecode(FOUND.stdout).rstrip("\n")).resolve()
# `bin/octet` and the tools call it too, and so no test builds.
os.environ["OCTET"] = str(OCTET)
# For what is laid out in a folder of its own.
OTHERS = {name: value for name, value in os.environ.items() if name not in ("OCTET", "OCTET_LIB")}


def is_built():
    """Whether there is a program to test. Where there is none, a line says how to get it."""
    sys.stderr.write(FOUND.stderr.decode())
    return FOUND.returncode == 0


ONE = script("object x 5 / thread / read r0 x")
ONE_SAID = text("thread 0 done 5", "object x 5")
ONE_LOG, ONE_RUN = log((1,)), second(ONE, (1,))
FAILED = text("read: failed")
SCRIPT_LIMIT, LOG_LIMIT = 1_048_576, 67_108_864


def called(words, folder, **how):
    """The exit status and what is said."""
    how = {"stdout": subprocess.PIPE, "stderr": subprocess.PIPE, **how}
    done = subprocess.run(words, cwd=folder, timeout=SECONDS, check=False, **how)
    if done.stderr:
        return done.returncode, done.stdout, done.stderr
    return done.returncode, done.stdout or b""


def octet(words, folder, **how):
    return called([str(OCTET), *words], folder, **how)


def library():
    """The folder of the C library that is built of these sources, proved or not; else that of `bindings/unproved`, which takes a minute."""
    if "OCTET_LIB" in os.environ:
        return pathlib.Path(os.environ["OCTET_LIB"]).resolve()
    for words in [[LAUNCHER, "--library"], [TOP / "bindings" / "unproved"]]:
        done = subprocess.run(words, stdout=subprocess.PIPE, stderr=subprocess.DEVNULL, check=False)
        if done.returncode == 0:
            return pathlib.Path(done.stdout.decode().strip())
    raise RuntimeError("bindings/unproved compiles no library")


def in_bursts(words, folder):
    """Lets a call run for a fifth of a millisecond at a time, and gives it each time that it stands still."""
    with subprocess.Popen([str(OCTET), *words], cwd=folder, stdout=subprocess.DEVNULL) as process:
        until = time.monotonic() + SECONDS
        try:
            while True:
                time.sleep(0.0002)
                os.kill(process.pid, signal.SIGSTOP)
                how = os.waitid(os.P_PID, process.pid, os.WSTOPPED | os.WEXITED | os.WNOWAIT).si_code
                if how != os.CLD_STOPPED:
                    return
                yield process
                if time.monotonic() > until:
                    raise subprocess.TimeoutExpired(words, SECONDS)
                os.kill(process.pid, signal.SIGCONT)
        finally:
            process.kill()


def differs(what, found, wanted):
    return None if found == wanted else f"{what}: {found!r:.300}, not {wanted!r:.300}"


def first(*problems):
    return next((problem for problem in problems if problem is not None), None)


def folder_with(**files):
    """A folder with these files, which goes when it is closed."""
    folder = tempfile.TemporaryDirectory()
    for name, content in files.items():
        pathlib.Path(folder.name, name).write_bytes(content)
    return folder


def full_output():
    with folder_with(S=ONE, C=TWO_READS, M=TWO_READS_LOG) as folder, open("/dev/full", "wb") as full:
        return first(
            differs("tidy", octet(["tidy", "S"], folder, stdout=full), (6, b"")),
            differs("run", octet(["run", "S", "L"], folder, stdout=full), (6, b"")),
            differs("the log", pathlib.Path(folder, "L").read_bytes(), ONE_RUN),
            differs("a refusal", octet(["tidy"], folder, stdout=full), (6, b"")),
            differs("no event", octet(["slice", "S", "L", "0", "1"], folder, stdout=full), (6, b"")),
            differs("a cycle", octet(["regions", "C", "M"], folder, stdout=full), (6, b"")),
            differs("a trace", octet(["trace", "S", "L"], folder, stdout=full), (6, b"")),
        )


def closed_output():
    close = ["sh", "-c", 'exec "$0" "$@" >&-', str(OCTET)]
    with folder_with(S=ONE) as folder:
        return first(
            differs("tidy", called([*close, "tidy", "S"], folder), (6, b"")),
            differs("run", called([*close, "run", "S", "L"], folder), (6, b"")),
            differs("the log", pathlib.Path(folder, "L").read_bytes(), ONE_RUN),
            differs("the script", pathlib.Path(folder, "S").read_bytes(), ONE),
        )


def output_that_nobody_reads():
    """Where no one reads on, the call ends: by the signal that the system sends, or with status 6."""
    read_end, write_end = os.pipe()
    os.close(read_end)
    with folder_with(S=ONE) as folder:
        status = octet(["tidy", "S"], folder, stdout=write_end)[0]
    os.close(write_end)
    return None if status in (6, -13) else f"status {status}"


def folders_for_files():
    with folder_with(S=ONE, L=ONE_LOG) as folder:
        os.mkdir(pathlib.Path(folder, "F"))
        return first(
            differs("a script", octet(["tidy", "F"], folder), (5, FAILED)),
            differs("a log", octet(["replay", "S", "F"], folder), (5, FAILED)),
            differs("a log to be written", octet(["run", "S", "F"], folder), (6, b"")),
            differs("a file as a folder", octet(["run", "S", "S/L"], folder), (6, b"")),
            differs("a script in a file", octet(["tidy", "S/S"], folder), (5, FAILED)),
            differs("what is left", sorted(os.listdir(folder)), ["F", "L", "S"]),
        )


def missing_folders():
    with folder_with(S=ONE, L=ONE_LOG) as folder:
        return first(
            differs("a script", octet(["tidy", "none/S"], folder), (5, FAILED)),
            differs("a log", octet(["replay", "S", "none/L"], folder), (5, FAILED)),
            differs("a log to be written", octet(["run", "S", "none/L"], folder), (6, b"")),
            differs("a script to be written", octet(["gen", "1", "none/S", "L"], folder), (6, b"")),
            differs("what is left", sorted(os.listdir(folder)), ["L", "S"]),
            differs("the old log", pathlib.Path(folder, "L").read_bytes(), ONE_LOG),
        )


def files_without_permission():
    with folder_with(S=ONE, L=ONE_LOG, closed=ONE) as folder:
        here = pathlib.Path(folder)
        program = shutil.copy(OCTET, here / "octet")
        for name, mode in {".": 0o755, "S": 0o644, "L": 0o444, "closed": 0, "octet": 0o755}.items():
            os.chmod(here / name, mode)
        user = {"user": "nobody"} if os.geteuid() == 0 else {}
        if not user:
            os.chmod(here, 0o555)

        def as_nobody(*words):
            return called([program, *words], folder, **user)

        problem = first(
            differs("a script", as_nobody("tidy", "closed"), (5, FAILED)),
            differs("a log", as_nobody("replay", "S", "closed"), (5, FAILED)),
            differs("a log over one that is not to be written", as_nobody("run", "S", "L"), (6, b"")),
            differs("a log in a folder that is not to be written", as_nobody("run", "S", "new"), (6, b"")),
            differs("what may be read", as_nobody("replay", "S", "L"), (0, ONE_SAID)),
            differs("the old log", (here / "L").read_bytes(), ONE_LOG),
            differs("what is left", sorted(os.listdir(folder)), ["L", "S", "closed", "octet"]),
        )
        os.chmod(here, 0o755)
        return problem


def reads_that_fail():
    """A file that opens and whose first read fails, for any user."""
    with folder_with(S=ONE) as folder:
        return first(
            differs("a script", octet(["tidy", "/proc/self/mem"], folder), (5, FAILED)),
            differs("a log", octet(["verify", "S", "/proc/self/mem"], folder), (5, FAILED)),
        )


def full_disk():
    with folder_with(S=ONE) as folder:
        return first(
            differs("run", octet(["run", "S", "/dev/full"], folder), (6, b"")),
            differs("gen", octet(["gen", "1", "/dev/full", "L"], folder), (6, b"")),
            differs("what is left", os.listdir(folder), ["S"]),
        )


def calls_that_fail_in_turn():
    """A take, a begin, an add and a say of `locked`: what was written or said before stays. (A finish
    that fails takes a broken disk.) Files that may grow to so many bytes alone are written in part.
    """
    content = script("object y 3 / thread / thread / read r0 y")
    recorded = log((0,), (1, join(0, 0, 0)))
    said = text("thread 0 done", "thread 1 done 3", "object y 3")

    def limited(size, words, **how):
        def limit():
            signal.signal(signal.SIGXFSZ, signal.SIG_IGN)
            resource.setrlimit(resource.RLIMIT_FSIZE, (size, size))

        return octet(words, folder, preexec_fn=limit, **how)

    with folder_with(S=content, out=b"." * 33) as folder:
        here = pathlib.Path(folder)
        os.mkdir(here / "F")

        def left(name, wanted):
            return differs(f"the file {name}", (here / name).read_bytes(), wanted)

        def say_in_part():
            with open(here / "out", "ab") as out:
                found = limited(36, ["locked", "S", "L"], stdout=out)
            return first(differs("a say", found, (6, b"")), left("L", recorded), left("out", b"." * 33 + said[:3]))

        return first(
            differs("none", octet(["locked", "S", "L"], folder), (0, said)),
            left("L", recorded),
            differs("a take", octet(["locked", "none", "L"], folder), (5, FAILED)),
            differs("a begin", octet(["locked", "S", "F"], folder), (6, b"")),
            left("L", recorded),
            *(
                problem
                for size in [0, 10, 35]
                for problem in [
                    differs(f"an add after {size} bytes", limited(size, ["locked", "S", "L"]), (6, b"")),
                    left("L", recorded[:size]),
                ]
            ),
            say_in_part(),
            differs("what is left", sorted(os.listdir(folder)), ["F", "L", "S", "out"]),
        )


def script_of_the_limit():
    most = b"thread\n#" + b"x" * (SCRIPT_LIMIT - 8)
    with folder_with(S=most, T=most + b"x") as folder:
        long = text(f"long: T over {SCRIPT_LIMIT} bytes")
        return first(
            differs("of the limit", octet(["tidy", "S"], folder), (0, text("fuel 16384", "thread"))),
            differs("one byte more", octet(["tidy", "T"], folder), (8, long)),
            differs("run, one byte more", octet(["run", "T", "L"], folder), (8, long)),
            differs("what is left", sorted(os.listdir(folder)), ["S", "T"]),
            differs("no end", octet(["tidy", "/dev/zero"], folder), (8, text(f"long: /dev/zero over {SCRIPT_LIMIT} bytes"))),
        )


def log_of_the_limit():
    """Five threads, of which the last one has as many marks as make the file as long as it may be."""
    head = log(*[(0,)] * 4, (1,))
    marks = (LOG_LIMIT - len(head)) // 14
    mark = log((0,), (0, join(0, 0, 0)))[-14:]
    most = head[:-4] + marks.to_bytes(4, "big") + mark * marks
    said = text(*[f"thread {t} done" for t in range(4)], "thread 4 done 5", "object x 5")
    content = script("object x 5" + " / thread" * 5 + " / read r0 x")
    converted = second(content, *[(0,)] * 5)[:38] + b"\x04" + short(marks) + b"\x01\0\0\0" * marks + tail(0, 0, 0, 0, 1)
    with folder_with(S=content, L=most, M=most + b"\0") as folder:
        long = text(f"long: M over {LOG_LIMIT} bytes")
        return first(
            differs("its length", len(most), LOG_LIMIT),
            differs("replay", octet(["replay", "S", "L"], folder), (0, said)),
            differs("verify", octet(["verify", "S", "L"], folder), (0, text("ordered"))),
            differs("one byte more", octet(["replay", "S", "M"], folder), (8, long)),
            differs("show, one byte more", octet(["show", "M"], folder), (8, long)),
            differs("convert, one byte more", octet(["convert", "S", "M", "O"], folder), (8, long)),
            differs("convert", octet(["convert", "S", "L", "O"], folder), (0, text("converted"))),
            differs("what is converted", pathlib.Path(folder, "O").read_bytes() == converted, True),
            differs("replay of it", octet(["replay", "S", "O"], folder), (0, said)),
        )


def odd_names():
    with folder_with(**{"a b": ONE, "-x": ONE, "ü": ONE}) as folder:
        pathlib.Path(os.fsdecode(os.path.join(os.fsencode(folder), b"\xff"))).write_bytes(ONE)
        long = b"x" * (SCRIPT_LIMIT + 1)
        pathlib.Path(folder, "c d").write_bytes(long)
        return first(
            differs("a blank", octet(["run", "a b", "l m"], folder), (0, ONE_SAID)),
            differs("the log", pathlib.Path(folder, "l m").read_bytes(), ONE_RUN),
            differs("a blank in a line", octet(["tidy", "c d"], folder), (8, text(f"long: c d over {SCRIPT_LIMIT} bytes"))),
            differs("a leading -", octet(["replay", "-x", "l m"], folder), (0, ONE_SAID)),
            differs("UTF-8", octet(["replay", "ü", "l m"], folder), (0, ONE_SAID)),
            differs("no UTF-8", octet([b"tidy", b"\xff"], folder), (1, text("words: not a command"))),
            differs("an empty name", octet(["tidy", ""], folder), (5, FAILED)),
        )


def one_file_by_two_names():
    """Names are compared, and not files: by two names of one file, what is written last stays."""
    with folder_with(S=ONE, T=ONE) as folder:
        return first(
            differs("one name", octet(["run", "S", "S"], folder), (0, ONE_SAID)),
            differs("its file", pathlib.Path(folder, "S").read_bytes(), ONE_RUN),
            differs("two names", octet(["run", "T", "./T"], folder), (0, ONE_SAID)),
            differs("their file", pathlib.Path(folder, "T").read_bytes(), ONE_RUN),
        )


def through_links():
    with folder_with(S=ONE) as folder:
        here = pathlib.Path(folder)
        (here / "far").mkdir()
        (here / "far" / "octet").symlink_to(LAUNCHER)
        (here / "near").symlink_to("far/octet")
        (here / "folder").symlink_to(LAUNCHER.parent)
        return first(
            differs("a link", called([here / "far" / "octet", "tidy", "S"], folder)[0], 0),
            differs("a link of a link", called(["./near", "tidy", "S"], folder)[0], 0),
            differs("a folder that is a link", called(["folder/octet", "tidy", "S"], folder)[0], 0),
            differs("by the path", called(["sh", "-c", 'PATH=.:$PATH; near tidy S'], folder)[0], 0),
        )


def clone_that_cannot_be_written():
    """Where the program is still to be built and cannot be, `bin/octet` says so and ends with 70."""
    with tempfile.TemporaryDirectory() as folder:
        here = pathlib.Path(folder)
        (here / "bin").mkdir()
        (here / "crates" / "octet").mkdir(parents=True)
        (here / "crates.txt").write_bytes(b"")
        launcher = shutil.copy(LAUNCHER, here / "bin" / "octet")
        folders = [here, here / "bin", here / "crates", here / "crates" / "octet"]
        for each in folders:
            os.chmod(each, 0o555)
        user = {"user": "nobody"} if os.geteuid() == 0 else {}
        status, said, *errors = called([launcher, "tidy", "S"], folder, env=OTHERS, **user)
        for each in folders:
            os.chmod(each, 0o755)
        log = here.resolve() / "crates" / "octet" / "build.log"
        wanted = f"octet: the program is still to be built, and {log} cannot be written\n".encode()
        return differs("bin/octet", (status, said, *errors), (70, b"", wanted))


TESTS = {
    "standard output is full": full_output,
    "standard output is closed": closed_output,
    "standard output that nobody reads": output_that_nobody_reads,
    "a folder for a file": folders_for_files,
    "a folder that is not there": missing_folders,
    "a file with no permission": files_without_permission,
    "a read that fails": reads_that_fail,
    "a disk that is full": full_disk,
    "locked: the calls that fail in turn": calls_that_fail_in_turn,
    "a script of the limit, and one byte more": script_of_the_limit,
    "a log of the limit, and one byte more": log_of_the_limit,
    "names with blanks, and no UTF-8": odd_names,
    "one file by two names": one_file_by_two_names,
    "bin/octet through links": through_links,
    "bin/octet in a clone that cannot be written": clone_that_cannot_be_written,
}
