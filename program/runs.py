"""A recorded run: a folder with what was recorded, and how its program is started. Read by the commands beside this file."""

import bisect
import ctypes
import hashlib
import json
import os
import pathlib
import shutil
import signal
import subprocess
import sys

HERE = pathlib.Path(__file__).resolve().parent
# The runtime reads its words from this file. Its name has the same length in each run, and so has the environment.
WORDS_FILE = 900
NO_RANDOM_ADDRESSES = 0x0040000
# The runtime writes here what a command wants to know of a second run.
REPORT_FILE = 901
MOST_AT_ONCE = 500
ABOUT = "run.json"
UNSET = 97


class Refused(Exception):
    """Why a run cannot be made, in words for the user."""


def command():
    return pathlib.Path(sys.argv[0]).name


def main_of(function):
    try:
        sys.exit(function())
    except Refused as why:
        print(f"{command()}: {why}", file=sys.stderr)
        sys.exit(UNSET)
    except KeyboardInterrupt:
        sys.exit(128 + signal.SIGINT)


def digest_of(path):
    digest = hashlib.sha256()
    with open(path, "rb") as file:
        while piece := file.read(1 << 20):
            digest.update(piece)
    return digest.hexdigest()


def find_program(name):
    found = shutil.which(name)
    if found is None:
        raise Refused(f"there is no program {name}")
    return os.path.abspath(found)


def new_folder(path, program, words):
    """Makes the folder of a run, and forgets the run that it had."""
    folder = pathlib.Path(path)
    if folder.exists() and any(folder.iterdir()) and not (folder / ABOUT).exists():
        raise Refused(f"{path} is no folder of a run, and has other files")
    folder.mkdir(mode=0o700, parents=True, exist_ok=True)
    for name in (ABOUT, "marks", "end", *(f"{kind}.{number}" for kind in ("inputs", "places", "signals") for number in range(16))):
        (folder / name).unlink(missing_ok=True)
    about = {"program": program, "arguments": words, "folder": os.getcwd(), "environment": dict(os.environ), "digest": digest_of(program)}
    return folder.resolve(), about


def save(folder, about):
    (folder / ABOUT).write_text(json.dumps(about, indent=1) + "\n")


def load(path):
    """What is known of a run; it is refused where its program is another one now."""
    folder = pathlib.Path(path).resolve()
    try:
        about = json.loads((folder / ABOUT).read_text())
        program = about["program"]
    except (OSError, ValueError, KeyError) as fault:
        raise Refused(f"{path} is no folder of a recorded run") from fault
    if not pathlib.Path(program).is_file():
        raise Refused(f"the program {program} is not there any more")
    if digest_of(program) != about["digest"]:
        raise Refused(f"the program {program} has changed since it was recorded")
    return folder, about


def prepare(folder, about, mode, more=()):
    """Puts the words of the runtime where it reads them, and goes where the program was started. Returns its environment."""
    text = "".join(f"{line}\n" for line in (f"mode {mode}", f"folder {folder}", f"stacks {int(about.get('stacks', False))}",
                                            f"places {1 if about.get('exact') else 1024}", *more))
    words = os.memfd_create("octet", 0)
    os.write(words, text.encode())
    try:
        os.dup2(words, WORDS_FILE, inheritable=True)
    except OSError as fault:
        raise Refused(f"the limit on open files is too low (ulimit -n): {WORDS_FILE + 50} are needed") from fault
    os.close(words)
    try:
        os.chdir(about["folder"])
    except OSError as fault:
        raise Refused(f"the folder {about['folder']}, where it was started, is not there any more") from fault
    if ctypes.CDLL(None).personality(NO_RANDOM_ADDRESSES) < 0:
        raise Refused("the system does not let the addresses of a program be the same in each run")
    return {**about["environment"], "OCTET_RUN": str(WORDS_FILE)}


def start(words, environment, output=None):
    """Runs the program to its end. Its status, or less than 0 by a signal."""
    process = subprocess.Popen(words, env=environment, stdout=output, close_fds=False)
    for number in (signal.SIGINT, signal.SIGQUIT):
        signal.signal(number, signal.SIG_IGN)
    signal.signal(signal.SIGTERM, lambda number, _: process.send_signal(number))
    return process.wait()


def reported(words, environment, output=None):
    """Runs the program to its end, with a file for its report: its status, and the words of each line."""
    with open(REPORT_FILE, "r", errors="replace", closefd=False) as file:
        status = start(words, environment, output)
        file.seek(0)
        return status, [line.split() for line in file]


def report():
    """Makes the file that the runtime reports to."""
    file = os.memfd_create("report", 0)
    os.dup2(file, REPORT_FILE, inheritable=True)
    os.close(file)


def lines_of(program, addresses):
    """The file and line, and the function, of each address of code, which are words."""
    places = {}
    addresses = sorted(addresses)
    for first in range(0, len(addresses), MOST_AT_ONCE):
        some = addresses[first : first + MOST_AT_ONCE]
        done = subprocess.run(["addr2line", "-f", "-C", "-e", program, *some], capture_output=True, text=True, check=False)
        said = done.stdout.splitlines()
        places.update({address: (said[2 * i + 1].partition(" ")[0], said[2 * i]) for i, address in enumerate(some) if 2 * i + 1 < len(said)})
    return places


def variables_of(program):
    """The variables of a program: address, size and name of each, in order."""
    done = subprocess.run(["nm", "-S", "-C", program], capture_output=True, text=True, check=False)
    found = [line.split(maxsplit=3) for line in done.stdout.splitlines()]
    return sorted((int(part[0], 16), int(part[1], 16), part[3]) for part in found if len(part) == 4 and part[2] in "bBdDrRgGsSvVuC")


# Less than this is no address, but the number of an object of the runtime's own.
OBJECT_NUMBERS = 65536
OTHERS_THAN_MEMORY = "a thing of the runtime's (threads, streams, files or random numbers)"


def variable_at(variables, address):
    """What lies at an address: a variable, or a part of one, or the address."""
    if address < OBJECT_NUMBERS:
        return OTHERS_THAN_MEMORY
    before = bisect.bisect_right(variables, address, key=lambda each: each[0])
    if before:
        begins, size, name = variables[before - 1]
        if address < begins + size:
            return name if address == begins else f"{name}+{address - begins}"
    return f"{address:#x}"


def words_of(about):
    return [about["program"], *about["arguments"]]


def status_of(status):
    """As a shell tells it."""
    return 128 - status if status < 0 else status


def known_calls():
    """What the runtime does about the calls of the C library that it does not stand before: their kind, and why."""
    rows = {}
    for line in (HERE / "calls.txt").read_text().splitlines():
        if line and not line.startswith("#"):
            names, kind, why = (part.strip() for part in f"{line} | ".split("|")[:3])
            rows.update(dict.fromkeys(names.split(), (kind, why)))
    return rows


def called(program):
    """The calls of other libraries that a program makes itself."""
    done = subprocess.run(["nm", "-D", "--undefined-only", program], capture_output=True, text=True, check=False)
    return sorted({line.split()[-1].partition("@")[0] for line in done.stdout.splitlines() if line.strip()})
