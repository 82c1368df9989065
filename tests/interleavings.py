"""`outcomes` and `always`, beside a plain program that goes through every interleaving of small scripts.

A moment is where each thread stands, at its next access or its end, with its registers, and the heap. A thread has
the script's fuel anew after each access: one that runs out of it between two accesses stays where it is.
"""

import pathlib
import random
import re
import tempfile

import hunts
import judges
from case import ACCESSES, script, text
from cases import example
from files import differs, first, octet
from machine import LIMIT, Running, read_script
from turns import some_commands

SCRIPTS = 1_500
MANY = 10_000
HEAD = re.compile(r"outcome( past the fuel)?\Z")


class Searched:
    """The final heaps of a script, how many moments it has, and how many of them lead to no end."""

    def __init__(self, content):
        self.fuel, self.objects, threads = read_script(content)
        self.runners = [Running(commands, self.fuel) for commands in threads]
        start = tuple(self.settled(runner, 0, (0,) * 16, self.fuel) for runner in self.runners)
        moment = start, tuple(self.objects.values())
        self.after, left = {}, [moment]
        while left:
            moment = left.pop()
            if moment not in self.after:
                self.after[moment] = [self.stepped(moment, t) for t in range(len(threads)) if self.access(moment, t)]
                left += self.after[moment]
        ends = [moment for moment in self.after if self.is_end(moment)]
        self.heaps = sorted({heap for _, heap in ends})
        self.moments = len(self.after)
        self.stuck = self.moments - len(self.leading_to(ends))

    def settled(self, runner, place, registers, fuel):
        """Where a thread comes from here, up to its next access."""
        runner.place, runner.fuel = place, fuel
        runner.registers = {f"r{n}": value for n, value in enumerate(registers)}
        while runner.demand()[0] in ("safe", "pause"):
            runner.pass_by()
        return runner.place, tuple(runner.registers.values())

    def access(self, moment, t):
        """The access at which a thread stands, if it stands at one."""
        place, commands = moment[0][t][0], self.runners[t].commands
        return commands[place] if place < len(commands) and commands[place][0] in ACCESSES else None

    def stepped(self, moment, t):
        stands, heap = moment
        place, registers = stands[t]
        kind, *words = self.access(moment, t)
        heap, registers, names = list(heap), list(registers), list(self.objects)
        if kind == "read":
            registers[int(words[0][1:])] = heap[names.index(words[1])]
        else:
            value = registers[int(words[1][1:])]
            at = names.index(words[0])
            heap[at] = value if kind == "write" else (heap[at] + value) % LIMIT
        stand = self.settled(self.runners[t], place + 1, registers, self.fuel - 1)
        return (*stands[:t], stand, *stands[t + 1 :]), tuple(heap)

    def is_end(self, moment):
        return all(place == len(runner.commands) for (place, _), runner in zip(moment[0], self.runners))

    def leading_to(self, ends):
        before, marked, left = {}, set(), list(ends)
        for moment, after in self.after.items():
            for other in after:
                before.setdefault(other, []).append(moment)
        while left:
            moment = left.pop()
            if moment not in marked:
                marked.add(moment)
                left += before.get(moment, [])
        return marked


def parsed(said):
    """The heaps that were said, the numbers of moments and of stuck ones, and the line after them."""
    heaps, lines = [], said.decode().split("\n")
    while lines and HEAD.match(lines[0]):
        lines.pop(0)
        heap = []
        while lines and lines[0].startswith("object "):
            heap.append(int(lines.pop(0).split()[2]))
        heaps.append(tuple(heap))
    return heaps, lines


def search_problem(folder, content, searched, most=()):
    (pathlib.Path(folder) / "S").write_bytes(content)
    status, said = octet(["outcomes", "S", *most], folder)
    heaps, rest = parsed(said)
    wrong = differs("status", status, 0) or differs("heaps", heaps, searched.heaps)
    counts = re.fullmatch(r"moments ([0-9]+)\nstuck ([0-9]+)\n", "\n".join(rest))
    if wrong or not counts:
        return wrong or f"the last lines are {rest}"
    # Of moments from which threads go on alike one is kept, and some orders are left out.
    moments, stuck = map(int, counts.groups())
    if not 0 < moments <= searched.moments or not stuck <= searched.stuck or (stuck == 0) != (searched.stuck == 0):
        return f"{rest[:2]} of {searched.moments} moments and {searched.stuck} stuck ones"
    return None


def claim_problem(folder, content, searched, dice):
    """Of an object and a number, what `always` has to answer."""
    names = list(searched.objects)
    at = dice.randrange(len(names))
    values = sorted({heap[at] for heap in searched.heaps})
    number = dice.choice(values) if values and dice.random() < 0.8 else dice.randrange(4)
    folder = pathlib.Path(folder)
    (folder / "L").unlink(missing_ok=True)
    status, said = octet(["always", "S", "L", names[at], str(number)], folder)
    if all(value == number for value in values):
        wrong = differs("always", (status, said), (0, text("always")))
        return wrong or (None if not (folder / "L").exists() else "a log was written")
    if status != 14:
        return f"always {names[at]} {number}: status {status}, {said}"
    return refutation_problem(folder, content, said, names[at], number)


def refutation_problem(folder, content, said, name, number):
    """What is wrong with a run that was found to end otherwise."""
    lines = said.decode().split("\n")
    if lines[0] != "otherwise" or not re.match(r"preemptions [0-9]+\Z", lines[1]):
        return f"begins with {lines[:2]}"
    outcome = "\n".join(lines[2:]).encode()
    if f"object {name} {number}" in lines or any(line.startswith("thread") and " spent" in line for line in lines):
        return f"found {lines}"
    recorded = (folder / "L").read_bytes()
    if not judges.is_faithful(content, recorded, outcome):
        return "a plain judge says that the recording is not faithful"
    return differs("replay", octet(["replay", "S", "L"], folder), (0, outcome))


def every_interleaving():
    """Of many small scripts: every final heap, every moment and every stuck one, and a claim about them."""
    dice = random.Random(79)
    with tempfile.TemporaryDirectory() as folder:
        for _ in range(SCRIPTS):
            lines = [f"fuel {MANY}", "object x 1", "object y 2"]
            for _ in range(dice.randint(1, 3)):
                lines += ["thread", *some_commands(dice, 1)]
            content = text(*lines)
            searched = Searched(content)
            wrong = search_problem(folder, content, searched) or claim_problem(folder, content, searched, dice)
            if wrong:
                return f"{content}: {wrong}"
    return None


def litmus():
    """The outcomes of each litmus test are those that one memory and any order allow."""
    with tempfile.TemporaryDirectory() as folder:
        for title, threads in hunts.LITMUS.items():
            reads = [(t, p) for t, accesses in enumerate(threads) for p, access in enumerate(accesses) if access[0] == "r"]
            names = sorted({access.split()[1] for accesses in threads for access in accesses})
            objects = [f"object {name} 0" for name in names] + [f"object v{t}_{p} 0" for t, p in reads]
            content = hunts.script_of(objects, [list(told(t, accesses)) for t, accesses in enumerate(threads)])
            (pathlib.Path(folder) / "S").write_bytes(content)
            status, said = octet(["outcomes", "S"], folder)
            found = {heap[len(names) :] for heap in parsed(said)[0]}
            wrong = differs("status", status, 0) or differs("values read", found, hunts.allowed(threads))
            if wrong:
                return f"{title}: {wrong}"
    return None


def told(t, accesses):
    """The accesses of a thread, and then a write of each value that it read."""
    for place, access in enumerate(accesses):
        kind, name, *value = access.split()
        yield from [f"set r0 {value[0]}", f"write {name} r0"] if kind == "w" else [f"read r{1 + place} {name}"]
    for place, access in enumerate(accesses):
        if access[0] == "r":
            yield f"write v{t}_{place} r{1 + place}"


TWICE = script("object n 0 / thread / set r1 1 / bump n r1 / thread / set r1 1 / bump n r1")
LOST = script("object n 0 / thread / set r1 1 / read r0 n / add r0 r0 r1 / write n r0 / thread / set r1 1 / read r0 n / add r0 r0 r1 / write n r0")
# Each thread takes one lock and then waits for the other one.
CROSSED = script(
    "object a 0 / object b 0 / thread / set r1 1 / write a r1 / set r2 1 / while r2 / read r2 b / end / write a r0"
    " / thread / set r1 1 / write b r1 / set r2 1 / while r2 / read r2 a / end / write b r0"
)
# Six accesses and no other command: each gap takes one unit of fuel, and the whole run six.
LONG = script("fuel 5 / object n 0 / thread" + " / bump n r0" * 5 + " / write n r1", )
NOT_ALL = "not all was seen"


def worked_by_hand():
    """Printed bytes: of two bumps one order is gone through, of two lost updates all; MOST at, above and below the count."""
    one = "outcome", "object n 1"
    two = "outcome", "object n 2"
    rows = [
        (["outcomes", "S"], TWICE, 0, text(*two, "moments 3", "stuck 0")),
        (["outcomes", "S", "3"], TWICE, 0, text(*two, "moments 3", "stuck 0")),
        (["outcomes", "S", "4"], TWICE, 0, text(*two, "moments 3", "stuck 0")),
        (["outcomes", "S", "1"], TWICE, 13, text("moments 2", "stuck 0", NOT_ALL)),
        (["outcomes", "S"], LONG, 0, text("outcome past the fuel", "object n 0", "moments 7", "stuck 0")),
        (["always", "S", "L", "n", "2"], TWICE, 0, text("always")),
        (["always", "S", "L", "n", "2", "2"], TWICE, 13, text(NOT_ALL)),
        (["always", "S", "L", "n", "1"], LONG, 14, text("otherwise past the fuel")),
        (["always", "S", "L"], TWICE, 0, text("always")),
        (["always", "S", "L", "3"], TWICE, 0, text("always")),
        (["always", "S", "L", "2"], TWICE, 13, text(NOT_ALL)),
        (["always", "S", "L", "n", "2"], LOST, 14, text("otherwise", "preemptions 1", "thread 0 done 0", "thread 1 done 0", "object n 1")),
    ]
    with tempfile.TemporaryDirectory() as folder:
        for words, content, status, said in rows:
            (pathlib.Path(folder) / "S").write_bytes(content)
            wrong = differs(" ".join(words), octet(words, folder), (status, said))
            if wrong:
                return wrong
        (pathlib.Path(folder) / "S").write_bytes(LOST)
        heads = octet(["outcomes", "S"], folder)
        return first(
            differs("a lost update", parsed(heads[1])[0], [(1,), (2,)]),
            None if one[1].encode() in heads[1] else "no object line",
        )


def stuck_problem(folder):
    """That a run can stick is told, with a recording of one: each lock is taken, and both threads wait until their fuel is spent."""
    status, said = octet(["always", "S", "L"], folder)
    lines = said.decode().split("\n")
    outcome = "\n".join(lines[2:]).encode()
    if status != 14 or lines[:2] != ["otherwise", "preemptions 1"] or [line.split()[2] for line in lines[2:4]] != ["spent", "spent"]:
        return f"two locks taken crosswise: status {status}, {lines[:2]}"
    return differs("its replay", octet(["replay", "S", "L"], folder), (0, outcome))


def locks():
    """Peterson's lock always counts right; a lock that is tested and then set does not; two locks taken crosswise stick."""
    with tempfile.TemporaryDirectory() as folder:
        lock = hunts.script_of(["object wants0 0", "object wants1 0", "object turn 0", "object n 0"], hunts.PETERSON, 8192)
        (pathlib.Path(folder) / "S").write_bytes(lock)
        wrong = differs("Peterson's lock", octet(["always", "S", "L", "n", "2"], folder), (0, text("always")))
        for name, (object_name, number) in hunts.EXAMPLES.items():
            content = example(f"{name}.octet")
            (pathlib.Path(folder) / "S").write_bytes(content)
            status, said = octet(["always", "S", "L", object_name, str(number)], folder)
            other = refutation_problem(pathlib.Path(folder), content, said, object_name, number) if status == 14 else f"status {status}"
            wrong = wrong or (other and f"{name}: {other}")
        return wrong or search_problem(folder, CROSSED, Searched(CROSSED)) or stuck_problem(pathlib.Path(folder))


TESTS = {
    "outcomes: every interleaving of many small scripts": every_interleaving,
    "outcomes: litmus tests": litmus,
    "outcomes: lines worked out by hand": worked_by_hand,
    "outcomes: locks, and locks that stick": locks,
}
