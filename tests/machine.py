"""A plain machine of states, requests and answers, one step a turn, beside the program's own.

It goes by the tables of docs/PROTOCOL.md and shares nothing with the program: state words are
tuples, and a script is lists of words. What it leaves is the text and the log that a run by these
turns owes.
"""

from case import ACCESSES, draw, fence, join, log, text

OFF, IDLE, WANT, PASS, FENCE_DUE, CLAIMED, SHARING, BLOCKED = range(8)
EXCLUSIVE, READ_EXCLUSIVE, READ_SHARED, WANTED = "WrEx", "RdEx", "RdSh", "intermediate"
JUMPS = {"while", "if"}
LIMIT = 2**64


def read_script(content):
    """The fuel, the objects with their values, and each thread's commands."""
    fuel, objects, threads = 16384, {}, []
    for line in content.decode().split("\n"):
        words = line.split("#")[0].split()
        if not words:
            continue
        if words[0] == "fuel":
            fuel = int(words[1])
        elif words[0] == "object":
            objects[words[1]] = int(words[2])
        elif words[0] == "thread":
            threads.append([])
        else:
            threads[-1].append(words)
    return fuel, objects, threads


class Running:
    """One thread of a script: its place, its registers, its fuel, and how many regions it began."""

    def __init__(self, commands, fuel):
        self.commands, self.fuel = commands, fuel
        self.place, self.regions, self.registers = 0, 0, dict.fromkeys((f"r{n}" for n in range(16)), 0)
        self.partner, still_open = {}, []
        for place, words in enumerate(commands):
            if words[0] in JUMPS:
                still_open.append(place)
            elif words[0] == "end":
                opener = still_open.pop()
                self.partner[opener], self.partner[place] = place, opener

    def demand(self):
        """The next access, `safe`, `pause`, or the end; all that stands before it is done."""
        while self.place < len(self.commands) and self.fuel > 0:
            words = self.commands[self.place]
            if words[0] in ACCESSES | {"safe", "pause"}:
                return words
            self.fuel -= 1
            self.place = self.after(words)
        return ["done" if self.place == len(self.commands) else "spent"]

    def pass_by(self):
        """The command that was demanded is made."""
        self.fuel -= 1
        self.place += 1

    def after(self, words):
        kind, r = words[0], self.registers
        if kind in JUMPS:
            return self.place + 1 if r[words[1]] else self.partner[self.place] + 1
        if kind == "end":
            opener = self.partner[self.place]
            return opener if self.commands[opener][0] == "while" else self.place + 1
        if kind == "region":
            self.regions += 1
        elif kind == "set":
            r[words[1]] = int(words[2])
        elif kind == "copy":
            r[words[1]] = r[words[2]]
        else:
            left, right = r[words[2]], r[words[3]]
            r[words[1]] = {
                "add": left + right, "sub": left - right, "mul": left * right, "xor": left ^ right,
                "less": int(left < right), "same": int(left == right),
            }[kind] % LIMIT  # fmt: skip
        return self.place + 1


class Thread:
    def __init__(self, commands, fuel):
        self.running = Running(commands, fuel)
        self.phase, self.due, self.known, self.journal = OFF, None, 0, []
        self.end = None
        # Of the access that is wanted: whether it writes, its object, and the word that was loaded.
        self.writes = self.object = self.word = None
        # Of a claim: the threads that are still to be asked, and whether the first of them was.
        self.left, self.asked = [], False


class Machine:
    def __init__(self, content):
        fuel, self.objects, threads = read_script(content)
        self.threads = [Thread(commands, fuel) for commands in threads]
        self.words = {name: (EXCLUSIVE, 0) for name in self.objects}
        self.cells = dict(self.objects)
        # Of each thread: whether it is marked blocked, its position, and who asks.
        self.status = [(True, 0, frozenset()) for _ in threads]
        self.draws = 0

    def swap(self, t, blocked):
        self.status[t] = blocked, len(self.threads[t].journal), frozenset()

    def turn(self, t):
        """One step of a thread; none where it has ended."""
        thread = self.threads[t]
        if thread.end is not None:
            return
        if thread.due == "glance":
            self.glance(t)
        elif thread.due == "answer":
            self.swap(t, False)
            thread.due = None
        elif thread.phase in (OFF, BLOCKED):
            self.swap(t, False)
            thread.phase = IDLE
        elif thread.phase == IDLE:
            self.step_idle(t)
        elif thread.phase == WANT:
            self.load(t) if thread.word is None else self.exchange(t)
        elif thread.phase == CLAIMED:
            self.ask_or_settle(t)
        elif thread.phase == SHARING:
            self.share(t)
        elif thread.phase == FENCE_DUE:
            self.note(t, "fence", self.draws)
            thread.known, thread.phase = self.draws, PASS
        else:
            self.make_access(t)

    def glance(self, t):
        self.threads[t].due = "answer" if self.status[t][2] else None

    def note(self, t, *event):
        self.threads[t].journal.append(event)

    def step_idle(self, t):
        thread = self.threads[t]
        words = thread.running.demand()
        if words[0] == "safe":
            thread.running.pass_by()
            self.glance(t)
        elif words[0] == "pause":
            thread.running.pass_by()
            self.swap(t, True)
            thread.phase = BLOCKED
        elif words[0] in ACCESSES:
            thread.writes = words[0] != "read"
            thread.object = words[1] if thread.writes else words[2]
            self.load(t)
        else:
            self.swap(t, True)
            thread.phase, thread.end = OFF, words[0]

    def load(self, t):
        thread = self.threads[t]
        word = self.words[thread.object]
        thread.phase, thread.word = WANT, None
        if word[0] == WANTED:
            thread.due = "glance"
        elif word[:2] == (EXCLUSIVE, t) or not thread.writes and word[:2] == (READ_EXCLUSIVE, t):
            thread.phase = PASS
        elif word[0] == READ_SHARED and not thread.writes:
            thread.phase = PASS if thread.known >= word[1] else FENCE_DUE
        else:
            thread.word = word

    def exchange(self, t):
        """Claims, raises or shares the object by the word that was loaded, where that still stands."""
        thread = self.threads[t]
        word, thread.word = thread.word, None
        if self.words[thread.object] != word:
            thread.due = "glance"
        elif word[:2] == (READ_EXCLUSIVE, t):
            self.words[thread.object] = EXCLUSIVE, t
            thread.phase = PASS
        elif word[0] == READ_EXCLUSIVE and not thread.writes:
            self.words[thread.object] = WANTED, t
            self.note(t, "join", word[1], word[2])
            thread.phase = SHARING
        else:
            self.words[thread.object] = WANTED, t
            others = [u for u in range(len(self.threads)) if u != t]
            thread.left, thread.asked = others if word[0] == READ_SHARED else [word[1]], False
            thread.phase = CLAIMED

    def ask_or_settle(self, t):
        thread = self.threads[t]
        if not thread.left:
            self.words[thread.object] = (EXCLUSIVE, t) if thread.writes else (READ_EXCLUSIVE, t, len(thread.journal))
            thread.phase = PASS
            return
        other = thread.left[0]
        blocked, position, bits = self.status[other]
        if not thread.asked:
            self.status[other] = blocked, position, bits | {t}
        if blocked or thread.asked and t not in bits:
            self.note(t, "join", other, position)
            thread.left, thread.asked = thread.left[1:], False
        else:
            thread.asked, thread.due = True, "glance"

    def share(self, t):
        thread = self.threads[t]
        if thread.journal[-1][0] == "draw":
            self.words[thread.object] = READ_SHARED, thread.known
            thread.phase = PASS
        else:
            self.draws += 1
            self.note(t, "draw", self.draws)
            thread.known = self.draws

    def make_access(self, t):
        thread = self.threads[t]
        registers, words = thread.running.registers, thread.running.demand()
        thread.running.pass_by()
        if words[0] == "read":
            registers[words[1]] = self.cells[thread.object]
            self.note(t, "read", thread.object, self.cells[thread.object])
        else:
            make_write(self.cells, words, registers)
            self.note(t, words[0], thread.object)
        thread.phase = IDLE

    def said(self):
        lines = []
        for t, thread in enumerate(self.threads):
            values = [str(event[2]) for event in thread.journal if event[0] == "read"]
            lines.append(" ".join([f"thread {t} {thread.end}", *values]))
        return text(*lines, *[f"object {name} {value}" for name, value in self.cells.items()])

    def log(self):
        return log(*[gapped(thread.journal) for thread in self.threads])


def make_write(cells, words, registers):
    """A write gives an object the register's value, and a bump adds it to the object's."""
    before = cells[words[1]] if words[0] == "bump" else 0
    cells[words[1]] = (before + registers[words[2]]) % LIMIT


def gapped(journal):
    """A thread of a log: its accesses and then its marks with their gaps."""
    accesses = gap = 0
    marks = []
    for kind, *rest in journal:
        if kind in ACCESSES:
            accesses += 1
            gap += 1
        else:
            marks.append({"join": join, "draw": draw, "fence": fence}[kind](gap, *rest))
            gap = 0
    return accesses, *marks


def played(content, picks=""):
    """What is said, and the log: a turn for each digit of the picks, and then rounds of a turn each."""
    machine = Machine(content)
    for digit in picks:
        machine.turn(int(digit, 16) % len(machine.threads))
    while any(thread.end is None for thread in machine.threads):
        for t in range(len(machine.threads)):
            machine.turn(t)
    return machine.said(), machine.log()
