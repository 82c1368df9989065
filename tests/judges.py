"""What the program owes to any script and any log, judged plainly by docs/FORMATS.md.

Each judge gives a status and what is said. Beside them stand scripts and logs that were spoiled a
little: each keeps most of its form, so that it comes far before something is wrong with it.
"""

import re
from hashlib import sha256
from typing import NamedTuple

import paths
import serial
from case import ACCESSES, draw, fence, join, log, piece, second, tail, text
from machine import Running, make_write, read_script

# A command's arguments: R a register, N a number, O an object, and D a name that is declared.
ARGUMENTS = {
    "fuel": "N", "object": "DN", "thread": "", "set": "RN", "copy": "RR", "add": "RRR", "sub": "RRR", "mul": "RRR",
    "xor": "RRR", "less": "RRR", "same": "RRR", "read": "RO", "write": "OR", "bump": "OR", "while": "R", "if": "R", "end": "",
    "safe": "", "pause": "", "region": "",
}  # fmt: skip
REFUSALS = [
    "not UTF-8", "unknown word", "wrong count of words", "bad number", "bad name", "name given twice", "no such object",
    "bad register", "misplaced", "unclosed", "end without open", "too many", "no thread", "bad fuel",
]  # fmt: skip


def is_number(word):
    return re.fullmatch("[0-9]{1,20}", word) and int(word) < 2**64


def refusal_of_argument(kind, word, objects):
    if kind == "R":
        return None if re.fullmatch("r([0-9]|1[0-5])", word) else 8
    if kind == "N":
        return None if is_number(word) else 4
    if kind == "O":
        return None if word in objects else 7
    if not re.fullmatch("[A-Za-z_][A-Za-z0-9_]{0,31}", word):
        return 5
    return 6 if word in objects else None


def refusal_of_script(content):
    """The line and the number of the first refusal, or None."""
    try:
        lines = content.decode().split("\n")
    except UnicodeDecodeError as fault:
        return content[: fault.start].count(b"\n") + 1, 1
    objects, threads, fuel, still_open = set(), 0, None, []
    for number, line in enumerate(lines, 1):
        words = [word for word in re.split("[ \t\r]+", line.split("#")[0]) if word]
        if not words:
            continue
        first, arguments = words[0], words[1:]
        if first not in ARGUMENTS:
            return number, 2
        if len(arguments) != len(ARGUMENTS[first]):
            return number, 3
        if first != "thread" and (first in ("fuel", "object")) == (threads > 0):
            return number, 9
        for kind, word in zip(ARGUMENTS[first], arguments):
            refusal = refusal_of_argument(kind, word, objects)
            if refusal is not None:
                return number, refusal
        if first == "object":
            if len(objects) == 1024:
                return number, 12
            objects.add(arguments[0])
        elif first == "fuel":
            if fuel is not None or not 1 <= int(arguments[0]) <= 262_144:
                return number, 14
            fuel = int(arguments[0])
        elif first in ("while", "if"):
            still_open.append(number)
        elif first == "end":
            if not still_open:
                return number, 11
            still_open.pop()
        elif first == "thread":
            if still_open:
                return still_open[-1], 10
            if threads == 16:
                return number, 12
            threads += 1
            if threads * (fuel or 16_384) > 262_144:
                return number, 14
    if still_open:
        return still_open[-1], 10
    return None if threads else (len(lines), 13)


def tidied(content):
    """What `tidy` owes."""
    refusal = refusal_of_script(content)
    if refusal is not None:
        line, number = refusal
        return 2, text(f"script: line {line}: {number} {REFUSALS[number - 1]}")
    fuel, objects, threads = read_script(content)
    lines = [f"fuel {fuel}", *[f"object {name} {value}" for name, value in objects.items()]]
    for commands in threads:
        lines.append("thread")
        lines += [" ".join([*words[:-1], str(int(words[-1]))] if words[0] == "set" else words) for words in commands]
    return 0, text(*lines)


class Cut(Exception):
    """A field goes past the end."""


def read_log(content):
    """The threads of a log, each its accesses and its marks; or the line that refuses it."""
    if content[:4] != b"OCTL":
        return "1 no magic"
    at = 4

    def field(size):
        nonlocal at
        if at + size > len(content):
            raise Cut
        at += size
        return content[at - size : at]

    def number(size):
        return int.from_bytes(field(size), "big")

    try:
        version = number(1)
        if version == 2:
            return read_second(content)
        if version != 1:
            return "2 bad version"
        count = number(1)
        if not 1 <= count <= 16:
            return "3 bad threads"
        threads, sum_so_far = [], 0
        for thread in range(count):
            accesses = number(4)
            sum_so_far += accesses
            if sum_so_far > 262_144:
                return "6 too many accesses"
            marks, left = [], accesses
            for _ in range(number(4)):
                place, whole = at, field(14)
                mark = whole[0], int.from_bytes(whole[1:5], "big"), whole[5], int.from_bytes(whole[6:], "big")
                left -= mark[1]
                if not is_mark(mark, thread, count) or left < 0:
                    return f"5 bad mark at {place}"
                marks.append(mark)
            threads.append((accesses, marks))
    except Cut:
        return f"4 cut short at {len(content)}"
    return threads if at == len(content) else f"7 trailing at {at}"


class Refused(Exception):
    """The line that refuses a log."""


class Second:
    """A log of version 2, read field by field."""

    def __init__(self, content):
        self.content, self.at = content, 5

    def byte(self):
        if self.at == len(self.content):
            raise Cut
        self.at += 1
        return self.content[self.at - 1]

    def short(self):
        """A number in groups of 7 bits, the lowest first, in its one spelling."""
        place, number = self.at, 0
        for group in range(10):
            byte = self.byte()
            number += byte % 128 * 128**group
            if byte < 128:
                if (group > 0 and byte == 0) or number >= 2**64:
                    raise Refused(f"8 bad number at {place}")
                return number
        raise Refused(f"8 bad number at {place}")

    def mark(self, thread, count):
        bad = Refused(f"5 bad mark at {self.at}")
        kind, other = self.byte(), 0
        if not 1 <= kind <= 3:
            raise bad
        gap = self.short()
        if gap > 262_144:
            raise bad
        if kind == paths.JOIN:
            other = self.byte()
            if other >= count or other == thread:
                raise bad
        number = self.short()
        if kind != paths.JOIN and number == 0:
            raise bad
        return kind, gap, other, number

    def threads(self):
        count = self.byte()
        if not 1 <= count <= 16:
            raise Refused("3 bad threads")
        for _ in range(32):
            self.byte()
        marks, many = [[] for _ in range(count)], 0
        while (thread := self.byte()) != 0xFF:
            bad = Refused(f"9 bad piece at {self.at - 1}")
            if thread >= count:
                raise bad
            size = self.short()
            many += size
            if size == 0:
                raise bad
            if many > 4_793_490:
                raise Refused("11 too many marks")
            marks[thread] += [self.mark(thread, count) for _ in range(size)]
        accesses = []
        for thread in range(count):
            accesses.append(self.short())
            if sum(accesses) > 262_144:
                raise Refused("6 too many accesses")
            if sum(gap for _, gap, _, _ in marks[thread]) > accesses[-1]:
                raise Refused(f"10 gaps over accesses of thread {thread}")
        if self.at < len(self.content):
            raise Refused(f"7 trailing at {self.at}")
        return list(zip(accesses, marks))


def read_second(content):
    try:
        return Second(content).threads()
    except Cut:
        return f"4 cut short at {len(content)}"
    except Refused as refusal:
        return str(refusal)


def another_script(content, log_content):
    """What `replay`, `verify` and `convert` owe where a good log has the digest of another script; else None."""
    own = sha256(content).digest()
    if log_content[4] == 1 or log_content[6:38] == own:
        return None
    return 4, text(f"fit: digest {own.hex()} of the script, {log_content[6:38].hex()} of the log")


def converted(content, log_content):
    """What `convert` owes to a script that is whole and good: status, what is said, and the file."""
    logs = read_log(log_content)
    if isinstance(logs, str):
        return 3, text(f"log: {logs}"), None
    if (other := another_script(content, log_content)) is not None:
        return *other, None
    _, _, commands = read_script(content)
    if len(commands) != len(logs):
        return 4, text(f"fit: threads {len(commands)} in the script, {len(logs)} in the log"), None
    return 0, text("converted"), second(content, *[(accesses, *marks) for accesses, marks in logs])


def in_pieces(dice, content, log_content):
    """A good log in version 2, with the digest of the script, its marks in pieces as they come."""
    logs = read_log(log_content)
    out = second(content, *[(0,)] * len(logs))[:38]
    left = [list(marks) for _, marks in logs]
    while any(left):
        thread = dice.choice([thread for thread, marks in enumerate(left) if marks])
        size = dice.randint(1, len(left[thread]))
        out += piece(thread, *left[thread][:size])
        del left[thread][:size]
    return out + tail(*[accesses for accesses, _ in logs])


def is_mark(mark, thread, count):
    kind, _, other, number = mark
    if kind == paths.JOIN:
        return other < count and other != thread
    return kind in (paths.DRAW, paths.FENCE) and other == 0 and number > 0


def shown(content):
    """What `show` owes."""
    threads = read_log(content)
    if isinstance(threads, str):
        return 3, text(f"log: {threads}")
    lines = [f"threads {len(threads)}"]
    for thread, (accesses, marks) in enumerate(threads):
        lines.append(f"thread {thread} accesses {accesses} marks {len(marks)}")
        for kind, gap, other, number in marks:
            lines.append(f"gap {gap} " + {1: f"join {other}", 2: "draw", 3: "fence"}[kind] + f" {number}")
    return 0, text(*lines)


MARK_WORDS = {paths.JOIN: "join", paths.DRAW: "draw", paths.FENCE: "fence"}


def command_lines(content):
    """Of each thread the lines of its commands, counted from 1."""
    threads = []
    for number, line in enumerate(content.decode().split("\n"), 1):
        words = line.split("#")[0].split()
        if words == ["thread"]:
            threads.append([])
        elif words and threads:
            threads[-1].append(number)
    return threads


class Placed(Running):
    """A run that keeps the places of its `region` commands."""

    def __init__(self, commands, fuel):
        super().__init__(commands, fuel)
        self.begun = []

    def after(self, words):
        if words == ["region"]:
            self.begun.append(self.place)
        return super().after(words)


class Replayed:
    """One thread of a replay: its script's run, what is left of its log, and its events in words, each with its line."""

    def __init__(self, commands, lines, fuel, thread_log):
        self.running, self.lines = Placed(commands, fuel), lines
        self.wanted, self.marks = thread_log[0], list(thread_log[1])
        self.made = self.gap = 0
        self.journal, self.told, self.reads, self.region = [], [], [], 0
        # Before each event the regions that began since the last one, each a number and a line; and of each access its line.
        self.regions_told, self.line_told = [], []

    def demand(self):
        while (words := self.running.demand())[0] in ("safe", "pause"):
            self.running.pass_by()
        return words

    def is_access(self):
        return self.demand()[0] in ACCESSES

    def next_event(self):
        """The next mark, or access (kind, object); None where there is none."""
        if self.marks and self.gap == self.marks[0][1]:
            return self.marks[0]
        if self.made < self.wanted and self.is_access():
            words = self.demand()
            return words[0], words[2] if words[0] == "read" else words[1]
        return None

    def step(self, heap):
        event = self.next_event()
        self.demand()
        known = sum(map(len, self.regions_told))
        self.regions_told.append([(n + 1, self.lines[self.running.begun[n]]) for n in range(known, len(self.running.begun))])
        self.line_told.append(f" line {self.lines[self.running.place]}" if event[0] in ACCESSES else "")
        self.journal.append(event)
        if event[0] not in ACCESSES:
            self.marks.pop(0)
            self.gap = 0
            self.told.append([MARK_WORDS[event[0]], *(event[2:] if event[0] == paths.JOIN else event[3:])])
            return
        words, self.region = self.demand(), self.running.regions
        kind, name = event
        before = heap[name]
        if kind == "read":
            self.running.registers[words[1]] = before
            self.reads.append(before)
        else:
            make_write(heap, words, self.running.registers)
        self.told.append(["update", name, before, heap[name]] if kind == "bump" else [kind, name, heap[name]])
        self.running.pass_by()
        self.made += 1
        self.gap += 1

    def found(self):
        """How many accesses are found, where the thread does not fit its log; else None."""
        if not self.is_access():
            return self.made if self.made < self.wanted else None
        return self.made + 1 if self.made == self.wanted and not self.marks else None

    def is_through(self):
        return not self.is_access() and self.made == self.wanted and not self.marks


class Replay:
    """The lowest order of a script and a log with as many threads."""

    def __init__(self, content, logs):
        fuel, self.heap, commands = read_script(content)
        self.threads = [Replayed(*each, fuel, its_log) for *each, its_log in zip(commands, command_lines(content), logs)]
        # The places of its events, and the accesses with their regions.
        self.order, self.accesses = [], []
        draws = 0
        while (lowest := lowest_thread(self.threads, draws)) is not None:
            thread = self.threads[lowest]
            event = thread.next_event()
            draws += event[0] == paths.DRAW
            self.order.append((lowest, len(thread.journal)))
            thread.step(self.heap)
            if event[0] in ACCESSES:
                self.accesses.append(((lowest, thread.region), event))

    def journals(self):
        return [thread.journal for thread in self.threads]

    def event_text(self, thread, event):
        return f"{thread}:{event} " + " ".join(map(str, self.threads[thread].told[event]))

    def trace(self):
        """Each event, an access with its line, and before it the regions that its thread began."""
        lines = []
        for thread, event in self.order:
            its = self.threads[thread]
            lines += [f"{thread}:{event} region {number} line {line}" for number, line in its.regions_told[event]]
            lines.append(self.event_text(thread, event) + its.line_told[event])
        return text(*lines)

    def misfit(self):
        """Why the order does not fit, or None."""
        for number, thread in enumerate(self.threads):
            if thread.found() is not None:
                return text(f"fit: thread {number} wants {thread.wanted} accesses, found {thread.found()}")
        if not all(thread.is_through() for thread in self.threads):
            return text("fit: stuck at " + " ".join(str(len(thread.journal)) for thread in self.threads))
        return None

    def outcome(self):
        lines = [
            " ".join([f"thread {number} {thread.demand()[0]}", *map(str, thread.reads)])
            for number, thread in enumerate(self.threads)
        ]
        return text(*lines, *[f"object {name} {value}" for name, value in self.heap.items()])


class Answers(NamedTuple):
    """What the commands that replay a log owe: each a status and what is said."""

    replay: tuple
    verify: tuple
    parallel: tuple
    regions: tuple
    trace: tuple


def unreplayed(content, log_content):
    """What all commands that replay a log owe where no order is taken, the script being whole and good; else None."""
    logs = read_log(log_content)
    if isinstance(logs, str):
        return 3, text(f"log: {logs}")
    if (other := another_script(content, log_content)) is not None:
        return other
    _, _, commands = read_script(content)
    if len(commands) != len(logs):
        return 4, text(f"fit: threads {len(commands)} in the script, {len(logs)} in the log")
    return None


def replayed(content, log_content):
    """What is owed to a script that is whole and good and any log."""
    if (refused := unreplayed(content, log_content)) is not None:
        return Answers(*[refused] * 5)
    replay = Replay(content, read_log(log_content))
    events = replay.trace()
    if (line := replay.misfit()) is not None:
        return Answers(*[(4, line)] * 4, (4, events + line))
    done, trace = (0, replay.outcome()), (0, events)
    pair = paths.by_paths(replay.journals(), replay.order)
    if pair is not None:
        (thread, event), (other, at) = pair
        unordered = 9, text(f"unordered {thread}:{event} {other}:{at}")
        return Answers(done, unordered, unordered, unordered, trace)
    regions, hops = serial.found(replay.accesses)
    lines = text(*serial.lines(regions, hops))
    return Answers(done, (0, text("ordered")), done, (0, lines + done[1]) if hops is None else (10, lines), trace)


def is_faithful(content, log_content, said):
    """Whether by a plain replay the log gives what was said, and orders all conflicts."""
    answers = replayed(content, log_content)
    return answers.replay == (0, said) and answers.verify == (0, text("ordered"))


def lowest_thread(threads, draws):
    made = [len(thread.journal) for thread in threads]
    for number, thread in enumerate(threads):
        event = thread.next_event()
        if event is not None and paths.may_step(event, made, draws):
            return number
    return None


WORDS = [
    "r0", "r15", "r16", "r01", "r", "x", "y", "z", "X", "0", "007", "1", "-1", "18446744073709551615",
    "18446744073709551616", "000000000000000000001", "fuel", "object", "thread", "set", "read", "write", "bump", "while", "if",
    "end", "safe", "pause", "region", "add", "jump", "#", "\u00fc", "x\u000b", "\ufeffthread", "n" * 32, "n" * 33,
]  # fmt: skip


def spoiled_script(dice, content):
    """A script with some of its words or bytes changed."""
    for _ in range(dice.randint(0, 3)):
        lines = [line.split(b" ") for line in content.split(b"\n")]
        line = dice.choice(lines)
        kind = dice.randrange(7)
        if kind == 0:
            line[dice.randrange(len(line))] = dice.choice(WORDS).encode()
        elif kind == 1:
            line.insert(dice.randint(0, len(line)), dice.choice(WORDS).encode())
        elif kind == 2:
            line.pop(dice.randrange(len(line)))
        elif kind == 3:
            lines.insert(dice.randrange(len(lines)), line)
        elif kind == 4:
            lines.remove(line)
        elif kind == 5:
            lines.insert(dice.randrange(len(lines)), [dice.choice(WORDS).encode() for _ in range(dice.randint(1, 4))])
        content = b"\n".join(dice.choice([b" ", b"  ", b"\t", b" \r"]).join(words) for words in lines)
        if kind == 6:
            at = dice.randrange(len(content) + 1)
            content = content[:at] + bytes([dice.choice([0, 9, 10, 13, 32, 35, 0x80, 0xC3, 0xFF])]) + content[at + 1 :]
    return content[: dice.randrange(len(content) + 1)] if dice.random() < 0.1 else content


def spoiled_bytes(dice, content):
    """A log with some of its bytes changed."""
    content = bytearray(content)
    for _ in range(dice.randint(1, 2)):
        at = dice.randrange(len(content))
        content[at] = dice.choice([0, 1, 2, 3, 4, 15, 16, 17, 255, content[at] ^ 1])
    if dice.random() < 0.2:
        del content[dice.randrange(len(content)) :]
    return bytes(content) + b"\0" * (dice.random() < 0.1)


def spoiled_log(dice, content):
    """A log of the same format that says other things: it may fit no longer, or lie."""
    threads = read_log(content)
    for _ in range(dice.randint(0, 3)):
        thread = dice.randrange(len(threads))
        accesses, marks = threads[thread]
        kind = dice.choice([0, 0, 0, 0, 0, 0, 1, 1, 2, 3, 4])
        if kind == 0 and marks:
            marks.pop(dice.randrange(len(marks)))
        elif kind == 1 and marks:
            at = dice.randrange(len(marks))
            least = 0 if marks[at][0] == paths.JOIN else 1
            marks[at] = (*marks[at][:3], max(least, marks[at][3] + dice.choice([-2, -1, 1, 2, 2**40])))
        elif kind == 2:
            accesses += dice.choice([-1, 1])
        elif kind == 3 and len(threads) > 1:
            others = [u for u in range(len(threads)) if u != thread]
            mark = dice.choice([join(0, dice.choice(others), dice.randint(0, 4)), draw(0, 1), fence(0, 1)])
            marks.insert(dice.randint(0, len(marks)), mark)
        elif kind == 4 and dice.random() < 0.3:
            threads.append((0, []))
            continue
        if sum(mark[1] for mark in marks) <= accesses:
            threads[thread] = accesses, marks
    return log(*[(accesses, *marks) for accesses, marks in threads[:16]])
