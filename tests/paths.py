"""A plain check by paths, beside the clocks of `octet verify`, over small scripts and logs.

Happens-before is built as a set of edges between events, and each pair of conflicting accesses is
looked for along them. Nothing here is fast, and nothing is shared with the program.

Many of the logs lie: a mark names fewer events than its thread has made by then, and the later ones
know more. Beside the check by paths stand checks by clocks: a right one, and wrong ones that such a
log deceives. `deceived` counts on how many logs each wrong one differs, so that a program with that
fault could not pass.
"""

import itertools
import random
from collections import Counter

from case import ACCESSES, draw, fence, join, log, script

READ, WRITE, BUMP = "read", "write", "bump"
JOIN, DRAW, FENCE = 1, 2, 3


def small_logs():
    """Small threads with marks: each is a list of accesses (kind, object) and of marks."""
    for kinds in itertools.product([READ, WRITE, BUMP], repeat=2):
        threads = [[(kind, "x")] for kind in kinds]
        for marks in itertools.product(one_mark_or_none(1), one_mark_or_none(0)):
            yield threads, marks
    dice = random.Random(2013)
    for _ in range(1500):
        yield with_gaps(some_journals(dice))
    for _ in range(300):
        for form in (past_a_join, past_a_draw, past_a_fence):
            yield with_gaps(form(dice))


def one_mark_or_none(other):
    yield []
    for gap in range(2):
        yield from ([join(gap, other, upto)] for upto in range(3))
        yield from ([kind(gap, number)] for kind in (draw, fence) for number in (1, 2))


def some_journals(dice):
    """Events of three threads, made one by one and each allowed: so the lowest order is lawful."""
    journals, draws = [[], [], []], 0
    for _ in range(dice.randint(4, 14)):
        thread = dice.randrange(3)
        other = dice.choice([u for u in range(3) if u != thread])
        kind = dice.choice([None, None, None, JOIN, JOIN, DRAW, FENCE])
        if kind is None:
            journals[thread].append((dice.choice([READ, WRITE, BUMP]), dice.choice("xy")))
        elif kind == JOIN:
            journals[thread].append(join(0, other, dice.randint(0, len(journals[other]))))
        elif kind == DRAW:
            draws += 1
            journals[thread].append(draw(0, draws))
        elif draws > 0:
            journals[thread].append(fence(0, dice.randint(1, draws)))
    return journals


def filler(dice):
    return [(READ, "y")] * dice.randint(0, 2)


def journals_of(dice, first, between, last):
    """A write of x, and what leads from it to a last access of x, which is thread 2's."""
    journals = [first, between] if dice.random() < 0.7 else [between, first]
    return [*journals, [*last, *filler(dice), (dice.choice([READ, WRITE, BUMP]), "x")]]


def past_a_join(dice):
    """Thread 2 joins a thread that joined the write, up to before that Join or after it."""
    writes = [*filler(dice), (WRITE, "x")]
    upto = len(writes)
    before, after = filler(dice), filler(dice)
    journals = journals_of(dice, [*writes, *filler(dice)], [*before, None, *after], filler(dice))
    writer, joiner = (0, 1) if None in journals[1] else (1, 0)
    journals[joiner][len(before)] = join(0, writer, upto)
    journals[2].insert(0, join(0, joiner, dice.randint(0, len(journals[joiner]))))
    return journals


def past_a_draw(dice):
    """Thread 2 comes after the draw of a thread that joined the write before that draw, or after it."""
    writes = [*filler(dice), (WRITE, "x")]
    marks = dice.sample(["join", "draw"], 2)
    between = [*filler(dice), marks[0], *filler(dice), marks[1], *filler(dice)]
    journals = journals_of(dice, writes, between, [dice.choice([fence(0, 1), draw(0, 2)])])
    writer, joiner = (0, 1) if "join" in journals[1] else (1, 0)
    marked = {"join": join(0, writer, len(writes)), "draw": draw(0, 1)}
    journals[joiner] = [event if isinstance(event, tuple) else marked[event] for event in journals[joiner]]
    return journals


def past_a_fence(dice):
    """Two threads draw, the writer after its write; thread 2 fences one of the draws, or all."""
    numbers = [1, 2, 3][: dice.randint(2, 3)]
    own = dice.choice(numbers)
    first = [*filler(dice), (WRITE, "x"), *filler(dice), draw(0, own), *filler(dice)]
    between = []
    for number in numbers:
        if number != own:
            between += [*filler(dice), draw(0, number)]
    return journals_of(dice, first, between, [fence(0, dice.choice(numbers))])


def with_gaps(journals):
    """The accesses of each thread, and its marks with their gaps."""
    threads, marks = [], []
    for events in journals:
        threads.append([event for event in events if event[0] in ACCESSES])
        marks.append([])
        gap = 0
        for event in events:
            if event[0] in ACCESSES:
                gap += 1
            else:
                marks[-1].append((event[0], gap, *event[2:]))
                gap = 0
    return threads, marks


def journal(accesses, marks):
    """The events of a thread: each mark stands after its gap of accesses."""
    events, at = [], 0
    for mark in marks:
        events += accesses[at : at + mark[1]] + [mark]
        at += mark[1]
    return events + accesses[at:]


def lowest_order(journals):
    """The places of events, where always the lowest thread steps that may, until none may."""
    made, draws, order = [0] * len(journals), 0, []
    while True:
        for thread, events in enumerate(journals):
            if made[thread] < len(events) and may_step(events[made[thread]], made, draws):
                draws += events[made[thread]][0] == DRAW
                order.append((thread, made[thread]))
                made[thread] += 1
                break
        else:
            return order, made


def may_step(event, made, draws):
    kind = event[0]
    if kind == JOIN:
        return made[event[2]] >= event[3]
    if kind == DRAW:
        return draws == event[3] - 1
    return kind != FENCE or draws >= event[3]


def is_edge(journals, a, b):
    (thread, i), (other, j) = a, b
    before, event = journals[thread][i], journals[other][j]
    if thread == other:
        return j == i + 1
    if event[0] == JOIN:
        return event[2] == thread and i < event[3]
    if before[0] != DRAW:
        return False
    return event[0] == DRAW and before[3] < event[3] or event[0] == FENCE and before[3] <= event[3]


def reached_from(journals, start, places):
    """The places to which a path leads from this one."""
    reached, todo = set(), [start]
    while todo:
        here = todo.pop()
        for there in places:
            if there not in reached and is_edge(journals, here, there):
                reached.add(there)
                todo.append(there)
    return reached


def conflict(journals, a, b):
    one, other = journals[a[0]][a[1]], journals[b[0]][b[1]]
    kinds = {one[0], other[0]}
    return a[0] != b[0] and kinds <= ACCESSES and kinds != {READ} and one[1] == other[1]


def first_unordered(journals, order, is_before):
    """The pair that `verify` names, or None where all conflicting accesses are ordered."""
    for at, second in enumerate(order):
        earlier = [first for first in order[:at] if conflict(journals, first, second)]
        missed = [first[0] for first in earlier if not is_before(first, second)]
        if missed:
            return max(first for first in earlier if first[0] == min(missed)), second
    return None


def by_paths(journals, order):
    reached = {place: reached_from(journals, place, order) for place in order}
    return first_unordered(journals, order, lambda first, second: second in reached[first])


def by_clocks(journals, order, sources):
    """The same by vector clocks. `sources` gives the clocks that a mark takes in."""
    made, now, at = [0] * len(journals), [[0] * len(journals) for _ in journals], {}
    for thread, event in order:
        clock = list(now[thread])
        for source in sources(journals, thread, event, made, now, at):
            clock = [max(pair) for pair in zip(clock, source)]
        made[thread] += 1
        clock[thread] = made[thread]
        now[thread] = at[thread, event] = clock
    return first_unordered(journals, order, lambda first, second: at[second][first[0]] > first[1])


def draws_made(journals, at):
    """Each draw so far: its thread, its number and its clock."""
    marks = ((place, journals[place[0]][place[1]]) for place in at)
    return [(place[0], event[3], at[place]) for place, event in marks if event[0] == DRAW]


def right(journals, thread, event, made, now, at):
    """A Join takes in the clock of the last event that it names; Draw and Fence those of the draws."""
    mark = journals[thread][event]
    if mark[0] == JOIN:
        return [at[mark[2], mark[3] - 1]] if mark[3] > 0 else []
    if mark[0] in (DRAW, FENCE):
        return [clock for _, number, clock in draws_made(journals, at) if number <= mark[3]]
    return []


def joins_what_is_known_by_now(journals, thread, event, made, now, at):
    mark = journals[thread][event]
    if mark[0] == JOIN:
        return [now[mark[2]]]
    return right(journals, thread, event, made, now, at)


def joins_what_is_known_by_now_of_its_own_events(journals, thread, event, made, now, at):
    mark = journals[thread][event]
    if mark[0] == JOIN:
        known = list(now[mark[2]])
        known[mark[2]] = mark[3]
        return [known]
    return right(journals, thread, event, made, now, at)


def draws_and_fences_take_what_drawers_know_by_now(journals, thread, event, made, now, at):
    mark = journals[thread][event]
    if mark[0] in (DRAW, FENCE):
        return [now[drawer] for drawer, number, _ in draws_made(journals, at) if number <= mark[3]]
    return right(journals, thread, event, made, now, at)


def fences_take_all_draws(journals, thread, event, made, now, at):
    if journals[thread][event][0] == FENCE:
        return [clock for _, _, clock in draws_made(journals, at)]
    return right(journals, thread, event, made, now, at)


def fences_leave_out_their_own_draw(journals, thread, event, made, now, at):
    mark = journals[thread][event]
    if mark[0] == FENCE:
        return [clock for _, number, clock in draws_made(journals, at) if number < mark[3]]
    return right(journals, thread, event, made, now, at)


def draws_take_nothing(journals, thread, event, made, now, at):
    if journals[thread][event][0] == DRAW:
        return []
    return right(journals, thread, event, made, now, at)


def joins_take_no_more_than_events(journals, thread, event, made, now, at):
    mark = journals[thread][event]
    if mark[0] == JOIN:
        return [[mark[3] if u == mark[2] else 0 for u in range(len(journals))]]
    return right(journals, thread, event, made, now, at)


WRONG = [
    joins_what_is_known_by_now, joins_what_is_known_by_now_of_its_own_events, joins_take_no_more_than_events,
    draws_and_fences_take_what_drawers_know_by_now, fences_take_all_draws, fences_leave_out_their_own_draw,
    draws_take_nothing,
]  # fmt: skip


def script_of(threads):
    lines = ["object x 1", "object y 2"]
    for accesses in threads:
        lines += ["thread"] + [f"read r0 {name}" if kind == READ else f"{kind} {name} r0" for kind, name in accesses]
    return script(" / ".join(lines))


def problem(verify):
    """What is wrong with a `verify` of a script and a log (a status and what is said), or None.

    A wrong checker has to differ from the check by paths on some dozens of the logs: else the logs
    say little.
    """
    seen, deceived = Counter(), Counter()
    for threads, marks in small_logs():
        journals = [journal(*each) for each in zip(threads, marks)]
        order, made = lowest_order(journals)
        if made != [len(events) for events in journals]:
            said, status = "fit: stuck at " + " ".join(map(str, made)) + "\n", 4
        else:
            pair = by_paths(journals, order)
            if by_clocks(journals, order, right) != pair:
                return f"{threads} with {marks}: the plain checks by paths and by clocks differ"
            deceived.update(wrong.__name__ for wrong in WRONG if by_clocks(journals, order, wrong) != pair)
            said, status = "ordered\n", 0
            if pair is not None:
                (thread, event), (other, at) = pair
                said, status = f"unordered {thread}:{event} {other}:{at}\n", 9
        seen[status] += 1
        content = log(*[(len(accesses), *each) for accesses, each in zip(threads, marks)])
        found = verify(script_of(threads), content)
        if found != (status, said.encode()):
            return f"{threads} with {marks}: {found}, not {(status, said)}"
    if min(seen[status] for status in (0, 4, 9)) < 100:
        return f"too few logs of a kind: {seen}"
    if min(deceived[wrong.__name__] for wrong in WRONG) < 25:
        return f"a wrong checker would hardly be caught: {deceived}"
    return None
