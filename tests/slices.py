"""What `slice`, `stop` and `trace` owe to small scripts and logs, by a plain replay and a plain search along edges.

A past is searched for backwards from its event, over all edges, and nothing of the log is left out
of the replay. Beside that, what is said of one event is a line of the trace, but for the script's line.
"""

import random
from collections import Counter

import judges
import paths
import turns
from case import log, text

KINDS = [b"read", b"write", b"update", b"join", b"draw", b"fence", b"region"]


def past_of(journals, order, place):
    """The places from which a path leads to this one, and itself."""
    past, todo = {place}, [place]
    while todo:
        here = todo.pop()
        for before in order:
            if before not in past and paths.is_edge(journals, before, here):
                past.add(before)
                todo.append(before)
    return past


def sliced(replay, thread, event):
    """What `slice` owes to a log that orders all conflicts."""
    if thread >= len(replay.threads):
        return 11, text(f"slice: threads {len(replay.threads)}")
    journals = replay.journals()
    if event >= len(journals[thread]):
        return 11, text(f"slice: events {len(journals[thread])}")
    past = past_of(journals, replay.order, (thread, event))
    return 0, text(f"slice {replay.event_text(thread, event)}", f"events {len(past)} of {len(replay.order)}")


def stopped(replay, name, number):
    """What `stop` owes to a log that fits."""
    for thread, event in replay.order:
        told = replay.threads[thread].told[event]
        if told[0] in ("read", "write", "update") and told[1] == name and told[-1] == number:
            return 0, text(f"stop {replay.event_text(thread, event)}")
    return 0, text("no stop")


def questions(dice, content, log_content):
    """Some calls on a script and a log: the words, the status and what is said."""
    answers = judges.replayed(content, log_content)
    yield ["trace", "S", "L"], *answers.trace
    replay = None if answers.replay[0] else judges.Replay(content, judges.read_log(log_content))
    for _ in range(4):
        at_random = replay is None or not replay.order or dice.random() < 0.1
        thread, event = (dice.randrange(6), dice.randrange(9)) if at_random else dice.choice(replay.order)
        wanted = answers.verify if answers.verify[0] else sliced(replay, thread, event)
        yield ["slice", "S", "L", str(thread), str(event)], *wanted
        name, number = dice.choice("xy"), dice.choice([0, 1, 2, 3, 5, 9, 2**64 - 1])
        wanted = answers.replay if replay is None else stopped(replay, name, number)
        yield ["stop", "S", "L", name, str(number)], *wanted


def small_pairs(dice):
    """Scripts and logs: of runs, also spoiled ones, and of threads with marks of all kinds."""
    for content, _, _, recorded in turns.random_runs(300):
        yield content, recorded
        yield content, judges.spoiled_log(dice, recorded)
    for _ in range(120):
        for form in [paths.some_journals, paths.past_a_join, paths.past_a_draw, paths.past_a_fence]:
            threads, marks = paths.with_gaps(form(dice))
            yield paths.script_of(threads), log(*[(len(accesses), *each) for accesses, each in zip(threads, marks)])


def told_apart(said, trace):
    """The event that `slice` or `stop` tells, where it is no line of what `trace` says; else None."""
    words, *event = said.split(b"\n")[0].split(b" ", 1)
    if words in (b"slice", b"stop") and event[0] not in [line.split(b" line ")[0] for line in trace.split(b"\n")]:
        return event[0]
    return None


def problem(answered):
    """What is wrong with the answers to a script, a log and words (a status and what is said), or None."""
    dice, seen, told = random.Random(1213), Counter(), Counter()
    for content, log_content in small_pairs(dice):
        trace = b""
        for words, *wanted in questions(dice, content, log_content):
            status, said = wanted
            if words[0] == "trace":
                trace = said
                told.update(line.split()[1] for line in said.split(b"\n")[:-1] if line[:1].isdigit())
            seen[words[0], status, said.split()[0] if words[0] != "trace" else b""] += 1
            found = answered(content, log_content, words)
            if found != (status, said):
                return f"{words} of {content} and {log_content.hex()}: {found}, not {wanted}"
            if status == 0 and (event := told_apart(found[1], trace)) is not None:
                return f"{words} of {content} and {log_content.hex()}: {event} is no line of the trace"
    kinds = [("slice", 0, b"slice"), ("slice", 4, b"fit:"), ("slice", 9, b"unordered"), ("slice", 11, b"slice:")]
    kinds += [("stop", 0, b"stop"), ("stop", 0, b"no"), ("stop", 4, b"fit:"), ("trace", 0, b""), ("trace", 4, b"")]
    if min(seen[kind] for kind in kinds) < 25 or min(told[kind] for kind in KINDS) < 25:
        return f"too few of a kind: {seen}, {told}"
    return None
