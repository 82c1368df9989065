"""What `tools/diagram` frames, of logs of any length, and what it explains."""

import re

from case import text
from cases import BANK, EARLY_UNMARKED, HANDOVER, LOST_LOG, SHARED, SHARED_LOG
from files import OCTET, TOP, called, differs, first, folder_with, octet

DIAGRAM = TOP / "tools" / "diagram"
RECT = re.compile(r'<rect x="(\d+)" y="(\d+)" width="(\d+)" height="(\d+)" rx="8"')
TEXT = re.compile(r'<text x="(\d+)" y="(\d+)" fill="([^"]*)" font-size="(\d+)" text-anchor="(\w+)"[^>]*>([^<]*)</text>')
RED, GREY = "#dc2626", "#6b7280"
BOTH, ARROWS = "filled: an access; hollow: a mark", "grey arrow: its head comes after its tail"
NO_PAIR = "the log orders all conflicts, so there is no pair to frame"
# Each thread has an object of its own for long; in between each is in the other's region.
LONG = text(
    "object balance 100", "object a 0", "object b 0",
    *(
        line
        for name in "ab"
        for line in ["thread", "set r1 1", "set r2 150", "while r2", f"bump {name} r1", "safe", "sub r2 r2 r1", "end"]
        + ["region", "read r0 balance", *["safe"] * 8, "add r0 r0 r1", "write balance r0"]
        + ["region", "set r2 150", "while r2", f"bump {name} r1", "safe", "sub r2 r2 r1", "end"]
    ),
)  # fmt: skip


def diagram(folder, *words):
    status, said, *errors = called([DIAGRAM, "--octet", OCTET, *words], folder)
    return status, said.decode(), b"".join(errors).decode()


def legend(picture):
    """What is explained below the picture."""
    return [words for _, _, colour, size, _, words in TEXT.findall(picture) if colour == GREY and size == "10" and ": " in words]


def labels_problem(picture, labels):
    """Whether each label stands inside its frame, after all names that stand there in its row."""
    frames = [tuple(map(int, found)) for found in RECT.findall(picture)]
    texts = [(int(x), int(y), colour, int(size), anchor, words) for x, y, colour, size, anchor, words in TEXT.findall(picture)]
    told = [each for each in texts if each[2] == RED]
    for (x, y, width, height), (at, row, *_, label) in zip(frames, told):
        left = at - 6.1 * len(label)
        row_of = [(one, words) for one, line, _, _, anchor, words in texts if anchor == "start" and line == row]
        beside = [one + 7.3 * len(words) for one, words in row_of if x < one < x + width]
        if not (x < left and at < x + width and y < row - 8 and row < y + height) or any(end > left for end in beside):
            return f"{label} at {at}, {row} and its frame {x}, {y}, {width}, {height}"
    return differs("the labels", [words for *_, words in told], labels)


def a_cycle():
    with folder_with(S=BANK, L=LOST_LOG) as folder:
        status, picture, _ = diagram(folder, "S", "L", "--regions")
        return first(
            differs("status", status, 0),
            labels_problem(picture, ["region 1:1", "region 0:1"]),
            differs(
                "the legend",
                legend(picture),
                [BOTH, ARROWS, "red: conflicts that close the cycle of regions"],
            ),
        )


def a_cycle_of_a_long_log():
    """Of a log that is too long for a picture, what stands round the cycle is drawn, and what is left out is told."""
    with folder_with(S=LONG) as folder:
        octet(["turns", "S", "L", "1"], folder)
        status, said = octet(["regions", "S", "L"], folder)
        if status != 10:
            return "these picks lead to no cycle"
        hops = [line.split()[1:] for line in said.decode().split("\n")[1:-1]]
        events = octet(["trace", "S", "L"], folder)[1].count(b"\n")
        status, picture, errors = diagram(folder, "S", "L", "--regions")
        whole = diagram(folder, "S", "L")
        points = len(re.findall(r'r="(?:5\.5|3\.5)"', picture))
        left_out = sum(int(count) for count in re.findall(r"\.\. (\d+) events are left out", picture))
        return first(
            differs("status", (status, errors), (0, "")),
            differs("too many for a picture", events > 400 >= points > 8, True),
            labels_problem(picture, [f"region {region}" for region in dict.fromkeys(sum(hops, []))]),
            differs("conflicts", picture.count("url(#red)"), len(hops)),
            None if left_out <= events - points else f"{left_out} are left out of {events}, and {points} drawn",
            differs("whole", (whole[0], whole[2][:35]), (1, "tools/diagram: more than 400 events")),
        )


def a_pair():
    """Of a log that is not ordered, `--verify` frames the two accesses; and each of the flags says when the other one is meant."""
    with folder_with(S=HANDOVER, L=EARLY_UNMARKED, B=BANK, M=LOST_LOG) as folder:
        status, picture, _ = diagram(folder, "S", "L", "--verify")
        ordered = diagram(folder, "B", "M", "--verify")
        return first(
            differs("status", status, 0),
            labels_problem(picture, ["unordered", "unordered"]),
            differs("the legend", legend(picture), [BOTH, "red: a conflict that no mark orders"]),
            differs("an ordered log", ordered[::2], (0, f"tools/diagram: {NO_PAIR}\n")),
            differs("its frames", RECT.findall(ordered[1]), []),
            differs(
                "its regions",
                diagram(folder, "S", "L", "--regions")[::2],
                (1, "tools/diagram: no regions: unordered 0:0 1:1; --verify frames these two\n"),
            ),
            differs("both", diagram(folder, "S", "L", "--regions", "--verify")[0], 2),
        )


def the_legend():
    """Only what is drawn is explained."""
    with folder_with(S=SHARED, L=SHARED_LOG, B=BANK, M=LOST_LOG, O=text("object x 5", "thread", "read r0 x")) as folder:
        octet(["run", "O", "N"], folder)
        dashes, pale = "dashed: by the counter of draws", "pale: not in the past of the event in the circle"
        return first(
            differs("one access", legend(diagram(folder, "O", "N")[1]), ["filled: an access"]),
            differs("shared reads", legend(diagram(folder, "S", "L")[1]), [BOTH, ARROWS, dashes]),
            differs("a part", legend(diagram(folder, "B", "M", "--from", "1", "--to", "1")[1]), ["filled: an access"]),
            differs("a past", legend(diagram(folder, "B", "M", "--slice", "1", "3")[1]), [BOTH, ARROWS, pale]),
            differs("no cycle", legend(diagram(folder, "O", "N", "--regions")[1]), ["filled: an access"]),
        )


TESTS = {
    "tools/diagram: the frames of a cycle": a_cycle,
    "tools/diagram: a cycle of a long log": a_cycle_of_a_long_log,
    "tools/diagram: a pair that no mark orders": a_pair,
    "tools/diagram: the legend": the_legend,
}
