"""The wrong bodies of the gate (`crates/NAME/must-fail`) and the others (`tests/wrong/NAME`): each can be applied to the code as it is.

One that cannot counts for nothing, and `rt ci` passes it over.
"""

from files import TOP, first

CRATES, WRONG = TOP / "crates", TOP / "tests" / "wrong"
# The gate has time for so many, and a crate with one alone would be proved a second time for it.
MOST = 64


def applied(edit, crate):
    """Why an edit cannot be applied to its crate, or None."""
    texts, path, old = {}, None, None
    for line in edit.read_text().split("\n"):
        key, _, rest = line.partition(": ")
        if key == "file":
            path = CRATES / crate / rest
            if not path.exists():
                return f"there is no {rest}"
            texts.setdefault(path, path.read_text())
        elif key == "old":
            old = rest
        elif key == "new":
            if texts[path].count(old) != 1:
                return f"{old!r} does not stand in {path.name} once"
            texts[path] = texts[path].replace(old, rest)
    return None if any(text != path.read_text() for path, text in texts.items()) else "it changes nothing"


def applicable():
    """Each edit has a file and lines that stand there once."""
    for edit in [*CRATES.glob("*/must-fail/*.edit"), *WRONG.glob("*/*.edit")]:
        crate = edit.relative_to(CRATES if CRATES in edit.parents else WRONG).parts[0]
        problem = applied(edit, crate)
        if problem:
            return f"{edit.relative_to(TOP)}: {problem}"
    return None


def counted():
    """No crate has one wrong body alone, and the gate has time for all."""
    found = {path.parent.parent.name: 0 for path in CRATES.glob("*/must-fail/*.edit")}
    for path in CRATES.glob("*/must-fail/*.edit"):
        found[path.parent.parent.name] += 1
    alone = [name for name, count in found.items() if count == 1]
    if alone:
        return f"{alone} has one wrong body alone"
    return None if sum(found.values()) <= MOST else f"{sum(found.values())} wrong bodies, more than {MOST}"


def problem():
    return first(applicable(), counted())


TESTS = {"wrong bodies: each can be applied": problem}
