"""What the documents and the crates' pages say of the repository: their length, and the files, words and code that they name."""

import re
import subprocess

import definitions
from files import TOP, differs, first

# README and docs together, README, what one reader begins with, and the crates' pages together.
MOST_WORDS, MOST_IN_README, MOST_IN_A_WAY, MOST_IN_PAGES = 17_000, 1_600, 900, 16_000
WAYS = ["RUST.md", "C.md", "PROGRAMS.md"]
MOST_LINES, MOST_COLUMNS = 40, 128
CRATES = TOP / "crates"
FENCED = re.compile(r"^```.*?^```$", re.MULTILINE | re.DOTALL)
RUST = re.compile(r"^```rust\n(.*?)^```$", re.MULTILINE | re.DOTALL)
LINK = re.compile(r"\[[^\]\n]*\]\(([^)\s]+)\)")
QUOTED = re.compile(r"`([^`\n]+)`")
IN_FOLDER = re.compile(r"(?:docs|crates|tests|tools|examples|bin|bindings|include|bench)/[\w./*-]+")
IN_CRATE = re.compile(r"octet\w*/(?:src|specs|proofs|must-fail)/[\w./*-]*")
OF_CRATE = re.compile(r"(?:src|specs|proofs|must-fail)/[\w./*-]*")
# A function and the file in which it stands.
CALLER = re.compile(r"`(\w+)` in\s`((?:crates|bindings)/[\w/.]+)`")
# An entry of the glossary: the names of its words, and the files of these.
ENTRY = re.compile(r"- [^(]*\((?:([^)]*) in )?([^)]*)\): ")
# A crate's box in the picture.
NAMED = re.compile(r'text-anchor="middle">(\w+)<')
PAGE = re.compile(r"[A-Z]+\.md")
# The end of a path, as in a list of files of one folder.
END = re.compile(r"[\w./-]+\.(?:rt|antt|py)")
# What a call of the program makes, so that a fresh copy does not have it.
MADE = re.compile(r"crates/octet(?:_c)?/(?:out/?|build\.log)")


def documents():
    return [TOP / "README.md", *sorted((TOP / "docs").glob("*.md"))]


def crates():
    """The names of the crates, lowest first."""
    lines = (TOP / "crates.txt").read_text().split("\n")
    return [line.split(":")[0].split()[0] for line in lines if ":" in line and not line.startswith("#")]


def pages():
    """The page of each crate, as far as it has one."""
    return [path for path in (CRATES / name / "README.md" for name in crates()) if path.exists()]


def words(*paths):
    return sum(len(path.read_text().split()) for path in paths)


def lengths():
    """The documents together are read in an hour and a half, and a crate's page without scrolling."""
    limits = [("README.md and docs/*.md", documents(), MOST_WORDS), ("README.md", [TOP / "README.md"], MOST_IN_README)]
    limits += [(f"docs/{name}", [TOP / "docs" / name], MOST_IN_A_WAY) for name in WAYS]
    limits += [("the crates' pages", pages(), MOST_IN_PAGES)]
    for name, paths, most in limits:
        if words(*paths) > most:
            return f"{name}: {words(*paths)} words, more than {most}"
    return first(*map(problem_of_lines, pages()))


def problem_of_lines(path):
    """What of a crate's page is too long, or None."""
    name, lines = path.relative_to(TOP), path.read_text().rstrip("\n").split("\n")
    if len(lines) > MOST_LINES:
        return f"{name} has {len(lines)} lines, more than {MOST_LINES}"
    wide = [number for number, line in enumerate(lines, 1) if len(line) > MOST_COLUMNS]
    return f"{name}: line {wide[0]} has more than {MOST_COLUMNS} columns" if wide else None


def pages_of_all_crates():
    """Each crate has a page, which begins with its name."""
    for name in crates():
        page = CRATES / name / "README.md"
        if not page.exists() or not page.read_text().startswith(f"# {name}\n\n"):
            return f"{name} has no page that begins with its name"
    return differs("how many crates", len(crates()) >= 20, True)


def anchors(text):
    """How a link names the headings of a page."""
    headings = re.findall(r"^#+ (.+)$", FENCED.sub("", text), re.MULTILINE)
    return {re.sub(r"[^\w\- ]", "", heading.lower()).replace(" ", "-") for heading in headings}


def broken_link(path, target):
    """Why a link leads nowhere, or None."""
    if re.match(r"[a-z]+:", target):
        return None
    name, _, anchor = target.partition("#")
    other = path.parent / name if name else path
    if not other.exists():
        return f"{path.relative_to(TOP)} links to {target}, which is not there"
    if anchor and anchor not in anchors(other.read_text()):
        return f"{path.relative_to(TOP)} links to {target}, and there is no such heading"
    return None


def places(path, word):
    """The folders in which a word of this page may name a file, and the name; none where it looks like no file."""
    if "NAME" in word or "NN" in word or MADE.match(word):
        return None
    if IN_FOLDER.fullmatch(word):
        return [TOP], word
    if IN_CRATE.fullmatch(word):
        return [CRATES], word
    if PAGE.fullmatch(word):
        return [TOP, TOP / "docs"], word
    if path.parent.parent == CRATES and OF_CRATE.fullmatch(word):
        return [path.parent], word
    return None


def is_there(folder, name):
    if "*" in name:
        return any(folder.glob(name))
    return (folder / name).exists()


def ends():
    """The names of the files of the crates, tests and tools, and all ends of their paths."""
    paths = [path.relative_to(TOP).parts for name in ["crates", "tests", "tools"] for path in (TOP / name).rglob("*.*")]
    return {"/".join(parts[at:]) for parts in paths for at in range(len(parts))}


def is_named_in_vain(path, word, known):
    """Whether a word of a page looks like a file, and there is none."""
    found = places(path, word)
    if found:
        return not any(is_there(folder, found[1]) for folder in found[0])
    return END.fullmatch(word) and "NAME" not in word and word not in known


def links_and_paths():
    """Every link leads to what is there, and so does every path that a page names."""
    named, known = 0, ends()
    for path in [*documents(), *pages()]:
        text = FENCED.sub("", path.read_text())
        for target in LINK.findall(text):
            problem = broken_link(path, target)
            if problem:
                return problem
        for quoted in QUOTED.findall(text):
            # A command names files among its words.
            for word in quoted.split():
                named += "/" in word
                if is_named_in_vain(path, word, known):
                    return f"{path.relative_to(TOP)} names {word}, which is not there"
    return differs("how many paths", named >= 100, True)


def defined_in(path):
    """The names that a file of definitions defines, by itself or within a module of it."""
    return set(re.findall(rf"^(?:  )?{definitions.HEAD}", definitions.without_comments(path.read_text()), re.MULTILINE))


def undefined(names, places, section):
    """What an entry of the glossary says that is not so: names that its files do not define, or a file that is not there."""
    named = re.findall(r"`([\w/]+)`", places)
    owners = [name for name in named if name.startswith("octet_")] or section
    files = [name for name in named if not name.startswith("octet_")]
    paths = {path for owner in owners for name in files for path in CRATES.glob(f"{owner}/specs/{name}.antt")}
    if not files or len(paths) < len(files):
        return f"{files} are not all in {owners}"
    found = set().union(*map(defined_in, paths))
    return next((f"{word} is not defined in {files}" for word in re.findall(r"`(\w+)`", names) if word not in found), None)


def glossary():
    """Each entry names words that are defined in the file that it names: `- word (NAMES in FILES): ..`, or with the files alone."""
    section, entries = [], 0
    for line in (TOP / "docs" / "DEFINITIONS.md").read_text().replace("\n  ", " ").split("\n"):
        if line.startswith("## "):
            section = re.findall(r"`(octet_\w+)`", line)
        elif line.startswith("- "):
            entry = ENTRY.match(line)
            entries += 1
            problem = undefined(entry[1] or "", entry[2], section) if entry else "it names no file"
            if problem:
                return f"DEFINITIONS.md: {line:.60}: {problem}"
    return differs("how many entries", entries >= 40, True)


def code_of_the_pages():
    """The code of a page stands to the letter in the crates, so that it is proved, or in an example, which a test runs."""
    sources = [path.read_text() for path in [*CRATES.glob("*/src/**/*.rt"), *TOP.glob("bindings/rust/examples/*.rs")]]
    printed = 0
    for path in [*documents(), *pages()]:
        for block in RUST.findall(path.read_text()):
            printed += 1
            if not any(block in source for source in sources):
                return f"{path.relative_to(TOP)}: {block!r:.200} stands in no crate or example"
    return differs("how many pieces of code", printed >= 18, True)


def callers():
    """A function that a crate's page names as a caller stands in the file that it names."""
    named = 0
    for path in pages():
        for name, file in CALLER.findall(path.read_text()):
            named += 1
            source = TOP / file
            if not source.exists() or not re.search(rf"\b{name}(?:<.*>)?\(", source.read_text()):
                return f"{path.relative_to(TOP)}: there is no {name} in {file}"
    return differs("how many callers", named >= 35, True)


def map_of_the_crates():
    """The picture of the crates is what `tools/map` makes today, and ARCHITECTURE shows it."""
    found = subprocess.run([TOP / "tools" / "map"], capture_output=True, check=False)
    return first(
        differs("tools/map", (found.returncode, found.stderr), (0, b"")),
        differs("docs/map.svg", found.stdout, (TOP / "docs" / "map.svg").read_bytes()),
        differs("ARCHITECTURE", "(map.svg)" in (TOP / "docs" / "ARCHITECTURE.md").read_text(), True),
        differs("the crates", sorted(NAMED.findall(found.stdout.decode())), sorted(name.removeprefix("octet_") for name in crates())),
    )


def scripts_of_the_pages():
    """A script that a page prints is one of examples/, to the letter."""
    known = [path.read_text() for path in TOP.glob("examples/*.octet")]
    printed = 0
    for path in documents():
        for block in re.findall(r"(?:^    (?!\$).*\n)+", path.read_text(), re.MULTILINE):
            text = re.sub(r"^    ", "", block, flags=re.MULTILINE)
            if text.startswith("# ") and "\nthread\n" in text:
                printed += 1
                if text not in known:
                    return f"{path.relative_to(TOP)}: {text!r:.100} is no script of examples/"
    return differs("how many scripts", printed >= 4, True)


def problem_of_pages():
    return first(pages_of_all_crates(), code_of_the_pages(), callers())


TESTS = {
    "documents: how long they are": lengths,
    "documents: links and paths": links_and_paths,
    "documents: the glossary": glossary,
    "documents: the map of the crates": map_of_the_crates,
    "documents: scripts": scripts_of_the_pages,
    "pages: of each crate, with code that is proved, and a caller": problem_of_pages,
}
