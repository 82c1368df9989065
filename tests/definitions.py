#!/usr/bin/env python3
"""What the definitions and lemmas of the crates read of each other.

`tests/definitions.py headline` lists the files that whoever believes the headline has to read, with the
definitions of each: all that the clause `headline` of `serve` (octet_top, `src/program.rt`) says, down to
the numbers and lists of the standard library. Of a type that is declared in Rust these are its fields,
their types, what its ghost fields promise, and as what contracts see it; of the desk its ghost member. `tests/definitions.py unread` lists the definitions, lemmas and
imports that nothing reads, `tests/definitions.py literals` the lines of definitions and code in which the
number of a limit stands, where neither the limit's comment nor the table below names the file, and the
files that such a comment names in vain; these two end with 1 where there are any.
`tests/definitions.py reach octet_heap Heap::for_markers Marker::poll` lists what a builder reads who calls these: the
definitions under the signatures and the builders' clauses. Needs Python 3 alone.
"""

import pathlib
import re
import sys

CRATES = pathlib.Path(__file__).resolve().parent.parent / "crates"
HEADLINE = (CRATES / "octet_top" / "src" / "program.rt", "serve", "headline")
# What a builder calls on the heap, by markers and by workers, and how many definitions are read for it at most. `Heap::new`
# is not among them: it takes a script, of which FORMATS tells.
BUILDERS_CALLS = [
    "Heap::for_markers Marker::unblock Marker::access_or_begin Marker::poll Marker::safe_point Marker::block Heap::close_markers",
    "Heap::unblock Heap::access_or_begin Heap::poll Heap::safe_point Heap::block Heap::close",
]
MOST_FOR_BUILDERS = 60
# A word of the language of definitions, which may have signs in it (`prop→path_p`), or a name with its path, or
# a sign that stands by itself.
PART = r"[\w'][^\s(){}\[\],;.\"]*"
WORD = re.compile(rf"{PART}(?:\.{PART})*|[^\s\w(){{}}\[\],;.'\"]+")
USE = re.compile(r"^(?:pub )?(?:ghost )?use ([\w.]+?)(?:\.\{(.*?)\}| as (\w+))?;?$", re.M | re.S)
PASSES = re.compile(r"^pub use [\w.]+?\.\{(.*?)\}$", re.M | re.S)
# How an item begins, at the head of a line or, in a `module`, two blanks further in than it.
HEAD = r"(?:(?:abbrev|opaque|pub) )*(?:(?:data|record) )?(?!(?:module|mod|use|pub|infixl|infixr|infix) |unfolding|unfoldable)([\w'][\w'\-]*)(?=[ :])"
BEGINS = re.compile(HEAD)
# What the modules within a file take, among its items.
HEADS = ""
# Numbers that a limit has too and that mean something else there. A constant has a number of its own.
OTHERS = {
    "octet_gen/specs/Generated.antt": {16, 32},  # Accesses, draws and objects of the generated script.
    "octet_gen/src/generator.rt": {16, 32},
    "octet_host_long/src/opening.rt": {16, 65536},  # Blocks of a ring, and accesses of a block.
    "octet_log/specs/v2/Decoding.antt": {32},  # Bytes of a digest.
    "octet_log/specs/v2/Pieces.antt": {32},
    "octet_log/specs/v2/Refusals.antt": {32},
    "octet_log/src/loader.rt": {32},
    "octet_log/src/v2/encoder.rt": {32},
    "octet_marks/specs/Bodies.antt": {32},  # Bytes of a digest.
    "octet_marks/specs/Spellings.antt": {32},
    "octet_marks/src/bodies.rt": {32},
    "octet_marks/src/writer.rt": {32},
    "octet_script/specs/Spelling.antt": {32},  # A blank.
    "octet_script/specs/Words.antt": {32},
    "octet_state/specs/Words.antt": {32, 65536},  # Fields of a word.
    "octet_state/src/status_word.rt": {65536},
    "octet_commands/specs/Delivery.antt": {65536},  # Bytes of a piece.
    "octet_window/src/table.rt": {65536},  # Rows, which sixteen bits number.
}
# What the gate reads by its place: the answers to a function's goals.
ANSWERS = {"Answers", "Invariants", "Proof", "Measures", "Send", "Sync"}
# What the prover computes by itself: worked examples of the definitions.
EXAMPLES = {"octet_model.proofs.Examples", "octet_model.proofs.Executions", "octet_state.proofs.Examples"}
# What a crate gives out for those above it, of which none takes it yet: the right to an object that a poll leaves.
GIVEN_OUT = {"octet_stream.proofs.lemmas.Rights"}


def without_comments(text):
    return re.sub(r"--.*", "", text)


class Module:
    """A file of definitions or lemmas: its items by name, with their texts, and what it imports."""

    def __init__(self, path, name):
        self.path, self.name = path, name
        text = without_comments(path.read_text())
        self.imports, self.aliases, self.lists = {}, {}, []
        # The names that it takes from another file and passes on.
        self.passed = {name.strip() for names in PASSES.findall(text) for name in names.split(",")}
        for source, names, alias in USE.findall(text):
            source = source.removeprefix("Rattle.")
            for each in filter(None, (each.strip() for each in names.split(","))):
                first, _, other = each.partition(" as ")
                self.imports[(other or first).strip()] = (source, first.strip())
            if alias:
                self.aliases[alias] = source
        # What a `do` has in its lines is bound by `>>=`.
        self.body = re.sub(r"\bdo$", "do >>=", USE.sub("", text), flags=re.M)
        self.items = self.items_of(self.body)

    @staticmethod
    def items_of(body):
        """Each name that begins a line, or a line within a `module`, with the lines up to the next one."""
        items, name, depths = {}, None, [0]
        for line in filter(str.strip, body.splitlines()):
            depth = len(line) - len(line.lstrip())
            while depth < depths[-1]:
                depths.pop()
            if depth == depths[-1]:
                if line.lstrip().startswith("module "):
                    depths.append(depth + 2)
                    name = HEADS
                elif found := BEGINS.match(line.lstrip()):
                    name = found[1]
                elif re.match(r"[\w◌]", line.lstrip()):
                    name = None
            if name is not None:
                items.setdefault(name, []).append(line)
        return {name: "\n".join(lines) for name, lines in items.items()}


def modules():
    """All files of definitions and lemmas, by the path that an import names."""
    found = {}
    for path in sorted(CRATES.glob("*/*/**/*.antt")):
        crate, *rest = path.relative_to(CRATES).with_suffix("").parts
        if rest[0] not in ("specs", "proofs"):
            continue
        name = ".".join([crate, *(rest[:-1] if rest[-1] == "Lib" else rest)])
        found[name] = Module(path, name)
    return found


def words_of(text):
    return set(WORD.findall(text))


def words_read(text):
    """The words of a definition that are none of the variables of its equations. A variable hides an import of its name."""
    read = set()
    for line in text.splitlines():
        left, equals, right = line.partition(" = ")
        variables = {word for word in words_of(left.strip().partition(' ')[2]) if re.fullmatch(r"[a-z]\w*", word)} if equals and ":" not in left else set()
        read |= words_of(line) - variables
    return read


def resolve(module, word, known):
    """The module and the name of the definition that a word stands for there, or None."""
    head, *rest = word.split(".")
    if head in module.items:
        return module.name, head
    if head in module.imports:
        return origin(*module.imports[head], known)
    if head in module.aliases and rest:
        return origin(module.aliases[head], rest[0], known)
    return None


def origin(source, name, known):
    """Where what a file has under this name is defined, which may pass it on from another one."""
    while source in known and name in known[source].passed:
        source, name = known[source].imports[name]
    return source, name


class Code:
    """A file of Rust: the types, traits and constants that it declares, with what contracts read of each."""

    ITEM = re.compile(r"^pub(?:\([\w:]+\))? (?:struct|enum|trait|const) (\w+)", re.M)

    def __init__(self, path):
        self.path, self.crate = path, path.relative_to(CRATES).parts[0]
        # As code, an attribute says nothing to a contract.
        text = re.sub(r"//.*|#!?\[[^\]]*\]", "", path.read_text())
        self.ghosts, self.uses = {}, {}
        for source, names, _ in USE.findall(re.sub(r"^\s+", "", "\n".join(re.findall(r"^\s*ghost use .*", text, re.M)), flags=re.M)):
            for each in filter(None, (each.strip() for each in names.split(","))):
                name, _, other = each.partition(" as ")
                self.ghosts[(other or name).strip()] = (source.removeprefix("Rattle."), name.strip())
        for path_of, names, name in re.findall(r"^use ([\w:]+)::(?:\{(.*?)\}|(\w+));", text, re.M | re.S):
            crate = path_of.split("::")[0]
            for each in filter(None, (each.strip() for each in [*names.split(","), name])):
                self.uses[each] = self.crate if crate == "crate" else crate
        self.body = re.sub(r"^\s*(?:pub )?(?:ghost )?use .*?;", "", text, flags=re.M | re.S)
        starts = [found.start() for found in re.finditer(r"^\S", self.body, re.M)] + [len(self.body)]
        parts = [self.body[one:other] for one, other in zip(starts, starts[1:])]
        self.items = {}
        for place, part in enumerate(parts):
            if found := self.ITEM.match(part):
                self.items[found[1]] = part + self.model_of(found[1])

    def model_of(self, name):
        """As what contracts see a type, where it says so."""
        found = re.search(rf"^impl(?:<[^>]*>)? Model for {name}\b.*?^}}", self.body, re.M | re.S)
        return found[0] if found else ""

    def read_by(self, name):
        """What an item reads: definitions by module and name, and declared things by file and name."""
        text = self.items[name]
        if text.startswith("pub trait"):
            # What its methods owe is not what a clause says that names its state.
            text = "".join(re.findall(r"^    ghost .*", text, re.M))
        ghosts = re.findall(r"ghost [^{]*\{(.*?)\}[,;]", text, re.S)
        yield from (self.ghosts[word] for ghost in ghosts for word in words_of(ghost) if word in self.ghosts)
        for word in re.findall(r"\w+", re.sub(r"ghost [^{]*\{.*?\}[,;]", "", text, flags=re.S)):
            if word != name and (found := self.declaration(word)):
                yield found

    def declaration(self, word):
        """The file that declares what a word of Rust names, and its name there, or None."""
        if word in self.items:
            return self.path, word
        return declaration_in(self.uses[word], word) if word in self.uses else None


CODE = {}


def code_in(path):
    if path not in CODE:
        CODE[path] = Code(path)
    return CODE[path]


def declaration_in(crate, name):
    """Where a crate of this repository declares a type, a trait or a constant, or None."""
    for path in sorted((CRATES / crate / "src").glob("**/*.rt")):
        if name in code_in(path).items:
            return path, name
    return None


def declared(source, name):
    """The file of Rust that declares what a definition takes from there, and its name there, or None."""
    match = re.match(r"(octet_\w+)\.specs\.declared\.(\w+)\.", source + ".")
    path = match and CRATES / match[1] / "src" / f"{match[2]}.rt"
    if not path or not path.is_file():
        return None
    # `script.Script.{Script}` names a type, `event.Event.TheVariants.{Read}` a variant of one.
    return path, source.removesuffix(".TheVariants").split(".")[-1].replace("TheConstants", name)


def read_by_clause(path, function, clause):
    """What a clause of a public function reads, and its parameters' traits."""
    code, text = code_in(path), re.sub(r"//.*", "", path.read_text())
    head, _, rest = re.search(rf"pub fn {function}(.*?)^{{", text, re.M | re.S)[1].partition("requires")
    said = next(each for each in rest.split("ensures") if each.strip().startswith(clause + " "))
    for word in words_of(said) | words_of(rest.split("ensures")[0]):
        if word in code.ghosts:
            yield code.ghosts[word]
    if re.search(r"\bD\.state\b", said):
        yield code.declaration(re.search(r"\bD: (\w+)", head)[1])


def reached_from(known, waiting, is_closed=lambda path, name, text: False):
    """The definitions that these read, and those read, by file. Of a definition that is closed its first line alone
    is read, and of a type nothing."""
    files, waiting, seen = {}, list(waiting), set()
    while waiting:
        source, name = waiting.pop()
        if (source, name) in seen or not isinstance(source, pathlib.Path) and not source.startswith("octet_"):
            continue
        seen.add((source, name))
        if isinstance(source, pathlib.Path):
            files.setdefault(source, set()).add(name)
            if name in code_in(source).items and not is_closed(source, name, code_in(source).items[name]):
                waiting += code_in(source).read_by(name)
        elif (found := declared(source, name)) is not None:
            waiting.append(found)
        elif (module := known.get(source)) is not None and name in module.items:
            files.setdefault(module.path, set()).add(name)
            text = module.items[name]
            read = text.splitlines()[0] if is_closed(module.path, name, text) else text
            waiting += filter(None, (resolve(module, word, known) for word in words_read(read)))
    return files


def headline(known):
    """The definitions under the headline, by file."""
    path, function, _ = HEADLINE
    files = reached_from(known, read_by_clause(*HEADLINE))
    files.setdefault(path, set()).add(function)
    return files


class Builders:
    """What the contracts of a crate's calls say to builders: the clauses before the first comment among them. They name
    no field that is the crate's own. The fields' meaning is told by definitions that read them, as a marker's model
    or what makes it one of a heap's. A builder reads the sentence above such a definition and not what it reads."""

    def __init__(self, crate):
        self.paths = sorted((CRATES / crate / "src").glob("**/*.rt"))
        self.own = {name: self.own_fields(text) for path in self.paths for name, text in code_in(path).items.items()}

    @staticmethod
    def own_fields(text):
        """The fields of a struct that are its crate's own."""
        return set(re.findall(r"^    (?:pub\(crate\) )?(\w+): ", text, re.M)) if re.match(r"pub(?:\([\w:]+\))? struct", text) else set()

    def is_closed(self, path, name, text):
        """Whether a definition or a type stands on fields that are the crate's own."""
        if path.suffix == ".rt":
            return bool(self.own.get(name)) and path in self.paths
        fields = set().union(*(fields for name, fields in self.own.items() if name in words_of(text)))
        return bool(fields) and re.search(rf"\w\.(?:{'|'.join(fields)})\b", text) is not None

    def contract(self, call):
        """The code in which a call stands, what its signature says, and its clauses for builders."""
        struct, _, function = call.partition("::")
        for path in self.paths:
            for block in re.findall(rf"^impl {struct} {{\n(.*?)^}}", path.read_text(), re.M | re.S):
                if found := re.search(rf"^    pub fn {function}\b(.*?)^    {{", block, re.M | re.S):
                    signature, clauses = re.split(r"^(?=        (?:requires|ensures) )", found[1], maxsplit=1, flags=re.M)
                    return code_in(path), signature, clauses.split("\n        //")[0]
        sys.exit(f"{call}: no such call")

    def read_by(self, call):
        """What the signature and the builders' clauses of a call read."""
        code, signature, clauses = self.contract(call)
        words = {word for clause in clauses.splitlines() for word in words_of(clause.partition("{")[2])}
        yield from (code.ghosts[word] for word in words if word in code.ghosts)
        yield from filter(None, map(code.declaration, re.findall(r"\w+", signature)))

    def fields_named(self, call):
        """The fields of its own that the builders' clauses of a call name all the same."""
        _, signature, clauses = self.contract(call)
        kinds = {"self": call.partition("::")[0], **dict(re.findall(r"(\w+): &?(?:mut )?(\w+)", signature))}
        for value, field in re.findall(r"(\w+)(?:\.(?:now|old|new|0|1))*\.(\w+)", clauses):
            if field in self.own.get(kinds.get(value), set().union(*self.own.values()) if value == "new" else ()):
                yield field


def reach(known, crate, calls):
    """The definitions under the builders' clauses of calls, by file, and what of these clauses no builder can read."""
    builders = Builders(crate)
    named = [f"{call} names {', '.join(sorted(fields))}" for call in calls if (fields := set(builders.fields_named(call)))]
    return reached_from(known, [read for call in calls for read in builders.read_by(call)], builders.is_closed), named


def print_reach(known, crate, calls):
    files, named = reach(known, crate, calls)
    print_files(files)
    if named:
        sys.exit("; ".join(named))


def print_headline(known):
    print_files(headline(known))


def print_files(files):
    for path in sorted(files):
        print(f"{path.relative_to(CRATES.parent)}: {', '.join(sorted(files[path]))}")
    print(f"\n{sum(map(len, files.values()))} definitions in {len(files)} files")


def read_in_code():
    """The names that the code's contracts read, by module; None stands for a name that is read by its whole path."""
    read = set()
    for path in CRATES.glob("*/src/**/*.rt"):
        text = re.sub(r"//.*", "", path.read_text())
        crate = path.relative_to(CRATES).parts[0]
        for source, names, alias in USE.findall(re.sub(r"^\s+", "", text, flags=re.M)):
            source = source.removeprefix("Rattle.")
            for each in filter(None, (each.strip() for each in names.split(","))):
                read.add((source, each.partition(" as ")[0].strip()))
            if alias:
                read |= {(source, word.split(".")[1]) for word in words_of(text) if word.startswith(alias + ".")}
        for whole in re.findall(r"(?:crate|octet_\w+)(?:::\w+[\w'\-]*)+", text):
            *parts, name = whole.split("::")
            read.add((".".join([crate if parts[0] == "crate" else parts[0], *parts[1:]]), name))
    return read


def unread(known):
    """The items and imports that nothing reads."""
    in_code = read_in_code()
    read = {origin(*found, known) for found in in_code}
    for module in known.values():
        for name, text in module.items.items():
            for word in words_of(text):
                found = resolve(module, word, known)
                if found and found != (module.name, name):
                    read.add(found)
        for word in words_of(module.body):
            found = resolve(module, word, known)
            if found and found[0] != module.name:
                read.add(found)
    lines = []
    taken = in_code.union(*(module.imports.values() for module in known.values()))
    for module in known.values():
        if module.path.stem in ANSWERS or module.name in EXAMPLES | GIVEN_OUT:
            continue
        for name in module.items:
            if name != HEADS and (module.name, name) not in read:
                lines.append(f"{module.path.relative_to(CRATES.parent)}: nothing reads {name}")
        words = {part for word in words_of(module.body) for part in (word, word.split(".")[0])}
        for name in [*module.imports, *module.aliases]:
            if name in module.passed:
                if (module.name, name) not in taken:
                    lines.append(f"{module.path.relative_to(CRATES.parent)}: passes {name} on, which nothing takes")
                continue
            # Of a sign, as `◌≡◌`, its parts are read.
            parts = [part for part in name.split("◌") if part]
            if not all(part in words or not re.match(r"\w", part) and part in module.body for part in parts):
                lines.append(f"{module.path.relative_to(CRATES.parent)}: imports {name} and does not read it")
    return lines


def limits():
    """The files in which each limit's number may stand, by number, as its comment in `limits.rt` lists them."""
    files = {}
    for path in CRATES.glob("*/src/limits.rt"):
        comment = ""
        for line in path.read_text().splitlines():
            if line.startswith("///"):
                comment += line.removeprefix("///")
            elif found := re.match(r"pub const \w+: \w+ = ([\d_]+);", line):
                numbers = {int(found[1].replace("_", ""))}
                if told := re.search(r"As a number, ([\d or]+):", comment):
                    numbers |= {int(number) for number in told[1].split(" or ")}
                for number in numbers:
                    files.setdefault(number, set()).update(re.findall(r"`(octet_\w+/[\w/.]+)`", comment))
                comment = ""
    return files


def numbers_in(path):
    """The lines of a file without its comments, and the numbers of each; a power of two is not its exponent."""
    for line in re.sub(r"(?:--|//).*", "", path.read_text()).splitlines():
        if not re.match(r"\s*(?:pub(?:\(crate\))? )?const ", line):
            bare = re.sub(r"\^ \d+|<< \d+", "", line)
            yield line.strip(), {int(number.replace("_", "")) for number in re.findall(r"(?<![\w.])\d[\d_]*(?!\w)", bare)}


def literals():
    """Where the number of a limit stands unlisted, and which file that is listed has none."""
    allowed, lines, found, listed = limits(), [], set(), set()
    for path in sorted([*CRATES.glob("*/specs/**/*.antt"), *CRATES.glob("*/src/**/*.rt")]):
        name = str(path.relative_to(CRATES))
        if name.endswith(("/src/limits.rt", "tests.rt")) or name.startswith("octet_tests"):
            continue
        for line, numbers in numbers_in(path):
            for number in numbers & allowed.keys():
                found.add(name)
                if name in allowed[number]:
                    listed.add(name)
                if name not in allowed[number] and number not in OTHERS.get(name, set()):
                    lines.append(f"{name}: {number} in `{line}`")
    lines += [f"{name}: in a limit's comment, and has not its number" for name in sorted(set().union(*allowed.values()) - listed)]
    return lines + [f"{name}: in the table, and has no number of a limit" for name in sorted(set(OTHERS) - found)]


def reach_problem():
    """Whether a builder has to read more than a little before the heap's calls, or fields that no builder sees."""
    known = modules()
    for calls in BUILDERS_CALLS:
        files, named = reach(known, "octet_heap", calls.split())
        if named:
            return "; ".join(named)
        if (count := sum(map(len, files.values()))) > MOST_FOR_BUILDERS:
            return f"{calls} read {count} definitions, more than {MOST_FOR_BUILDERS}"
    return None


def literals_problem():
    return "; ".join(literals()) or None


def unread_problem():
    return "; ".join(unread(modules())) or None


def main():
    known = modules()
    if sys.argv[1:] == ["headline"]:
        print_headline(known)
        return
    if sys.argv[1:2] == ["reach"] and len(sys.argv) > 3:
        print_reach(known, sys.argv[2], sys.argv[3:])
        return
    if sys.argv[1:] in (["unread"], ["literals"]):
        lines = unread(known) if sys.argv[1] == "unread" else literals()
        print("\n".join(lines) or f"no {sys.argv[1]}")
        sys.exit(1 if lines else 0)
    sys.exit(__doc__)


if __name__ == "__main__":
    main()
