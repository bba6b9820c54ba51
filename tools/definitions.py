"""A reading of what the crates define, by the text of their files alone: the definitions of specs/, the types of src/ as
contracts see them, and which of them each one names."""
import functools
import itertools
import re

import built

# in specs/: the head of a definition, what may stand above it, and what stands outside of them
HEAD = re.compile(r"(?:(?:abbrev|unfoldable|pub) )*(?:(?:record|data) (\S+)|(\S+) :(?: |$))")
BINDING = re.compile(r"--|infix[lr]? ")
OUTSIDE = re.compile(r"use |(pub )?mod ")
# in src/: a type, a trait or a constant, and what a file takes of others
TYPE = re.compile(r"(?:pub(?:\(\w+\))? )?(?:struct|enum|trait|const) (\w+)")
RUST_USE = re.compile(r"^(?:pub )?use (\w+)(?:::\w+)*::(\{[^}]*\}|\w+);", re.M)
# in both: a module, its names, and the name that it is given
USE = re.compile(r"^ *(?:ghost )?use (Rattle\.[\w.]+?)(?:\.\{([^}]*)\})?(?: as (\w+))?;?$", re.M)
# what stands between the words of a clause, beside blanks
BREAKS = str.maketrans(dict.fromkeys("(){}[];,", " "))


class Definition:
    """What has a name: in specs/ a definition, in src/ a type or a function's contract. It has its place in its file, the text
    that may name others, and how many lines it has, with its remarks."""

    def __init__(self, name, path, at, text, lines):
        self.name = name
        self.path = path
        self.at = at
        self.text = text
        self.lines = lines


class Spec:
    """A file of specs/: its definitions in order, and by each name the definition that has it. The name of a constructor is
    its type's."""

    def __init__(self, path):
        self.definitions = []
        self.named = {}
        remarks = 0
        module = ""
        for at, line in enumerate(path.read_text().split("\n")):
            if line.startswith("module "):
                # the definitions behind it have its parameters
                module = line
                continue
            if line and not line.startswith(" "):
                module = ""
            line = line.removeprefix("  " if module else "")
            head = HEAD.match(line)
            if not line or OUTSIDE.match(line):
                remarks = 0
            elif BINDING.match(line):
                remarks += 1
            elif head:
                self.definitions.append(Definition(head[1] or head[2], path, at, f"{module}\n{line}", remarks + 1))
                self.named[self.definitions[-1].name] = self.definitions[-1]
                remarks = 0
            else:
                self.go_on(line)

    def go_on(self, line):
        """The line belongs to the last definition."""
        last = self.definitions[-1]
        last.text += f"\n{line}"
        last.lines += 1
        constructor = re.match(r"  (\S+) : ", line)
        if constructor and "\npub data" in last.text:
            self.named[constructor[1]] = last


@functools.cache
def crates():
    """The crates' names, lowest first; what crates.txt says of a crate behind its name is no part of it."""
    lines = (built.ROOT / "crates.txt").read_text().splitlines()
    return [line.split(":")[0].split()[0] for line in lines if ":" in line and not line.startswith("#")]


@functools.cache
def spec(path):
    return Spec(path)


def specs_of(crate):
    """The files of definitions of a crate."""
    return [spec(path) for path in sorted((built.ROOT / "crates" / crate / "specs").glob("**/*.antt")) if path.name != "Lib.antt"]


@functools.cache
def types_of(crate):
    """The types of a crate, by each name the file that has it."""
    paths = sorted((built.ROOT / "crates" / crate / "src").glob("**/*.rt"))
    return {item[1]: path for path in paths for line in path.read_text().split("\n") if (item := TYPE.match(line))}


def item_at(lines, at):
    """The lines of the item of src/ that begins there, with the remarks above it and without attributes and imports."""
    start = at
    while start and lines[start - 1].startswith(("///", "#[")):
        start -= 1
    end = at
    while not re.match(r"}|\S.*[;}]$", lines[end]):
        end += 1
    return [line for line in lines[start : end + 1] if line.strip() and not re.match(r" *(#\[|ghost use )", line)]


@functools.cache
def type_named(crate, name):
    """A type with its Model, where it has one."""
    path = types_of(crate)[name]
    lines = path.read_text().split("\n")
    model = re.compile(rf"impl\b.* Model for {name}\b")
    heads = [at for at, line in enumerate(lines) if (item := TYPE.match(line)) and item[1] == name or model.match(line)]
    parts = [part for at in heads for part in item_at(lines, at)]
    return Definition(name, path, heads[0], "\n".join(parts), len(parts))


def contract(crate, name):
    """The remarks, parameters and clauses of a function that no other of the crate shares its name with."""
    head = re.compile(rf"pub fn {name}\b")
    for path in sorted((built.ROOT / "crates" / crate / "src").glob("**/*.rt")):
        lines = path.read_text().split("\n")
        for at in (at for at, line in enumerate(lines) if head.match(line)):
            parts = list(itertools.takewhile(lambda line: not line.startswith("{"), item_at(lines, at)))
            return Definition(name, path, at, "\n".join(parts), len(parts))
    raise LookupError(f"{crate} has no public function {name}")


def words_of(text):
    """The words of a text but for remarks and strings, and of a word with points its first part too."""
    bare = re.sub(r'"(\\.|[^"\\])*"', " ", re.sub(r"--.*|//.*", "", text))
    words = bare.translate(BREAKS).split()
    words += [word.split(".")[0] for word in words]
    # two words that are written otherwise than they are named
    return {*words, *["[]"] * ("[]" in bare), *[">>="] * ("do" in words)}


def names(words, name):
    """The words have a name; an operator's has places, which are ◌."""
    return all(piece in words for piece in name.split("◌") if piece)


def imports(text):
    """What a file takes from the modules of specs/: by each name there the module and the name here."""
    for module, taken, alias in USE.findall(text):
        if alias:
            yield module, "", alias
        for name in filter(None, taken.split(", ")):
            there, _, here = name.partition(" as ")
            yield module, there, here or there


def rust_types(path):
    """What the names of types stand for in a file of src/: by each name the crate."""
    crate = path.relative_to(built.ROOT / "crates").parts[0]
    found = {name: crate for name, place in types_of(crate).items() if place == path}
    for first, taken in RUST_USE.findall(path.read_text()):
        found.update({name: crate if first == "crate" else first for name in re.findall(r"\w+", taken)})
    return {name: crate for name, crate in found.items() if crate in crates() and name in types_of(crate)}


def named_by(definition):
    """What a definition names, each a definition too, or a word of the kit: a module and a name."""
    words = words_of(definition.text)
    for module, name, here in imports(definition.path.read_text()):
        if names(words, here):
            yield meant(module, name)
    if definition.path.suffix == ".antt":
        yield from (other for name, other in spec(definition.path).named.items() if names(words, name))
    else:
        known = rust_types(definition.path)
        rust_words = set(re.findall(r"\w+", re.sub(r"//.*", "", definition.text)))
        yield from (type_named(crate, name) for name, crate in known.items() if name in rust_words)


def meant(module, name):
    """What a name of a module is."""
    _, crate, *parts = module.split(".")
    if crate not in crates():
        return ".".join([crate, *parts]), name
    if parts[:2] == ["specs", "declared"]:
        first = next(part for part in parts if part[0].isupper())
        return type_named(crate, name if first == "TheConstants" else first)
    return spec(built.ROOT.joinpath("crates", crate, *parts).with_suffix(".antt")).named[name]


def reached_from(start):
    """What a definition reaches, itself first: the definitions, and the words of the kit."""
    found = [start]
    words = set()
    for definition in found:
        for other in named_by(definition):
            if isinstance(other, tuple):
                words.add(other)
            elif other not in found:
                found.append(other)
    return found, words
