"""What the crates have, as their sources say it: functions with their clauses, types with their members, and the
definitions of their specs. For scripts that hold documents against them (try_names)."""
import collections
import pathlib
import re

TOP = pathlib.Path(__file__).resolve().parent.parent
CRATES = TOP / "crates"

ITEM = re.compile(
    r"( *)(?:pub(?:\([a-z]+\))? )?(?:const )?(fn|struct|enum|trait|type|const|static|impl|mod|macro_rules)\b!? *(.*)")
FUNCTION = re.compile(r"(\w+)")
CLAUSE = re.compile(r" *(?:ensures|requires)\b\*? *(\w*) *\{")
GHOST = re.compile(r" *(?:pub )?ghost (?!use\b)(\w+)")
PARAMETER = re.compile(r"(?<![:\w])(\w+): ")
VARIANT = re.compile(r" +([A-Z]\w*)")
FIELD = re.compile(r" +(?:pub(?:\([a-z]+\))? )?(\w+):")
DEFINITION = re.compile(r"( *)(?:(?:abbrev|unfoldable) pub|pub (?:record|data)) (\S+)")
# Of a record the fields, of a datum the constructors.
PART = re.compile(r" +(?:pub )?(\S+) :")

# A clause or a definition as it stands: its name, its text, the file and the line. Of a trait's clause the crate and the
# type that keep it.
Words = collections.namedtuple("Words", "name text file line owner", defaults=[None])


class Function:
    def __init__(self, name, owner, trait, file, line):
        self.name, self.owner, self.trait, self.file, self.line = name, owner, trait, file, line
        self.clauses, self.parameters = [], set()

    def clause(self, name):
        return next((it for it in self.clauses if it.name == name), None)


class Crate:
    """One crate."""

    def __init__(self, folder):
        self.name, self.functions = folder.name, []
        self.members = collections.defaultdict(dict)    # of each type its variants, fields and ghost fields
        self.implemented, self.plain = set(), set()     # (trait, type); constants, modules, macros
        self.definitions = collections.defaultdict(dict)    # by file, then by name
        self.parts = collections.defaultdict(set)
        for file in sorted(folder.glob("src/**/*.rt")):
            self.plain.add(file.stem)
            self.read_source(file)
        for file in sorted(folder.glob("specs/*.antt")):
            self.read_definitions(file)
        self.plain |= {it.stem for it in folder.glob("proofs/*.antt")}

    def read_source(self, file):
        lines = file.read_text().splitlines()
        place, at = file.relative_to(TOP), 0
        blocks = []     # (indent, kind, type, trait) of what is open
        while at < len(lines):
            line = lines[at]
            while blocks and line.rstrip() == " " * blocks[-1][0] + "}":
                blocks.pop()
            owner, trait = (blocks[-1][2:] if blocks else (None, None))
            found = ITEM.fullmatch(line)
            if found and found[2] == "fn":
                function = Function(FUNCTION.match(found[3])[1], owner, trait, place, at + 1)
                self.functions.append(function)
                at = read_clauses(lines, at, function)
            elif found:
                at = self.read_item(lines, at, found, blocks)
            elif blocks:
                self.read_member(lines, at, blocks[-1], place)
            at += 1

    def read_item(self, lines, at, found, blocks):
        indent, kind, rest = len(found[1]), found[2], found[3]
        if kind == "impl":
            while not rest.rstrip().endswith(("{", "}")):
                at += 1
                rest += " " + lines[at].strip()
            trait, _, owner = without_parameters(rest).partition("{")[0].partition(" where ")[0].rpartition(" for ")
            owner, trait = owner.strip().lstrip("&").split("::")[-1], trait.strip().split("::")[-1] or None
            if trait:
                self.implemented.add((trait, owner))
            blocks.append((indent, kind, owner, trait))
            return at
        name = FUNCTION.match(rest)
        if name is None:
            return at
        if kind in ("struct", "enum", "trait", "type"):
            self.members.setdefault(name[1], {})
            if not rest.rstrip().endswith((";", "}")) and kind != "type":
                blocks.append((indent, kind, name[1], None))
        else:
            self.plain.add(name[1])
        return at

    def read_member(self, lines, at, block, place):
        indent, kind, owner, _ = block
        found = GHOST.match(lines[at]) or {"struct": FIELD, "enum": VARIANT}.get(kind, GHOST).match(lines[at])
        if found and depth_of(lines[at]) == indent + 4:
            last = end_of_braces(lines, at) if GHOST.match(lines[at]) else at
            self.members[owner][found[1]] = Words(found[1], plain(lines[at:last + 1]), place, at + 1)

    def read_definitions(self, file):
        lines = file.read_text().splitlines()
        for at, line in enumerate(lines):
            found = DEFINITION.match(line)
            if not found:
                continue
            first, last = at, at
            while first and lines[first - 1].lstrip().startswith("--"):
                first -= 1
            while last + 1 < len(lines) and lines[last + 1].strip():
                last += 1
            text = plain(lines[first:last + 1])
            self.definitions[file.stem][found[2]] = Words(found[2], text, file.relative_to(TOP), at + 1)
            self.parts[file.stem, found[2]] |= {it[1] for it in map(PART.match, lines[at + 1:last + 1]) if it}

    def functions_named(self, name, owner=None):
        """Those of this name, of this type where one is named."""
        return [it for it in self.functions if it.name == name and owner in (None, it.owner)]

    def names(self):
        """All names of the crate's sources, without those of clauses."""
        yield self.name
        yield from self.plain
        for owner, members in self.members.items():
            yield owner
            yield from members
        for function in self.functions:
            yield function.name
            yield from function.parameters
        for file, defined in self.definitions.items():
            yield file
            yield from defined
        for parts in self.parts.values():
            yield from parts


def depth_of(line):
    return len(line) - len(line.lstrip())


def plain(lines):
    """Lines as a text, without the indent of the first."""
    return "\n".join(it[depth_of(lines[0]):] for it in lines)


def end_of_braces(lines, at):
    """The line where the braces end that begin in this one."""
    first = at
    while sum(it.count("{") - it.count("}") for it in lines[first:at + 1]) > 0:
        at += 1
    return at


def without_parameters(text):
    """The text without what stands between < and >, an arrow's apart."""
    kept, depth = "", 0
    for before, character in zip(" " + text, text):
        depth += character == "<"
        kept += character if not depth else ""
        depth -= character == ">" and before not in "-="
    return " ".join(kept.split())


def read_clauses(lines, at, function):
    """Reads a function's clauses, from its first line on. Answers the line where its signature ends."""
    while at < len(lines):
        found = CLAUSE.match(lines[at])
        if found:
            first, at = at, end_of_braces(lines, at)
            text = plain(lines[first:at + 1])
            if text.startswith("ensures"):
                function.clauses.append(Words(found[1], text.rstrip(";"), function.file, first + 1))
        else:
            function.parameters |= set(PARAMETER.findall(lines[at]))
        if lines[at].rstrip().endswith(";") or not found and lines[at].rstrip().endswith(("{", "}")):
            return at
        at += 1
    return at


def read_crates():
    """All crates by name. What a trait's function ensures is ensured by each type's that implements it."""
    crates = {it.name: Crate(it) for it in sorted(CRATES.iterdir()) if (it / "src").is_dir()}
    of_trait = collections.defaultdict(list)
    for crate in crates.values():
        for it in crate.functions:
            if it.owner and it.trait is None and it.clauses:
                of_trait[it.owner, it.name].append(it)
    for crate in crates.values():
        for it in crate.functions:
            for above in of_trait[it.trait, it.name] if it.trait else ():
                it.clauses += [words._replace(owner=(crate.name, it.owner)) for words in above.clauses
                               if it.clause(words.name) is None]
    return crates
