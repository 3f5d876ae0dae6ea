#!/usr/bin/env python3
"""Lists what a reader must believe: the definitions that `run` and the public laws rest on.

    trusted.py            prints the list
    trusted.py -v         prints each of these definitions with its file and line
    trusted.py --write    writes the list to docs/TRUSTED.md
    trusted.py --check    prints errors alone

Names are followed from the clauses of `run`, of the traits that its signature names, and of the
public functions of each `src/laws.rt`, through `specs/` of all crates. It is an error, and the
status is 1,

- where a file of `specs/` holds definitions that must be believed, and others beside them;
- where one that begins with `-- Inside:` holds some that must be, or that contracts of public
  functions rest on, and where one that nothing of that rests on doesn't begin so;
- where a definition leans on `proofs/` of this repository, or one that must be believed on those
  of std, but for `zero` and `suc`;
- where docs/TRUSTED.md is another list.
"""
import pathlib
import re
import sys

TOP = pathlib.Path(__file__).resolve().parent.parent
CRATES = TOP / "crates"
PAGE = TOP / "docs" / "TRUSTED.md"
# The crates of the top call `run`, and of the laws of the program.
COMMANDS, PROGRAM_LAWS = "tool_commands", "tool_laws"
INSIDE = "-- Inside:"
# The parts of the page, in the order of reading: which crates, and which files apart from their crate.
CODES, TOOL, OUTSIDE = "The codes", "The format and the commands", "When something outside fails"
CODE_CRATES = (
    "park_miller sparse_rows parity_2d staircase triangle peeling null_witness gauss fec_session"
    " fec_threshold partial_block repair_request clash_proof"
).split()
APART = {
    ("fec_base", "Symbol"): CODES,
    **dict.fromkeys((("fec_base", name) for name in ("Causes", "Told", "Outside", "Bytes")), OUTSIDE),
    **dict.fromkeys((("packet_file", name) for name in ("OneReading", "Reading", "Taking")), OUTSIDE),
    **dict.fromkeys((("object_file", name) for name in ("Reception", "Taken")), OUTSIDE),
    **dict.fromkeys((("tool_base", name) for name in ("Outside", "Written", "Ending")), OUTSIDE),
}
COUNTING = {("std.proofs.Common", "zero"), ("std.proofs.Common", "suc")}

NAME = re.compile(r"\.?[A-Za-z_][\w'-]*")
HEAD = re.compile(
    r"(?:pub )?(?:abbrev|unfoldable|record|data)(?: pub)? ([^\s:(]+)|pub ([^\s:(]+) :"
)
CASE = re.compile(r"^  (\w+) :")
USE = re.compile(r"^ *(?:ghost )?use Rattle\.([\w.]+?)(?:\.\{([^}]*)\}| as ([\w-]+))?;?$", re.M)
ALSO = re.compile(r"^pub use Rattle\.(\w+)\.specs\.(\w+)$", re.M)
RUST_USE = re.compile(r"^(?:pub )?use (\w+)(?:::\w+)*::(?:\{([^}]*)\}|(\w+));", re.M)
EXPORT = re.compile(r"(#\[doc\(hidden\)\]\n)?^pub use \w+::(?:\{([^}]*)\}|(\w+));", re.M)
TYPE = re.compile(r"^(?:pub(?:\(\w+\))? )?(struct|enum|trait) (\w+)", re.M)
FUNCTION = re.compile(r"^( *)(pub )?(?:pub\(\w+\) )?(?:const )?fn (\w+)", re.M)
OWNER = re.compile(r"^(?:impl(?:<.*?>)? (?:\w+(?:<.*?>)? for )?|pub trait )(\w+)", re.M)
IMPL = re.compile(r"^impl(?:<.*?>)? (\w+)(?:<.*?>)? for (\w+).*\{$", re.M)
CLAUSE = re.compile(r"^ *(?:(?:requires|ensures)\*?(?: \w+)?|ghost \w+ ?[:=]) \{", re.M)

INTRODUCTION = """# What must be believed

The check proves that the code keeps its contracts. Whether a contract says what it should, a reader decides, and for
that reads the definitions that it rests on. This page lists those that the contract of `run` and the public laws rest
on. A file of `specs/` is believed whole or not at all.

`make trusted` prints the page, and fails where it isn't the list of today; `tools/trusted.py -v` has each definition
with its line. Behind a name stands its count of lines, without comments, and behind a crate the counts of its
definitions and of their lines.
"""
OTHERS = """
## What needn't be believed

No contract of `run` and no law rests on these files. On the first ones contracts of public functions of a crate do. The
others say how a crate keeps its values and what holds within it, and begin with `-- Inside:`.
"""
KIT = """
## Words of the kit

The definitions above use these words of std and of the kit's crates.
"""


def place(path):
    return str(path.relative_to(TOP))


def is_ours(module):
    return (CRATES / module.split(".")[0]).is_dir()


def listed(text):
    """The items of a list with commas."""
    return [item for item in re.split(r"\s*,\s*", text.strip()) if item]


def plain(text):
    """The text without quoted texts, comments, and the names of fields that are given values."""
    text = re.sub(r'"[^"\n]*"', '""', text)
    text = re.sub(r"(^|\s)(--|//).*$", " ", text, flags=re.M)
    return re.sub(r"(?<=[{;])(\s*)[\w'-]+ = ", r"\1", text)


def names(text):
    """The names in a text, of `a.b` the first alone."""
    return {name for name in NAME.findall(plain(text)) if name[0] != "."}


def braced(text, start):
    """From the brace at `start` to the one that closes it."""
    depth = 0
    for at in range(start, len(text)):
        depth += {"{": 1, "}": -1}.get(text[at], 0)
        if depth == 0:
            return text[start : at + 1]
    return text[start:]


def clauses(text):
    """The clauses and meanings that stand in a text."""
    return "\n".join(braced(text, match.end() - 1) for match in CLAUSE.finditer(text))


class Definition:
    """A definition of a file of specs/, with its lines but for comments."""

    def __init__(self, file, name, line):
        self.file, self.name, self.line, self.text = file, name, line, []

    def bound(self):
        """The names of its own parameters."""
        text = plain("\n".join(self.text))
        heads = [line.split(" = ")[0] for line in self.text if line.startswith(self.name + " ")]
        heads += re.findall(r"λ ([^.:]*)", text) + re.findall(r"let ([\w']+)", text)
        heads += re.findall(r"[({]([A-Za-z_][\w' -]*) :", text)
        return set().union(*map(names, heads))

    def cites(self):
        return names("\n".join(self.text)) - self.bound() - {self.name}


def counted(definitions):
    found = [d for d in definitions if isinstance(d, Definition)]
    return len(found), sum(len(d.text) for d in found)


class File:
    """A file of specs/ or src/, what its imports stand for, and its definitions."""

    def __init__(self, path):
        self.path, self.text = path, path.read_text()
        self.crate = path.relative_to(CRATES).parts[0]
        self.imports, self.definitions = {}, {}
        # The cases of a `data`, by their names.
        self.cases = {}
        for module, items, alias in USE.findall(self.text):
            if alias:
                self.imports[alias] = (module, None)
            for item in listed(items):
                name, _, other = item.partition(" as ")
                self.imports[other or name] = (module, name)
        if path.suffix == ".antt":
            self.read(USE.sub(lambda use: "\n" * use[0].count("\n"), self.text))

    def read(self, text):
        current = None
        for number, line in enumerate(text.splitlines(), 1):
            if not line.strip() or line.lstrip().startswith("--") or line.startswith("use "):
                continue
            if match := HEAD.match(line):
                current = Definition(self, match[1] or match[2], number)
                self.definitions[current.name] = current
            elif not current or line[0] not in " }" and line.split()[0] != current.name:
                sys.exit(f"{place(self.path)}:{number}: not understood")
            elif " data " in f" {current.text[0]}" and (match := CASE.match(line)):
                self.cases[match[1]] = current
            current.text.append(line)

    def functions(self):
        """(owner, whether it is `pub`, name, signature and clauses) of each function."""
        starts = list(FUNCTION.finditer(self.text))
        for match, after in zip(starts, starts[1:] + [None]):
            text = self.text[match.start() : after.start() if after else None]
            body = re.search(rf"^{match[1]}(?:\S.*)?\{{\}}?$", text, re.M)
            owners = OWNER.findall(self.text, 0, match.start()) if match[1] else []
            head = text[: body.end() if body else None]
            yield owners[-1] if owners else None, bool(match[2]), match[3], head


class Project:
    """All crates: what a name of a file stands for, and what that rests on."""

    def __init__(self):
        self.specs, self.sources, self.types, self.also = {}, [], {}, {}
        self.errors = set()
        for path in sorted(CRATES.glob("*/specs/*.antt")):
            crate, module = path.parts[-3], path.stem
            if module == "Lib":
                for other, name in ALSO.findall(path.read_text()):
                    self.also[crate, name] = other, name
            else:
                self.specs[crate, module] = File(path)
        for path in sorted(CRATES.glob("*/src/**/*.rt")):
            if not re.search(r"/src/(.*/)?(tests|fixtures)\b", str(path)):
                self.sources.append(File(path))
        for file in self.sources:
            for match in TYPE.finditer(file.text):
                self.types[file.crate, match[2]] = file, match

    def imported(self, file, name):
        """The definition or type that an import stands for; None where it is the kit's."""
        module, item = file.imports[name]
        crate, _, rest = module.partition(".")
        parts = rest.split(".")
        if not is_ours(module) or parts[0] != "specs":
            return None
        if parts[1] in ("declared", "contracts"):
            return next(((crate, part) for part in parts if (crate, part) in self.types), None)
        where = self.also.get((crate, parts[1]), (crate, parts[1]))
        if where in self.specs and item in self.specs[where].definitions:
            return self.specs[where].definitions[item]
        if where in self.specs and item in self.specs[where].cases:
            return self.specs[where].cases[item]
        self.errors.add(f"{place(file.path)}: `{item}` isn't in {crate}/specs/{parts[1]}.antt")
        return None

    def rust_types(self, file):
        """The project's types that a source file may name."""
        found = {name: (crate, name) for crate, name in self.types if crate == file.crate}
        for crate, items, single in RUST_USE.findall(file.text):
            for name in listed(items or single):
                owners = [owner for owner, other in self.types if other == name]
                if owners and (is_ours(crate) or crate == "crate"):
                    found.setdefault(name, (crate if crate in owners else owners[0], name))
        return found

    def cited(self, file, text):
        """The definitions and types that a text of a source file names."""
        types = self.rust_types(file)
        for name in names(text):
            what = self.imported(file, name) if name in file.imports else types.get(name)
            if what:
                yield what

    def rests_on(self, what):
        """The definitions and types that a definition or a type names."""
        if not isinstance(what, Definition):
            yield from self.cited(*self.meaning(what))
            return
        for name in what.cites():
            if name in what.file.definitions:
                yield what.file.definitions[name]
            elif name in what.file.imports and (found := self.imported(what.file, name)):
                yield found

    def meaning(self, name):
        """What contracts see of a type: its value, or else its fields; of a trait its clauses."""
        file, match = self.types[name]
        model = re.search(rf"^impl(?:<.*?>)? Model for {name[1]}\b.*\{{$", file.text, re.M)
        if model:
            block = braced(file.text, model.end() - 1)
            if value := re.search(r"ghost Value = \{.*\};", block):
                return file, value[0]
        rest = file.text[match.end() :]
        start = re.search(r"[{(;]", rest)
        text = braced(rest, start.start()) if start[0] == "{" else rest.split(";")[0]
        return file, clauses(text) if match[1] == "trait" else text

    def closure(self, roots):
        found, todo = set(), list(roots)
        while todo:
            what = todo.pop()
            if what not in found:
                found.add(what)
                todo += self.rests_on(what)
        return found

    def roots(self):
        """What `run`, the program's laws, other crates' laws, and public functions name."""
        run, laws, others, public = [], [], [], []
        for file in self.sources:
            shown, root = self.exports(file.crate), file.path.stem == "lib"
            for owner, is_pub, name, text in file.functions():
                cited = list(self.cited(file, text))
                if (file.crate, owner, name) == (COMMANDS, None, "run") and is_pub:
                    run += cited
                elif file.path.stem == "laws" and is_pub:
                    (laws if file.crate == PROGRAM_LAWS else others).extend(cited)
                elif is_pub and ((owner or name) in shown or root):
                    public += cited
            public += [what for what in self.types if what[0] == file.crate and what[1] in shown]
            for match in IMPL.finditer(file.text):
                if match[2] in shown and match[1] != "Model":
                    public += self.cited(file, clauses(braced(file.text, match.end() - 1)))
        return run, laws, others, public

    def exports(self, crate):
        """What the root file of a library shows; a program shows nothing."""
        root, found = CRATES / crate / "src" / "lib.rt", set()
        for hidden, items, single in EXPORT.findall(root.read_text() if root.is_file() else ""):
            found |= set() if hidden else set(listed(items or single))
        return found


class Listing:
    """What must be believed, which files hold it, and what is wrong with that."""

    def __init__(self, project):
        run, laws, others, public = project.roots()
        self.specs, self.missing = project.specs, project.errors
        self.run = project.closure(run)
        self.program = project.closure(run + laws)
        self.believed = project.closure(run + laws + others)
        self.public = project.closure(public)
        self.crates = re.findall(r"^(\w+):", (TOP / "crates.txt").read_text(), re.M)
        if not run or not laws:
            project.errors.add(f"crates/{COMMANDS}, crates/{PROGRAM_LAWS}: no contract of `run`, or no laws")

    def files(self, crate):
        """The files of a crate's specs/, in the order of its Lib.antt."""
        root = CRATES / crate / "specs" / "Lib.antt"
        modules = re.findall(r"^pub mod (\w+)$", root.read_text(), re.M) if root.is_file() else []
        return [self.specs[crate, name] for name in modules if (crate, name) in self.specs]

    def kind(self, file):
        held = set(file.definitions.values())
        if held & self.believed:
            return "believed"
        return "public" if held & self.public else "inside"

    def errors(self):
        found = set(self.missing)
        for file in self.specs.values():
            found.update(self.mixed(file))
            for definition in file.definitions.values():
                found.update(self.leanings(definition))
        if not PAGE.is_file() or PAGE.read_text() != self.page():
            found.add(f"{place(PAGE)}: isn't the list of today (`tools/trusted.py --write`)")
        return sorted(found)

    def mixed(self, file):
        """What is wrong with a file's first line, or stands there beside what must be believed."""
        kind, inside = self.kind(file), file.text.startswith(INSIDE)
        for d in file.definitions.values():
            at = f"{place(file.path)}:{d.line}: `{d.name}`"
            if kind == "believed" and d not in self.believed:
                yield f"{at} needn't be believed, and stands beside what must be"
            if inside and d in self.believed | self.public:
                yield f"{at} is inside, and a public contract or a law rests on it"
        if kind == "inside" and not inside:
            yield f"{place(file.path)}:1: nothing public rests on it: begin it with `{INSIDE}`"

    def leanings(self, definition):
        """Where a definition leans on proofs."""
        imports = definition.file.imports
        for name in definition.cites() & imports.keys():
            module = imports[name][0]
            kept = definition not in self.believed or imports[name] in COUNTING
            if ".proofs" in module and (is_ours(module) or not kept):
                at = f"{place(definition.file.path)}:{definition.line}"
                yield f"{at}: `{definition.name}` leans on {module}"

    def part(self, crate, name=None):
        """The part of the page that a file is in, or a crate's types."""
        return APART.get((crate, name)) or (CODES if crate in CODE_CRATES else TOOL)

    def table(self, crate, part):
        """Rows of the believed files of a crate that are in this part; the first has the crate and its counts."""
        files = [
            file
            for file in self.files(crate)
            if self.kind(file) == "believed" and self.part(crate, file.path.stem) == part
        ]
        held = [[d for d in f.definitions.values() if d in self.believed] for f in files]
        head = "**`%s`** %d, %d" % (crate, *counted(sum(held, [])))
        for file, definitions in zip(files, held):
            cells = ["", ""]
            for d in definitions:
                at = 0 if d in self.run else 1
                cells[at] += f"{', ' if cells[at] else ''}`{d.name}` {len(d.text)}"
            yield f"| {head} | [{file.path.stem}](../{place(file.path)}) | {cells[0]} | {cells[1]} |"
            head = ""

    def declared(self, part):
        """The row of the types of Rust that these definitions name."""
        found = {}
        for what in self.believed:
            if not isinstance(what, Definition) and self.part(what[0]) == part:
                found.setdefault(what[0], []).append(f"`{what[1]}`")
        names = "; ".join(f"`{crate}`: {', '.join(sorted(found[crate]))}" for crate in self.crates if crate in found)
        return [f"| types of Rust | | {names} | |"] if names else []

    def kit(self):
        """The words of the kit that believed definitions use, by module."""
        found = {}
        for d in (d for d in self.believed if isinstance(d, Definition)):
            text, cites = plain("\n".join(d.text)), d.cites()
            for name, (module, item) in d.file.imports.items():
                mixfix = "◌" in name and all(part in text for part in name.split("◌") if part)
                if item and not is_ours(module) and (mixfix or name in cites):
                    found.setdefault(module.replace(".specs", ""), set()).add(f"`{item}`")
        for crate in sorted({module.partition(".")[0] for module in found}):
            of_crate = sorted(module for module in found if module.partition(".")[0] == crate)
            words = "; ".join(f"{module.partition('.')[2]}: {', '.join(sorted(found[module]))}" for module in of_crate)
            yield f"- **{crate}**. {words}"

    def page(self):
        held = [d for file in self.specs.values() for d in file.definitions.values()]
        lines = [INTRODUCTION, "| what rests on them | definitions | lines |", "|---|---|---|"]
        for words, part in (
            ("the contract of `run`", self.run),
            ("that, and the laws of the program", self.program),
            ("these, and the laws of the other crates", self.believed),
            ("all that stands in `specs/`", held),
        ):
            lines.append("| %s | %d | %d |" % (words, *counted(part)))
        for part in (CODES, TOOL, OUTSIDE):
            own = [
                d
                for d in self.run
                if isinstance(d, Definition) and self.part(d.file.crate, d.file.path.stem) == part
            ]
            lines.append("\n## %s: for `run` definitions %d, lines %d\n" % (part, *counted(own)))
            lines.append("| crate | file | for `run` | for the laws alone |\n|---|---|---|---|")
            for crate in self.crates:
                lines += self.table(crate, part)
            lines += self.declared(part)
        lines += [OTHERS, "| crate | for its public contracts | inside |", "|---|---|---|"]
        for crate in self.crates:
            cells = {"believed": [], "public": [], "inside": []}
            for file in self.files(crate):
                cells[self.kind(file)].append(file.path.stem)
            public, inside = ", ".join(cells["public"]), ", ".join(cells["inside"])
            if public or inside:
                lines.append(f"| `{crate}` | {public} | {inside} |")
        return "\n".join([*lines, KIT, *self.kit()]) + "\n"

    def places(self):
        """Each believed definition with its file, line and count of lines."""
        for crate in self.crates:
            for file in self.files(crate):
                for d in file.definitions.values():
                    if d in self.believed:
                        yield f"{place(file.path)}:{d.line}: {d.name} ({len(d.text)})"


def main():
    listing, words = Listing(Project()), sys.argv[1:]
    if "--write" in words:
        PAGE.write_text(listing.page())
    elif "-v" in words:
        print("\n".join(listing.places()))
    elif "--check" not in words:
        print(listing.page(), end="")
    errors = listing.errors()
    for error in errors:
        print(error, file=sys.stderr)
    return 1 if errors else 0


if __name__ == "__main__":
    sys.exit(main())
