#!/usr/bin/env python3
"""Finds the clause behind each promise of docs/PROMISES.md and behind each status of docs/COMMANDS.md, the code of
docs/LIBRARY.md in the example, each definition that a page names with its file, what `main` puts in a box, and where each
link between pages leads.

A line of a table ends with functions and, in brackets, clauses of their contracts, or fields of a record of promises.
Each has to be there, in the crates that the heading above names. With `-v` each is printed with its file and line; a
name that isn't found is an error.
"""
import pathlib
import re
import sys
from typing import NamedTuple, Optional

TOP = pathlib.Path(__file__).resolve().parent.parent
PAGES = [TOP / "docs" / "PROMISES.md", TOP / "docs" / "COMMANDS.md"]
LIBRARY, EXAMPLE = TOP / "docs" / "LIBRARY.md", TOP / "crates" / "one_block"
# The crate that a file of definitions is of where a page names none.
COMMANDS = "tool_commands"
HEADS = ("|---", "| promise", "| law", "| status", "| words", "| call")
FUNCTION = re.compile(r"^\s*(?:pub(?:\([a-z]+\))? )?(?:const )?fn (\w+)")
TYPE = re.compile(r"^(?:impl(?:<[^>]*>)? (?:(\w+)(?:<[^>]*>)? for )?(\w+)|pub (?:struct|enum|trait) (\w+))")
CLAUSE = re.compile(r"^\s*ensures\*? (\w+) \{")
FIELD = re.compile(r"^ {2,4}pub (\w+) :")
PLACED = re.compile(r"((?:`\w+`(?:,|,? and)?\s*)+)\((?:in )?`(?:crates/)?((?:\w+/)?specs/\w+)(?:\.antt)?`")
BOXED = re.compile(r"a `(\w+)` in a box")
LINK = re.compile(r"\]\(([^)\s]+)\)")
NAMED = re.compile(r"`([\w:]+)`(?:`?: )?(?: \(([^)]*)\))?")


class Place(NamedTuple):
    """A function or a record: its type (None where it has none), its name, where it stands, and the lines of its
    clauses or fields."""

    owner: Optional[str]
    name: str
    path: pathlib.Path
    line: int
    parts: dict

    def at(self, part=None):
        return f"{self.path.relative_to(TOP)}:{self.parts[part] if part else self.line}"


def functions(crate):
    """The functions of a crate, with the lines of their clauses."""
    found = []
    for path in sorted((TOP / "crates" / crate / "src").rglob("*.rt")):
        owner, current = None, None
        for number, line in enumerate(path.read_text().splitlines(), 1):
            if match := TYPE.match(line):
                owner = match[2] or match[3]
            elif line.startswith("}"):
                owner = None
            if match := FUNCTION.match(line):
                current = Place(owner, match[1], path, number, {})
                found.append(current)
            elif current and (match := CLAUSE.match(line)):
                current.parts.setdefault(match[1], number)
    return found


def records(crate):
    """The definitions of a crate by their names, with the lines of the fields that a record has."""
    found = {}
    for path in sorted((TOP / "crates" / crate / "specs").glob("*.antt")):
        record = None
        for number, line in enumerate(path.read_text().splitlines(), 1):
            if match := re.match(r"^(?:pub record|abbrev pub) (\w+)", line):
                record = found.setdefault(match[1], Place(None, match[1], path, number, {}))
            elif line and not line.startswith((" ", "--")):
                record = None
            elif record and (match := FIELD.match(line)):
                record.parts.setdefault(match[1], number)
    return found


class Reader:
    """Reads a page, and keeps what it found and what it didn't."""

    def __init__(self, page):
        self.page, self.number = page, 0
        self.found, self.errors = [], []
        self.crates, self.functions, self.records = [], [], {}
        # A record's name may stand alone in a line, and its fields in later ones; a type's before its functions.
        self.record, self.owner = None, None

    def read(self):
        for self.number, line in enumerate(self.page.read_text().splitlines(), 1):
            if line.startswith("#"):
                self.enter(re.findall(r"`(\w+)`", line))
            if self.crates and line.startswith("|") and not line.startswith(HEADS):
                self.look_up(line.rstrip("|").split("|")[-1].strip())

    def enter(self, names):
        self.crates = [name for name in names if (TOP / "crates" / name).is_dir()]
        self.functions = [function for crate in self.crates for function in functions(crate)]
        self.records = {name: record for crate in self.crates for name, record in records(crate).items()}
        self.record = None

    def look_up(self, cell):
        self.owner = None
        for part in NAMED.finditer(cell):
            self.look_up_name(part[1], re.findall(r"`(\w+)`", part[2] or ""), cell)

    def look_up_name(self, name, clauses, cell):
        if name in self.records:
            self.record = self.records[name]
            self.found.append(f"{self.record.at()}: {name}")
            return
        plain, match = name.rpartition("::")[2], self.named(name)
        if not match and self.record and plain in self.record.parts:
            self.found.append(f"{self.record.at(plain)}: {self.record.name}.{plain}")
            return
        if not match and cell.startswith("`run`") and name != "run":
            clauses, match = [name], self.named("run")
        if match:
            self.found.append(f"{match[0].at()}: {name}")
            for clause in clauses:
                self.look_up_clause(name, clause, match)
        elif any(function.owner == plain for function in self.functions):
            self.owner = plain
        elif not (TOP / "crates" / name).is_dir():
            self.errors.append(f"docs/{self.page.name}:{self.number}: `{name}` isn't in {', '.join(self.crates)}")

    def named(self, name):
        """The functions of this name, of the type that stands before it or that was named last."""
        kind, _, plain = name.rpartition("::")
        self.owner = kind or self.owner
        same = [function for function in self.functions if function.name == plain]
        if kind:
            return [function for function in same if function.owner == kind]
        return [function for function in same if self.owner and function.owner == self.owner] or same

    def look_up_clause(self, name, clause, match):
        has = [function for function in match if clause in function.parts]
        if has:
            self.found.append(f"{has[0].at(clause)}: {name} ({clause})")
        elif not any(clause in record.parts for record in self.records.values()) and not clause.startswith("Is"):
            self.errors.append(f"docs/{self.page.name}:{self.number}: `{name}` has no clause `{clause}`")


def pasted():
    """Of each piece of code of the page on the library that isn't in the example, its first line."""
    sources = [path.read_text() for path in sorted((EXAMPLE / "src").rglob("*.rt"))]
    for code in re.findall(r"```rust\n(.*?)```", LIBRARY.read_text(), re.S):
        for piece in code.split("\n\n"):
            if not any(piece.strip("\n") in source for source in sources):
                yield f"docs/{LIBRARY.name}: not in the example: {piece.strip().splitlines()[0]}"


def misplaced():
    """Of each definition that a page names with its file, whether it isn't there."""
    for page in [TOP / "README.md", *sorted((TOP / "docs").glob("*.md"))]:
        for names, place in PLACED.findall(page.read_text().replace("\n", " ")):
            crate, _, file = place.rpartition("specs/")
            path = TOP / "crates" / (crate.rstrip("/") or COMMANDS) / "specs" / f"{file}.antt"
            text = path.read_text() if path.is_file() else ""
            for name in re.findall(r"`(\w+)`", names):
                if not re.search(rf"^(?:[a-z]+ )*{name}\b", text, re.M):
                    yield f"{page.relative_to(TOP)}: `{name}` isn't in {path.relative_to(TOP)}"


def unboxed():
    """Of each type that a page says the program puts in a box, whether `main` doesn't make one."""
    source = (TOP / "crates" / "eperftool" / "src" / "main.rt").read_text()
    for page in sorted((TOP / "docs").glob("*.md")):
        for name in BOXED.findall(page.read_text()):
            if f"Box::new(alloc, {name}::" not in source:
                yield f"{page.relative_to(TOP)}: `main` makes no `{name}` in a box"


def anchors(page):
    """What the headings of a page are called in links: small letters and digits, hyphens for spaces."""
    text = re.sub(r"^```.*?^```", "", page.read_text(), flags=re.M | re.S)
    titles = re.findall(r"^#+ (.*)$", text, re.M)
    return {re.sub(r"[^\w -]", "", title.lower()).replace(" ", "-") for title in titles}


def astray():
    """Of each link of a page to a place of this repository, whether that isn't there."""
    for page in [TOP / "README.md", *sorted((TOP / "docs").glob("*.md"))]:
        for link in LINK.findall(page.read_text()):
            name, _, anchor = link.partition("#")
            path = page.parent / name if name else page
            if link.startswith(("http:", "https:", "mailto:")):
                continue
            if not path.exists():
                yield f"{page.relative_to(TOP)}: `{link}` leads to no file"
            elif anchor and (path.suffix != ".md" or anchor not in anchors(path)):
                yield f"{page.relative_to(TOP)}: `{link}` leads to no heading"


def main():
    readers = [Reader(page) for page in PAGES]
    for reader in readers:
        reader.read()
    found = [line for reader in readers for line in reader.found]
    errors = [line for reader in readers for line in reader.errors]
    errors += [*pasted(), *misplaced(), *unboxed(), *astray()]
    if "-v" in sys.argv[1:]:
        print("\n".join(found))
        print(f"{len(found)} functions, clauses and fields found")
    if errors:
        print("\n".join(errors))
    return 1 if errors else 0


if __name__ == "__main__":
    sys.exit(main())
