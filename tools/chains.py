#!/usr/bin/env python3
"""Leads from a promise down to its last definition.

    chains.py            prints the way of each promise
    chains.py NAME ..    prints those whose heading has one of the names, as `IsDecodeRun` or `Peeler`

A section begins with a record of promises of the program, or with a call that README.md names in
its table of crates. Its first step is what that names, and each further step the definitions that
those of the step before name and that no earlier step has. Calls whose definitions end within
three steps have no section: their clauses lead down by themselves.
"""
import re
import sys
import textwrap

from trusted import COMMANDS, PROGRAM_LAWS, TOP, Definition, Project, counted, place

README = TOP / "README.md"
# Fewer steps than these need no section.
LONG = 4
RECORDS = {
    "IsEncodeRun": "a run of `encode`",
    "IsDecodeRun": "a run of `decode`, and what it tells",
    "IsPassRun": "a run of `lose` or `show`",
    "IsPerfRun": "a run of `perf`",
    "IsUsageRun": "words that mean no command",
}


class Chains:
    """The sections, one for each promise."""

    def __init__(self, project):
        self.project = project
        self.contracts = {}
        for file in project.sources:
            for owner, is_pub, name, text in file.functions():
                if is_pub:
                    cited = list(project.cited(file, text))
                    self.contracts.setdefault((file.crate, owner, name), []).extend(cited)

    def steps(self, roots, known=()):
        """The roots but for what is known, and step by step what they rest on."""
        step, seen = {what for what in roots if what not in known}, set(known)
        while step:
            yield sorted(step, key=self.order)
            seen |= step
            step = {x for what in step for x in self.project.rests_on(what)} - seen

    def order(self, what):
        """By crate, file and line; types by their names, before the definitions of their crate."""
        crate = what.file.crate if isinstance(what, Definition) else what[0]
        if isinstance(what, Definition):
            return crate, place(what.file.path), what.line, ""
        return crate, "", 0, what[1]

    def records(self):
        """The records of promises, each with what it is of."""
        for name, words in RECORDS.items():
            found = [
                file.definitions[name]
                for (crate, _), file in self.project.specs.items()
                if crate == COMMANDS and name in file.definitions
            ]
            yield name, words, found

    def laws(self):
        """What the laws of the program name."""
        for file in self.project.sources:
            if (file.crate, file.path.stem) == (PROGRAM_LAWS, "laws"):
                yield from self.project.cited(file, file.text)

    def calls(self):
        """The calls of README's table of crates, by crate, in its order."""
        for line in README.read_text().splitlines():
            cells = [cell.strip() for cell in line.split("|")]
            crates = re.findall(r"`(\w+)`", cells[1]) if len(cells) == 5 else []
            if not crates or crates == [COMMANDS] or not (TOP / "crates" / crates[0]).is_dir():
                continue
            kind = None
            for name in re.findall(r"`((?:\w+::)?\w+)`", cells[3]):
                owner, _, plain = name.rpartition("::")
                kind = owner or kind
                yield from self.call(crates, kind, owner, plain)

    def call(self, crates, kind, owner, plain):
        """The call of this name: of the type before it, of none, or of the type named last."""
        for crate in crates:
            for of in (owner,) if owner else (None, kind):
                if (crate, of, plain) in self.contracts:
                    name = f"{of}::{plain}" if of else plain
                    yield crate, name, self.contracts[crate, of, plain]
                    return

    def section(self, heading, roots, known=(), least=LONG):
        """A heading with its counts, and the steps, each file with its definitions."""
        steps = list(self.steps(roots, known))
        if len(steps) < least:
            return
        count, lines = counted([what for step in steps for what in step])
        yield f"{heading}\n{count} definitions, {lines} lines, in {len(steps)} steps."
        for number, step in enumerate(steps, 1):
            files = {}
            for what in step:
                files.setdefault(self.where(what), []).append(f"`{self.title(what)}`")
            text = "; ".join(f"{file} {', '.join(held)}" for file, held in files.items())
            head = f"{number}. "
            yield textwrap.fill(head + text, 100, subsequent_indent=" " * len(head))

    def where(self, what):
        """The file that holds a definition or a type."""
        return place((what.file if isinstance(what, Definition) else self.project.types[what][0]).path)

    def title(self, what):
        return what.name if isinstance(what, Definition) else what[1]

    def sections(self):
        """Each section as its lines."""
        held = set()
        for name, words, found in self.records():
            yield list(self.section(f"`{name}`: {words}", found))
            held |= self.project.closure(found)
        yield list(self.section("The laws of the program, without what stands above", self.laws(), held, 1))
        seen = set()
        for crate, name, roots in self.calls():
            if roots and (crate, name) not in seen:
                seen.add((crate, name))
                yield list(self.section(f"`{name}` of `{crate}`", roots))


def main():
    names = sys.argv[1:]
    for lines in Chains(Project()).sections():
        if lines and (not names or any(name in lines[0] for name in names)):
            print("\n".join(lines), end="\n\n")


if __name__ == "__main__":
    main()
