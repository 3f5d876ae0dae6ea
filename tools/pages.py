#!/usr/bin/env python3
"""Runs the commands of README.md and docs/GUIDE.md, and holds what they print against the page.

    pages.py [PAGE ..]

A command is an indented line that begins with `$ `; the indented lines behind it are what it prints, to either stream.
The commands of a page run one after the other by one shell, in a folder of their own where build/ and demo/ are this
repository's and `eperftool` on the PATH is build/eperftool. `make` isn't run. A difference is printed, and ends with
status 1. So is a row of docs/pictures/needed.dat that the guide's table hasn't.
"""
import os
import pathlib
import subprocess
import sys
import tempfile

TOP = pathlib.Path(__file__).resolve().parent.parent
GUIDE = "docs/GUIDE.md"
NEEDED = "docs/pictures/needed.dat"
PAGES = ["README.md", GUIDE]
END = "-- that was all --"


def commands(page):
    """The commands of a page, each with the lines that it is to print."""
    found, is_code = [], False
    for line in (TOP / page).read_text().splitlines():
        is_code = line.startswith("    ") and (is_code or line.startswith("    $ "))
        if line.startswith("    $ "):
            found.append((line[6:], []))
        elif is_code:
            found[-1][1].append(line[4:])
    return [(command, lines) for command, lines in found if not command.startswith("make ")]


def printed(all_commands):
    """What each of the commands prints."""
    script = "exec 2>&1\n" + "".join(f"{command}\necho '{END}'\n" for command in all_commands)
    with tempfile.TemporaryDirectory() as folder:
        for name in ("build", "demo"):
            os.symlink(TOP / name, f"{folder}/{name}")
        path = {"PATH": f"{TOP}/build:{os.environ['PATH']}"}
        done = subprocess.run(
            ["bash", "-c", script], cwd=folder, env=os.environ | path, stdout=subprocess.PIPE, text=True, check=False
        )
    return [part.splitlines() for part in done.stdout.split(f"{END}\n")]


def missing_rows():
    """The rows of the guide's table of needed packets that its data gives and that the guide hasn't, and their count."""
    rows, page = [], (TOP / GUIDE).read_text().splitlines()
    for block in (TOP / NEEDED).read_text().split("\n\n\n")[1:]:
        title, *lines = block.strip().splitlines()
        name = title.strip('"')
        for k, *percents in (map(float, line.split()) for line in lines):
            if k in (100, 1000):
                mean, most, half, most_of_all = (f"{percent:.1f}".removesuffix(".0") for percent in percents)
                rows.append(f"| {name}{' ' * bool(name)}| {k:,.0f} | {mean}, {most} | {half}, {most_of_all} |")
                name = ""
    return [row for row in rows if row not in page], len(rows)


def main():
    wrong = 0
    for page in sys.argv[1:] or PAGES:
        wanted = commands(page)
        for (command, lines), got in zip(wanted, printed([command for command, _ in wanted])):
            if [line.strip() for line in lines] != [line.strip() for line in got]:
                wrong += 1
                print(f"{page}: $ {command}", *(f"  page: {line}" for line in lines), sep="\n")
                print(*(f"  runs: {line}" for line in got), sep="\n")
        print(f"{page}: {len(wanted)} commands")
    if not sys.argv[1:]:
        rows, count = missing_rows()
        wrong += len(rows)
        print(*(f"{GUIDE} hasn't: {row}" for row in rows), f"{GUIDE}: {count} rows of {NEEDED}", sep="\n")
    return 1 if wrong else 0


if __name__ == "__main__":
    sys.exit(main())
