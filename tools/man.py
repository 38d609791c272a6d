#!/usr/bin/env python3
"""Makes the manual page of a program: man.py PROGRAM, where PROGRAM is the built program; the page is printed.

The synopsis, what the program does, its arguments and its options are those of `PROGRAM --help`. The line under its name and
its status are what docs/PROGRAMS.md or docs/CHECK.md says. `framehop-walk` has no `--help`: of it all is from PROGRAMS.md.
"""

import re
import subprocess
import sys
from pathlib import Path

TOP = Path(__file__).resolve().parent.parent
# where each program is described: a page and the heading of its part
PARTS = {
    "framehop-walk": ("PROGRAMS.md", "`framehop-walk`"),
    "framehop-explain": ("PROGRAMS.md", "`framehop-explain`"),
    "framehop-stacks": ("PROGRAMS.md", "`framehop-stacks`"),
    "framehop-check": ("CHECK.md", "Unwind data against code"),
}


def version():
    return re.search(r'^version = "(.*)"', (TOP / "bindings/rust/Cargo.toml").read_text(), re.M)[1]


def plain(text):
    """A sentence of Markdown without links."""
    return re.sub(r"\[([^\]]*)\]\([^)]*\)", r"\1", text).strip()


def roff(text):
    """A text as roff: what is between backticks is bold, and no line is a request."""
    text = text.replace("\\", "\\e").replace("-", "\\-")
    text = re.sub(r"`([^`]+)`", r"\\fB\1\\fR", text)
    return re.sub(r"^([.'])", r"\\&\1", text, flags=re.M)


def about(name):
    """The line under the program's name: what the table of PROGRAMS.md says of it."""
    text = (TOP / "docs/PROGRAMS.md").read_text()
    row = re.search(rf"^\| \[?`{name}`.*?\| (.*) \|$", text, re.M)
    return plain(re.sub(r": \[.*?\]\(.*?\)$", "", row[1]))


def part(name):
    """The paragraphs that describe the program, without tables and code."""
    page, heading = PARTS[name]
    text = (TOP / "docs" / page).read_text()
    found = re.search(rf"^#+ {heading}.*?\n(.*?)(?=^## `|\Z)", text, re.M | re.S)
    body = re.sub(r"^```.*?^```", "", found[1], flags=re.M | re.S)
    paragraphs = [it.strip() for it in body.split("\n\n")]
    return [plain(it) for it in paragraphs if it.startswith(f"`{name}") or re.match(r"[^|#`-]", it)]


def help_of(program):
    """What `--help` prints, or what PROGRAMS.md says first in that form."""
    done = subprocess.run([program, "--help"], capture_output=True, text=True, stdin=subprocess.DEVNULL)
    if done.returncode == 0 and "Usage:" in done.stdout:
        return done.stdout
    first = part(Path(program).name)[0]
    usage, does = re.match(r"`([^`]+)` (.*)", first, re.S).groups()
    return f"{does[0].upper()}{does[1:]}\n\nUsage: {usage}\n"


def entries(text):
    """The lines of a list in the help: what is given, and what it does."""
    for line in text.splitlines():
        what, does = re.match(r" +(\S.*?)(?: {2,}(\S.*))?$", line).groups()
        yield f".TP\n\\fB{roff(what)}\\fR\n{roff(does or '')}"


def page(program):
    name = Path(program).name
    told, _, lists = help_of(program).partition("Usage:")
    usage, *lists = lists.strip().split("\n\n")
    status = [it for it in part(name) if it.startswith("The status is")]
    parts = [f'.TH {name.upper()} 1 "" "framehop {version()}" "User commands"']
    parts += [".SH NAME", f"{roff(name)} \\- {roff(about(name))}", ".SH SYNOPSIS", f"\\fB{roff(usage)}\\fR"]
    parts += [".SH DESCRIPTION", roff(told.strip())]
    for it in lists:
        title, _, lines = it.partition("\n")
        parts += [f".SH {title.rstrip(':').upper()}", *entries(lines)]
    if status:
        parts += [".SH EXIT STATUS", roff(status[0])]
    others = [f"\\fB{roff(it)}\\fR(1)" for it in PARTS if it != name]
    return "\n".join([*parts, ".SH SEE ALSO", ", ".join(others), ""])


def main():
    if len(sys.argv) != 2 or Path(sys.argv[1]).name not in PARTS:
        sys.exit(f"usage: man.py PROGRAM, one of {', '.join(PARTS)}")
    print(page(sys.argv[1]), end="")


main()
