#!/usr/bin/env python3
"""Writes the list of tests in docs/TESTED.md, from the heading "The tests" on: what the head of each says.

    tested.py

Tests of crates are listed by their modules, each by the beginning of its `//!` comment, and scripts of checks/ and bindings/test by
that of their own. The cases and the files with many items of one kind have pages of their own.
"""

import re
from pathlib import Path

TOP = Path(__file__).resolve().parent.parent
PAGE = TOP / "docs/TESTED.md"
HEADING = "## The tests\n"
# the scripts that compare or try something
SCRIPTS = ["checks/*.sh", "checks/*.py", "checks/code/*.py", "checks/stacks/judge_dumps.py", "checks/stacks/judge_lines.py", "checks/stacks/step_vdso.py", "bindings/test/*.sh", "bindings/test/*.py"]
# those of them that only make data, or that another one calls
LEFT_OUT = {"make_prologs.py", "make_stack.py", "walk.py", "walk_core.py"}
# so many words of a head are shown, where a comma allows it
SHOWN = 11


def beginning(text):
    """A comment up to the end of its first sentence, or to what follows a colon or, in a long one, a comma there."""
    said = re.match(r"(.*?)(?:[.:;](?= )|[.:]?$)", " ".join(text.split()))[1]
    said = re.sub(r" \(.*?\)|, `[^`]* [^`]*`", "", said)
    while len(said.split()) > SHOWN and "," in said:
        said = said.rpartition(",")[0]
    return said[0].upper() + said[1:]


def of_module(file):
    return beginning("\n".join(re.findall(r"^//! ?(.*)", file.read_text(), re.M)))


def of_script(file):
    text = file.read_text()
    found = re.search(r'"""(.*?)(?:\n\n|""")', text, re.S) if file.suffix == ".py" else re.match(r"#!.*\n((?:# .*\n)+)", text)
    # (without how it is called)
    return beginning(re.sub(rf"^{re.escape(file.name)}[^:]*: ", "", " ".join(re.sub("^# ", "", found[1], flags=re.M).split())))


def tests_of_crates():
    for crate in sorted(TOP.glob("crates/*_vectors")):
        yield from ("", f"`{crate.name}`:", "")
        for file in sorted((crate / "src").rglob("*.rt")):
            if "#[test]" in file.read_text():
                yield f"- `{'::'.join(file.relative_to(crate / 'src').with_suffix('').parts)}`: {of_module(file)}"


def scripts():
    yield from ("", "Scripts:", "")
    for file in (file for pattern in SCRIPTS for file in sorted(TOP.glob(pattern)) if file.name not in LEFT_OUT):
        yield f"- `{file.relative_to(TOP)}`: {of_script(file)}"


def page():
    """The page, with the part that is made as the tests now say it."""
    text = PAGE.read_text()
    return text[: text.index(HEADING)] + "\n".join([HEADING.rstrip(), *tests_of_crates(), *scripts()]) + "\n"


if __name__ == "__main__":
    PAGE.write_text(page())
