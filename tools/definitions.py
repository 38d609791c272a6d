#!/usr/bin/env python3
"""Writes what contracts speak of: the list of the crates with definitions, and for each of them a page with the definitions of
its specs/, as the comments there say them, and what cites each.

    definitions.py                      writes docs/DEFINITIONS.md, the list, with links to the sources
    definitions.py [--plain] FOLDER     writes DEFINITIONS.md and definitions/CRATE.md into FOLDER; with --plain nothing links to
                                        the sources

The sources are read as text. A comment belongs to the definition under it and to those that follow without one. A definition
is cited by each function whose contract has its name, as `ghost use` brings it in, and by each trait and impl that has it in a
ghost member; or, where there is none, by the definitions that are made of it. Lemmas are listed by their files.
"""

import re
import sys
from dataclasses import dataclass, field
from pathlib import Path

sys.dont_write_bytecode = True
import api

TOP = api.TOP
COMMENT = re.compile(r"( *)-- ?(.*)")
PART = re.compile(r"-- -+ (.*)")
KIND = r"(?:abbrev|unfoldable|opaque|rec|record|data)"
DEFINED = re.compile(rf"( *)((?:{KIND} )*)pub (?!mod |use )((?:{KIND} )*)([^\s({{:]+)")
HIDDEN = re.compile(rf" *(?:{KIND} )+(?!pub\b)[^\s({{:]+")
USE = re.compile(r"use Rattle\.([\w.-]+)\.\{([^}]*)\}")
WORD = api.WORD
LEMMAS = "They follow from the definitions, and define nothing that a contract cites. Other crates and the laws of traits use them."
# how many of what cites a definition are named
SHOWN = 6


@dataclass
class Definition:
    name: str
    line: int
    end: int = 0
    # what cites it, with whether that is public; and the definitions that are made of it
    cited: dict = field(default_factory=dict)
    used: dict = field(default_factory=dict)


@dataclass
class Group:
    """Definitions under one comment."""

    says: str
    members: list


@dataclass
class SpecFile:
    path: Path
    about: list
    # what stands in the file, in its order: titles of parts, and groups
    content: list

    def definitions(self):
        return [it for group in self.content if isinstance(group, Group) for it in group.members]


# ---- what a file of specs/ has


def head_of(lines):
    """The comment at the head of a file, and how many lines it has."""
    count = next((at for at, line in enumerate(lines) if not line.startswith("--")), len(lines))
    return [re.sub("^-- ?", "", line) for line in lines[:count]], count


def read_file(path):
    lines = path.read_text().split("\n")
    about, at = head_of(lines)
    found = SpecFile(path, about, [])
    comment, record, groups = [], None, []
    for number, line in enumerate(lines[at:], at + 1):
        said, part = COMMENT.match(line), PART.match(line)
        indent = len(line) - len(line.lstrip())
        if line.strip() and record is not None and indent <= record:
            record = None
        if part:
            found.content.append(part[1])
            groups, comment = [], []
        elif said:
            comment.append(said[2])
        elif not line.strip():
            comment = []
        elif record is None and (defined := DEFINED.match(line)):
            if "record" in defined[2] + defined[3] or "data" in defined[2] + defined[3]:
                record = indent
            if comment or not groups:
                groups = [Group(" ".join(comment), [])]
                found.content.append(groups[0])
            groups[0].members.append(Definition(defined[4], number))
            comment = []
        elif not re.match(r"module _| *infix", line):
            comment = []
            # (what is private to the file has no comment of its own to hand on)
            if HIDDEN.match(line):
                groups = []
    members = found.definitions()
    for this, after in zip(members, [*members[1:], Definition("", len(lines) + 1)]):
        this.end = after.line
    return found


def files_of(crate):
    """The files of a crate's specs/ in the order of its modules, without lemmas; and those of lemmas, also in proofs/, that other
    crates may use."""
    specs = TOP / "crates" / crate / "specs"
    listed = [specs / "Lib.antt"]
    for file in listed:
        folder = specs if file.name == "Lib.antt" and file.parent == specs else file.with_suffix("")
        names = re.findall(r"^pub mod (\w+)", file.read_text(), re.M)
        listed += [it for it in (folder / f"{name}.antt" for name in names) if it.is_file()]
    lemmas = [file for file in listed if "Laws" in file.relative_to(specs).with_suffix("").parts]
    definitions = [file for file in listed if file not in lemmas]
    proofs = specs.parent / "proofs"
    if (proofs / "Lib.antt").is_file():
        lemmas += [proofs / f"{name}.antt" for name in re.findall(r"^pub mod (\w+)", (proofs / "Lib.antt").read_text(), re.M)]
    return definitions, lemmas


# ---- what cites a definition


class Cited:
    """The definitions of all crates by their places, to note what cites each."""

    def __init__(self, files):
        self.places = api.Definitions()
        self.known = {(file.path, it.name): it for file in files for it in file.definitions()}

    def note(self, words, text, crate, label, is_public=True):
        for word in dict.fromkeys(WORD.findall(text)):
            path, original = words.get(word, (None, None))
            place = self.places.place(path, original) if path else None
            found = self.known.get((place[0], original)) if place else None
            if found:
                found.cited.setdefault((crate, label), is_public)

    def note_function(self, lines, at, words, crate, label, is_public):
        for _, _, text in api.signature_and_clauses(lines, at)[1]:
            self.note(words, text, crate, label, is_public)

    def note_members(self, lines, words, crate, label):
        """The ghost members of a block: each is a line and those that are further in."""
        is_inside = False
        for line in lines:
            if re.match(r"    \S", line):
                is_inside = re.match(r"    (?:pub )?ghost (?!use )", line) is not None
            if is_inside:
                self.note(words, line, crate, label)

    def note_source(self, file, crate):
        lines = file.read_text().split("\n")
        outer = api.imports([line for line in lines if not line.startswith(" ")])
        for at, line in enumerate(lines):
            function = api.METHOD.match(line.replace('extern "C" ', "").replace("pub(crate) ", ""))
            if function and not function[1]:
                self.note_function(lines, at, outer, crate, f"`{function[3]}`", function[2] is not None)
            elif re.match(r"(pub(\(crate\))? )?(impl|trait|struct|enum)\b", line):
                self.note_block(lines[at : api.block_end(lines, at, "")], outer, crate)

    def note_block(self, lines, outer, crate):
        head = api.BLOCK.match(api.head_of(lines, 0).replace("pub(crate) ", ""))
        words = {**outer, **api.imports(lines)}
        if not head:
            name = re.search(r"(?:struct|enum) (\w+)", lines[0])[1]
            self.note_members(lines[1:], words, crate, f"`{name}`")
            return
        owner, is_trait, by_trait = api.owner_of((head[2], head[3].strip()))
        rest = api.without_parameters(head[3].strip())
        label = f"`{re.match('[^ <]+', rest)[0]}` of `{owner}`" if by_trait else f"`{owner}`"
        self.note_members(lines[1:], words, crate, label)
        for at, line in enumerate(lines):
            method = api.METHOD.match(line.replace("pub(crate) ", ""))
            if method and method[1] == "    ":
                self.note_function(lines, at, words, crate, f"`{owner}::{method[3]}`", is_trait or by_trait or method[2] is not None)

    def note_definitions(self, file):
        """For definitions of a file: those of which they are made are cited by them, where no contract does so."""
        lines, crate = file.path.read_text().split("\n"), file.path.relative_to(TOP / "crates").parts[0]
        words = {}
        for path, names in USE.findall("\n".join(lines)):
            for name in names.split(","):
                parts = name.split(" as ")
                words[parts[-1].strip()] = (path, parts[0].strip())
        own = {it.name: it for it in file.definitions()}
        for definition in file.definitions():
            text = "\n".join(line for line in lines[definition.line - 1 : definition.end - 1] if not COMMENT.match(line))
            for word in dict.fromkeys(WORD.findall(text)):
                place = self.places.place(*words[word]) if word in words else None
                found = self.known.get((place[0], words[word][1])) if place else own.get(word)
                if found and found is not definition:
                    found.used[crate, f"`{definition.name}`"] = None


def citing(group, crate):
    """What cites the definitions of a group, in words."""
    cited = [it for member in group.members for it in member.cited.items()]
    by_contract = [*dict.fromkeys(it for it, _ in sorted(cited, key=lambda it: not it[1]))]
    by_definition = dict.fromkeys(it for member in group.members for it in member.used)
    own = {f"`{member.name}`" for member in group.members}
    names = [it for it in by_contract or by_definition if by_contract or it[1] not in own]
    text, shown = [], names[:SHOWN]
    for place in dict.fromkeys(place for place, _ in shown):
        listed = ", ".join(label for at, label in shown if at == place)
        text.append(listed if place == crate else f"{listed} of `{place}`")
    more = f" and {len(names) - SHOWN} more" if len(names) > SHOWN else ""
    return ("" if by_contract or not names else "by ") + "; ".join(text) + more


# ---- pages


def cell(text):
    return text.replace("|", "\\|").replace("<", "&lt;")


def rows(file, crate, links):
    """The tables of a file's definitions, one for each part of it."""
    is_open = False
    for it in file.content:
        if isinstance(it, str):
            yield from ("", f"*{it[0].upper()}{it[1:]}*")
            is_open = False
            continue
        if not is_open:
            yield from ("", "| Definition | What it is | Cited by |", "|---|---|---|")
            is_open = True
        names = ", ".join(links.source(cell(member.name), file.path, member.line) for member in it.members)
        yield f"| {names} | {cell(it.says)} | {cell(citing(it, crate))} |"


def title(file, crate):
    return str(file.relative_to(TOP / "crates" / crate).with_suffix("")).removeprefix("specs/")


def crate_page(crate, files, lemmas, links):
    lib, *others = files
    page = [f"# Definitions of `{crate}`", "", *lib.about]
    for file in others:
        if file.content:
            page += ["", f"## {links.source(title(file.path, crate), file.path)}", "", *file.about, *rows(file, crate, links)]
    if lemmas:
        page += ["", "## Lemmas", "", LEMMAS, "", "| File | What it has |", "|---|---|"]
    for file in lemmas:
        about, _ = head_of(file.read_text().split("\n"))
        page.append(f"| {links.source(title(file, crate), file)} | {cell(' '.join(about))} |")
    return "\n".join(page) + "\n"


def contents(crates, link_of):
    """The list of the crates."""
    yield from ("# Definitions", "")
    yield (
        "What contracts speak of, crate by crate: each definition has a comment that says what it is and where it comes from. One "
        "without a source is this project's own. [READING.md](READING.md) says how a contract is read. `tools/definitions.py FOLDER` "
        "makes a page for each crate, with what cites each definition."
    )
    yield from ("", "| Crate | What its definitions are of |", "|---|---|")
    for crate, files in crates.items():
        about = " ".join(files[0].about).split("  ")[0].removeprefix("What the contracts of this crate cite: ").rstrip(".")
        yield f"| [`{crate}`]({link_of(crate)}) | {cell(about)} |"


class All:
    """The definitions of all crates, with what cites each."""

    def __init__(self):
        self.crates, self.lemmas = {}, {}
        for crate in api.libraries():
            if (TOP / "crates" / crate / "specs/Lib.antt").is_file():
                paths, self.lemmas[crate] = files_of(crate)
                self.crates[crate] = [read_file(path) for path in paths]
        self.crates = {crate: files for crate, files in self.crates.items() if any(file.content for file in files)}

    def note_what_cites(self):
        every = [file for files in self.crates.values() for file in files]
        cited = Cited(every)
        for crate in self.crates:
            for source in sorted((TOP / "crates" / crate / "src").rglob("*.rt")):
                cited.note_source(source, crate)
        for file in every:
            cited.note_definitions(file)


def contents_page():
    """docs/DEFINITIONS.md."""
    return "\n".join(contents(All().crates, lambda crate: f"../crates/{crate}/specs/Lib.antt")) + "\n"


def write_pages(folder, is_plain=False):
    inner = folder / "definitions"
    inner.mkdir(parents=True, exist_ok=True)
    every, links = All(), api.Links(inner, is_plain=is_plain)
    every.note_what_cites()
    for crate, files in every.crates.items():
        (inner / f"{crate}.md").write_text(crate_page(crate, files, every.lemmas[crate], links))
    (folder / "DEFINITIONS.md").write_text("\n".join(contents(every.crates, lambda crate: f"definitions/{crate}.md")) + "\n")
    print(f"{len(every.crates)} pages in {inner}")


def main():
    folder, is_plain = api.arguments(__doc__)
    if folder:
        write_pages(folder, is_plain)
    else:
        (TOP / "docs/DEFINITIONS.md").write_text(contents_page())


if __name__ == "__main__":
    main()
