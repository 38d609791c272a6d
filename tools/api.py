#!/usr/bin/env python3
"""Writes pages of the library crates with their public items: what the doc comments say, the signature, and each clause of
the contract with links to the definitions that it cites.

    api.py                      writes docs/api/framehop.md: what a user of `framehop` calls
    api.py [--plain] FOLDER     writes CRATE.md for each library into FOLDER; with --plain nothing links to the sources

The sources are read as text: a crate's modules from src/lib.rt on, through `pub mod`. An item is public where it
and its modules are, and a method where its type or trait has it. A word of a clause is looked up in the `ghost use`
lines of the item's file and block. Links lead to the lines of the sources; those of docs/api/framehop.md to files, so that it
changes only with what it has.
"""

import argparse
import os
import re
from pathlib import Path

TOP = Path(__file__).resolve().parent.parent
# the modules of `framehop` whose names its user has from the crates below
ENTRANCES = ["framehop", "framehop::x86_64", "framehop::aarch64"]
# those that are public for other crates of this repository, by which its user unwinds nothing
INNER = ["framehop::lookup", "framehop::unwind_data"]
ITEM = re.compile(r"(\s*)pub (?:const |extern \"C\" )?(fn|struct|enum|trait|const|type) (\w+)")
BLOCK = re.compile(r"(\s*)(?:pub )?(impl|trait)\b(.*)")
METHOD = re.compile(r"(\s*)(pub )?(?:final )?(?:const )?fn (\w+)")
CLAUSE = re.compile(r"\s*(requires|ensures) (\w*) ?\{")
GHOST_USE = re.compile(r"ghost use Rattle\.([\w.-]+)\.\{([^}]*)\}")
WORD = re.compile(r"[^\W\d][\w'-]*")


def libraries():
    """The libraries of crates.txt, without tests."""
    names = re.findall(r"^(framehop\w*)\b.*:", (TOP / "crates.txt").read_text(), re.M)
    return [name for name in names if (TOP / "crates" / name / "src/lib.rt").is_file() and not name.endswith(("_vectors", "_sweeps"))]


class Links:
    """How the pages of a folder link to sources: to their lines, to their files, or not at all."""

    def __init__(self, folder, has_lines=True, is_plain=False):
        self.folder, self.has_lines, self.is_plain = folder, has_lines, is_plain

    def source(self, name, file, line=None):
        """A name with a link to where it is in a source."""
        at = f"#L{line}" if line and self.has_lines else ""
        return f"`{name}`" if self.is_plain else f"[`{name}`]({os.path.relpath(file, self.folder)}{at})"


class Definitions:
    """The places of definitions in specs/, by crate and module."""

    def __init__(self):
        self.known = {}

    def file_of(self, path):
        """The file of a module path such as `framehop.specs.Outcome`, through `pub use` of the crate's Lib.antt."""
        parts = path.split(".")
        if len(parts) < 3 or parts[1] != "specs" or parts[2] == "declared":
            return None
        specs = TOP / "crates" / parts[0] / "specs"
        file = specs.joinpath(*parts[2:]).with_suffix(".antt")
        if file.is_file():
            return file
        lib = specs / "Lib.antt"
        if not lib.is_file():
            return None
        passed_on = re.search(rf"^pub use Rattle\.([\w.]+\.{parts[2]})$", lib.read_text(), re.M)
        if not passed_on or passed_on[1].split(".")[0] == parts[0]:
            return None
        return self.file_of(".".join([passed_on[1], *parts[3:]]))

    def place(self, path, name):
        """The file and line where a module defines a name, or none."""
        if (path, name) not in self.known:
            self.known[path, name] = self.look_up(path, name)
        return self.known[path, name]

    def look_up(self, path, name):
        file = self.file_of(path)
        if file is None:
            return None
        word = re.escape(name)
        patterns = [
            rf"(?:(?:abbrev|unfoldable|opaque|pub|data|record|rec) )*{word}(?:[\s:({{]|$)",
            rf"\s+(?:(?:abbrev|unfoldable|opaque|pub) )*{word} :",
        ]
        lines = file.read_text().split("\n")
        for pattern in patterns:
            for number, line in enumerate(lines, 1):
                if re.match(pattern, line) and not line.startswith(("use", "--")):
                    return file, number
        return None


def modules(file, path):
    """The modules of a crate with public items: each with its file, its path, and the names of those items, or none
    where the module is public. Of a private module those are public that the module around it passes on."""
    yield file, path, None
    text = file.read_text()
    folder = file.parent if file.name == "lib.rt" else file.with_suffix("")
    for name in re.findall(r"^pub mod (\w+);", text, re.M):
        yield from modules(folder / f"{name}.rt", f"{path}::{name}")
    for name in re.findall(r"^mod (\w+);", text, re.M):
        passed_on = re.findall(rf"^pub use (?:self::)?{name}::([^;]+);", text, re.M)
        names = {word for use in passed_on for word in re.findall(r"\w+", use)}
        if names:
            yield folder / f"{name}.rt", path, names


def imports(lines):
    """The module of each name that `ghost use` lines bring in."""
    found = {}
    for line in lines:
        match = GHOST_USE.search(line)
        for name in match[2].split(",") if match else []:
            parts = name.split(" as ")
            found[parts[-1].strip()] = (match[1], parts[0].strip())
    return found


def block_end(lines, start, indent):
    """The line after the block that begins at a line, by its closing brace at the same indentation."""
    for number in range(start, len(lines)):
        if lines[number].startswith(f"{indent}}}"):
            return number + 1
        if number == start and re.search(r"[;}]\s*$", lines[number]) or lines[number].startswith(f"{indent});"):
            return number + 1
    return len(lines)


def docs_before(lines, number):
    """The doc comment of the item at a line, over its attributes."""
    number -= 1
    while number >= 0 and lines[number].strip().startswith(("#[", ")]")):
        number -= 1
    found = []
    while number >= 0 and lines[number].strip().startswith("///"):
        line = re.sub(r"^\s*/// ?", "", lines[number])
        found.insert(0, re.sub(r"^# ", "#### ", line))
        number -= 1
    return found


def signature_and_clauses(lines, start):
    """The signature that begins at a line, and the clauses after it: keyword, name and text."""
    signature, clauses, number = [], [], start
    while number < len(lines):
        line = lines[number]
        match = CLAUSE.match(line)
        if match:
            text, depth = [], 0
            while True:
                text.append(lines[number])
                depth += lines[number].count("{") - lines[number].count("}")
                if depth <= 0:
                    break
                number += 1
            body = "\n".join(text)
            clauses.append((match[1], match[2], body[body.index("{") + 1 : body.rindex("}")].strip()))
            if text[-1].rstrip().endswith(";"):
                break
        elif line.strip() == "{" or clauses:
            break
        else:
            signature.append(re.sub(r"\s*[{;]\s*$", "", line))
            if re.search(r"[{;]\s*$", line):
                break
        number += 1
    return signature, clauses


def body_of(lines, start):
    """The fields or variants of a type: its lines without contracts, ghost members and attributes."""
    indent = re.match(r"\s*", lines[start])[0]
    end = block_end(lines, start, indent)
    kept = [line for line in lines[start:end] if not line.strip().startswith(("#[", "ghost "))]
    return [line[len(indent) :] for line in kept]


def trait_of(lines, start):
    """A trait's head, its types and its constants; its functions have headings of their own."""
    end = block_end(lines, start, "")
    head = next(at for at in range(start, end) if lines[at].rstrip().endswith(("{", "}")))
    members = [line for line in lines[head + 1 : end] if re.match(r"    (type|const) \w+\b[^{]*;", line)]
    return [*lines[start : head + 1], *members, *["}"][: not lines[head].rstrip().endswith("}")]]


def clause_text(clause, words, definitions, links):
    """A clause as Markdown: its text, and links to the definitions of its words."""
    keyword, name, text = clause
    cited = []
    for word in dict.fromkeys(WORD.findall(text)):
        path, original = words.get(word, (None, None))
        place = definitions.place(path, original) if path else None
        if place:
            cited.append(links.source(word, *place))
    text = re.sub(r"\n\s+", "\n  ", text)
    head = f"{keyword} {name}".strip()
    lines = ["", f"*{head}*" + (": " + ", ".join(cited) if cited else ""), "", "```", text, "```"]
    return lines


def item_page(lines, number, kind, title, words, definitions, source, links):
    page = ["", f"### {links.source(title, source, number + 1)}", ""]
    page += docs_before(lines, number) or ["(no text)"]
    if kind == "fn":
        signature, clauses = signature_and_clauses(lines, number)
        indent = len(signature[0]) - len(signature[0].lstrip())
        page += ["", "```rust", *[line[indent:] for line in signature], "```"]
        for clause in clauses:
            page += clause_text(clause, words, definitions, links)
    elif kind in ("struct", "enum"):
        page += ["", "```rust", *body_of(lines, number), "```"]
    elif kind == "trait":
        page += ["", "```rust", *trait_of(lines, number), "```"]
    return page


def without_parameters(text):
    """What is after the `<..>` at the head of a text."""
    depth = 0
    for at, sign in enumerate(text):
        depth += (sign == "<") - (sign == ">" and text[at - 1] != "-")
        if depth == 0:
            return text[at + 1 :].strip() if at else text
    return text


def head_of(lines, number):
    """The head of the block at a line, up to its brace, in one line."""
    head = []
    for line in lines[number:]:
        head.append(line.strip())
        if line.rstrip().endswith(("{", "}", "where")):
            break
    return " ".join(head)


def owner_of(head):
    """The type or trait that an `impl` or `trait` line is of, and whether all its functions are public."""
    kind, rest = head
    rest = without_parameters(rest) if kind == "impl" else rest
    by_trait = " for " in rest
    name = re.match(r"\w+", rest.split(" for ")[-1].strip())
    return (name[0] if name else rest.strip()), kind == "trait", by_trait


def module_page(file, path, names, definitions, links):
    lines = file.read_text().split("\n")
    outer, page, number = imports([line for line in lines if not line.startswith(" ")]), [], 0
    while number < len(lines):
        line = lines[number]
        block = BLOCK.match(head_of(lines, number)) if BLOCK.match(line) else None
        item = ITEM.match(line)
        if item and item[1] == "" and (names is None or item[3] in names):
            page += item_page(lines, number, item[2], f"{path}::{item[3]}", outer, definitions, file, links)
        if block and line[0] != " " and not line.startswith("pub(crate)"):
            owner, all_public, by_trait = owner_of((block[2], block[3].strip()))
            end = block_end(lines, number, "")
            inside = {**outer, **imports(lines[number:end])}
            shown = not by_trait and (names is None or owner in names)
            for at in range(number + 1, end if shown else 0):
                method = METHOD.match(lines[at])
                if method and method[1] == "    " and (method[2] or all_public):
                    page += item_page(lines, at, "fn", f"{owner}::{method[3]}", inside, definitions, file, links)
            number = end - 1
        number += 1
    return page


class Names:
    """The public names of all libraries: the items of each module, and what a module passes on."""

    def __init__(self):
        self.items, self.passed_on, self.libraries = {}, {}, libraries()
        for crate in self.libraries:
            for file, path, names in modules(TOP / "crates" / crate / "src/lib.rt", crate):
                text = file.read_text()
                listed = [item[3] for item in map(ITEM.match, text.split("\n")) if item and item[1] == ""]
                self.items.setdefault(path, []).extend(it for it in listed if names is None or it in names)
                if names is None:
                    self.passed_on[path] = dict(self.uses_of(text, crate, path))

    def uses_of(self, text, crate, path):
        """Each name that a module passes on, with the path that it has where it is from."""
        for use in re.findall(r"^pub use ([^;]+);", text, re.M):
            before, _, inside = "".join(use.split(" as ")[0].split()).partition("{") if "{" not in use else use.partition("{")
            for name in inside.rstrip("} \n").split(",") if inside else [use]:
                words = name.split(" as ")
                whole = "".join((before + words[0] if inside else words[0]).split())
                here = words[-1].strip().rpartition("::")[2]
                first = whole.partition("::")[0]
                if here:
                    yield here, whole if first in self.libraries else f"{crate if first == 'crate' else path}::{re.sub('^(crate|self)::', '', whole)}"

    def found(self, path):
        """The items that a path names, each with the rest of its path: itself, or all of a module."""
        around, _, name = path.rpartition("::")
        if name in self.items.get(around, ()):
            return [("", path)]
        if path in self.items:
            inner = {it.rpartition("::")[2]: it for it in self.items if it.rpartition("::")[0] == path}
            inner |= self.passed_on.get(path, {})
            own = [(f"::{it}", f"{path}::{it}") for it in self.items[path]]
            return own + [(f"::{it}{rest}", at) for it, to in inner.items() for rest, at in self.found(to)]
        to = self.passed_on.get(around, {}).get(name)
        return self.found(to) if to else []

    def named(self, path):
        """The items under a module's names that are from elsewhere: each name with the path that the item has."""
        found = {}
        for name, to in self.passed_on.get(path, {}).items():
            for rest, at in self.found(to):
                if at != f"{path}::{name}{rest}":
                    found[f"{path}::{name}{rest}"] = at
        return sorted(found.items())


def about(file):
    """What a file's head says, with headings below those of the page."""
    return [re.sub("^# ", "## ", line) for line in re.findall(r"^//! ?(.*)", file.read_text(), re.M)]


def anchor(path):
    return path.replace("::", "").lower()


def crate_lines(crate, definitions, names_of_all, links, link_to_item, left_out=()):
    source = TOP / "crates" / crate / "src"
    page = [f"# `{crate}`", "", *about(source / "lib.rt")]
    for file, path, names in modules(source / "lib.rt", crate):
        if path in left_out:
            continue
        items = module_page(file, path, names, definitions, links)
        named = names_of_all.named(path) if names is None else []
        if items or named:
            said = about(file) if file.name != "lib.rt" else []
            page += ["", f"## `{path}`", "", *said, *items]
        if named:
            page += ["", "Under names of this module, too:", "", *(f"- {link_to_item(name, at)}" for name, at in named)]
    return page


def crate_page(crate, definitions, names_of_all, links):
    lines = crate_lines(crate, definitions, names_of_all, links, lambda name, at: f"[`{name}`]({at.partition('::')[0]}.md#{anchor(at)})")
    return "\n".join(lines) + "\n"


def modules_below():
    """The modules of the crates that `framehop` stands on, and their public items."""
    for crate in (name for name in libraries() if name != "framehop"):
        for file, path, names in modules(TOP / "crates" / crate / "src/lib.rt", crate):
            yield file, path, names


def page_of_framehop():
    """What a user of `framehop` calls: its modules but those of INNER, and what those of ENTRANCES pass on by name."""
    definitions, names, links = Definitions(), Names(), Links(TOP / "docs/api", has_lines=False)
    files = {path: file for file, path, _ in modules_below()}
    passed_on = [at for module in ENTRANCES for to in names.passed_on[module].values() for rest, at in names.found(to) if not rest]
    wanted = {}
    for at in passed_on:
        module, _, name = at.rpartition("::")
        if module in files:
            wanted.setdefault(module, set()).add(name)

    def link_to_item(name, at):
        module, _, item = at.rpartition("::")
        is_here = module not in files or item in wanted.get(module, ())
        return f"[`{name}`](#{anchor(at)})" if is_here else links.source(name, files[module])

    page = crate_lines("framehop", definitions, names, links, link_to_item, INNER)
    for module, items in wanted.items():
        page += ["", f"## `{module}`", *module_page(files[module], module, items, definitions, links)]
    return "\n".join(page) + "\n"


def write_pages(folder, is_plain=False):
    folder.mkdir(parents=True, exist_ok=True)
    definitions, names, links = Definitions(), Names(), Links(folder, is_plain=is_plain)
    for crate in libraries():
        (folder / f"{crate}.md").write_text(crate_page(crate, definitions, names, links))
    print(f"{len(libraries())} pages in {folder}")


def arguments(doc):
    """The arguments of a script that makes pages: a folder, or none, and whether links to sources are left out."""
    parser = argparse.ArgumentParser(description=doc, formatter_class=argparse.RawDescriptionHelpFormatter)
    parser.add_argument("--plain", action="store_true", help="no links to the sources")
    parser.add_argument("folder", nargs="?", type=Path, help="the folder for the pages of all crates")
    given = parser.parse_args()
    return given.folder and given.folder.resolve(), given.plain


def main():
    folder, is_plain = arguments(__doc__)
    if folder:
        write_pages(folder, is_plain)
    else:
        (TOP / "docs/api/framehop.md").write_text(page_of_framehop())


if __name__ == "__main__":
    main()
