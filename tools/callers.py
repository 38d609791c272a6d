"""What the sources call, as text: which functions of products a program or a binding reaches, and which public items nothing
outside their crate names. check_docs.py asks for both.

A call is known by the name of the function and the number of its arguments, so that a method `map` with four is not taken for
that of an iterator. Clauses, comments and texts are left out, since definitions have names of functions.
"""

import re
from functools import cache
from pathlib import Path

TOP = Path(__file__).resolve().parent.parent
WORD = re.compile(r"[A-Za-z_]\w*")
ITEM = re.compile(r"^(\s*)pub (?:const |unsafe |extern \"\w*\" )*(fn|struct|enum|trait|const|static|type) (\w+)")
CLAUSE = re.compile(r"\b(?:requires|ensures)\s*\w*\s*\{|\bghost\s+\w+\s*[:=]\s*\{|#\[tactic\(")
GHOST_USE = re.compile(r"\bghost use [^;]*;")
# what is called where no call is written: by `?`, by `for`, by `==`, by a print, and where a value is dropped
IMPLICIT = {"from", "next", "into_iter", "eq", "fmt", "drop", "clone", "default", "cmp", "partial_cmp"}


def is_test(crate):
    return crate.name.endswith(("_vectors", "_sweeps"))


def is_program(crate):
    return (crate / "src/main.rt").is_file()


def crates():
    return [crate for crate in sorted((TOP / "crates").iterdir()) if (crate / "src").is_dir()]


def library():
    """`framehop` and the crates below it, whose public items are the library's own list."""
    lines = (line.partition(":") for line in (TOP / "crates.txt").read_text().split("\n") if not line.startswith("#"))
    below = {name.split()[0]: rest.split() for name, found, rest in lines if found}
    found, todo = set(), ["framehop"]
    while todo:
        crate = todo.pop()
        found.add(crate)
        todo.extend(set(below[crate]) & below.keys() - found)
    return found


def files(crate):
    return sorted((crate / "src").rglob("*.rt"))


def after_closing(text, opening):
    """The offset after the bracket that closes the one at an offset."""
    pairs, depth, at = {"(": ")", "{": "}", "[": "]", "<": ">"}, 0, opening
    start, end = text[opening], pairs[text[opening]]
    while at < len(text):
        depth += (text[at] == start) - (text[at] == end)
        at += 1
        if not depth:
            break
    return at


def without_words(text):
    """A source without comments, and with empty texts and characters."""
    text = re.sub(r"//[^\n]*", "", text)
    text = re.sub(r"b?\"(?:[^\"\\]|\\.)*\"", '""', text, flags=re.S)
    return re.sub(r"b?'(?:[^'\\\n]|\\[^\n]{1,8}?)'", "' '", text)


@cache
def code(file):
    """The code of a source: without clauses, ghost items and attributes of tactics, too."""
    text = GHOST_USE.sub("", without_words(file.read_text()))
    found = CLAUSE.search(text)
    while found:
        end = after_closing(text, found.end() - 1)
        text = text[: found.start()] + text[end:].removeprefix("]")
        found = CLAUSE.search(text, found.start())
    return text


def parts(text):
    """The parts of a list of arguments or parameters between its commas."""
    found, depth, start = [], 0, 0
    for at, character in enumerate(text):
        depth += (character in "([{") - (character in ")]}")
        if character == "<" and text[at - 1 : at] not in (" ", "<") or character == ">" and text[at - 1 : at] not in (" ", "-", "="):
            depth += 1 if character == "<" else -1
        if character == "," and depth == 0:
            found.append(text[start:at])
            start = at + 1
    return [part for part in [*found, text[start:]] if part.strip()]


def owner_of(head):
    """The type of an `impl`, or the trait of a `trait`, by what stands between that word and its brace."""
    head, before = re.sub(r"->", "", head), None
    while head != before:
        head, before = re.sub(r"<[^<>]*>", "", head), head
    head = head.split(" where")[0].split("\nwhere")[0].split(" for ")[-1].split(": ")[0]
    return WORD.findall(head)[-1]


def owners(text):
    """The blocks of methods in a source: where each begins and ends, and the type or the trait whose they are."""
    for found in re.finditer(r"^(?:pub |pub\(crate\) )?(?:impl|trait)\b", text, re.M):
        opening = text.find("{", found.end())
        yield found.start(), after_closing(text, opening), owner_of(text[found.end() : opening])


@cache
def functions(file):
    """The functions of a source: the type or trait whose it is, name, number of parameters, the text before the name in its
    line, and the body, which is empty where a trait has none."""
    text, found = code(file), []
    blocks = list(owners(text))
    for start in re.finditer(r"\bfn (\w+)", text):
        opening = text.find("(", start.end())
        if text[start.end() : start.end() + 1] == "<":
            opening = text.find("(", after_closing(text.replace("->", "  "), start.end()))
        end = after_closing(text, opening)
        body = re.compile(r"[{;]").search(text, end)
        line = text.rfind("\n", 0, start.start()) + 1
        inside = text[body.start() : after_closing(text, body.start())] if body and body[0] == "{" else ""
        owner = next((name for first, last, name in blocks if first < start.start() < last), None)
        found.append((owner, start[1], len(parts(text[opening + 1 : end - 1])), text[line : start.start()], inside))
    return found


def calls(body):
    """The names that a body mentions: what stands before each, and the number of arguments where it is called."""
    for found in WORD.finditer(body):
        at, before = found.end(), body[max(0, found.start() - 200) : found.start()]
        if body.startswith("::<", at):
            at = after_closing(body.replace("->", "  "), at + 2)
        count = None
        if body[at : at + 1] == "(":
            is_method = before.rstrip().endswith(".") and not before.endswith("..")
            count = len(parts(body[at + 1 : after_closing(body, at) - 1])) + is_method
        yield found[0], before, count


def called_by(owner, body, by_name):
    """The functions that the body of a function may call, of those that are known: a method of `self` is that of its type, if
    this has it, and so is one of a type that is named."""
    for name, before, count in calls(body):
        known = by_name.get(name, set())
        if count is not None:
            known = {of for of in known if of[2] == count}
        elif not before.endswith("::"):
            known = {of for of in known if of[0] is None}
        named = re.search(r"(\w+)(?:::<[^;]*>)?(?:::|\.)$", before)
        word = named[1] if named else None
        of_type = owner if word in ("self", "Self") else word
        yield from {of for of in known if of[0] == of_type} or known


def reached():
    """The functions that programs, bindings and the library's own list reach, each by its type, its name and its number of
    parameters; and all functions by their names."""
    bodies, by_name, roots, own = {}, {}, set(), library()
    for crate in crates():
        if is_test(crate):
            continue
        for file in files(crate):
            for owner, name, count, before, body in functions(file):
                node = (owner, name, count)
                bodies.setdefault(node, []).append(body)
                by_name.setdefault(name, set()).add(node)
                is_listed = crate.name in own and (owner or "pub " in before)
                if is_program(crate) or "extern" in before or name in IMPLICIT or is_listed:
                    roots.add(node)
    found, todo = set(roots), list(roots)
    while todo:
        node = todo.pop()
        for body in bodies[node]:
            called = set(called_by(node[0], body, by_name))
            todo.extend(called - found)
            found |= called
    return found, by_name


def uncalled(text):
    """The functions that a page names in backticks and that no program, binding or list of the library reaches."""
    found, by_name = reached()
    for span in sorted(set(re.findall(r"`([\w:]+)`", text))):
        *path, name = span.split("::")
        if name not in by_name or not name[0].islower():
            continue
        own = {node for node in by_name[name] if path and node[0] == path[-1]}
        if not (own or by_name[name]) & found:
            yield f"`{span}` is called by no program, no binding and no public item of the library"


@cache
def texts_of():
    """The sources by what a path may name before `::`: a crate, a module, a type or a trait."""
    found = {}
    for crate in crates():
        for file in files(crate):
            text = without_words(file.read_text())
            module = crate.name if file.stem in ("lib", "main") else file.stem
            for name in {module, *re.findall(r"\b(?:struct|enum|trait|type) (\w+)", text), *(name for _, _, name in owners(text))}:
                found.setdefault(name, []).append(text)
    return found


def lost_paths(text):
    """The paths that a page has in backticks, and whose last name nothing declares in the module or the type before it."""
    for span in sorted(set(re.findall(r"`(\w+(?:::\w+)+)`", text))):
        *_, before, name = span.split("::")
        declared = re.compile(rf"\b(?:fn|struct|enum|trait|const|static|type|mod|use) {name}\b|^\s*(?:pub )?{name}\s*[:,({{=]|\buse [^;]*\b{name}\b", re.M)
        held = texts_of().get(before)
        if held is not None and not any(declared.search(source) for source in held):
            yield f"`{span}`: {before} has no {name}"


def public_items(file):
    """The public items of a source: line, kind, name, and the text that tells of other types."""
    lines = without_words(file.read_text()).split("\n")
    for number, line in enumerate(lines):
        item = ITEM.match(line)
        if not item:
            continue
        end = number
        while end < len(lines) - 1 and not re.search(r"[;{]\s*$", lines[end]):
            end += 1
        if item[2] in ("struct", "enum", "trait") and not lines[end].rstrip().endswith(";"):
            while end < len(lines) - 1 and not lines[end].startswith(item[1] + "}"):
                end += 1
        yield number + 1, item[2], item[3], "\n".join(lines[number : end + 1])


def words_of(crate):
    """The words of a crate's sources, with what `write!` and `writeln!` call, and those that its definitions and proofs bring in."""
    found = {word for file in files(crate) for word in WORD.findall(re.sub(r"\bwrite(ln)?!", "write_fmt", without_words(file.read_text())))}
    for file in crate.rglob("*.antt"):
        for use in re.findall(r"^use ([^}]*\})", file.read_text(), re.M):
            found.update(WORD.findall(use))
    return found


def words_outside():
    """The words of each crate, and those of bindings and benchmarks."""
    inside = {crate.name: words_of(crate) for crate in crates()}
    others = set()
    for folder in ("bindings", "bench"):
        for file in (TOP / folder).rglob("*"):
            if file.suffix in (".rs", ".h", ".c", ".py", ".txt", ".toml"):
                others.update(WORD.findall(file.read_text()))
    return inside, others


def unnamed():
    """The public items of libraries that no other crate, no test and no binding names, and no public item of their crate."""
    inside, others = words_outside()
    for crate in crates():
        if is_test(crate) or is_program(crate):
            continue
        named = others.union(*(words for name, words in inside.items() if name != crate.name))
        items = [(file, *item) for file in files(crate) for item in public_items(file)]
        alone = {name for _, _, _, name, _ in items} - named
        told, count = set(), -1
        while count != len(told):
            count = len(told)
            for _, _, _, name, text in items:
                if name not in alone or name in told:
                    told |= {word for word in WORD.findall(text) if word != name and word in alone and word[0].isupper()}
            for file in files(crate):
                told |= {word for word in re.findall(r"^\s*type \w+ = (\w+)", code(file), re.M) if word in alone}
        for file, line, _, name, _ in items:
            if name in alone - told:
                yield f"{file.relative_to(TOP)}:{line}: {name} is public, and named by no other crate, test or binding"
