#!/usr/bin/env python3
"""Checks the documents against the sources, and prints a line for each fault; the status is 1 where there is one:
check_docs.py [--run [PROGRAM..]].

- Each link of a document leads to a file of the repository, to a heading that is there, or to a line that is.
- Each script or source in backticks is a file of the repository.
- Each name in backticks of the pages of NAMED is in the sources, the scripts, the edits or a file's name; so is each of
  several words of the other pages; and the last name of each path is declared in the module or the type before it.
- Each function that PROVED.md names is called by a program, a binding or a public item of the library; and each public item
  of a library is named by another crate, a test or a binding.
- docs/house.svg has the crates, what stands on what, and the lines that tools/house.py draws; docs/flames.svg has the boxes of
  the stacks that perf tells of its recording (checks/stacks/both.folded).
- No file has the marks of a merge that was not finished.
- No stored file has the environment of a process; no attribute has the word by which `rt ci` knows a test.
- The Rust of README.md, of docs/EXAMPLES.md and of the doc comments' examples is in the tests, line by line.
- No line of a document has more than 100 words, tables and code excepted; and no document more words than LIMITS says.
- docs/api/framehop.md is what tools/api.py makes, and has each name that the tests name there; docs/DEFINITIONS.md and
  the list of tests in docs/TESTED.md are what tools/definitions.py and tools/tested.py make.
- The pages that the two make of all crates, in a folder of their own here, have no dead link, each public method, and each
  public definition of specs/, as these are read here.
- Each edit of checks/edits/CRATE can be applied, and each promise of PROVED.md has one.
- Each source, definition and proof has the layout that `rt fmt` gives it.
- The table of ARCHITECTURE.md has each crate of crates.txt; and EXAMPLES.md lists the libraries below `framehop`.
- Each command of PROGRAMS.md is in the file of examples/ that has its name.

With `--run` it checks instead what README.md, docs/CHECK.md, docs/PROGRAMS.md and docs/EXAMPLES.md print, by the programs that
the gate leaves, or those that are named: the output of each command after a `$`, and the lines after a command in JSON.
"""

import contextlib
import re
import shlex
import subprocess
import sys
import tempfile
from pathlib import Path

sys.dont_write_bytecode = True
import api
import callers
import definitions
import house
import tested

TOP = Path(__file__).resolve().parent.parent
sys.path.insert(0, str(TOP / "checks/stacks"))
import boxes

NAMED = [
    *(f"docs/{name}.md" for name in ("ARCHITECTURE", "CHANGING", "DEFINITIONS", "PROVED", "READING")),
    *(f"{name}/README.md" for name in ("bindings", "checks/cases", "checks/edits")),
    "CHANGELOG.md",
]
# the pages whose commands are run
SHOWN = ["README.md", "docs/CHECK.md", "docs/PROGRAMS.md", "docs/EXAMPLES.md"]
PROGRAMS = ("check", "explain", "stacks", "walk")
EXAMPLES = [
    TOP / f"crates/{place}.rt"
    for place in ("framehop_vectors/src/readme", "framehop_vectors/src/readme/minidump", "framehop_vectors/src/elf", "framehop_vectors/src/proved_caller")
]
# the page that a script makes of sources
MADE = TOP / "docs/api/framehop.md"
PATHS = TOP / "crates/framehop_vectors/src/paths.rt"
FENCE = re.compile(r"^```.*?^```", re.M | re.S)
WORD = re.compile(r"[^\W\d][\w'-]*")
NUMBERS = "none one two three four five six seven eight nine ten eleven twelve".split()
# how many words the pages may have, one or several together
LIMITS = {
    ("README.md",): 900,
    ("docs/PROVED.md",): 6000,
    ("docs/DECISIONS.md",): 4000,
    ("docs/FORMATS.md",): 3500,
    ("docs/PROGRAMS.md",): 4500,
    ("docs/REAL.md",): 2000,
    ("docs/TESTED.md",): 2000,
    ("docs/SPEED.md",): 2000,
    ("docs/ARCHITECTURE.md",): 2500,
    ("docs/DIFFERENCES.md",): 1800,
    ("docs/CHANGING.md",): 1350,
    ("docs/GATE.md",): 800,
    ("docs/CHECK.md",): 1000,
    ("docs/EXAMPLES.md",): 900,
    ("docs/READING.md", "docs/DEFINITIONS.md"): 1450,
    ("CONTRIBUTING.md", "docs/VERSIONS.md"): 600,
    ("docs/api/framehop.md",): 10000,
    ("bindings/README.md",): 1600,
    ("checks/cases/README.md",): 700,
    ("checks/edits/README.md",): 400,
    ("checks/squares/README.md",): 300,
}
# all of them together, without the page of docs/api
MOST_WORDS = 35000
# how many commands have their output in a document, at least
LEAST_SHOWN = 14
# the lines of an edit that are no text: checks/edits/try says what they are for
EDIT_KEYS = {"fn", "gate", "promise", "alone", "harmless", "says", "tests"}
# words of a name in backticks that are not names of this repository: Rust's, and values of arguments
FOREIGN = set("Err None Some Ok Option Result Vec u8 u16 u32 u64 usize for true false null".split())
# names of several words that are those of other programs
OTHERS = {"clap_complete", "my_profiler", "x25519_fe51_mul"}
# how the environment of a process is stored, as bytes and as hexadecimal digits
ENVIRONMENT = re.compile(rb"(?:^|[\0\n])(?:HOME|PWD|PATH|USER|LOGNAME|SHELL|HOSTNAME)=[^\0\n]*\0|00(?:484f4d45|505744|50415448|55534552|5348454c4c)3d", re.I)


def documents():
    top = [TOP / "README.md", TOP / "CHANGELOG.md", TOP / "CONTRIBUTING.md", TOP / "bindings/README.md"]
    return [*top, *sorted(TOP.glob("checks/*/README.md")), *sorted(TOP.glob("docs/*.md")), MADE]


def without_code(text):
    """The text with its code blocks as empty lines."""
    return FENCE.sub(lambda block: "\n" * block[0].count("\n"), text)


def anchors(text):
    """The names by which a page's headings are linked to."""
    headings = re.findall(r"^#+ (.*)", without_code(text), re.M)
    plain = [re.sub(r"[`\[\]]|\(.*?\)", "", heading).lower() for heading in headings]
    return {re.sub(r"[^\w\- ]", "", heading).replace(" ", "-") for heading in plain}


def dead_links(page, text):
    for target in re.findall(r"\]\(([^)\s]+)\)", without_code(text)):
        if re.match(r"\w+://", target):
            continue
        path, _, fragment = target.partition("#")
        file = (page.parent / path).resolve() if path else page
        if not file.exists():
            yield f"no file {target}"
        elif re.fullmatch(r"L\d+", fragment):
            if int(fragment[1:]) > file.read_text().count("\n"):
                yield f"no line {target}"
        elif fragment and fragment not in anchors(file.read_text()):
            yield f"no heading {target}"


def tracked():
    """The files of the repository, also those not yet committed; where git can't say, all but what `rt` makes."""
    command = ["git", "ls-files", "--cached", "--others", "--exclude-standard"]
    listed = subprocess.run(command, cwd=TOP, capture_output=True, text=True)
    names = listed.stdout.split("\n")
    if listed.returncode:
        names = [str(file.relative_to(TOP)) for file in TOP.rglob("*") if not {"out", ".git"} & {*file.parts}]
    return [name for name in names if name and (TOP / name).is_file()]


def names_of_sources():
    """All words of the sources, the scripts and the edits, and of the files' names."""
    found = set()
    for name in tracked():
        found.update(re.split(r"[/.]", name))
        if name.startswith("docs/") or name == "README.md":
            continue
        try:
            text = (TOP / name).read_text()
        except UnicodeDecodeError:
            continue
        found.update(WORD.findall(text))
        found.update(part for word in WORD.findall(text) for part in word.split("-"))
    return found


def lost_files(text, names):
    """Scripts and sources in backticks that the repository doesn't have; ARCH and the like stand for many."""
    for path in re.findall(r"`([\w./-]+\.(?:py|sh|rt))\b", without_code(text)):
        held = [name for name in names if f"/{name}".removesuffix(".txt").endswith(f"/{path}")]
        if not held and not re.search(r"\b[A-Z]+\b", path):
            yield f"no file `{path}`"


def missing_names(text, known):
    for span in re.findall(r"`([^`\n]+)`", without_code(text)):
        for word in WORD.findall(span):
            parts = {word, *word.split("-")}
            if word not in known and not parts <= known and word not in FOREIGN:
                yield f"`{span}`: no {word} in the sources"


def missing_long_names(text, known):
    """Names of several words, joined by `_`, that the sources don't have; directives begin with a dot."""
    for span in re.findall(r"`([^`.\n][^`\n]*)`", without_code(text)):
        for word in WORD.findall(span):
            if re.fullmatch(r"[a-z][a-z0-9]*(?:_[a-z0-9]+)+", word) and word not in known | OTHERS:
                yield f"`{span}`: no {word} in the sources"


def stored_environments(names):
    """Stored files in which a process's environment is."""
    for name in names:
        if not name.startswith("tools/") and ENVIRONMENT.search((TOP / name).read_bytes()):
            yield f"{name} has the environment of a process: make it by `env -i`"


def stale_house():
    """What of docs/house.svg is not as tools/house.py draws it."""
    yield from (f"{what} is not as tools/house.py draws it" for what in house.stale((TOP / "docs/house.svg").read_text()))


def stale_flames():
    """Whether docs/flames.svg has other boxes than those of its recording's stacks."""
    stacks = [line for line in (TOP / "checks/stacks/both.folded").read_text().split("\n") if line.startswith("tiny;")]
    if not boxes.is_picture_of(TOP / "docs/flames.svg", stacks):
        yield "it has other boxes than those of the stacks of tiny.data"


def marks_of_merges(names):
    """Files in which a merge has left both sides of a conflict."""
    for name in names:
        if re.search(rb"^(?:<{7}|>{7}) ", (TOP / name).read_bytes(), re.M):
            yield f"{name} has the marks of a merge that was not finished"


def mistaken_tests(names):
    """Attributes that `rt ci` takes for those of tests: it looks for the word, also in the path of a definition."""
    for name in names:
        if name.startswith("crates/") and name.endswith(".rt"):
            for found in re.findall(r"#\s*\[[^]]*\btest\b", (TOP / name).read_text()):
                if found not in ("#[test", "#[cfg(test"):
                    yield f"{name}: `{found}` is taken for a test"


def long_lines(text):
    for number, line in enumerate(without_code(text).split("\n"), 1):
        words = len(line.split())
        if words > 100 and not line.startswith("|"):
            yield f"line {number} has {words} words"


def too_many_words():
    """Pages that are longer than their limit, and pages without one; what has changed (CHANGELOG.md) may grow."""
    counts = {name: len((TOP / name).read_text().split()) for names in LIMITS for name in names}
    for names, limit in LIMITS.items():
        count = sum(counts[name] for name in names)
        if count > limit:
            yield f"{' and '.join(names)}: {count} words, where {limit} are the limit"
    count = sum(counts.values()) - counts["docs/api/framehop.md"]
    if count > MOST_WORDS:
        yield f"all pages: {count} words, where {MOST_WORDS} are the limit"
    names = {str(page.relative_to(TOP)) for page in documents()}
    yield from (f"{name}: no limit of its words" for name in sorted(names - {*counts, "CHANGELOG.md"}))


def untested_examples():
    tests = {line.strip() for page in EXAMPLES for line in page.read_text().split("\n")}
    imports = " ".join(tests)
    pages = [TOP / "README.md", TOP / "docs/EXAMPLES.md"]
    for block in re.findall(r"^```rust\n(.*?)^```", "\n".join(page.read_text() for page in pages), re.M | re.S):
        for line in block.split("\n"):
            if line.startswith("use "):
                lost = [word for word in WORD.findall(line) if word not in imports]
                if lost:
                    yield f"the tests don't use {lost[0]}"
            elif line.strip() and line.strip() not in tests:
                yield f"not in the tests: {line.strip()}"


def untested_doc_examples():
    """Examples of doc comments, of which each line is a line of a test."""
    tests = {line.strip() for page in TOP.glob("crates/*_vectors/src/**/*.rt") for line in page.read_text().split("\n")}
    for page in sorted(TOP.glob("crates/*/src/**/*.rt")):
        for block in re.findall(r"^ */// ```\n(.*?)^ */// ```", page.read_text(), re.M | re.S):
            for line in block.split("\n"):
                code = line.strip().removeprefix("///").strip()
                if code and code not in tests:
                    yield f"{page.relative_to(TOP)}: not in the tests: {code}"


def stale_pages():
    """Pages that are not what the scripts make of the sources."""
    if MADE.read_text() != api.page_of_framehop():
        yield "docs/api/framehop.md is not what tools/api.py makes"
    if (TOP / "docs/DEFINITIONS.md").read_text() != definitions.contents_page():
        yield "docs/DEFINITIONS.md is not what tools/definitions.py makes"
    if tested.PAGE.read_text() != tested.page():
        yield "docs/TESTED.md is not what tools/tested.py makes"


def faults_of_made_pages(names):
    """What is wrong in the pages that the scripts make of all crates."""
    with tempfile.TemporaryDirectory() as folder:
        of_api, of_definitions = Path(folder) / "api", Path(folder) / "definitions"
        with contextlib.redirect_stdout(None):
            api.write_pages(of_api)
            definitions.write_pages(Path(folder))
        for page in sorted([*of_api.glob("*.md"), *of_definitions.glob("*.md")]):
            text = page.read_text()
            for fault in (*dead_links(page, text), *lost_files(text, names)):
                yield f"{page.relative_to(folder)}: {fault}"
        yield from methods_not_on_the_pages(of_api)
        yield from definitions_not_on_the_pages(of_definitions)


def definitions_not_on_the_pages(folder):
    """Public definitions of specs/ that their crate's page doesn't have, as read here and not by tools/definitions.py."""
    for page in sorted(folder.glob("*.md")):
        specs, text = TOP / "crates" / page.stem / "specs", page.read_text()
        for file in sorted(specs.rglob("*.antt")):
            if "Laws" not in file.relative_to(specs).with_suffix("").parts:
                for name in re.findall(r"^ *(?:(?:abbrev|unfoldable) pub|pub (?:record|data)) ([\w'-]+)", file.read_text(), re.M):
                    if f"[`{name}`]" not in text:
                        yield f"definitions/{page.name} has no {name} of {file.relative_to(TOP)}"


def names_not_on_the_page():
    """Names under which the tests use `framehop`, and which its page doesn't have."""
    page = MADE.read_text()
    for use in re.findall(r"^use (framehop::[^;]+);", PATHS.read_text(), re.M):
        before, _, inside = "".join(use.split()).partition("{")
        for name in inside.rstrip("}").split(",") if inside else [""]:
            path = before + name
            # (a module by what is in it)
            if not path.endswith("::") and f"`{path}`" not in page and f"`{path}::" not in page:
                yield f"framehop.md has no {path}"


def private_files(sources):
    """The files of modules that their parents declare without `pub`."""
    for file in sources.rglob("*.rt"):
        folder = file.parent if file.name == "lib.rt" else file.with_suffix("")
        yield from (folder / f"{name}.rt" for name in re.findall(r"^mod (\w+);", file.read_text(), re.M))


def methods_not_on_the_pages(folder):
    """Public methods that a crate's page doesn't have: those of public traits and those that begin with `pub`, as read here
    and not by tools/api.py."""
    for page in sorted(folder.glob("*.md")):
        titles, sources = re.findall(r"^#+ .*::(\w+)`", page.read_text(), re.M), TOP / "crates" / page.stem / "src"
        for file in sorted(set(sources.rglob("*.rt")) - set(private_files(sources))):
            in_trait = False
            for line in file.read_text().split("\n"):
                in_trait = line.startswith("pub trait") or in_trait and line != "}"
                found = re.match(r"    ((?:\w+ )*)fn (\w+)", line)
                is_public = found and (in_trait or found[1].startswith("pub "))
                if is_public and found[2] not in titles:
                    yield f"api/{page.name} has no method {found[2]} of {file.relative_to(TOP)}"


def edit_faults(text, crate):
    """Why an edit can't be applied to a crate, if so: each old text is in its file once."""
    texts, path, old = {}, None, None
    for line in text.rstrip("\n").split("\n"):
        key, _, value = line.partition(":")
        value = value.removeprefix(" ")
        if key == "file":
            path = crate / value
            if not path.is_file():
                yield f"no file {value}"
                return
            texts.setdefault(path, path.read_text())
        elif key == "old":
            old = value
            if texts[path].count(old) != 1:
                yield f"is in the file {texts[path].count(old)} times: {old}"
        elif key == "new":
            texts[path] = texts[path].replace(old, value)
        elif key not in EDIT_KEYS:
            yield f"a line that nothing reads: {line}"


def wrong_edits():
    """Edits that can't be applied, and promises without one."""
    promises = set(re.findall(r"^- \*(.*?)\*: ", (TOP / "docs/PROVED.md").read_text(), re.M))
    broken = set()
    for file in sorted(TOP.glob("checks/edits/*/*.edit")):
        text, name = file.read_text(), file.relative_to(TOP)
        yield from (f"{name}: {fault}" for fault in edit_faults(text, TOP / "crates" / file.parent.name))
        of = re.findall(r"^promise: (.*)$", text, re.M)
        yield from (f"{name}: no promise {promise}" for promise in of if promise not in promises)
        broken.update(of)
    yield from (f"docs/PROVED.md: no edit breaks {promise}" for promise in sorted(promises - broken))


def not_in_the_layout(names):
    """What `rt ci` refuses a crate for before it proves anything."""
    sources = [name for name in names if name.startswith("crates/") and name.endswith((".rt", ".antt"))]
    checked = subprocess.run(["rattle", "fmt", "--check", *sources], cwd=TOP, capture_output=True, text=True)
    yield from (checked.stdout + checked.stderr).splitlines()


def crate_lines():
    """For each crate what it stands on, by its line of crates.txt."""
    lines = (line.partition(":") for line in (TOP / "crates.txt").read_text().split("\n") if not line.startswith("#"))
    return {name.split()[0]: set(rest.split()) for name, found, rest in lines if found}


def below(crate, lines):
    """All crates of this repository that a crate stands on, at any number of steps."""
    return set().union(*({other} | below(other, lines) for other in lines[crate] if other in lines))


def crates_without_a_row():
    """Crates of crates.txt that the table of ARCHITECTURE.md has not, and those that it has and crates.txt has not."""
    rows = re.findall(r"^\| (`framehop.*?) \|", (TOP / "docs/ARCHITECTURE.md").read_text(), re.M)
    named = {name for row in rows for name in re.findall(r"`(\w+)`", row)}
    yield from (f"a row too few or too many: {crate}" for crate in sorted(named ^ {*crate_lines()}))


def wrong_libraries():
    """What differs in EXAMPLES.md's list of the libraries that `framehop` needs."""
    lines = crate_lines()
    count, listed = re.search(r"each of the (\w+) libraries \(([^)]*)\)", (TOP / "docs/EXAMPLES.md").read_text()).groups()
    named = {re.sub("^_", "framehop_", name) for name in re.findall(r"`(\w+)`", listed)}
    wanted = below("framehop", lines) | {"framehop"}
    if named != wanted:
        yield f"the list of libraries differs in {', '.join(sorted(named ^ wanted))}"
    if NUMBERS.index(count) != len(wanted):
        yield f"there are {len(wanted)} libraries and not {count}"


def commands_in_json():
    """The commands of PROGRAMS.md with their names, and the lines that are printed after each, if these are there."""
    page = (TOP / "docs/PROGRAMS.md").read_text()
    for section in page.split("\n#### ")[1:]:
        blocks = re.findall(r"^```(\w*)\n(.*?)^```", section, re.M | re.S)
        for place, (kind, text) in enumerate(blocks):
            name = re.match(r'\{"do":"(\w+)"', text)
            if kind == "json" and name:
                after = blocks[place + 1 : place + 2]
                yield name[1], text, after[0][1] if after and not after[0][0] and not after[0][1].startswith("$") else None


def commands_without_an_example():
    for name, text, _ in commands_in_json():
        file = TOP / f"examples/{name}.json"
        if not file.exists() or text.rstrip("\n") not in file.read_text():
            yield f"examples/{name}.json has not the command {name} as it is there"


def programs(given):
    """The programs by the names that documents have: those that are given, or the builds that the gate leaves."""
    found = {f"framehop-{name}": TOP / f"crates/framehop_{name}_cli/out/framehop_{name}_cli" for name in PROGRAMS}
    for path in given:
        found.update({name: path for name in found if Path(path).name.replace("_", "-").startswith(name)})
    return found


def printed(command, built):
    """What a command of a document prints, by the built programs."""
    command = command.removeprefix("FRAMEHOP_TRY=1 ")
    # what the script does before it starts the program
    command = command.replace("./framehop-stacks --demangle", "python3 tools/names.py ./framehop-stacks --demangle")
    command = re.sub(r"\./(framehop-\w+)", lambda name: shlex.quote(str(built[name[1]])), command)
    return subprocess.run(command, cwd=TOP, shell=True, capture_output=True, text=True, timeout=120).stdout


def other_output(given):
    """Commands of documents that print something else than the document has."""
    built = programs(given)
    yield from (f"there is no program {path}" for path in built.values() if not Path(path).exists())
    count = 0
    for name in SHOWN:
        for command, wanted in re.findall(r"^```\n\$ ([^\n]*)\n(.*?)^```", (TOP / name).read_text(), re.M | re.S):
            count += 1
            if printed(command, built) != wanted:
                yield f"{name}: another output: {command}"
    for name, _, wanted in commands_in_json():
        if wanted is not None:
            count += 1
            if not printed(f"./framehop-walk examples/{name}.json", built).endswith(wanted):
                yield f"docs/PROGRAMS.md: another output of {name}"
    if count < LEAST_SHOWN:
        yield f"{count} commands were found, fewer than {LEAST_SHOWN}"


def faults():
    known, names = names_of_sources(), tracked()
    for page in documents():
        text, name = page.read_text(), str(page.relative_to(TOP))
        checks = [dead_links(page, text), lost_files(text, names)]
        if page != MADE:
            checks.append(long_lines(text))
        checks.append(callers.lost_paths(text))
        checks.append(missing_names(text, known) if name in NAMED else missing_long_names(text, known))
        yield from (f"{name}: {fault}" for check in checks for fault in check)
    yield from too_many_words()
    yield from (f"README.md, docs/EXAMPLES.md: {fault}" for fault in untested_examples())
    yield from (f"docs/ARCHITECTURE.md: {fault}" for fault in crates_without_a_row())
    yield from (f"docs/EXAMPLES.md: {fault}" for fault in wrong_libraries())
    yield from (f"docs/PROGRAMS.md: {fault}" for fault in commands_without_an_example())
    yield from stale_pages()
    yield from (f"docs/api: {fault}" for fault in names_not_on_the_page())
    yield from faults_of_made_pages(names)
    yield from (f"docs/PROVED.md: {fault}" for fault in callers.uncalled((TOP / "docs/PROVED.md").read_text()))
    yield from callers.unnamed()
    yield from (f"docs/house.svg: {fault}" for fault in stale_house())
    yield from (f"docs/flames.svg: {fault}" for fault in stale_flames())
    yield from marks_of_merges(names)
    yield from mistaken_tests(names)
    yield from stored_environments(names)
    yield from untested_doc_examples()
    yield from wrong_edits()
    yield from not_in_the_layout(names)


def main():
    is_run = sys.argv[1:2] == ["--run"]
    found = list(other_output(sys.argv[2:]) if is_run else faults())
    looked_at = "the output of all commands" if is_run else f"{len(documents())} documents"
    print("\n".join(found) if found else f"{looked_at}, no fault")
    sys.exit(1 if found else 0)


main()
