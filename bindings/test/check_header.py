#!/usr/bin/env python3
"""Compares bindings/include/framehop.h with the exports, the structs and the numbers of crates/framehop_c, and
bindings/rust/src/raw.rs with the header.

Each export must be declared with the same parameters in the same order, each struct must have the same fields, and each
number the same value. The offsets that raw.rs asserts are asserted of the header by a C compiler. What a version promises
(docs/VERSIONS.md) is compared with the header: all that header_0.16.txt has, which `--print` prints of the header. And all that
has a version says the same one. It prints what differs, and fails then.
"""

import re
import subprocess
import sys
from pathlib import Path

TOP = Path(__file__).resolve().parent.parent.parent
SOURCES = sorted((TOP / "crates/framehop_c/src").rglob("*.rt"))
HEADER = TOP / "bindings/include/framehop.h"
RUST = TOP / "bindings/rust/src"
PROMISE = TOP / "bindings/test/header_0.16.txt"
PARTS = ("MAJOR", "MINOR", "PATCH")

# a type of the sources as the header writes it; a slice is two parameters
TYPES = {
    "bool": ["bool"],
    "u64": ["uint64_t"],
    "usize": ["size_t"],
    "i32": ["int32_t"],
    "u32": ["uint32_t"],
    "*mut u8": ["void *"],
    "Handle": ["framehop_handle"],
    "&mut Handle": ["framehop_handle *"],
    "&mut HandlePlace": ["framehop_handle *"],
    "&mut u64": ["uint64_t *"],
    "&mut [u64]": ["uint64_t *", "size_t"],
    "&Window<'_>": ["const framehop_window *"],
    "&[Window<'_>]": ["const framehop_window *", "size_t"],
    "&'a [u64]": ["const uint64_t *", "size_t"],
    "&'static [u8]": ["framehop_bytes"],
    "Global": [],
}

# a struct of the sources: its name and its fields
STRUCT = re.compile(r"#\[repr\(C\)\]\n(?:#\[derive[^\n]*\n)?pub struct (\w+)(?:<'a>)? \{(.*?)\n\}", re.S)

# the structs whose names in C don't follow from theirs
NAMES_IN_C = {"Window": "framehop_window", "HandlePlace": "framehop_handle", "Handle": "framehop_handle"}


def snake(name):
    """FramehopRegistersX86_64 as framehop_registers_x86_64."""
    words = re.sub(r"(?<=[a-z0-9])(?=[A-Z])", "_", name.replace("X86_64", "X8664"))
    return words.lower().replace("x8664", "x86_64")


def in_c(kind):
    """The types of a parameter or a field, as C has them."""
    kind = " ".join(kind.split())
    if kind in TYPES:
        return TYPES[kind]
    match = re.fullmatch(r"(&mut |&|)(Framehop\w+)", kind)
    if not match:
        return [f"unknown type {kind}"]
    prefix, name = match.groups()
    return [{"&mut ": "", "&": "const ", "": ""}[prefix] + snake(name) + ("" if prefix == "" else " *")]


def parts_of(text):
    """The parts between the commas that stand outside of brackets."""
    parts = re.split(r",\s*(?![^<\[(]*[>\])])", text)
    return [part.strip() for part in parts if part.strip()]


def exports():
    """For each export the types of its parameters and its result."""
    found = {}
    for source in SOURCES:
        text = source.read_text()
        for name, parameters, result in re.findall(
            r'pub extern "C" fn (\w+)\(([^)]*)\)(?: -> (\w+))?', text
        ):
            kinds = [in_c(part.split(":", 1)[1]) for part in parts_of(parameters)]
            found[name] = ([kind for kinds in kinds for kind in kinds], result and in_c(result)[0] or "void")
    return found


def structs():
    """For each #[repr(C)] struct that C writes the fields with their types."""
    found = {}
    lent = TOP / "crates/framehop_lent/src/window.rt"
    for source in SOURCES + [lent]:
        for name, body in STRUCT.findall(source.read_text()):
            body = re.sub(r"///[^\n]*|//[^\n]*|pub ghost[^\n]*", "", body)
            fields = [re.sub(r"^pub ", "", part).split(":", 1) for part in parts_of(body)]
            name = NAMES_IN_C.get(name, snake(name))
            found[name] = [(field.strip(), kind) for field, text in fields for kind in in_c(text)]
    return found


def numbers():
    """The numbers of the calls, in the sources."""
    text = "".join(source.read_text() for source in SOURCES)
    return {name: int(value) for name, value in re.findall(r"pub const (FRAMEHOP_\w+): i32 = (-?\d+);", text)}


def typed(declaration):
    """The type and the name of a parameter or a field in C."""
    kind, name = re.fullmatch(r"(.*?)(\w+)", declaration.strip(), re.S).groups()
    return " ".join(kind.replace("*", " * ").split()), name


def header():
    """The functions, the structs and the numbers of the header. Below the first callback is what it has of its own."""
    text = HEADER.read_text().partition("typedef size_t (*framehop_read_words)")[0]
    text = re.sub(r"/\*.*?\*/", "", text, flags=re.S)
    functions = {}
    for result, name, parameters in re.findall(r"^(u?int32_t|void) (framehop_\w+)\(([^)]*)\);", text, re.M):
        functions[name] = ([typed(part)[0] for part in parameters.split(",") if part != "void"], result)
    found = {}
    for body, name in re.findall(r"typedef struct \{(.*?)\} (\w+);", text, re.S):
        fields = []
        for line in body.split(";"):
            if not line.strip():
                continue
            first, *others = line.split(",")
            kind, field = typed(first)
            fields += [(field, kind)] + [(other.strip(), kind) for other in others]
        found[name] = fields
    values = {name: int(value) for name, value in re.findall(r"(FRAMEHOP_\w+) = (-?\d+)", text)}
    return functions, found, values


def tidy(kind):
    return " ".join(kind.replace("*", " * ").split())


# a type of raw.rs as the header writes it
RAW_TYPES = {
    "bool": "bool", "u64": "uint64_t", "usize": "size_t", "i32": "int32_t", "u32": "uint32_t", "*mut u64": "uint64_t *",
    "*mut u8": "void *", "*const u8": "const uint8_t *", "*const u64": "const uint64_t *",
}


def raw_in_c(kind):
    """A type of raw.rs as C has it."""
    if kind in RAW_TYPES:
        return tidy(RAW_TYPES[kind])
    prefix, name = re.fullmatch(r"(\*mut |\*const |)(\w+)", kind).groups()
    name = "framehop_" + snake(name)
    return tidy({"*mut ": f"{name} *", "*const ": f"const {name} *", "": name}[prefix])


def raw_structs(text, general):
    """For each struct of raw.rs its fields with their types; the sixteen registers in a field have their own names."""
    found = {}
    for name, body in re.findall(r"pub struct (\w+) \{(.*?)\n\}", text, re.S):
        fields = []
        for field, kind in re.findall(r"pub (\w+): ([^,\n]+),", body):
            fields += [(it, "uint64_t") for it in general] if field == "general" else [(field, raw_in_c(kind))]
        found["framehop_" + snake(name)] = fields
    return found


def raw_functions(text):
    """For each function that raw.rs declares the types of its parameters and its result."""
    macro = re.search(r"macro_rules! declare \{\s*\((.*?)\) => \{(.*?)\n\}\n", text, re.S)
    names = re.findall(r"\$(\w+):", macro[1])
    plain = text.replace(macro[0], "")
    for values in re.findall(r"^declare!\((.*?)\);", text, re.S | re.M):
        body = macro[2]
        for name, value in zip(names, parts_of(values)):
            body = re.sub(rf"\${name}\b", value, body)
        plain += body
    found = {}
    for name, parameters, result in re.findall(r"pub fn (framehop_\w+)\(([^)]*)\)(?: -> (\w+))?;", plain):
        kinds = [raw_in_c(part.split(":", 1)[1].strip()) for part in parts_of(parameters)]
        found[name] = (kinds, raw_in_c(result) if result else "void")
    return found


def raw_offsets(text):
    """The sizes and offsets that raw.rs asserts, as assertions in C."""
    lines = ['#include "framehop.h"']
    for name, size, fields in re.findall(r"lies!\((\w+): (\d+) \{(.*?)\}\);", text, re.S):
        name = "framehop_" + snake(name)
        lines.append(f'_Static_assert(sizeof({name}) == {size}, "size of {name}");')
        for field, offset in re.findall(r"([\w.]+): (\d+)", fields):
            field = "rax" if field == "general" else field
            lines.append(f'_Static_assert(offsetof({name}, {field}) == {offset}, "offset of {field} in {name}");')
    return lines


def wrong_in_rust(functions, found, values):
    """How raw.rs differs from the header."""
    text = re.sub(r"//[^\n]*", "", (RUST / "raw.rs").read_text())
    general = re.search(r"pub enum Reg \{(.*?)\}", (RUST / "x86_64.rs").read_text(), re.S)[1]
    general = [name.lower() for name in parts_of(general)]
    wrong = []
    if raw_functions(text) != functions:
        wrong.append(f"raw.rs: {raw_functions(text)}, {functions} in the header")
    for name, fields in raw_structs(text, general).items():
        if fields != [(field, tidy(kind)) for field, kind in found.get(name, [])]:
            wrong.append(f"raw.rs: {name} has {fields}, {found.get(name)} in the header")
    if len(raw_structs(text, general)) != len(found):
        wrong.append(f"raw.rs: {len(raw_structs(text, general))} structs, {len(found)} in the header")
    for name, value in re.findall(r"pub const (\w+): i32 = (-?\d+);", text):
        if values.get("FRAMEHOP_" + name) != int(value):
            wrong.append(f"raw.rs: {name} is {value}, {values.get('FRAMEHOP_' + name)} in the header")
    asserted = raw_offsets(text)
    command = ["cc", "-std=c11", "-fsyntax-only", "-xc", "-I", str(HEADER.parent), "-"]
    ran = subprocess.run(command, input="\n".join(asserted), text=True, capture_output=True)
    if ran.returncode:
        wrong.append(ran.stderr)
    if len(asserted) < 50:
        wrong.append(f"raw.rs: {len(asserted)} offsets only")
    return wrong


def promised(functions, found, values):
    """The lines that a version promises: functions, structs and numbers."""
    calls = [f"{result} {name}({', '.join(kinds)})" for name, (kinds, result) in functions.items()]
    kinds = [f"{name} {{ {'; '.join(f'{kind} {field}' for field, kind in it)} }}" for name, it in found.items()]
    return calls + kinds + [f"{name} = {value}" for name, value in values.items()]


def of_number(number):
    """The version that a number is."""
    return f"{int(number) // 10000}.{int(number) // 100 % 100}.{int(number) % 100}"


def versions():
    """The version of each part, by the file that says it: of the library, its bindings and the programs."""
    def said(file, pattern):
        match = re.search(pattern, (TOP / file).read_text(), re.M)
        return match[1] if match else "none"

    numbers = {part: said("bindings/include/framehop.h", rf"^#define FRAMEHOP_VERSION_{part} (\d+)$") for part in PARTS}
    found = {
        "bindings/rust/Cargo.toml": said("bindings/rust/Cargo.toml", r'^version = "(.*)"$'),
        "bindings/include/framehop.h": said("bindings/include/framehop.h", r'^#define FRAMEHOP_VERSION "(.*)"$'),
        "its three numbers": ".".join(numbers.values()),
        "its one number": of_number(said("bindings/include/framehop.h", r"^#define FRAMEHOP_VERSION_NUMBER (\d+)")),
        "crates/framehop_c": of_number(said("crates/framehop_c/src/lib.rt", r"^const VERSION_NUMBER: u32 = (\d+);$")),
        "bindings/python/framehop.py": said("bindings/python/framehop.py", r'^__version__ = "(.*)"$'),
        "CHANGELOG.md": said("CHANGELOG.md", r"^## ([\d.]+)"),
        "bindings/framehop.map": said("bindings/framehop.map", r"^FRAMEHOP_(\S+) \{$") + "." + numbers["PATCH"],
    }
    # (the place for the commit is that of tools/stamp.sh)
    for program in ("check", "explain", "stacks", "walk"):
        sources = sorted((TOP / f"crates/framehop_{program}_cli/src").glob("*.rt"))
        text = "".join(source.read_text() for source in sources)
        match = re.search(r'\.version\("(.*)"\)|VERSION: &str = "framehop-\w+ (.*)"', text)
        version, _, commit = ((match[1] or match[2]) if match else "none").partition(" ")
        found[f"framehop-{program}"] = version if commit == f"(commit {'.' * 12})" else "none with a place for the commit"
    return found


def wrong_in_versions(functions, found, values):
    """What an earlier header of this version promised and this one has not, and versions that differ."""
    has = set(promised(functions, found, values))
    wrong = [f"promised by {PROMISE.name}: {line}" for line in PROMISE.read_text().splitlines() if line not in has]
    files = versions()
    if len(set(files.values())) != 1:
        wrong.append("versions differ: " + ", ".join(f"{version} in {file}" for file, version in files.items()))
    return wrong


def main():
    functions, found, values = header()
    if sys.argv[1:] == ["--print"]:
        print("\n".join(promised(functions, found, values)))
        return
    wrong = wrong_in_rust(functions, found, values) + wrong_in_versions(functions, found, values)
    here = {name: ([tidy(kind) for kind in kinds], result) for name, (kinds, result) in exports().items()}
    for name in sorted(set(here) | set(functions)):
        if here.get(name) != functions.get(name):
            wrong.append(f"{name}: {here.get(name)} in the sources, {functions.get(name)} in the header")
    for name, fields in structs().items():
        kinds = [tidy(kind) for _, kind in fields]
        if name not in found:
            wrong.append(f"{name}: not in the header")
        elif [kind for _, kind in found[name]] != kinds:
            wrong.append(f"{name}: {kinds} in the sources, {found[name]} in the header")
        names = [field for field, _ in fields if field != "alloc"]
        if name != "framehop_window" and [field for field, _ in found.get(name, [])] != names:
            wrong.append(f"{name}: the fields {names} in the sources, {found.get(name)} in the header")
    if numbers() != values:
        wrong.append(f"the numbers: {numbers()} in the sources, {values} in the header")
    print("\n".join(wrong) or f"{len(here)} functions, {len(structs())} structs and {len(values)} numbers agree")
    sys.exit(bool(wrong))


main()
