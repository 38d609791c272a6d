#!/usr/bin/env python3
"""Compares the names of signals, of their codes and of exceptions with the headers of Linux and Windows: compare_headers.py [--write].

The tables are those of the definitions, crates/framehop_dump_stacks/specs/Signal.antt and Exception.antt, and those of the code, which
is proved to have them. checks/headers.txt has the names and numbers of the headers, a line each: the header's own tables, whole, and of
ntstatus.h the names that are printed. The tables must have these names, no others, and their numbers. Where the headers are on this
machine (Debian's packages linux-libc-dev and mingw-w64-common, with cpp), the file must have what they have: --write writes it anew, and
keeps lines of names that this version of a header lacks. Status 0 where all are equal.
"""

import re
import subprocess
import sys
from pathlib import Path

CHECKS = Path(__file__).resolve().parent
CRATE = CHECKS.parent / "crates/framehop_dump_stacks"
DATA = CHECKS / "headers.txt"
WINDOWS = Path("/usr/share/mingw-w64/include")
# The names of asm/signal.h and asm/siginfo.h that are printed, but for second names, limits and what is no signal.
LINUX_NAMES = re.compile(r"(?:SIG[A-Z0-9]+|(?:SI|ILL|FPE|SEGV|BUS|TRAP|SYS)_[A-Z_]+)")
NO_NAMES = {"SIGIOT", "SIGPOLL", "SIGUNUSED", "SIGRTMIN", "SIGRTMAX", "SIGSTKSZ", "SI_MAX_SIZE"}
# What ntstatus.h and winnt.h have, and minwinbase.h has no name of its own for.
STATUS_NAMES = """DBG_CONTROL_C DBG_CONTROL_BREAK STATUS_DLL_NOT_FOUND STATUS_HEAP_CORRUPTION STATUS_STACK_BUFFER_OVERRUN
STATUS_ASSERTION_FAILURE STATUS_FAIL_FAST_EXCEPTION""".split()
ACCESSES = {"EXCEPTION_READ_FAULT": "read", "EXCEPTION_WRITE_FAULT": "write", "EXCEPTION_EXECUTE_FAULT": "execution"}


def of_linux():
    """The names and numbers of the headers of Linux; a number below 0 as 32 bits."""
    asked = "#include <asm/signal.h>\n#include <asm/siginfo.h>\n"
    text = subprocess.run(["cpp", "-dM", "-"], input=asked, capture_output=True, text=True, check=True).stdout
    for name, number in re.findall(r"^#define (\w+) (-?(?:0x)?[0-9a-fA-F]+)$", text, re.M):
        if LINUX_NAMES.fullmatch(name) and name not in NO_NAMES:
            yield name, int(number, 0) % 2**32


def of_windows():
    """The exceptions of minwinbase.h by the numbers of ntstatus.h, other names of that, and the accesses of winnt.h."""
    texts = {name: (WINDOWS / name).read_text(errors="replace") for name in ("ntstatus.h", "winnt.h", "minwinbase.h")}
    statuses = {}
    for header in ("winnt.h", "ntstatus.h"):
        for name, number in re.findall(r"^#define (\w+) +\(\((?:NTSTATUS|DWORD)\)(0x[0-9a-fA-F]+)L?\)", texts[header], re.M):
            if statuses.setdefault(name, int(number, 16)) != int(number, 16):
                sys.exit(f"{name} has two numbers in winnt.h and ntstatus.h")
    for name, status in re.findall(r"^#define (EXCEPTION_\w+) (STATUS_\w+|DBG_\w+)$", texts["minwinbase.h"], re.M):
        yield name, statuses[status]
    yield from ((name, statuses[name]) for name in STATUS_NAMES)
    for name in ACCESSES:
        # (the first part of winnt.h with them is that of x86-64)
        yield name, int(re.search(rf"^#define {name} +(\d+)", texts["winnt.h"], re.M)[1])


def headers():
    """What the headers of this machine have, by the system; none where they are not there."""
    return {
        "linux": dict(of_linux()) if Path("/usr/include/asm-generic/siginfo.h").exists() else {},
        "windows": dict(of_windows()) if WINDOWS.is_dir() else {},
    }


def stored():
    """What is stored of the headers, by the system."""
    found = {"linux": {}, "windows": {}}
    for line in DATA.read_text().splitlines() if DATA.exists() else ():
        if not line.startswith("#"):
            system, name, number = line.split()
            found[system][name] = int(number, 0)
    return found


def write(kept):
    lines = ["# The names and numbers of headers: checks/compare_headers.py"]
    for system, names in kept.items():
        width = "#010x" if system == "windows" else "d"
        lines += [f"{system} {name} {number:{width}}" for name, number in sorted(names.items(), key=lambda it: (it[0].split("_")[0], it[1]))]
    DATA.write_text("\n".join(lines) + "\n")


def defined(name):
    """The rows of the tables of a definition's file: numbers and names."""
    return {(int(number, 0), text) for number, text in re.findall(r'\((0x[0-9a-f]+|\d+), codes "(\w+)"\)', (CRATE / "specs" / name).read_text())}


def coded(name):
    """The rows of the tables of a source."""
    rows = re.findall(r'^ +(0x[0-9a-f_]+|\d+) => Some\("(\w+)"\)', (CRATE / "src" / name).read_text(), re.M)
    return {(int(number.replace("_", ""), 0), text) for number, text in rows}


def differences():
    """What differs between the tables, what is stored, and the headers."""
    kept, there = stored(), headers()
    for system, files in (("linux", ("Signal.antt", "signal.rt")), ("windows", ("Exception.antt", "exception.rt"))):
        wanted = {(number, name) for name, number in kept[system].items() if name not in ACCESSES}
        for file, rows in zip(files, (defined(files[0]), coded(files[1]))):
            yield from (f"{file}: {name} {number:#x}" for number, name in sorted(rows ^ wanted))
        known = there[system]
        yield from (f"a header has {name} {number:#x}" for name, number in known.items() if kept[system].get(name) != number)
        if not known:
            print(f"the headers of {system} are not on this machine")
        elif {*kept[system]} - {*known}:
            print(f"this version of the headers of {system} lacks {', '.join(sorted({*kept[system]} - {*known}))}")
    accesses = re.findall(r'kind == (\d+) then codes "(\w+)"', (CRATE / "specs/Exception.antt").read_text())
    if {(int(kind), text) for kind, text in accesses} != {(kept["windows"].get(name), text) for name, text in ACCESSES.items()}:
        yield f"other accesses: {accesses}"


def main():
    if sys.argv[1:] == ["--write"]:
        there = headers()
        write({system: {**names, **there[system]} for system, names in stored().items()})
    elif sys.argv[1:]:
        sys.exit(__doc__.splitlines()[0])
    found = list(differences())
    print("\n".join(found) or f"{', '.join(f'{len(names)} names of {system}' for system, names in stored().items())}: none differs")
    sys.exit(1 if found else 0)


main()
