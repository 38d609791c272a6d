"""A stack of the program small.exe: inner at its first instruction, which outer called, which start did. By `sub rsp, 0x28` return addresses
are 0x28 bytes apart, and after them is what Windows leaves there for start."""

import json

from one_module import MINIDUMP, in_minidump

BASE = 0x7FF600000000
STACK = (BASE + 0x100D, 0, 0, 0, 0, 0, BASE + 0x1023, 0, 0, 0, 0, 0, 0)
PROGRAMS = {
    "whole": ({}, True),
    # .pdata has another name, and the data directory of exceptions leads to its bytes
    "qdata": ({"0x228": "2e7164617461"}, True),
    # it has another name, and there are three data directories, of which none is that of exceptions; then it is outside of the file
    "three_directories": ({"0x228": "2e7164617461", "0x104": "03"}, False),
    "outside": ({"0x23f": "ff"}, False),
}


def block(name, is_unwound):
    callers = f"#1 7ff60000100d [unknown] (C:\\{name}.exe+0x100d) [cfi]\n#2 7ff600001023 [unknown] (C:\\{name}.exe+0x1023) [cfi]\n[root]\n"
    return f"{name}.exe 32/244:\n#0 7ff600001000 [unknown] (C:\\{name}.exe+0x1000)\n{callers if is_unwound else '[frame-pointer-0]' + chr(10)}\n"


INPUT = json.dumps({
    "arguments": ["--root", "."],
    "file": MINIDUMP,
    "files": {name: in_minidump(f"C:\\{name}.exe", BASE, BASE + 0x1000, STACK) for name in PROGRAMS},
    "beside": {f"{name}.exe": {"file": "checks/stacks/small.exe", "with": changes} for name, (changes, _) in PROGRAMS.items()},
})
EXPECTED = "".join(block(name, is_unwound) for name, (_, is_unwound) in PROGRAMS.items())
ERRORS = "".join(f"C:\\{name}.exe: {'no names of functions' if is_unwound else 'no unwind data and no names of functions'}\n" for name, (_, is_unwound) in PROGRAMS.items())
