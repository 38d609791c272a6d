"""The functions that outer.dll exports, by addresses, and one of another library that is not in it, as `objdump -p` prints them. Each file has
another instruction pointer."""

import json

from one_module import MINIDUMP, in_minidump

BASE = 0x180000000
NAMES = {0x1003: None, 0x1004: "outer+0x0", 0x1014: "outer+0x10", 0x1015: "leaf+0x0", 0x101A: "leaf+0x5", 0x101B: None, 0x1043: None, 0x2000: "number+0x0"}


def block(rva, name):
    function = f"{name} (C:\\outer.dll)" if name else f"[unknown] (C:\\outer.dll+{rva:#x})"
    return f"outer.dll 32/244:\n#0 {BASE + rva:x} {function}\n[limit]\n\n"


INPUT = json.dumps({
    "arguments": ["--root", ".", "--limit", "1"],
    "file": MINIDUMP,
    "files": {f"{rva:x}": in_minidump("C:\\outer.dll", BASE, BASE + rva) for rva in NAMES},
    "beside": {"outer.dll": {"file": "checks/stacks/outer.dll"}},
})
EXPECTED = "".join(block(*it) for it in NAMES.items())
