"""Where the functions of outer.dll begin that it does not export, by the unwind info of each, as `objdump -p` prints it; then the address after the last."""

import json

from one_module import MINIDUMP, in_minidump

BASE = 0x180000000
STARTS = {0x1003: 0x1000, 0x1043: 0x101B, 0x1044: None}
MODULE = {"build_id": None, "debug_path": None, "end": "0x180009000", "file": "C:\\outer.dll", "file_read": True, "names": True, "path": "./outer.dll", "start": "0x180000000", "unwind_data": True}


def of_minidump(rva, start):
    function = {"name": None, "offset": f"{rva - start:#x}", "start": f"{start:#x}"} if start else None
    frame = {"address": f"{BASE + rva:#x}", "after_call": False, "found_by": None, "frame": 0, "function": function, "module": {"file": "C:\\outer.dll", "offset": f"{rva:#x}"}, "signal_trampoline": False}
    thread = {"crashed": False, "end": "limit", "end_address": None, "frames": [frame], "name": None, "tid": 244}
    return {"crash": None, "kind": "minidump", "machine": "x86_64", "modules": [MODULE], "pid": 32, "program": "outer.dll", "threads": [thread]}


INPUT = json.dumps({
    "arguments": ["--root", ".", "--limit", "1", "--json"],
    "file": MINIDUMP,
    "files": {f"{rva:x}": in_minidump("C:\\outer.dll", BASE, BASE + rva) for rva in STARTS},
    "beside": {"outer.dll": {"file": "checks/stacks/outer.dll"}},
})
EXPECTED = "".join(json.dumps(of_minidump(*it), indent=1) + "\n" for it in STARTS.items())
