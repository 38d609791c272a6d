"""The build id of the program small, by its segment of notes and by its section of them: of the file with other bytes at offsets,
and of the process, which has the file's first page, and so its segments. A file with another build id, or none, is not read."""

import json
from pathlib import Path

from one_module import CORE, OF_CORE, in_core

SMALL = (Path(__file__).parents[2] / "stacks/small").read_bytes()
# what `readelf -n` prints, which the process has in its place
BUILD_ID = bytes.fromhex("a7fba1f0563786fc7fac9841a10303c1ef557bee")
PAGE = SMALL[:0xF8] + BUILD_ID + SMALL[0x10C:]
# the types of the segment and of the section, and the last byte of the build id
SEGMENT, SECTION, LAST = {"0x78": "00"}, {"0x2fc": "00"}, {"0x10b": "ef"}
PROGRAMS = {"whole": ({}, True), "without_segment": (SEGMENT, True), "without_section": (SECTION, True), "without_both": ({**SEGMENT, **SECTION}, False), "other": (LAST, False)}


def block(path, is_read):
    function = f"inner+0x0 ({path})" if is_read else f"[unknown] ({path}+0x40010c)"
    return f"{OF_CORE}\n#0 40010c {function}\n[limit]\n\n"


INPUT = json.dumps({
    "arguments": ["--root", ".", "--limit", "1"],
    "file": CORE,
    "files": {name: in_core(f"/usr/bin/{name}", 0x40010C, page=PAGE) for name in PROGRAMS},
    "beside": {f"usr/bin/{name}": {"file": "checks/stacks/small", "with": changes} for name, (changes, _) in PROGRAMS.items()},
})
EXPECTED = "".join(block(f"/usr/bin/{name}", is_read) for name, (_, is_read) in PROGRAMS.items())
ERRORS = "".join(f"/usr/bin/{name}: its build id is not the core file's\n" for name, (_, is_read) in PROGRAMS.items() if not is_read)
