"""The program database of the program small.exe, which is that of its module in a minidump: its GUID and its age, as `llvm-readobj
--coff-debug-directory` prints them. A file with other bytes at an offset has another one, or none, and is not read."""

import json
import struct

from one_module import MINIDUMP, in_minidump

GUID = bytes.fromhex("894fde09a8f5fb801f00a7e12d92ba16")
RECORD = b"RSDS" + GUID + struct.pack("<I", 3) + b"small.pdb\0"
PROGRAMS = {
    "whole": ({}, True),
    # there is no debug directory, by its size and by the number of directories, which is room for six, and three
    "directory_of_no_size": ({"0x13c": "00"}, False),
    "six_directories": ({"0x104": "06"}, False),
    "room_for_six_directories": ({"0x94": "a0"}, False),
    "three_directories": ({"0x104": "03"}, False),
    # its entry is of another type, outside of the file, and too short
    "other_type": ({"0x32c": "04"}, False),
    "outside": ({"0x33b": "01"}, False),
    "too_short": ({"0x330": "17"}, False),
    # another record, and other values in it
    "other_record": ({"0x33c": "4e"}, False),
    "first_byte": ({"0x340": "88"}, False),
    "last_byte": ({"0x34f": "17"}, False),
    "age": ({"0x350": "02"}, False),
    # the directory is at an RVA of no section, reaches beyond the end of its own, and is in one that the file does not hold
    "directory_in_no_section": ({"0x13b": "ff"}, False),
    "directory_beyond_its_section": ({"0x13c": "3f"}, False),
    "section_beyond_the_file": ({"0x217": "ff"}, False),
    # .text is outside of the file; and it is a program of ARM64
    "text_beyond_the_file": ({"0x19f": "ff"}, True),
    "arm64": ({"0x84": "64aa"}, True),
}
INPUT = json.dumps({
    "arguments": ["--root", ".", "--limit", "1"],
    "file": MINIDUMP,
    "files": {name: in_minidump(f"C:\\{name}.exe", 0x140000000, 0x140001000, record=RECORD) for name in PROGRAMS},
    "beside": {f"{name}.exe": {"file": "checks/stacks/small.exe", "with": changes} for name, (changes, _) in PROGRAMS.items()},
})
EXPECTED = "".join(f"{name}.exe 32/244:\n#0 140001000 [unknown] (C:\\{name}.exe+0x1000)\n[limit]\n\n" for name in PROGRAMS)
ERRORS = "".join(f"C:\\{name}.exe: {'no names of functions' if is_read else 'its build id is not the minidump' + chr(39) + 's'}\n" for name, (_, is_read) in PROGRAMS.items())
