"""A stack of the program small: inner at its first instruction, which outer called, which _start did, by the .eh_frame whose rows
`readelf --debug-dump=frames-interp` prints. Where the file has no such
section there is no caller, as the frame pointer is 0."""

import json

from one_module import CORE, OF_CORE, in_core

PROGRAMS = {
    "whole": ({}, True),
    # e_shnum 0, e_phnum PN_XNUM and e_shstrndx SHN_XINDEX, and in the first section header sh_size, sh_info and sh_link
    "numbers_in_the_first_section": ({"0x3c": "00", "0x2d8": "07", "0x38": "ffff", "0x2e4": "03", "0x3e": "ffff", "0x2e0": "06"}, True),
    # its name is .eh_fram, it has SHF_COMPRESSED, and it is SHT_NOBITS
    "shorter_name": ({"0x2b1": "00"}, False),
    "compressed": ({"0x381": "08"}, False),
    "nobits": ({"0x37c": "08"}, False),
}


def block(path, is_unwound):
    callers = f"#1 400115 outer+0x5 ({path}) [cfi]\n#2 400123 _start+0xa ({path}) [cfi]\n[null-return-address]\n" if is_unwound else "[frame-pointer-0]\n"
    return f"{OF_CORE}\n#0 40010c inner+0x0 ({path})\n{callers}\n"


INPUT = json.dumps({
    "arguments": ["--root", "."],
    "file": CORE,
    "files": {name: in_core(f"/usr/bin/{name}", 0x40010C, (0x400115, 0x400123, 0)) for name in PROGRAMS},
    "beside": {f"usr/bin/{name}": {"file": "checks/stacks/small", "with": changes} for name, (changes, _) in PROGRAMS.items()},
})
EXPECTED = "".join(block(f"/usr/bin/{name}", is_unwound) for name, (_, is_unwound) in PROGRAMS.items())
ERRORS = "".join(f"/usr/bin/{name}: no unwind data\n" for name, (_, is_unwound) in PROGRAMS.items() if not is_unwound)
