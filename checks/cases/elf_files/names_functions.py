"""The functions of the program small by addresses, as `readelf -s` prints them, and of the program with other bytes at offsets.
Each file has another instruction pointer."""

import json

from one_module import CORE, OF_CORE, in_core

NAMES = {0x40010B: None, 0x40010C: "inner+0x0", 0x40010F: "inner+0x3", 0x400110: "outer+0x0", 0x400118: "outer+0x8", 0x400119: "_start+0x0", 0x40012C: "_start+0x13", 0x40012D: None}
# e_shnum 0, e_phnum PN_XNUM and e_shstrndx SHN_XINDEX, and in the first section header sh_size, sh_info and sh_link:
# `readelf -hSl` prints the same sections and segments
IN_FIRST_SECTION = {"0x3c": "00", "0x2d8": "07", "0x38": "ffff", "0x2e4": "03", "0x3e": "ffff", "0x2e0": "06"}
# inner is of type STT_NOTYPE, and has no size
LABEL = {"0x1bc": "00", "0x1c8": "00"}
PROGRAMS = {
    "whole": ({}, ()),
    "numbers_in_the_first_section": (IN_FIRST_SECTION, ()),
    # _start has no size: it ends with .text, at the same address
    "start_without_size": ({"0x1e0": "00"}, ()),
    # outer is of type STT_GNU_IFUNC
    "ifunc": ({"0x204": "1a"}, ()),
    # _start is of type STT_NOTYPE, and has no size: it ends with .text
    "start_is_a_label": ({"0x1d4": "10", "0x1e0": "00"}, ()),
    # inner ends where outer begins
    "inner_is_a_label": (LABEL, ()),
    # outer ends before its last byte, and inner, a label without a size, is before it
    "label_before_a_short_function": ({**LABEL, "0x210": "08"}, (0x400118,)),
    # .text is not SHF_EXECINSTR
    "label_in_data": ({"0x1bc": "00", "0x340": "02"}, (0x40010C, 0x40010F)),
    # the name is that of a mapping symbol
    "mapping_symbol": ({"0x1bc": "00", "0x251": "24"}, (0x40010C, 0x40010F)),
}


def block(path, address, name):
    function = f"{name} ({path})" if name else f"[unknown] ({path}+{address:#x})"
    return f"{OF_CORE}\n#0 {address:x} {function}\n[limit]\n\n"


ROWS = [(f"/usr/bin/{program}", address, None if address in unnamed else name) for program, (_, unnamed) in PROGRAMS.items() for address, name in NAMES.items()]
INPUT = json.dumps({
    "arguments": ["--root", ".", "--limit", "1"],
    "file": CORE,
    "files": {f"{path[9:]} {address:x}": in_core(path, address) for path, address, _ in ROWS},
    "beside": {f"usr/bin/{program}": {"file": "checks/stacks/small", "with": changes} for program, (changes, _) in PROGRAMS.items()},
})
EXPECTED = "".join(block(*it) for it in ROWS)
