#!/usr/bin/env python3
"""Writes a walk of examples/ as a C header: its module's sections, its registers and its stack words.

    make_stack.py EXAMPLE.json > stack.h
"""

import json
import sys

new, add, walk = json.load(open(sys.argv[1]))["commands"]
assert (new["do"], add["do"], walk["do"]) == ("new", "add", "walk")


def hexadecimal(text):
    return f"0x{text}u" if len(text) < 8 else f"0x{text}ull"


print("#include <stdint.h>")
for field in ("start", "end", "base", "base_svma"):
    print(f"#define MODULE_{field.upper()} {hexadecimal(add[field])}")
lines = []
for section in add["sections"]:
    name = section["name"].lstrip(".")
    start, end = section.get("svma", ("0", "0"))
    data = bytes.fromhex(section.get("data", ""))
    if data:
        print(f"static const uint8_t {name}[] = {{{', '.join(map(str, data))}}};")
    place = f"{{{name}, sizeof {name}}}" if data else "{0, 0}"
    flags = f"{str('svma' in section).lower()}, {str(bool(data)).lower()}"
    lies = f"{hexadecimal(start)}, {hexadecimal(end)}"
    lines.append(f"    sections.{name} = (framehop_section){{{lies}, {place}, {flags}}};")
print("#define SECTIONS(sections) do { \\")
print(" \\\n".join(lines) + " \\")
print("} while (0)")
print(f"#define PC {hexadecimal(walk['pc'])}")
for register in ("sp", "bp"):
    print(f"#define {register.upper()} {hexadecimal(walk['regs'][register])}")
print(f"#define STACK_BASE {hexadecimal(walk['memory']['base'])}")
words = ", ".join(hexadecimal(word) for word in walk["memory"]["words"])
print(f"static const uint64_t stack_words[] = {{{words}}};")
