#!/usr/bin/env python3
"""Writes src/libc_table.rt.txt: `.eh_frame` of a libc of x86_64, and what unwinding by it has to answer.

    libc_rows.py [--count | --lines] LIBC

Needs readelf. Run it in the crate's folder. --lines prints the lines too. --count prints how many
rows have which answer, and writes nothing.

The answers come from readelf's text alone: the rows as `--debug-dump=frames-interp` prints them, the operations of
expressions as `--debug-dump=frames` does, and "From a row to a frame" in docs/FORMATS.md. The section's own bytes
are only copied.

For each FDE, first as the first frame and then as a caller's frame, a line is made for the address before it, for
each row, and for the address after it:

    OFFSET KIND FIRST LAST ANSWER ANSWER

OFFSET is the FDE's, KIND is `first` or `caller`, FIRST and LAST are the row's first and last address, and each has
its ANSWER: a rule, the caller's registers, or a refusal, as Rattle's Debug prints the test's type. The table holds
the section's bytes and, for each 64 FDEs, the number of their lines and the lines' 64-bit FNV-1a digest.
"""
import collections
import re
import subprocess
import sys

BLOCK = 64
WORD = 16
A_LINE = 3
NAMES = ["rax", "rdx", "rcx", "rbx", "rsi", "rdi", "rbp", "rsp", "r8", "r9", "r10", "r11", "r12", "r13", "r14", "r15"]
COLUMNS = {name: number for number, name in enumerate(NAMES)} | {"ra": 16, "rip": 16}
RBP, RSP, RA = 6, 7, 16
HALF = 1 << 63
MASK = (1 << 64) - 1
# what the test's frames have: sp and bp, by kind, and what a word of the stack is above its address
REGISTERS = {"first": (0x70000000, 0x70000400), "caller": (0x70000000, 0x6FFFFF00)}
ABOVE = 0x10000000

HEAD = re.compile(r"^([0-9a-f]{8}) [0-9a-f]{16} [0-9a-f]{8} (CIE|FDE)(?: cie=([0-9a-f]{8}) "
                  r"pc=([0-9a-f]{16})\.\.([0-9a-f]{16}))?")
CELL = re.compile(r"r\d+ \(\w+\)|\S+")


def read(library, dump):
    text = subprocess.run(["readelf", "-W", f"--debug-dump={dump},no-follow-links", library], check=True,
                          capture_output=True, text=True).stdout
    start = text.index("Contents of the .eh_frame section")
    return text[start:].split("\nContents of the ")[0].splitlines()[1:]


def rule_of(cell):
    """A register's rule: its form and a number."""
    if cell in ("u", "s", "exp", "vexp"):
        return (cell, None)
    if match := re.fullmatch(r"([cv])([+-]\d+)", cell):
        return (match[1], int(match[2]))
    if match := re.fullmatch(r"r(\d+) \(\w+\)", cell):
        return ("r", int(match[1]))
    raise ValueError("no rule: " + cell)


def cfa_of(cell):
    if cell == "exp":
        return ("exp", None)
    name, sign, number = re.fullmatch(r"(\w+?)([+-])(\d+)", cell).groups()
    return (COLUMNS[name], int(sign + number))


def entries(lines):
    """The entries that `frames-interp` prints: offset, kind, CIE, start, end, and rows (address, CFA, rules)."""
    found = []
    columns = []
    for line in lines:
        if match := HEAD.match(line):
            offset, kind, cie, start, end = match.groups()
            found.append((int(offset, 16), kind, *(n and int(n, 16) for n in (cie, start, end)), []))
        elif line.split()[:2] == ["LOC", "CFA"]:
            columns = [COLUMNS[name] for name in line.split()[2:]]
        elif re.match(r"[0-9a-f]{16} ", line):
            address, cfa, *cells = CELL.findall(line)
            if len(cells) != len(columns):
                raise ValueError("another number of columns: " + line)
            found[-1][5].append((int(address, 16), cfa_of(cfa), dict(zip(columns, map(rule_of, cells)))))
        elif line.strip() and not line.startswith("00000000 ZERO terminator") and "ZERO" not in line:
            raise ValueError("not understood: " + line)
    return found


def expressions(lines):
    """The expressions that `frames` prints, by entry and column (None: the CFA); and no more than three rows are
    remembered at a time, so that a reader of fixed room reads each row."""
    found = {}
    entry, remembered = None, 0
    for line in lines:
        if match := HEAD.match(line):
            entry, remembered = int(match[1], 16), 0
        elif match := re.match(r"  DW_CFA_(def_cfa|val|)_?expression:? (?:r(\d+) \(\w+\) )?\((.*)\)$", line):
            place = (entry, match[2] and int(match[2]))
            if found.setdefault(place, match[3]) != match[3]:
                raise ValueError("two expressions of one column: " + line)
        elif "remember_state" in line:
            remembered += 1
            if remembered > 3:
                raise ValueError("too many rows are remembered: " + line)
        elif "restore_state" in line:
            remembered -= 1
    return found


def value(text, registers, first):
    """The value of an expression, or None. FORMATS.md has no operation that reads memory."""
    stack = [] if first is None else [first]
    signed = lambda n: n - (1 << 64) if n & HALF else n
    for operation in text.split("; "):
        if match := re.fullmatch(r"DW_OP_breg(\d+) \(\w+\): (-?\d+)", operation):
            base = registers.get(int(match[1]))
            if base is None:
                return None
            stack.append(base + int(match[2]) & MASK)
        elif match := re.fullmatch(r"DW_OP_lit(\d+)", operation):
            stack.append(int(match[1]))
        elif operation == "DW_OP_deref":
            return None
        else:
            right, left = stack.pop(), stack.pop()
            stack.append({
                "DW_OP_and": lambda: left & right,
                "DW_OP_ge": lambda: int(signed(left) >= signed(right)),
                "DW_OP_shl": lambda: left << right & MASK if right < 64 else 0,
                "DW_OP_plus": lambda: left + right & MASK,
            }[operation]())
    return stack[-1]


def sum_of(base, offset):
    return base + offset if base is not None and base < HALF and 0 <= base + offset < HALF else None


def units(offset, low, high):
    return offset // 8 if offset % 8 == 0 and low <= offset // 8 < high else None


def rule(cfa, bp, ra):
    """The rule of a row, as Rattle's Debug prints it, or None."""
    if ra[0] == "u":
        return "EndOfStack"
    if ra != ("c", -8):
        return None
    if cfa[0] == RBP:
        if cfa[1] == 16 and bp == ("c", -16):
            return "UseFramePointer"
        words = units(cfa[1], 0, 1 << 16)
        place = units(cfa[1] + bp[1], -(1 << 15), 1 << 15) if bp[0] == "c" else None
        if words is None or place is None:
            return None
        return f"UseFramePointerWithOffsets {{ sp_offset_from_bp_by_8: {words}, bp_storage_offset_from_bp_by_8: {place} }}"
    if cfa[0] != RSP:
        return None
    words = units(cfa[1], 0, 1 << 16)
    if words is None:
        return None
    if bp[0] in "us":
        return f"OffsetSp {{ sp_offset_by_8: {words} }}"
    if bp[0] == "c":
        place = units(cfa[1] + bp[1], -(1 << 15), 1 << 15)
        if place is not None:
            return f"OffsetSpAndRestoreBp {{ sp_offset_by_8: {words}, bp_storage_offset_from_sp_by_8: {place} }}"
    return None


def column(form, now, cfa, registers, code):
    """The value of a column in the caller's frame, or None."""
    kind, number = form
    if kind == "u":
        return None
    if kind == "s":
        return now
    if kind == "r":
        return registers.get(number)
    place = value(code, registers, cfa) if kind.endswith("exp") else sum_of(cfa, number)
    if kind in ("v", "vexp") or place is None:
        return place
    return place + ABOVE & MASK


def answer(row, codes, kind, address):
    """What unwinding a frame at an address answers, by its row (CFA, rules), as the test prints it."""
    if row is None:
        return "Rule(JustReturnIfFirstFrameOtherwiseFp)"
    cfa_rule, rules = row
    bp_rule, ra_rule = rules.get(RBP, ("u", None)), rules.get(RA, ("u", None))
    translated = rule(cfa_rule, bp_rule, ra_rule)
    if translated is not None:
        return f"Rule({translated})"
    sp, bp = REGISTERS[kind]
    registers = {RA: address, RSP: sp, RBP: bp}
    if cfa_rule[0] == "exp":
        cfa = value(codes[None], registers, None)
    else:
        cfa = sum_of(registers.get(cfa_rule[0]), cfa_rule[1])
    if cfa is None:
        return "Refused(CouldNotRecoverCfa)"
    ra = column(ra_rule, address, cfa, registers, codes.get(RA))
    if ra is None:
        ra = cfa - 8 + ABOVE & MASK if cfa >= 8 else None
    if ra is None:
        return "Refused(CouldNotRecoverReturnAddress)"
    caller_bp = column(bp_rule, bp, cfa, registers, codes.get(RBP))
    if cfa == sp and ra == address:
        return "Refused(DidNotAdvance)"
    if kind == "caller" and cfa < sp:
        return "Refused(StackPointerMovedBackwards)"
    return f"Caller {{ ip: {ra}, sp: {cfa}, bp: {bp if caller_bp is None else caller_bp} }}"


def rows_of(fde, cies):
    """The rows of an FDE: first address, last address, and row."""
    _, _, cie, start, end, rows = fde
    # an FDE without instructions has its CIE's row
    rows = rows or [(start, *cies[cie])]
    if rows[0][0] != start or start == end:
        raise ValueError("an FDE that does not begin with a row")
    ends = [row[0] for row in rows[1:]] + [end]
    if sorted(ends) != ends or ends[-1] > end:
        raise ValueError("rows that are not in order")
    return [(first, after - 1, row) for (first, *row), after in zip(rows, ends) if after > first]


def lines_of(fde, rows, codes):
    """The lines of an FDE."""
    start, end = fde[3], fde[4]
    places = [(start - 1, start - 1, None), *rows, (end, end, None)]
    return [
        f"{fde[0]:x} {kind} {first:x} {last:x} {answer(row, codes, kind, first)} {answer(row, codes, kind, last)}\n"
        for kind in ("first", "caller") for first, last, row in places]


def digest(lines):
    found = 0xCBF29CE484222325
    for byte in "".join(lines).encode():
        found = (found ^ byte) * 0x100000001B3 & MASK
    return found


def section(library):
    """The address, the file offset and the size of `.eh_frame`."""
    text = subprocess.run(["readelf", "-SW", library], check=True, capture_output=True, text=True).stdout
    match = re.search(r"\] \.eh_frame +PROGBITS +([0-9a-f]+) ([0-9a-f]+) ([0-9a-f]+) ", text)
    return [int(number, 16) for number in match.groups()]


def build_id(library):
    text = subprocess.run(["readelf", "-n", library], check=True, capture_output=True, text=True).stdout
    return re.search(r"Build ID: ([0-9a-f]+)", text)[1]


def main(library, only_count, show_lines):
    found = entries(read(library, "frames-interp"))
    codes = collections.defaultdict(dict)
    for (entry, register), text in expressions(read(library, "frames")).items():
        codes[entry][register] = text
    cies = {entry[0]: (("r0", 0), {}) for entry in found if entry[1] == "CIE"}
    for entry in found:
        if entry[1] == "CIE" and entry[5]:
            cies[entry[0]] = entry[5][-1][1:]
    fdes = [entry for entry in found if entry[1] == "FDE"]
    rows = {fde[0]: rows_of(fde, cies) for fde in fdes}
    counts = collections.Counter()
    for fde in fdes:
        for first, last, row in rows[fde[0]]:
            for kind in ("first", "caller"):
                for address in sorted({first, last}):
                    told = answer(row, codes[fde[0]], kind, address)
                    counts[kind, re.match(r"Rule\(\w+|Caller|Refused.*", told)[0]] += 1
    total = sum(map(len, rows.values()))
    bytes_covered = sum(fde[4] - fde[3] for fde in fdes)
    if only_count:
        print(len(fdes), "FDEs,", total, "rows,", bytes_covered, "addresses; at the first and last address of each row:")
        for place, count in sorted(counts.items()):
            print(count, *place)
        return
    address, place, size = section(library)
    data = open(library, "rb").read()[place:place + size]
    out = [
        f"//! `.eh_frame` of libc.so.6 of x86_64 with the build id {build_id(library)},\n"
        f"//! {len(fdes)} FDEs with {total} rows, and what unwinding by it has to answer. Made by `scripts/libc_rows.py`, which says\n"
        "//! what the numbers are, from readelf's print.\n\n"
        "/// The section's address.\n"
        f"pub(crate) const LIBC_ADDRESS: u64 = {address:#x};\n\n"
        "/// Lists numbers that stand several in a line.\n"
        "macro_rules! numbers {\n"
        "    ($($number:literal)*) => {\n"
        "        [$($number),*]\n"
        "    };\n"
        "}\n\n"
        f"/// The section's bytes, {WORD} in a number, the first ones highest.\n"
        f"pub(crate) const LIBC_WORDS: [u128; {size // WORD}] = numbers! {{\n"]
    if size % WORD:
        raise ValueError("a section that is no whole number of words")
    words = [f"0x{data[at:at + WORD].hex()}" for at in range(0, size, WORD)]
    out += [f"    {' '.join(words[at:at + A_LINE])}\n" for at in range(0, len(words), A_LINE)]
    out.append("};\n\n"
               f"/// For each {BLOCK} FDEs: the number of lines, and their digest.\n"
               f"pub(crate) const LIBC_BLOCKS: [(usize, u64); {-(-len(fdes) // BLOCK)}] = [\n")
    for block in range(0, len(fdes), BLOCK):
        lines = [line for fde in fdes[block:block + BLOCK] for line in lines_of(fde, rows[fde[0]], codes[fde[0]])]
        out.append(f"    ({len(lines)}, {digest(lines):#x}),\n")
        if show_lines:
            sys.stdout.writelines(lines)
    out.append("];\n")
    open("src/libc_table.rt.txt", "w").write("".join(out))


main(sys.argv[-1], "--count" in sys.argv, "--lines" in sys.argv)
