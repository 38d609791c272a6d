#!/usr/bin/env python3
"""by_objdump.py FILE..: whether framehop-check reads each instruction as a disassembler does: its size, and what it makes of the stack
pointer and the frame pointer. Files of x86_64 are read by objdump, those of aarch64 by llvm-objdump.

Of the instructions that it prints in the ranges of a file's FDEs, each that differs in its bytes goes into ELF files that are made
for it. FWAIT, which objdump prints with the x87 instruction after it, is taken for the instruction that it is. An FDE counts where
there is an instruction at its first address.

Sizes, of x86_64: after a one-byte push, the instruction has an FDE of exactly these bytes. Where the sizes are the same, framehop-check reads two
instructions of each FDE, and all of each. Sets for which that is not so are halved, down to the instructions that differ.

Effects: before an instruction that changes nothing, the instruction has an FDE whose row counts from the stack pointer, and one whose row
counts from the frame pointer. The alarm at the second instruction, or that there is none, says what the first makes of that register. It is
compared with what the operands say that are printed: the last one is written, of aarch64 the first, where the mnemonic is not one of those
that write none, or others.

by_objdump.py --words COUNT: the same of so many random words of aarch64, half of which have the fixed bits of an encoding of
crates/framehop_code/src/aarch64/encoding.rt, and of which many name sp or x29. What is known to differ is left out (`is_known`).

The built program is out/framehop-check of this repository, or that of the variable FRAMEHOP_CHECK.
"""
import bisect
import os
import random
import re
import struct
import subprocess
import sys
import tempfile

TOP = os.path.dirname(os.path.dirname(os.path.dirname(os.path.realpath(__file__))))
PROGRAM = os.environ.get("FRAMEHOP_CHECK", os.path.join(TOP, "out", "framehop-check"))
START = 0x1000
PUSH = b"\x50"
# an instruction that changes neither register
AFTER = {"x86_64": b"\x85\xc0", "aarch64": bytes.fromhex("e00300aa")}
FWAIT = 0x9B
OFFSET = 100
MACHINE = {62: "x86_64", 183: "aarch64"}
DWARF = {"x86_64": {"rsp": 7, "rbp": 6}, "aarch64": {"sp": 31, "x29": 29}}
RETURN = {"x86_64": 16, "aarch64": 30}
FAMILY = {"rsp": ("rsp", "esp", "sp", "spl"), "rbp": ("rbp", "ebp", "bp", "bpl"), "sp": ("sp", "wsp"), "x29": ("x29", "w29")}
SUMMARY = re.compile(r": (\d+) functions, (\d+) not wholly read, (\d+) instructions,")
LINE = re.compile(r"^ *([0-9a-f]+):[\t ]((?:[0-9a-f]{2} )+) *\t(.*)$")
RANGE = re.compile(r" FDE .*pc=([0-9a-f]+)\.\.([0-9a-f]+)")
ALARM = re.compile(r"^0x[0-9a-f]+ 0x([0-9a-f]+)\+0x([0-9a-f]+): row: CFA = (\w+)\+\d+, code: (?:CFA = \w+([+-]\d+)|\w+ is (overwritten))")
PREFIXES = re.compile(r"^(?:(?:lock|rep|repz|repnz|bnd|notrack|data16|addr32|cs|ds|es|ss|fs|gs|xacquire|xrelease|rex[.\w]*|\{\w+\}) +)+")
# these write no register that they name last
NO_WRITE = re.compile(
    r"^(cmp[bwlq]?|cmps[bwlq]|test[bwlq]?|bt[wlq]?|nop[wlq]?|push[wlqf]*|call[q]?|out[bwl]?|prefetch\w*|verr|verw|endbr64|clflush\w*|clwb|"
    r"v?u?comis[sdh]|v?ptest|vtestp[sd]|k(or)?test[bwdq]|lldt|ltr|lmsw|invlpg|rep|stos[bwlq]?|movs[bwl]|scas[bwlq]|lods[bwlq]|wrfsbase|"
    r"wrgsbase|ptwrite|movnti[lq]?|ins[bwl]|outs[bwl]|xrstor\w*|xsave\w*|fx\w+|v?ldmxcsr|v?stmxcsr|tpause|umwait|umonitor|incssp[dq]|"
    r"mul[bwlq]?|div[bwlq]?|idiv[bwlq]?|fn?st\w*|fld\w*|j\w+|xbegin)$"
)
AWAY = re.compile(r"^(jmp|ret|lret|iret|ud[012]|hlt|int3|int|ljmp|lcall|syscall_exit)[wlq]?$")


def lines_of(command):
    with subprocess.Popen(command, stdout=subprocess.PIPE, stderr=subprocess.DEVNULL, text=True, errors="replace") as run:
        yield from run.stdout


def ranges_of(path):
    found = []
    for line in lines_of(["readelf", "--debug-dump=frames", path]):
        match = RANGE.search(line)
        if match:
            found.append((int(match[1], 16), int(match[2], 16)))
    return sorted(found)


def disassembler(path, arch):
    if arch == "aarch64":
        return ["llvm-objdump", "-d", "--mattr=+v8.7a,+sve2,+mte", path]
    return ["objdump", "-d", "-w", "--insn-width=15", path]


def instructions_of(path, arch):
    """The bytes of each instruction of the FDEs, with objdump's text, and how many there are."""
    ranges = ranges_of(path)
    starts = [start for start, _ in ranges]
    found, count, begun = {}, 0, None
    for line in lines_of(disassembler(path, arch)):
        match = LINE.match(line)
        if not match:
            continue
        address = int(match[1], 16)
        place = bisect.bisect_right(starts, address) - 1
        code = bytes.fromhex(match[2].replace(" ", ""))
        end = address + len(code)
        is_read = place >= 0 and address in (starts[place], begun) and end <= ranges[place][1] and "(bad)" not in match[3] and "<unknown>" not in match[3]
        begun = end if is_read else None
        if not is_read:
            continue
        if code[0] == FWAIT and arch == "x86_64":
            code = code[1:] or code
        count += 1
        found.setdefault(code, match[3])
    return found, count


def elf_of(codes, register="rsp", arch="x86_64"):
    """An ELF file of which each code has an FDE, whose row counts from a register."""
    text, frames = bytearray(), bytearray()
    cie = struct.pack("<IB", 0, 1) + b"zR\0" + bytes([1, 0x78, RETURN[arch], 1, 0x1B, 0x0C, DWARF[arch][register], OFFSET, 0x80 | RETURN[arch], 1])
    cie += bytes(-len(cie) % 4)
    frames += struct.pack("<I", len(cie)) + cie
    svma = START + sum(len(code) for code in codes)
    svma += -svma % 16
    for code in codes:
        start, at = START + len(text), len(frames)
        text += code
        frames += struct.pack("<IIiI", 16, at + 4, start - (svma + at + 8), len(code)) + bytes(4)
    frames += bytes(4)
    names = b"\0.text\0.eh_frame\0.shstrtab\0"
    headers, body = [(0,) * 10], bytearray()
    for name, kind, flags, address, data in ((1, 1, 6, START, text), (7, 1, 2, svma, frames), (17, 3, 0, 0, names)):
        headers.append((name, kind, flags, address, 64 + 4 * 64 + len(body), len(data), 0, 0, 1, 0))
        body += data
    head = b"\x7fELF\x02\x01\x01" + bytes(9) + struct.pack("<HHIQQQIHHHHHH", 3, 62 if arch == "x86_64" else 183, 1, 0, 0, 64, 0, 64, 0, 0, 64, 4, 3)
    return head + b"".join(struct.pack("<IIQQQQIIQQ", *header) for header in headers) + body


def check(elf, *arguments):
    with tempfile.NamedTemporaryFile(suffix=".so") as file:
        file.write(elf)
        file.flush()
        return subprocess.run([PROGRAM, *arguments, file.name], stdout=subprocess.PIPE, text=True, check=False).stdout


# ---- sizes

def reads_all(codes):
    out = check(elf_of([PUSH + code for code in codes]), "--quiet")
    functions, unread, instructions = (int(number) for number in SUMMARY.search(out).groups())
    return (functions, unread, instructions) == (len(codes), 0, 2 * len(codes))


def others_in(codes):
    if not codes or reads_all(codes):
        return []
    if len(codes) == 1:
        return codes
    half = len(codes) // 2
    return others_in(codes[:half]) + others_in(codes[half:])


# ---- effects

def told(codes, register, arch):
    """What the program tells of each instruction: how far the register moves, None where it keeps its value, or 'any'."""
    starts, at = {}, START
    for code in codes:
        starts[at] = code
        at += len(code) + len(AFTER[arch])
    result = {}
    for line in check(elf_of([code + AFTER[arch] for code in codes], register, arch)).splitlines():
        match = ALARM.match(line)
        if not match or match[3] != register:
            continue
        code = starts[int(match[1], 16)]
        if int(match[2], 16) == len(code):
            result[code] = "any" if match[5] else OFFSET - int(match[4])
    return result


def operands_of(text):
    """The mnemonic and the operands, as AT&T syntax has them."""
    text = PREFIXES.sub("", text.split("#")[0].split("<")[0].strip())
    mnemonic, _, rest = text.partition(" ")
    parts, depth, part = [], 0, ""
    for letter in rest.strip():
        depth += (letter in "({") - (letter in ")}")
        if letter == "," and depth == 0:
            parts.append(part)
            part = ""
        else:
            part += letter
    return mnemonic, [it.strip() for it in parts + [part] if it.strip()]


def number(text):
    value = int(text.lstrip("$"), 16)
    return value - 2**64 if value >= 2**63 else value


def expected_x86_64(text, register):
    """What the operands say; 'away' where the next instruction is not reached from here."""
    mnemonic, operands = operands_of(text)
    if AWAY.match(mnemonic):
        return "away"
    is_it = lambda operand: operand.startswith("%") and operand[1:] in FAMILY[register]
    if mnemonic in ("leave", "enter"):
        return "any" if register == "rbp" else ("away" if mnemonic == "leave" else "any")
    last = operands[-1] if operands else ""
    moved = None
    if register == "rsp":
        if re.match(r"^push(q|f|fq)?$", mnemonic):
            return -8
        if re.match(r"^pop(q|f|fq)?$", mnemonic):
            return "any" if is_it(last) else 8
        if re.match(r"^(push|pop)f?w$", mnemonic):
            return "any"
    if mnemonic in ("pop", "popw", "popq"):
        return "any" if is_it(last) else moved
    if mnemonic in ("add", "sub", "addq", "subq") and last == "%" + register and operands[0].startswith("$"):
        bytes_moved = number(operands[0])
        return (bytes_moved if mnemonic.startswith("add") else -bytes_moved) or None
    if mnemonic == "lea" and last == "%" + register:
        match = re.match(r"^(-?0x[0-9a-f]+)?\(%(r\w+)\)$", operands[0])
        if match and match[2] == register:
            return int(match[1] or "0", 16) or None
        if match and match[2] in FAMILY:
            return "away"
    if mnemonic == "mov" and last == "%" + register and operands[0] in ("%rsp", "%rbp"):
        return None if operands[0] == last else "away"
    if NO_WRITE.match(mnemonic) or (mnemonic.startswith("imul") and len(operands) == 1):
        return moved
    if re.match(r"^(xchg|xadd)[bwlq]?$", mnemonic):
        return "any" if any(is_it(it) for it in operands) else moved
    if mnemonic == "mulx":
        return "any" if any(is_it(it) for it in operands[-2:]) else moved
    return "any" if is_it(last) else moved


# these write no register that they name first
NO_WRITE_AARCH64 = re.compile(
    r"^(st(?!l?xr|l?xp)\w*|cmp|cmn|tst|ccmp|ccmn|f\w+|nop|hint|[dit]sb|dmb|isb|svc|msr|prf\w+|cb\w+|tb\w+|b\.\w+|bl|blr\w*|yield|"
    r"paci\w+|auti\w+|xpaclri|bti|csdb|clrex|dc|ic|at|tlbi|sys|ptrue|whilelo|sb|esb|hvc|smc|setf\d+|rmif|cfinv|cterm(eq|ne)|[su]?cvtf|eret)$"
)
AWAY_AARCH64 = re.compile(r"^(b|br|bra\w+|ret\w*|udf|brk|hlt)$")
ATOMIC = re.compile(r"^(ld(add|clr|eor|set|smax|smin|umax|umin)|swp)[abhl]*$")


def expected_aarch64(text, register):
    mnemonic, _, rest = text.split("<")[0].split("//")[0].strip().partition("\t")
    operands = [it.strip() for it in re.findall(r"(?:\[[^\]]*\]!?|\{[^}]*\}|[^,\[{])+", rest) if it.strip()]
    if AWAY_AARCH64.match(mnemonic):
        return "away"
    is_it = lambda operand: operand in FAMILY[register]
    base = re.search(r"(?:^|, )\[(\w+)", rest)
    moved = None
    if base and is_it(base[1]):
        before, after = re.search(r"#(-?\w+)\]!", rest), re.search(r"\], (?:#(-?\w+)|x\d+)", rest)
        if before or after:
            match = before or after
            moved = (int(match[1], 0) or None) if match[1] else "any"
            # by how much is not told
            if re.match(r"^(ldra[ab]|(ld|st)[1-4]r?)$", mnemonic):
                moved = "any"
    if mnemonic in ("add", "sub") and operands[0] == register and operands[1] == register and operands[2].startswith("#"):
        bytes_moved = int(operands[2][1:], 0) << (12 if operands[3:] == ["lsl #12"] else 0)
        return (bytes_moved if mnemonic == "add" else -bytes_moved) or None
    if mnemonic in ("add", "sub", "mov") and operands[0] == register and operands[1] in ("sp", "x29"):
        return "away"
    if NO_WRITE_AARCH64.match(mnemonic) and not re.match(r"^fmov|^fcvt[a-z]*[su]$|^fjcvt", mnemonic):
        return moved
    written = operands[:1]
    if ATOMIC.match(mnemonic):
        written = operands[1:2]
    elif re.match(r"^(ldn?p|ldpsw|ldaxp|ldxp)$", mnemonic):
        written = operands[:2]
    elif mnemonic.startswith("casp"):
        written = operands[:2]
    return "any" if any(is_it(it) for it in written) else moved


EXPECTED = {"x86_64": expected_x86_64, "aarch64": expected_aarch64}


def wrong_effects(codes, texts, arch):
    result = []
    for register in DWARF[arch]:
        found = told(codes, register, arch)
        for code in codes:
            wanted = EXPECTED[arch](texts[code], register)
            if wanted != "away" and found.get(code) != wanted:
                result.append((code, f"{register}: {found.get(code)} and not {wanted}"))
    return result


# ---- random words

ENCODING = re.compile(r"Encoding\(0x([0-9a-f_]+), 0x([0-9a-f_]+), \w+\)")
SVE_COUNTS = re.compile(r"^(([su]q)?(inc|dec)[bhwdp]|cnt[bhwdp]|(last|clast)[ab])$")


def is_known(text, what):
    """Differences that are meant: SVE's counts in x29 are not told, nor what a register has that is loaded and the base too; an exclusive
    or ordered access counts as one that writes each register that it could; and two encodings that are none of an instruction in use."""
    mnemonic = text.split("\t")[0]
    if SVE_COUNTS.match(mnemonic) or mnemonic in ("mrs", "rdvl"):
        return True
    is_load_of_base = re.match(r"^(ldp|ldpsw|ldr\w*)$", mnemonic) and "[x29" in text
    is_ordered = re.match(r"^(cas\w*|ld(a|la|x|ax)[rp]\w*|st(l|ll|x|lx)[rp]\w*)$", mnemonic) and "any and not None" in what
    return bool(is_load_of_base or is_ordered)


def words_of(count):
    with open(os.path.join(TOP, "crates", "framehop_code", "src", "aarch64", "encoding.rt"), encoding="utf-8") as file:
        encodings = [(int(mask.replace("_", ""), 16), int(bits.replace("_", ""), 16)) for mask, bits in ENCODING.findall(file.read())]
    chosen, words = random.Random(1), set()
    for number in range(count):
        word = chosen.getrandbits(32)
        if number % 2:
            mask, bits = chosen.choice(encodings)
            word = word & ~mask | bits
        for low in (0, 5, 10, 16):
            if chosen.random() < 0.4:
                word = word & ~(31 << low) | chosen.choice((29, 31)) << low
        words.add(word & 0xFFFFFFFF)
    return [struct.pack("<I", word) for word in sorted(words)]


def judge_words(count):
    codes, texts = words_of(count), {}
    with tempfile.NamedTemporaryFile(suffix=".so") as file:
        file.write(elf_of(codes, "sp", "aarch64"))
        file.flush()
        for line in lines_of(disassembler(file.name, "aarch64")):
            match = LINE.match(line)
            if match and "<unknown>" not in match[3]:
                texts[bytes.fromhex(match[2].replace(" ", ""))] = match[3]
    valid = [code for code in codes if code in texts]
    wrong = wrong_effects(valid, texts, "aarch64")
    others = [it for it in wrong if not is_known(texts[it[0]], it[1])]
    print(f"{len(valid)} words that are instructions; {len(wrong)} of another effect, {len(others)} that are not known")
    for code, what in others[:40]:
        print(f"  {code[::-1].hex()} {texts[code]} {what}")
    return 1 if others else 0


def arch_of(path):
    with open(path, "rb") as file:
        return MACHINE[struct.unpack_from("<H", file.read(20), 18)[0]]


def main():
    if sys.argv[1:2] == ["--words"]:
        return judge_words(int(sys.argv[2]))
    known, status = {"x86_64": {}, "aarch64": {}}, 0
    for path in sys.argv[1:]:
        arch = arch_of(path)
        found, count = instructions_of(path, arch)
        new = [code for code in found if code not in known[arch]]
        known[arch].update((code, found[code]) for code in new)
        sizes = others_in(new) if arch == "x86_64" else [code for code in new if len(code) != 4]
        effects = wrong_effects(new, found, arch)
        print(f"{path}: {count} instructions, {len(found)} that differ in their bytes; {len(sizes)} of another size, {len(effects)} of another effect", flush=True)
        for code, what in [(code, "") for code in sizes[:40]] + effects[:40]:
            status = 1
            print(f"  {code.hex()} {found[code]} {what}", flush=True)
    for arch, codes in known.items():
        print(f"{arch}: {len(codes)} that differ in their bytes in all files")
    return status


if __name__ == "__main__":
    sys.exit(main())
