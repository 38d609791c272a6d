#!/usr/bin/env python3
"""judge_code_aarch64.py [OPTION..] STACKS STOPS PROGRAM ARGUMENT..: judges by qemu the callers that STACKS (framehop-stacks) finds on aarch64.

PROGRAM is run by qemu-aarch64 and driven by the protocol of gdb. A first run tells which instructions of its files are executed. In the
next ones it is stopped at STOPS of them that no FDE covers, chosen at random. Each time it goes on until the function that it was in has
returned: to the next call, return or jump by register, over a call to where that returns, until a return has been made. Of its registers
and its stack at each stop and after the return a recording is made. The caller of the innermost frame that STACKS prints of the stop must
be where the processor has come to. The frames above that are not printed with their registers; they must be those that STACKS prints of the
place after the return, if call frames say there who called.

Printed are how many were right, wrong and left open, by the file and section of the stop and by the mark of the frame, and what was wrong.
The status is 1 if a frame by [cfi] or [code] was wrong.

    --root DIR    the folder that qemu takes for /, with the program's libraries (qemu's -L); else the variable QEMU_LD_PREFIX
    --covered     stops also at instructions that an FDE covers
    --file TEXT   stops only in files that have TEXT in their paths
    --section S   stops only in sections of this name, as .text
    --seed N      another choice of instructions
    --keep FILE   the recording is kept as FILE, and what the processor did as FILE.stops
    --again FILE  judges by what was kept; STOPS and PROGRAM are left out

Where STACKS is -, what the processor did is printed. PROGRAM should have one thread.
"""

import argparse
import bisect
import collections
import contextlib
import os
import random
import re
import socket
import struct
import subprocess
import sys
import tempfile
import time

import judge_code

# x0 to x30, sp and pc: the kernel's order, and that of qemu
REGISTERS = 0x1_FFFF_FFFF
SP, PC = 31, 32
EM_AARCH64, PT_LOAD, PF_X = 183, 1, 1
AT_ENTRY = 9
PAGE = 4096
# so many breakpoints at a time, which make qemu slow; after so many seconds without one, the program is run anew
AT_ONCE, SECONDS = 100, 3
# after so many calls and jumps of a function its return is not waited for
JUMPS = 20_000
# how often an instruction is passed over before the program is stopped there
PASSED_OVER = [0, 0, 0, 1, 5]
SIGTRAP = b"05"


class Ended(Exception):
    """The program has ended, or has come to no breakpoint."""


class Machine:
    """A program in qemu, stopped at its entry point, when its libraries are mapped; its mappings are (start, end, offset, path)."""

    def __init__(self, folder, root, command, log=None):
        place = os.path.join(folder, "gdb")
        if os.path.exists(place):
            os.unlink(place)
        logged = ["-d", "in_asm", "-D", log] if log else []
        null = subprocess.DEVNULL
        self.process = subprocess.Popen(["qemu-aarch64", "-L", root, *logged, "-g", place, *command], stdin=null, stdout=null, stderr=null)
        self.socket, self.received = socket.socket(socket.AF_UNIX), b""
        while not os.path.exists(place) or self.socket.connect_ex(place):
            assert self.process.poll() is None, "qemu has ended"
            time.sleep(0.02)
        # qemu tells single registers only to who has asked which there are
        self.ask("qXfer:features:read:target.xml:0,800")
        entry = self.auxiliary(AT_ENTRY)
        if self.register(PC) != entry:
            self.go_to([entry])
        self.memory = os.open(f"/proc/{self.process.pid}/mem", os.O_RDONLY)
        assert os.pread(self.memory, 4, entry) == bytes.fromhex(self.ask(f"m{entry:x},4").decode()), "the program's addresses are not those of qemu"
        self.maps = []
        with open(f"/proc/{self.process.pid}/maps") as maps:
            for line in maps:
                bounds, _, offset, _, _, *path = line.rstrip("\n").split(None, 5)
                start, end = bounds.split("-")
                self.maps.append((int(start, 16), int(end, 16), int(offset, 16), "".join(path)))

    def __enter__(self):
        return self

    def __exit__(self, *_):
        os.close(self.memory)
        self.socket.close()
        self.process.kill()
        self.process.wait()

    def ask(self, text):
        """The answer to a packet; a + before the next packet acknowledges it."""
        try:
            self.socket.sendall(f"+${text}#{sum(text.encode()) & 255:02x}".encode())
            while not (answer := re.search(rb"\$([^#]*)#..", self.received, re.DOTALL)):
                more = self.socket.recv(65536)
                if not more:
                    raise Ended
                self.received += more
        except (ConnectionError, TimeoutError):
            raise Ended from None
        self.received = self.received[answer.end() :]
        return answer[1]

    def auxiliary(self, wanted):
        answer = re.sub(rb"}(.)", lambda found: bytes([found[1][0] ^ 0x20]), self.ask("qXfer:auxv:read::0,800"), flags=re.DOTALL)
        return dict(struct.iter_unpack("<QQ", answer[1 : 1 + (len(answer) - 1) // 16 * 16]))[wanted]

    def breakpoint(self, which, address):
        assert self.ask(f"{which}0,{address:x},4") == b"OK"

    def resume(self, how):
        """Lets the program go on to a breakpoint or by a step. It gets other signals."""
        answer = self.ask(how)
        while answer[:1] in (b"T", b"S") and answer[1:3] != SIGTRAP:
            answer = self.ask(f"vCont;{how.upper()}{answer[1:3].decode()}")
        if answer[:1] not in (b"T", b"S"):
            raise Ended

    def go_to(self, addresses):
        """Lets the program go on, by one instruction at least, to one of the addresses."""
        if self.register(PC) in addresses:
            self.resume("s")
        if self.register(PC) not in addresses:
            for address in addresses:
                self.breakpoint("Z", address)
            self.resume("c")
            for address in addresses:
                self.breakpoint("z", address)

    def register(self, number):
        return int.from_bytes(bytes.fromhex(self.ask(f"p{number:x}").decode()), "little")

    def registers(self):
        return list(struct.unpack_from("<33Q", bytes.fromhex(self.ask("g").decode())))

    def stack(self, sp):
        end = next((end for start, end, _, _ in self.maps if start <= sp < end), sp)
        return os.pread(self.memory, min(judge_code.STACK, end - sp), sp)


class File:
    """An ELF file of aarch64: its code, and where FDEs cover that."""

    def __init__(self, path):
        self.path = path
        with open(path, "rb") as file:
            self.bytes = file.read()
        at, size, count = struct.unpack_from("<Q", self.bytes, 32)[0], *struct.unpack_from("<HH", self.bytes, 54)
        segments = [struct.unpack_from("<IIQQQQQQ", self.bytes, at + size * number) for number in range(count)]
        loaded = [segment for segment in segments if segment[0] == PT_LOAD]
        self.low = min(segment[3] for segment in loaded) // PAGE * PAGE
        self.code = [(segment[3], segment[2], segment[5]) for segment in loaded if segment[1] & PF_X]
        listed = self.readelf("--section-headers")
        section = re.compile(r"\] (\S+) +\S+ +([0-9a-f]+) [0-9a-f]+ ([0-9a-f]+) [0-9a-f]+ +[A-Z]*X")
        self.sections = [(int(found[2], 16), int(found[2], 16) + int(found[3], 16), found[1]) for found in section.finditer(listed)]
        fdes = re.findall(r" FDE .*pc=([0-9a-f]+)\.\.([0-9a-f]+)", self.readelf("--debug-dump=frames"))
        self.fdes = sorted((int(start, 16), int(end, 16)) for start, end in fdes)

    def readelf(self, what):
        return subprocess.run(["readelf", "--wide", what, self.path], stdout=subprocess.PIPE, stderr=subprocess.DEVNULL, check=True).stdout.decode()

    def covered(self, address):
        at = bisect.bisect_right(self.fdes, (address, 2**64)) - 1
        return at >= 0 and address < self.fdes[at][1]

    def section(self, address):
        return next((name for start, end, name in self.sections if start <= address < end), None)

    def word(self, address):
        for start, offset, size in self.code:
            if start <= address and address + 4 <= start + size:
                return struct.unpack_from("<I", self.bytes, offset + address - start)[0]
        return None


def is_of_aarch64(path):
    if not os.path.isfile(path):
        return False
    with open(path, "rb") as file:
        head = file.read(20)
    return head[:4] == b"\x7fELF" and head[18:] == struct.pack("<H", EM_AARCH64)


class Files:
    """The files of aarch64 that a program maps. Those that are known by their paths are not read again."""

    def __init__(self, machine, known):
        self.mapped = []
        for start, _, offset, path in machine.maps:
            if path not in known:
                known[path] = File(path) if is_of_aarch64(path) else None
            file = known[path]
            if file and offset == 0 and self.address(file, 0) is None:
                end = max(stated + size for stated, _, size in file.code)
                self.mapped.append((start, start + end - file.low, file))

    def place(self, address):
        """The file of an address, and the address that it states for it."""
        for start, end, file in self.mapped:
            if start <= address < end:
                return file, address - start + file.low
        return None, address

    def address(self, file, stated):
        return next((start - file.low + stated for start, _, other in self.mapped if other is file), None)

    def mappings(self, process, moment):
        for start, _, file in self.mapped:
            for stated, offset, size in file.code:
                low, high = stated // PAGE * PAGE, -(-(stated + size) // PAGE) * PAGE
                where = start - file.low
                yield judge_code.mapping(process, where + low, where + high, offset // PAGE * PAGE, os.fsencode(file.path), moment)


def is_call(word):
    return word >> 26 == 0b100101 or word & 0xFFFFFC1F == 0xD63F0000 or word & 0xFEFFF800 == 0xD63F0800


def is_return(word):
    return word & 0xFFFFFC1F == 0xD65F0000 or word in (0xD65F0BFF, 0xD65F0FFF)


def is_jump_by_register(word):
    return word & 0xFFFFFC1F == 0xD61F0000 or word & 0xFEFFF800 == 0xD61F0800


def branch(address, word, low, width):
    offset = word >> low & (1 << width) - 1
    return address + 4 * (offset - (offset >> width - 1 << width))


def next_of(address, word):
    """Where the processor may go from an instruction that is no call, no return and no jump by register."""
    if word >> 26 == 0b000101:
        return [branch(address, word, 0, 26)]
    if word >> 24 == 0x54 or word & 0x7E000000 == 0x34000000:
        return [address + 4, branch(address, word, 5, 19)]
    if word & 0x7E000000 == 0x36000000:
        return [address + 4, branch(address, word, 5, 14)]
    return [address + 4]


class Code:
    """The code of a running program."""

    def __init__(self, machine, files):
        self.machine, self.files, self.found = machine, files, {}

    def word(self, address):
        file, stated = self.files.place(address)
        return file.word(stated) if file else None

    def ends(self, start):
        """The first calls, returns and jumps by register that can be reached, and what is reached outside of the files."""
        if start not in self.found:
            ends, seen, left = set(), set(), [start]
            while left:
                address = left.pop()
                if address not in seen:
                    seen.add(address)
                    word = self.word(address)
                    if word is None or is_call(word) or is_return(word) or is_jump_by_register(word):
                        ends.add(address)
                    else:
                        left += next_of(address, word)
            self.found[start] = ends
        return self.found[start]

    def step_out(self):
        """Goes to the return of the function, past its calls, and returns the registers there."""
        machine = self.machine
        for _ in range(JUMPS):
            ends = self.ends(machine.register(PC))
            if machine.register(PC) not in ends:
                machine.go_to(ends)
            at, sp = machine.register(PC), machine.register(SP)
            word = self.word(at)
            machine.resume("s")
            if word is not None and is_return(word):
                return machine.registers()
            # a call of the next instruction asks where it is
            if word is not None and is_call(word) and machine.register(PC) != at + 4:
                machine.go_to([at + 4])
                # in a call of the same function within this one
                while machine.register(SP) != sp:
                    machine.go_to([at + 4])
        return None


def is_asked_for(file, stated, arguments):
    if arguments.file not in file.path or arguments.section not in (None, file.section(stated)):
        return False
    return arguments.covered or not file.covered(stated)


def executed(folder, arguments, known):
    """The instructions of the program's files that are executed, as pairs of a file and an address that it states."""
    log = os.path.join(folder, "log")
    with Machine(folder, arguments.root, arguments.command, log) as machine:
        files, before = Files(machine, known), os.path.getsize(log)
        with contextlib.suppress(Ended):
            machine.resume("c")
    with open(log, "rb") as text:
        text.seek(before)
        addresses = {int(found[1], 16) for line in text if (found := re.match(rb"0x([0-9a-f]+): ", line))}
    return [place for place in map(files.place, sorted(addresses)) if place[0] and is_asked_for(*place, arguments)]


def stops_of_run(machine, files, places, waiting, wanted):
    """Of each stop of one run its registers, its stack, and the registers after the return, or None, and the stack there. Waiting is where
    the program is yet to be stopped, and how often it is passed over before."""
    code = Code(machine, files)
    while wanted:
        while places and len(waiting) < AT_ONCE:
            waiting[files.address(*places.pop())] = random.choice(PASSED_OVER)
        machine.go_to(waiting)
        registers = machine.registers()
        if waiting[registers[PC]]:
            waiting[registers[PC]] -= 1
            continue
        del waiting[registers[PC]]
        stack, back = machine.stack(registers[SP]), None
        with contextlib.suppress(Ended):
            back = code.step_out()
        yield registers, stack, back, machine.stack(back[SP]) if back else b""
        wanted -= 1


def stops_of(folder, arguments):
    """The records of a recording, and of each stop a line: its file and section, its pc, and the pc and sp after the return, or none."""
    known = {}
    places = executed(folder, arguments, known)
    print(f"{len(places)} instructions to stop at are executed", file=sys.stderr)
    random.seed(arguments.seed)
    random.shuffle(places)
    records, lines, process, moment = [], [], 0, 0
    while places and len(lines) < arguments.stops:
        process, moment, before, waiting = process + 1, moment + 1, len(lines), {}
        with Machine(folder, arguments.root, arguments.command) as machine:
            files = Files(machine, known)
            machine.socket.settimeout(SECONDS)
            records += [judge_code.name(process, b"judged", moment), *files.mappings(process, moment)]
            with contextlib.suppress(Ended):
                for registers, stack, back, stack_there in stops_of_run(machine, files, places, waiting, arguments.stops - len(lines)):
                    file, stated = files.place(registers[PC])
                    records.append(judge_code.sample(process, registers[PC], registers, stack, moment + 1))
                    line = f"{os.path.basename(file.path)}{file.section(stated)} {stated:x}"
                    if back:
                        records.append(judge_code.sample(process, back[PC], back, stack_there, moment + 2))
                        line += f" {back[PC]:x} {back[SP]:x}"
                    lines.append(line)
                    moment += 2
            # where the program came to none of them, it may do so in no run
            if len(lines) > before:
                places[:0] = [files.place(address) for address in waiting]
        print(f"{len(lines)} stops after {process} runs, {len(places)} instructions are left", file=sys.stderr)
    return records, lines


def addresses(lines):
    return [line.split()[0] for line in lines if not line.startswith("[")] + [line for line in lines if line.startswith("[")]


def judge(stacks, file, stops):
    """Prints the verdicts, and returns whether a frame by [cfi] or [code] was wrong."""
    printed = iter(judge_code.blocks(stacks, file))
    counts, wrong, above = collections.Counter(), [], []
    for stop in stops:
        where, stated, *came_to = stop.split()
        lines = next(printed)
        mark, found = judge_code.caller(lines)
        verdict = judge_code.verdict_of(found, int(came_to[0], 16) if came_to else None)
        counts[where, mark, verdict] += 1
        if verdict == "wrong":
            wrong.append(f"{mark}: {lines[0]}: {found:x}, and the processor came to {came_to[0]}")
        after = next(printed) if came_to else []
        if verdict == "right":
            same = addresses(lines[2:]) == addresses(after[1:])
            verdict = "not judged" if judge_code.caller(after)[0] != "cfi" else "the same" if same else "others"
            counts[where, mark, "frames above: " + verdict] += 1
            if verdict == "others":
                above.append("\n    ".join([f"{mark}: {lines[0]}: frames above:", *lines[1:6], "after the return:", *after[:5]]))
    assert next(printed, None) is None, "more blocks than stops"
    for (where, mark, verdict), count in sorted(counts.items()):
        print(f"{count:6} {where} {mark} {verdict}")
    print(*wrong[:20], *above[:5], sep="\n")
    return any(line.startswith(("cfi:", "code:")) for line in wrong)


def main():
    parser = argparse.ArgumentParser(usage=__doc__)
    parser.add_argument("--root", default=os.environ.get("QEMU_LD_PREFIX", "/"))
    parser.add_argument("--covered", action="store_true")
    parser.add_argument("--file", default="")
    parser.add_argument("--section")
    parser.add_argument("--seed", type=int, default=1)
    parser.add_argument("--keep")
    parser.add_argument("--again")
    parser.add_argument("stacks")
    parser.add_argument("stops", type=int, nargs="?")
    parser.add_argument("command", nargs=argparse.REMAINDER)
    arguments = parser.parse_args()
    with tempfile.TemporaryDirectory() as folder:
        file = arguments.again or arguments.keep or os.path.join(folder, "stops.data")
        if not arguments.again:
            records, lines = stops_of(folder, arguments)
            with open(file, "wb") as made:
                made.write(judge_code.recording(b"".join(records), REGISTERS))
            with open(file + ".stops", "w") as made:
                made.writelines(line + "\n" for line in lines)
        with open(file + ".stops") as kept:
            stops = kept.read().splitlines()
        if arguments.stacks == "-":
            print(*stops, sep="\n")
            return
        sys.exit(judge(arguments.stacks, file, stops))


if __name__ == "__main__":
    main()
