"""dumps.py KIND ITEMS FOLDER: a core file or a minidump of x86_64 with many items of one kind, each made to cost a square where a reader
is careless.

Each function of KINDS returns the files of a number of items, by their names: `dump` is what the program is given, and what is below
`root` is given by `--root`.
"""
import os
import struct
import sys

PAGE = 0x1000
PT_LOAD, PT_NOTE = 1, 4
NT_PRSTATUS, NT_FILE, NT_GNU_BUILD_ID = 1, 0x46494C45, 3
STACKS = 0x7F0000000000


def note(owner, kind, descriptor):
    name = owner + b"\0"
    pad = lambda data: data + bytes(-len(data) % 4)
    return struct.pack("<III", len(name), len(descriptor), kind) + pad(name) + pad(descriptor)


def thread_note(tid, stack, place=0x401000):
    """struct elf_prstatus: the number of the thread at 32, the registers of the kernel from 112 on."""
    registers = [0] * 27
    registers[4], registers[16], registers[19] = stack, place, stack
    return note(b"CORE", NT_PRSTATUS, struct.pack("<32xI76x27Q8x", tid, *registers))


def elf(kind, segments, sections=(), names=b"", names_index=0):
    """A file of these program headers (type, flags, address, bytes) and section headers. Bytes that are alike are stored once."""
    more = len(segments) >= 0xFFFF
    table = 64
    end = table + 56 * len(segments)
    stored, body, headers = {}, b"", []
    blocks = []
    for p_type, flags, address, data in segments:
        if data not in stored:
            stored[data] = end
            blocks.append(data)
            end += len(data)
        headers.append(struct.pack("<IIQQQQQQ", p_type, flags, stored[data], address, 0, len(data), len(data), 1))
    names_at = end
    blocks.append(names)
    section_table = names_at + len(names)
    rows = []
    for name, s_type in sections:
        rows.append(struct.pack("<IIQQQQIIQQ", name, s_type, 0, 0, names_at, len(names), 0, 0, 1, 0))
    assert not more and len(rows) < 0xFF00
    head = b"\x7fELF\2\1\1" + bytes(9) + struct.pack(
        "<HHIQQQIHHHHHH", kind, 62, 1, 0, table, section_table if rows else 0, 0, 64, 56, len(headers), 64, len(rows), names_index)
    return head + b"".join(headers) + b"".join(blocks) + b"".join(rows)


def core(notes, loads):
    return elf(4, [(PT_NOTE, 0, 0, b"".join(notes))] + [(PT_LOAD, 6, address, data) for address, data in loads])


def stack_at(address):
    """A frame that points at the next stack by its frame pointer, and a return address."""
    return struct.pack("<QQ6Q", 0, 0x402000, *range(6))


def mapped(files):
    """NT_FILE of files: first address, address after the last, path."""
    entries = b"".join(struct.pack("<QQQ", start, end, 0) for start, end, _ in files)
    return note(b"CORE", NT_FILE, struct.pack("<QQ", len(files), PAGE) + entries + b"".join(path + b"\0" for _, _, path in files))


def threads(count):
    """As many threads as segments of memory, each stack in its own."""
    stacks = [STACKS + PAGE * at for at in range(count)]
    return {"dump": core([thread_note(at + 1, stack) for at, stack in enumerate(stacks)], [(stack, stack_at(stack)) for stack in stacks])}


def threads_backwards(count):
    """The same, the segments from the last address to the first."""
    stacks = [STACKS + PAGE * at for at in reversed(range(count))]
    return {"dump": core([thread_note(at + 1, stack) for at, stack in enumerate(stacks)], [(stack, stack_at(stack)) for stack in stacks])}


def segments_in_turn(count):
    """As many threads on one stack, whose frame pointers lead through 16 segments, from each to the next."""
    places = [STACKS + 0x100000 * at for at in range(16)]
    stacks = [struct.pack("<QQ6Q", after, 0x402000, *range(6)) for after in places[1:]] + [stack_at(0)]
    notes = b"".join(thread_note(at + 1, places[0]) for at in range(count))
    loads = [(PT_LOAD, 6, place, stack) for place, stack in zip(places, stacks)]
    return {"dump": elf(4, [(PT_NOTE, 0, 0, notes), (PT_LOAD, 5, 0x400000, bytes(0x4000)), *loads])}


def one_stack(count):
    """A sixteenth as many threads on one stack of 511 frames, all in a mapped file that isn't there, with a path of 1,000 bytes."""
    frames = b"".join(struct.pack("<QQ", STACKS + 16 * (at + 1), 0x402000) for at in range(510)) + bytes(16)
    notes = [thread_note(at + 1, STACKS) for at in range(count // 16)]
    path = b"/" + b"a" * 999
    return {"dump": elf(4, [(PT_NOTE, 0, 0, b"".join(notes) + mapped([(0x400000, 0x404000, path)])),
        (PT_LOAD, 5, 0x400000, bytes(0x4000)), (PT_LOAD, 6, STACKS, frames)])}


def overlapping(count):
    """Threads, each with a segment of memory of its own, of which the last two overlap."""
    stacks = [STACKS + PAGE * at for at in range(count)]
    loads = [(stack, stack_at(stack)) for stack in stacks] + [(stacks[-1] + 32, stack_at(0))]
    return {"dump": core([thread_note(at + 1, stack) for at, stack in enumerate(stacks)], loads)}


def masks(count):
    """Threads without a note of masks, and as many other notes after the last."""
    others = [note(b"LINUX", 0x202, b"") for _ in range(count)]
    notes = [thread_note(at + 1, STACKS) for at in range(count)] + others
    return {"dump": core(notes, [(STACKS, stack_at(STACKS))])}


def paths(count):
    """Mapped files, each with a path of its own."""
    files = [(0x10000000 + PAGE * at, 0x10000000 + PAGE * (at + 1), b"/lib/%08d.so" % at) for at in range(count)]
    return {"dump": core([thread_note(1, STACKS), mapped(files)], [(STACKS, stack_at(STACKS))])}


def image(headers):
    """The first bytes of a file: a segment of code that is the first page, and so many more segments."""
    code = struct.pack("<IIQQQQQQ", PT_LOAD, 5, 0, 0, 0, PAGE, PAGE, PAGE)
    more = struct.pack("<IIQQQQQQ", PT_LOAD, 4, PAGE, PAGE, 0, PAGE, PAGE, PAGE) * headers
    head = b"\x7fELF\2\1\1" + bytes(9) + struct.pack("<HHIQQQIHHHHHH", 3, 62, 1, 0, 64, 0, 0, 64, 56, 1 + headers, 64, 0, 0)
    return head + code + more


def core_of_code(files, loads):
    """A core file of one thread, of these mapped files, whose segments are all code."""
    notes = b"".join([thread_note(1, STACKS), mapped(files)])
    return elf(4, [(PT_NOTE, 0, 0, notes)] + [(PT_LOAD, 5, address, data) for address, data in loads] + [(PT_LOAD, 6, STACKS, stack_at(STACKS))])


def code_in_memory(count):
    """Mapped files that are not given, each with a path and a segment of its own, which has its first bytes."""
    starts = [0x10000000 + PAGE * at for at in range(count)]
    files = [(start, start + PAGE, b"/lib/%08d.so" % at) for at, start in enumerate(starts)]
    return {"dump": core_of_code(files, [(start, image(0)) for start in starts])}


def overlapping_files(count):
    """Mapped files that are not given, each with a path and a segment of its own, which has its first bytes, after three other segments
    for each; of the segments the last two overlap."""
    starts = [0x10000000 + PAGE * at for at in range(count)]
    files = [(start, start + PAGE, b"/lib/%08d.so" % at) for at, start in enumerate(starts)]
    others = [(0x1000000 + 16 * at, bytes(16)) for at in range(3 * count)]
    return {"dump": core_of_code(files, others + [(start, image(0)) for start in starts] + [(starts[-1] + 32, image(0))])}


def mappings_of_one_file(count):
    """Mappings of one file that is not given, each with a segment of its own; as many program headers are in its first bytes."""
    front = image(min(count, 0xFE00))
    others = 0x10000000 + PAGE * (1 + len(front) // PAGE)
    starts = [0x10000000] + [others + PAGE * at for at in range(count - 1)]
    files = [(start, start + PAGE, b"/lib/code.so") for start in starts]
    return {"dump": core_of_code(files, [(starts[0], front)] + [(start, bytes(16)) for start in starts[1:]])}


def image_with_frames(svma):
    """The first bytes of a file, with a table of unwind data at 0x200 that tells where `.eh_frame` is, and a segment for it."""
    table = bytes([1, 0x1B, 3, 0x3B]) + struct.pack("<iI", svma - 0x204, 0)
    front = image(0)[:56] + struct.pack("<H", 2) + image(0)[58:] + struct.pack("<IIQQQQQQ", 0x6474E550, 4, 0x200, 0x200, 0, len(table), len(table), 4)
    return front.ljust(0x200, b"\0") + table


def shared_images(count):
    """Mapped files that are not given, each with a path and a segment of its own; all segments are the same bytes of the file, eight
    for each, with a table of unwind data from the first page on. Their program headers are more than the file."""
    size = PAGE * (1 + 8 * count // PAGE)
    starts = [0x10000000 + size * at for at in range(count)]
    files = [(start, start + size, b"/lib/%08d.so" % at) for at, start in enumerate(starts)]
    return {"dump": core_of_code(files, [(start, image_with_frames(0x20C).ljust(size, b"\0")) for start in starts])}


def one_image(count):
    """Mappings of one file that is not given, all in one segment of memory, which has a table of unwind data for each of their bases."""
    size = PAGE * (1 + 300 * count // PAGE)
    starts = [0x10000000 + 16 * at for at in range(count)]
    files = [(start, start + 16, b"/lib/code.so") for start in starts]
    front = image_with_frames(0x20C)
    tables = front[0x200:].ljust(16, b"\0") * count
    return {"dump": core_of_code(files, [(starts[0], (front[:0x200] + tables).ljust(size, b"\0"))])}


def shared_headers(count):
    """Mapped files that are not given, each with a path and a segment of its own; all segments are the same bytes of the file, which
    tell of as many program headers."""
    front = image(min(count, 0xFE00))
    size = PAGE * (1 + len(front) // PAGE)
    starts = [0x10000000 + size * at for at in range(count)]
    files = [(start, start + PAGE, b"/lib/%08d.so" % at) for at, start in enumerate(starts)]
    return {"dump": core_of_code(files, [(start, front) for start in starts])}


def names_of_one_file(count):
    """A mapped file of as many segments of code, by as many names: in each of 16 places the path has a slash, or a dot between two."""
    code = elf(3, [(PT_LOAD, 5, PAGE * at, bytes(8)) for at in range(min(count, 0xFE00))])
    ways = lambda at: b"".join(b"/./" if at >> bit & 1 else b"/" for bit in range(16))
    files = [(0x10000000 + PAGE * at, 0x10000000 + PAGE * (at + 1), b"/lib" + ways(at) + b"code.so") for at in range(count)]
    listed = [thread_note(1, STACKS), mapped(files)]
    return {"dump": core(listed, [(STACKS, stack_at(STACKS))]), "root/lib/code.so": code}


def shared_code(count):
    """A mapped file whose segments of code are all the same bytes of the file, eight for each."""
    code = elf(3, [(PT_LOAD, 5, PAGE * at, bytes(8 * count)) for at in range(min(count, 0xFE00))])
    files = [(0x10000000, 0x10001000, b"/lib/code.so")]
    listed = [thread_note(1, STACKS), mapped(files)]
    return {"dump": core(listed, [(STACKS, struct.pack("<QQ6Q", 0, 0x10000010, *range(6)))]), "root/lib/code.so": code}


def section_names(count):
    """A mapped file whose sections have names of one table without a 0, of as many bytes as sections."""
    table = b"." * (8 * count)
    code = elf(3, [(PT_LOAD, 5, 0, bytes(64))], [(at, 3) for at in range(min(count, 0xFE00))], table, 1)
    files = [(0x10000000, 0x10001000, b"/lib/code.so")]
    notes = [thread_note(1, STACKS), mapped(files)]
    return {"dump": core(notes, [(STACKS, struct.pack("<QQ6Q", 0, 0x10000010, *range(6)))]), "root/lib/code.so": code}


def notes_of_one_place(count):
    """A mapped file whose segments of notes all have the same notes, none of which is a build id."""
    notes = note(b"GNU", 5, b"") * count
    code = elf(3, [(PT_LOAD, 5, 0, bytes(64))] + [(PT_NOTE, 4, 0, notes)] * min(count, 0xFE00), [])
    files = [(0x10000000, 0x10001000, b"/lib/code.so")]
    listed = [thread_note(1, STACKS), mapped(files)]
    return {"dump": core(listed, [(STACKS, struct.pack("<QQ6Q", 0, 0x10000010, *range(6)))]), "root/lib/code.so": code}


def uleb128(number):
    encoded = b""
    while number >= 0x80:
        encoded += bytes([0x80 | number & 0x7F])
        number >>= 7
    return encoded + bytes([number])


def pad_entry(entry):
    return entry + bytes(-len(entry) % 8)


def cfi_entry(body):
    return struct.pack("<I", len(pad_entry(body))) + pad_entry(body)


def cie(more=b""):
    """The CFA is rsp + 8, and the return address is below it."""
    return cfi_entry(bytes(4) + bytes([1, 0, 1, 0x78, 16, 0x0C, 7, 8, 0x90, 1]) + more)


def walked_by(section, code_size=PAGE):
    """A mapped file of this `.eh_frame`, after code of a size, and a stack of 600 return addresses in the code."""
    names = b"\0.eh_frame\0.shstrtab\0"
    loaded = bytes(64 + 56).ljust(code_size, b"\xcc") + section + bytes(4)
    head = b"\x7fELF\2\1\1" + bytes(9) + struct.pack("<HHIQQQIHHHHHH", 3, 62, 1, 0, 64, len(loaded) + len(names), 0, 64, 56, 1, 64, 3, 2)
    code = struct.pack("<IIQQQQQQ", PT_LOAD, 5, 0, 0, 0, len(loaded), len(loaded), PAGE)
    frames = struct.pack("<IIQQQQIIQQ", 1, 1, 2, code_size, code_size, len(section) + 4, 0, 0, 8, 0)
    texts = struct.pack("<IIQQQQIIQQ", 11, 3, 0, 0, len(loaded), len(names), 0, 0, 1, 0)
    file = head + code + loaded[120:] + names + bytes(64) + frames + texts
    base = 0x10000000
    size = len(loaded) + -len(loaded) % PAGE
    listed = [thread_note(1, STACKS, base + 0x20), mapped([(base, base + size, b"/lib/code.so")])]
    stack = struct.pack("<Q", base + 0x20) * 600
    segments = [(PT_NOTE, 0, 0, b"".join(listed)), (PT_LOAD, 5, base, file[:PAGE]), (PT_LOAD, 6, STACKS, stack)]
    return {"dump": elf(4, segments), "root/lib/code.so": file}


def walked_by_row(instructions):
    """A mapped file of one function with these call frame instructions, by which the CFA is rsp + 8."""
    section = cie()
    return walked_by(section + cfi_entry(struct.pack("<IQQ", len(section) + 4, 0x10, 0xF0) + instructions))


def many_rules(count):
    """A row of as many rules."""
    return walked_by_row(b"".join(b"\x08" + uleb128(100 + at) for at in range(count)))


def long_fde(count):
    """A row by as many instructions, and 16 more for each: the last of 150 rules is set again and again."""
    rules = b"".join(b"\x08" + uleb128(100 + at) for at in range(150))
    return walked_by_row(rules + (b"\x08" + uleb128(249)) * 17 * count)


def long_expression(count):
    """Rules by expressions of as many operations, which jump back for ever from the last."""
    jump = b"\x2f" + struct.pack("<h", -3)
    expression = uleb128(count + 3) + b"\x96" * count + jump
    return walked_by_row(b"".join(b"\x16" + bytes([register]) + expression for register in (0, 1, 2, 3, 4, 5, 8, 9, 10, 11)))


def cies_in_turn(count):
    """A mapped file of as many functions, whose FDEs lead to two CIEs in turn, each of as many instructions."""
    one = cie(bytes(count))
    at, parts = 2 * len(one), [one, one]
    for index in range(count):
        parts.append(cfi_entry(struct.pack("<IQQ", at + 4 - index % 2 * len(one), 0x10 + 16 * index, 16)))
        at += len(parts[-1])
    return walked_by(b"".join(parts), PAGE * (1 + 16 * count // PAGE))


def minidump(streams, tail):
    """Streams by their types, each a function from its offset to its bytes, and bytes after them, whose place is given."""
    directory, at, blocks = [], 32 + 12 * len(streams), []
    place = at + sum(len(make(0)) for _, make in streams)
    for kind, make in streams:
        data = make(place)
        directory.append(struct.pack("<III", kind, len(data), at))
        blocks.append(data)
        at += len(data)
    head = struct.pack("<IIIIIIQ", 0x504D444D, 0xA793, len(streams), 32, 0, 0, 0)
    return head + b"".join(directory) + b"".join(blocks) + tail


SYSTEM = (7, lambda place: struct.pack("<HHHBBIIIIIHH24x", 9, 0, 0, 4, 1, 6, 1, 0, 0x8201, 0, 0, 0))


def context(stack):
    """winnt.h, CONTEXT of x64: flags at 48, rax from 120 on, rip at 248."""
    registers = [0, 0, 0, 0, stack, stack] + [0] * 10 + [0x401000]
    return struct.pack("<48xI68x17Q", 0x100003, *registers) + bytes(1232 - 256)


def thread_list(stacks, place, tail):
    """A thread for each stack; the context and the stack's bytes are after the streams."""
    rows = [struct.pack("<IIIIQQIIII", at + 1, 0, 0, 0, 0, stack, 64, place + tail, 1232, place + tail + 64) for at, stack in enumerate(stacks)]
    return struct.pack("<I", len(stacks)) + b"".join(rows)


def minidump_threads(count):
    """As many threads as ranges of memory, from the last address to the first, as threads' stacks are mapped."""
    stacks = [STACKS + PAGE * at for at in reversed(range(count))]
    ranges = lambda place: struct.pack("<I", count) + b"".join(struct.pack("<QII", stack, 64, place) for stack in stacks)
    streams = [SYSTEM, (3, lambda place: thread_list(stacks, place, 0)), (5, ranges)]
    return {"dump": minidump(streams, stack_at(0) + context(stacks[-1]))}


def minidump_modules(count):
    """Modules that share one name, of as many bytes as modules."""
    name = ("/lib/" + "a" * count).encode("utf-16-le")
    tail = stack_at(0) + context(STACKS)
    listed = lambda place: struct.pack("<I", count) + b"".join(
        struct.pack("<QIIII", 0x10000000 + PAGE * at, PAGE, 0, 0, place + len(tail)) + bytes(84) for at in range(count))
    streams = [SYSTEM, (3, lambda place: thread_list([STACKS], place, 0)), (4, listed)]
    return {"dump": minidump(streams, tail + struct.pack("<I", len(name)) + name + b"\0\0")}


def minidump_shared_headers(count):
    """Modules that are not given, each with a range of memory of its own; all ranges are the same bytes of the file, which tell of as
    many segments of code."""
    front = image(0)[:56] + struct.pack("<H", min(count, 0xFE00)) + image(0)[58:64] + image(0)[64:] * min(count, 0xFE00)
    name = "/lib/code.so".encode("utf-16-le")
    tail = stack_at(0) + context(STACKS)
    starts = [0x10000000 + 0x10000000 * at for at in range(count)]
    after = len(tail) + len(front)
    listed = lambda place: struct.pack("<I", count) + b"".join(
        struct.pack("<QIIII", start, PAGE, 0, 0, place + after) + bytes(84) for start in starts)
    ranges = lambda place: struct.pack("<I", count) + b"".join(struct.pack("<QII", start, len(front), place + len(tail)) for start in starts)
    streams = [SYSTEM, (3, lambda place: thread_list([STACKS], place, 0)), (4, listed), (5, ranges)]
    return {"dump": minidump(streams, tail + front + struct.pack("<I", len(name)) + name + b"\0\0")}


def minidump_maps(count):
    """A text of /proc/PID/maps of many lines, and one that is as long and has no line."""
    lines = "".join("%x-%x r-xp 00000000 00:00 0\n" % (PAGE * at, PAGE * (at + 1)) for at in range(count)) + "f" * (30 * count)
    streams = [SYSTEM, (3, lambda place: thread_list([STACKS] * 64, place, 0)), (0x47670009, lambda place: lines.encode())]
    return {"dump": minidump(streams, stack_at(0) + context(STACKS))}


def minidump_streams(count):
    """Streams of types that are not known, before the thread."""
    others = [(0x10000 + at, lambda place: b"") for at in range(count)]
    streams = [SYSTEM, *others, (3, lambda place: thread_list([STACKS], place, 0))]
    return {"dump": minidump(streams, stack_at(0) + context(STACKS))}


def write(folder, files):
    """Writes files into a folder, and returns how many bytes they have together."""
    for name, data in files.items():
        path = os.path.join(folder, name)
        os.makedirs(os.path.dirname(path), exist_ok=True)
        with open(path, "wb") as file:
            file.write(data)
    return sum(len(data) for data in files.values())


KINDS = {function.__name__.replace("_", "-"): function for function in (
    threads, threads_backwards, segments_in_turn, one_stack, overlapping, masks, paths, code_in_memory, overlapping_files, mappings_of_one_file, shared_images, one_image, shared_headers,
    names_of_one_file, shared_code, section_names, notes_of_one_place, many_rules, long_fde, long_expression, cies_in_turn, minidump_threads, minidump_modules, minidump_shared_headers, minidump_maps, minidump_streams)}

if __name__ == "__main__":
    if len(sys.argv) != 4:
        sys.exit(__doc__.splitlines()[0])
    write(sys.argv[3], KINDS[sys.argv[1]](int(sys.argv[2])))
