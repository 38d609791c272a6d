"""recordings.py KIND ITEMS FOLDER: a recording of perf that has many items of a kind, which no machine made, each made to cost a square
where a program is careless.

Each function of KINDS returns the files of a number of items, by their names: `recording`, what is below `root`, which is given by
`--root`, and maps of `--perf-map` below `maps`. A number in the place of bytes is the size of a file of which nothing is stored.

Layout: Linux, include/uapi/linux/perf_event.h, and tools/perf/Documentation/perf.data-file-format.txt.
"""

import os
import struct
import sys

COMM, FORK, SAMPLE, MMAP2 = 3, 7, 9, 10
IN_USER_SPACE, BUILD_ID_SIZE = 2, 0x8000
IP, TID, TIME, IDENTIFIER, REGS_USER, STACK_USER = 1, 2, 4, 0x10000, 0x1000, 0x2000
X86_64_REGISTERS, AARCH64_REGISTERS = 0xFF0FFF, 0x1_FFFF_FFFF
SAMPLE_ID_ALL = 1 << 18
PAGE = 0x1000
FIRST = 0x10000
STACK = 0x7000_0000_0000


def padded(text):
    text = text.encode() + b"\0"
    return text + bytes(-len(text) % 8)


def record(kind, misc, body):
    return struct.pack("<IHH", kind, misc, 8 + len(body)) + body


def comm(pid, name):
    return record(COMM, 0, struct.pack("<II", pid, pid) + padded(name))


def fork(pid, parent):
    return record(FORK, 0, struct.pack("<IIIIQ", pid, parent, pid, parent, 0))


def thread(pid, tid):
    return record(FORK, 0, struct.pack("<IIIIQ", pid, pid, tid, pid, 0))


def mapping(pid, start, size, name):
    body = struct.pack("<IIQQQ", pid, pid, start, size, 0) + bytes(24) + struct.pack("<II", 5, 2) + padded(name)
    return record(MMAP2, IN_USER_SPACE, body)


def sample(pid, pc, registers, identifier=None):
    """A sample whose stack is one word, which is no address of code."""
    head = b"" if identifier is None else struct.pack("<Q", identifier)
    body = head + struct.pack("<QIIQ", pc, pid, pid, 2) + struct.pack(f"<{len(registers)}Q", *registers)
    return record(SAMPLE, IN_USER_SPACE, body + struct.pack("<QQQ", 8, 0, 8))


def sample_of_aarch64(pid, pc, identifier=None):
    registers = [0] * 33
    registers[31], registers[32] = STACK, pc
    return sample(pid, pc, registers, identifier)


def sample_of_x86_64(pid, pc):
    registers = [0] * 20
    registers[7], registers[8] = STACK, pc
    return sample(pid, pc, registers)


def mapped(count):
    return [mapping(1, FIRST + 2 * PAGE * at, PAGE, "/srv/a") for at in range(count)]


def code_file(size):
    """An ELF file of a size, whose one segment is code."""
    code = struct.pack("<IIQQQQQQ", 1, 5, 0, 0, 0, size, size, PAGE)
    head = b"\x7fELF\2\1\1" + bytes(9) + struct.pack("<HHIQQQIHHHHHH", 3, 62, 1, 0, 64, 0, 0, 64, 56, 1, 64, 0, 0)
    return (head + code).ljust(size, b"\xcc")


def file_of_parts(code, segments, sections):
    """An ELF file with code after its header, above the FDE of its `.eh_frame`, and with as many further segments and
    sections, which lie far above it. The code is in the last segment."""
    headers_at = 64 + len(code)
    table_at = headers_at + 56 * (segments + 1)
    end = table_at + 64 * (sections + 3)
    names = b"\0.eh_frame\0"
    frames = struct.pack("<II", 16, 0) + b"\1\0\1\x78\x10\x0c\7\x08\x90\1\0\0" + struct.pack("<IIQQI", 20, 24, 0, 8, 0)
    load = lambda start, offset, size: struct.pack("<IIQQQQQQ", 1, 5, offset, start, start, size, size, 1)
    section = lambda name, kind, start, at, size: struct.pack("<IIQQQQIIQQ", name, kind, 2, start, at, size, 0, 0, 1, 0)
    headers = [load(0x4000_0000 + 8 * number, end, 8) for number in range(segments)] + [load(0, 0, headers_at)]
    table = [section(0, 0, 0, 0, 0), section(0, 3, 0, end + len(frames), len(names)), section(1, 1, 0x5000_0000, end, len(frames))]
    table += [section(0, 1, 0x6000_0000 + 8 * number, end, 8) for number in range(sections)]
    head = b"\x7fELF\2\1\1" + bytes(9)
    head += struct.pack("<HHIQQQIHHHHHH", 3, 62, 1, 0, headers_at, table_at, 0, 64, 56, len(headers), 64, len(table), 1)
    return head + code + b"".join(headers) + b"".join(table) + frames + names


def build_id_record(name, at):
    build_id = struct.pack("<I", at) * 5
    return record(0, BUILD_ID_SIZE, struct.pack("<i", -1) + build_id + bytes([20, 0, 0, 0]) + padded(name))


def recording(records, registers=X86_64_REGISTERS, events=1, features=b""):
    """The files of a recording of so many events. Each of several has an id, from 1 on."""
    body = b"".join(records)
    attributes_at = 104
    fields = IP | TID | REGS_USER | STACK_USER | (IDENTIFIER if events > 1 else 0)
    attribute = struct.pack("<IIQQQQQ", 1, 128, 0, 1000, fields, 0, 0)
    attribute += bytes(32) + struct.pack("<QI", registers, 1024) + bytes(36)
    ids_at = attributes_at + 144 * events
    ids_size = 8 * events if events > 1 else 0
    records_at = ids_at + ids_size
    header = b"PERFILE2" + struct.pack("<QQ", 104, 144)
    header += struct.pack("<QQQQQQ", attributes_at, 144 * events, records_at, len(body), 0, 0)
    header += struct.pack("<Q", 4 if features else 0) + bytes(24)
    entries = b"".join(
        attribute + struct.pack("<QQ", ids_at + 8 * at, 8 if events > 1 else 0) for at in range(events)
    )
    whole = header + entries + (struct.pack(f"<{events}Q", *range(1, events + 1)) if events > 1 else b"") + body
    if features:
        whole += struct.pack("<QQ", len(whole) + 16, len(features)) + features
    return {"recording": whole}


def maps(count):
    """Mappings of one process, one above the other."""
    return recording(mapped(count))


def maps_down(count):
    """The same, one below the other."""
    return recording(mapped(count)[::-1])


def split(count):
    """Mappings into the middle of one that covers them all."""
    return recording([mapping(1, FIRST, 2 * PAGE * count + PAGE, "/srv/a")] + [
        mapping(1, FIRST + 2 * PAGE * at + PAGE, PAGE, "/srv/b") for at in range(count)
    ])


def over(count):
    """A mapping over all that came before, after every 100 of them."""
    made = []
    for at in range(count):
        made.append(mapping(1, FIRST + 2 * PAGE * at, PAGE, "/srv/a"))
        if at % 100 == 99:
            made.append(mapping(1, FIRST, 2 * PAGE * at + 2 * PAGE, "/srv/b"))
    return recording(made)


def over_all(count):
    """Mappings, and one over them all."""
    return recording(mapped(count) + [mapping(1, FIRST, 2 * PAGE * count + PAGE, "/srv/b")])


def forked(count):
    return mapped(count) + [fork(2 + at, 1) for at in range(count)]


def sampled(count):
    return [sample_of_x86_64(2 + at, FIRST + 8) for at in range(count)]


def forks(count):
    """A process with as many mappings, and as many processes that begin as its copies."""
    return recording(forked(count))


def forks_map(count):
    """The same, of which each maps a file then."""
    return recording(forked(count) + [mapping(2 + at, FIRST + PAGE, PAGE, "/srv/b") for at in range(count)])


def forks_sampled(count):
    """Forks of a process that no sample is of, each with a sample."""
    return recording(forked(count) + sampled(count))


def forks_map_sampled(count):
    """Forks that each map a file, all at one address, each with a sample: each has an unwinder of its own."""
    return recording(forked(count) + [mapping(2 + at, FIRST + PAGE, PAGE, "/srv/b") for at in range(count)] + sampled(count))


def forks_map_apart_sampled(count):
    """The same, each at an address of its own."""
    return recording(forked(count) + [mapping(2 + at, FIRST + 2 * PAGE * at + PAGE, PAGE, "/srv/b") for at in range(count)] + sampled(count))


def forks_in_turn_sampled(count):
    """Each is a fork of the one before, maps a file and has a sample: processes of one mapping up to as many."""
    made = mapped(1)
    for at in range(count):
        made += [fork(2 + at, 1 + at), mapping(2 + at, FIRST + 2 * PAGE * (1 + at), PAGE, "/srv/b"), sample_of_x86_64(2 + at, FIRST + 8)]
    return recording(made)


def maps_down_sampled(count):
    """Mappings one below the other, each with a sample after it."""
    return recording([made for one in mapped(count)[::-1] for made in (one, sample_of_x86_64(1, FIRST + 8))])


def samples(count):
    """Samples of a process on aarch64 with as many mappings."""
    made = [sample_of_aarch64(1, FIRST + 2 * PAGE * at + 8) for at in range(count)]
    return recording(mapped(count) + made, AARCH64_REGISTERS)


def build_ids(count):
    """Mappings of as many files, of each of which the recording has a build id."""
    made = [mapping(1, FIRST + 2 * PAGE * at, PAGE, f"/srv/{at:06}") for at in range(count)]
    return recording(made, features=b"".join(build_id_record(f"/srv/{at:06}", at) for at in range(count)))


def names(count):
    """A process with a name of 60,000 letters, and as many threads that it begins."""
    return recording([comm(1, "x" * 60000)] + [thread(1, 2 + at) for at in range(count)])


def ids(count):
    """Events, each with an id, and as many samples."""
    return recording(mapped(1) + [sample_of_aarch64(1, FIRST + 8, 1 + at) for at in range(count)], AARCH64_REGISTERS, events=count)


def sampled_once(paths):
    """A process that maps these files, with a sample in the first."""
    made = [mapping(1, FIRST + 0x100000 * at, PAGE, path) for at, path in enumerate(paths)]
    return recording(made + [sample_of_x86_64(1, FIRST + 8)])


def files(count):
    """An eighth as many mapped files, each of 16 KB, and a sample in the first."""
    paths = [f"/srv/{at:06}" for at in range(count // 8)]
    return sampled_once(paths) | {f"root{path}": code_file(0x4000) for path in paths}


def names_of_one_file(count):
    """A mapped file of 16 KB, by as many names: in each of 16 places the path has a slash, or a dot between two."""
    ways = lambda at: "".join("/./" if at >> bit & 1 else "/" for bit in range(16))
    return sampled_once([f"/srv{ways(at)}a" for at in range(count)]) | {"root/srv/a": code_file(0x4000)}


def large_file(count):
    """A mapped file of a MB for each, which is no ELF file."""
    return sampled_once(["/srv/a"]) | {"root/srv/a": count << 20}


def run_over(segments, sections, samples=64):
    """Samples before 4,000 loads of words that are in no file, in a mapped file with as many segments and sections."""
    code = b"\x48\x8b\x05\0\0\0\1" * 4000 + b"\xc3"
    made = [mapping(1, FIRST, 8 * PAGE, "/srv/a")] + samples * [sample_of_x86_64(1, FIRST + 64)]
    return recording(made) | {"root/srv/a": file_of_parts(code, segments, sections)}


def segments(count):
    """A mapped file of as many segments, of which the last has the code of the samples."""
    return run_over(count, 0)


def sections(count):
    """A mapped file of as many sections, in each of which a run of the samples' code may look for a word."""
    return run_over(0, count)


def runs(count):
    """A run of 4,000 instructions for each sample."""
    return run_over(0, 0, count)


def anonymous(count, perf_map):
    """A process of code in no file, with as many samples and a map of perf."""
    made = [mapping(1, FIRST, PAGE * count, "//anon")] + [sample_of_x86_64(1, FIRST + PAGE * at + 8) for at in range(count)]
    return recording(made) | {"maps/perf-1.map": perf_map}


def map_of_perf(count):
    """A map of perf of as many functions, each of which lies over all later ones, and as many samples."""
    lines = "".join(f"{FIRST + PAGE * at:x} {PAGE * (count - at):x} f{at}\n" for at in range(count))
    return anonymous(count, lines.encode())


def large_map_of_perf(count):
    """A map of perf of 64 MB for each sample."""
    return anonymous(count, count << 26)


def write(folder, made):
    """Writes files into a folder. Of a number of bytes nothing is stored."""
    for name, data in made.items():
        path = os.path.join(folder, name)
        os.makedirs(os.path.dirname(path), exist_ok=True)
        with open(path, "wb") as file:
            if isinstance(data, int):
                file.truncate(data)
            else:
                file.write(data)


KINDS = {function.__name__.replace("_", "-"): function for function in (
    maps, maps_down, split, over, over_all, forks, forks_map, forks_sampled, forks_map_sampled, forks_map_apart_sampled,
    forks_in_turn_sampled, maps_down_sampled, samples, build_ids, names, ids, files, names_of_one_file, large_file, segments,
    sections, runs, map_of_perf, large_map_of_perf)}

if __name__ == "__main__":
    if len(sys.argv) != 4 or sys.argv[1] not in KINDS:
        sys.exit(__doc__ + "\nKinds: " + ", ".join(KINDS))
    write(sys.argv[3], KINDS[sys.argv[1]](int(sys.argv[2])))
