"""framehop for Python: unwinds the stacks of x86_64 and aarch64 programs by the unwind data of their ELF files.

    import framehop

    with framehop.Unwinder() as unwinder:
        for start, offset, path in mappings_of_code:    # as /proc/PID/maps has them
            unwinder.add_module(path, start, offset)
        frames, end = unwinder.walk({"ip": ip, "sp": sp, "bp": bp}, stack_bytes)

Frames are addresses, the innermost first: the instruction pointer, then return addresses. The symbol of a return address is
that of the byte before it. This file needs nothing but Python 3.8 and libframehop.so.0, which tools/install.sh makes: it
takes that of the environment's FRAMEHOP_SO, of the prefix where it is installed itself, or of the system.
"""

import ctypes
import os
import struct
import threading
import zlib
from ctypes import POINTER, Structure, byref, c_bool, c_int32, c_size_t, c_uint8, c_uint32, c_uint64, c_void_p
from pathlib import Path
from typing import NamedTuple

__all__ = ["ElfFile", "Unwinder", "Walk", "library_version"]
__version__ = "0.16.0"

# What the calls return: see framehop.h.
OK, FRAMES_FULL, END = 0, 1, 2
OUT_OF_MEMORY = -1
ENDS = {
    FRAMES_FULL: "limit",
    END: "root",
    -10: "could-not-read-stack",
    -11: "moved-backwards",
    -12: "did-not-advance",
    -13: "integer-overflow",
    -14: "null-return-address",
}


class _Handle(Structure):
    _fields_ = [("address", c_void_p)]


class _Section(Structure):
    _fields_ = [
        ("svma_start", c_uint64),
        ("svma_end", c_uint64),
        ("start", POINTER(c_uint8)),
        ("length", c_size_t),
        ("has_range", c_bool),
        ("has_bytes", c_bool),
    ]


_SECTIONS = (
    "text stubs stub_helper got unwind_info eh_frame eh_frame_hdr debug_frame text_segment pdata rdata xdata".split()
)


class _Sections(Structure):
    _fields_ = [("base_svma", c_uint64), *((name, _Section) for name in _SECTIONS)]


class _RegistersX86_64(Structure):
    _fields_ = [(name, c_uint64) for name in "ip rax rdx rcx rbx rsi rdi bp sp r8 r9 r10 r11 r12 r13 r14 r15".split()]


class _RegistersAarch64(Structure):
    _fields_ = [(name, c_uint64) for name in "lr_mask lr sp fp".split()]


class _Window(Structure):
    _fields_ = [("base", c_uint64), ("words", POINTER(c_uint64)), ("word_count", c_size_t)]


class _WalkTold(Structure):
    _fields_ = [("frame_count", c_size_t), ("unreadable", c_uint64)]


# By architecture its registers, and its number in an ELF file (e_machine).
_ARCHITECTURES = {"x86_64": (_RegistersX86_64, 62), "aarch64": (_RegistersAarch64, 183)}


def _load(path):
    """The shared library, with the types of its calls."""
    beside = Path(__file__).resolve().parent.parent.parent / "libframehop.so.0"
    library = ctypes.CDLL(str(path or os.environ.get("FRAMEHOP_SO") or (beside if beside.exists() else beside.name)))
    handle, word = POINTER(_Handle), c_uint64
    library.framehop_version.argtypes, library.framehop_version.restype = [], c_uint32
    library.framehop_generations_new.argtypes = [handle]
    library.framehop_free.argtypes, library.framehop_free.restype = [_Handle], None
    for name, (registers, _) in _ARCHITECTURES.items():
        for call, types in {
            f"cache_{name}_new": [c_bool, handle],
            f"unwinder_{name}_new": [handle, c_bool, handle],
            f"unwinder_{name}_add_module": [handle, handle, word, word, word, POINTER(_Sections)],
            f"unwinder_{name}_remove_module": [handle, handle, word],
            f"unwinder_{name}_walk": [
                handle, handle, word, POINTER(registers), POINTER(_Window), POINTER(word), c_size_t, POINTER(_WalkTold),
            ],
        }.items():
            function = getattr(library, f"framehop_{call}")
            function.argtypes, function.restype = types, c_int32
    return library


def library_version(library=None):
    """The version of the shared library, as "0.16.0": that of the path, or the one that an Unwinder takes."""
    number = _load(library).framehop_version()
    return f"{number // 10000}.{number // 100 % 100}.{number % 100}"


class ElfFile:
    """What unwinding needs of an ELF file of 64 bits, little-endian: ElfFile(bytes). ValueError for another file."""

    def __init__(self, data):
        self.data = data = bytes(data)
        if data[:6] != b"\x7fELF\x02\x01":
            raise ValueError("not an ELF file of 64 bits, little-endian")
        self.machine = self._read("<H", 18)[0]
        segments, sections = self._read("<QQ", 32)
        _, segment_size, segment_count, section_size, section_count, names = self._read("<6H", 52)
        #: kind, flags, offset, SVMA, physical address, size in the file, size in memory, alignment
        self.segments = [self._read("<IIQQQQQQ", segments + at * segment_size) for at in range(segment_count)]
        headers = [self._read("<IIQQQQIIQQ", sections + at * section_size) for at in range(section_count)]
        self.sections = {self._name(headers[names][4] + it[0]): it for it in headers} if names < len(headers) else {}

    def _read(self, layout, offset):
        try:
            return struct.unpack_from(layout, self.data, offset)
        except (struct.error, OverflowError):
            raise ValueError("an ELF file that is cut off") from None

    def _name(self, offset):
        return bytes(self.data[offset : self.data.find(b"\0", offset)])

    def base(self, start, offset):
        """The AVMA of the SVMA 0, where the file from this offset on is mapped at this AVMA. ValueError if no executable
        segment has the offset."""
        for kind, flags, segment_offset, svma, _, size, _, _ in self.segments:
            if kind == 1 and flags & 1 and segment_offset // 4096 * 4096 <= offset < segment_offset + size:
                return (start - offset - svma + segment_offset) % 2**64
        raise ValueError("no code of the file is mapped from there on")

    def code(self):
        """The SVMAs from the first to the last executable segment."""
        found = [(it[3], it[3] + it[6]) for it in self.segments if it[0] == 1 and it[1] & 1]
        if not found:
            raise ValueError("an ELF file without code")
        return min(start for start, _ in found), max(end for _, end in found)

    def section(self, name):
        """The SVMAs of a section and its bytes, or None."""
        if name not in self.sections:
            return None
        _, kind, flags, svma, offset, size, _, _, _, _ = self.sections[name]
        # a file of debug information has the section's header, but no bytes (SHT_NOBITS)
        data = b"" if kind == 8 else bytes(self.data[offset : offset + size])
        if flags & 0x800:  # SHF_COMPRESSED, by zlib
            try:
                data = zlib.decompress(data[24:]) if data[:4] == b"\1\0\0\0" else b""
            except zlib.error:
                raise ValueError("a compressed section that is damaged") from None
        return svma, svma + size, data


class Walk(NamedTuple):
    """The frames of a stack, and how the walk ended: "root", "limit", or why it stopped early."""

    frames: list
    end: str


class Unwinder:
    """The modules of a process. It stays on the thread that made it, and is closed by `with` or close()."""

    def __init__(self, architecture="x86_64", may_allocate=True, library=None):
        """`architecture` is "x86_64" or "aarch64"; `library` a path. OSError where there is no library."""
        self._registers, self._machine = _ARCHITECTURES[architecture]
        self._library, self._architecture = _load(library), architecture
        self._thread = threading.get_ident()
        self._kept = []
        self._handles = []
        self._generations = self._new("generations_new")
        self._cache = self._new(f"cache_{architecture}_new", may_allocate)
        self._unwinder = self._new(f"unwinder_{architecture}_new", byref(self._generations), may_allocate)

    def __enter__(self):
        return self

    def __exit__(self, *_):
        self.close()

    def close(self):
        """Frees all; to close again does nothing."""
        if self._handles:
            self._check()
        while self._handles:
            self._library.framehop_free(self._handles.pop())
        self._kept.clear()

    def _check(self):
        if threading.get_ident() != self._thread:
            raise RuntimeError("an unwinder stays on the thread that made it")
        if not self._handles:
            raise ValueError("the unwinder is closed")

    def _call(self, name, *arguments):
        status = getattr(self._library, f"framehop_{name}")(*arguments)
        if status == OUT_OF_MEMORY:
            raise MemoryError
        if status < 0 and status not in ENDS:
            raise RuntimeError(f"framehop_{name}: {status}")
        return status

    def _new(self, name, *arguments):
        handle = _Handle()
        self._call(name, *arguments, byref(handle))
        self._handles.append(handle)
        return handle

    def add_module(self, file, start, offset=0):
        """Adds an ELF file, a path or bytes, that is mapped from this offset on at this AVMA: each executable line of
        /proc/PID/maps has both. Returns where its code is: two AVMAs. ValueError if it is no such file."""
        self._check()
        elf = ElfFile(Path(file).read_bytes() if isinstance(file, (str, os.PathLike)) else file)
        if elf.machine != self._machine:
            raise ValueError(f"an ELF file of another architecture than {self._architecture}")
        base, (code_start, code_end), kept = elf.base(start, offset), elf.code(), []
        sections = _Sections()
        for name in ("text", "got", "eh_frame", "eh_frame_hdr", "debug_frame"):
            found = elf.section(f".{name}".encode())
            if found:
                setattr(sections, name, self._section(*found, kept, name not in ("text", "got")))
        code = (base + code_start) % 2**64, (base + code_end) % 2**64
        self._call(
            f"unwinder_{self._architecture}_add_module", byref(self._unwinder), byref(self._generations), *code, base,
            byref(sections),
        )
        self._kept.append(kept)
        return code

    @staticmethod
    def _section(svma_start, svma_end, data, kept, has_bytes):
        """A section of a module. Its bytes are kept in the list: the archive reads them until the unwinder is closed."""
        kept.append((c_uint8 * len(data)).from_buffer_copy(data) if has_bytes else (c_uint8 * 0)())
        place = ctypes.cast(kept[-1], POINTER(c_uint8))
        return _Section(svma_start, svma_end, place, len(kept[-1]), True, has_bytes and bool(data))

    def remove_module(self, code_start):
        """Removes the newest module whose code begins at this AVMA, if there is one."""
        self._check()
        self._call(
            f"unwinder_{self._architecture}_remove_module", byref(self._unwinder), byref(self._generations), code_start
        )

    def walk(self, registers, stack, limit=1000):
        """Walks a stack.

        `registers` has "sp" and others by name: x86_64 "ip", "bp", "rax", "rbx" and so on; aarch64 "ip", "lr", "fp" and
        "lr_mask", the bits of a pointer that are its address (default: all). What is left out is 0. `stack` has the bytes of
        the stack from sp, rounded down to 8, on: 8 bytes for each word, little-endian. `limit` is the most frames."""
        self._check()
        given = {"lr_mask": 2**64 - 1, **registers} if self._architecture == "aarch64" else dict(registers)
        pc = given["ip"]
        if self._architecture == "aarch64":
            del given["ip"]
        unknown = given.keys() - {name for name, _ in self._registers._fields_}
        if unknown:
            raise ValueError(f"no registers: {' '.join(sorted(unknown))}")
        words = struct.unpack(f"<{len(stack) // 8}Q", stack[: len(stack) // 8 * 8])
        window = _Window(given["sp"] // 8 * 8, (c_uint64 * len(words))(*words), len(words))
        frames, told = (c_uint64 * limit)(), _WalkTold()
        status = self._call(
            f"unwinder_{self._architecture}_walk", byref(self._unwinder), byref(self._cache), pc,
            byref(self._registers(**given)), byref(window), frames, limit, byref(told),
        )
        return Walk(frames[: told.frame_count], ENDS[status])
