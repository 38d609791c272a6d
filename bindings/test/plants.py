#!/usr/bin/env python3
"""Plants wrong bodies in the header, raw.rs, the crate and the Python module, one at a time in a copy, and asks that a test fails each time.

It needs FRAMEHOP_LIB and cargo, as run.sh does. A plant that no test notices is printed, and the status is 1 then.
"""

import os
import shutil
import signal
import subprocess
import sys
import tempfile
from pathlib import Path

TOP = Path(__file__).resolve().parent.parent.parent
HEADER, RAW, CRATE, PYTHON = "include/framehop.h", "rust/src/raw.rs", "rust/src/", "python/framehop.py"
# what is wrong, the file, the text, and what is planted in its place (each time that it occurs)
PLANTS = [
    ("two fields of sections exchanged in raw.rs", RAW, "    pub text: Section,\n    pub stubs: Section,",
     "    pub stubs: Section,\n    pub text: Section,"),
    ("a section too few in raw.rs", RAW, "    pub xdata: Section,\n", ""),
    ("flags of a section exchanged in raw.rs", RAW, "    pub has_range: bool,\n    pub has_bytes: bool,",
     "    pub has_bytes: bool,\n    pub has_range: bool,"),
    ("registers of aarch64 exchanged in raw.rs", RAW, "    pub sp: u64,\n    pub fp: u64,", "    pub fp: u64,\n    pub sp: u64,"),
    ("a step without has_missing in raw.rs", RAW, "    pub missing: u64,\n    pub has_missing: bool,", "    pub missing: u64,"),
    ("counts exchanged in raw.rs", RAW, "    pub hit_count: u64,\n    pub miss_empty_slot_count: u64,",
     "    pub miss_empty_slot_count: u64,\n    pub hit_count: u64,"),
    ("another number of a status in raw.rs", RAW, "DID_NOT_ADVANCE: i32 = -12", "DID_NOT_ADVANCE: i32 = -15"),
    ("registers of x86_64 in another order", CRATE + "x86_64.rs", "    RAX,\n    RDX,\n    RCX,", "    RAX,\n    RCX,\n    RDX,"),
    ("a clone keeps no modules", CRATE + "unwinder.rs", "modules.extend(self.modules.iter().cloned());", ""),
    ("a module is not kept", CRATE + "unwinder.rs", "                if added.is_err() {", "                if added.is_ok() {"),
    ("registers not put back before a retry", CRATE + "unwinder.rs", "        *regs = before;\n", ""),
    ("a missing word is told as one that can't be read", CRATE + "unwinder.rs", "read_stack(told.missing).ok())?", "None)?"),
    ("retries count", CRATE + "unwinder.rs", "*recounted = recounted.plus(&new.minus(&old));", ""),
    ("words of the last step are kept", CRATE + "words.rs", "        self.words.clear();\n        self.windows.clear();\n", ""),
    ("memory for words is taken by a step", CRATE + "words.rs", "made.reserve(ROOM)", "made.reserve(0)"),
    ("lr is not stripped at first", CRATE + "aarch64.rs", "let lr = code_ptr_auth_mask.strip_ptr_auth(lr);", ""),
    ("lr is not stripped when it is set", CRATE + "aarch64.rs", "self.lr_mask().strip_ptr_auth(lr);", "lr;"),
    ("base_svma is 0", CRATE + "module.rs", "Sections::none(info.base_svma())", "Sections::none(0)"),
    ("`.text` lends no bytes", CRATE + "module.rs", 'sections.text = sections.fitting(info, b".text");', ""),
    ("`__text` lends no bytes", CRATE + "module.rs", 'self.text.data = info.section_data(b"__text");', ""),
    ("`__stubs` and `__stub_helper` exchanged", CRATE + "module.rs", 'self.stubs.range = info.section_svma_range(b"__stubs");',
     'self.stubs.range = info.section_svma_range(b"__stub_helper");'),
    ("`.got` is not asked for", CRATE + "module.rs", 'self.got.range = range_under(info, &[b"__got", b".got"]);', ""),
    ("a lookup is that of a first frame", CRATE + "unwinder.rs", "from.is_return_address(),", "false,"),
    ("the unwinder has no drop of its own", CRATE + "unwinder.rs", "impl<D, P: AllocationPolicy> Drop for $unwinder<D, P> {",
     "impl<D, P: AllocationPolicy> $unwinder<D, P> {\n            #[allow(dead_code, clippy::should_implement_trait)]"),
    ("the root is an address", CRATE + "unwinder.rs", "        raw::END => Ok(None),\n        _ => Err(Error::of_status(status, told.unreadable))",
     "        raw::END => Ok(Some(0)),\n        _ => Err(Error::of_status(status, told.unreadable))"),
    ("a walk ends at the limit as at the root", CRATE + "unwinder.rs", "raw::FRAMES_FULL => Ok(false),", "raw::FRAMES_FULL => Ok(true),"),
    ("a policy exchanged", CRATE + "lib.rs", "const MAY_ALLOCATE: bool = false;", "const MAY_ALLOCATE: bool = true;"),
    ("each unwinder has a counter of its own", CRATE + "unwinder.rs", "Generations::of_thread()?", "Generations::new()?"),
    ("words of a walk are kept for the next frames", CRATE + "unwinder.rs", "            chunks.clear();\n", ""),
    ("a walk by words asks for more than there is room for", CRATE + "words.rs", ".min(WORDS_A_READ);", ";"),
    ("a walk by words lends a word that can't be read", CRATE + "words.rs", "read_words(address, words).min(room);",
     "read_words(address, words).max(1);"),
    ("a walk by words looks each frame up as a first one", CRATE + "unwinder.rs", "Some(address) if count > 1 => FrameAddress::ReturnAddress(address),",
     "Some(address) if count > 1 => FrameAddress::InstructionPointer(address.get()),"),
    ("a frame record is read from its return address on", CRATE + "aarch64.rs", "Some(below) if below >= self.sp() => below,", "Some(_) => missing,"),
    ("words below the stack pointer are read", CRATE + "aarch64.rs", "Some(below) if below >= self.sp() => below,", "Some(below) => below,"),
    ("a walk by words counts the frames of its last call", CRATE + "unwinder.rs", "            told.frame_count = count;\n", ""),
    ("a window lends the words of its neighbour", CRATE + "words.rs", "            rest = others;\n", "            let _ = others;\n"),
    ("a layout counts from the stack pointer only", CRATE + "layouts.rs", "Base::FramePointer => of.frame,", "Base::FramePointer => of.stack,"),
    ("a layout of one step is used at another distance", CRATE + "layouts.rs", "            Base::Either if of.frame.wrapping_sub(of.stack) != self.distance as u64 => return None,\n", ""),
    ("a layout is used where the step moves backwards", CRATE + "layouts.rs", " || at(self.end) <= of.stack", ""),
    ("a layout is used with other modules", CRATE + "layouts.rs", "self.address == address && self.modules == modules", "self.address == address"),
    ("a layout is that of the set's other entry", CRATE + "layouts.rs", "entry.is_of(address, modules).then_some", "(entry.modules > 0).then_some"),
    ("a caller's stack pointer is taken to be its words' end", CRATE + "layouts.rs", "end: at(self.end) })", "end: at(self.second) + 8 })"),
    ("the frame pointer is taken to be the first word, where it may be kept", CRATE + "layouts.rs", "            _ => Restored::Unknown,", "            _ => Restored::First,"),
    ("words are read beyond a frame pointer that falls", CRATE + "aarch64.rs", "frame_pointer < caller_frame_pointer", "true"),
    ("a run is longer than it may be", CRATE + "iterator.rs", "let limit = self.length.min(self.longest);", "let limit = self.longest;"),
    ("frames are found ahead where none may be", CRATE + "iterator.rs", "self.run.longest = 1;", ""),
    ("an error comes before the frames of its run", CRATE + "iterator.rs", "if self.given >= self.count {", "if self.given >= self.count || self.end.is_some() {"),
    ("an error in a run is the root", CRATE + "iterator.rs", "Err(error) => self.end = Some(Err(error)),", "Err(_) => self.end = Some(Ok(())),"),
    ("registers in a run are those of its end", CRATE + "iterator.rs", "self.given == self.count && self.end", "self.given <= self.count && self.end"),
    ("registers in a run are those of its first frame", CRATE + "iterator.rs", "&mut frames[..self.given], &mut told);", "&mut frames[..1], &mut told);"),
    ("registers that are found again count", CRATE + "iterator.rs", "        kept.shown_again.set(kept.shown_again.get().plus(&again));\n", "        let _ = again;\n"),
    ("registers that were shown stay", CRATE + "iterator.rs", "            self.shown = OnceCell::new();\n", ""),
    ("the words of the last run are lent", CRATE + "iterator.rs", "regs, run_words, windows: 0 };", "regs, windows: run_words.windows().len() % 17, run_words };"),
    ("two words are lent in the order of the questions", CRATE + "words.rs", "self.put_pair(at, last, [other, one])", "self.put_pair(at, last, [one, other])"),
    ("a frame record is lent in the order of the questions", CRATE + "iterator.rs", "R::upwards(asked)[0], R::upwards(words))", "R::upwards(asked)[0], words)"),
    ("any two words that restore the frame pointer are a frame record", CRATE + "layouts.rs", "high.wrapping_sub(low) == 8 && ", ""),
    ("two words side by side are a frame record, whatever they restore", CRATE + "layouts.rs", " == 8 && self.frame_pointer == in_low", " == 8 && in_low != Restored::Unknown"),
    ("a word that can't be read is asked for again", CRATE + "iterator.rs", "map_err(|read| Stop::Read(asked, Err(read)))?", "map_err(|_| Stop::Unread)?"),
    ("a changed list of modules keeps its number", CRATE + "unwinder.rs", "self.list = self.generations.new_list();", ""),
    ("C: capacity off by one", HEADER, "known.window_count : left;", "known.window_count : left + 1;"),
    ("C: the loop of aarch64 returns at once", HEADER,
     "framehop_unwinder_aarch64_walk_on(unwinder, cache, pc, false, registers, NULL, 0, NULL, 0, walk);\n",
     "framehop_unwinder_aarch64_walk_on(unwinder, cache, pc, false, registers, NULL, 0, NULL, 0, walk);\n    return -1;\n"),
    ("C: each frame is a first frame", HEADER, "from, count > 1,", "from, false,"),
    ("C: each step is from the first frame", HEADER, "count > 1 ? frames[count - 1] : pc", "pc"),
    ("C: words are not kept", HEADER, "    known->window_count++;\n", "    known->window_count = 1;\n"),
    ("C: words of frames before are kept", HEADER,
     "        if (walk->frame_count > 0)\n            framehop_forget_words(&known, walk->frame_count);\n", ""),
    ("C: words that were asked for are counted for the walk", HEADER, " = known->word_count = known->read_count = 0;", " = known->word_count = 0;"),
    ("C: a step has another return address", HEADER, "frames[count] = next.return_address;", "frames[count] = next.return_address + 1;"),
    ("C: a step has no word that can't be read", HEADER, "walk->unreadable = next.unreadable;", "walk->unreadable = 0;"),
    ("C: a step that finds no frame counts", HEADER, "walk->frame_count = status == FRAMEHOP_OK;", "walk->frame_count = 1;"),
    ("C: a record has its words exchanged", HEADER, "window->base = frame_pointer;", "window->base = frame_pointer - 8;"),
    ("C: a record of one word is lent", HEADER, "window->word_count = count;", "window->word_count = 2;"),
    ("C: a walk ends with a run", HEADER, "status == FRAMEHOP_FRAMES_FULL && count < frame_capacity", "status == FRAMEHOP_FRAMES_FULL && count > frame_capacity"),
    ("C: a record lends the words of the first one", HEADER, "*words = &known->words[known->word_count];", "*words = known->words;"),
    ("C: unreadable words have a window with a word", HEADER, "    known->word_count += window->word_count;\n",
     "    window->word_count += !window->word_count;\n    known->word_count += window->word_count;\n"),
    ("C: a window lends the words of another one", HEADER, "window->words = &known->words[known->word_count];", "window->words = known->words;"),
    ("C: words are written past their room", HEADER, "    if (room > FRAMEHOP_WORDS_A_READ)\n        room = FRAMEHOP_WORDS_A_READ;\n",
     "    room += 64;\n"),
    ("C: a window has another base", HEADER, "window->base = address;", "window->base = address & ~(uint64_t)15;"),
    ("C: the frames of the last call are counted", HEADER, "        walk->frame_count = count;\n", ""),
    ("C: the first frame is not written", HEADER, "        frames[0] = pc;\n", ""),
    ("C: frames are written over", HEADER, "frames + count, most", "frames + 1, most"),
    ("C: a status has another text", HEADER, '"Return address is null"', '"Return address is 0"'),
    ("C: a field of a section moved", HEADER, "    uint64_t svma_start;\n    uint64_t svma_end;", "    uint64_t svma_end;\n    uint64_t svma_start;"),
    ("registers of x86_64 exchanged in Python", PYTHON, "rsi rdi bp sp r8", "rsi rdi sp bp r8"),
    ("registers of aarch64 exchanged in Python", PYTHON, '"lr_mask lr sp fp"', '"lr_mask lr fp sp"'),
    ("sections exchanged in Python", PYTHON, "eh_frame eh_frame_hdr debug_frame text_segment", "eh_frame_hdr eh_frame debug_frame text_segment"),
    ("the base without the segment's offset", PYTHON, "start - offset - svma + segment_offset", "start - offset - svma"),
    ("code of the first segment only", PYTHON, "if it[0] == 1 and it[1] & 1]", "if it[0] == 1]"),
    ("sections without a range", PYTHON, "len(kept[-1]), True, has_bytes", "len(kept[-1]), False, has_bytes"),
    ("a compressed section as it is", PYTHON, "if flags & 0x800:", "if False:"),
    ("a counted stack without its last word", PYTHON, "(c_uint64 * len(words))(*words), len(words))", "(c_uint64 * len(words))(*words), len(words) - 9)"),
    ("an unwinder on another thread", PYTHON, "if threading.get_ident() != self._thread:", "if False:"),
    ("a closed unwinder", PYTHON, "        if not self._handles:\n            raise", "        if False:\n            raise"),
    ("all bits of a pointer are its address", PYTHON, '{"lr_mask": 2**64 - 1, **registers}', '{**registers, "lr_mask": 2**64 - 1}'),
    ("the root is the limit", PYTHON, 'END: "root"', 'END: "limit"'),
    ("bytes of sections that are not kept", PYTHON, "        kept.append((c_uint8", "        kept = [None]\n        kept.append((c_uint8"),
    ("another version in Python", PYTHON, '__version__ = "0.16.0"', '__version__ = "0.16.1"'),
]


def checks(top, target):
    """The commands that must succeed, the quick ones first."""
    here = top / "bindings/test"
    archives = [str(path) for folder in os.environ["FRAMEHOP_LIB"].split(":") for path in
                (Path(folder) / "libframehop_c.a", Path(folder) / "liblibc_c.a") if path.exists()]
    program, example = target / "cases-c", target / "debug/examples/cases"
    yield ["python3", here / "check_header.py"]
    yield ["clang", "-fsanitize=address", "-I", top / "bindings/include", here / "cases.c", *archives, "-o", program]
    for mode in ("callback", "chunks"):
        yield ["python3", here / "cases.py", "c", mode, program]
    yield ["clang", "-fsanitize=address", "-I", top / "bindings/include", here / "random_walks.c", *archives, "-o", target / "random_walks"]
    yield [target / "random_walks", "2000"]
    yield ["cargo", "test", "--offline", "--quiet"]
    yield ["cargo", "build", "--offline", "--quiet", "--example", "cases"]
    for mode in ("callback", "chunks", "window"):
        yield ["python3", here / "cases.py", "rust", mode, example]
    library, whole = target / "libframehop.so.0", ["-Wl,--whole-archive", archives[0], "-Wl,--no-whole-archive"]
    yield ["clang", "-shared", "-o", library, *whole, *archives[1:]]
    yield ["env", f"FRAMEHOP_SO={library}", "python3", here / "framehop_py.py"]
    yield ["env", f"FRAMEHOP_SO={library}", "sh", here / "compare_core.sh"]


def is_noticed(top, target, file):
    environment = {**os.environ, "CARGO_TARGET_DIR": str(target), "RUST_BACKTRACE": "0"}
    for command in checks(top, target):
        words = [str(part).split("/")[-1] for part in command]
        language = "rust" if "cargo" in words or "rust" in words else "python" if "env" in words or "-shared" in words else "include"
        if "check_header.py" not in words and language != file.split("/")[0]:
            continue
        # a plant may make a loop endless: then all that the check has started is ended
        running = subprocess.Popen(command, cwd=top / "bindings/rust", env=environment, stdout=subprocess.DEVNULL,
                                   stderr=subprocess.DEVNULL, start_new_session=True)
        try:
            status = running.wait(timeout=120)
        except subprocess.TimeoutExpired:
            os.killpg(running.pid, signal.SIGKILL)
            status = running.wait()
        if status:
            return " ".join(words[:3])
    return None


def main():
    only = sys.argv[1:]
    missed = 0
    with tempfile.TemporaryDirectory() as folder:
        top = Path(folder) / "top"
        top.mkdir()
        for name in ("crates", "checks", "examples", "crates.txt", "CHANGELOG.md"):
            (top / name).symlink_to(TOP / name)
        target = Path(folder) / "target"
        target.mkdir()
        for number, (what, file, old, new) in enumerate(PLANTS):
            if only and str(number) not in only:
                continue
            shutil.rmtree(top / "bindings", ignore_errors=True)
            shutil.copytree(TOP / "bindings", top / "bindings", ignore=shutil.ignore_patterns("target"))
            path = top / "bindings" / file
            text = path.read_text()
            if old not in text:
                print(f"{number} {what}: the text is not there")
                missed += 1
                continue
            path.write_text(text.replace(old, new))
            noticed = is_noticed(top, target, file)
            missed += noticed is None
            print(f"{number} {what}: {'refused by ' + noticed if noticed else 'NOT NOTICED'}", flush=True)
    print(f"{len(PLANTS)} plants, {missed} not noticed")
    sys.exit(missed > 0)


main()
