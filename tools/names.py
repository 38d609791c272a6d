#!/usr/bin/env python3
"""Runs framehop-stacks, and prints names as in the source, inlined functions and lines: names.py PROGRAM ARGUMENT..

With --demangle c++filt writes the names; with --inlines and --lines llvm-symbolizer, or else addr2line, is asked for the functions that
were inlined at a frame, and with --lines for lines of the source.

Names are taken out of what the program prints, and put back: out of JSON, of the lines of blocks, and of folded stacks. Of those a
picture, a file of speedscope or a comparison is made by the program, which reads them once more. The status is the greatest of all runs.
"""

import itertools
import json
import os
import shutil
import stat
import subprocess
import sys
import tempfile
from collections import Counter

# what is installed stays as it is
sys.dont_write_bytecode = True

from blocks import Blocks, Demangled, Frame, folded_parts, label_of, line_of, printed
from lines import Lines, symbolizers

OURS = {"demangle", "inlines", "lines"}
FLAGS = {"frames", "explain", "sure", "by-thread", "kernel", "json", "diff", "speedscope", "svg", "flame"}
VALUED = {"root", "debug-dir", "buildid-dir", "exec", "vdso", "perf-map", "limit", "comm", "pid", "tid", "event", "time", "kallsyms", "title"}
# What is made of folded stacks.
PICTURE = {"svg", "flame", "title", "speedscope", "diff"}
# A path at which nothing can be.
NOWHERE = "/dev/null/nothing"


class Command:
    """The options and files of a command line. `known` is false of one that has others, which the program answers."""

    def __init__(self, arguments):
        self.options, self.files, self.known = [], [], True
        rest = iter(arguments)
        for word in rest:
            name, has_value, value = word[2:].partition("=")
            if word == "--":
                self.files += rest
            elif not word.startswith("-") or word == "-":
                self.files.append(word)
            elif name in VALUED and not has_value:
                value = next(rest, None)
                self.known = self.known and value is not None
                self.options.append((name, value, [word, value]))
            else:
                self.known = self.known and word.startswith("--") and name in (VALUED if has_value else FLAGS | OURS)
                self.options.append((name, value, [word]))
        self.known = self.known and bool(self.files)

    def has(self, *names):
        return any(name in names for name, _, _ in self.options)

    def values(self, name):
        return [value for found, value, _ in self.options if found == name]

    def words(self, without=frozenset()):
        """The words of the options but for these, for the program."""
        return [word for name, _, words in self.options if name not in OURS | without for word in words]

    def picture(self):
        """The words of what is made of folded stacks."""
        return [word for name, _, words in self.options if name in PICTURE for word in words]


class Stacks:
    """The runs of the program, and what is made of what they print."""

    def __init__(self, program, command):
        self.program, self.command = program, command
        self.status = 0
        self.with_lines = command.has("lines")
        self.with_inlines = command.has("lines", "inlines")
        self.demangled = Demangled(command.has("demangle"))
        self.lines = Lines()
        self.folded = Counter()
        self.stdin = copied(sys.stdin.buffer) if "-" in command.files else None
        self.pipes = [copied(open(path, "rb")) for path in command.files if is_pipe(path)]
        copies = (pipe.name for pipe in self.pipes)
        command.files = [next(copies) if is_pipe(path) else path for path in command.files]

    # ---- runs

    def run(self, *words, given=None, out=None, errors=None):
        """Runs the program, and notes its status, if it is greater than those so far."""
        given = given or (self.stdin if "-" in words else None)
        if given:
            # (a seek of Python's own may leave the file where it is)
            os.lseek(given.fileno(), 0, os.SEEK_SET)
        sys.stdout.flush()
        done = subprocess.run([self.program, *words], stdin=given or subprocess.DEVNULL, stdout=out, stderr=errors)
        self.status = max(self.status, done.returncode if done.returncode >= 0 else 1)

    def text(self, *words, errors=None):
        """What a run of the program prints, to be read more than once."""
        out = tempfile.TemporaryFile("w+", encoding="utf-8", errors="surrogateescape", newline="\n")
        self.run(*words, out=out, errors=errors)
        out.seek(0)
        return out

    def refuses(self):
        """Whether the program refuses options that do not go together, which it says."""
        words = [self.program, *self.command.words(), *(NOWHERE for _ in self.command.files)]
        done = subprocess.run(words, stdin=subprocess.DEVNULL, stdout=subprocess.DEVNULL, stderr=subprocess.PIPE)
        if done.returncode == 2:
            sys.stderr.buffer.write(done.stderr)
        return done.returncode == 2

    def kind(self, path):
        """Of which kind a file is, by its first bytes: a `recording`, a `dump`, or `other`."""
        if os.path.isdir(path):
            return "recording"
        try:
            with open(self.stdin.name if path == "-" else path, "rb") as file:
                first = file.read(8)
        except OSError:
            return "other"
        if first == b"PERFILE2":
            return "recording"
        return "dump" if first[:4] in (b"\x7fELF", b"MDMP") else "other"

    def go(self):
        """Prints what is asked for, and returns the status."""
        if (self.with_inlines or self.command.has(*PICTURE)) and self.refuses():
            return 2
        if self.command.has("json"):
            self.print_json()
        elif self.command.has("diff"):
            self.print_changes()
        elif self.command.has("frames", "explain"):
            for kind, paths in itertools.groupby(self.command.files, self.kind):
                self.print_blocks(kind, list(paths))
        else:
            for path in self.command.files:
                if self.kind(path) == "dump":
                    self.print_dump(path)
            self.fold(self.command.files)
            self.print_folded()
        return self.status

    # ---- frames

    def functions(self, frame):
        """The functions at a frame, the innermost first, where the symbolizer knows them."""
        return self.lines.at(frame.place) if frame.place else []

    def name_of(self, name, functions):
        """The name of a frame's own function: as in the source, where the symbol table has none or a mangled one."""
        outer = functions[-1][0] if functions else None
        if outer is not None and (name is None or (name.startswith(("_Z", "_R")) and not self.demangled.is_asked)):
            return printed(outer)
        return None if name is None else self.demangled.name(name)

    def place(self, function):
        """Where in the source a function is: its file and line, or None."""
        _, file, line = function
        return (printed(file), line) if self.with_lines and file else None

    def inlined(self, functions):
        """The functions that were inlined at a frame, the innermost first: their names, and where in the source."""
        for function in functions[:-1]:
            yield "[unknown]" if function[0] is None else printed(function[0]), self.place(function)

    def own_place(self, functions):
        return self.place(functions[-1]) if functions else None

    # ---- blocks

    def learn(self, blocks, path):
        """Asks for the names of a file's blocks, and for the lines of their frames."""
        for _ in blocks:
            pass
        self.demangled.learn(frame.name for frame in blocks.frames.values() if frame.name is not None)
        if self.with_inlines:
            self.locate(blocks, path)
            self.lines.learn(frame.place for frame in blocks.frames.values() if frame.place)

    def locate(self, blocks, path):
        """Locates the frames of blocks by the program's JSON, which has the same frames."""
        words = self.command.words(without={"frames", "explain", "sure", "kernel", "kallsyms"} | PICTURE)
        text = self.text(*words, "--json", path, errors=subprocess.DEVNULL)
        for modules, value in json_of(text):
            for frame in frames_of(value):
                known = blocks.frames.get(line_of(frame, "threads" in value))
                if known:
                    known.place, known.label = place_in(modules, frame), label_of(frame)

    def print_blocks(self, kind, paths):
        """Prints the blocks of files of a kind."""
        if kind == "other":
            self.run(*self.command.words(), *paths)
        for path in paths if kind == "dump" else ():
            self.print_dump(path)
        for path in paths if kind == "recording" else ():
            blocks = Blocks(self.text(*self.command.words(), path))
            self.learn(blocks, path)
            self.print_lines(blocks)

    def print_dump(self, path):
        """Prints the blocks of a dump; for a picture the program says that there is none."""
        if self.command.has(*PICTURE):
            said = tempfile.TemporaryFile()
            self.run(*self.command.words(without=PICTURE), "--speedscope", path, out=subprocess.DEVNULL, errors=said)
            said.seek(0)
            # (that nothing was counted is said of all files, where the picture is drawn)
            sys.stderr.buffer.writelines(line for line in said if not line.endswith(b": nothing was counted\n"))
            sys.stderr.flush()
            return
        blocks = Blocks(self.text(*self.command.words(), path))
        self.learn(blocks, path)
        self.print_lines(blocks)

    def print_lines(self, blocks):
        for what, line in blocks:
            if isinstance(what, Frame):
                functions = self.functions(what)
                for name, place in self.inlined(functions):
                    print(f"{what.head}{name} (inlined){at(place)}")
                print(what.line_with(self.name_of(what.name, functions)) + at(self.own_place(functions)))
            else:
                print(line)

    # ---- folded stacks

    def fold(self, paths):
        """Adds the folded stacks of files that are no dumps."""
        words = self.command.words(without=PICTURE)
        others = [path for path in paths if self.kind(path) != "dump"]
        if self.with_inlines:
            for path in others:
                if self.kind(path) == "recording":
                    self.fold_blocks(path)
            others = [path for path in others if self.kind(path) == "other"]
        if others:
            self.add_folded(self.text(*words, *others))

    def add_folded(self, text):
        """Adds folded stacks as the program prints them."""
        counted = [line.rstrip("\n").rpartition(" ")[::2] for line in text]
        self.demangled.learn_stacks(stack for stack, _ in counted)
        for stack, count in counted:
            self.folded[self.demangled.stack(stack)] += int(count)

    def fold_blocks(self, path):
        """Adds the samples of a recording, with the functions that were inlined at their frames."""
        words = self.command.words(without=PICTURE | {"sure", "by-thread"})
        blocks = Blocks(self.text(*words, "--frames", path))
        self.learn(blocks, path)
        labels = {}

        def labels_of(frame):
            if frame.line not in labels:
                labels[frame.line] = list(self.labels(frame))
            return labels[frame.line]

        head, frames = "", []
        for what, line in blocks:
            if what == "head":
                head, frames = line, []
            elif isinstance(what, Frame):
                frames.append(what)
            elif what == "end":
                parts = folded_parts(head, frames, line, self.command.has("by-thread"), self.command.has("sure"), labels_of)
                self.folded[";".join(parts)] += 1

    def labels(self, frame):
        """What a frame and those that are inlined at it are called in folded stacks, the innermost first."""
        if frame.is_kernel:
            yield f"{hex(frame.address) if frame.name is None else self.demangled.label(frame.name)}_[k]"
            return
        if frame.handler:
            yield frame.handler.rstrip()
            return
        functions = self.functions(frame)
        name = self.name_of(frame.name, functions)
        own = frame.label if name is None else name, self.own_place(functions)
        for name, place in [*self.inlined(functions), own]:
            yield f"{name} {os.path.basename(place[0])}:{place[1]}" if place else name

    def written(self):
        """A file of the folded stacks, for the program. Where there are none it has a blank line, which counts nothing."""
        file = tempfile.NamedTemporaryFile("w+", encoding="utf-8", errors="surrogateescape", newline="\n")
        file.writelines(f"{stack} {count}\n" for stack, count in self.folded.items())
        file.write("\n")
        file.flush()
        return file

    def print_folded(self):
        """Prints the folded stacks, or draws them, by the program."""
        if self.folded or self.command.has(*PICTURE):
            self.run(*self.command.picture(), "-", given=self.written())

    def print_changes(self):
        """Prints the folded stacks of two files beside one another, or draws them, by the program."""
        if "dump" in map(self.kind, self.command.files):
            self.run(*self.command.words(), *self.command.files)
            return
        sides = []
        for path in self.command.files:
            self.folded = Counter()
            self.fold([path])
            sides.append(self.written())
        if self.status == 0:
            self.run(*self.command.picture(), *(side.name for side in sides))

    # ---- JSON

    def print_json(self):
        """Prints the JSON of dumps and recordings, a line after another."""
        text = self.text(*self.command.words(), *self.command.files)
        names, places = set(), set()
        for modules, value in json_of(text):
            for frame in frames_of(value):
                names.add(frame["function"] and frame["function"]["name"])
                places.add(place_in(modules, frame))
        self.demangled.learn(filter(None, names))
        if self.with_inlines:
            self.lines.learn(filter(None, places))
        for modules, value in json_of(text):
            for frame in frames_of(value):
                self.name_in_json(frame, place_in(modules, frame))
            print(json.dumps(value, ensure_ascii=False, separators=(",", ":"), sort_keys=True))

    def name_in_json(self, frame, place):
        """Gives a frame of JSON the name of its source, and adds what was inlined at it, and its line there."""
        functions = self.lines.at(place) if self.with_inlines and place else []
        if self.with_inlines:
            frame["inlined"] = [in_json({"function": name}, where, self.with_lines) for name, where in self.inlined(functions)]
            in_json(frame, self.own_place(functions), self.with_lines)
        name = self.name_of(frame["function"] and frame["function"]["name"], functions)
        if name is not None and frame["function"]:
            frame["function"]["name"] = name


def copied(stream):
    """A file with what a stream has, which can be read more than once."""
    file = tempfile.NamedTemporaryFile()
    shutil.copyfileobj(stream, file)
    file.flush()
    return file


def is_pipe(path):
    """Whether a path is that of a pipe, as `<(COMMAND)` of a shell."""
    try:
        return stat.S_ISFIFO(os.stat(path).st_mode)
    except OSError:
        return False


def at(place):
    """Where in the source a line of a block is."""
    return f" at {place[0]}:{place[1]}" if place else ""


def in_json(value, place, with_lines):
    """Adds to a value of JSON where in the source it is."""
    if with_lines:
        value["source"] = {"file": place[0], "line": place[1]} if place else None
    return value


def json_of(text):
    """The values of the lines of JSON, each with the modules of its process or recording, by the names of their files."""
    text.seek(0)
    modules = {}
    for line in text:
        value = json.loads(line)
        if "modules" in value:
            modules = {each["file"]: each for each in value["modules"]}
        yield modules, value


def frames_of(value):
    """The frames of a dump's threads, or of a stack."""
    return itertools.chain.from_iterable(stack["frames"] for stack in value.get("threads", [value]) if "frames" in stack)


def place_in(modules, frame):
    """Where a frame of JSON is looked up: the paths of its file and of its debug file, and the address there; None where no file was read."""
    module = frame["module"]
    file = modules.get(module["file"]) if module and not frame["signal_trampoline"] else None
    return ((file["path"], file["debug_path"]), int(module["offset"], 16) - frame["after_call"]) if file and file["file_read"] else None


def missing_tool(command):
    """Which tool is asked for and not there, if one is not."""
    if command.has("demangle") and not shutil.which("c++filt"):
        return "--demangle needs c++filt, which is not on the PATH: install binutils, or leave --demangle out"
    if command.has("lines", "inlines") and not symbolizers():
        return "--lines and --inlines need llvm-symbolizer or addr2line, which are not on the PATH: install llvm or binutils, or leave them out"
    return None


def main():
    program, *arguments = os.path.abspath(sys.argv[1]), *sys.argv[2:]
    command = Command(arguments)
    if not command.known:
        return subprocess.run([program, *(word for word in arguments if word[2:] not in OURS)]).returncode
    missing = missing_tool(command)
    if missing:
        print(f"framehop-stacks: {missing}", file=sys.stderr)
        return 2
    sys.stdout.reconfigure(encoding="utf-8", errors="surrogateescape", newline="\n")
    return Stacks(program, command).go()


if __name__ == "__main__":
    if len(sys.argv) < 2:
        sys.exit(f"usage: {sys.argv[0]} PROGRAM ARGUMENT..")
    try:
        status = main()
        sys.stdout.flush()
    except BrokenPipeError:
        # what is left is written nowhere
        os.dup2(os.open(os.devnull, os.O_WRONLY), sys.stdout.fileno())
        status = 1
    sys.exit(status)
