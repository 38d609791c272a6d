"""What framehop-stacks prints, read again: names, the blocks of frames, and folded stacks (docs/PROGRAMS.md)."""

import itertools
import re
import subprocess
import sys

# How many bytes of a name are printed.
LONGEST_NAME = 2048
FRAME = re.compile(r"(#\d+ )?([0-9a-f]+) (<signal handler called> )?(.*?)( \[(?:cfi|signal|frame-pointer|guess)\])?")
NAMED = re.compile(r"(.+)\+0x[0-9a-f]+ \(.*\)")
HEAD = re.compile(r"(.*) (\d+/\d+)(?: \d+)?:")
KERNEL_MARK = "_[k]"
# Characters that are not seen, or that change how others are: control characters of C1, spaces without a width, marks of direction,
# ends of lines and paragraphs, and the mark of the byte order.
HIDDEN = re.compile("[\u0080-\u009f\u200b-\u200f\u2028-\u202e\u2060-\u206f\ufeff]")


def printed(name):
    """A name as it is printed: a `;` becomes a colon, since semicolons part the frames of a folded stack, and a control character `\\xNN`; in
    a name that is no UTF-8, or has a hidden character, so does each byte beyond ASCII. Of a longer name the rest is `...`."""
    data = name.encode("utf-8", "surrogateescape")
    part = data[:LONGEST_NAME].replace(b";", b":")
    try:
        is_text = not HIDDEN.search(part.decode())
    except UnicodeDecodeError:
        is_text = False
    changed = (b"\\x%02x" % byte if byte < 32 or byte == 127 or (byte > 127 and not is_text) else bytes([byte]) for byte in part)
    return b"".join(changed).decode() + ("..." if len(data) > LONGEST_NAME else "")


class Demangled:
    """Names as c++filt writes them, where it is asked, and else as they are."""

    def __init__(self, is_asked):
        self.is_asked = is_asked
        self.names = {}

    def learn(self, names):
        """Asks c++filt for names, each in a line of its own."""
        asked = sorted({name for name in names if self.is_asked and name.startswith("_") and name not in self.names})
        if not asked:
            return
        given = "".join(f"{name}\n" for name in asked).encode("utf-8", "surrogateescape")
        done = subprocess.run(["c++filt", "-i"], input=given, stdout=subprocess.PIPE)
        said = done.stdout.decode("utf-8", "surrogateescape").split("\n")[:-1]
        if len(said) != len(asked):
            print("framehop-stacks: c++filt has another number of names: they are printed as they are", file=sys.stderr)
            said = asked
        self.names.update(zip(asked, map(printed, said)))

    def name(self, name):
        return self.names.get(name, name)

    def learn_stacks(self, stacks):
        """Asks c++filt for the names of folded stacks."""
        labels = {label for stack in stacks for label in stack.split(";")}
        self.learn({without_mark(label) for label in labels})

    def stack(self, stack):
        """A folded stack with the names as in the source."""
        return ";".join(map(self.label, stack.split(";")))

    def label(self, label):
        name = without_mark(label)
        return self.name(name) + label[len(name) :]


def without_mark(label):
    """The name in a folded stack without the mark of the kernel."""
    return label[: -len(KERNEL_MARK)] if label.endswith(KERNEL_MARK) else label


class Frame:
    """A frame of a block: the parts of its line. Where it is in its file (`place`), and what folded stacks call it without a name
    (`label`), the program's JSON tells."""

    def __init__(self, line):
        self.line = line
        number, address, self.handler, place, found = FRAME.fullmatch(line).groups("")
        self.address, self.found = int(address, 16), found[2:-1]
        self.head = f"{number}{address} "
        named = NAMED.fullmatch(place)
        self.name = named[1] if named else None
        self.place, self.label = None, "[unknown]"
        self.is_kernel = line.endswith(" ([kernel])")

    def line_with(self, name):
        """Its line with this name."""
        start = len(self.head) + len(self.handler)
        old = "[unknown]" if self.name is None else self.name
        return self.line if name is None else self.line[:start] + name + self.line[start + len(old) :]


def line_of(frame, numbered):
    """The line of a frame of JSON in a block, after its number where frames of dumps are numbered."""
    place, function = frame["module"], frame["function"]
    if place is None:
        where = "[unknown] ([unknown])"
    elif function is None or function["name"] is None:
        where = f"[unknown] ({place['file']}+{place['offset']})"
    else:
        where = f"{function['name']}+{function['offset']} ({place['file']})"
    number = f"#{frame['frame']} " if numbered else ""
    trampoline = "<signal handler called> " if frame["signal_trampoline"] else ""
    found = f" [{frame['found_by']}]" if frame["found_by"] else ""
    return f"{number}{int(frame['address'], 16):x} {trampoline}{where}{found}"


def label_of(frame):
    """What a frame of JSON without a name is called in folded stacks: its file, and where its function begins, if that is known."""
    place, function = frame["module"], frame["function"]
    if place is None:
        return "[unknown]"
    looked_up = hex(int(place["offset"], 16) - frame["after_call"])
    start = function["start"] if function and function["start"] else looked_up
    return f"{place['file'].rpartition('/')[2]}+{start}"


class Blocks:
    """The lines of a text of the program, each with what it is: a `head`, a Frame, a `note` or an `end` of a block, a folded `stack`,
    or ``. Equal lines are the same frame."""

    def __init__(self, text):
        self.text = text
        self.frames = {}

    def __iter__(self):
        self.text.seek(0)
        inside = False
        for line in self.text:
            line = line.rstrip("\n")
            if not inside:
                inside = line.endswith(":")
                yield "head" if inside else "stack" if line else "", line
            elif not line:
                inside = False
                yield "", line
            elif line.startswith("["):
                yield "end", line
            else:
                yield "note" if line.startswith("  ") else self.frame(line), line

    def frame(self, line):
        if line not in self.frames:
            self.frames[line] = Frame(line)
        return self.frames[line]


def folded_parts(head, frames, end, by_thread, sure, labels):
    """The parts of a block's folded stack, as the program folds samples: the name of its thread, marks of its end, and the labels of its
    frames from the outermost on."""
    named = HEAD.fullmatch(head)
    name = head[:-1] if not named else f"{named[1]}-{named[2]}" if by_thread else named[1]
    end = end[1:-1].split(" ")[0]
    kernel = [frame for frame in frames if frame.is_kernel]
    frames = [frame for frame in frames if not frame.is_kernel]
    printed_frames = frames
    if sure:
        printed_frames = list(itertools.takewhile(lambda frame: frame.found not in ("code", "frame-pointer", "guess"), frames))
    is_cut = len(printed_frames) < len(frames)
    marks = [end] if end == "callchain" or (end != "root" and not is_cut) else []
    marks += ["not-sure"] if is_cut else []
    inner_first = [label for frame in [*kernel, *printed_frames] for label in labels(frame)]
    return [name, *(f"[{mark}]" for mark in marks), *reversed(inner_first)]
