#!/usr/bin/env python3
"""Measures this library beside the original crate, on equal inputs.

    compare.py [--rounds N] [--cpu N] [--only WORD] [--without-bindings] [ELF]

ELF is an x86_64 library with an `.eh_frame` and its header, the C library where none is named. --cpu has all runs on
that processor, and --only measures the lines of which one has the word in its name. --without-bindings leaves out the
walks through the archive, which takes minutes to prove.

The program over the original crate is built from bench/original by cargo, which fetches the crate; CARGO_ARGUMENTS gives
cargo further arguments, as `--offline --config FILE` with a source or a patch. It is built once more over a copy of the
crate whose module `dwarf` is public, for the look-ups of its index. Ours are framehop_bench and framehop-walk; they are
built where they are not there. Walks through the archive, from C and from the Rust crate over it, are beside the walk of
the original with a warm cache; FRAMEHOP_LIB names the folders of an archive that is built, as for bindings/rust.

Both run in turn, five times each. The table has the least time of each and the ratios, ours by the original's, of the
least times and of the medians, and the least and the greatest ratio of a round. Counts and sums of both must be equal.
The line after the table says how much a fixed loop varied that ran between them. Needs cargo, clang, python3 and readelf.
"""

import argparse
import json
import os
import re
import shutil
import statistics
import subprocess
import sys
import tempfile
import time
from pathlib import Path

TOP = Path(__file__).resolve().parent.parent
OUT = TOP / "out"
OURS = OUT / "framehop_bench"
WALK = TOP / "crates/framehop_walk_cli/out/framehop_walk_cli"


def run(*command, **options):
    return subprocess.run([str(word) for word in command], check=True, **options)


def build_ours():
    if not OURS.exists():
        run(TOP / "bench/crate.sh", "framehop_bench", "run", stdout=sys.stderr)
    if not WALK.exists():
        run("rt", "run", cwd=TOP / "crates/framehop_walk_cli", stdin=open(TOP / "crates/framehop_walk_cli/stdin"), stdout=sys.stderr)


def build_original():
    """Builds the program over the original crate, and again with its index; returns both and the crate's version."""
    crate, given = TOP / "bench/original", os.environ.get("CARGO_ARGUMENTS", "").split()
    plain = OUT / "original"
    # crates that are named by their paths would print their warnings
    build = {"cwd": crate, "env": {**os.environ, "RUSTFLAGS": os.environ.get("RUSTFLAGS", "") + " --cap-lints=allow"}}
    run("cargo", "build", "--release", "--target-dir", plain, *given, **build)
    described = run("cargo", "metadata", "--format-version", "1", *given, cwd=crate, capture_output=True).stdout
    package = next(it for it in json.loads(described)["packages"] if it["name"] == "framehop")
    opened = OUT / "original-with-index"
    shutil.rmtree(opened / "crate", ignore_errors=True)
    shutil.copytree(Path(package["manifest_path"]).parent, opened / "crate" / "framehop")
    for beside in ("gimli", "macho-unwind-info", "pe-unwind-info"):
        # (where the crate's own dependencies are named by their paths)
        if (there := Path(package["manifest_path"]).parent.parent / beside).is_dir():
            shutil.copytree(there, opened / "crate" / beside)
    library = opened / "crate/framehop/src/lib.rs"
    library.write_text(library.read_text().replace("\nmod dwarf;\n", "\npub mod dwarf;\n"))
    patch = f'patch.crates-io.framehop.path="{opened}/crate/framehop"'
    run("cargo", "build", "--release", "--target-dir", opened, *given, "--config", patch, "--features", "index", **build)
    name = "release/framehop-original"
    return plain / name, opened / name, package["version"]


def build_bindings():
    """Builds the programs over the archive: bindings/test/cases.c and the Rust crate's example of that name."""
    kit = Path(shutil.which("rt")).resolve().parent.parent
    if "FRAMEHOP_LIB" not in os.environ:
        run("rt", "lib", cwd=TOP / "crates/framehop_c", stdout=sys.stderr)
        os.environ["FRAMEHOP_LIB"] = f"{TOP}/crates/framehop_c/out:{kit}/c"
    folders = [Path(folder) for folder in os.environ["FRAMEHOP_LIB"].split(":")]
    archives = [it for folder in folders for name in ("framehop_c", "libc_c") if (it := folder / f"lib{name}.a").is_file()]
    header = f"-I{TOP}/bindings/include"
    run("clang", "-O2", header, TOP / "bindings/test/cases.c", *archives, "-o", OUT / "cases-c")
    rust = ["cargo", "build", "--release", "--offline", "--example", "cases", "--target-dir", OUT / "bindings"]
    run(*rust, cwd=TOP / "bindings/rust")
    return OUT / "cases-c", OUT / "bindings/release/examples/cases"


def make_inputs(room, elf):
    """The inputs by name, as make_inputs.py makes them."""
    wanted = {
        "sections": ["sections", elf],
        "header": ["sections", elf, "header"],
        "cold": ["cold", f"{room}/sections", elf, 300],
        "offsets": ["offsets", 300],
        "scattered-1000": ["scattered", 1000],
        "scattered-5000": ["scattered", 5000],
        "fdes-100000": ["fdes", 100_000],
        "fdes-1000000": ["fdes", 1_000_000],
        "pe": ["pe", 20_000],
        "many": ["many", 16_000],
    }
    for arch in ("x86_64", "aarch64"):
        wanted[f"fp-{arch}"] = ["frame-pointers", arch]
        wanted[f"compact-{arch}"] = ["compact", arch, 20_000]
    for name, words in wanted.items():
        with open(f"{room}/{name}", "w") as file:
            run("python3", TOP / "bench/make_inputs.py", *words, stdout=file)
    return {name: f"{room}/{name}" for name in wanted}


def cases(inputs, plain, opened):
    """What is run, ours and theirs, with the lines of the table that the parts of their output are."""
    found = []
    for name, repetitions in {
        "fp-x86_64": 20_000,
        "fp-aarch64": 20_000,
        "offsets": 20_000,
        "cold": 1_000,
        "scattered-1000": 5_000,
        "scattered-5000": 1_000,
    }.items():
        parts = ("warm cache", "new cache each walk", "making a cache")
        lines = {part: f"`{name}`, {part}" for part in parts[: 3 if name.startswith("fp") else 2]}
        found.append((lines, ["walk", inputs[name], repetitions], plain, ["walk", inputs[name], repetitions]))
    index = {"Module::new": "`index`, `Module::new`"}
    found.append((index, ["index", inputs["sections"], 100], plain, ["index", inputs["sections"], 100]))
    for name, repetitions in {"sections": 1_000, "fdes-100000": 1_000, "fdes-1000000": 300}.items():
        lines = {"offset of the FDE": f"`lookup` in the index of `{name}`"}
        words = ["lookup", inputs[name], repetitions]
        found.append((lines, words, opened, words))
    for case, name in (
        ("call-frames", "sections"),
        ("call-frames", "header"),
        ("call-frames", "fdes-100000"),
        ("compact", "compact-x86_64"),
        ("compact", "compact-aarch64"),
        ("pe", "pe"),
    ):
        lines = {"steps": f"steps by `{name}`"}
        found.append((lines, [case, inputs[name], 100], plain, ["steps", inputs[name], 100]))
    modules = {part: f"a module of 1,000 {part}" for part in ("added", "found", "removed")}
    found.append((modules, ["modules", 300], plain, ["modules", 300]))
    return found


def told(text, lines):
    """The times and the counts of the parts that lines name, in a program's output."""
    times, counts = {}, {}
    for line in text.splitlines():
        before, _, rest = line.partition(": ")
        part = before.rpartition(", ")[2]
        part = "steps" if part in ("x86_64", "aarch64") else part
        if part not in lines:
            continue
        if at := re.search(r"([0-9.]+) ns/", rest):
            times[part] = float(at.group(1))
        if at := re.search(r"([0-9]+) \w+s(?:, [0-9]+ hits)?, sum ([0-9a-f]+)", rest):
            counts[part] = at.groups()
    return times, counts


def fixed_loop():
    start = time.process_time()
    for _ in range(2_000_000):
        pass
    return time.process_time() - start


def measure(pinned, lines, ours, program, theirs, here, there):
    """Runs both once, and notes their times by line."""
    both = []
    for command in ([OURS, *ours], [program, *theirs]):
        ran = run(*pinned, *command, capture_output=True, text=True)
        both.append(told(ran.stdout + ran.stderr, lines))
    for part, line in lines.items():
        if both[0][1].get(part) != both[1][1].get(part):
            sys.exit(f"compare.py: {line}: {both[0][1].get(part)} here, {both[1][1].get(part)} in the original")
        here.setdefault(line, []).append(both[0][0][part])
        there.setdefault(line, []).append(both[1][0][part])


WAYS = ("C, one call", "C, callback for words", "C, callback for a word", "C, a frame a call", "Rust, walk_into", "Rust, walk_with", "Rust, iter_frames",
        "Rust, iter_frames_lazily")


def measure_bindings(pinned, inputs, name, bindings, here, there):
    """Walks of an input through the archive, in each way; the original's time is that of its walk."""
    script = [sys.executable, TOP / "bindings/test/cases.py", "words", inputs[name], "may"]
    words = run(*script, capture_output=True, text=True).stdout
    text = "".join(
        run(*pinned, program, "time", 20_000, input=words, capture_output=True, text=True).stderr for program in bindings
    )
    for way in WAYS:
        line = f"`{name}`, {way}"
        here.setdefault(line, []).append(float(re.search(rf"^{way}: ([0-9.]+) ns/", text, re.M).group(1)))
        there.setdefault(line, []).append(there[f"`{name}`, warm cache"][-1])


def measure_program(pinned, room, large, plain, here, there):
    outputs = []
    for side, command in ((here, [WALK]), (there, [plain, "run"])):
        outputs.append(f"{room}/output-{len(outputs)}")
        with open(outputs[-1], "w") as file:
            start = time.monotonic()
            run(*pinned, *command, large, stdout=file)
            side.setdefault("program over 30 MB", []).append(1e9 * (time.monotonic() - start))
    run("cmp", *outputs)


def shown(nanoseconds):
    return f"{nanoseconds / 1e6:.2f} ms" if nanoseconds >= 1e6 else f"{nanoseconds:.2f} ns"


def print_table(version, here, there, loops):
    print(f"The original: framehop {version}")
    print("| Case | Here | The original | Ratio | of the medians | by rounds |")
    print("|---|---|---|---|---|---|")
    for line, ours in here.items():
        theirs = there[line]
        ratios = min(ours) / min(theirs), statistics.median(ours) / statistics.median(theirs)
        rounds = sorted(one / other for one, other in zip(ours, theirs))
        cells = [line, shown(min(ours)), shown(min(theirs)), f"{ratios[0]:.2f}", f"{ratios[1]:.2f}"]
        print("|", " | ".join([*cells, f"{rounds[0]:.2f} to {rounds[-1]:.2f}"]), "|")
    least, most = min(loops), max(loops)
    print(f"A fixed loop between the runs: {1e3 * least:.0f} to {1e3 * most:.0f} ms, median {1e3 * statistics.median(loops):.0f}")


def main():
    asked = argparse.ArgumentParser()
    asked.add_argument("--rounds", type=int, default=5)
    asked.add_argument("--cpu", type=int)
    asked.add_argument("--only", default="")
    asked.add_argument("--without-bindings", action="store_true")
    asked.add_argument("elf", nargs="?")
    asked = asked.parse_args()
    listed = run("ldd", "/bin/sh", capture_output=True, text=True).stdout
    elf = asked.elf or re.search(r"libc\.so\.6 => (\S+)", listed).group(1)
    pinned = [] if asked.cpu is None else ["taskset", "-c", asked.cpu]
    build_ours()
    plain, opened, version = build_original()
    bindings = () if asked.only or asked.without_bindings else build_bindings()
    here, there, loops = {}, {}, []
    with tempfile.TemporaryDirectory() as room:
        inputs = make_inputs(room, elf)
        for _round in range(asked.rounds):
            for lines, ours, program, theirs in cases(inputs, plain, opened):
                if any(asked.only in line for line in lines.values()):
                    loops.append(fixed_loop())
                    measure(pinned, lines, ours, program, theirs, here, there)
            for name in ("fp-x86_64", "fp-aarch64", "offsets"):
                if bindings:
                    measure_bindings(pinned, inputs, name, bindings, here, there)
            if asked.only in "program over 30 MB":
                measure_program(pinned, room, inputs["many"], plain, here, there)
    print_table(version, here, there, loops)


main()
