#!/usr/bin/env python3
"""Runs the cases of checks/cases/ by a program over the archive, and compares what it prints:

    cases.py c|rust window|callback|chunks|frames|ahead [--only TOPIC] PROGRAM..
    cases.py words FILE POLICY

PROGRAM reads a case as words with spaces between (`words_of`), and prints what `framehop-walk` does. With `window` its
walks are one call, with `callback` they call back for each word, with `chunks` for many words at once; with `frames`, which is C's only, a frame a call,
and with `ahead`, which is Rust's, by an iterator that finds frames ahead. What can't be asked
for through C is left out: `fits_c`. The status is 1 where a case fails, or fewer than LEAST run. `words` prints the words of
a file.
"""

import json
import runpy
import subprocess
import sys
from pathlib import Path

TOP = Path(__file__).resolve().parent.parent.parent
LEAST = {"rust": 169, "c": 163}
GENERAL = "rax rdx rcx rbx rsi rdi bp sp r8 r9 r10 r11 r12 r13 r14 r15".split()
# the names of each field of framehop_sections
FIELDS = {
    "text": "__text .text", "stubs": "__stubs", "stub_helper": "__stub_helper", "got": "__got .got",
    "unwind_info": "__unwind_info", "eh_frame": "__eh_frame .eh_frame",
    "eh_frame_hdr": "__eh_frame_hdr .eh_frame_hdr", "debug_frame": ".debug_frame", "pdata": ".pdata",
    "rdata": ".rdata", "xdata": ".xdata",
}
# the topics whose output has notes, or whose input is a file
OF_OTHERS = ("check", "core_files", "elf_files", "explain", "minidumps", "pe_files", "recordings", "rows", "rules")
FIELD_OF = {name: field for field, names in FIELDS.items() for name in names.split()}


def registers(arch, regs):
    if arch == "aarch64":
        return [regs.get("mask", "ffffffffffffffff"), regs["lr"], regs["sp"], regs["fp"]]
    return [regs["ip"]] + [regs.get(name, "0") for name in GENERAL]


def section(kind, it):
    start, end = it.get("svma", ("0", "0"))
    has_bytes = "data" in it
    return [kind, it["name"] or "-", str(int("svma" in it)), start, end, str(int(has_bytes)), it.get("data") or "-"]


def words_of(case, policy):
    """A case: what stands before its commands, then the commands with their fields in one order."""
    arch = case["arch"]
    words = [arch, policy, case["caches"], len(case["commands"])]
    for it in case["commands"]:
        do = it["do"]
        words += [do] + ([] if do in ("new", "stats") else [it["unwinder"]])
        if do == "add":
            parts = [section("section", part) for part in it["sections"]]
            parts += [section("segment", part) for part in it["segments"]]
            words += [it["start"], it["end"], it["base"], it["base_svma"], len(parts), *sum(parts, [])]
        elif do == "remove":
            words.append(it["start"])
        elif do == "stats":
            words.append(it["cache"])
        elif do in ("step", "walk"):
            words.append(it["cache"])
            words += [it["kind"], it["address"]] if do == "step" else [it["pc"], it["limit"]]
            words += registers(arch, it["regs"])
            memory = it["memory"]
            words += [memory["base"], len(memory["words"]), *memory["words"]]
    return " ".join(map(str, words))


def fits_c(case):
    """Whether each module's sections are one a field, and no field is one that its kind of unwind data leaves out."""
    for it in case["commands"]:
        if it["do"] == "add":
            names = [part["name"] for part in it["sections"]]
            fields = [FIELD_OF[name] for name in names if name in FIELD_OF]
            data = {part["name"] for part in it["sections"] if "data" in part}
            mixed = "__unwind_info" in data and data & {".eh_frame", ".text"}
            if len(set(fields)) < len(fields) or mixed or (".pdata" in data and "__text" in names):
                return False
    return True


def cases():
    """The name, the input and the output of each case of `framehop-walk` that is not refused."""
    files = sorted(TOP.glob("checks/cases/*/*")) + sorted(TOP.glob("examples/*.json"))
    for file in files:
        expected = file.with_suffix(".expected")
        if file.parent.name in OF_OTHERS:
            continue
        if file.suffix == ".json" and expected.exists():
            yield file.relative_to(TOP), file.read_text(), expected.read_text()
        elif file.suffix == ".py":
            made = runpy.run_path(str(file))
            yield file.relative_to(TOP), made["INPUT"], made["EXPECTED"]


def without_stats(text):
    return [line for line in text.splitlines() if not line.startswith("stats ")]


def main():
    language, mode, *program = sys.argv[1:]
    if language == "words":
        print(words_of(json.loads(Path(mode).read_text()), *program))
        return
    only = program[1] if program[0] == "--only" else ""
    program = program[2 if only else 0 :]
    # a retry of a loop over a callback counts, but for Rust's iterator, and so do frames that are found ahead
    counting = (("c", "callback"), ("c", "chunks"), ("c", "frames"), ("rust", "chunks"), ("rust", "ahead"))
    same = without_stats if (language, mode) in counting else str.splitlines
    count, left_out, failed = 0, 0, 0
    for name, text, expected in cases():
        case = json.loads(text)
        if only not in name.parts and only:
            continue
        if language == "c" and not fits_c(case):
            left_out += 1
            continue
        policies = ("may", "must") if case["policy"] == "both" else (case["policy"],)
        for policy in policies:
            count += 1
            ran = subprocess.run([*program, mode], input=words_of(case, policy), capture_output=True, text=True)
            wanted, found = same(expected), same(ran.stdout)
            if ran.returncode or ran.stderr or wanted != found:
                failed += 1
                differing = [pair for pair in zip(wanted + [None], found + [None]) if pair[0] != pair[1]]
                print(f"{name} under {policy}: status {ran.returncode}, {differing[:1]} {ran.stderr[-2000:]}")
    print(f"{language} by {mode}: {count} runs, {failed} failed, {left_out} cases left out")
    sys.exit(failed > 0 or count < (1 if only else LEAST[language]))


if __name__ == "__main__":
    main()
