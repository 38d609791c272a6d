//! The original crate on the inputs of docs/PROGRAMS.md, for comparison.
//!
//!     framehop-original walk FILE N     times N walks of the file's first walk
//!     framehop-original index FILE N    times N makings of the file's first module
//!     framehop-original steps FILE N    times N single steps at each of 4,096 addresses of that module
//!     framehop-original lookup FILE N   times N look-ups in its index of 4,096 addresses (feature `index`)
//!     framehop-original modules N       times N additions, look-ups and removals of 1,000 modules
//!     framehop-original run FILE        carries out `new`, `add` and `walk`, and prints the replies
//!
//! `steps`, `lookup` and `modules` are those of `framehop_bench`, at the same addresses.
use framehop::aarch64::{CacheAarch64, PtrAuthMask, UnwindRegsAarch64, UnwinderAarch64};
use framehop::x86_64::{CacheX86_64, Reg, UnwindRegsX86_64, UnwinderX86_64};
use framehop::{FrameAddress, Module, ModuleSectionInfo, Unwinder};
use serde_json::Value;
use std::hint::black_box;
use std::io::{BufWriter, Write};
use std::ops::Range;
use std::time::Instant;

/// A section or segment of a module of the input.
#[derive(Clone)]
struct Section {
    name: String,
    svma: Option<Range<u64>>,
    data: Option<Vec<u8>>,
}

/// The sections and segments of a module of the input.
#[derive(Clone)]
struct Sections {
    base_svma: u64,
    sections: Vec<Section>,
    segments: Vec<Section>,
}

fn named<'a>(sections: &'a mut [Section], name: &[u8]) -> Option<&'a mut Section> {
    sections.iter_mut().find(|section| section.name.as_bytes() == name)
}

impl ModuleSectionInfo<Vec<u8>> for Sections {
    fn base_svma(&self) -> u64 {
        self.base_svma
    }

    fn section_svma_range(&mut self, name: &[u8]) -> Option<Range<u64>> {
        named(&mut self.sections, name)?.svma.clone()
    }

    fn section_data(&mut self, name: &[u8]) -> Option<Vec<u8>> {
        named(&mut self.sections, name)?.data.take()
    }

    fn segment_svma_range(&mut self, name: &[u8]) -> Option<Range<u64>> {
        named(&mut self.segments, name)?.svma.clone()
    }

    fn segment_data(&mut self, name: &[u8]) -> Option<Vec<u8>> {
        named(&mut self.segments, name)?.data.take()
    }
}

/// An architecture: its registers in JSON and as text, its unwinder and its cache.
trait Machine {
    type Regs: Copy;
    type Cache;
    type Unwinder: Unwinder<UnwindRegs = Self::Regs, Cache = Self::Cache, Module = Module<Vec<u8>>>;

    fn unwinder() -> Self::Unwinder;
    fn cache() -> Self::Cache;
    fn regs(regs: &Value) -> Self::Regs;

    /// Registers with an instruction pointer or a return address, a stack pointer and a frame pointer.
    fn made(address: u64, sp: u64, fp: u64) -> Self::Regs;
    fn text(regs: &Self::Regs) -> String;
}

struct X86_64;
struct Aarch64;

const REGISTERS: [(&str, Reg); 16] = [
    ("rax", Reg::RAX),
    ("rdx", Reg::RDX),
    ("rcx", Reg::RCX),
    ("rbx", Reg::RBX),
    ("rsi", Reg::RSI),
    ("rdi", Reg::RDI),
    ("rbp", Reg::RBP),
    ("rsp", Reg::RSP),
    ("r8", Reg::R8),
    ("r9", Reg::R9),
    ("r10", Reg::R10),
    ("r11", Reg::R11),
    ("r12", Reg::R12),
    ("r13", Reg::R13),
    ("r14", Reg::R14),
    ("r15", Reg::R15),
];

impl Machine for X86_64 {
    type Regs = UnwindRegsX86_64;
    type Cache = CacheX86_64;
    type Unwinder = UnwinderX86_64<Vec<u8>>;

    fn unwinder() -> Self::Unwinder {
        UnwinderX86_64::new()
    }

    fn cache() -> CacheX86_64 {
        CacheX86_64::new()
    }

    fn regs(regs: &Value) -> UnwindRegsX86_64 {
        let mut made = UnwindRegsX86_64::new(number(&regs["ip"]), number(&regs["sp"]), number(&regs["bp"]));
        for (name, register) in REGISTERS {
            if !regs[name].is_null() {
                made.set(register, number(&regs[name]));
            }
        }
        made
    }

    fn made(address: u64, sp: u64, fp: u64) -> UnwindRegsX86_64 {
        UnwindRegsX86_64::new(address, sp, fp)
    }

    fn text(regs: &UnwindRegsX86_64) -> String {
        let registers = REGISTERS.map(|(name, register)| format!(" {name}={:x}", regs.get(register)));
        format!("regs ip={:x}{}", regs.ip(), registers.concat())
    }
}

impl Machine for Aarch64 {
    type Regs = UnwindRegsAarch64;
    type Cache = CacheAarch64;
    type Unwinder = UnwinderAarch64<Vec<u8>>;

    fn unwinder() -> Self::Unwinder {
        UnwinderAarch64::new()
    }

    fn cache() -> CacheAarch64 {
        CacheAarch64::new()
    }

    fn regs(regs: &Value) -> UnwindRegsAarch64 {
        let mask = regs["mask"].as_str().map_or(u64::MAX, hexadecimal);
        let [lr, sp, fp] = ["lr", "sp", "fp"].map(|name| number(&regs[name]));
        UnwindRegsAarch64::new_with_ptr_auth_mask(PtrAuthMask(mask), lr, sp, fp)
    }

    fn made(address: u64, sp: u64, fp: u64) -> UnwindRegsAarch64 {
        UnwindRegsAarch64::new(address, sp, fp)
    }

    fn text(regs: &UnwindRegsAarch64) -> String {
        format!("regs lr={:x} sp={:x} fp={:x}", regs.lr(), regs.sp(), regs.fp())
    }
}

fn hexadecimal(text: &str) -> u64 {
    u64::from_str_radix(text, 16).expect("a hexadecimal number")
}

fn number(value: &Value) -> u64 {
    hexadecimal(value.as_str().expect("a text of hexadecimal digits"))
}

fn bytes(text: &str) -> Vec<u8> {
    let digits = |place| u8::from_str_radix(&text[place..place + 2], 16).expect("two digits");
    (0..text.len()).step_by(2).map(digits).collect()
}

fn section(section: &Value) -> Section {
    Section {
        name: section["name"].as_str().expect("a name").to_string(),
        svma: section["svma"]
            .as_array()
            .map(|ends| number(&ends[0])..number(&ends[1])),
        data: section["data"].as_str().map(bytes),
    }
}

fn sections(module: &Value) -> Sections {
    let list = |name| module[name].as_array().expect("a list").iter().map(section).collect();
    Sections {
        base_svma: number(&module["base_svma"]),
        sections: list("sections"),
        segments: list("segments"),
    }
}

fn module(command: &Value, sections: Sections) -> Module<Vec<u8>> {
    let name = command["name"].as_str().expect("a name").to_string();
    let range = number(&command["start"])..number(&command["end"]);
    Module::new(name, range, number(&command["base"]), sections)
}

/// The stack words of a command.
struct Stack {
    base: u64,
    words: Vec<u64>,
}

impl Stack {
    fn of(command: &Value) -> Stack {
        let memory = &command["memory"];
        let words = memory["words"]
            .as_array()
            .expect("a list")
            .iter()
            .map(number)
            .collect();
        Stack {
            base: number(&memory["base"]),
            words,
        }
    }

    fn read(&self, address: u64) -> Result<u64, ()> {
        let offset = address.checked_sub(self.base).ok_or(())?;
        if offset % 8 != 0 {
            return Err(());
        }
        self.words.get((offset / 8) as usize).copied().ok_or(())
    }
}

fn first<'a>(commands: &'a [Value], verb: &str) -> &'a Value {
    commands
        .iter()
        .find(|command| command["do"] == verb)
        .expect("such a command")
}

fn time_walks<M: Machine>(commands: &[Value], rounds: u64) {
    let mut unwinder = M::unwinder();
    for command in commands.iter().filter(|command| command["do"] == "add") {
        unwinder.add_module(module(command, sections(command)));
    }
    let command = first(commands, "walk");
    let (pc, regs, stack) = (
        number(&command["pc"]),
        M::regs(&command["regs"]),
        Stack::of(command),
    );
    let limit = command["limit"].as_u64().expect("a limit");
    let walk = |cache: &mut M::Cache, counts: &mut Counts| {
        let mut read_stack = |address| stack.read(address);
        let mut frames = unwinder.iter_frames(pc, regs, cache, &mut read_stack);
        for _ in 0..limit {
            let Ok(Some(frame)) = frames.next() else { break };
            counts.count(frame.address());
        }
    };
    let mut cache = M::cache();
    walk(&mut cache, &mut Counts::default());
    let mut counts = Counts::default();
    let start = Instant::now();
    for _ in 0..rounds {
        walk(&mut cache, &mut counts);
    }
    counts.report("warm cache", start, "frame");
    let mut counts = Counts::default();
    let start = Instant::now();
    for _ in 0..rounds {
        walk(&mut M::cache(), &mut counts);
    }
    counts.report("new cache each walk", start, "frame");
    let mut counts = Counts::default();
    let start = Instant::now();
    for _ in 0..rounds {
        black_box(M::cache());
        counts.count(0);
    }
    counts.report("making a cache", start, "cache");
}

/// Numbers that look random, as `framehop_bench` makes them: a linear congruential generator modulo 2^64, with the
/// factors of Knuth's MMIX.
struct Scattered {
    state: u64,
}

impl Scattered {
    fn new() -> Scattered {
        Scattered { state: 1 }
    }

    fn next_below(&mut self, limit: u64) -> u64 {
        self.state = self
            .state
            .wrapping_mul(6_364_136_223_846_793_005)
            .wrapping_add(1_442_695_040_888_963_407);
        (self.state >> 32).checked_rem(limit).unwrap_or(0)
    }
}

/// How many addresses are looked up or stepped from in each repetition.
const ADDRESS_COUNT: u64 = 4_096;

/// How many results there were, and their sum: the same as those of `framehop_bench`.
#[derive(Default)]
struct Counts {
    items: u64,
    sum: u64,
}

impl Counts {
    fn count(&mut self, value: u64) {
        self.items += 1;
        self.sum = self.sum.wrapping_add(value);
    }

    fn report(&self, case: &str, start: Instant, unit: &str) {
        let elapsed = start.elapsed().as_nanos() as f64;
        println!("{case}: {:.2} ns/{unit}", elapsed / self.items as f64);
        println!("{case}: {} {unit}s, sum {:x}", self.items, self.sum);
    }
}

/// The start (SVMA) and length of each FDE of an `.eh_frame` at an address (SVMA). Starts are relative to their fields,
/// in four bytes, as compilers write them.
fn fdes(eh_frame: &[u8], svma: u64) -> Vec<(u64, u64)> {
    let word = |at: usize| {
        eh_frame
            .get(at..at + 4)
            .map(|four| u32::from_le_bytes(four.try_into().unwrap()))
    };
    let (mut at, mut found) = (0, Vec::new());
    while let (Some(length), Some(id)) = (word(at).filter(|length| *length != 0), word(at + 4)) {
        if let (true, Some(start), Some(size)) = (id != 0, word(at + 8), word(at + 12)) {
            let field = svma.wrapping_add(at as u64 + 8);
            found.push((field.wrapping_add(start as i32 as u64), u64::from(size)));
        }
        at += length as usize + 4;
    }
    found
}

/// The bytes of a module's `.eh_frame`, and its FDEs.
fn call_frames(info: &mut Sections) -> (&[u8], Vec<(u64, u64)>) {
    let section = named(&mut info.sections, b".eh_frame").expect("an .eh_frame");
    let svma = section.svma.as_ref().expect("its addresses").start;
    let eh_frame = section.data.as_deref().expect("its bytes");
    (eh_frame, fdes(eh_frame, svma))
}

fn time_index(commands: &[Value], rounds: u64) {
    let command = first(commands, "add");
    let mut info = sections(command);
    let count = call_frames(&mut info).1.len() as u64;
    let mut copies: Vec<Sections> = (0..rounds).map(|_| info.clone()).collect();
    let start = Instant::now();
    copies
        .drain(..)
        .for_each(|copy| drop(black_box(module(command, copy))));
    let counts = Counts {
        items: rounds * count,
        sum: 0,
    };
    counts.report("Module::new", start, "FDE");
}

/// Single steps, as in a first frame, from addresses that are scattered over the first module's code.
fn time_steps<M: Machine>(commands: &[Value], rounds: u64) {
    const STACK: u64 = 0x7ffe_0000_0000;
    let command = first(commands, "add");
    let mut info = sections(command);
    let text = [&b"__text"[..], b".text"]
        .iter()
        .find_map(|name| info.section_svma_range(name));
    let code = text.map_or(number(&command["start"])..number(&command["end"]), |range| {
        let shift = number(&command["base"]).wrapping_sub(info.base_svma);
        range.start.wrapping_add(shift)..range.end.wrapping_add(shift)
    });
    let mut numbers = Scattered::new();
    let mut address = || code.start.wrapping_add(numbers.next_below(code.end.saturating_sub(code.start)));
    let addresses: Vec<u64> = (0..ADDRESS_COUNT).map(|_| address()).collect();
    let stack = Stack {
        base: STACK,
        words: (0..4_096).map(|place| STACK + 8 * (place + 64)).collect(),
    };
    let mut unwinder = M::unwinder();
    unwinder.add_module(module(command, info));
    let mut cache = M::cache();
    let mut counts = Counts::default();
    let mut read_stack = |address| stack.read(address);
    let start = Instant::now();
    for _ in 0..rounds {
        for address in &addresses {
            let mut regs = M::made(*address, STACK, STACK + 64);
            let at = FrameAddress::from_instruction_pointer(*address);
            if let Ok(Some(caller)) = unwinder.unwind_frame(at, &mut regs, &mut cache, &mut read_stack) {
                counts.count(caller);
            }
        }
    }
    counts.report("steps", start, "step");
}

/// Look-ups of the offsets of FDEs, at addresses that these cover.
#[cfg(feature = "index")]
fn time_lookups(commands: &[Value], rounds: u64) {
    let mut info = sections(first(commands, "add"));
    let base_svma = info.base_svma;
    let fdes = call_frames(&mut info).1;
    let mut numbers = Scattered::new();
    let mut address = || {
        let (start, size) = fdes[numbers.next_below(fdes.len() as u64) as usize];
        start.wrapping_add(numbers.next_below(size))
    };
    let addresses: Vec<u64> = (0..ADDRESS_COUNT).map(|_| address()).collect();
    let eh_frame = info.section_data(b".eh_frame").expect("its bytes");
    let index = framehop::dwarf::DwarfCfiIndex::try_new_eh_frame(&eh_frame, &mut info).expect("an index");
    let mut counts = Counts::default();
    let start = Instant::now();
    for _ in 0..rounds {
        for address in &addresses {
            if let Some(offset) = index.fde_offset_for_relative_address((address - base_svma) as u32) {
                counts.count(u64::from(offset));
            }
        }
    }
    counts.report("offset of the FDE", start, "lookup");
}

#[cfg(not(feature = "index"))]
fn time_lookups(_commands: &[Value], _rounds: u64) {
    panic!("built without the feature `index`");
}

/// 1,000 modules without unwind data: each added, in no order; an address of each stepped from; each removed.
fn time_modules(rounds: u64) {
    const MODULES: u64 = 1_000;
    let mut numbers = Scattered::new();
    let mut starts: Vec<u64> = (0..MODULES).map(|place| 0x10_0000 * (place + 1)).collect();
    for place in (1..starts.len()).rev() {
        starts.swap(place, numbers.next_below(place as u64 + 1) as usize);
    }
    let none = Sections {
        base_svma: 0,
        sections: Vec::new(),
        segments: Vec::new(),
    };
    let (mut added, mut found, mut removed) = (0, 0, 0);
    let mut counts = Counts::default();
    for _ in 0..rounds {
        let mut unwinder: UnwinderX86_64<Vec<u8>> = UnwinderX86_64::new();
        let mut cache: CacheX86_64 = CacheX86_64::new();
        let modules: Vec<_> = starts
            .iter()
            .map(|start| Module::new("m".to_string(), *start..*start + 0x1000, *start, none.clone()))
            .collect();
        let start = Instant::now();
        modules.into_iter().for_each(|module| unwinder.add_module(module));
        added += start.elapsed().as_nanos();
        let start = Instant::now();
        for address in &starts {
            let mut regs = UnwindRegsX86_64::new(*address, 0x1000, 0x1000);
            let at = FrameAddress::from_instruction_pointer(*address);
            if let Ok(Some(caller)) = unwinder.unwind_frame(at, &mut regs, &mut cache, &mut |word| Ok(word + 0x100)) {
                counts.count(caller);
            }
        }
        found += start.elapsed().as_nanos();
        let start = Instant::now();
        starts.iter().for_each(|address| unwinder.remove_module(*address));
        removed += start.elapsed().as_nanos();
    }
    let all = rounds * MODULES;
    for (case, nanoseconds, counts) in [
        ("added", added, Counts { items: all, sum: 0 }),
        ("found", found, counts),
        ("removed", removed, Counts { items: all, sum: 0 }),
    ] {
        println!("{case}: {:.2} ns/module", nanoseconds as f64 / all as f64);
        println!("{case}: {} modules, sum {:x}", counts.items, counts.sum);
    }
}

/// A walk by single steps, since the original's iterator hides its registers.
fn print_walk<M: Machine>(
    unwinder: &M::Unwinder,
    cache: &mut M::Cache,
    command: &Value,
    out: &mut impl Write,
) {
    let stack = Stack::of(command);
    let mut read_stack = |address| stack.read(address);
    let mut regs = M::regs(&command["regs"]);
    let mut frame = FrameAddress::from_instruction_pointer(number(&command["pc"]));
    let mut end = "limit".to_string();
    for _ in 0..command["limit"].as_u64().expect("a limit") {
        let kind = if frame.is_return_address() { "ra" } else { "ip" };
        writeln!(out, "{kind} {:x}", frame.address()).expect("output");
        match unwinder.unwind_frame(frame, &mut regs, cache, &mut read_stack) {
            Ok(Some(address)) => match FrameAddress::from_return_address(address) {
                Some(caller) => frame = caller,
                None => end = "stopped: Return address is null".to_string(),
            },
            Ok(None) => end = "end".to_string(),
            Err(error) => end = format!("stopped: {error}"),
        }
        if end != "limit" {
            break;
        }
    }
    writeln!(out, "{end}\n{}", M::text(&regs)).expect("output");
}

fn run<M: Machine>(commands: &[Value], caches: u64) {
    let mut unwinders: Vec<M::Unwinder> = Vec::new();
    let mut caches: Vec<M::Cache> = (0..caches).map(|_| M::cache()).collect();
    let mut out = BufWriter::new(std::io::stdout().lock());
    let place = |command: &Value, name: &str| command[name].as_u64().expect("a number") as usize;
    for command in commands {
        match command["do"].as_str().expect("a verb") {
            "new" => {
                writeln!(out, "new {}", unwinders.len()).expect("output");
                unwinders.push(M::unwinder());
            }
            "add" => {
                unwinders[place(command, "unwinder")].add_module(module(command, sections(command)));
                writeln!(out, "add").expect("output");
            }
            "walk" => {
                let unwinder = &unwinders[place(command, "unwinder")];
                print_walk::<M>(unwinder, &mut caches[place(command, "cache")], command, &mut out);
            }
            other => panic!("the command {other} is not carried out"),
        }
    }
}

fn carry_out<M: Machine>(mode: &str, input: &Value, rounds: u64) {
    let commands = input["commands"].as_array().expect("a list");
    match mode {
        "walk" => time_walks::<M>(commands, rounds),
        "index" => time_index(commands, rounds),
        "steps" => time_steps::<M>(commands, rounds),
        "lookup" => time_lookups(commands, rounds),
        "run" => run::<M>(commands, input["caches"].as_u64().expect("a number")),
        _ => panic!("walk, index, steps, lookup, modules or run"),
    }
}

fn main() {
    let words: Vec<String> = std::env::args().collect();
    let usage = "walk|index|steps|lookup|run FILE [N], or modules N";
    let [mode, path] = [1, 2].map(|place| words.get(place).expect(usage));
    if mode == "modules" {
        return time_modules(path.parse().expect("a number"));
    }
    let rounds = words
        .get(3)
        .map_or(1000, |count| count.parse().expect("a number"));
    let input: Value = serde_json::from_slice(&std::fs::read(path).expect("a file")).expect("JSON");
    match input["arch"].as_str() {
        Some("x86_64") => carry_out::<X86_64>(mode, &input, rounds),
        Some("aarch64") => carry_out::<Aarch64>(mode, &input, rounds),
        _ => panic!("no such architecture"),
    }
}
