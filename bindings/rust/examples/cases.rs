//! Carries out a case that `bindings/test/cases.py` writes, and prints what `framehop-walk` does: `cases window` with
//! walks that are one call, `cases callback` with walks by an iterator that finds a frame a call, `cases ahead` with one that
//! finds frames ahead, `cases chunks` with a callback that reads as many words as it can; `cases time N` with walks that are
//! one call, which are made N times more in each way, and tells the nanoseconds of a frame.
use framehop_rattle::aarch64::{CacheAarch64, PtrAuthMask, UnwindRegsAarch64, UnwinderAarch64};
use framehop_rattle::x86_64::{CacheX86_64, Reg, UnwindRegsX86_64, UnwinderX86_64};
use framehop_rattle::{
    AllocationPolicy, CacheStats, Error, FrameAddress, MayAllocateDuringUnwind, Module, ModuleSectionInfo,
    MustNotAllocateDuringUnwind, Unwinder,
};
use std::collections::HashMap;
use std::io::Read;
use std::ops::{Deref, Range};
use std::time::Instant;

/// The words of a case.
struct Words<'a>(std::str::SplitAsciiWhitespace<'a>);

impl<'a> Words<'a> {
    fn text(&mut self) -> &'a str {
        self.0.next().expect("a word")
    }

    fn count(&mut self) -> usize {
        self.text().parse().expect("a number")
    }

    fn address(&mut self) -> u64 {
        u64::from_str_radix(self.text(), 16).expect("an address")
    }
}

/// The bytes of a section, in a type of our own.
struct SectionBytes(Box<[u8]>);

impl Deref for SectionBytes {
    type Target = [u8];

    fn deref(&self) -> &[u8] {
        &self.0
    }
}

#[derive(Default)]
struct Parts {
    ranges: HashMap<Vec<u8>, Range<u64>>,
    data: HashMap<Vec<u8>, SectionBytes>,
}

/// Sections and segments by name. Each may be asked for once.
#[derive(Default)]
struct Sections {
    base_svma: u64,
    sections: Parts,
    segments: Parts,
}

impl ModuleSectionInfo<SectionBytes> for Sections {
    fn base_svma(&self) -> u64 {
        self.base_svma
    }

    fn section_svma_range(&mut self, name: &[u8]) -> Option<Range<u64>> {
        self.sections.ranges.remove(name)
    }

    fn section_data(&mut self, name: &[u8]) -> Option<SectionBytes> {
        self.sections.data.remove(name)
    }

    fn segment_svma_range(&mut self, name: &[u8]) -> Option<Range<u64>> {
        self.segments.ranges.remove(name)
    }

    fn segment_data(&mut self, name: &[u8]) -> Option<SectionBytes> {
        self.segments.data.remove(name)
    }
}

fn bytes_of(digits: &str) -> SectionBytes {
    let digits = digits.trim_start_matches('-');
    let byte = |at| u8::from_str_radix(&digits[at..at + 2], 16).expect("digits");
    SectionBytes((0..digits.len()).step_by(2).map(byte).collect())
}

fn read_sections(words: &mut Words, base_svma: u64) -> Sections {
    let mut sections = Sections { base_svma, ..Sections::default() };
    for _ in 0..words.count() {
        let parts = if words.text() == "section" { &mut sections.sections } else { &mut sections.segments };
        let name = words.text().as_bytes().to_vec();
        let (has_range, start, end) = (words.count() == 1, words.address(), words.address());
        let (has_bytes, digits) = (words.count() == 1, words.text());
        if has_range {
            parts.ranges.insert(name.clone(), start..end);
        }
        if has_bytes {
            parts.data.insert(name, bytes_of(digits));
        }
    }
    sections
}

/// What the architectures have of their own.
trait Architecture {
    type Regs: Copy;
    type Cache;
    type Unwinder: Unwinder<UnwindRegs = Self::Regs, Cache = Self::Cache, Module = Module<SectionBytes>>;

    fn unwinder() -> Self::Unwinder;
    fn cache() -> Self::Cache;
    fn stats(cache: &Self::Cache) -> CacheStats;
    fn regs(words: &mut Words) -> Self::Regs;
    fn print(regs: &Self::Regs);
    fn walk_into(
        unwinder: &Self::Unwinder,
        pc: u64,
        regs: &mut Self::Regs,
        cache: &mut Self::Cache,
        memory: &Memory,
        frames: &mut [u64],
    ) -> (usize, Result<bool, Error>);
    fn walk_with(
        unwinder: &Self::Unwinder,
        pc: u64,
        regs: &mut Self::Regs,
        cache: &mut Self::Cache,
        memory: &Memory,
        frames: &mut [u64],
    ) -> (usize, Result<bool, Error>);
}

/// How walks read the stack.
#[derive(Clone, Copy, PartialEq, Eq)]
enum Mode {
    Window,
    Callback,
    Ahead,
    Chunks,
    Time(usize),
}

/// A walk of an architecture into a list.
type WalkFn<A> = fn(
    &<A as Architecture>::Unwinder,
    u64,
    &mut <A as Architecture>::Regs,
    &mut <A as Architecture>::Cache,
    &Memory,
    &mut [u64],
) -> (usize, Result<bool, Error>);

struct X86_64<P>(P);
struct Aarch64<P>(P);

macro_rules! architecture {
    ($architecture:ident, $unwinder:ident, $cache:ident, $regs:ident, $read:ident, $print:ident) => {
        impl<P: AllocationPolicy> Architecture for $architecture<P> {
            type Regs = $regs;
            type Cache = $cache<P>;
            type Unwinder = $unwinder<SectionBytes, P>;

            fn unwinder() -> Self::Unwinder {
                $unwinder::new()
            }

            fn cache() -> Self::Cache {
                $cache::new_in()
            }

            fn stats(cache: &Self::Cache) -> CacheStats {
                cache.stats()
            }

            fn regs(words: &mut Words) -> $regs {
                $read(words)
            }

            fn print(regs: &$regs) {
                $print(regs)
            }

            fn walk_into(
                unwinder: &Self::Unwinder,
                pc: u64,
                regs: &mut $regs,
                cache: &mut Self::Cache,
                memory: &Memory,
                frames: &mut [u64],
            ) -> (usize, Result<bool, Error>) {
                unwinder.walk_into(pc, regs, cache, memory.base, &memory.words, frames)
            }

            fn walk_with(
                unwinder: &Self::Unwinder,
                pc: u64,
                regs: &mut $regs,
                cache: &mut Self::Cache,
                memory: &Memory,
                frames: &mut [u64],
            ) -> (usize, Result<bool, Error>) {
                unwinder.walk_with(pc, regs, cache, |address, words| memory.read(address, words), frames)
            }
        }
    };
}

architecture!(X86_64, UnwinderX86_64, CacheX86_64, UnwindRegsX86_64, read_x86_64, print_x86_64);
architecture!(Aarch64, UnwinderAarch64, CacheAarch64, UnwindRegsAarch64, read_aarch64, print_aarch64);

use Reg::*;
const GENERAL: [Reg; 16] = [RAX, RDX, RCX, RBX, RSI, RDI, RBP, RSP, R8, R9, R10, R11, R12, R13, R14, R15];

fn read_x86_64(words: &mut Words) -> UnwindRegsX86_64 {
    let mut regs = UnwindRegsX86_64::new(words.address(), 0, 0);
    for reg in GENERAL {
        regs.set(reg, words.address());
    }
    regs
}

fn print_x86_64(regs: &UnwindRegsX86_64) {
    print!("regs ip={:x}", regs.ip());
    for reg in GENERAL {
        let value = match reg {
            RSP => regs.sp(),
            RBP => regs.bp(),
            _ => regs.get(reg),
        };
        print!(" {}={value:x}", format!("{reg:?}").to_lowercase());
    }
    println!();
}

fn read_aarch64(words: &mut Words) -> UnwindRegsAarch64 {
    let mask = PtrAuthMask(words.address());
    UnwindRegsAarch64::new_with_ptr_auth_mask(mask, words.address(), words.address(), words.address())
}

fn print_aarch64(regs: &UnwindRegsAarch64) {
    println!("regs lr={:x} sp={:x} fp={:x}", regs.lr(), regs.sp(), regs.fp());
}

struct Memory {
    base: u64,
    words: Vec<u64>,
}

impl Memory {
    fn read_from(words: &mut Words) -> Self {
        let (base, count) = (words.address(), words.count());
        Memory { base, words: (0..count).map(|_| words.address()).collect() }
    }

    fn word(&self, address: u64) -> Result<u64, ()> {
        let offset = address.checked_sub(self.base).ok_or(())?;
        if offset % 8 != 0 {
            return Err(());
        }
        self.words.get(usize::try_from(offset / 8).map_err(drop)?).copied().ok_or(())
    }

    /// Reads words from an address upwards, as many as there are.
    fn read(&self, address: u64, words: &mut [u64]) -> usize {
        let rest = self.rest(address).unwrap_or(&[]);
        let count = rest.len().min(words.len());
        words[..count].copy_from_slice(&rest[..count]);
        count
    }

    /// The words from an address upwards.
    fn rest(&self, address: u64) -> Option<&[u64]> {
        let offset = address.checked_sub(self.base)?;
        if offset % 8 != 0 {
            return None;
        }
        self.words.get(usize::try_from(offset / 8).ok()?..)
    }
}

/// A callback over the memory that is asked for no word twice while a frame is unwound.
fn once<'a>(memory: &'a Memory, asked: &'a mut Vec<u64>) -> impl FnMut(u64) -> Result<u64, ()> + 'a {
    move |address| {
        assert!(!asked.contains(&address), "{address:x} is asked for twice");
        asked.push(address);
        memory.word(address)
    }
}

fn frames_of<A: Architecture>(
    unwinder: &A::Unwinder,
    pc: u64,
    limit: usize,
    regs: &mut A::Regs,
    cache: &mut A::Cache,
    memory: &Memory,
    mode: Mode,
) -> (Vec<u64>, Result<bool, Error>) {
    let mut read_stack = |address| memory.word(address);
    let mut iter = match mode {
        Mode::Ahead => unwinder.iter_frames(pc, *regs, cache, &mut read_stack),
        _ => unwinder.iter_frames_lazily(pc, *regs, cache, &mut read_stack),
    };
    let mut frames = Vec::new();
    let end = loop {
        if frames.len() == limit {
            break Ok(false);
        }
        match iter.next() {
            Ok(Some(frame)) => frames.push(frame.address()),
            Ok(None) => break Ok(true),
            Err(error) => break Err(error),
        }
    };
    *regs = *iter.regs();
    (frames, end)
}

fn walk<A: Architecture>(words: &mut Words, unwinder: &A::Unwinder, cache: &mut A::Cache, mode: Mode) {
    let (pc, limit) = (words.address(), words.count());
    let mut regs = A::regs(words);
    let memory = Memory::read_from(words);
    let start = regs;
    let (frames, end) = if matches!(mode, Mode::Callback | Mode::Ahead) {
        frames_of::<A>(unwinder, pc, limit, &mut regs, cache, &memory, mode)
    } else {
        // no case has so many frames
        let mut frames = vec![0; limit.min(1_000_000)];
        let walk = if mode == Mode::Chunks { A::walk_with } else { A::walk_into };
        let (count, end) = walk(unwinder, pc, &mut regs, cache, &memory, &mut frames);
        assert!(frames[count..].iter().all(|frame| *frame == 0));
        frames.truncate(count);
        (frames, end)
    };
    for (index, frame) in frames.iter().enumerate() {
        println!("{} {frame:x}", if index == 0 { "ip" } else { "ra" });
    }
    match end {
        Ok(true) => println!("end"),
        Ok(false) => println!("limit"),
        Err(error) => println!("stopped: {error}"),
    }
    A::print(&regs);
    if let Mode::Time(times) = mode {
        time::<A>(times, unwinder, pc, limit, start, cache, &memory);
    }
}

/// Tells the time of a frame in each way.
fn time<A: Architecture>(
    times: usize,
    unwinder: &A::Unwinder,
    pc: u64,
    limit: usize,
    start: A::Regs,
    cache: &mut A::Cache,
    memory: &Memory,
) {
    let mut frames = vec![0; limit];
    for (way, walk) in [("walk_into", A::walk_into as WalkFn<A>), ("walk_with", A::walk_with)] {
        let before = Instant::now();
        let walk = |_| walk(unwinder, pc, &mut { start }, cache, memory, &mut frames).0;
        tell(way, (0..times).map(walk).sum(), before);
    }
    for is_lazy in [false, true] {
        let before = Instant::now();
        let mut count = 0;
        for _ in 0..times {
            let mut read_stack = |address| memory.word(address);
            let mut iter = match is_lazy {
                true => unwinder.iter_frames_lazily(pc, start, cache, &mut read_stack),
                false => unwinder.iter_frames(pc, start, cache, &mut read_stack),
            };
            let mut left = limit;
            while left > 0 && matches!(iter.next(), Ok(Some(_))) {
                left -= 1;
            }
            count += limit - left;
        }
        tell(if is_lazy { "iter_frames_lazily" } else { "iter_frames" }, count, before);
    }
}

fn tell(way: &str, frames: usize, before: Instant) {
    eprintln!("Rust, {way}: {:.2} ns/frame", before.elapsed().as_nanos() as f64 / frames as f64);
}

fn step<A: Architecture>(words: &mut Words, unwinder: &A::Unwinder, cache: &mut A::Cache) {
    let kind = words.text();
    let address = words.address();
    let address = match kind {
        "ip" => FrameAddress::from_instruction_pointer(address),
        _ => FrameAddress::from_return_address(address).expect("a return address"),
    };
    let mut regs = A::regs(words);
    let memory = Memory::read_from(words);
    let mut asked = Vec::new();
    match unwinder.unwind_frame(address, &mut regs, cache, &mut once(&memory, &mut asked)) {
        Ok(Some(found)) => println!("step {found:x}"),
        Ok(None) => println!("step end"),
        Err(error) => println!("step stopped: {error}"),
    }
    A::print(&regs);
}

fn run<A: Architecture>(words: &mut Words, mode: Mode) {
    let mut caches: Vec<A::Cache> = (0..words.count()).map(|_| A::cache()).collect();
    let mut unwinders: Vec<A::Unwinder> = Vec::new();
    for _ in 0..words.count() {
        let command = words.text();
        let number = if command == "new" { 0 } else { words.count() };
        match command {
            "new" => {
                println!("new {}", unwinders.len());
                unwinders.push(A::unwinder());
            }
            "clone" => {
                println!("clone {}", unwinders.len());
                unwinders.push(unwinders[number].clone());
            }
            "add" => {
                let (start, end, base, base_svma) =
                    (words.address(), words.address(), words.address(), words.address());
                let module = Module::new("m".into(), start..end, base, read_sections(words, base_svma));
                unwinders[number].add_module(module);
                println!("add");
            }
            "remove" => {
                unwinders[number].remove_module(words.address());
                println!("remove");
            }
            "stats" => {
                let stats = A::stats(&caches[number]);
                println!(
                    "stats hits={} empty={} modules={} address={}",
                    stats.hit_count,
                    stats.miss_empty_slot_count,
                    stats.miss_wrong_modules_count,
                    stats.miss_wrong_address_count
                );
            }
            "step" => {
                let cache = words.count();
                step::<A>(words, &unwinders[number], &mut caches[cache]);
            }
            _ => {
                let cache = words.count();
                walk::<A>(words, &unwinders[number], &mut caches[cache], mode);
            }
        }
    }
}

fn main() {
    let mode = match std::env::args().nth(1).as_deref() {
        Some("callback") => Mode::Callback,
        Some("ahead") => Mode::Ahead,
        Some("chunks") => Mode::Chunks,
        Some("time") => Mode::Time(std::env::args().nth(2).and_then(|it| it.parse().ok()).expect("a number")),
        _ => Mode::Window,
    };
    let mut text = String::new();
    std::io::stdin().read_to_string(&mut text).expect("a case");
    let words = &mut Words(text.split_ascii_whitespace());
    match (words.text(), words.text()) {
        ("x86_64", "may") => run::<X86_64<MayAllocateDuringUnwind>>(words, mode),
        ("x86_64", _) => run::<X86_64<MustNotAllocateDuringUnwind>>(words, mode),
        (_, "may") => run::<Aarch64<MayAllocateDuringUnwind>>(words, mode),
        (_, _) => run::<Aarch64<MustNotAllocateDuringUnwind>>(words, mode),
    }
}
