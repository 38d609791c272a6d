//! What the crate promises beside the archive's own calls: no memory for steps, each section asked for once, counts
//! without retries, one counter of generations, texts.
use framehop_rattle::aarch64::{CacheAarch64, PtrAuthMask, UnwindRegsAarch64, UnwinderAarch64};
use framehop_rattle::x86_64::{CacheX86_64, Reg, UnwindRegsX86_64, UnwinderX86_64};
use framehop_rattle::{
    CacheNative, CacheStats, Error, ExplicitModuleSectionInfo, FallibleIterator, FrameAddress, MayAllocateDuringUnwind,
    Module, ModuleSectionInfo, MustNotAllocateDuringUnwind, UnwindIterator, UnwindRegsNative, Unwinder, UnwinderNative,
};
use std::alloc::{GlobalAlloc, Layout, System};
use std::borrow::Cow;
use std::cell::{Cell, RefCell};
use std::ops::{Deref, Range};
use std::rc::Rc;

thread_local! {
    static REQUESTS: Cell<usize> = const { Cell::new(0) };
}

/// Counts the requests for memory of each thread. The archive's own go to malloc, which this doesn't see.
struct Counting;

// SAFETY: all is the system's
unsafe impl GlobalAlloc for Counting {
    unsafe fn alloc(&self, layout: Layout) -> *mut u8 {
        REQUESTS.set(REQUESTS.get() + 1);
        unsafe { System.alloc(layout) }
    }

    unsafe fn dealloc(&self, place: *mut u8, layout: Layout) {
        unsafe { System.dealloc(place, layout) }
    }

    unsafe fn realloc(&self, place: *mut u8, layout: Layout, size: usize) -> *mut u8 {
        REQUESTS.set(REQUESTS.get() + 1);
        unsafe { System.realloc(place, layout, size) }
    }
}

#[global_allocator]
static COUNTING: Counting = Counting;

/// Frame records from 16 on, a return address each: the one at `16 * i` leads to `16 * (i + 1)`, and there are 100.
fn records() -> Vec<u64> {
    let record = |i: u64| if (1..=100).contains(&i) { [16 * (i + 1), 0x6fff + i] } else { [0, 0] };
    (0..=101).flat_map(record).collect()
}

/// How many frames a walk finds, and how many requests for memory it makes.
fn count<U: Unwinder>(
    unwinder: &U,
    pc: u64,
    regs: U::UnwindRegs,
    cache: &mut U::Cache,
    stack: &[u64],
) -> (usize, usize) {
    let before = REQUESTS.get();
    let mut read_stack = |address: u64| stack.get(address as usize / 8).copied().ok_or(());
    let mut iter = unwinder.iter_frames(pc, regs, cache, &mut read_stack);
    let mut frames = 0;
    while let Ok(Some(_)) = iter.next() {
        frames += 1;
    }
    (frames, REQUESTS.get() - before)
}

#[test]
fn walks_without_memory() {
    let stack = records();
    let unwinder = UnwinderX86_64::<Vec<u8>, MustNotAllocateDuringUnwind>::new();
    let mut cache = CacheX86_64::new_in();
    let regs = UnwindRegsX86_64::new(0x7fff, 16, 16);
    assert_eq!(count(&unwinder, 0x7fff, regs, &mut cache, &stack), (101, 0));
    let unwinder = UnwinderAarch64::<Vec<u8>, MustNotAllocateDuringUnwind>::new();
    let mut cache = CacheAarch64::new_in();
    let regs = UnwindRegsAarch64::new(0x7fff, 16, 16);
    assert_eq!(count(&unwinder, 0x7fff, regs, &mut cache, &stack), (101, 0));

    // with leave, only a first walk takes memory: for the words of a frame
    let unwinder = UnwinderX86_64::<Vec<u8>>::new();
    let mut cache = CacheX86_64::new();
    let regs = UnwindRegsX86_64::new(0x7fff, 16, 16);
    assert_eq!(count(&unwinder, 0x7fff, regs, &mut cache, &stack), (101, 2));
    assert_eq!(count(&unwinder, 0x7fff, regs, &mut cache, &stack), (101, 0));
}

/// A frame of a PE function with 254 unwind codes, each of which asks for a word.
#[test]
fn asks_for_many_words_without_memory() {
    let mut info = vec![0x01, 0x00, 254, 0x00];
    for _ in 0..254 {
        info.extend([0, 0x30]); // UWOP_PUSH_NONVOL of rbx, at the function's start
    }
    let pdata: Vec<u8> = [0x1000u32, 0x2000, 0x3000].iter().flat_map(|it| it.to_le_bytes()).collect();
    let module = Module::new("m".into(), 0x10000..0x20000, 0x10000, Pe { pdata: Some(pdata), xdata: Some(info) });
    let mut unwinder = UnwinderX86_64::<_, MustNotAllocateDuringUnwind>::new();
    unwinder.add_module(module);
    walks_by_many_words_of_a_frame(&unwinder);
    let mut cache = CacheX86_64::new_in();
    let mut regs = UnwindRegsX86_64::new(0x11800, 0x8000, 0);
    let address = FrameAddress::from_return_address(0x11800).unwrap();
    let mut asked = Vec::with_capacity(1000);
    let before = REQUESTS.get();
    let found = unwinder.unwind_frame(address, &mut regs, &mut cache, &mut |address| {
        asked.push(address);
        Ok(address + 1)
    });
    assert_eq!(REQUESTS.get(), before);
    assert_eq!(asked, (0..255).map(|it| 0x8000 + 8 * it).collect::<Vec<u64>>());
    assert_eq!(found, Ok(Some(0x8000 + 8 * 254 + 1)));
    assert_eq!((regs.sp(), regs.get(Reg::RBX)), (0x8000 + 8 * 255, 0x8000 + 8 * 253 + 1));
}

/// A frame that asks for 255 words: 64 calls of the callback are enough where it reads many words a call.
fn walks_by_many_words_of_a_frame(unwinder: &UnwinderX86_64<Vec<u8>, MustNotAllocateDuringUnwind>) {
    let word = |address| match address {
        0x7ff0 => 0x9000,
        0x7ff8 => 0x11800,
        _ => address + 1,
    };
    for (most, walked) in [(64, (3, Ok(false))), (1, (2, Err(Error::CouldNotReadStack(0x8000 + 8 * 64))))] {
        let mut regs = UnwindRegsX86_64::new(0x5, 0x7f00, 0x7ff0);
        let read_words = |address, words: &mut [u64]| {
            let count = words.len().min(most);
            (0..count).for_each(|at| words[at] = word(address + 8 * at as u64));
            count
        };
        let mut frames = [0; 3];
        let before = REQUESTS.get();
        let cache = &mut CacheX86_64::new_in();
        let requests = REQUESTS.get() - before;
        assert_eq!(unwinder.walk_with(0x5, &mut regs, cache, read_words, &mut frames), walked);
        assert_eq!(REQUESTS.get() - before, requests);
        let last = if walked.1.is_ok() { 0x8000 + 8 * 254 + 1 } else { 0 };
        assert_eq!(frames, [0x5, 0x11800, last]);
    }
}

/// However many words a callback reads, a walk is that of a copied stack, and it takes no memory.
#[test]
fn walks_by_many_words() {
    let stack = records();
    let unwinder = UnwinderX86_64::<Vec<u8>>::new();
    let mut cache = CacheX86_64::new();
    let start = UnwindRegsX86_64::new(0x7fff, 16, 16);
    let (mut regs, mut frames) = (start, [0; 200]);
    let whole = unwinder.walk_into(0x7fff, &mut regs, &mut cache, 0, &stack, &mut frames);
    assert_eq!(whole.0, 101);
    for (most, limit, calls) in
        [(1, 200, 202), (2, 200, 101), (5, 7, 4), (64, 200, 4), (256, 200, 1), (64, 1, 0), (1, 0, 0)]
    {
        let (mut again, mut found, mut called) = (start, [0; 200], 0);
        let read_words = |address: u64, words: &mut [u64]| {
            called += 1;
            assert!((1..=256).contains(&words.len()));
            let rest = stack.get(address as usize / 8..).unwrap_or(&[]);
            let count = rest.len().min(words.len()).min(most);
            words[..count].copy_from_slice(&rest[..count]);
            count
        };
        let before = REQUESTS.get();
        let walked = unwinder.walk_with(0x7fff, &mut again, &mut cache, read_words, &mut found[..limit]);
        assert_eq!(REQUESTS.get(), before);
        let count = limit.min(101);
        assert_eq!(walked, if limit < 101 { (limit, Ok(false)) } else { whole });
        assert_eq!((&found[..count], &found[count..]), (&frames[..count], &vec![0; 200 - count][..]));
        assert_eq!(called, calls, "with {most} words a call");
        if limit > 101 {
            assert_eq!(again, regs);
        }
    }
}

/// On aarch64 a frame's words are read from its frame pointer on, which lies below the return address that is asked for first.
#[test]
fn walks_by_many_words_on_aarch64() {
    let stack = records();
    let unwinder = UnwinderAarch64::<Vec<u8>>::new();
    let mut cache = CacheAarch64::new();
    let start = UnwindRegsAarch64::new(0x7fff, 16, 16);
    let (mut regs, mut frames) = (start, [0; 200]);
    let whole = unwinder.walk_into(0x7fff, &mut regs, &mut cache, 0, &stack, &mut frames);
    assert_eq!(whole.0, 101);
    for (most, calls) in [(1, 202), (2, 101), (64, 4), (256, 1)] {
        let (mut again, mut found, mut asked) = (start, [0; 200], Vec::new());
        let read_words = |address: u64, words: &mut [u64]| {
            asked.push(address);
            let rest = stack.get(address as usize / 8..).unwrap_or(&[]);
            let count = rest.len().min(words.len()).min(most);
            words[..count].copy_from_slice(&rest[..count]);
            count
        };
        let walked = unwinder.walk_with(0x7fff, &mut again, &mut cache, read_words, &mut found);
        assert_eq!((walked, found, again), (whole, frames, regs));
        assert_eq!((asked.first(), asked.len()), (Some(&16), calls), "with {most} words a call");
    }
    // nothing is read below the stack pointer
    let mut regs = UnwindRegsAarch64::new(0x7fff, 24, 16);
    let mut asked = Vec::new();
    let read_words = |address: u64, _: &mut [u64]| {
        asked.push(address);
        0
    };
    let walked = unwinder.walk_with(0x7fff, &mut regs, &mut cache, read_words, &mut [0; 2]);
    assert_eq!((walked, asked), ((1, Err(Error::CouldNotReadStack(24))), vec![24]));
}

/// The iterator by the calls of a trait that is of the shape of `fallible_iterator::FallibleIterator`.
#[test]
fn is_a_fallible_iterator() {
    let stack = records();
    let unwinder = UnwinderX86_64::<Vec<u8>>::new();
    let mut cache = CacheX86_64::new();
    let regs = UnwindRegsX86_64::new(0x7fff, 16, 16);
    let mut read_stack = |address: u64| stack.get(address as usize / 8).copied().ok_or(());
    let mut iter = unwinder.iter_frames(0x7fff, regs, &mut cache, &mut read_stack);
    assert_eq!(FallibleIterator::size_hint(&iter), (0, None));
    assert_eq!(FallibleIterator::next(&mut iter), Ok(Some(FrameAddress::InstructionPointer(0x7fff))));
    let two: Result<Vec<u64>, Error> = iter.by_ref().iterator().take(2).map(|it| Ok(it?.address())).collect();
    assert_eq!(two, Ok(vec![0x7000, 0x7001]));
    let mut count = 0;
    let counted = iter.by_ref().for_each(|_| {
        count += 1;
        if count == 8 { Err(Error::OutOfMemory) } else { Ok(()) }
    });
    assert_eq!((counted, count), (Err(Error::OutOfMemory), 8));
    assert_eq!(iter.collect::<Vec<_>>().map(|rest| rest.len()), Ok(90));
}

struct Pe {
    pdata: Option<Vec<u8>>,
    xdata: Option<Vec<u8>>,
}

impl ModuleSectionInfo<Vec<u8>> for Pe {
    fn base_svma(&self) -> u64 {
        0
    }

    fn section_svma_range(&mut self, name: &[u8]) -> Option<Range<u64>> {
        (name == b".xdata").then_some(0x3000..0x4000)
    }

    fn section_data(&mut self, name: &[u8]) -> Option<Vec<u8>> {
        match name {
            b".pdata" => self.pdata.take(),
            b".xdata" => self.xdata.take(),
            _ => None,
        }
    }
}

/// A retry for a missing word counts nothing.
#[test]
fn counts_a_lookup_a_frame() {
    let stack = records();
    let unwinder = UnwinderX86_64::<Vec<u8>>::new();
    let mut cache = CacheX86_64::default();
    let regs = UnwindRegsX86_64::new(0x7fff, 16, 16);
    count(&unwinder, 0x7fff, regs, &mut cache, &stack);
    let mut stats = CacheStats::new();
    stats.miss_empty_slot_count = 101;
    assert_eq!(cache.stats(), stats);
    count(&unwinder, 0x7fff, regs, &mut cache, &stack);
    stats.hit_count = 101;
    assert_eq!(cache.stats(), stats);
    assert_eq!((stats.total(), stats.hits(), stats.misses()), (202, 101, 101));
    let stats =
        CacheStats { hit_count: 1, miss_empty_slot_count: 2, miss_wrong_modules_count: 4, miss_wrong_address_count: 8 };
    assert_eq!((stats.total(), stats.hits(), stats.misses()), (15, 1, 14));
}

/// A module whose frames are unwound by a stack of 8 or of 24 bytes, so that two modules give two callers.
fn compact(stack_words: u8) -> Module<Vec<u8>> {
    // a header, two entries of the index, and a page with one opcode
    let words = [1, 28, 0, 28, 0, 28, 2, 0x1000, 52, 52, 0x1010, 0, 52, 2, 0x10008, 0x1000];
    let opcode = 0x0200_0000 | u32::from(stack_words) << 16;
    let info: Vec<u8> = words.iter().chain([&opcode]).flat_map(|word: &u32| word.to_le_bytes()).collect();
    let info = ExplicitModuleSectionInfo { unwind_info: Some(info), ..Default::default() };
    Module::new("m".into(), 0..0x500000, 0, info)
}

/// All unwinders of a thread draw from one counter, so a cache that they share gives each its own frames.
#[test]
fn shares_a_cache() {
    let (mut one, mut other) = (UnwinderX86_64::<Vec<u8>>::new(), UnwinderX86_64::<Vec<u8>>::default());
    one.add_module(compact(1));
    other.add_module(compact(3));
    let stack: Vec<u64> = (0..16).map(|it| 0x7000 + it).collect();
    let caller = |unwinder: &UnwinderX86_64<Vec<u8>>, cache: &mut CacheX86_64| {
        let mut regs = UnwindRegsX86_64::new(0x1003, 0x10, 0x20);
        let address = FrameAddress::from_return_address(0x1003).unwrap();
        let mut read_stack = |address: u64| stack.get(address as usize / 8).copied().ok_or(());
        unwinder.unwind_frame(address, &mut regs, cache, &mut read_stack)
    };
    let (mut own, mut others, mut shared) = (CacheX86_64::new(), CacheX86_64::new(), CacheX86_64::new());
    let (first, second) = (caller(&one, &mut own), caller(&other, &mut others));
    assert_ne!(first, second);
    for _ in 0..2 {
        assert_eq!(caller(&one, &mut shared), first);
        assert_eq!(caller(&other, &mut shared), second);
    }
}

/// A module of 256 bytes with a function whose compact unwind info for x86_64 is one opcode.
fn compact_at(start: u64, opcode: u32) -> Module<Vec<u8>> {
    let words = [1, 28, 0, 28, 0, 28, 2, 0x10, 52, 52, 0x100, 0, 52, 2, 0x10008, 0x10, opcode];
    let info: Vec<u8> = words.iter().flat_map(|word: &u32| word.to_le_bytes()).collect();
    let info = ExplicitModuleSectionInfo { unwind_info: Some(info), ..Default::default() };
    Module::new("m".into(), start..start + 0x100, start, info)
}

/// A module of 256 bytes with a function of a PE file that pushes rsi, rdi and rbx, and lowers rsp by 32.
fn pops_at(start: u64) -> Module<Vec<u8>> {
    let pdata = [0u32, 0x100, 0x3000].iter().flat_map(|it| it.to_le_bytes()).collect();
    // UWOP_ALLOC_SMALL, then UWOP_PUSH_NONVOL of each register, at their offsets in a prologue of 8 bytes
    let xdata = vec![0x01, 0x08, 4, 0, 0x08, 0x32, 0x04, 0x30, 0x02, 0x70, 0x01, 0x60];
    Module::new("m".into(), start..start + 0x100, start, Pe { pdata: Some(pdata), xdata: Some(xdata) })
}

/// A module of 256 bytes with a function by `.debug_frame`: the CIE's return address column, its instructions, and the FDE's.
fn by_call_frames(start: u64, column: u8, initial: [u8; 7], code: &[u8]) -> Module<Vec<u8>> {
    // version 1, factors 1 and -8
    let cie = [&[0xff; 4], &[1, 0, 1, 0x78, column][..], &initial].concat();
    let range = [0x1000u64, 0x100].iter().flat_map(|it| it.to_le_bytes()).collect::<Vec<u8>>();
    let mut fde = [&[0; 4], &range[..], code].concat();
    fde.resize(28, 0);
    let entries = [cie, fde].map(|entry| [&(entry.len() as u32).to_le_bytes(), &entry[..]].concat());
    let info =
        ExplicitModuleSectionInfo { base_svma: 0x1000, debug_frame: Some(entries.concat()), ..Default::default() };
    Module::new("m".into(), start..start + 0x100, start, info)
}

/// For x86_64: the CFA is 8 bytes above rsp, and the return address at CFA - 8.
const X86_64_CALL: [u8; 7] = [0x0c, 7, 8, 0x90, 1, 0, 0];

/// A module of 256 bytes with a function whose CFA is the word 8 bytes above rsp, which no rule says.
fn expression_at(start: u64) -> Module<Vec<u8>> {
    // DW_CFA_def_cfa_expression of DW_OP_breg7 8, DW_OP_deref
    by_call_frames(start, 16, X86_64_CALL, &[0x0f, 3, 0x77, 8, 0x06])
}

/// A module of 256 bytes with a function for x86_64 that has saved rbp at the CFA, above its return address.
fn saves_rbp_above_at(start: u64) -> Module<Vec<u8>> {
    // DW_CFA_offset of rbp
    by_call_frames(start, 16, X86_64_CALL, &[0x86, 0])
}

/// A module of 256 bytes with a function for aarch64, whose CFA is this many bytes above sp. In its stack are lr, so many words
/// below the CFA, and fp, if a place is given for it.
fn saves_at(start: u64, size: u64, lr: u64, fp: Option<u64>) -> Module<Vec<u8>> {
    // DW_CFA_def_cfa_offset, DW_CFA_offset of x30 and x29
    let mut code = vec![0x0e, size as u8, 0x9e, lr as u8];
    code.extend(fp.iter().flat_map(|&fp| [0x9d, fp as u8]));
    // sp is the CFA
    by_call_frames(start, 30, [0x0c, 31, 0, 0, 0, 0, 0], &code)
}

/// Numbers that look random, and are the same each time.
struct Numbers(u64);

impl Numbers {
    fn below(&mut self, limit: u64) -> u64 {
        self.0 = self.0.wrapping_mul(6364136223846793005).wrapping_add(1442695040888963407);
        (self.0 >> 33) % limit
    }
}

/// Where the stacks of [`random_stack`] are.
const STACK: u64 = 0x7ffd_0000_0000;

fn word_at(stack: &[Option<u64>], address: u64) -> Result<u64, ()> {
    let offset = address.checked_sub(STACK).filter(|offset| offset % 8 == 0).ok_or(())?;
    stack.get(offset as usize / 8).copied().flatten().ok_or(())
}

/// What a walk shows: each frame with its registers, the words that were asked for up to there, and how it ended.
type Shown<R> = (Vec<(u64, R, usize)>, Result<Option<u64>, Error>, Vec<u64>);

/// How a walk by an iterator is made.
#[derive(Clone, Copy, Debug)]
enum Way {
    /// A frame is found when it is asked for.
    Lazily,
    /// Frames are found ahead, and registers are asked for at each frame whose number a multiple of this is.
    Ahead(usize),
}

/// Walks with the iterator, and after an error once more from the frame where it is. Where registers are not asked for, those
/// of the frame before are shown.
fn by_iterator<U: Unwinder<UnwindRegs: Copy>>(
    way: Way,
    unwinder: &U,
    regs: U::UnwindRegs,
    cache: &mut U::Cache,
    stack: &[Option<u64>],
) -> Shown<U::UnwindRegs> {
    let asked = RefCell::new(Vec::new());
    let mut read_stack = |address: u64| {
        asked.borrow_mut().push(address);
        word_at(stack, address)
    };
    let (mut iter, apart) = match way {
        Way::Lazily => (unwinder.iter_frames_lazily(0x7fff, regs, cache, &mut read_stack), 1),
        Way::Ahead(apart) => (unwinder.iter_frames(0x7fff, regs, cache, &mut read_stack), apart),
    };
    let mut frames: Vec<(u64, U::UnwindRegs, usize)> = Vec::new();
    let end = loop {
        match iter.next() {
            Ok(Some(frame)) => {
                let regs = if frames.len() % apart == 0 { *iter.regs() } else { frames[frames.len() - 1].1 };
                frames.push((frame.address(), regs, asked.borrow().len()));
            }
            Ok(None) => break Ok(None),
            Err(error) => break Err(error),
        }
    };
    let last = frames.len() - 1;
    frames[last].1 = *iter.regs();
    assert_eq!(iter.next().map(|it| it.map(FrameAddress::address)), end);
    assert!(end.is_err() || iter.next() == Ok(None));
    (frames, end, asked.into_inner())
}

/// What a walk shows in its way, of all that single steps show.
fn shown_by<R: Copy>(way: Way, steps: &Shown<R>) -> Shown<R> {
    let (mut frames, end, asked) = steps.clone();
    if let Way::Ahead(apart) = way {
        let last = frames.len() - 1;
        for at in 0..last {
            frames[at].1 = frames[at - at % apart].1;
        }
    }
    (frames, end, asked)
}

/// Asserts that a walk by an iterator shows what single steps do. Where it finds frames ahead, their words are asked for
/// earlier, of at most 15 frames.
fn assert_shows<R: Copy + PartialEq + std::fmt::Debug>(way: Way, shown: &Shown<R>, steps: &Shown<R>, walk: usize) {
    let mut wanted = shown_by(way, steps);
    if let Way::Ahead(_) = way {
        for at in 0..wanted.0.len() {
            let most = steps.0.get(at + 15).map_or(steps.2.len(), |frame| frame.2);
            assert!((wanted.0[at].2..=most).contains(&shown.0[at].2), "in walk {walk}, {way:?}, at frame {at}");
            wanted.0[at].2 = shown.0[at].2;
        }
    }
    assert_eq!(*shown, wanted, "in walk {walk}, {way:?}");
}

/// The same by single steps.
fn by_steps<U: Unwinder<UnwindRegs: Copy>>(
    unwinder: &U,
    mut regs: U::UnwindRegs,
    cache: &mut U::Cache,
    stack: &[Option<u64>],
) -> Shown<U::UnwindRegs> {
    let asked = RefCell::new(Vec::new());
    let mut read_stack = |address: u64| {
        asked.borrow_mut().push(address);
        word_at(stack, address)
    };
    let mut frames = vec![(0x7fff, regs, 0)];
    let mut frame = FrameAddress::from_instruction_pointer(0x7fff);
    let end = loop {
        match unwinder.unwind_frame(frame, &mut regs, cache, &mut read_stack) {
            Ok(Some(address)) => {
                frames.push((address, regs, asked.borrow().len()));
                frame = FrameAddress::from_return_address(address).unwrap();
            }
            end => break end,
        }
    };
    if end.is_err() {
        assert_eq!(unwinder.unwind_frame(frame, &mut regs, cache, &mut read_stack), end);
    }
    (frames, end, asked.into_inner())
}

/// A stack of words that lead from frame to frame for a while: values of the frame pointer a little above, return addresses, and
/// words that can't be read.
fn random_stack(numbers: &mut Numbers) -> Vec<Option<u64>> {
    let word = |at: u64| match numbers.below(64) {
        0 => None,
        1 => Some(0),
        2..30 => Some(STACK + 8 * (at + 1 + numbers.below(6))),
        _ => Some(0x10080 + 0x100 * numbers.below(12)),
    };
    (0..256).map(word).collect()
}

const WAYS: [Way; 4] = [Way::Lazily, Way::Ahead(1), Way::Ahead(3), Way::Ahead(usize::MAX)];

/// Also where the words of a frame are known from an earlier walk, the iterator shows what single steps do: frames, registers,
/// the words that are asked for in their order, and counts. Modules come and go meanwhile.
#[test]
fn iterates_as_single_steps_do() {
    let mut numbers = Numbers(1);
    let (mut unwinder, mut cache, mut others) =
        (UnwinderX86_64::<Vec<u8>>::new(), CacheX86_64::new(), CacheX86_64::new());
    unwinder.add_module(pops_rbx_at(0x10800));
    unwinder.add_module(saves_rbp_above_at(0x10900));
    unwinder.add_module(pops_at(0x10a00));
    unwinder.add_module(expression_at(0x10b00));
    let mut longest = 0;
    for walk in 0..20_000 {
        if walk % 1000 == 0 {
            for at in 0..8 {
                unwinder.remove_module(0x10000 + 0x100 * at);
                let mode = 0x0100_0000 * (1 + numbers.below(2) as u32);
                let (size, pops, order) = (numbers.below(4) + 7, numbers.below(7), numbers.below(6));
                let opcode = mode | (size << 16 | pops << 10 | order) as u32;
                unwinder.add_module(compact_at(0x10000 + 0x100 * at, opcode));
            }
        }
        let stack = random_stack(&mut numbers);
        let (sp, fp) = (STACK + 8 * numbers.below(4), STACK + 8 * numbers.below(12));
        let mut regs = UnwindRegsX86_64::new(0x7fff, sp, fp);
        regs.set(Reg::RBX, numbers.below(1000));
        let way = WAYS[walk % WAYS.len()];
        let shown = by_iterator(way, &unwinder, regs, &mut cache, &stack);
        assert_shows(way, &shown, &by_steps(&unwinder, regs, &mut others, &stack), walk);
        assert_eq!(cache.stats(), others.stats(), "in walk {walk}");
        longest = longest.max(shown.0.len());
    }
    assert!(longest > 12, "{longest}");
}

/// The same on aarch64, by frame records, and by modules that come and go.
#[test]
fn iterates_as_single_steps_do_on_aarch64() {
    let mut numbers = Numbers(2);
    let mut unwinder = UnwinderAarch64::<Vec<u8>>::new();
    let (mut cache, mut others) = (CacheAarch64::new(), CacheAarch64::new());
    let mut longest = 0;
    for walk in 0..10_000 {
        if walk % 500 == 0 {
            for at in 0..8 {
                unwinder.remove_module(0x10000 + 0x100 * at);
                let (size, lr) = (16 * (1 + numbers.below(3)), 1 + numbers.below(2));
                let fp = (numbers.below(3) > 0).then_some(3 - lr);
                unwinder.add_module(saves_at(0x10000 + 0x100 * at, size, lr, fp));
            }
        }
        let mut stack = random_stack(&mut numbers);
        for word in stack.iter_mut().skip(1).step_by(2) {
            *word = word.map(|word| if word >= STACK { 0xab00_0000_0001_0080 } else { word });
        }
        let (sp, fp) = (STACK + 8 * numbers.below(4), STACK + 16 * numbers.below(6));
        let mask = PtrAuthMask::new_24_40();
        let regs = UnwindRegsAarch64::new_with_ptr_auth_mask(mask, 0x10080, sp, fp);
        let way = WAYS[walk % WAYS.len()];
        let shown = by_iterator(way, &unwinder, regs, &mut cache, &stack);
        assert_shows(way, &shown, &by_steps(&unwinder, regs, &mut others, &stack), walk);
        assert_eq!(cache.stats(), others.stats(), "in walk {walk}");
        longest = longest.max(shown.0.len());
    }
    assert!(longest > 12, "{longest}");
}

/// A module of 256 bytes with a function of a PE file that pushes rbx and lowers rsp by 8.
fn pops_rbx_at(start: u64) -> Module<Vec<u8>> {
    let pdata = [0u32, 0x100, 0x3000].iter().flat_map(|it| it.to_le_bytes()).collect();
    let xdata = vec![0x01, 0x08, 2, 0, 0x08, 0x02, 0x01, 0x30];
    Module::new("m".into(), start..start + 0x100, start, Pe { pdata: Some(pdata), xdata: Some(xdata) })
}

/// A rule pops one register, which a step can't tell from the frame pointer where both are the same. The frame after it goes by
/// the frame pointer.
#[test]
fn keeps_the_frame_pointer_where_a_like_word_is_popped() {
    let mut unwinder = UnwinderX86_64::<Vec<u8>>::new();
    unwinder.add_module(pops_rbx_at(0x10000));
    let (mut cache, mut others) = (CacheX86_64::new(), CacheX86_64::new());
    let next = STACK + 8 * 8;
    for rbx in [next, next, 7, STACK + 8 * 12, next] {
        // a frame record, two frames that pop rbx, and records, the first of which is next
        let mut stack = vec![next, 0x10080, 1, rbx, 0x10080, 1, rbx, 0x20000];
        stack.extend((0..6).flat_map(|i| [next + 32 * (i + 1), 0x20010 + i, 0, 0]));
        let stack: Vec<_> = stack.into_iter().chain([0; 2]).map(Some).collect();
        for way in [Way::Lazily, Way::Lazily, Way::Ahead(usize::MAX), Way::Ahead(usize::MAX), Way::Ahead(2)] {
            let regs = UnwindRegsX86_64::new(0x7fff, STACK - 16, STACK);
            let shown = by_iterator(way, &unwinder, regs, &mut cache, &stack);
            assert_shows(way, &shown, &by_steps(&unwinder, regs, &mut others, &stack), rbx as usize);
            assert_eq!(cache.stats(), others.stats(), "{rbx:x}, {way:?}");
            assert_eq!((shown.0.len(), shown.1), (10, Ok(None)));
        }
    }
}

/// A stack of linked frame records from [`STACK`] on, and the index of the first word of each record but the first.
fn linked(count: u64) -> Vec<Option<u64>> {
    let record = |i: u64| [STACK + 32 * (i + 1), 0x20000 + 16 * i, i, i];
    let mut stack: Vec<_> = (0..count).flat_map(record).map(Some).collect();
    stack.extend([Some(0); 4]);
    stack
}

/// Walks of up to 70 frames by frame records, over a cache that knows where their words are: each one that ends by a word that
/// can't be read, by a frame pointer that does not rise, or at the root, at each of its frames.
#[test]
fn ends_at_the_same_frame() {
    fn ends<U: Unwinder<UnwindRegs: Copy + PartialEq + std::fmt::Debug>>(
        unwinder: &U,
        regs: U::UnwindRegs,
        (cache, others): (&mut U::Cache, &mut U::Cache),
        stats: impl Fn(&U::Cache) -> CacheStats,
    ) {
        let whole = linked(70);
        for _ in 0..3 {
            let _ = by_iterator(Way::Lazily, unwinder, regs, cache, &whole);
            let _ = by_steps(unwinder, regs, others, &whole);
        }
        for at in 0..4 * 36 {
            for word in [None, Some(0), Some(STACK), Some(STACK + 8 * (at as u64 & !3)), Some(5)] {
                let mut stack = whole.clone();
                stack[at] = word;
                for way in WAYS {
                    let shown = by_iterator(way, unwinder, regs, cache, &stack);
                    assert_shows(way, &shown, &by_steps(unwinder, regs, others, &stack), at);
                    assert_eq!(stats(cache), stats(others), "at {at}, {word:?}, {way:?}");
                }
            }
        }
    }
    let mut caches = (CacheX86_64::new(), CacheX86_64::new());
    let regs = UnwindRegsX86_64::new(0x7fff, STACK - 16, STACK);
    ends(&UnwinderX86_64::<Vec<u8>>::new(), regs, (&mut caches.0, &mut caches.1), CacheX86_64::stats);
    let mut caches = (CacheAarch64::new(), CacheAarch64::new());
    let regs = UnwindRegsAarch64::new(0x7fff, STACK - 16, STACK);
    ends(&UnwinderAarch64::<Vec<u8>>::new(), regs, (&mut caches.0, &mut caches.1), CacheAarch64::stats);
}

/// A walk that is left after each number of frames: the registers are those of the last one, and the words that were asked for
/// are the first ones that single steps ask for, those of at most 15 frames ahead; of none where frames are found lazily.
#[test]
fn is_left_after_each_frame() {
    let stack = linked(80);
    let unwinder = UnwinderX86_64::<Vec<u8>>::new();
    let (mut cache, mut others) = (CacheX86_64::new(), CacheX86_64::new());
    let regs = UnwindRegsX86_64::new(0x7fff, STACK - 16, STACK);
    for _ in 0..2 {
        let _ = by_iterator(Way::Lazily, &unwinder, regs, &mut cache, &stack);
    }
    let (frames, _, all) = by_steps(&unwinder, regs, &mut others, &stack);
    let runs = [0, 1, 3, 7, 15, 31, 47, 63];
    for count in 1..=70 {
        for is_lazy in [false, true] {
            let before = cache.stats().total();
            let asked = RefCell::new(Vec::new());
            let mut read_stack = |address: u64| {
                asked.borrow_mut().push(address);
                word_at(&stack, address)
            };
            let mut iter = match is_lazy {
                true => unwinder.iter_frames_lazily(0x7fff, regs, &mut cache, &mut read_stack),
                false => unwinder.iter_frames(0x7fff, regs, &mut cache, &mut read_stack),
            };
            for frame in &frames[..count] {
                assert_eq!(iter.next().map(|it| it.map(FrameAddress::address)), Ok(Some(frame.0)));
            }
            assert_eq!(*iter.regs(), frames[count - 1].1, "after {count} frames");
            let found = if is_lazy { count - 1 } else { *runs.iter().find(|&&run| run >= count - 1).unwrap_or(&79) };
            assert_eq!(asked.into_inner(), all[..2 * found], "after {count} frames");
            assert_eq!(cache.stats().total() - before, found as u64, "after {count} frames");
        }
    }
}

/// A word that can't be read ends a walk at its frame only, and is asked for anew by the next call.
#[test]
fn goes_on_where_a_word_can_be_read_later() {
    let stack = linked(40);
    let unwinder = UnwinderX86_64::<Vec<u8>>::new();
    let mut cache = CacheX86_64::new();
    let regs = UnwindRegsX86_64::new(0x7fff, STACK - 16, STACK);
    for _ in 0..2 {
        let _ = by_iterator(Way::Lazily, &unwinder, regs, &mut cache, &stack);
    }
    for at in 0..80 {
        let missing = STACK + 32 * (at / 2) + 8 * (at % 2);
        let refusals = Cell::new(2);
        let mut read_stack = |address: u64| {
            if address == missing && refusals.get() > 0 {
                refusals.set(refusals.get() - 1);
                return Err(());
            }
            word_at(&stack, address)
        };
        let mut iter = unwinder.iter_frames(0x7fff, regs, &mut cache, &mut read_stack);
        let (mut frames, mut errors) = (0, 0);
        loop {
            match iter.next() {
                Ok(Some(_)) => frames += 1,
                Ok(None) => break,
                Err(error) => {
                    assert_eq!((error, frames), (Error::CouldNotReadStack(missing), at / 2 + 1));
                    errors += 1;
                }
            }
        }
        assert_eq!((frames, errors), (41, 2));
    }
}

/// A callback that panics while frames are found ahead leaves the iterator at its frame.
#[test]
fn comes_through_a_panic_ahead() {
    let stack = linked(40);
    let unwinder = UnwinderX86_64::<Vec<u8>>::new();
    let mut cache = CacheX86_64::new();
    let regs = UnwindRegsX86_64::new(0x7fff, STACK - 16, STACK);
    for _ in 0..2 {
        let _ = by_iterator(Way::Lazily, &unwinder, regs, &mut cache, &stack);
    }
    let hook = std::panic::take_hook();
    std::panic::set_hook(Box::new(|_| {}));
    let mut panics = 0;
    for at in 0..80 {
        let is_armed = Cell::new(true);
        let mut read_stack = |address: u64| {
            if address == STACK + 32 * (at / 2) + 8 * (at % 2) && is_armed.replace(false) {
                panic!();
            }
            word_at(&stack, address)
        };
        let mut iter = unwinder.iter_frames(0x7fff, regs, &mut cache, &mut read_stack);
        let mut frames = 0;
        loop {
            match std::panic::catch_unwind(std::panic::AssertUnwindSafe(|| iter.next())) {
                Ok(Ok(Some(_))) => frames += 1,
                Ok(end) => break assert_eq!(end, Ok(None)),
                Err(_) => panics += 1,
            }
        }
        assert_eq!(frames, 41);
    }
    std::panic::set_hook(hook);
    assert_eq!(panics, 80);
}

/// The names that are asked for, in their order.
#[derive(Default)]
struct Asked {
    has: Vec<&'static [u8]>,
    names: Rc<RefCell<Vec<String>>>,
}

impl Asked {
    fn ask(&mut self, kind: &str, name: &[u8]) -> bool {
        self.names.borrow_mut().push(format!("{kind} {}", String::from_utf8_lossy(name)));
        self.has.contains(&name)
    }
}

impl ModuleSectionInfo<Vec<u8>> for Asked {
    fn base_svma(&self) -> u64 {
        0
    }

    fn section_svma_range(&mut self, name: &[u8]) -> Option<Range<u64>> {
        self.ask("range", name).then_some(0..8)
    }

    fn section_data(&mut self, name: &[u8]) -> Option<Vec<u8>> {
        self.ask("data", name).then(Vec::new)
    }

    fn segment_svma_range(&mut self, name: &[u8]) -> Option<Range<u64>> {
        self.ask("segment range", name).then_some(0..8)
    }

    fn segment_data(&mut self, name: &[u8]) -> Option<Vec<u8>> {
        self.ask("segment data", name).then(Vec::new)
    }
}

fn asked(has: &[&'static [u8]]) -> Vec<String> {
    let names = Rc::new(RefCell::new(Vec::new()));
    let info = Asked { has: has.to_vec(), names: names.clone() };
    let module = Module::new("name".into(), 1..3, 2, info);
    assert_eq!((module.name(), module.avma_range(), module.base_avma()), ("name", 1..3, 2));
    let clone = module.clone();
    assert_eq!(format!("{clone:?}"), r#"Module { name: "name", avma_range: 0x1..0x3, base_avma: 0x2 }"#);
    names.take()
}

#[test]
fn asks_for_sections_in_use() {
    let kinds = ["data __unwind_info", "data .pdata", "data .eh_frame", "data __eh_frame", "data .debug_frame"];
    assert_eq!(asked(&[]), kinds);
    assert_eq!(asked(&[b".text", b"__text", b"__TEXT", b".rdata"]), kinds);
    let bases = ["range __eh_frame", "range __eh_frame_hdr", "range __got", "range __text"];
    assert_eq!(
        asked(&[b".eh_frame", b".eh_frame_hdr", b"__eh_frame", b"__eh_frame_hdr", b"__got", b"__text"]),
        [&kinds[..3], &["data .eh_frame_hdr"], &bases].concat()
    );
    let pe = ["range .rdata", "data .rdata", "range .xdata", "range .text", "data .text"];
    assert_eq!(asked(&[b".pdata", b".rdata", b".text"]), [&kinds[..2], &pe].concat());
    let compact = ["data __eh_frame", "range __stubs", "range __stub_helper", "segment data __TEXT"];
    let in_segment = ["segment range __TEXT", "range __text"];
    assert_eq!(
        asked(&[b"__unwind_info", b"__TEXT", b"__text", b"__eh_frame", b"__eh_frame_hdr", b"__got"]),
        [&kinds[..1], &compact, &in_segment, &bases[..3]].concat()
    );
}

/// Bytes in a type of our own, which says when it is dropped.
struct Own<'a>(Box<[u8]>, &'a Cell<usize>);

impl Deref for Own<'_> {
    type Target = [u8];

    fn deref(&self) -> &[u8] {
        &self.0
    }
}

impl Drop for Own<'_> {
    fn drop(&mut self) {
        self.1.set(self.1.get() + 1);
    }
}

/// Data of other types than std's owned bytes, which is dropped with the last unwinder that has it.
#[test]
fn keeps_data_of_own_types() {
    let dropped = Cell::new(0);
    let data = Own(Box::new([0; 4]), &dropped);
    let info = ExplicitModuleSectionInfo { debug_frame: Some(data), ..Default::default() };
    let module = Module::new(String::new(), 0x1000..0x2000, 0x1000, info);
    let mut unwinder = UnwinderAarch64::<_>::new();
    unwinder.add_module(module.clone());
    let mut clone = unwinder.clone();
    drop(module);
    unwinder.remove_module(0x1000);
    drop(unwinder);
    assert_eq!((clone.max_known_code_address(), dropped.get()), (0x2000, 0));
    clone.remove_module(0x1000);
    assert_eq!((clone.max_known_code_address(), dropped.get()), (0, 1));

    let info = ExplicitModuleSectionInfo { eh_frame: Some(Cow::Borrowed(&[0u8; 4][..])), ..Default::default() };
    let mut unwinder = UnwinderX86_64::<Cow<[u8]>>::new();
    assert_eq!(unwinder.try_add_module(Module::new(String::new(), 1..2, 1, info)), Ok(()));
    assert_eq!(unwinder.try_remove_module(1), Ok(()));
}

/// A callback that panics leaves the registers, and the next step is as if it had not been called.
#[test]
fn comes_through_a_panic() {
    let unwinder = UnwinderX86_64::<Vec<u8>>::new();
    let mut cache = CacheX86_64::new();
    let mut regs = UnwindRegsX86_64::new(0x7fff, 16, 16);
    let before = regs;
    let pc = FrameAddress::from_instruction_pointer(0x7fff);
    let hook = std::panic::take_hook();
    std::panic::set_hook(Box::new(|_| {}));
    let panics = std::panic::catch_unwind(std::panic::AssertUnwindSafe(|| {
        unwinder.unwind_frame(pc, &mut regs, &mut cache, &mut |address| if address == 16 { Ok(32) } else { panic!() })
    }));
    std::panic::set_hook(hook);
    assert!(panics.is_err());
    assert_eq!(regs, before);
    let stack = records();
    let mut read_stack = |address: u64| stack.get(address as usize / 8).copied().ok_or(());
    assert_eq!(unwinder.unwind_frame(pc, &mut regs, &mut cache, &mut read_stack), Ok(Some(0x7000)));
    assert_eq!((regs.ip(), regs.sp(), regs.bp()), (0x7000, 32, 32));
}

/// The texts of framehop's own types.
#[test]
fn prints_as_the_original() {
    let mut regs = UnwindRegsX86_64::new(0x10, 0x18, 0x17);
    for (value, reg) in (0x20..).zip([Reg::RAX, Reg::RDX, Reg::RCX, Reg::RBX, Reg::RSI, Reg::RDI, Reg::R8, Reg::R15]) {
        regs.set(reg, value);
    }
    assert_eq!(
        format!("{regs:?}"),
        "UnwindRegsX86_64 { ip: 10, rax: 20, rdx: 21, rcx: 22, rbx: 23, rsi: 24, rdi: 25, rbp: 17, rsp: 18, r8: 26, \
         r9: 0, r10: 0, r11: 0, r12: 0, r13: 0, r14: 0, r15: 27 }"
    );
    let mut regs = UnwindRegsAarch64::new_with_ptr_auth_mask(PtrAuthMask::new_24_40(), u64::MAX, 0x2f, 0x3f);
    assert_eq!(format!("{regs:?}"), "UnwindRegsAarch64 { lr: ffffffffff, sp: 2f, fp: 3f }");
    regs.set_lr(0xab00_0000_0000_2000);
    assert_eq!((regs.lr(), regs.lr_mask()), (0x2000, PtrAuthMask(0xff_ffff_ffff)));
    assert_eq!(format!("{:?}", FrameAddress::from_instruction_pointer(1)), "InstructionPointer(1)");
    let errors = [
        (Error::CouldNotReadStack(0xab), "Could not read stack memory at 0xab"),
        (Error::FramepointerUnwindingMovedBackwards, "Frame pointer unwinding moved backwards"),
        (Error::DidNotAdvance, "Neither the code address nor the stack pointer changed, would loop"),
        (Error::IntegerOverflow, "Unwinding caused integer overflow"),
        (Error::ReturnAddressIsNull, "Return address is null"),
        (Error::OutOfMemory, "Out of memory"),
    ];
    for (error, text) in errors {
        assert_eq!(error.to_string(), text);
    }
}

/// framehop's names for the architecture at hand, and an iterator that is made by hand.
#[test]
fn has_the_native_names() {
    let unwinder = UnwinderNative::<&[u8], MayAllocateDuringUnwind>::new();
    let mut cache = CacheNative::<MayAllocateDuringUnwind>::new();
    let regs: UnwindRegsNative = UnwindRegsNative::new(0x10, 0x20, 0x30);
    let mut read_stack = |_| Err(());
    let mut iter = UnwindIterator::new(&unwinder, 0x10, regs, &mut cache, &mut read_stack);
    assert_eq!(iter.next(), Ok(Some(FrameAddress::InstructionPointer(0x10))));
    assert!(iter.next().is_err());
    assert_eq!(iter.regs(), &regs);
}

#[test]
fn has_the_version_of_its_archive() {
    let [major, minor, patch] = framehop_rattle::archive_version();
    assert_eq!(format!("{major}.{minor}.{patch}"), env!("CARGO_PKG_VERSION"));
}
