//! What unwinders of all architectures have.
use crate::iterator::{Run, UnwindIterator};
use crate::layouts::{Layouts, Pointers};
use crate::words::{Chunks, Known, RunWords, Words};
use crate::{CacheStats, Error, FrameAddress, ModuleListError, raw};
use std::cell::Cell;
use std::num::NonZeroU64;

/// An unwinder for one architecture: the modules of one process, and unwinding by them.
pub trait Unwinder: Clone {
    /// The registers that unwinding needs.
    type UnwindRegs;

    /// A cache of the unwinder's policy.
    type Cache;

    /// A module whose sections the unwinder can hold.
    type Module;

    /// Adds a module.
    ///
    /// # Panics
    ///
    /// Where memory or generations run out; `try_add_module` returns that.
    fn add_module(&mut self, module: Self::Module);

    /// Removes the newest module that starts at the address (AVMA), if there is one.
    ///
    /// # Panics
    ///
    /// Where generations run out, after 2^64 - 1 changes of modules; `try_remove_module` returns that.
    fn remove_module(&mut self, module_avma_range_start: u64);

    /// Returns the greatest end of a module (AVMA), or 0.
    fn max_known_code_address(&self) -> u64;

    /// Unwinds a single frame: returns its return address (AVMA), or `None` at the root of the stack. The callback
    /// reads the stack word at an address (AVMA), each at most once. The registers become the caller's; at the root and
    /// after an error they are as before.
    fn unwind_frame<F>(
        &self,
        address: FrameAddress,
        regs: &mut Self::UnwindRegs,
        cache: &mut Self::Cache,
        read_stack: &mut F,
    ) -> Result<Option<u64>, Error>
    where
        F: FnMut(u64) -> Result<u64, ()>;

    /// Finds the next frames from one on for an iterator. The registers become those of the last one.
    #[doc(hidden)]
    fn find_run<F>(
        &self,
        from: FrameAddress,
        regs: &mut Self::UnwindRegs,
        cache: &mut Self::Cache,
        run: &mut Run<Self::UnwindRegs>,
        read_stack: &mut F,
    ) where
        F: FnMut(u64) -> Result<u64, ()>,
    {
        run.add(self.unwind_frame(from, regs, cache, read_stack));
    }

    /// Returns the registers of the frame of a run that was handed out last, where others follow it.
    #[doc(hidden)]
    fn regs_in_run(&self, _cache: &Self::Cache, _run: &Run<Self::UnwindRegs>) -> Self::UnwindRegs {
        unreachable!("a run of one frame ends with that frame")
    }

    /// Returns an iterator over the frames of a stack, from an instruction pointer (AVMA) and its registers on.
    ///
    /// It finds frames ahead, in runs of 1, 2, 4, 8 and then 16, and hands them out one by one. Who goes on to the end sees
    /// what single steps show: frames, errors, registers, the words that the callback is asked for in their order, and the
    /// cache's counts. Who stops earlier may find that the callback was asked for the words of at most 15 frames more, and
    /// the lookups of these are counted. [`Unwinder::iter_frames_lazily`] asks for nothing ahead.
    fn iter_frames<'u, 'c, 'r, F>(
        &'u self,
        pc: u64,
        regs: Self::UnwindRegs,
        cache: &'c mut Self::Cache,
        read_stack: &'r mut F,
    ) -> UnwindIterator<'u, 'c, 'r, Self, F>
    where
        F: FnMut(u64) -> Result<u64, ()>,
    {
        UnwindIterator::new(self, pc, regs, cache, read_stack)
    }

    /// Returns an iterator as [`Unwinder::iter_frames`] does, which finds each frame when it is asked for that frame: where
    /// it is left, the callback was asked for no word of a further one. It takes about twice as long.
    fn iter_frames_lazily<'u, 'c, 'r, F>(
        &'u self,
        pc: u64,
        regs: Self::UnwindRegs,
        cache: &'c mut Self::Cache,
        read_stack: &'r mut F,
    ) -> UnwindIterator<'u, 'c, 'r, Self, F>
    where
        F: FnMut(u64) -> Result<u64, ()>,
    {
        UnwindIterator::new(self, pc, regs, cache, read_stack).lazily()
    }
}

/// One try of a step from a frame by the archive, over windows, of one that tells the words ahead, and of a walk into a list;
/// and the counts of its cache.
pub(crate) trait Step<R> {
    fn step(&self, from: FrameAddress, regs: &mut R, windows: &[raw::Window], told: &mut raw::Step) -> i32;

    fn next(&self, from: FrameAddress, regs: &mut R, windows: &[raw::Window], told: &mut raw::Next) -> i32;

    fn walk(
        &self,
        from: FrameAddress,
        regs: &mut R,
        windows: &[raw::Window],
        frames: &mut [u64],
        told: &mut raw::Walk,
    ) -> i32;

    fn counts(&self) -> CacheStats;
}

/// A frame of an iterator.
#[derive(Clone, Copy)]
pub(crate) struct Frame {
    pub address: FrameAddress,
    /// The list of modules, or 0.
    pub modules: u32,
}

/// What a cache keeps beside the archive's.
pub(crate) struct Kept {
    pub tries: Tries,
    pub layouts: Layouts,
    /// The words of the last run.
    pub run_words: RunWords,
    /// The lookups by which registers in a run were found again.
    pub shown_again: Cell<CacheStats>,
}

/// The words of the steps that are tried again for a missing one, and the lookups that the archive has counted for tries.
pub(crate) struct Tries {
    pub words: Words,
    pub recounted: CacheStats,
}

impl Kept {
    pub fn new(may_allocate: bool) -> Result<Self, ModuleListError> {
        let tries = Tries { words: Words::new(may_allocate)?, recounted: CacheStats::default() };
        Ok(Kept { tries, layouts: Layouts::new()?, run_words: RunWords::new(), shown_again: Cell::default() })
    }

    /// The counts of the archive's cache without those of lookups that were only made again.
    pub fn counted(&self, counts: &CacheStats) -> CacheStats {
        counts.minus(&self.tries.recounted).minus(&self.shown_again.get())
    }
}

/// Steps from a frame until no word is missing. A step that asks for a word of which no window tells has gone on without it,
/// so its answer may be another than that with the word: the registers are put back, and the step is made again.
#[inline(always)]
pub(crate) fn step_with<R: Copy>(
    step: &impl Step<R>,
    from: FrameAddress,
    regs: &mut R,
    tries: &mut Tries,
    read_stack: &mut impl FnMut(u64) -> Result<u64, ()>,
) -> Result<Option<u64>, Error> {
    let before = *regs;
    let mut told = raw::Step::default();
    let mut status = step.step(from, regs, &[], &mut told);
    if told.has_missing {
        *regs = before;
        status = step_over(step, from, regs, tries, &mut told, read_stack)?;
    }
    match status {
        raw::OK => Ok(Some(told.return_address)),
        raw::END => Ok(None),
        _ => Err(Error::of_status(status, told.unreadable)),
    }
}

/// Steps until no word is missing, the registers put back before each try. What the cache counts again is added to
/// `recounted`.
#[cold]
fn step_over<R: Copy>(
    step: &impl Step<R>,
    from: FrameAddress,
    regs: &mut R,
    tries: &mut Tries,
    told: &mut raw::Step,
    read_stack: &mut impl FnMut(u64) -> Result<u64, ()>,
) -> Result<i32, Error> {
    let Tries { words, recounted } = tries;
    let before = *regs;
    let mut old = step.counts();
    words.set(&Known::NONE)?;
    loop {
        words.push(told.missing, read_stack(told.missing).ok())?;
        let status = step.step(from, regs, words.windows(), told);
        let new = step.counts();
        *recounted = recounted.plus(&new.minus(&old));
        old = new;
        if !told.has_missing {
            return Ok(status);
        }
        *regs = before;
    }
}

/// Registers by which it is known where a frame's words are.
pub trait FrameWords: Copy {
    fn pointers(&self) -> Pointers;

    /// Returns whether a step that restores the frame pointer can't be refused, nor end the walk, for what it was and becomes.
    fn leads_on(frame_pointer: u64, caller_frame_pointer: u64) -> bool;

    /// Returns what is of the words of a frame record, in the order in which they are asked for, in the order of their addresses.
    fn upwards<T>(asked: [T; 2]) -> [T; 2];

    /// Returns the return address (AVMA) that is read by a rule which asks for these words first and last.
    fn return_address(&self, words: [u64; 2]) -> u64;

    /// Returns the address (AVMA) from which a frame's words are read, by that of the first one that is missing.
    fn words_from(&self, missing: u64) -> u64;
}

/// Walks on from an instruction pointer (AVMA) until no word is missing. The words of frames that are unwound are let go.
pub(crate) fn walk_with<R: FrameWords>(
    step: &impl Step<R>,
    pc: u64,
    regs: &mut R,
    read_words: &mut impl FnMut(u64, &mut [u64]) -> usize,
    frames: &mut [u64],
) -> (usize, Result<bool, Error>) {
    let Some(first) = frames.first_mut() else { return (0, Ok(false)) };
    *first = pc;
    let mut chunks = Chunks::new();
    let mut told = raw::Walk::default();
    let mut count = 1;
    loop {
        let (found, rest) = frames.split_at_mut(count);
        let from = match NonZeroU64::new(found[count - 1]) {
            Some(address) if count > 1 => FrameAddress::ReturnAddress(address),
            _ => FrameAddress::from_instruction_pointer(pc),
        };
        let status = step.walk(from, regs, chunks.windows(), rest, &mut told);
        if told.frame_count > 0 {
            chunks.clear();
        }
        count += told.frame_count;
        if status != raw::MISSING_WORD {
            told.frame_count = count;
            return end_of(status, &told);
        }
        let from = if chunks.is_empty() { regs.words_from(told.unreadable) } else { told.unreadable };
        if !chunks.read(from, read_words) {
            return (count, Err(Error::CouldNotReadStack(told.unreadable)));
        }
    }
}

/// How a walk ended, in the words of `walk_into`.
pub(crate) fn end_of(status: i32, told: &raw::Walk) -> (usize, Result<bool, Error>) {
    let end = match status {
        raw::END => Ok(true),
        raw::FRAMES_FULL => Ok(false),
        _ => Err(Error::of_status(status, told.unreadable)),
    };
    (told.frame_count, end)
}

/// The unwinder and the cache of an architecture.
macro_rules! unwinder {
    ($unwinder:ident, $cache:ident, $regs:ident, $cache_new:ident, $cache_stats:ident, $new:ident, $clone:ident,
        $add_module:ident, $remove_module:ident, $max_known_code_address:ident, $walk:ident, $unwind_frame:ident, $walk_on:ident,
        $next_frame:ident) => {
        /// A cache of unwind rules, for all unwinders of a thread that have its policy.
        pub struct $cache<P: AllocationPolicy = MayAllocateDuringUnwind> {
            cache: Owned,
            kept: Kept,
            policy: PhantomData<P>,
        }

        impl $cache<MayAllocateDuringUnwind> {
            /// An empty cache.
            ///
            /// # Panics
            ///
            /// Where memory runs out.
            pub fn new() -> Self {
                Self::new_in()
            }
        }

        impl<P: AllocationPolicy> Default for $cache<P> {
            fn default() -> Self {
                Self::new_in()
            }
        }

        impl<P: AllocationPolicy> $cache<P> {
            /// An empty cache of any policy.
            ///
            /// # Panics
            ///
            /// Where memory runs out; `try_new_in` returns that.
            pub fn new_in() -> Self {
                Self::try_new_in().expect("out of memory")
            }

            /// An empty cache of any policy, unless memory runs out.
            pub fn try_new_in() -> Result<Self, ModuleListError> {
                let kept = Kept::new(P::MAY_ALLOCATE)?;
                // SAFETY: the place is lent for the call
                let cache = Owned::new(|place| unsafe { raw::$cache_new(P::MAY_ALLOCATE, place) })?;
                Ok($cache { cache, kept, policy: PhantomData })
            }

            /// Returns how many lookups hit and missed: one a frame, and one more for each time that `walk_with` has asked
            /// for words.
            pub fn stats(&self) -> CacheStats {
                self.kept.counted(&counts(&self.cache))
            }
        }

        /// All lookups that the archive has counted.
        fn counts(cache: &Owned) -> CacheStats {
            let mut stats = CacheStats::default();
            // SAFETY: a cache of this architecture, which the call leaves as it is
            let status = unsafe { raw::$cache_stats(&mut cache.handle(), &mut stats) };
            assert_eq!(status, raw::OK);
            stats
        }

        /// An unwinder and a cache of one policy.
        struct Pair<'a> {
            unwinder: &'a Owned,
            cache: &'a Owned,
        }

        impl Step<$regs> for Pair<'_> {
            #[inline]
            fn step(&self, from: FrameAddress, regs: &mut $regs, windows: &[raw::Window], told: &mut raw::Step) -> i32 {
                // SAFETY: an unwinder and a cache of one policy, and windows that are lent for the call. The callback
                // is not called meanwhile.
                unsafe {
                    raw::$unwind_frame(
                        &mut self.unwinder.handle(),
                        &mut self.cache.handle(),
                        from.address(),
                        from.is_return_address(),
                        &mut regs.0,
                        windows.as_ptr(),
                        windows.len(),
                        told,
                    )
                }
            }

            fn next(&self, from: FrameAddress, regs: &mut $regs, windows: &[raw::Window], told: &mut raw::Next) -> i32 {
                // SAFETY: as above
                unsafe {
                    raw::$next_frame(
                        &mut self.unwinder.handle(),
                        &mut self.cache.handle(),
                        from.address(),
                        from.is_return_address(),
                        &mut regs.0,
                        windows.as_ptr(),
                        windows.len(),
                        told,
                    )
                }
            }

            #[inline]
            fn walk(
                &self,
                from: FrameAddress,
                regs: &mut $regs,
                windows: &[raw::Window],
                frames: &mut [u64],
                told: &mut raw::Walk,
            ) -> i32 {
                // SAFETY: as above, and a list that is lent for the call
                unsafe {
                    raw::$walk_on(
                        &mut self.unwinder.handle(),
                        &mut self.cache.handle(),
                        from.address(),
                        from.is_return_address(),
                        &mut regs.0,
                        windows.as_ptr(),
                        windows.len(),
                        frames.as_mut_ptr(),
                        frames.len(),
                        told,
                    )
                }
            }

            fn counts(&self) -> CacheStats {
                counts(self.cache)
            }
        }

        /// An unwinder. It keeps its modules, whose bytes stay where they are as long as it or a clone has them.
        pub struct $unwinder<D, P: AllocationPolicy = MayAllocateDuringUnwind> {
            // freed before the modules
            unwinder: Owned,
            generations: Generations,
            modules: Vec<Module<D>>,
            /// The number of this list of modules: another one for each list of the thread, or 0.
            list: u32,
            policy: PhantomData<P>,
        }

        impl<D, P: AllocationPolicy> Drop for $unwinder<D, P> {
            /// Nothing but what the fields do. Since it is here, bytes that a module lends must outlive the unwinder.
            fn drop(&mut self) {}
        }

        impl<D, P: AllocationPolicy> $unwinder<D, P> {
            /// An unwinder without modules.
            ///
            /// # Panics
            ///
            /// Where memory or generations run out; `try_new` returns that.
            pub fn new() -> Self {
                Self::try_new().expect("an unwinder")
            }

            /// An unwinder without modules, unless memory or generations run out.
            pub fn try_new() -> Result<Self, ModuleListError> {
                let generations = Generations::of_thread()?;
                // SAFETY: the counter is used by one call at a time, since it stays on its thread
                let unwinder =
                    Owned::new(|place| unsafe { raw::$new(&mut generations.handle(), P::MAY_ALLOCATE, place) })?;
                let list = generations.new_list();
                Ok($unwinder { unwinder, generations, modules: Vec::new(), list, policy: PhantomData })
            }

            /// Returns an unwinder with the same modules, unless memory runs out.
            pub fn try_clone(&self) -> Result<Self, ModuleListError> {
                let mut modules = Vec::new();
                modules.try_reserve(self.modules.len()).map_err(|_| ModuleListError::OutOfMemory)?;
                modules.extend(self.modules.iter().cloned());
                // SAFETY: the modules' bytes are kept for the clone too
                let unwinder = Owned::new(|place| unsafe { raw::$clone(&mut self.unwinder.handle(), place) })?;
                let (generations, list) = (self.generations.clone(), self.list);
                Ok($unwinder { unwinder, generations, modules, list, policy: PhantomData })
            }

            /// Removes the newest module that starts at the address (AVMA), if there is one, unless generations run
            /// out. Then nothing has changed.
            pub fn try_remove_module(&mut self, module_avma_range_start: u64) -> Result<(), ModuleListError> {
                // SAFETY: two live handles of two kinds
                let status = unsafe {
                    raw::$remove_module(
                        &mut self.unwinder.handle(),
                        &mut self.generations.handle(),
                        module_avma_range_start,
                    )
                };
                ModuleListError::of_status(status)?;
                self.list = self.generations.new_list();
                let starts = |module: &Module<D>| module.avma_range().start == module_avma_range_start;
                if let Some(newest) = self.modules.iter().rposition(starts) {
                    self.modules.remove(newest);
                }
                Ok(())
            }

            /// Walks a stack that was copied, from an instruction pointer (AVMA) on: `stack[i]` is at
            /// `stack_base + 8 * i`. Writes the addresses of the frames to `frames`. Returns how many it has written,
            /// and whether it has found the root of the stack. This is the fastest way to walk.
            pub fn walk_into(
                &self,
                pc: u64,
                regs: &mut $regs,
                cache: &mut $cache<P>,
                stack_base: u64,
                stack: &[u64],
                frames: &mut [u64],
            ) -> (usize, Result<bool, Error>) {
                let window = raw::Window { base: stack_base, words: stack.as_ptr(), word_count: stack.len() };
                let mut told = raw::Walk::default();
                // SAFETY: an unwinder and a cache of one policy, and words that are lent for the call
                let status = unsafe {
                    raw::$walk(
                        &mut self.unwinder.handle(),
                        &mut cache.cache.handle(),
                        pc,
                        &mut regs.0,
                        &window,
                        frames.as_mut_ptr(),
                        frames.len(),
                        &mut told,
                    )
                };
                end_of(status, &told)
            }

            /// Walks a stack from an instruction pointer (AVMA) on, by a callback that reads stack words from an address
            /// (AVMA) upwards: as many as it likes, at most as many as there is room for, which is one or more. It
            /// returns how many it has read, 0 if the first can't be read. Writes the addresses of the frames to
            /// `frames`. Returns how many it has written, and whether it has found the root of the stack.
            ///
            /// It takes no memory of its own. A frame that asks for words more than 64 times ends the walk with
            /// [`Error::CouldNotReadStack`].
            pub fn walk_with(
                &self,
                pc: u64,
                regs: &mut $regs,
                cache: &mut $cache<P>,
                mut read_words: impl FnMut(u64, &mut [u64]) -> usize,
                frames: &mut [u64],
            ) -> (usize, Result<bool, Error>) {
                let pair = Pair { unwinder: &self.unwinder, cache: &cache.cache };
                walk_with(&pair, pc, regs, &mut read_words, frames)
            }
        }

        impl<D: Deref<Target = [u8]>, P: AllocationPolicy> $unwinder<D, P> {
            /// Adds a module, unless memory or generations run out. Then nothing has changed.
            pub fn try_add_module(&mut self, module: Module<D>) -> Result<(), ModuleListError> {
                let (avma, base_avma) = (module.avma_range(), module.base_avma());
                let sections = module.raw_sections();
                self.modules.try_reserve(1).map_err(|_| ModuleListError::OutOfMemory)?;
                // first, so that the bytes are kept whatever comes
                self.modules.push(module);
                // SAFETY: two live handles of two kinds, and bytes that are borrowed from a module that is kept
                let status = unsafe {
                    raw::$add_module(
                        &mut self.unwinder.handle(),
                        &mut self.generations.handle(),
                        avma.start,
                        avma.end,
                        base_avma,
                        &sections,
                    )
                };
                let added = ModuleListError::of_status(status);
                self.list = self.generations.new_list();
                if added.is_err() {
                    self.modules.pop();
                }
                added
            }
        }

        impl<D, P: AllocationPolicy> Default for $unwinder<D, P> {
            fn default() -> Self {
                Self::new()
            }
        }

        impl<D, P: AllocationPolicy> Clone for $unwinder<D, P> {
            fn clone(&self) -> Self {
                self.try_clone().expect("out of memory")
            }
        }

        impl<D: Deref<Target = [u8]>, P: AllocationPolicy> Unwinder for $unwinder<D, P> {
            type UnwindRegs = $regs;
            type Cache = $cache<P>;
            type Module = Module<D>;

            fn add_module(&mut self, module: Module<D>) {
                self.try_add_module(module).expect("a module could not be added");
            }

            fn remove_module(&mut self, module_avma_range_start: u64) {
                self.try_remove_module(module_avma_range_start).expect("a module could not be removed");
            }

            fn max_known_code_address(&self) -> u64 {
                let mut address = 0;
                // SAFETY: an unwinder of this architecture, which the call leaves as it is
                let status = unsafe { raw::$max_known_code_address(&mut self.unwinder.handle(), &mut address) };
                assert_eq!(status, raw::OK);
                address
            }

            fn unwind_frame<F: FnMut(u64) -> Result<u64, ()>>(
                &self,
                address: FrameAddress,
                regs: &mut $regs,
                cache: &mut $cache<P>,
                read_stack: &mut F,
            ) -> Result<Option<u64>, Error> {
                let $cache { cache, kept, .. } = cache;
                let pair = Pair { unwinder: &self.unwinder, cache };
                step_with(&pair, address, regs, &mut kept.tries, read_stack)
            }

            fn find_run<F: FnMut(u64) -> Result<u64, ()>>(
                &self,
                from: FrameAddress,
                regs: &mut $regs,
                cache: &mut $cache<P>,
                run: &mut Run<$regs>,
                read_stack: &mut F,
            ) {
                let $cache { cache, kept, .. } = cache;
                let pair = Pair { unwinder: &self.unwinder, cache };
                run.find(&pair, Frame { address: from, modules: self.list }, regs, kept, read_stack);
            }

            fn regs_in_run(&self, cache: &$cache<P>, run: &Run<$regs>) -> $regs {
                run.regs_again(&Pair { unwinder: &self.unwinder, cache: &cache.cache }, &cache.kept)
            }
        }
    };
}

pub(crate) use unwinder;
