//! The iterator over the frames of a stack, which finds frames ahead: those of a run by one call of the archive.
//!
//! Which words the step from a return address asks for, and where they lead, is mostly known from earlier steps there
//! (`layouts`). So the words of several frames are read before any of these is unwound, each word that the steps will ask for
//! in its order, and none else. The archive then walks over them: which frames they are is for it to say.
use crate::layouts::{Asked, Layout, Layouts, Place, Pointers};
use crate::unwinder::{Frame, FrameWords, Kept, Step, Tries, Unwinder};
use crate::words::{Known, RunWords, read_asked};
use crate::{Error, FrameAddress, raw};
use std::cell::OnceCell;

/// How many frames the longest run has.
pub(crate) const LONGEST: usize = 16;

enum State {
    Initial(u64),
    /// The frame after which the next run begins.
    Unwinding(FrameAddress),
    Done,
}

/// An iterator over the frames of a stack: the instruction pointer, then return addresses, and `Ok(None)` from the
/// root on. After an error it is still at the same frame, which the next call tries anew.
pub struct UnwindIterator<'u, 'c, 'r, U: Unwinder, F: FnMut(u64) -> Result<u64, ()>> {
    unwinder: &'u U,
    state: State,
    /// The registers of the last frame of the run.
    regs: U::UnwindRegs,
    run: Run<U::UnwindRegs>,
    cache: &'c mut U::Cache,
    read_stack: &'r mut F,
}

impl<'u, 'c, 'r, U: Unwinder, F: FnMut(u64) -> Result<u64, ()>> UnwindIterator<'u, 'c, 'r, U, F> {
    /// Returns what [`Unwinder::iter_frames`] returns.
    pub fn new(unwinder: &'u U, pc: u64, regs: U::UnwindRegs, cache: &'c mut U::Cache, read_stack: &'r mut F) -> Self {
        UnwindIterator { unwinder, state: State::Initial(pc), regs, run: Run::new(), cache, read_stack }
    }

    /// The same with runs of one frame.
    pub(crate) fn lazily(mut self) -> Self {
        self.run.longest = 1;
        self
    }

    /// Returns the next frame: first the instruction pointer, then return addresses.
    #[allow(clippy::should_implement_trait)]
    #[inline]
    pub fn next(&mut self) -> Result<Option<FrameAddress>, Error> {
        match self.run.take() {
            Some(frame) => Ok(Some(frame)),
            None => self.after_run(),
        }
    }

    /// Returns the first frame of the next run, or how the walk goes on after the last one.
    #[inline(never)]
    fn after_run(&mut self) -> Result<Option<FrameAddress>, Error> {
        let from = match self.state {
            State::Initial(pc) => {
                let frame = FrameAddress::from_instruction_pointer(pc);
                self.state = State::Unwinding(frame);
                return Ok(Some(frame));
            }
            State::Unwinding(frame) => self.run.last().unwrap_or(frame),
            State::Done => return Ok(None),
        };
        self.state = State::Unwinding(from);
        if self.run.end.is_none() {
            self.run.begin();
            self.unwinder.find_run(from, &mut self.regs, self.cache, &mut self.run, self.read_stack);
            if let Some(frame) = self.run.take() {
                return Ok(Some(frame));
            }
        }
        match self.run.end.take() {
            Some(Err(error)) => Err(error),
            _ => {
                self.state = State::Done;
                Ok(None)
            }
        }
    }

    /// Returns the registers of the frame at which the iterator is.
    ///
    /// Inside a run they are found by a walk from its first frame. After such a call the iterator finds one frame at a time.
    pub fn regs(&self) -> &U::UnwindRegs {
        if self.run.is_at_regs() {
            return &self.regs;
        }
        self.run.shown.get_or_init(|| self.unwinder.regs_in_run(self.cache, &self.run))
    }
}

/// The words that the step from a frame will ask for, as the archive has told with that frame, and how its rule was looked up.
#[derive(Clone, Copy, Default)]
struct Ahead(raw::Ahead);

impl Ahead {
    /// Returns whether the lookup by which the words were told is one that the next one repeats: with a rule in the cache the
    /// first lookup of a frame is a hit, and so is each further one.
    fn is_repeated(&self) -> bool {
        matches!(self.0.lookup, raw::NO_LOOKUP | raw::LOOKUP_HIT)
    }
}

/// Frames that are found, and are handed out one by one.
#[doc(hidden)]
pub struct Run<R> {
    /// Return addresses.
    frames: [u64; LONGEST],
    count: usize,
    /// How many of them are handed out.
    given: usize,
    /// How the walk ends after them, if it does.
    end: Option<Result<(), Error>>,
    /// The frame before the run, with its registers.
    start: Option<(FrameAddress, R)>,
    /// The words of the frame after it.
    ahead: Ahead,
    /// How many frames the next run may have.
    length: usize,
    longest: usize,
    /// The registers of the frame that was handed out last, once they are asked for inside the run.
    shown: OnceCell<R>,
}

impl<R> Run<R> {
    fn new() -> Self {
        Run {
            frames: [0; LONGEST],
            count: 0,
            given: 0,
            end: None,
            start: None,
            ahead: Ahead::default(),
            length: 1,
            longest: LONGEST,
            shown: OnceCell::new(),
        }
    }

    /// Hands out the next frame, if there is one.
    #[inline(always)]
    fn take(&mut self) -> Option<FrameAddress> {
        if self.given >= self.count {
            return None;
        }
        let frame = FrameAddress::from_return_address(*self.frames.get(self.given)?);
        self.given += 1;
        if self.shown.get().is_some() {
            self.longest = 1;
            self.shown = OnceCell::new();
        }
        frame
    }

    /// The last frame that was found.
    fn last(&self) -> Option<FrameAddress> {
        FrameAddress::from_return_address(*self.frames.get(self.count.checked_sub(1)?)?)
    }

    /// Lets go what was found before.
    fn begin(&mut self) {
        self.count = 0;
        self.given = 0;
    }

    /// Whether the iterator's registers are those of the frame that was handed out last. A step to the return address 0, which
    /// is refused, has written the caller's.
    fn is_at_regs(&self) -> bool {
        self.given == self.count && self.end != Some(Err(Error::ReturnAddressIsNull))
    }

    /// Adds what a step has found.
    pub(crate) fn add(&mut self, found: Result<Option<u64>, Error>) {
        match found {
            Ok(Some(0)) => self.end = Some(Err(Error::ReturnAddressIsNull)),
            Ok(Some(address)) => {
                self.frames[self.count] = address;
                self.count += 1;
            }
            Ok(None) => self.end = Some(Ok(())),
            Err(error) => self.end = Some(Err(error)),
        }
    }
}

impl<R: FrameWords> Run<R> {
    /// Finds the frames that called one: as many as the next run may have, as far as it is known which words they ask for, and
    /// one more by a step.
    #[inline(always)]
    pub(crate) fn find(
        &mut self,
        step: &impl Step<R>,
        from: Frame,
        regs: &mut R,
        kept: &mut Kept,
        read_stack: &mut impl FnMut(u64) -> Result<u64, ()>,
    ) {
        let limit = self.length.min(self.longest);
        self.length = (2 * self.length).min(LONGEST);
        if limit > 1 {
            self.start = Some((from.address, *regs));
        }
        let ahead = std::mem::take(&mut self.ahead);
        let (count, stop) = if ahead.is_repeated() {
            read_run(&kept.layouts, from, regs, limit, &mut kept.run_words, read_stack)
        } else {
            (0, Stop::Unread)
        };
        if count == 1 {
            self.step(step, from.address, regs, kept);
        } else if count > 1 {
            self.walk(step, from.address, regs, count, kept);
        }
        let is_whole = self.count == count;
        if self.end.is_none() && (self.count == 0 || is_whole && matches!(stop, Stop::Read(..))) {
            let from = Frame { address: self.last().unwrap_or(from.address), ..from };
            let told = match stop {
                Stop::Read(asked, read) if is_whole => (Known::of(asked, read), Ahead(raw::Ahead::of(asked))),
                _ => (Known::read(&ahead.0, read_stack), ahead),
            };
            self.find_told(step, from, regs, kept, told, read_stack);
        }
    }

    /// Finds a frame by a step that also tells the words of its caller, with the words that were told and read.
    #[inline(always)]
    fn find_told(
        &mut self,
        step: &impl Step<R>,
        from: Frame,
        regs: &mut R,
        kept: &mut Kept,
        (known, ahead): (Known, Ahead),
        read_stack: &mut impl FnMut(u64) -> Result<u64, ()>,
    ) {
        let told = next_told(step, from, regs, kept, &known, ahead, read_stack);
        self.ahead = told.map_or(Ahead::default(), |told| told.1);
        self.add(told.map(|told| told.0));
    }

    /// Steps over the words of a run of one frame.
    fn step(&mut self, step: &impl Step<R>, from: FrameAddress, regs: &mut R, kept: &mut Kept) {
        let before = *regs;
        let mut told = raw::Step::default();
        let status = step.step(from, regs, kept.run_words.windows(), &mut told);
        match status {
            // (the layouts have told too few words)
            _ if told.has_missing => {
                *regs = before;
                kept.tries.recounted.add(raw::LOOKUP_HIT);
            }
            raw::OK => self.add(Ok(Some(told.return_address))),
            raw::END => self.add(Ok(None)),
            _ => self.add(Err(Error::of_status(status, told.unreadable))),
        }
    }

    /// Walks over the words of a run.
    fn walk(&mut self, step: &impl Step<R>, from: FrameAddress, regs: &mut R, count: usize, kept: &mut Kept) {
        let mut told = raw::Walk::default();
        let status = step.walk(from, regs, kept.run_words.windows(), &mut self.frames[..count], &mut told);
        self.count = told.frame_count;
        match status {
            raw::FRAMES_FULL => {}
            raw::END => self.end = Some(Ok(())),
            // (the layouts have told too few words)
            raw::MISSING_WORD => kept.tries.recounted.add(raw::LOOKUP_HIT),
            _ => self.end = Some(Err(Error::of_status(status, told.unreadable))),
        }
    }

    /// Finds the registers of the frame that was handed out last once more.
    pub(crate) fn regs_again(&self, step: &impl Step<R>, kept: &Kept) -> R {
        let (from, mut regs) = self.start.expect("a run has begun");
        let (mut frames, mut told) = ([0; LONGEST], raw::Walk::default());
        let before = step.counts();
        step.walk(from, &mut regs, kept.run_words.clone().windows(), &mut frames[..self.given], &mut told);
        let again = step.counts().minus(&before);
        kept.shown_again.set(kept.shown_again.get().plus(&again));
        regs
    }
}

/// Why the words of no further frame were read for a run.
enum Stop {
    /// There are as many frames as there may be, or it is not known which words the next one asks for.
    Unread,
    /// It is not known where these words of the next frame lead, or one of them can't be read.
    Read([u64; 2], Result<[u64; 2], Option<u64>>),
}

/// A frame, by the layout of its words and by its pointers.
struct Laid<'l> {
    layout: &'l Layout,
    pointers: Pointers,
}

/// What reads the words of a run: its frames are those of a list of modules, and have the mask of some registers.
struct Reader<'a, R> {
    layouts: &'a Layouts,
    modules: u32,
    regs: &'a R,
    run_words: &'a mut RunWords,
    /// How many windows of words there are.
    windows: usize,
}

impl<'a, R: FrameWords> Reader<'a, R> {
    /// Reads the words of the frames from one on, as far as it is known which they are, that the walk goes on after the frame,
    /// and which words its caller asks for. Returns how many frames those are, and why they are no more.
    #[inline(always)]
    fn read_run(
        mut self,
        from: FrameAddress,
        limit: usize,
        read_stack: &mut impl FnMut(u64) -> Result<u64, ()>,
    ) -> (usize, Stop) {
        let FrameAddress::ReturnAddress(address) = from else { return (0, Stop::Unread) };
        let Some(layout) = self.layouts.find(address.get(), self.modules) else { return (0, Stop::Unread) };
        let mut frame = Laid { layout, pointers: self.regs.pointers() };
        let mut count = 0;
        let stop = loop {
            if count == limit {
                break Stop::Unread;
            }
            let Some(place) = frame.layout.place(frame.pointers) else { break Stop::Unread };
            let read = if frame.layout.is_record() {
                self.read_frame::<true>(frame, place, read_stack)
            } else {
                self.read_frame::<false>(frame, place, read_stack)
            };
            match read {
                Ok(caller) => frame = caller,
                Err(stop) => break stop,
            }
            count += 1;
        };
        self.run_words.set_count(self.windows);
        (count, stop)
    }

    /// Reads the words of a frame, and adds them to those of the run where its caller is known: returns that.
    #[inline(always)]
    fn read_frame<const IS_RECORD: bool>(
        &mut self,
        Laid { layout, pointers }: Laid<'a>,
        Place { asked, end }: Place,
        read_stack: &mut impl FnMut(u64) -> Result<u64, ()>,
    ) -> Result<Laid<'a>, Stop> {
        let is_one = !IS_RECORD && asked[0] == asked[1];
        let words = read_asked(asked, is_one, read_stack).map_err(|read| Stop::Read(asked, Err(read)))?;
        let windows = if IS_RECORD {
            self.run_words.put_pair(self.windows, R::upwards(asked)[0], R::upwards(words))
        } else {
            self.run_words.put(self.windows, asked, words)
        };
        let frame =
            if IS_RECORD { Some(R::upwards(words)[0]) } else { layout.caller_frame_pointer(pointers.frame, words) };
        // a frame pointer that is kept does not end the walk
        let leads_on =
            |frame: &u64| !IS_RECORD && !layout.restores_frame_pointer() || R::leads_on(pointers.frame, *frame);
        // (of the return address 0, which ends a walk, nothing is known)
        let caller = self.layouts.find(self.regs.return_address(words), self.modules);
        match (frame.filter(leads_on), caller) {
            (Some(frame), Some(layout)) => {
                self.windows = windows;
                Ok(Laid { layout, pointers: Pointers { stack: end, frame } })
            }
            _ => Err(Stop::Read(asked, Ok(words))),
        }
    }
}

/// The same by a call, whose parts are registers of the processor.
#[inline(never)]
fn read_run<R: FrameWords>(
    layouts: &Layouts,
    from: Frame,
    regs: &R,
    limit: usize,
    run_words: &mut RunWords,
    read_stack: &mut impl FnMut(u64) -> Result<u64, ()>,
) -> (usize, Stop) {
    let reader = Reader { layouts, modules: from.modules, regs, run_words, windows: 0 };
    reader.read_run(from.address, limit, read_stack)
}

/// Steps for an iterator by a call that also tells the words of the caller. What the cache counts beside the one lookup that
/// a step is, is added to `recounted`.
#[inline(never)]
fn next_told<R: FrameWords>(
    step: &impl Step<R>,
    frame: Frame,
    regs: &mut R,
    kept: &mut Kept,
    known: &Known,
    ahead: Ahead,
    read_stack: &mut impl FnMut(u64) -> Result<u64, ()>,
) -> Result<(Option<u64>, Ahead), Error> {
    let Ahead(before) = ahead;
    let pointers = regs.pointers();
    let mut asked = Asked::new(&before, known);
    let mut told = raw::Next::default();
    let mut status = known.lend(|windows| step.next(frame.address, regs, windows, &mut told));
    let is_by_rule = told.lookup == raw::LOOKUP_HIT && frame.address.is_return_address();
    if before.lookup != raw::NO_LOOKUP && before.lookup != told.lookup {
        // the lookup that counts is the one by which the words were told
        kept.tries.recounted.take(before.lookup);
        kept.tries.recounted.add(told.lookup);
    }
    if status == raw::MISSING_WORD {
        status = next_over(step, frame.address, regs, &mut kept.tries, known, &mut told, &mut asked, read_stack)?;
    }
    match status {
        raw::OK => {
            kept.tries.recounted.add(told.ahead.lookup);
            if told.ahead.lookup == raw::LOOKUP_HIT && told.ahead.count > 0 {
                kept.tries.recounted.add(raw::LOOKUP_HIT);
            }
            if is_by_rule {
                let layout = asked.layout::<R>(pointers, regs.pointers());
                kept.layouts.note::<R>(frame.address.address(), frame.modules, layout);
            }
            Ok((Some(told.return_address), Ahead(told.ahead)))
        }
        raw::END => Ok((None, Ahead::default())),
        _ => Err(Error::of_status(status, told.unreadable)),
    }
}

/// Steps until no word is missing, with the words that are known: the first step of a walk was told none.
#[cold]
#[allow(clippy::too_many_arguments)]
fn next_over<R>(
    step: &impl Step<R>,
    from: FrameAddress,
    regs: &mut R,
    tries: &mut Tries,
    known: &Known,
    told: &mut raw::Next,
    asked: &mut Asked,
    read_stack: &mut impl FnMut(u64) -> Result<u64, ()>,
) -> Result<i32, Error> {
    tries.words.set(known)?;
    loop {
        let word = read_stack(told.unreadable).ok();
        asked.push(told.unreadable, word);
        tries.words.push(told.unreadable, word)?;
        let status = step.next(from, regs, tries.words.windows(), told);
        tries.recounted.add(told.lookup);
        if status != raw::MISSING_WORD {
            return Ok(status);
        }
    }
}
