//! Where steps have found the words that they asked for, so that the next step from the same return address needs no call
//! of the archive to learn of them.
//!
//! A rule of the archive's cache asks for words that lie at constant offsets from the stack pointer, or from the frame
//! pointer. So one step shows them for each later one with the same distance between both pointers, and a second one with
//! another distance shows from which of the two they are counted. The words lead on to the caller's stack pointer and frame
//! pointer, and so to its own words. A layout only says what is read before a step: which frame the words lead to is the
//! archive's to say, and a word that it asks for besides is read for it.
use crate::unwinder::FrameWords;
use crate::words::Known;
use crate::{ModuleListError, raw};

/// How many sets of two layouts are kept, a power of two.
const SETS: usize = 512;

/// The pointer from which the offsets of a layout are counted.
#[derive(Clone, Copy, PartialEq, Eq)]
enum Base {
    /// Either one: one step can't tell. The offsets are those from the stack pointer, as long as the frame pointer lies
    /// at the same distance above it.
    Either,
    StackPointer,
    FramePointer,
}

/// Where the caller's frame pointer comes from.
#[derive(Clone, Copy, PartialEq, Eq)]
enum Restored {
    /// The steps so far can't tell.
    Unknown,
    /// It is the callee's.
    Kept,
    /// It is the first word.
    First,
    /// It is the last word.
    Last,
}

/// The stack pointer and the frame pointer of a frame.
#[derive(Clone, Copy, PartialEq, Eq)]
pub struct Pointers {
    pub stack: u64,
    pub frame: u64,
}

/// What a step is known to do before it is made.
#[derive(Clone, Copy)]
pub struct Place {
    /// The first and the last word that it asks for (AVMAs), the same one where that is the only one.
    pub asked: [u64; 2],
    /// The caller's stack pointer (AVMA).
    pub end: u64,
}

/// How far from its base a layout may have a word, or the caller's stack pointer, in bytes. Offsets in rules are below 2^20.
const FARTHEST: u64 = 1 << 24;

/// Which words a step from a return address asks for, one or two, by their offsets in bytes.
#[derive(Clone, Copy)]
pub(crate) struct Layout {
    base: Base,
    count: u8,
    frame_pointer: Restored,
    /// Whether the words are a frame record, which lie side by side: the caller's frame pointer below the return address.
    is_record: bool,
    first: i32,
    second: i32,
    /// The offset of the caller's stack pointer.
    end: i32,
    /// How many bytes the frame pointer lies above the stack pointer, where the base may be either.
    distance: i32,
}

impl Layout {
    const NONE: Layout = Layout {
        base: Base::Either,
        count: 0,
        frame_pointer: Restored::Unknown,
        is_record: false,
        first: 0,
        second: 0,
        end: 0,
        distance: 0,
    };

    /// The words that the step of a frame with these pointers asks for, or `None` where it may be refused, or end the walk,
    /// without asking for them.
    #[inline(always)]
    pub fn place(&self, of: Pointers) -> Option<Place> {
        let base = match self.base {
            Base::Either if of.frame.wrapping_sub(of.stack) != self.distance as u64 => return None,
            Base::Either | Base::StackPointer => of.stack,
            Base::FramePointer => of.frame,
        };
        let at = |offset: i32| base.wrapping_add(offset as u64);
        // no sum wraps
        let is_inside = base.wrapping_sub(FARTHEST) < u64::MAX - 2 * FARTHEST;
        if !is_inside || at(self.end) <= of.stack {
            return None;
        }
        Some(Place { asked: [at(self.first), at(self.second)], end: at(self.end) })
    }

    /// Whether the words are a frame record.
    #[inline(always)]
    pub fn is_record(&self) -> bool {
        self.is_record
    }

    /// The caller's frame pointer, by that of the frame and by the first and the last word that the step asks for.
    #[inline(always)]
    pub fn caller_frame_pointer(&self, frame_pointer: u64, [first, last]: [u64; 2]) -> Option<u64> {
        match self.frame_pointer {
            Restored::Unknown => None,
            Restored::Kept => Some(frame_pointer),
            Restored::First => Some(first),
            Restored::Last => Some(last),
        }
    }

    /// Whether the caller's frame pointer is one of the words.
    #[inline(always)]
    pub fn restores_frame_pointer(&self) -> bool {
        self.frame_pointer != Restored::Kept
    }

    /// The same, with whether it is that of a frame record.
    fn completed<R: FrameWords>(self) -> Layout {
        let [low, high] = R::upwards([self.first, self.second]);
        let [in_low, _] = R::upwards([Restored::First, Restored::Last]);
        let is_record = self.count == 2 && high.wrapping_sub(low) == 8 && self.frame_pointer == in_low;
        Layout { is_record, ..self }
    }

    /// What this layout and that of a later step tell together, if they agree.
    fn with<R: FrameWords>(&self, later: &Layout) -> Option<Layout> {
        if self.count != later.count {
            return None;
        }
        let frame_pointer = self.frame_pointer.with(later.frame_pointer)?;
        let earlier = Layout { frame_pointer, ..*self };
        let told = match self.base {
            Base::StackPointer | Base::FramePointer => earlier,
            Base::Either if later.base == Base::Either && later.distance == self.distance => earlier,
            Base::Either if self.offsets() == later.offsets() => Layout { base: Base::StackPointer, ..earlier },
            Base::Either => earlier.by_frame_pointer()?,
        };
        let later = if told.base == Base::FramePointer { later.by_frame_pointer()? } else { *later };
        (told.offsets() == later.offsets()).then_some(told.completed::<R>())
    }

    fn offsets(&self) -> [i32; 3] {
        [self.first, self.second, self.end]
    }

    /// The layout by offsets from the frame pointer, where that may be the base.
    fn by_frame_pointer(&self) -> Option<Layout> {
        if self.base != Base::Either {
            return None;
        }
        let offset = |offset: i32| offset.checked_sub(self.distance);
        let (first, second, end) = (offset(self.first)?, offset(self.second)?, offset(self.end)?);
        Some(Layout { base: Base::FramePointer, first, second, end, ..*self })
    }
}

impl Restored {
    /// What this and a later step tell together, if they agree.
    fn with(self, later: Restored) -> Option<Restored> {
        match (self, later) {
            (Restored::Unknown, told) | (told, Restored::Unknown) => Some(told),
            _ => (self == later).then_some(self),
        }
    }
}

/// The words that a step has asked for, by their addresses (AVMAs) in their order, as far as they are no more than two.
pub(crate) struct Asked {
    addresses: [u64; 2],
    /// 0 for a word that can't be read.
    words: [u64; 2],
    count: usize,
}

impl Asked {
    /// Those that were known before the step.
    pub fn new(ahead: &raw::Ahead, known: &Known) -> Self {
        Asked {
            addresses: [ahead.first, ahead.second],
            words: known.ends().unwrap_or_default(),
            count: ahead.count as usize,
        }
    }

    pub fn push(&mut self, address: u64, word: Option<u64>) {
        if self.count < 2 {
            self.addresses[self.count] = address;
            self.words[self.count] = word.unwrap_or(0);
        }
        self.count += 1;
    }

    /// The layout of the words, by the pointers (AVMAs) of the step's frame and of its caller, if there are one or two.
    pub fn layout<R: FrameWords>(&self, of: Pointers, caller: Pointers) -> Option<Layout> {
        let [first, second] = match self.count {
            1 => [self.addresses[0]; 2],
            2 => self.addresses,
            _ => return None,
        };
        let offset = |address: u64, limit: u64| {
            let offset = address.wrapping_sub(of.stack) as i64;
            (offset.unsigned_abs() < limit).then_some(offset as i32)
        };
        let near = |address: u64| offset(address, FARTHEST / 4);
        let (first, second, end) = (near(first)?, near(second)?, near(caller.stack)?);
        // no rule has such words so far from the frame pointer
        let by_either = offset(of.frame, FARTHEST / 2).map(|distance| (Base::Either, distance));
        let (base, distance) = by_either.unwrap_or((Base::StackPointer, 0));
        let frame_pointer = self.restored(of.frame, caller.frame);
        let layout =
            Layout { base, count: self.count as u8, frame_pointer, first, second, end, distance, ..Layout::NONE };
        Some(layout.completed::<R>())
    }

    /// Where the caller's frame pointer comes from, if only one place has it.
    fn restored(&self, frame_pointer: u64, caller_frame_pointer: u64) -> Restored {
        let is_from = |from: u64| from == caller_frame_pointer;
        let is_word = |at: usize| at < self.count && is_from(self.words[at]);
        match (is_from(frame_pointer), is_word(0), is_word(1)) {
            (true, false, false) => Restored::Kept,
            (false, true, false) => Restored::First,
            (false, false, true) => Restored::Last,
            _ => Restored::Unknown,
        }
    }
}

/// A layout with the return address (AVMA) that it is of, and the list of modules by which the rule there is made.
#[derive(Clone, Copy)]
struct Entry {
    address: u64,
    modules: u32,
    layout: Layout,
}

impl Entry {
    /// Of no list of modules.
    const NONE: Entry = Entry { address: 0, modules: 0, layout: Layout::NONE };

    fn is_of(&self, address: u64, modules: u32) -> bool {
        self.address == address && self.modules == modules
    }
}

/// The layouts of the frames that were unwound with a cache, by their return addresses: of those that share a set the two
/// that were noted last.
pub(crate) struct Layouts(Box<[[Entry; 2]; SETS]>);

impl Layouts {
    pub fn new() -> Result<Self, ModuleListError> {
        let mut sets = Vec::new();
        sets.try_reserve_exact(SETS).map_err(|_| ModuleListError::OutOfMemory)?;
        sets.resize(SETS, [Entry::NONE; 2]);
        Ok(Layouts(sets.try_into().unwrap_or_else(|_| unreachable!("so many sets were made"))))
    }

    /// The number of an address's set: neighbours are far apart.
    fn set(address: u64) -> usize {
        (address.wrapping_mul(0x9e37_79b9_7f4a_7c15) >> (64 - SETS.ilog2())) as usize
    }

    /// The layout of the step from a return address (AVMA), if it is known.
    #[inline(always)]
    pub fn find(&self, address: u64, modules: u32) -> Option<&Layout> {
        let [one, other] = &self.0[Self::set(address)];
        let entry = if one.is_of(address, modules) { one } else { other };
        entry.is_of(address, modules).then_some(&entry.layout)
    }

    /// Notes what a step from a return address (AVMA) has asked for by a rule of the cache. The list 0 of modules is none.
    pub fn note<R: FrameWords>(&mut self, address: u64, modules: u32, layout: Option<Layout>) {
        let Some(layout) = layout else { return };
        if modules == 0 {
            return;
        }
        let layout = self.find(address, modules).and_then(|old| old.with::<R>(&layout)).unwrap_or(layout);
        let [one, other] = &mut self.0[Self::set(address)];
        if !one.is_of(address, modules) {
            *other = *one;
        }
        *one = Entry { address, modules, layout };
    }
}

// a set is a line of the processor's cache
const _: () = assert!(size_of::<[Entry; 2]>() == 64);
