//! The stack words that a callback has read for a step.
use crate::iterator::LONGEST;
use crate::{Error, ModuleListError, raw};

/// How many words a step may ask for where unwinding may not take memory. A function of a PE file can ask for 257: its
/// unwind codes are counted by a byte.
const ROOM: usize = 512;

/// Words by their addresses, each in a window of its own, whose memory is kept for the next step. A window without a
/// word says that the word can't be read.
pub(crate) struct Words {
    words: Vec<u64>,
    windows: Vec<raw::Window>,
    may_allocate: bool,
}

impl Words {
    /// Without leave to take memory later, the memory is taken here.
    pub fn new(may_allocate: bool) -> Result<Self, ModuleListError> {
        let mut made = Words { words: Vec::new(), windows: Vec::new(), may_allocate };
        if !may_allocate {
            made.reserve(ROOM).map_err(|_| ModuleListError::OutOfMemory)?;
        }
        Ok(made)
    }

    fn reserve(&mut self, more: usize) -> Result<(), Error> {
        self.words.try_reserve(more).map_err(|_| Error::OutOfMemory)?;
        self.windows.try_reserve(more).map_err(|_| Error::OutOfMemory)
    }

    /// Puts the words that are known in the place of those of the last step.
    pub fn set(&mut self, known: &Known) -> Result<(), Error> {
        self.words.clear();
        self.windows.clear();
        known.words().try_for_each(|(address, word)| self.push(address, word))
    }

    /// Adds a word, or that the word at the address can't be read.
    pub fn push(&mut self, address: u64, word: Option<u64>) -> Result<(), Error> {
        if self.may_allocate {
            self.reserve(1)?;
        } else if self.words.len() == ROOM {
            return Err(Error::OutOfMemory);
        }
        self.words.push(word.unwrap_or(0));
        let word_count = usize::from(word.is_some());
        self.windows.push(raw::Window { base: address, words: std::ptr::null(), word_count });
        Ok(())
    }

    /// The windows, which lend the words until a word is added.
    pub fn windows(&mut self) -> &[raw::Window] {
        for (window, word) in self.windows.iter_mut().zip(&self.words) {
            window.words = word;
        }
        &self.windows
    }
}

/// The words that a step was known to ask for before it was made: two at most, which it takes no memory to keep. Those
/// that lie side by side are lent by one window.
pub(crate) struct Known {
    /// The words in the order of the windows.
    words: [u64; 2],
    /// The windows by their addresses and their counts of words: a window without words is a word that can't be read.
    windows: [(u64, usize); 2],
    count: usize,
    /// The first and the last word that were asked for, if each could be read.
    ends: Option<[u64; 2]>,
}

impl Known {
    /// No word is known.
    pub const NONE: Known = Known { words: [0; 2], windows: [(0, 0); 2], count: 0, ends: None };

    /// Reads the words that are told, the second one only where the first one can be read.
    pub fn read(ahead: &raw::Ahead, read_stack: &mut impl FnMut(u64) -> Result<u64, ()>) -> Self {
        match ahead.asked() {
            Some(asked) => Known::of(asked, read_asked(asked, asked[0] == asked[1], read_stack)),
            None => Known::NONE,
        }
    }

    /// What was read of the first and the last word that are asked for (AVMAs): of one that can't be read, what was read before.
    pub fn of([first, last]: [u64; 2], read: Result<[u64; 2], Option<u64>>) -> Self {
        match read {
            Ok([one, other]) => {
                let (words, windows, count) = if first == last {
                    ([one, 0], [(first, 1), (0, 0)], 1)
                } else if last.wrapping_sub(first) == 8 && first < last {
                    ([one, other], [(first, 2), (0, 0)], 1)
                } else if first.wrapping_sub(last) == 8 && last < first {
                    ([other, one], [(last, 2), (0, 0)], 1)
                } else {
                    ([one, other], [(first, 1), (last, 1)], 2)
                };
                Known { words, windows, count, ends: Some([one, other]) }
            }
            Err(None) => Known { words: [0; 2], windows: [(first, 0), (0, 0)], count: 1, ends: None },
            Err(Some(one)) => Known { words: [one, 0], windows: [(first, 1), (last, 0)], count: 2, ends: None },
        }
    }

    /// The first and the last word that were asked for, if there is one and each could be read.
    #[inline]
    pub fn ends(&self) -> Option<[u64; 2]> {
        self.ends
    }

    /// The words with their addresses, from each window's lowest one upwards; `None` is one that can't be read.
    pub fn words(&self) -> impl Iterator<Item = (u64, Option<u64>)> {
        let mut rest = &self.words[..];
        self.windows[..self.count].iter().flat_map(move |&(base, count)| {
            let (words, others) = rest.split_at(count);
            rest = others;
            let empty = (count == 0).then_some((base, None));
            words.iter().enumerate().map(move |(at, word)| (base + 8 * at as u64, Some(*word))).chain(empty)
        })
    }

    /// Lends the windows to a call.
    #[inline]
    pub fn lend<T>(&self, call: impl FnOnce(&[raw::Window]) -> T) -> T {
        let window = |at: usize, from: usize| raw::Window {
            base: self.windows[at].0,
            words: self.words[from..].as_ptr(),
            word_count: self.windows[at].1,
        };
        match self.count {
            0 => call(&[]),
            1 => call(&[window(0, 0)]),
            _ => call(&[window(0, 0), window(1, self.windows[0].1)]),
        }
    }
}

/// Reads the first and the last word that a step asks for (AVMAs), the same one where that is the only one; or returns what was
/// read before one that can't be read.
#[inline(always)]
pub(crate) fn read_asked(
    [first, last]: [u64; 2],
    is_one: bool,
    read_stack: &mut impl FnMut(u64) -> Result<u64, ()>,
) -> Result<[u64; 2], Option<u64>> {
    let one = read_stack(first).map_err(|()| None)?;
    if is_one {
        return Ok([one, one]);
    }
    let other = read_stack(last).map_err(|()| Some(one))?;
    Ok([one, other])
}

/// How often a frame may ask for words.
const READS: usize = 64;

/// How many words one call of a callback may read: those of some 60 frames, so that few calls of the archive ask for more.
const WORDS_A_READ: usize = 256;

/// How many words are kept.
const KEPT: usize = 320;

/// What a callback has read for a walk: words from some addresses upwards, each run in a window of its own. A window
/// without words says that the word at its base can't be read. It takes no memory.
pub(crate) struct Chunks {
    windows: [raw::Window; READS],
    window_count: usize,
    words: [u64; KEPT],
    word_count: usize,
}

impl Chunks {
    pub fn new() -> Self {
        let none = raw::Window { base: 0, words: std::ptr::null(), word_count: 0 };
        Chunks { windows: [none; READS], window_count: 0, words: [0; KEPT], word_count: 0 }
    }

    pub fn clear(&mut self) {
        self.window_count = 0;
        self.word_count = 0;
    }

    /// Returns whether nothing was read since the words were cleared.
    pub fn is_empty(&self) -> bool {
        self.window_count == 0
    }

    /// Reads words from an address (AVMA) upwards, or returns `false` where there is no room for a further window. Of
    /// the room for words one each is left for the windows that may follow.
    pub fn read(&mut self, address: u64, read_words: &mut impl FnMut(u64, &mut [u64]) -> usize) -> bool {
        let windows_left = READS - self.window_count;
        if windows_left == 0 {
            return false;
        }
        let room = (KEPT - self.word_count - (windows_left - 1)).min(WORDS_A_READ);
        let words = &mut self.words[self.word_count..self.word_count + room];
        let word_count = read_words(address, words).min(room);
        self.windows[self.window_count] = raw::Window { base: address, words: std::ptr::null(), word_count };
        self.window_count += 1;
        self.word_count += word_count;
        true
    }

    /// The windows, which lend the words until more are read.
    pub fn windows(&mut self) -> &[raw::Window] {
        let mut rest = &self.words[..];
        for window in &mut self.windows[..self.window_count] {
            let (words, others) = rest.split_at(window.word_count);
            window.words = words.as_ptr();
            rest = others;
        }
        &self.windows[..self.window_count]
    }
}

/// The words of the frames of a run from lower addresses upwards, in windows of one word or of two that lie side by side.
#[derive(Clone)]
pub(crate) struct RunWords {
    windows: [raw::Window; RunWords::MOST],
    words: [[u64; 2]; RunWords::MOST],
    count: usize,
}

impl RunWords {
    /// How many windows there may be: two a frame.
    const MOST: usize = 2 * LONGEST;

    pub fn new() -> Self {
        let none = raw::Window { base: 0, words: std::ptr::null(), word_count: 0 };
        RunWords { windows: [none; Self::MOST], words: [[0; 2]; Self::MOST], count: 0 }
    }

    /// Sets how many of the windows that were put are lent.
    pub fn set_count(&mut self, count: usize) {
        self.count = count;
    }

    /// Puts the first and the last word that a frame asks for, by their addresses (AVMAs), into windows from this number on.
    /// Returns the number of the next window. There must be room.
    #[inline(always)]
    pub fn put(&mut self, at: usize, [first, last]: [u64; 2], [one, other]: [u64; 2]) -> usize {
        if last.wrapping_sub(first) == 8 {
            self.put_pair(at, first, [one, other])
        } else if first.wrapping_sub(last) == 8 {
            self.put_pair(at, last, [other, one])
        } else if first == last {
            self.put_window(at, first, [one, 0], 1)
        } else {
            let [low, high] = if last < first { [(last, other), (first, one)] } else { [(first, one), (last, other)] };
            let at = self.put_window(at, low.0, [low.1, 0], 1);
            self.put_window(at, high.0, [high.1, 0], 1)
        }
    }

    /// Puts two words that lie side by side from an address (AVMA) upwards.
    #[inline(always)]
    pub fn put_pair(&mut self, at: usize, base: u64, words: [u64; 2]) -> usize {
        self.put_window(at, base, words, 2)
    }

    #[inline(always)]
    fn put_window(&mut self, at: usize, base: u64, words: [u64; 2], word_count: usize) -> usize {
        self.words[at] = words;
        let window = &mut self.windows[at];
        (window.base, window.word_count) = (base, word_count);
        at + 1
    }

    /// The windows, which lend the words until others are put.
    pub fn windows(&mut self) -> &[raw::Window] {
        for (window, words) in self.windows[..self.count].iter_mut().zip(&self.words) {
            window.words = words.as_ptr();
        }
        &self.windows[..self.count]
    }
}
