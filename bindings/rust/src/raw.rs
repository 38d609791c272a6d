//! The C interface, as `bindings/include/framehop.h` declares it.

pub const OK: i32 = 0;
pub const FRAMES_FULL: i32 = 1;
pub const END: i32 = 2;
pub const MISSING_WORD: i32 = 3;
pub const OUT_OF_MEMORY: i32 = -1;
pub const GENERATIONS_EXHAUSTED: i32 = -2;
pub const COULD_NOT_READ_STACK: i32 = -10;
pub const MOVED_BACKWARDS: i32 = -11;
pub const DID_NOT_ADVANCE: i32 = -12;
pub const INTEGER_OVERFLOW: i32 = -13;
pub const RETURN_ADDRESS_IS_NULL: i32 = -14;

pub const NO_LOOKUP: i32 = 0;
pub const LOOKUP_HIT: i32 = 1;
pub const LOOKUP_EMPTY_SLOT: i32 = 2;
pub const LOOKUP_WRONG_MODULES: i32 = 3;
pub const LOOKUP_WRONG_ADDRESS: i32 = 4;

#[repr(C)]
#[derive(Clone, Copy)]
pub struct Handle {
    pub address: *mut u8,
}

#[repr(C)]
#[derive(Clone, Copy)]
pub struct Bytes {
    pub start: *const u8,
    pub length: usize,
}

#[repr(C)]
#[derive(Clone, Copy)]
pub struct Section {
    pub svma_start: u64,
    pub svma_end: u64,
    pub bytes: Bytes,
    pub has_range: bool,
    pub has_bytes: bool,
}

#[repr(C)]
pub struct Sections {
    pub base_svma: u64,
    pub text: Section,
    pub stubs: Section,
    pub stub_helper: Section,
    pub got: Section,
    pub unwind_info: Section,
    pub eh_frame: Section,
    pub eh_frame_hdr: Section,
    pub debug_frame: Section,
    pub text_segment: Section,
    pub pdata: Section,
    pub rdata: Section,
    pub xdata: Section,
}

#[repr(C)]
#[derive(Clone, Copy, PartialEq, Eq, Default)]
pub struct RegistersX86_64 {
    pub ip: u64,
    /// rax, rdx, rcx, rbx, rsi, rdi, rbp, rsp, r8 to r15.
    pub general: [u64; 16],
}

#[repr(C)]
#[derive(Clone, Copy, PartialEq, Eq)]
pub struct RegistersAarch64 {
    pub lr_mask: u64,
    pub lr: u64,
    pub sp: u64,
    pub fp: u64,
}

#[repr(C)]
#[derive(Clone, Copy)]
pub struct Window {
    pub base: u64,
    pub words: *const u64,
    pub word_count: usize,
}

#[repr(C)]
#[derive(Default)]
pub struct Walk {
    pub frame_count: usize,
    pub unreadable: u64,
}

#[repr(C)]
#[derive(Default)]
pub struct Step {
    pub return_address: u64,
    pub unreadable: u64,
    pub missing: u64,
    pub has_missing: bool,
}

#[repr(C)]
#[derive(Clone, Copy, Default)]
pub struct Ahead {
    pub first: u64,
    pub second: u64,
    pub count: u32,
    pub lookup: i32,
}

impl Ahead {
    /// The first and the last word that are told, the same one where that is the only one, if there is one.
    pub fn asked(&self) -> Option<[u64; 2]> {
        match self.count {
            0 => None,
            1 => Some([self.first; 2]),
            _ => Some([self.first, self.second]),
        }
    }

    /// Tells the first and the last word, the same one where that is the only one, by no lookup.
    pub fn of([first, last]: [u64; 2]) -> Self {
        let (second, count) = if first == last { (0, 1) } else { (last, 2) };
        Ahead { first, second, count, lookup: NO_LOOKUP }
    }
}

#[repr(C)]
#[derive(Default)]
pub struct Next {
    pub return_address: u64,
    pub unreadable: u64,
    pub ahead: Ahead,
    pub lookup: i32,
}

/// How many lookups of a cache hit and missed. The counts stop at the largest `u64`.
#[repr(C)]
#[derive(Clone, Copy, Debug, Default, PartialEq, Eq)]
pub struct CacheStats {
    pub hit_count: u64,
    pub miss_empty_slot_count: u64,
    pub miss_wrong_modules_count: u64,
    pub miss_wrong_address_count: u64,
}

impl CacheStats {
    /// Returns counts of 0.
    pub fn new() -> Self {
        Self::default()
    }

    /// Returns how many lookups there were.
    pub fn total(&self) -> u64 {
        self.hits().saturating_add(self.misses())
    }

    /// Returns how many lookups hit.
    pub fn hits(&self) -> u64 {
        self.hit_count
    }

    /// Returns how many lookups missed.
    pub fn misses(&self) -> u64 {
        self.miss_empty_slot_count
            .saturating_add(self.miss_wrong_modules_count)
            .saturating_add(self.miss_wrong_address_count)
    }

    /// Adds a lookup that has ended in this way.
    pub(crate) fn add(&mut self, lookup: i32) {
        if let Some(count) = self.of(lookup) {
            *count = count.saturating_add(1);
        }
    }

    /// Takes a lookup away that was added.
    pub(crate) fn take(&mut self, lookup: i32) {
        if let Some(count) = self.of(lookup) {
            *count = count.saturating_sub(1);
        }
    }

    /// The count of the lookups that end in this way.
    fn of(&mut self, lookup: i32) -> Option<&mut u64> {
        match lookup {
            LOOKUP_HIT => Some(&mut self.hit_count),
            LOOKUP_EMPTY_SLOT => Some(&mut self.miss_empty_slot_count),
            LOOKUP_WRONG_MODULES => Some(&mut self.miss_wrong_modules_count),
            LOOKUP_WRONG_ADDRESS => Some(&mut self.miss_wrong_address_count),
            _ => None,
        }
    }

    /// The counts of this and another.
    pub(crate) fn plus(&self, other: &CacheStats) -> CacheStats {
        self.by(other, u64::saturating_add)
    }

    /// The counts of this that another has not.
    pub(crate) fn minus(&self, other: &CacheStats) -> CacheStats {
        self.by(other, u64::saturating_sub)
    }

    fn by(&self, other: &CacheStats, count: impl Fn(u64, u64) -> u64) -> CacheStats {
        CacheStats {
            hit_count: count(self.hit_count, other.hit_count),
            miss_empty_slot_count: count(self.miss_empty_slot_count, other.miss_empty_slot_count),
            miss_wrong_modules_count: count(self.miss_wrong_modules_count, other.miss_wrong_modules_count),
            miss_wrong_address_count: count(self.miss_wrong_address_count, other.miss_wrong_address_count),
        }
    }
}

/// Asserts the size of a struct and the offset of each of its fields, in bytes: what the System V ABI for x86_64 and
/// the procedure call standard for aarch64 give the header's struct.
macro_rules! lies {
    ($name:ty: $size:literal { $($field:ident $(. $inner:ident)* : $offset:literal),* $(,)? }) => {
        const _: () = {
            assert!(size_of::<$name>() == $size && align_of::<$name>() == 8);
            $(assert!(std::mem::offset_of!($name, $field $(. $inner)*) == $offset);)*
        };
    };
}

#[cfg(target_pointer_width = "64")]
mod layout {
    use super::*;

    lies!(Handle: 8 { address: 0 });
    lies!(Bytes: 16 { start: 0, length: 8 });
    lies!(Section: 40 { svma_start: 0, svma_end: 8, bytes.start: 16, bytes.length: 24, has_range: 32, has_bytes: 33 });
    lies!(Sections: 488 {
        base_svma: 0, text: 8, stubs: 48, stub_helper: 88, got: 128, unwind_info: 168, eh_frame: 208,
        eh_frame_hdr: 248, debug_frame: 288, text_segment: 328, pdata: 368, rdata: 408, xdata: 448,
    });
    lies!(RegistersX86_64: 136 { ip: 0, general: 8 });
    lies!(RegistersAarch64: 32 { lr_mask: 0, lr: 8, sp: 16, fp: 24 });
    lies!(Window: 24 { base: 0, words: 8, word_count: 16 });
    lies!(Walk: 16 { frame_count: 0, unreadable: 8 });
    lies!(Step: 32 { return_address: 0, unreadable: 8, missing: 16, has_missing: 24 });
    lies!(Ahead: 24 { first: 0, second: 8, count: 16, lookup: 20 });
    lies!(Next: 48 {
        return_address: 0, unreadable: 8, ahead.first: 16, ahead.second: 24, ahead.count: 32, ahead.lookup: 36, lookup: 40,
    });
    lies!(CacheStats: 32 {
        hit_count: 0, miss_empty_slot_count: 8, miss_wrong_modules_count: 16, miss_wrong_address_count: 24,
    });
}

unsafe extern "C" {
    pub fn framehop_version() -> u32;
    pub fn framehop_generations_new(place: *mut Handle) -> i32;
    pub fn framehop_free(handle: Handle);
}

macro_rules! declare {
    ($registers:ty, $cache_new:ident, $cache_stats:ident, $new:ident, $clone:ident, $add_module:ident,
        $remove_module:ident, $max_known_code_address:ident, $walk:ident, $unwind_frame:ident, $walk_on:ident,
        $next_frame:ident) => {
        unsafe extern "C" {
            pub fn $cache_new(may_allocate: bool, place: *mut Handle) -> i32;
            pub fn $cache_stats(cache: *mut Handle, stats: *mut CacheStats) -> i32;
            pub fn $new(generations: *mut Handle, may_allocate: bool, place: *mut Handle) -> i32;
            pub fn $clone(unwinder: *mut Handle, place: *mut Handle) -> i32;
            pub fn $add_module(
                unwinder: *mut Handle,
                generations: *mut Handle,
                avma_start: u64,
                avma_end: u64,
                base_avma: u64,
                sections: *const Sections,
            ) -> i32;
            pub fn $remove_module(unwinder: *mut Handle, generations: *mut Handle, avma_start: u64) -> i32;
            pub fn $max_known_code_address(unwinder: *mut Handle, address: *mut u64) -> i32;
            pub fn $walk(
                unwinder: *mut Handle,
                cache: *mut Handle,
                pc: u64,
                registers: *mut $registers,
                stack: *const Window,
                frames: *mut u64,
                frame_capacity: usize,
                walk: *mut Walk,
            ) -> i32;
            pub fn $unwind_frame(
                unwinder: *mut Handle,
                cache: *mut Handle,
                address: u64,
                is_return_address: bool,
                registers: *mut $registers,
                windows: *const Window,
                window_count: usize,
                step: *mut Step,
            ) -> i32;
            pub fn $walk_on(
                unwinder: *mut Handle,
                cache: *mut Handle,
                address: u64,
                is_return_address: bool,
                registers: *mut $registers,
                windows: *const Window,
                window_count: usize,
                frames: *mut u64,
                frame_capacity: usize,
                walk: *mut Walk,
            ) -> i32;
            pub fn $next_frame(
                unwinder: *mut Handle,
                cache: *mut Handle,
                address: u64,
                is_return_address: bool,
                registers: *mut $registers,
                windows: *const Window,
                window_count: usize,
                next: *mut Next,
            ) -> i32;
        }
    };
}

declare!(
    RegistersX86_64,
    framehop_cache_x86_64_new,
    framehop_cache_x86_64_stats,
    framehop_unwinder_x86_64_new,
    framehop_unwinder_x86_64_clone,
    framehop_unwinder_x86_64_add_module,
    framehop_unwinder_x86_64_remove_module,
    framehop_unwinder_x86_64_max_known_code_address,
    framehop_unwinder_x86_64_walk,
    framehop_unwinder_x86_64_unwind_frame,
    framehop_unwinder_x86_64_walk_on,
    framehop_unwinder_x86_64_next_frame
);

declare!(
    RegistersAarch64,
    framehop_cache_aarch64_new,
    framehop_cache_aarch64_stats,
    framehop_unwinder_aarch64_new,
    framehop_unwinder_aarch64_clone,
    framehop_unwinder_aarch64_add_module,
    framehop_unwinder_aarch64_remove_module,
    framehop_unwinder_aarch64_max_known_code_address,
    framehop_unwinder_aarch64_walk,
    framehop_unwinder_aarch64_unwind_frame,
    framehop_unwinder_aarch64_walk_on,
    framehop_unwinder_aarch64_next_frame
);
