//! Unwinding on aarch64.
use crate::iterator::Run;
use crate::layouts::Pointers;
use crate::unwinder::{Frame, FrameWords, Kept, Step, Unwinder, end_of, step_with, unwinder, walk_with};
use crate::{
    AllocationPolicy, CacheStats, Error, FrameAddress, Generations, MayAllocateDuringUnwind, Module, ModuleListError,
    Owned, raw,
};
use std::fmt;
use std::marker::PhantomData;
use std::ops::Deref;

/// The bits of a pointer that are its address.
#[derive(Clone, Copy, Debug, PartialEq, Eq, PartialOrd, Ord, Hash)]
pub struct PtrAuthMask(pub u64);

impl PtrAuthMask {
    /// Strips nothing.
    pub fn new_no_strip() -> Self {
        PtrAuthMask(u64::MAX)
    }

    /// 24 bits of authentication above 40 of address, as on macOS arm64e.
    pub fn new_24_40() -> Self {
        PtrAuthMask(u64::MAX >> 24)
    }

    /// The leading zero bits of the highest code address (AVMA) are taken to be those of the authentication.
    pub fn from_max_known_address(address: u64) -> Self {
        PtrAuthMask(u64::MAX.checked_shr(address.leading_zeros()).unwrap_or(0))
    }

    pub fn strip_ptr_auth(&self, ptr: u64) -> u64 {
        ptr & self.0
    }
}

/// The registers that unwinding needs: lr (x30), sp (x31) and fp (x29). lr is always stored stripped.
#[derive(Clone, Copy, PartialEq, Eq)]
pub struct UnwindRegsAarch64(pub(crate) raw::RegistersAarch64);

impl UnwindRegsAarch64 {
    pub fn new(lr: u64, sp: u64, fp: u64) -> Self {
        Self::new_with_ptr_auth_mask(PtrAuthMask::new_no_strip(), lr, sp, fp)
    }

    pub fn new_with_ptr_auth_mask(code_ptr_auth_mask: PtrAuthMask, lr: u64, sp: u64, fp: u64) -> Self {
        let lr = code_ptr_auth_mask.strip_ptr_auth(lr);
        UnwindRegsAarch64(raw::RegistersAarch64 { lr_mask: code_ptr_auth_mask.0, lr, sp, fp })
    }

    pub fn lr_mask(&self) -> PtrAuthMask {
        PtrAuthMask(self.0.lr_mask)
    }

    pub fn lr(&self) -> u64 {
        self.0.lr
    }

    pub fn set_lr(&mut self, lr: u64) {
        self.0.lr = self.lr_mask().strip_ptr_auth(lr);
    }

    pub fn sp(&self) -> u64 {
        self.0.sp
    }

    pub fn set_sp(&mut self, sp: u64) {
        self.0.sp = sp;
    }

    pub fn fp(&self) -> u64 {
        self.0.fp
    }

    pub fn set_fp(&mut self, fp: u64) {
        self.0.fp = fp;
    }
}

impl FrameWords for UnwindRegsAarch64 {
    #[inline]
    fn pointers(&self) -> Pointers {
        Pointers { stack: self.sp(), frame: self.fp() }
    }

    /// A rule by frame records ends at the frame pointer 0, and is refused where it does not rise.
    #[inline]
    fn leads_on(frame_pointer: u64, caller_frame_pointer: u64) -> bool {
        frame_pointer < caller_frame_pointer
    }

    #[inline(always)]
    fn upwards<T>([first, last]: [T; 2]) -> [T; 2] {
        [last, first]
    }

    /// Each rule reads it first.
    #[inline(always)]
    fn return_address(&self, words: [u64; 2]) -> u64 {
        self.lr_mask().strip_ptr_auth(words[0])
    }

    /// A step asks for the return address first, and in a frame record the frame pointer is in the word below it.
    fn words_from(&self, missing: u64) -> u64 {
        match missing.checked_sub(8) {
            Some(below) if below >= self.sp() => below,
            _ => missing,
        }
    }
}

impl fmt::Debug for UnwindRegsAarch64 {
    fn fmt(&self, f: &mut fmt::Formatter<'_>) -> fmt::Result {
        f.debug_struct("UnwindRegsAarch64")
            .field("lr", &format_args!("{:x}", self.lr()))
            .field("sp", &format_args!("{:x}", self.sp()))
            .field("fp", &format_args!("{:x}", self.fp()))
            .finish()
    }
}

unwinder!(
    UnwinderAarch64,
    CacheAarch64,
    UnwindRegsAarch64,
    framehop_cache_aarch64_new,
    framehop_cache_aarch64_stats,
    framehop_unwinder_aarch64_new,
    framehop_unwinder_aarch64_clone,
    framehop_unwinder_aarch64_add_module,
    framehop_unwinder_aarch64_remove_module,
    framehop_unwinder_aarch64_max_known_code_address,
    framehop_unwinder_aarch64_walk,
    framehop_unwinder_aarch64_unwind_frame,
    framehop_unwinder_aarch64_walk_on,
    framehop_unwinder_aarch64_next_frame
);
