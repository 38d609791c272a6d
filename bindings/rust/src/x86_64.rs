//! Unwinding on x86_64.
use crate::iterator::Run;
use crate::layouts::Pointers;
use crate::unwinder::{Frame, FrameWords, Kept, Step, Unwinder, end_of, step_with, unwinder, walk_with};
use crate::{
    AllocationPolicy, CacheStats, Error, FrameAddress, Generations, MayAllocateDuringUnwind, Module, ModuleListError,
    Owned, raw,
};
use std::fmt;
use std::marker::PhantomData;
use std::ops::Deref;

/// A general register.
#[derive(Clone, Copy, Debug, PartialEq, Eq, PartialOrd, Ord, Hash)]
pub enum Reg {
    RAX,
    RDX,
    RCX,
    RBX,
    RSI,
    RDI,
    RBP,
    RSP,
    R8,
    R9,
    R10,
    R11,
    R12,
    R13,
    R14,
    R15,
}

/// The registers that unwinding needs: rip and the sixteen general ones.
#[derive(Clone, Copy, PartialEq, Eq)]
pub struct UnwindRegsX86_64(pub(crate) raw::RegistersX86_64);

impl UnwindRegsX86_64 {
    pub fn new(ip: u64, sp: u64, bp: u64) -> Self {
        let mut regs = UnwindRegsX86_64(raw::RegistersX86_64 { ip, ..Default::default() });
        regs.set_sp(sp);
        regs.set_bp(bp);
        regs
    }

    pub fn get(&self, reg: Reg) -> u64 {
        self.0.general[reg as usize]
    }

    pub fn set(&mut self, reg: Reg, value: u64) {
        self.0.general[reg as usize] = value;
    }

    pub fn ip(&self) -> u64 {
        self.0.ip
    }

    pub fn set_ip(&mut self, ip: u64) {
        self.0.ip = ip;
    }

    pub fn sp(&self) -> u64 {
        self.get(Reg::RSP)
    }

    pub fn set_sp(&mut self, sp: u64) {
        self.set(Reg::RSP, sp);
    }

    pub fn bp(&self) -> u64 {
        self.get(Reg::RBP)
    }

    pub fn set_bp(&mut self, bp: u64) {
        self.set(Reg::RBP, bp);
    }
}

impl FrameWords for UnwindRegsX86_64 {
    #[inline]
    fn pointers(&self) -> Pointers {
        Pointers { stack: self.sp(), frame: self.bp() }
    }

    #[inline]
    /// The caller's frame pointer may be anything.
    fn leads_on(_frame_pointer: u64, _caller_frame_pointer: u64) -> bool {
        true
    }

    #[inline(always)]
    fn upwards<T>(asked: [T; 2]) -> [T; 2] {
        asked
    }

    /// Each rule reads it last.
    #[inline(always)]
    fn return_address(&self, words: [u64; 2]) -> u64 {
        words[1]
    }

    /// The first word that a step asks for is mostly the lowest.
    fn words_from(&self, missing: u64) -> u64 {
        missing
    }
}

impl fmt::Debug for UnwindRegsX86_64 {
    fn fmt(&self, f: &mut fmt::Formatter<'_>) -> fmt::Result {
        const NAMES: [&str; 16] = [
            "rax", "rdx", "rcx", "rbx", "rsi", "rdi", "rbp", "rsp", "r8", "r9", "r10", "r11", "r12", "r13", "r14",
            "r15",
        ];
        let mut debug = f.debug_struct("UnwindRegsX86_64");
        debug.field("ip", &format_args!("{:x}", self.0.ip));
        for (name, value) in NAMES.iter().zip(self.0.general) {
            debug.field(name, &format_args!("{value:x}"));
        }
        debug.finish()
    }
}

unwinder!(
    UnwinderX86_64,
    CacheX86_64,
    UnwindRegsX86_64,
    framehop_cache_x86_64_new,
    framehop_cache_x86_64_stats,
    framehop_unwinder_x86_64_new,
    framehop_unwinder_x86_64_clone,
    framehop_unwinder_x86_64_add_module,
    framehop_unwinder_x86_64_remove_module,
    framehop_unwinder_x86_64_max_known_code_address,
    framehop_unwinder_x86_64_walk,
    framehop_unwinder_x86_64_unwind_frame,
    framehop_unwinder_x86_64_walk_on,
    framehop_unwinder_x86_64_next_frame
);
