//! A stack frame unwinder with framehop's interface, over the archive `libframehop_c.a`, which is proved. What is
//! proved begins at the calls of that archive; this crate keeps the duties that its header asks for.
//!
//! Unwinders, caches and modules that were added stay on the thread that made them. All unwinders of a thread draw
//! from one counter of generations, so that they can share a cache.
//!
//! # Bytes that are lent outlive the unwinder
//!
//! ```
//! use framehop_rattle::x86_64::UnwinderX86_64;
//! use framehop_rattle::{ExplicitModuleSectionInfo, Module, Unwinder};
//!
//! fn module(bytes: &[u8]) -> Module<&[u8]> {
//!     let info = ExplicitModuleSectionInfo { debug_frame: Some(bytes), ..Default::default() };
//!     Module::new(String::new(), 0x1000..0x2000, 0x1000, info)
//! }
//!
//! let bytes = vec![0; 4];
//! let mut unwinder: UnwinderX86_64<_> = UnwinderX86_64::new();
//! unwinder.add_module(module(&bytes));
//! ```
//!
//! Nothing else compiles. The unwinder is declared first, so it would be dropped last:
//!
//! ```compile_fail,E0597
//! # use framehop_rattle::x86_64::UnwinderX86_64;
//! # use framehop_rattle::{ExplicitModuleSectionInfo, Module, Unwinder};
//! # fn module(bytes: &[u8]) -> Module<&[u8]> {
//! #     let info = ExplicitModuleSectionInfo { debug_frame: Some(bytes), ..Default::default() };
//! #     Module::new(String::new(), 0x1000..0x2000, 0x1000, info)
//! # }
//! let mut unwinder: UnwinderX86_64<_> = UnwinderX86_64::new();
//! let bytes = vec![0; 4];
//! unwinder.add_module(module(&bytes));
//! ```
//!
//! The clone is declared first:
//!
//! ```compile_fail,E0597
//! # use framehop_rattle::aarch64::UnwinderAarch64;
//! # use framehop_rattle::{ExplicitModuleSectionInfo, Module, Unwinder};
//! # fn module(bytes: &[u8]) -> Module<&[u8]> {
//! #     let info = ExplicitModuleSectionInfo { debug_frame: Some(bytes), ..Default::default() };
//! #     Module::new(String::new(), 0x1000..0x2000, 0x1000, info)
//! # }
//! let clone: UnwinderAarch64<_>;
//! let bytes = vec![0; 4];
//! let mut unwinder: UnwinderAarch64<_> = UnwinderAarch64::new();
//! unwinder.add_module(module(&bytes));
//! clone = unwinder.clone();
//! ```
//!
//! Both are in one binding, whose drops come in an order of its own:
//!
//! ```compile_fail,E0597
//! # use framehop_rattle::x86_64::UnwinderX86_64;
//! # use framehop_rattle::{ExplicitModuleSectionInfo, Module, Unwinder};
//! # fn module(bytes: &[u8]) -> Module<&[u8]> {
//! #     let info = ExplicitModuleSectionInfo { debug_frame: Some(bytes), ..Default::default() };
//! #     Module::new(String::new(), 0x1000..0x2000, 0x1000, info)
//! # }
//! let (mut unwinder, bytes): (UnwinderX86_64<_>, Vec<u8>) = (UnwinderX86_64::new(), vec![0; 4]);
//! unwinder.add_module(module(&bytes));
//! ```
//!
//! The bytes are dropped by hand, also where the module is removed before that:
//!
//! ```compile_fail,E0505
//! # use framehop_rattle::x86_64::UnwinderX86_64;
//! # use framehop_rattle::{ExplicitModuleSectionInfo, Module, Unwinder};
//! # fn module(bytes: &[u8]) -> Module<&[u8]> {
//! #     let info = ExplicitModuleSectionInfo { debug_frame: Some(bytes), ..Default::default() };
//! #     Module::new(String::new(), 0x1000..0x2000, 0x1000, info)
//! # }
//! let bytes = vec![0; 4];
//! let mut unwinder: UnwinderX86_64<_> = UnwinderX86_64::new();
//! unwinder.add_module(module(&bytes));
//! unwinder.remove_module(0x1000);
//! drop(bytes);
//! ```
//!
//! # Nothing leaves its thread
//!
//! ```compile_fail,E0277
//! fn leaves<T: Send>(_: T) {}
//! leaves(framehop_rattle::x86_64::UnwinderX86_64::<Vec<u8>>::new());
//! ```
//!
//! ```compile_fail,E0277
//! fn is_shared<T: Sync>(_: T) {}
//! is_shared(framehop_rattle::aarch64::UnwinderAarch64::<Vec<u8>>::new());
//! ```
//!
//! ```compile_fail,E0277
//! fn leaves<T: Send>(_: T) {}
//! leaves(framehop_rattle::aarch64::CacheAarch64::new());
//! ```
//!
//! ```compile_fail,E0277
//! fn is_shared<T: Sync>(_: T) {}
//! is_shared(framehop_rattle::x86_64::CacheX86_64::new());
//! ```
//!
//! A module may be made on another thread:
//!
//! ```
//! fn leaves<T: Send>() {}
//! leaves::<framehop_rattle::Module<Vec<u8>>>();
//! ```

use std::cell::{Cell, OnceCell};
use std::fmt;
use std::num::NonZeroU64;
use std::rc::Rc;

pub mod aarch64;
mod fallible;
mod iterator;
mod layouts;
mod module;
mod raw;
mod unwinder;
mod words;
pub mod x86_64;

pub use fallible::{FallibleIterator, Results};
pub use iterator::UnwindIterator;
pub use module::{ExplicitModuleSectionInfo, Module, ModuleSectionInfo};
pub use raw::CacheStats;
pub use unwinder::Unwinder;

/// The cache of the architecture that this crate is compiled for.
#[cfg(target_arch = "aarch64")]
pub type CacheNative<P> = aarch64::CacheAarch64<P>;
/// The registers of the architecture that this crate is compiled for.
#[cfg(target_arch = "aarch64")]
pub type UnwindRegsNative = aarch64::UnwindRegsAarch64;
/// The unwinder of the architecture that this crate is compiled for.
#[cfg(target_arch = "aarch64")]
pub type UnwinderNative<D, P> = aarch64::UnwinderAarch64<D, P>;

/// The cache of the architecture that this crate is compiled for.
#[cfg(target_arch = "x86_64")]
pub type CacheNative<P> = x86_64::CacheX86_64<P>;
/// The registers of the architecture that this crate is compiled for.
#[cfg(target_arch = "x86_64")]
pub type UnwindRegsNative = x86_64::UnwindRegsX86_64;
/// The unwinder of the architecture that this crate is compiled for.
#[cfg(target_arch = "x86_64")]
pub type UnwinderNative<D, P> = x86_64::UnwinderX86_64<D, P>;

/// Returns the version of the archive that is linked, as `[major, minor, patch]`: that of this crate.
pub fn archive_version() -> [u32; 3] {
    // SAFETY: it takes nothing
    let number = unsafe { raw::framehop_version() };
    [number / 10000, number / 100 % 100, number % 100]
}

/// A code address of a frame (AVMA): the instruction pointer or a return address.
#[derive(Clone, Copy, Debug, PartialEq, Eq)]
pub enum FrameAddress {
    InstructionPointer(u64),
    ReturnAddress(NonZeroU64),
}

impl FrameAddress {
    pub fn from_instruction_pointer(ip: u64) -> Self {
        FrameAddress::InstructionPointer(ip)
    }

    /// `None` for the return address 0.
    pub fn from_return_address(return_address: u64) -> Option<Self> {
        NonZeroU64::new(return_address).map(FrameAddress::ReturnAddress)
    }

    /// The number of the address, an AVMA.
    pub fn address(self) -> u64 {
        match self {
            FrameAddress::InstructionPointer(address) => address,
            FrameAddress::ReturnAddress(address) => address.get(),
        }
    }

    /// The AVMA by which the frame is looked up: of a return address the byte before it, which is of the call.
    pub fn address_for_lookup(self) -> u64 {
        match self {
            FrameAddress::InstructionPointer(address) => address,
            FrameAddress::ReturnAddress(address) => address.get() - 1,
        }
    }

    pub fn is_return_address(self) -> bool {
        matches!(self, FrameAddress::ReturnAddress(_))
    }
}

/// Why a frame could not be unwound.
#[derive(Clone, Copy, Debug, PartialEq, Eq)]
pub enum Error {
    /// The callback could not read the stack word at this address (AVMA).
    CouldNotReadStack(u64),
    FramepointerUnwindingMovedBackwards,
    DidNotAdvance,
    IntegerOverflow,
    ReturnAddressIsNull,
    /// An allocation failed; or, under [`MustNotAllocateDuringUnwind`], a frame asked for more than 512 stack words.
    OutOfMemory,
}

impl fmt::Display for Error {
    fn fmt(&self, f: &mut fmt::Formatter<'_>) -> fmt::Result {
        match self {
            Error::CouldNotReadStack(address) => {
                write!(f, "Could not read stack memory at 0x{address:x}")
            }
            Error::FramepointerUnwindingMovedBackwards => f.write_str("Frame pointer unwinding moved backwards"),
            Error::DidNotAdvance => f.write_str("Neither the code address nor the stack pointer changed, would loop"),
            Error::IntegerOverflow => f.write_str("Unwinding caused integer overflow"),
            Error::ReturnAddressIsNull => f.write_str("Return address is null"),
            Error::OutOfMemory => f.write_str("Out of memory"),
        }
    }
}

impl std::error::Error for Error {}

impl Error {
    fn of_status(status: i32, unreadable: u64) -> Error {
        match status {
            raw::OUT_OF_MEMORY => Error::OutOfMemory,
            raw::COULD_NOT_READ_STACK => Error::CouldNotReadStack(unreadable),
            raw::MOVED_BACKWARDS => Error::FramepointerUnwindingMovedBackwards,
            raw::DID_NOT_ADVANCE => Error::DidNotAdvance,
            raw::INTEGER_OVERFLOW => Error::IntegerOverflow,
            raw::RETURN_ADDRESS_IS_NULL => Error::ReturnAddressIsNull,
            other => unreachable!("a handle of this crate's gave the status {other}"),
        }
    }
}

/// Why an object could not be made, or the modules of an unwinder not be changed.
#[derive(Clone, Copy, Debug, PartialEq, Eq)]
pub enum ModuleListError {
    OutOfMemory,
    GenerationsExhausted,
}

impl fmt::Display for ModuleListError {
    fn fmt(&self, f: &mut fmt::Formatter<'_>) -> fmt::Result {
        f.write_str(match self {
            ModuleListError::OutOfMemory => "Out of memory",
            ModuleListError::GenerationsExhausted => "Generations exhausted",
        })
    }
}

impl std::error::Error for ModuleListError {}

impl ModuleListError {
    fn of_status(status: i32) -> Result<(), ModuleListError> {
        match status {
            raw::OK => Ok(()),
            raw::OUT_OF_MEMORY => Err(ModuleListError::OutOfMemory),
            raw::GENERATIONS_EXHAUSTED => Err(ModuleListError::GenerationsExhausted),
            other => unreachable!("a handle of this crate's gave the status {other}"),
        }
    }
}

/// An object of the archive, freed once. The raw pointer keeps it on its thread.
struct Owned(raw::Handle);

impl Owned {
    fn new(make: impl FnOnce(*mut raw::Handle) -> i32) -> Result<Owned, ModuleListError> {
        let mut place = raw::Handle { address: std::ptr::null_mut() };
        ModuleListError::of_status(make(&mut place))?;
        Ok(Owned(place))
    }

    /// The handle for one call, which leaves it as it is.
    fn handle(&self) -> raw::Handle {
        self.0
    }
}

impl Drop for Owned {
    fn drop(&mut self) {
        // SAFETY: a maker has written it, and nobody else frees it
        unsafe { raw::framehop_free(self.0) }
    }
}

/// The counter from which lists of modules draw their numbers: one a thread, which its unwinders keep alive.
#[derive(Clone)]
struct Generations(Rc<Counter>);

/// The archive's counter, and this crate's own, since the archive tells nobody its numbers.
struct Counter {
    archive: Owned,
    lists: Cell<u32>,
}

thread_local! {
    static GENERATIONS: OnceCell<Generations> = const { OnceCell::new() };
}

impl Generations {
    fn new() -> Result<Self, ModuleListError> {
        // SAFETY: the place is lent for the call
        let made = Owned::new(|place| unsafe { raw::framehop_generations_new(place) })?;
        Ok(Generations(Rc::new(Counter { archive: made, lists: Cell::new(0) })))
    }

    /// The archive's counter for one call, which nobody else uses meanwhile.
    fn handle(&self) -> raw::Handle {
        self.0.archive.handle()
    }

    /// A number for a list of modules that no other list of this thread has: 0 where there are no more of them.
    fn new_list(&self) -> u32 {
        let list = self.0.lists.get().checked_add(1);
        self.0.lists.set(list.unwrap_or(u32::MAX));
        list.unwrap_or(0)
    }

    /// The counter of this thread. A second one is never made, since a cache may have served the first.
    ///
    /// # Panics
    ///
    /// In a destructor of a thread-local value that runs after the counter's own.
    fn of_thread() -> Result<Self, ModuleListError> {
        GENERATIONS.with(|made| match made.get() {
            Some(generations) => Ok(generations.clone()),
            None => {
                let generations = Generations::new()?;
                Ok(made.get_or_init(|| generations).clone())
            }
        })
    }
}

mod sealed {
    pub trait Policy {
        const MAY_ALLOCATE: bool;
    }
}

/// Whether unwinding may take memory: [`MayAllocateDuringUnwind`] or [`MustNotAllocateDuringUnwind`].
pub trait AllocationPolicy: sealed::Policy {}

/// Unwinding may take memory. This is the usual policy.
pub struct MayAllocateDuringUnwind;

/// Unwinding takes no memory, and some DWARF unwind data is too large for it.
pub struct MustNotAllocateDuringUnwind;

impl sealed::Policy for MayAllocateDuringUnwind {
    const MAY_ALLOCATE: bool = true;
}

impl sealed::Policy for MustNotAllocateDuringUnwind {
    const MAY_ALLOCATE: bool = false;
}

impl AllocationPolicy for MayAllocateDuringUnwind {}

impl AllocationPolicy for MustNotAllocateDuringUnwind {}
