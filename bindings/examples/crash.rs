//! Prints the stack of a crash from within the signal handler, without allocating.
//!
//!     cargo run --example crash
//!
//! For Linux on x86_64. All that the handler needs is made beforehand: the modules that are loaded then, each with the
//! bytes of `.eh_frame_hdr` and `.eh_frame` where they are in memory; an unwinder and a cache under
//! [`MustNotAllocateDuringUnwind`]; and a stack for the handler, so that a stack overflow is printed, too. The handler
//! reads the stack by a system call that fails where there is no memory. It prints addresses in files: `addr2line -e FILE`
//! tells the source lines of `FILE+ADDRESS`.
//!
//! `crash deep` crashes in a recursion, `crash overflow` by a stack that is too small, `crash sort` below the standard
//! library. With a second argument `beside` it also prints what the unwinder of std's `Backtrace` finds there, and that
//! `Backtrace`, which allocates: no handler should.
use framehop_rattle::x86_64::{CacheX86_64, Reg, UnwindRegsX86_64, UnwinderX86_64};
use framehop_rattle::{Error, ExplicitModuleSectionInfo, Module, MustNotAllocateDuringUnwind, Unwinder};
use std::backtrace::Backtrace;
use std::ffi::{CStr, c_int, c_void};
use std::fmt::{self, Write};
use std::hint::black_box;
use std::ops::Range;
use std::ptr::{null, null_mut};
use std::sync::atomic::{AtomicPtr, Ordering};

/// What this program uses of the C library, as `<signal.h>`, `<link.h>`, `<sys/uio.h>` and `<unwind.h>` of glibc declare it
/// for x86_64.
mod c {
    use std::ffi::{c_char, c_int, c_long, c_ulong, c_void};

    pub const SIGSEGV: c_int = 11;
    pub const SA_SIGINFO: c_int = 4;
    pub const SA_ONSTACK: c_int = 0x0800_0000;
    pub const SA_RESETHAND: c_int = 0x8000_0000_u32 as c_int;
    pub const PT_LOAD: u32 = 1;
    pub const PT_GNU_EH_FRAME: u32 = 0x6474_e550;
    pub const PF_X: u32 = 1;

    #[repr(C)]
    pub struct SignalAction {
        pub handler: extern "C" fn(c_int, *const c_void, *const Context),
        pub mask: [c_ulong; 16],
        pub flags: c_int,
        pub restorer: *const c_void,
    }

    #[repr(C)]
    pub struct SignalStack {
        pub start: *mut c_void,
        pub flags: c_int,
        pub size: usize,
    }

    /// The beginning of `ucontext_t`, with the registers r8 to r15, rdi, rsi, rbp, rbx, rdx, rax, rcx, rsp and rip.
    #[repr(C)]
    pub struct Context {
        pub flags: c_ulong,
        pub link: *const c_void,
        pub stack: SignalStack,
        pub registers: [u64; 17],
    }

    #[repr(C)]
    pub struct ProgramHeader {
        pub kind: u32,
        pub flags: u32,
        pub offset: u64,
        pub address: u64,
        pub physical_address: u64,
        pub file_size: u64,
        pub memory_size: u64,
        pub alignment: u64,
    }

    #[repr(C)]
    pub struct LoadedModule {
        pub base: u64,
        pub name: *const c_char,
        pub headers: *const ProgramHeader,
        pub header_count: u16,
    }

    #[repr(C)]
    pub struct Memory {
        pub start: *mut c_void,
        pub size: usize,
    }

    unsafe extern "C" {
        pub fn sigaction(signal: c_int, new: *const SignalAction, old: *mut SignalAction) -> c_int;
        pub fn sigaltstack(new: *const SignalStack, old: *mut SignalStack) -> c_int;
        pub fn write(file: c_int, bytes: *const u8, count: usize) -> isize;
        pub fn getpid() -> c_int;
        pub fn dl_iterate_phdr(
            each: extern "C" fn(*const LoadedModule, usize, *mut c_void) -> c_int,
            data: *mut c_void,
        ) -> c_int;
        pub fn process_vm_readv(
            process: c_int,
            local: *const Memory,
            local_count: c_ulong,
            remote: *const Memory,
            remote_count: c_ulong,
            flags: c_ulong,
        ) -> isize;
        pub fn _Unwind_Backtrace(each: extern "C" fn(*const c_void, *mut c_void) -> c_int, data: *mut c_void) -> c_int;
        pub fn _Unwind_GetIP(frame: *const c_void) -> c_long;
    }
}

/// The most frames that are printed.
const FRAMES: usize = 200;
/// The size of the handler's stack, in bytes.
const HANDLER_STACK: usize = 256 << 10;

/// Where a module is, and its name.
struct Place {
    name: String,
    base: u64,
    code: Range<u64>,
}

/// What the handler needs.
struct CrashPrinter {
    unwinder: UnwinderX86_64<&'static [u8], MustNotAllocateDuringUnwind>,
    cache: CacheX86_64<MustNotAllocateDuringUnwind>,
    places: Vec<Place>,
    beside: bool,
}

/// The printer, once it is installed. An unwinder is used by one thread at a time: who takes it leaves none.
static PRINTER: AtomicPtr<CrashPrinter> = AtomicPtr::new(null_mut());

/// The bytes of a module from an SVMA on, to the end of the segment that has it, and where they are.
fn from_here(base: u64, headers: &[c::ProgramHeader], svma: u64) -> Option<(Range<u64>, &'static [u8])> {
    let holds =
        |it: &&c::ProgramHeader| it.kind == c::PT_LOAD && (it.address..it.address + it.file_size).contains(&svma);
    let segment = headers.iter().find(holds)?;
    let range = svma..segment.address + segment.file_size;
    // SAFETY: the segment is mapped there as long as the module is loaded, and this program unloads none
    let bytes = unsafe { std::slice::from_raw_parts((base + svma) as *const u8, (range.end - svma) as usize) };
    Some((range, bytes))
}

/// Where the unwind data of a module is. Its `.eh_frame_hdr` is a segment; that says where `.eh_frame` is, as a number of
/// four bytes that counts from where it is stored (`DW_EH_PE_pcrel | DW_EH_PE_sdata4`), which all linkers write.
fn sections_of(base: u64, headers: &[c::ProgramHeader]) -> Option<ExplicitModuleSectionInfo<&'static [u8]>> {
    let header = headers.iter().find(|it| it.kind == c::PT_GNU_EH_FRAME)?;
    let (header_range, header_bytes) = from_here(base, headers, header.address)?;
    let encoding = *header_bytes.get(1)?;
    let distance = i32::from_le_bytes(header_bytes.get(4..8)?.try_into().ok()?);
    let start = (header_range.start + 4).checked_add_signed(distance.into())?;
    let (range, bytes) = from_here(base, headers, start).filter(|_| encoding == 0x1b)?;
    Some(ExplicitModuleSectionInfo {
        eh_frame_svma: Some(range),
        eh_frame: Some(bytes),
        eh_frame_hdr_svma: Some(header_range),
        eh_frame_hdr: Some(header_bytes),
        ..Default::default()
    })
}

extern "C" fn add_module(module: *const c::LoadedModule, _size: usize, printer: *mut c_void) -> c_int {
    // SAFETY: dl_iterate_phdr calls this with a module and with what it was given
    let (module, printer) = unsafe { (&*module, &mut *printer.cast::<CrashPrinter>()) };
    // SAFETY: a loaded module has as many headers, and a name
    let (headers, name) = unsafe {
        (std::slice::from_raw_parts(module.headers, module.header_count.into()), CStr::from_ptr(module.name))
    };
    let is_code = |it: &&c::ProgramHeader| it.kind == c::PT_LOAD && it.flags & c::PF_X != 0;
    let (Some(code), Some(sections)) = (headers.iter().find(is_code), sections_of(module.base, headers)) else {
        return 0;
    };
    let start = module.base + code.address;
    let name = match name.to_string_lossy() {
        // the program itself
        name if name.is_empty() => std::env::args().next().unwrap_or_default(),
        name => name.into_owned(),
    };
    let code = start..start + code.memory_size;
    printer.unwinder.add_module(Module::new(name.clone(), code.clone(), module.base, sections));
    printer.places.push(Place { name, base: module.base, code });
    0
}

/// Has the stacks of crashes of this thread printed.
fn install(beside: bool) {
    let mut printer = Box::new(CrashPrinter {
        unwinder: UnwinderX86_64::new(),
        cache: CacheX86_64::new_in(),
        places: Vec::new(),
        beside,
    });
    let stack = Box::leak(vec![0_u8; HANDLER_STACK].into_boxed_slice());
    let stack = c::SignalStack { start: stack.as_mut_ptr().cast(), flags: 0, size: stack.len() };
    let flags = c::SA_SIGINFO | c::SA_ONSTACK | c::SA_RESETHAND;
    let action = c::SignalAction { handler: on_crash, mask: [0; 16], flags, restorer: null() };
    // SAFETY: add_module takes a CrashPrinter, and the handler's stack is never freed
    let refused = unsafe {
        c::dl_iterate_phdr(add_module, (&raw mut *printer).cast());
        PRINTER.store(Box::into_raw(printer), Ordering::Release);
        c::sigaltstack(&stack, null_mut()) | c::sigaction(c::SIGSEGV, &action, null_mut())
    };
    assert_eq!(refused, 0, "the handler is not installed");
}

/// Prints the stack. The handler stands for one signal: on return the crash comes again, and ends the program.
extern "C" fn on_crash(_signal: c_int, _information: *const c_void, context: *const c::Context) {
    let printer = PRINTER.swap(null_mut(), Ordering::Acquire);
    // SAFETY: the printer was leaked by `install`, and is taken once; the kernel hands in the context
    let (Some(printer), context) = (unsafe { printer.as_mut() }, unsafe { &*context }) else { return };
    let mut out = StandardError;
    let _ = printer.print(&mut out, registers_of(&context.registers));
    if printer.beside {
        print_beside(&mut out);
    }
}

fn registers_of(registers: &[u64; 17]) -> UnwindRegsX86_64 {
    use Reg::*;
    let order = [R8, R9, R10, R11, R12, R13, R14, R15, RDI, RSI, RBP, RBX, RDX, RAX, RCX, RSP];
    let mut found = UnwindRegsX86_64::new(registers[16], 0, 0);
    for (reg, value) in order.into_iter().zip(registers) {
        found.set(reg, *value);
    }
    found
}

impl CrashPrinter {
    /// Prints a line for each frame.
    fn print(&mut self, out: &mut impl Write, mut regs: UnwindRegsX86_64) -> fmt::Result {
        let mut frames = [0; FRAMES];
        let pc = regs.ip();
        let (count, end) = self.unwinder.walk_with(pc, &mut regs, &mut self.cache, read_words, &mut frames);
        for (number, address) in frames[..count].iter().enumerate() {
            // a return address is that of the instruction after the call
            let lookup = if number == 0 { *address } else { *address - 1 };
            write!(out, "#{number} {address:#x}")?;
            match self.places.iter().find(|place| place.code.contains(&lookup)) {
                Some(place) => writeln!(out, " {}+{:#x}", place.name, lookup - place.base)?,
                None => writeln!(out)?,
            }
        }
        match end {
            Ok(true) => writeln!(out, "the root of the stack"),
            Ok(false) => writeln!(out, "and more"),
            Err(error) => print_error(out, error),
        }
    }
}

fn print_error(out: &mut impl Write, error: Error) -> fmt::Result {
    writeln!(out, "stopped: {error}")
}

/// Reads words of this process from an address on, and returns how many: 0 where there is no memory.
fn read_words(address: u64, words: &mut [u64]) -> usize {
    // to the end of the page at most, since a read that fails in the middle may read nothing
    let count = words.len().min((4096 - address as usize % 4096).div_ceil(8));
    let local = c::Memory { start: words.as_mut_ptr().cast(), size: count * 8 };
    let remote = c::Memory { start: address as *mut c_void, size: count * 8 };
    // SAFETY: the room of `words` is written, and the kernel refuses what is not mapped
    let size = unsafe { c::process_vm_readv(c::getpid(), &local, 1, &remote, 1, 0) };
    usize::try_from(size).unwrap_or(0) / 8
}

/// Standard error, without a buffer and a lock.
struct StandardError;

impl Write for StandardError {
    fn write_str(&mut self, text: &str) -> fmt::Result {
        // SAFETY: the bytes of a text
        match unsafe { c::write(2, text.as_ptr(), text.len()) } {
            0.. => Ok(()),
            _ => Err(fmt::Error),
        }
    }
}

/// Prints the frames that std's unwinder finds, from the handler's on, and std's `Backtrace`.
fn print_beside(out: &mut StandardError) {
    extern "C" fn print_frame(frame: *const c_void, out: *mut c_void) -> c_int {
        // SAFETY: _Unwind_Backtrace calls this with a frame and with what it was given
        let (ip, out) = unsafe { (c::_Unwind_GetIP(frame), &mut *out.cast::<StandardError>()) };
        let _ = writeln!(out, "std {ip:#x}");
        0
    }
    // SAFETY: print_frame takes a StandardError
    unsafe { c::_Unwind_Backtrace(print_frame, (&raw mut *out).cast()) };
    let _ = writeln!(out, "{}", Backtrace::force_capture());
}

/// A read of the address that is handed in, which should be one where there is no memory.
#[inline(never)]
fn crash(address: usize) -> u64 {
    // SAFETY: none, this is the crash
    unsafe { black_box(address as *const u64).read_volatile() }
}

#[inline(never)]
fn recurse(depth: u64, room: &mut [u64; 32]) -> u64 {
    let mut own = [depth; 32];
    own[0] = own[0].wrapping_add(room[31]);
    match depth {
        0 => crash(8).wrapping_add(own[0]),
        _ => recurse(depth - 1, black_box(&mut own)).wrapping_add(own[1]),
    }
}

#[inline(never)]
fn crash_in_sort() -> u64 {
    let mut numbers: Vec<usize> = (0..100).rev().collect();
    numbers.sort_by_key(|number| if *number == 50 { crash(8) } else { *number as u64 });
    numbers[0] as u64
}

fn main() {
    let mut words = std::env::args().skip(1);
    let what = words.next().unwrap_or_default();
    install(words.next().is_some());
    let found = match what.as_str() {
        "overflow" => recurse(u64::MAX, &mut [1; 32]),
        "sort" => crash_in_sort(),
        _ => recurse(10, &mut [1; 32]),
    };
    println!("{found}");
}
