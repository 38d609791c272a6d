//! framehop's own examples of public calls, with another `use` line.
use framehop_rattle::aarch64::{CacheAarch64, PtrAuthMask, UnwindRegsAarch64, UnwinderAarch64};
use framehop_rattle::x86_64::{CacheX86_64, Reg, UnwindRegsX86_64, UnwinderX86_64};
use framehop_rattle::{
    Error, ExplicitModuleSectionInfo, FrameAddress, MayAllocateDuringUnwind, Module, MustNotAllocateDuringUnwind,
    Unwinder,
};

const STACK: [u64; 16] =
    [1, 2, 3, 4, 0x40, 0x1003fc000 + 0x100dc4, 5, 6, 0x70, 0x1003fc000 + 0x12ca28, 7, 8, 9, 10, 0, 0];

/// The example of framehop's README.
#[test]
fn walks_on_aarch64() {
    let mut cache = CacheAarch64::<_>::new();
    let mut unwinder = UnwinderAarch64::new();
    let module = Module::new(
        "mybinary".to_string(),
        0x1003fc000..0x100634000,
        0x1003fc000,
        ExplicitModuleSectionInfo {
            base_svma: 0x100000000,
            text_svma: Some(0x100000b64..0x1001d2d18),
            text: Some(vec![/* __text */]),
            stubs_svma: Some(0x1001d2d18..0x1001d309c),
            stub_helper_svma: Some(0x1001d309c..0x1001d3438),
            got_svma: Some(0x100238000..0x100238010),
            unwind_info: Some(vec![/* __unwind_info */]),
            eh_frame_svma: Some(0x100237f80..0x100237ffc),
            eh_frame: Some(vec![/* __eh_frame */]),
            text_segment_svma: Some(0x1003fc000..0x100634000),
            text_segment: Some(vec![/* __TEXT */]),
            ..Default::default()
        },
    );
    unwinder.add_module(module);

    let pc = 0x1003fc000 + 0x1292c0;
    let lr = 0x1003fc000 + 0xe4830;
    let (sp, fp) = (0x10, 0x20);
    let mut read_stack = |address: u64| STACK.get((address / 8) as usize).cloned().ok_or(());
    let mut iter = unwinder.iter_frames(pc, UnwindRegsAarch64::new(lr, sp, fp), &mut cache, &mut read_stack);
    let mut frames = Vec::new();
    while let Ok(Some(frame)) = iter.next() {
        frames.push(frame);
    }
    assert_eq!(
        frames,
        vec![
            FrameAddress::from_instruction_pointer(0x1003fc000 + 0x1292c0),
            FrameAddress::from_return_address(0x1003fc000 + 0x100dc4).unwrap(),
            FrameAddress::from_return_address(0x1003fc000 + 0x12ca28).unwrap(),
        ]
    );
    assert_eq!(unwinder.max_known_code_address(), 0x100634000);
    assert_eq!(PtrAuthMask::from_max_known_address(unwinder.max_known_code_address()).0, 0x1ffffffff);

    // at the same frames again, by one call
    let mut regs = UnwindRegsAarch64::new(lr, sp, fp);
    let mut addresses = [0; 4];
    let walked = unwinder.walk_into(pc, &mut regs, &mut cache, 0, &STACK, &mut addresses);
    assert_eq!(walked, (3, Ok(true)));
    assert_eq!(addresses[..3], frames.iter().map(|frame| frame.address()).collect::<Vec<_>>());
    assert!(cache.stats().hit_count >= 2);
}

/// Sections that are lent, a clone that outlives its original, removal, and both policies.
#[test]
fn keeps_to_modules_on_x86_64() {
    let bytes = [0u8; 4];
    let mut unwinder = UnwinderX86_64::<&[u8], MustNotAllocateDuringUnwind>::new();
    let info = ExplicitModuleSectionInfo {
        eh_frame_svma: Some(0x100..0x104),
        eh_frame: Some(&bytes[..]),
        ..Default::default()
    };
    unwinder.add_module(Module::new(String::new(), 0x100000..0x200000, 0x100000, info));
    let clone = unwinder.clone();
    unwinder.remove_module(0x100000);
    unwinder.remove_module(0x100000);
    assert_eq!((unwinder.max_known_code_address(), clone.max_known_code_address()), (0, 0x200000));
    drop(unwinder);

    let mut cache = CacheX86_64::<MustNotAllocateDuringUnwind>::new_in();
    let stack = [1, 2, 0x40, 0x100200, 5, 6, 7, 8, 0, 0];
    let mut regs = UnwindRegsX86_64::new(0x100400, 0x10, 0x10);
    regs.set(Reg::R12, 12);
    let pc = FrameAddress::from_instruction_pointer(0x100400);
    let mut asked = Vec::new();
    let found = clone.unwind_frame(pc, &mut regs, &mut cache, &mut |address| {
        asked.push(address);
        stack.get(address as usize / 8).copied().ok_or(())
    });
    assert_eq!(found, Ok(Some(0x100200)));
    assert_eq!((regs.ip(), regs.sp(), regs.bp(), regs.get(Reg::R12)), (0x100200, 0x20, 0x40, 12));
    asked.sort();
    assert_eq!(asked, [0x10, 0x18]);
}

/// A word that can't be read is named, and the registers stay.
#[test]
fn names_the_word_that_cannot_be_read() {
    let unwinder: UnwinderX86_64<Vec<u8>, MayAllocateDuringUnwind> = UnwinderX86_64::new();
    let mut cache = CacheX86_64::new();
    let mut regs = UnwindRegsX86_64::new(0x100400, 0x10, 0x20);
    let before = regs;
    let pc = FrameAddress::from_instruction_pointer(0x100400);
    let refused = unwinder.unwind_frame(pc, &mut regs, &mut cache, &mut |_| Err(()));
    assert_eq!((refused, regs), (Err(Error::CouldNotReadStack(0x20)), before));
    let mut frames = [0; 2];
    let walked = unwinder.walk_into(0x100400, &mut regs, &mut cache, 0, &[], &mut frames);
    assert_eq!(walked, (1, Err(Error::CouldNotReadStack(0x20))));
}
