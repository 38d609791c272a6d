//! Modules and their sections.
use crate::raw;
use std::fmt;
use std::ops::{Deref, Range};
use std::sync::Arc;

/// How a module lends the bytes of its sections, and says where they lie (SVMAs). [`Module::new`] calls each function
/// at most once with a name, so that data can be moved out.
pub trait ModuleSectionInfo<D> {
    /// Returns the base as stated in the file: 0 for ELF, the vmaddr of `__TEXT` for Mach-O, the image base for PE.
    fn base_svma(&self) -> u64;

    /// Returns where a section lies, as stated in the file.
    fn section_svma_range(&mut self, name: &[u8]) -> Option<Range<u64>>;

    /// Returns the bytes of a section.
    fn section_data(&mut self, name: &[u8]) -> Option<D>;

    /// Returns where a segment lies, as stated in the file.
    fn segment_svma_range(&mut self, _name: &[u8]) -> Option<Range<u64>> {
        None
    }

    /// Returns the bytes of a segment.
    fn segment_data(&mut self, _name: &[u8]) -> Option<D> {
        None
    }
}

/// The sections of a module, one by one (SVMAs). It has none of PE files: implement [`ModuleSectionInfo`] for them.
#[derive(Clone, Debug, PartialEq, Eq)]
pub struct ExplicitModuleSectionInfo<D> {
    /// What relative addresses count from: 0 for ELF, for Mach-O the vmaddr of `__TEXT`.
    pub base_svma: u64,
    /// Where `.text` (ELF) or `__text` (Mach-O) lies: it places `text`, and text-relative pointers count from it.
    pub text_svma: Option<Range<u64>>,
    /// `__text` (Mach-O): code for prologues and epilogues, which opcodes do not describe. `text_segment` serves too.
    pub text: Option<D>,
    /// Where `__stubs` (Mach-O) lies, whose code has no opcodes.
    pub stubs_svma: Option<Range<u64>>,
    /// Where `__stub_helper` (Mach-O) lies, whose code has no opcodes.
    pub stub_helper_svma: Option<Range<u64>>,
    /// Where `.got` (ELF) or `__got` (Mach-O) lies: data-relative pointers count from it.
    pub got_svma: Option<Range<u64>>,
    /// `__unwind_info` (Mach-O): an opcode for each function. It comes before all other data.
    pub unwind_info: Option<D>,
    /// Where `.eh_frame` (ELF) or `__eh_frame` (Mach-O) lies: without it no function is found there.
    pub eh_frame_svma: Option<Range<u64>>,
    /// `.eh_frame` (ELF) or `__eh_frame` (Mach-O): call frame information.
    pub eh_frame: Option<D>,
    /// Where `.eh_frame_hdr` (ELF) lies: its table counts from there.
    pub eh_frame_hdr_svma: Option<Range<u64>>,
    /// `.eh_frame_hdr` (ELF): the functions of `eh_frame` in order. Without it an index is made.
    pub eh_frame_hdr: Option<D>,
    /// `.debug_frame` (ELF): call frame information that is read where there is no other.
    pub debug_frame: Option<D>,
    /// Where the segment `__TEXT` (Mach-O) lies: it places `text_segment`.
    pub text_segment_svma: Option<Range<u64>>,
    /// The segment `__TEXT` (Mach-O), code and all: it is used in the place of `text`.
    pub text_segment: Option<D>,
}

impl<D> Default for ExplicitModuleSectionInfo<D> {
    fn default() -> Self {
        ExplicitModuleSectionInfo {
            base_svma: 0,
            text_svma: None,
            text: None,
            stubs_svma: None,
            stub_helper_svma: None,
            got_svma: None,
            unwind_info: None,
            eh_frame_svma: None,
            eh_frame: None,
            eh_frame_hdr_svma: None,
            eh_frame_hdr: None,
            debug_frame: None,
            text_segment_svma: None,
            text_segment: None,
        }
    }
}

impl<D> ModuleSectionInfo<D> for ExplicitModuleSectionInfo<D> {
    fn base_svma(&self) -> u64 {
        self.base_svma
    }

    fn section_svma_range(&mut self, name: &[u8]) -> Option<Range<u64>> {
        match name {
            b"__text" | b".text" => self.text_svma.clone(),
            b"__stubs" => self.stubs_svma.clone(),
            b"__stub_helper" => self.stub_helper_svma.clone(),
            b"__eh_frame" | b".eh_frame" => self.eh_frame_svma.clone(),
            b"__eh_frame_hdr" | b".eh_frame_hdr" => self.eh_frame_hdr_svma.clone(),
            b"__got" | b".got" => self.got_svma.clone(),
            _ => None,
        }
    }

    fn section_data(&mut self, name: &[u8]) -> Option<D> {
        match name {
            b"__text" | b".text" => self.text.take(),
            b"__unwind_info" => self.unwind_info.take(),
            b"__eh_frame" | b".eh_frame" => self.eh_frame.take(),
            b"__eh_frame_hdr" | b".eh_frame_hdr" => self.eh_frame_hdr.take(),
            b"__debug_frame" | b".debug_frame" => self.debug_frame.take(),
            _ => None,
        }
    }

    fn segment_svma_range(&mut self, name: &[u8]) -> Option<Range<u64>> {
        match name {
            b"__TEXT" => self.text_segment_svma.clone(),
            _ => None,
        }
    }

    fn segment_data(&mut self, name: &[u8]) -> Option<D> {
        match name {
            b"__TEXT" => self.text_segment.take(),
            _ => None,
        }
    }
}

/// Where a section lies, and its bytes.
struct Section<D> {
    range: Option<Range<u64>>,
    data: Option<D>,
}

impl<D> Default for Section<D> {
    fn default() -> Self {
        Section { range: None, data: None }
    }
}

impl<D: Deref<Target = [u8]>> Section<D> {
    /// The section for one call. Its bytes are borrowed from this one, where it is.
    fn raw(&self) -> raw::Section {
        let range = self.range.clone().unwrap_or(0..0);
        let bytes: &[u8] = self.data.as_deref().unwrap_or(&[]);
        raw::Section {
            svma_start: range.start,
            svma_end: range.end,
            bytes: raw::Bytes { start: bytes.as_ptr(), length: bytes.len() },
            has_range: self.range.is_some(),
            has_bytes: self.data.is_some(),
        }
    }
}

/// The sections by which the frames of a module are unwound. What isn't used is not asked for.
struct Sections<D> {
    base_svma: u64,
    text: Section<D>,
    stubs: Section<D>,
    stub_helper: Section<D>,
    got: Section<D>,
    unwind_info: Section<D>,
    eh_frame: Section<D>,
    eh_frame_hdr: Section<D>,
    debug_frame: Section<D>,
    text_segment: Section<D>,
    pdata: Section<D>,
    rdata: Section<D>,
    xdata: Section<D>,
}

/// The range of the first of these sections that has one.
fn range_under<D>(info: &mut impl ModuleSectionInfo<D>, names: &[&[u8]]) -> Option<Range<u64>> {
    names.iter().find_map(|name| info.section_svma_range(name))
}

/// The bytes of the first of these sections that has some.
fn data_under<D>(info: &mut impl ModuleSectionInfo<D>, names: &[&[u8]]) -> Option<D> {
    names.iter().find_map(|name| info.section_data(name))
}

impl<D> Sections<D> {
    fn none(base_svma: u64) -> Self {
        Sections {
            base_svma,
            text: Section::default(),
            stubs: Section::default(),
            stub_helper: Section::default(),
            got: Section::default(),
            unwind_info: Section::default(),
            eh_frame: Section::default(),
            eh_frame_hdr: Section::default(),
            debug_frame: Section::default(),
            text_segment: Section::default(),
            pdata: Section::default(),
            rdata: Section::default(),
            xdata: Section::default(),
        }
    }

    /// Compact unwind info, else PE unwind info, else `.eh_frame`, else `.debug_frame`: the first kind of unwind data
    /// that there is, as framehop asks for them.
    fn of(info: &mut impl ModuleSectionInfo<D>) -> Self {
        let mut sections = Sections::none(info.base_svma());
        if let Some(unwind_info) = info.section_data(b"__unwind_info") {
            sections.unwind_info.data = Some(unwind_info);
            sections.take_compact(info);
        } else if let Some(pdata) = info.section_data(b".pdata") {
            sections.pdata.data = Some(pdata);
            sections.rdata = sections.fitting(info, b".rdata");
            sections.xdata = sections.fitting(info, b".xdata");
            sections.text = sections.fitting(info, b".text");
        } else if let Some(eh_frame) = data_under(info, &[b".eh_frame", b"__eh_frame"]) {
            sections.eh_frame.data = Some(eh_frame);
            sections.eh_frame_hdr.data = data_under(info, &[b".eh_frame_hdr", b"__eh_frame_hdr"]);
            sections.take_bases(info);
            sections.text.range = range_under(info, &[b"__text", b".text"]);
        } else if let Some(debug_frame) = info.section_data(b".debug_frame") {
            sections.debug_frame.data = Some(debug_frame);
            sections.take_bases(info);
            sections.text.range = range_under(info, &[b"__text", b".text"]);
        }
        sections
    }

    /// What goes with compact unwind info: the code is that of the segment, or else that of the section `__text`.
    fn take_compact(&mut self, info: &mut impl ModuleSectionInfo<D>) {
        self.eh_frame.data = info.section_data(b"__eh_frame");
        self.stubs.range = info.section_svma_range(b"__stubs");
        self.stub_helper.range = info.section_svma_range(b"__stub_helper");
        let segment = Section { data: info.segment_data(b"__TEXT"), range: info.segment_svma_range(b"__TEXT") };
        let has_segment = segment.data.is_some() && segment.range.is_some();
        self.text.range = info.section_svma_range(b"__text");
        if has_segment {
            self.text_segment = segment;
        } else if self.text.range.is_some() {
            self.text.data = info.section_data(b"__text");
        }
        if self.text.range.is_none() {
            self.text.range = info.section_svma_range(b".text");
        }
        self.take_bases(info);
    }

    /// Where the sections lie to which pointers in call frame sections may be relative, but for the text.
    fn take_bases(&mut self, info: &mut impl ModuleSectionInfo<D>) {
        self.eh_frame.range = range_under(info, &[b"__eh_frame", b".eh_frame"]);
        self.eh_frame_hdr.range = range_under(info, &[b"__eh_frame_hdr", b".eh_frame_hdr"]);
        self.got.range = range_under(info, &[b"__got", b".got"]);
    }

    /// The section of a PE file, if its relative addresses fit 32 bits.
    fn fitting(&self, info: &mut impl ModuleSectionInfo<D>, name: &[u8]) -> Section<D> {
        let fits = |svma: u64| svma.checked_sub(self.base_svma).is_some_and(|rva| u32::try_from(rva).is_ok());
        let range = info.section_svma_range(name).filter(|range| fits(range.start) && fits(range.end));
        let data = if range.is_some() { info.section_data(name) } else { None };
        Section { range, data }
    }
}

struct Loaded<D> {
    name: String,
    avma_range: Range<u64>,
    base_avma: u64,
    sections: Sections<D>,
}

/// An executable or library that a process has mapped: where it lies, and its sections. Clones share their data.
///
/// The data of a section is any type that lends bytes, by `Deref<Target = [u8]>`: `Vec<u8>`, `&[u8]`, an `Arc`, a
/// mapping of a file. It is dropped when the last clone of the module is, and the last unwinder that has it.
pub struct Module<D>(Arc<Loaded<D>>);

impl<D> Clone for Module<D> {
    fn clone(&self) -> Self {
        Module(self.0.clone())
    }
}

impl<D> fmt::Debug for Module<D> {
    fn fmt(&self, f: &mut fmt::Formatter<'_>) -> fmt::Result {
        let Loaded { name, avma_range, base_avma, .. } = &*self.0;
        write!(f, "Module {{ name: {name:?}, avma_range: {avma_range:#x?}, base_avma: {base_avma:#x} }}")
    }
}

impl<D: Deref<Target = [u8]>> Module<D> {
    /// A module that is loaded at the addresses (AVMAs) of a range, whose relative address 0 is `base_avma`.
    pub fn new(
        name: String,
        avma_range: Range<u64>,
        base_avma: u64,
        mut section_info: impl ModuleSectionInfo<D>,
    ) -> Self {
        let sections = Sections::of(&mut section_info);
        Module(Arc::new(Loaded { name, avma_range, base_avma, sections }))
    }

    /// The sections, whose bytes are borrowed from the data that this module and its clones share. They stay valid
    /// for as long as one of those lives: the data is not moved, and nobody borrows it mutably.
    pub(crate) fn raw_sections(&self) -> raw::Sections {
        let sections = &self.0.sections;
        raw::Sections {
            base_svma: sections.base_svma,
            text: sections.text.raw(),
            stubs: sections.stubs.raw(),
            stub_helper: sections.stub_helper.raw(),
            got: sections.got.raw(),
            unwind_info: sections.unwind_info.raw(),
            eh_frame: sections.eh_frame.raw(),
            eh_frame_hdr: sections.eh_frame_hdr.raw(),
            debug_frame: sections.debug_frame.raw(),
            text_segment: sections.text_segment.raw(),
            pdata: sections.pdata.raw(),
            rdata: sections.rdata.raw(),
            xdata: sections.xdata.raw(),
        }
    }
}

impl<D> Module<D> {
    /// Returns the name that [`Module::new`] was given.
    pub fn name(&self) -> &str {
        &self.0.name
    }

    /// Returns the addresses (AVMAs).
    pub fn avma_range(&self) -> Range<u64> {
        self.0.avma_range.clone()
    }

    /// Returns the address (AVMA) of the relative address 0.
    pub fn base_avma(&self) -> u64 {
        self.0.base_avma
    }
}
