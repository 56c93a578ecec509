//! The calls of `include/boxglue.h`, whose comments say what each takes, writes and returns. The crate `boxglue` wraps them in safe functions.
//!
//! No pointer may be null here, even if its length is 0.
#![no_std]
#![allow(non_camel_case_types)]

/// Always false, since a constant cannot ask the library that runs.
#[deprecated(since = "1.2.0", note = "ask the library that runs, by `boxglue_proved`")]
pub const IS_PROVED: bool = false;

pub const BOXGLUE_ACCEPTED: u32 = 0;
pub const BOXGLUE_REFUSED: u32 = 1;
pub const BOXGLUE_OUT_OF_MEMORY: u32 = 2;
pub const BOXGLUE_BAD_FONT_NAME: u32 = 3;
pub const BOXGLUE_BUFFER_TOO_SMALL: u32 = 4;
pub const BOXGLUE_NO_SUCH_PAGE: u32 = 5;
pub const BOXGLUE_OUT_OF_RANGE: u32 = 6;
pub const BOXGLUE_REFUSED_MEMORY: u32 = 7;
pub const BOXGLUE_NO_JOB: u32 = 8;
pub const BOXGLUE_JOB_EXISTS: u32 = 9;
pub const BOXGLUE_ANSWERS_LOST: u32 = 10;

pub const BOXGLUE_GLYPH: u32 = 1;
pub const BOXGLUE_RULE: u32 = 2;
pub const BOXGLUE_SPECIAL: u32 = 3;

pub const BOXGLUE_STEP_KERN: u32 = 1;
pub const BOXGLUE_STEP_LIGATURE: u32 = 2;

pub const BOXGLUE_REPLY_OK: u32 = 0;
pub const BOXGLUE_REPLY_REFUSED: u32 = 1;
pub const BOXGLUE_REPLY_BAD_LINE: u32 = 2;
pub const BOXGLUE_REPLY_PACKED: u32 = 3;
pub const BOXGLUE_REPLY_MEASURED: u32 = 4;
pub const BOXGLUE_REPLY_MEASURED_VOID: u32 = 5;
pub const BOXGLUE_REPLY_SHAPED: u32 = 6;
pub const BOXGLUE_REPLY_ADDED: u32 = 7;
pub const BOXGLUE_REPLY_PARAGRAPH: u32 = 8;
pub const BOXGLUE_REPLY_SPLIT: u32 = 9;
pub const BOXGLUE_REPLY_SPLIT_VOID: u32 = 10;
pub const BOXGLUE_REPLY_SHIPPED: u32 = 11;
pub const BOXGLUE_REPLY_END: u32 = 12;

pub const BOXGLUE_REFUSAL_OUT_OF_MEMORY: u32 = 1;
pub const BOXGLUE_REFUSAL_BAD_SCRIPT: u32 = 2;
pub const BOXGLUE_REFUSAL_DIMENSION_TOO_LARGE: u32 = 3;
pub const BOXGLUE_REFUSAL_NO_FONT: u32 = 4;
pub const BOXGLUE_REFUSAL_BAD_TFM: u32 = 5;
pub const BOXGLUE_REFUSAL_SLOT_TAKEN: u32 = 6;
pub const BOXGLUE_REFUSAL_NO_OPEN_LIST: u32 = 7;
pub const BOXGLUE_REFUSAL_WRONG_MODE: u32 = 8;
pub const BOXGLUE_REFUSAL_WRONG_KIND: u32 = 9;
pub const BOXGLUE_REFUSAL_LIST_TOO_LONG: u32 = 10;
pub const BOXGLUE_REFUSAL_TOO_DEEP: u32 = 11;
pub const BOXGLUE_REFUSAL_INFINITE_SHRINK: u32 = 12;
pub const BOXGLUE_REFUSAL_TOO_MANY_BREAKS: u32 = 13;
pub const BOXGLUE_REFUSAL_HUGE_PAGE: u32 = 14;
pub const BOXGLUE_REFUSAL_TOO_MANY_PAGES: u32 = 15;
pub const BOXGLUE_REFUSAL_TOO_MUCH_SHIPPED: u32 = 16;
pub const BOXGLUE_REFUSAL_LISTS_OPEN: u32 = 17;
pub const BOXGLUE_REFUSAL_DEVICE: u32 = 18;
pub const BOXGLUE_REFUSAL_JOB_OVER: u32 = 19;
pub const BOXGLUE_REFUSAL_BAD_DVI: u32 = 20;
pub const BOXGLUE_REFUSAL_VOID_BOX: u32 = 21;
pub const BOXGLUE_REFUSAL_TOO_MUCH_SPECIAL: u32 = 22;

pub const BOXGLUE_TFM_TOO_SHORT: u32 = 1;
pub const BOXGLUE_TFM_COUNTS: u32 = 2;
pub const BOXGLUE_TFM_DESIGN_SIZE: u32 = 3;
pub const BOXGLUE_TFM_CHAR_INFO: u32 = 4;
pub const BOXGLUE_TFM_FIX_WORD: u32 = 5;
pub const BOXGLUE_TFM_LIG_KERN: u32 = 6;

pub const BOXGLUE_DVI_TRAILER: u32 = 1;
pub const BOXGLUE_DVI_VERSION: u32 = 2;
pub const BOXGLUE_DVI_OPCODE: u32 = 3;
pub const BOXGLUE_DVI_POINTER: u32 = 4;
pub const BOXGLUE_DVI_COUNT: u32 = 5;
pub const BOXGLUE_DVI_PREAMBLE: u32 = 6;
pub const BOXGLUE_DVI_TRUNCATED: u32 = 7;
pub const BOXGLUE_DVI_STACK: u32 = 8;
pub const BOXGLUE_DVI_FONT: u32 = 9;
pub const BOXGLUE_DVI_GLYPH: u32 = 10;
pub const BOXGLUE_DVI_RANGE: u32 = 11;

pub const BOXGLUE_LINE_BYTE: u32 = 1;
pub const BOXGLUE_LINE_WORD: u32 = 2;
pub const BOXGLUE_LINE_MISSING: u32 = 3;
pub const BOXGLUE_LINE_EXTRA: u32 = 4;
pub const BOXGLUE_LINE_NUMBER: u32 = 5;
pub const BOXGLUE_LINE_DIMENSION: u32 = 6;
pub const BOXGLUE_LINE_NAME: u32 = 7;

pub const BOXGLUE_BOX_HORIZONTAL: u32 = 0;
pub const BOXGLUE_BOX_VERTICAL: u32 = 1;

pub const BOXGLUE_ITEM_GLYPH: u32 = 1;
pub const BOXGLUE_ITEM_FONT_KERN: u32 = 2;
pub const BOXGLUE_ITEM_KERN: u32 = 3;
pub const BOXGLUE_ITEM_GLUE: u32 = 4;
pub const BOXGLUE_ITEM_PENALTY: u32 = 5;
pub const BOXGLUE_ITEM_RULE: u32 = 6;
pub const BOXGLUE_ITEM_SPECIAL: u32 = 7;
pub const BOXGLUE_ITEM_HBOX: u32 = 8;
pub const BOXGLUE_ITEM_VBOX: u32 = 9;

#[repr(C)]
#[derive(Clone, Copy, Debug)]
pub struct boxglue_font {
    pub name: *const u8,
    pub name_size: usize,
    pub bytes: *const u8,
    pub bytes_size: usize,
}

#[repr(C)]
#[derive(Clone, Copy, Debug, Default)]
pub struct boxglue_lengths {
    pub answers: usize,
    pub dvi: usize,
}

#[repr(C)]
#[derive(Clone, Copy, Debug, Default)]
pub struct boxglue_dvi_font {
    pub number: i32,
    pub size: i32,
    pub design_size: i32,
    pub check_sum: u32,
    pub name_start: usize,
    pub name_size: usize,
}

#[repr(C)]
#[derive(Clone, Copy, Debug, Default)]
pub struct boxglue_font_sizes {
    pub fonts: usize,
    pub text: usize,
}

#[repr(C)]
#[derive(Clone, Copy, Debug, Default)]
pub struct boxglue_page {
    pub counts: [i32; 10],
    pub first_mark: usize,
    pub marks: usize,
}

#[repr(C)]
#[derive(Clone, Copy, Debug, Default)]
pub struct boxglue_mark {
    pub kind: u32,
    pub font: i32,
    pub code: i32,
    pub h: i32,
    pub v: i32,
    pub height: i32,
    pub width: i32,
    pub text_size: u32,
    pub text_start: u64,
}

#[repr(C)]
#[derive(Clone, Copy, Debug, Default)]
pub struct boxglue_mark_sizes {
    pub pages: usize,
    pub marks: usize,
    pub text: usize,
    pub num: i32,
    pub den: i32,
    pub mag: i32,
}

#[repr(C)]
#[derive(Clone, Copy, Debug, Default, PartialEq, Eq)]
pub struct boxglue_fault {
    pub number: u32,
    pub cause: u32,
    pub font: i32,
    pub place: u64,
    pub name_size: usize,
}

#[repr(C)]
#[derive(Clone, Copy, Debug, Default, PartialEq, Eq)]
pub struct boxglue_measure {
    pub value: i32,
    pub is_unfit: u32,
}

#[repr(C)]
#[derive(Clone, Copy, Debug, Default, PartialEq, Eq)]
pub struct boxglue_glyph {
    pub is_there: u32,
    pub width: i32,
    pub height: i32,
    pub depth: i32,
    pub italic: boxglue_measure,
}

#[repr(C)]
#[derive(Clone, Copy, Debug, PartialEq, Eq)]
pub struct boxglue_glyph_table {
    pub rows: [boxglue_glyph; 256],
}

#[repr(C)]
#[derive(Clone, Copy, Debug, Default, PartialEq, Eq)]
pub struct boxglue_font_parameters {
    pub size: i32,
    pub design_size: i32,
    pub check_sum: u32,
    pub slant: i32,
    pub space: i32,
    pub stretch: i32,
    pub shrink: i32,
    pub x_height: boxglue_measure,
    pub quad: boxglue_measure,
    pub extra_space: boxglue_measure,
}

#[repr(C)]
#[derive(Clone, Copy, Debug, Default, PartialEq, Eq)]
pub struct boxglue_font_step {
    pub character: u32,
    pub following: u32,
    pub kind: u32,
    pub kern: i32,
    pub ligature: u32,
}

/// A handle of a job. Give it to one call at a time, and do not copy it.
#[repr(C)]
#[derive(Debug)]
pub struct boxglue_job {
    pub at: *mut core::ffi::c_void,
}

#[repr(C)]
#[derive(Clone, Copy, Debug, Default, PartialEq, Eq)]
pub struct boxglue_box_sizes {
    pub width: i32,
    pub height: i32,
    pub depth: i32,
}

#[repr(C)]
#[derive(Clone, Copy, Debug, Default, PartialEq, Eq)]
pub struct boxglue_reply {
    pub line: u64,
    pub kind: u32,
    pub refusal: u32,
    pub cause: u32,
    pub box_kind: u32,
    pub box_: boxglue_box_sizes,
    pub rest: boxglue_box_sizes,
    pub has_rest: u32,
    pub badness: u32,
    pub pass: u32,
    pub missing: u32,
    pub count: u64,
    pub bytes: u64,
    pub overhang: i64,
    pub demerits: i64,
}

#[repr(C)]
#[derive(Clone, Copy, Debug, Default)]
pub struct boxglue_reply_sizes {
    pub replies: usize,
    pub dvi: usize,
}

#[repr(C)]
#[derive(Clone, Copy, Debug, Default)]
pub struct boxglue_wide_dimen {
    pub low: u64,
    pub high: i64,
}

#[repr(C)]
#[derive(Clone, Copy, Debug, Default)]
pub struct boxglue_item {
    pub level: u32,
    pub kind: u32,
    pub right: boxglue_wide_dimen,
    pub down: boxglue_wide_dimen,
    pub set_width: boxglue_wide_dimen,
    pub width: i32,
    pub height: i32,
    pub depth: i32,
    pub shift: i32,
    pub stretch: i32,
    pub stretch_order: u32,
    pub shrink: i32,
    pub shrink_order: u32,
    pub setting: u32,
    pub setting_order: u32,
    pub ratio_num: i64,
    pub ratio_den: i64,
    pub slot: u32,
    pub code: u32,
    pub penalty: i32,
    pub running: u32,
    pub text_start: u64,
    pub text_size: u64,
}

#[repr(C)]
#[derive(Clone, Copy, Debug, Default)]
pub struct boxglue_item_sizes {
    pub items: usize,
    pub text: usize,
}

extern "C" {
    pub fn boxglue_run(
        script: *const u8,
        script_size: usize,
        fonts: *const boxglue_font,
        font_count: usize,
        answers: *mut u8,
        answers_room: usize,
        dvi: *mut u8,
        dvi_room: usize,
        lengths: *mut boxglue_lengths,
    ) -> u32;
    pub fn boxglue_list(
        dvi: *const u8,
        dvi_size: usize,
        fonts: *const boxglue_font,
        font_count: usize,
        text: *mut u8,
        text_room: usize,
        size: *mut usize,
    ) -> u32;
    pub fn boxglue_paint(
        dvi: *const u8,
        dvi_size: usize,
        fonts: *const boxglue_font,
        font_count: usize,
        page: u32,
        dpi: u32,
        width: u32,
        height: u32,
        text: *mut u8,
        text_room: usize,
        size: *mut usize,
    ) -> u32;
    pub fn boxglue_paint_bits(
        dvi: *const u8,
        dvi_size: usize,
        fonts: *const boxglue_font,
        font_count: usize,
        page: u32,
        dpi: u32,
        width: u32,
        height: u32,
        bits: *mut u8,
        bits_room: usize,
        size: *mut usize,
    ) -> u32;
    pub fn boxglue_fonts(
        dvi: *const u8,
        dvi_size: usize,
        fonts: *mut boxglue_dvi_font,
        font_room: usize,
        text: *mut u8,
        text_room: usize,
        sizes: *mut boxglue_font_sizes,
    ) -> u32;
    pub fn boxglue_marks(
        dvi: *const u8,
        dvi_size: usize,
        fonts: *const boxglue_font,
        font_count: usize,
        pages: *mut boxglue_page,
        page_room: usize,
        marks: *mut boxglue_mark,
        mark_room: usize,
        text: *mut u8,
        text_room: usize,
        sizes: *mut boxglue_mark_sizes,
    ) -> u32;
    pub fn boxglue_check(
        dvi: *const u8,
        dvi_size: usize,
        fonts: *const boxglue_font,
        font_count: usize,
        fault: *mut boxglue_fault,
        name: *mut u8,
        name_room: usize,
    ) -> u32;
    pub fn boxglue_metrics(
        tfm: *const u8,
        tfm_size: usize,
        size: i32,
        glyphs: *mut boxglue_glyph_table,
        parameters: *mut boxglue_font_parameters,
        steps: *mut boxglue_font_step,
        step_room: usize,
        count: *mut usize,
        fault: *mut boxglue_fault,
    ) -> u32;
    pub fn boxglue_version() -> u32;
    pub fn boxglue_proved() -> u32;
    pub fn boxglue_job_new(job: *mut boxglue_job, fonts: *const boxglue_font, font_count: usize) -> u32;
    pub fn boxglue_job_commands(job: *mut boxglue_job, script: *const u8, script_size: usize) -> u32;
    pub fn boxglue_job_answers(job: *mut boxglue_job, text: *mut u8, text_room: usize, size: *mut usize) -> u32;
    pub fn boxglue_job_take(job: *mut boxglue_job, dvi: *mut u8, dvi_room: usize, size: *mut usize) -> u32;
    pub fn boxglue_job_finish(job: *mut boxglue_job) -> u32;
    pub fn boxglue_job_run(
        job: *mut boxglue_job,
        script: *const u8,
        script_size: usize,
        replies: *mut boxglue_reply,
        reply_room: usize,
        count: *mut usize,
    ) -> u32;
    pub fn boxglue_job_end(job: *mut boxglue_job, reply: *mut boxglue_reply) -> u32;
    pub fn boxglue_run_replies(
        script: *const u8,
        script_size: usize,
        fonts: *const boxglue_font,
        font_count: usize,
        replies: *mut boxglue_reply,
        reply_room: usize,
        dvi: *mut u8,
        dvi_room: usize,
        sizes: *mut boxglue_reply_sizes,
    ) -> u32;
    pub fn boxglue_job_items(
        job: *mut boxglue_job,
        register_number: u32,
        items: *mut boxglue_item,
        item_room: usize,
        text: *mut u8,
        text_room: usize,
        sizes: *mut boxglue_item_sizes,
    ) -> u32;
    pub fn boxglue_job_free(job: *mut boxglue_job);
}
