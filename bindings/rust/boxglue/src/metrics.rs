//! The metrics of fonts.

use crate::buffers::buffer;
use crate::{Cause, Error, Refusal, RefusalKind, Sp};
use boxglue_sys as sys;
use std::fmt::{Debug, Formatter, Result as FormatResult};

/// A character of a font. An italic correction that is too large for the size is `None`.
#[derive(Clone, Copy, Debug, PartialEq, Eq, Hash)]
#[non_exhaustive]
#[allow(missing_docs)]
pub struct GlyphMetrics {
    pub width: Sp,
    pub height: Sp,
    pub depth: Sp,
    pub italic: Option<Sp>,
}

/// What a font does between two characters.
#[derive(Clone, Copy, Debug, PartialEq, Eq, Hash)]
#[non_exhaustive]
pub enum Step {
    /// It puts a kern between them.
    Kern(Sp),
    /// It has this character in the place of both.
    Ligature(u8),
}

/// The metrics of a font at a size.
#[derive(Clone, PartialEq, Eq)]
pub struct FontMetrics {
    glyphs: Box<sys::boxglue_glyph_table>,
    parameters: sys::boxglue_font_parameters,
    /// In the order of their characters.
    steps: Vec<sys::boxglue_font_step>,
}

// A font has hundreds of characters and steps, so a message has its size alone.
impl Debug for FontMetrics {
    fn fmt(&self, out: &mut Formatter<'_>) -> FormatResult {
        out.debug_struct("FontMetrics").field("size", &self.size()).field("steps", &self.steps.len()).finish_non_exhaustive()
    }
}

impl FontMetrics {
    /// Returns a character, if the font has it.
    pub fn glyph(&self, code: u8) -> Option<GlyphMetrics> {
        let row = &self.glyphs.rows[usize::from(code)];
        let found = GlyphMetrics { width: Sp(row.width), height: Sp(row.height), depth: Sp(row.depth), italic: fit(row.italic) };
        (row.is_there == 1).then_some(found)
    }

    /// Iterates over the characters that the font has, in order.
    pub fn glyphs(&self) -> impl DoubleEndedIterator<Item = (u8, GlyphMetrics)> + Clone + '_ {
        (0..=u8::MAX).filter_map(|code| Some((code, self.glyph(code)?)))
    }

    /// Returns what the font does between two characters.
    pub fn step(&self, left: u8, right: u8) -> Option<Step> {
        let pair = (u32::from(left), u32::from(right));
        let at = self.steps.binary_search_by_key(&pair, |it| (it.character, it.following)).ok()?;
        Some(step_of(&self.steps[at]))
    }

    /// Iterates over the pairs of characters between which the font does something, in order.
    pub fn steps(&self) -> impl ExactSizeIterator<Item = (u8, u8, Step)> + DoubleEndedIterator + Clone + '_ {
        self.steps.iter().map(|it| (it.character as u8, it.following as u8, step_of(it)))
    }

    /// Returns the size at which the font was measured.
    pub fn size(&self) -> Sp {
        Sp(self.parameters.size)
    }

    /// Returns the design size in the metric file.
    pub fn design_size(&self) -> Sp {
        Sp(self.parameters.design_size)
    }

    /// Returns the check sum in the metric file.
    pub fn check_sum(&self) -> u32 {
        self.parameters.check_sum
    }

    /// Returns by how much characters lean, in units of 1/2^20. It does not depend on the size.
    pub fn slant(&self) -> i32 {
        self.parameters.slant
    }

    /// Returns the width of a space, and by how much it stretches and shrinks.
    pub fn space(&self) -> (Sp, Sp, Sp) {
        let it = &self.parameters;
        (Sp(it.space), Sp(it.stretch), Sp(it.shrink))
    }

    /// Returns the height of an x; `None` if it is too large for the size.
    pub fn x_height(&self) -> Option<Sp> {
        fit(self.parameters.x_height)
    }

    /// Returns the width of an em; `None` if it is too large for the size.
    pub fn quad(&self) -> Option<Sp> {
        fit(self.parameters.quad)
    }

    /// Returns the space that TeX adds at the end of a sentence; `None` if it is too large for the size.
    pub fn extra_space(&self) -> Option<Sp> {
        fit(self.parameters.extra_space)
    }
}

fn fit(measure: sys::boxglue_measure) -> Option<Sp> {
    (measure.is_unfit == 0).then_some(Sp(measure.value))
}

fn step_of(row: &sys::boxglue_font_step) -> Step {
    if row.kind == sys::BOXGLUE_STEP_LIGATURE {
        Step::Ligature(row.ligature as u8)
    } else {
        Step::Kern(Sp(row.kern))
    }
}

/// The refusal of a metric file.
fn refusal_of(fault: &sys::boxglue_fault) -> Refusal {
    let kind = RefusalKind::of(fault.number);
    let detail = if kind == RefusalKind::BadTfm { Cause::of_metrics(fault.cause).to_string() } else { String::new() };
    Refusal { line: None, number: fault.number, name: kind.to_string(), detail, command: None, open_lists: Vec::new() }
}

/// Reads the metrics of a font at a size, or at its design size, from the bytes of its metric file.
///
/// All sizes are those with which a job sets the font.
///
/// # Errors
///
/// [`Error::Refused`] as BadTfm or DimensionTooLarge; [`Error::OutOfRange`], if no font has this size; [`Error::OutOfMemory`].
///
/// # Examples
///
/// ```
/// use boxglue::{metrics, Error, RefusalKind, Sp};
///
/// assert!(matches!(metrics(b"no metric file", None), Err(Error::Refused(it)) if it.kind() == RefusalKind::BadTfm));
/// assert_eq!(metrics(b"", Some(Sp::ZERO)), Err(Error::OutOfRange));
/// ```
pub fn metrics(tfm: &[u8], size: Option<Sp>) -> Result<FontMetrics, Error> {
    let asked = size.map_or(0, |it| if it == Sp::ZERO { -1 } else { it.0 });
    let mut glyphs = Box::new(sys::boxglue_glyph_table { rows: [sys::boxglue_glyph::default(); 256] });
    let (mut parameters, mut fault, mut count) = (sys::boxglue_font_parameters::default(), sys::boxglue_fault::default(), 0);
    loop {
        let mut steps = buffer(count, sys::boxglue_font_step::default())?;
        // SAFETY: the pointers are those of a slice with its length, and of values, none of which overlap.
        let status = unsafe {
            sys::boxglue_metrics(tfm.as_ptr(), tfm.len(), asked, &mut *glyphs, &mut parameters, steps.as_mut_ptr(), steps.len(), &mut count, &mut fault)
        };
        match status {
            sys::BOXGLUE_BUFFER_TOO_SMALL => {}
            sys::BOXGLUE_ACCEPTED => return Ok(FontMetrics { glyphs, parameters, steps }),
            sys::BOXGLUE_REFUSED => return Err(refusal_of(&fault).into()),
            other => return Err(Error::of(other)),
        }
    }
}
