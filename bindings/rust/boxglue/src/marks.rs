//! The marks of a DVI file.

use crate::buffers::{buffer, given, text};
use crate::{Error, Font};
use boxglue_sys as sys;
use std::fmt;

/// The units of a DVI file: a DVI unit is `num / den` times 10^-7 metres, enlarged by `mag / 1000`. All three are positive.
#[derive(Clone, Copy, Debug, PartialEq, Eq)]
pub struct Units {
    /// The numerator.
    pub num: i32,
    /// The denominator.
    pub den: i32,
    /// The magnification.
    pub mag: i32,
}

/// A mark of a page: its place and its numbers in DVI units. `h` grows to the right and `v` downward.
#[derive(Clone, Copy, Debug, PartialEq, Eq, Hash)]
#[non_exhaustive]
pub enum Mark<'a> {
    /// A character.
    Glyph {
        /// The number of its font, as in [`DviFont`](crate::DviFont).
        font: i32,
        /// The character.
        code: i32,
        /// Its place.
        h: i32,
        /// Its place.
        v: i32,
        /// Its width by the metric file of its font.
        width: i32,
    },
    /// A rule.
    Rule {
        /// The place of its lower left corner.
        h: i32,
        /// The place of its lower left corner.
        v: i32,
        /// Its height, above 0.
        height: i32,
        /// Its width, above 0.
        width: i32,
    },
    /// A special.
    Special {
        /// Its place.
        h: i32,
        /// Its place.
        v: i32,
        /// Its text, a part of the bytes of the file.
        text: &'a [u8],
    },
    /// A kind that this version does not know.
    Other(u32),
}

/// A page of a DVI file.
#[derive(Clone, Copy, Debug)]
pub struct Page<'m> {
    page: &'m sys::boxglue_page,
    marks: &'m [sys::boxglue_mark],
    dvi: &'m [u8],
}

impl<'m> Page<'m> {
    /// Returns its ten counts.
    pub fn counts(&self) -> &'m [i32; 10] {
        &self.page.counts
    }

    /// Iterates over its marks, in the order of the file.
    pub fn marks(&self) -> impl ExactSizeIterator<Item = Mark<'m>> + DoubleEndedIterator + Clone {
        let dvi = self.dvi;
        self.marks.iter().map(move |it| mark_of(it, dvi))
    }
}

/// The mark that a row has.
fn mark_of<'m>(row: &sys::boxglue_mark, dvi: &'m [u8]) -> Mark<'m> {
    let sys::boxglue_mark { kind, font, code, h, v, height, width, text_size, text_start } = *row;
    match kind {
        sys::BOXGLUE_GLYPH => Mark::Glyph { font, code, h, v, width },
        sys::BOXGLUE_RULE => Mark::Rule { h, v, height, width },
        sys::BOXGLUE_SPECIAL => Mark::Special { h, v, text: &dvi[text_start as usize..][..text_size as usize] },
        other => Mark::Other(other),
    }
}

/// The pages of a DVI file and their marks. The texts of specials stay in the bytes of the file.
#[derive(Clone)]
pub struct Document<'a> {
    dvi: &'a [u8],
    pages: Vec<sys::boxglue_page>,
    marks: Vec<sys::boxglue_mark>,
    units: Units,
}

// A file may have millions of marks, so a message has their number alone.
impl fmt::Debug for Document<'_> {
    fn fmt(&self, out: &mut fmt::Formatter<'_>) -> fmt::Result {
        let (pages, marks) = (self.pages.len(), self.marks.len());
        out.debug_struct("Document").field("pages", &pages).field("marks", &marks).field("units", &self.units).finish()
    }
}

impl Document<'_> {
    /// Iterates over the pages, in the order of the file.
    pub fn pages(&self) -> impl ExactSizeIterator<Item = Page<'_>> + DoubleEndedIterator + Clone {
        self.pages.iter().map(|page| Page { page, marks: &self.marks[page.first_mark..][..page.marks], dvi: self.dvi })
    }

    /// Iterates over the marks of all pages, one page after the other.
    pub fn marks(&self) -> impl ExactSizeIterator<Item = Mark<'_>> + DoubleEndedIterator + Clone {
        self.marks.iter().map(|it| mark_of(it, self.dvi))
    }

    /// Returns the units of the file.
    pub fn units(&self) -> Units {
        self.units
    }
}

/// Reads the marks of all pages of a DVI file with these fonts.
///
/// # Errors
///
/// [`Error::Refused`], [`Error::OutOfMemory`] and [`Error::BadFontName`].
///
/// # Examples
///
/// ```
/// use boxglue::{marks, run, Mark};
///
/// let ran = run("hbox into 0\nrule 1pt 1pt 0pt\nspecial a b\nend\nship 0\n", &[])?.check()?;
/// let document = marks(&ran.dvi, &[])?;
/// for page in document.pages() {
///     assert_eq!(page.counts(), &[0; 10]);
///     let marks: Vec<_> = page.marks().collect();
///     assert_eq!(marks[0], Mark::Rule { h: 0, v: 65_536, height: 65_536, width: 65_536 });
///     assert_eq!(marks[1], Mark::Special { h: 65_536, v: 65_536, text: b"a b" });
/// }
/// # Ok::<(), boxglue::Error>(())
/// ```
pub fn marks<'a>(dvi: &'a [u8], fonts: &[Font<'_>]) -> Result<Document<'a>, Error> {
    let fonts = given(fonts);
    // These rooms always suffice. Most of the marks' room is not touched.
    let mut sizes = sys::boxglue_mark_sizes { pages: dvi.len() / 46, marks: dvi.len(), text: 64, ..Default::default() };
    loop {
        let (mut pages, mut marks, mut line) = (buffer(sizes.pages, sys::boxglue_page::default())?, Vec::new(), buffer(sizes.text, 0)?);
        marks.try_reserve_exact(sizes.marks).map_err(|_| Error::OutOfMemory)?;
        let marks_room = sizes.marks;
        // SAFETY: each pointer is that of a slice or of a vector with room for so many, none of which overlap, and none is null.
        let status = unsafe {
            sys::boxglue_marks(
                dvi.as_ptr(),
                dvi.len(),
                fonts.as_ptr(),
                fonts.len(),
                pages.as_mut_ptr(),
                pages.len(),
                marks.as_mut_ptr(),
                marks_room,
                line.as_mut_ptr(),
                line.len(),
                &mut sizes,
            )
        };
        match status {
            sys::BOXGLUE_BUFFER_TOO_SMALL => {}
            sys::BOXGLUE_ACCEPTED => {
                pages.truncate(sizes.pages);
                debug_assert!(sizes.marks <= marks_room);
                // SAFETY: the call wrote so many marks.
                unsafe { marks.set_len(sizes.marks) };
                marks.shrink_to_fit();
                return Ok(Document { dvi, pages, marks, units: Units { num: sizes.num, den: sizes.den, mag: sizes.mag } });
            }
            sys::BOXGLUE_REFUSED => {
                line.truncate(sizes.text);
                return Err(Error::refused(&text(line)));
            }
            other => return Err(Error::of(other)),
        }
    }
}
