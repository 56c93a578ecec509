//! Sets documents with TeX's boxes, glue and paragraphs, and reads, lists and paints the pages of DVI files.
//!
//! ```
//! use boxglue::{Error, Job, Sp, Target};
//!
//! let mut job = Job::new(&[])?;
//! let mut page = job.hbox(0, Target::Natural)?;
//! page.rule(Sp::points(1), Some(Sp::points(1)), Some(Sp::ZERO))?;
//! println!("{} wide", Sp(page.end()?.sizes.width));
//! job.ship(0)?;
//! job.finish()?.answer?;
//! assert_eq!(job.take()?.len(), 116); // for std::fs::write
//! # Ok::<(), Error>(())
//! ```
//!
//! | task | call |
//! |---|---|
//! | begin and end a job | [`Job::new`], [`Job::finish`] |
//! | get the DVI file | [`Job::take`] |
//! | choose a font | [`Job::load`], [`Job::use_font`] |
//! | open a box or a paragraph | [`Job::hbox`], [`Job::vbox`], [`VboxList::par`](List::par) |
//! | set a parameter | [`Job::set`] |
//! | add text, space, a rule or a box | [`List::text`], [`List::glue`], [`HboxList::rule`](List::rule), [`List::put`] |
//! | end a list, and learn its size | [`List::end`] |
//! | cut a column | [`Job::vsplit`] |
//! | make a page | [`Job::ship`] |
//! | look into a box | [`Job::inspect`] |
//! | run a script | [`run`], [`Job::commands`] |
//! | read a DVI file or a font | [`marks`], [`metrics`] |
//!
//! Each command of docs/COMMANDS.md of boxglue is a call of [`Job`] or of the [`List`] that a job opens, whose type has the commands of its mode. Calls
//! whose names end with `_text` return answers as texts, in the form of docs/FORMATS.md.
//!
//! A [`Font`] has the name that scripts and DVI files use for it, and the bytes of its metric file (TFM). If several have one name, the first counts.
//! Calls may run in several threads at once.
#![warn(missing_docs, clippy::missing_errors_doc, clippy::missing_panics_doc)]

mod boxes;
mod buffers;
mod error;
mod job;
mod lists;
mod marks;
mod metrics;
mod names;
mod opened;
mod replies;
mod sp;
mod texts;
mod values;

pub use boxes::{BoxTree, BoxView, GlueSetting, Item, Order, Place, Running};
pub use error::{Error, Fault, Refusal};
pub use job::{Answers, Job, TextAnswers};
pub use lists::{EndRefused, HboxList, Horizontal, InHbox, InParagraph, InVbox, List, Mode, Packed, Paragraph, ParagraphList, Shaped, Split, VboxList};
pub use marks::{marks, Document, Mark, Page, Units};
pub use metrics::{metrics, FontMetrics, GlyphMetrics, Step};
pub use names::{Cause, RefusalKind};
pub use opened::{ListForm, ListOpening};
pub use replies::{run, Answer, BoxKind, BoxSizes, Reply, Run};
pub use sp::Sp;
pub use values::{quote, Glue, Parameter, Stretch, Target};

use boxglue_sys as sys;
use buffers::{answers_room, buffer, dvi_room, given, one_text, text, DVI_ROOM, FONT_ROOM, NAME_ROOM, TEXT_ROOM};
use replies::lines_of;

/// Always false, since a constant cannot ask the library that runs.
#[deprecated(since = "1.2.0", note = "ask the library that runs, by `is_proved`")]
pub const IS_PROVED: bool = false;

/// A font: the name that scripts and DVI files use for it, 1 to 255 bytes, and the bytes of its metric file (TFM).
#[derive(Clone, Copy, Debug)]
pub struct Font<'a> {
    /// The name.
    pub name: &'a [u8],
    /// The bytes of the metric file.
    pub metrics: &'a [u8],
}

impl<'a> Font<'a> {
    /// Makes a font of this name.
    pub fn new(name: &'a (impl AsRef<[u8]> + ?Sized), metrics: &'a [u8]) -> Font<'a> {
        Font { name: name.as_ref(), metrics }
    }
}

/// A run of a script, with its answers as texts.
#[derive(Clone, Debug, PartialEq, Eq)]
pub struct TextRun {
    /// The answers to the commands, a line each.
    pub answers: String,
    /// The bytes of the DVI file; none if no page was shipped. If the end was refused, they are not a whole file.
    pub dvi: Vec<u8>,
    /// Whether everything was accepted.
    pub accepted: bool,
}

impl TextRun {
    /// Iterates over the refusals among the answers, in order.
    pub fn refusals(&self) -> impl Iterator<Item = Refusal> + '_ {
        Refusal::all(&self.answers)
    }

    /// Returns this run, or the first refusal as an error.
    ///
    /// # Errors
    ///
    /// [`Error::Refused`].
    pub fn check(self) -> Result<TextRun, Error> {
        if self.accepted {
            Ok(self)
        } else {
            Err(Error::refused(&self.answers))
        }
    }
}

/// Runs a script with these fonts as [`run`] does, and returns its answers as texts.
///
/// A refused command is among the answers, and [`TextRun::check`] makes it an error.
///
/// # Errors
///
/// [`Error::OutOfMemory`] and [`Error::BadFontName`].
///
/// # Examples
///
/// ```
/// let ran = boxglue::run_text("ship 3\n", &[])?;
/// assert_eq!((ran.answers.as_str(), ran.accepted), ("1: refused 21 VoidBox\nend: pages 0 bytes 0\n", false));
/// # Ok::<(), boxglue::Error>(())
/// ```
pub fn run_text(script: impl AsRef<[u8]>, fonts: &[Font<'_>]) -> Result<TextRun, Error> {
    let (script, fonts) = (script.as_ref(), given(fonts));
    let mut sizes = sys::boxglue_lengths { answers: answers_room(lines_of(script) + 1), dvi: dvi_room(script) };
    loop {
        let (mut answers, mut dvi) = (buffer(sizes.answers, 0)?, buffer(sizes.dvi, 0)?);
        // SAFETY: each pointer is that of a slice with its length, none of which overlap, and no slice has a null pointer.
        let status = unsafe {
            sys::boxglue_run(
                script.as_ptr(),
                script.len(),
                fonts.as_ptr(),
                fonts.len(),
                answers.as_mut_ptr(),
                answers.len(),
                dvi.as_mut_ptr(),
                dvi.len(),
                &mut sizes,
            )
        };
        if status == sys::BOXGLUE_BUFFER_TOO_SMALL {
            continue;
        }
        let accepted = Error::is_accepted(status)?;
        answers.truncate(sizes.answers);
        dvi.truncate(sizes.dvi);
        return Ok(TextRun { answers: text(answers), dvi, accepted });
    }
}

/// Lists the marks of all pages of a DVI file.
///
/// # Errors
///
/// [`Error::Refused`], [`Error::OutOfMemory`] and [`Error::BadFontName`].
///
/// # Examples
///
/// ```
/// let ran = boxglue::run("hbox into 0\nrule 1pt 1pt 0pt\nend\nship 0\n", &[])?;
/// assert_eq!(boxglue::listing(&ran.dvi, &[])?, "page 1 counts 0 0 0 0 0 0 0 0 0 0\nrule 0 65536 65536 65536\n");
/// # Ok::<(), boxglue::Error>(())
/// ```
pub fn listing(dvi: &[u8], fonts: &[Font<'_>]) -> Result<String, Error> {
    let fonts = given(fonts);
    // SAFETY: as for `run`.
    one_text(DVI_ROOM, |at, room, size| unsafe { sys::boxglue_list(dvi.as_ptr(), dvi.len(), fonts.as_ptr(), fonts.len(), at, room, size) })
}

/// Checks a DVI file as [`listing`] does, and returns why it is refused, or `None` if it is accepted.
///
/// # Errors
///
/// [`Error::OutOfMemory`] and [`Error::BadFontName`].
///
/// # Examples
///
/// ```
/// let fault = boxglue::check(b"no DVI file", &[])?.unwrap();
/// assert_eq!((fault.kind, fault.cause, fault.place), (boxglue::RefusalKind::BadDvi, Some(boxglue::Cause::Trailer), Some(11)));
/// # Ok::<(), boxglue::Error>(())
/// ```
pub fn check(dvi: &[u8], fonts: &[Font<'_>]) -> Result<Option<Fault>, Error> {
    let (fonts, mut fault, mut name) = (given(fonts), sys::boxglue_fault::default(), [0; NAME_ROOM]);
    // SAFETY: as for `run`.
    let status = unsafe { sys::boxglue_check(dvi.as_ptr(), dvi.len(), fonts.as_ptr(), fonts.len(), &mut fault, name.as_mut_ptr(), name.len()) };
    match status {
        sys::BOXGLUE_ACCEPTED => Ok(None),
        sys::BOXGLUE_REFUSED => Ok(Some(Fault::of(&fault, &name))),
        other => Err(Error::of(other)),
    }
}

/// Which page is painted, and how.
#[derive(Clone, Copy, Debug, PartialEq, Eq)]
pub struct PaintOptions {
    /// The number of the page, from 1.
    pub page: u32,
    /// Pixels an inch, 1 to 10,000.
    pub dpi: u32,
    /// The width of the bitmap in pixels, 1 to 10,000.
    pub width: u32,
    /// The height of the bitmap in pixels, 1 to 10,000.
    pub height: u32,
}

/// Paints the rules of a page of a DVI file as a bitmap, in plain PBM. It paints no glyphs.
///
/// # Errors
///
/// [`Error::Refused`], [`Error::NoSuchPage`], [`Error::OutOfRange`], [`Error::OutOfMemory`] and [`Error::BadFontName`].
///
/// # Examples
///
/// ```
/// use boxglue::{paint, Error, PaintOptions};
///
/// let ran = boxglue::run("hbox into 0\nrule 1in 1in 0pt\nend\nship 0\n", &[])?;
/// let sheet = PaintOptions { page: 1, dpi: 1, width: 2, height: 2 };
/// assert_eq!(paint(&ran.dvi, &[], sheet)?, "P1\n2 2\n00\n10\n");
/// assert_eq!(paint(&ran.dvi, &[], PaintOptions { page: 2, ..sheet }), Err(Error::NoSuchPage));
/// # Ok::<(), Error>(())
/// ```
pub fn paint(dvi: &[u8], fonts: &[Font<'_>], sheet: PaintOptions) -> Result<String, Error> {
    let (fonts, PaintOptions { page, dpi, width, height }) = (given(fonts), sheet);
    // SAFETY: as for `run`.
    one_text(DVI_ROOM, |at, room, size| unsafe {
        sys::boxglue_paint(dvi.as_ptr(), dvi.len(), fonts.as_ptr(), fonts.len(), page, dpi, width, height, at, room, size)
    })
}

/// A font that a DVI file defines.
#[derive(Clone, Debug, PartialEq, Eq, Hash)]
#[non_exhaustive]
pub struct DviFont {
    /// The number by which pages select it.
    pub number: i32,
    /// Its name, 0 to 255 bytes.
    pub name: Vec<u8>,
    /// Its size in DVI units, which are scaled points in boxglue's own files.
    pub size: i32,
    /// Its design size in DVI units.
    pub design_size: i32,
    /// The check sum of its metric file, as the DVI file gives it. Neither is compared with a metric file.
    pub check_sum: u32,
}

/// Reads the fonts that a DVI file defines after its pages, in the order of the file. Their names are those that the other calls need.
///
/// The call reads no page.
///
/// # Errors
///
/// [`Error::Refused`] and [`Error::OutOfMemory`].
///
/// # Examples
///
/// ```
/// let ran = boxglue::run("hbox into 0\nrule 1pt 1pt 0pt\nend\nship 0\n", &[])?;
/// assert!(boxglue::fonts(&ran.dvi)?.is_empty());
/// assert!(matches!(boxglue::fonts(b"no DVI file"), Err(boxglue::Error::Refused(it)) if it.name == "BadDvi"));
/// # Ok::<(), boxglue::Error>(())
/// ```
pub fn fonts(dvi: &[u8]) -> Result<Vec<DviFont>, Error> {
    let mut sizes = sys::boxglue_font_sizes { fonts: FONT_ROOM, text: TEXT_ROOM };
    loop {
        let (mut rows, mut names) = (buffer(sizes.fonts, sys::boxglue_dvi_font::default())?, buffer(sizes.text, 0)?);
        // SAFETY: as for `run`.
        let status = unsafe { sys::boxglue_fonts(dvi.as_ptr(), dvi.len(), rows.as_mut_ptr(), rows.len(), names.as_mut_ptr(), names.len(), &mut sizes) };
        names.truncate(sizes.text.min(names.len()));
        match status {
            sys::BOXGLUE_BUFFER_TOO_SMALL => {}
            sys::BOXGLUE_ACCEPTED => {
                let name = |it: &sys::boxglue_dvi_font| names[it.name_start..it.name_start + it.name_size].to_vec();
                return Ok(rows[..sizes.fonts]
                    .iter()
                    .map(|it| DviFont { number: it.number, name: name(it), size: it.size, design_size: it.design_size, check_sum: it.check_sum })
                    .collect());
            }
            sys::BOXGLUE_REFUSED => return Err(Error::refused(&text(names))),
            other => return Err(Error::of(other)),
        }
    }
}

/// Writes a dimension of scaled points in points, with the fewest digits that are read as the same number.
///
/// # Examples
///
/// ```
/// assert_eq!((boxglue::points(98_304), boxglue::points(-1)), ("1.5pt".to_string(), "-0.00002pt".to_string()));
/// ```
pub fn points(dimension: i32) -> String {
    const POINT: u32 = 65_536;
    let size = dimension.unsigned_abs();
    let (mut rest, mut delta, mut digits) = (10 * (size % POINT) + 5, 10, String::new());
    loop {
        if delta > POINT {
            rest -= 17_232; // rounds the fifth digit
        }
        digits += &(rest / POINT).to_string();
        (rest, delta) = (10 * (rest % POINT), 10 * delta);
        if rest <= delta {
            return format!("{}{}.{digits}pt", if dimension < 0 { "-" } else { "" }, size / POINT);
        }
    }
}

/// Returns the version of the library, such as "1.2.0".
///
/// # Examples
///
/// ```
/// assert_eq!(boxglue::version().split('.').next(), Some("1"));
/// ```
pub fn version() -> String {
    // SAFETY: the call takes nothing.
    let number = unsafe { sys::boxglue_version() };
    format!("{}.{}.{}", number / 10_000, number / 100 % 100, number % 100)
}

/// Tells whether the library that runs is proved: it says so itself.
///
/// A library that was built without proofs has run-time checks, and a fault of its own ends the program.
///
/// # Examples
///
/// ```
/// println!("boxglue {}, {}", boxglue::version(), if boxglue::is_proved() { "proved" } else { "unproved" });
/// ```
pub fn is_proved() -> bool {
    // SAFETY: the call takes nothing.
    unsafe { sys::boxglue_proved() == 1 }
}
