//! Replies to commands, as numbers.

use crate::buffers::{buffer, dvi_room, given};
use crate::opened::OpenLists;
use crate::{Error, Font, Refusal};
use boxglue_sys as sys;

/// The name of a refusal (docs/REFUSALS.md).
fn refusal_name(number: u32) -> Option<&'static str> {
    Some(match number {
        sys::BOXGLUE_REFUSAL_OUT_OF_MEMORY => "OutOfMemory",
        sys::BOXGLUE_REFUSAL_BAD_SCRIPT => "BadScript",
        sys::BOXGLUE_REFUSAL_DIMENSION_TOO_LARGE => "DimensionTooLarge",
        sys::BOXGLUE_REFUSAL_NO_FONT => "NoFont",
        sys::BOXGLUE_REFUSAL_BAD_TFM => "BadTfm",
        sys::BOXGLUE_REFUSAL_SLOT_TAKEN => "SlotTaken",
        sys::BOXGLUE_REFUSAL_NO_OPEN_LIST => "NoOpenList",
        sys::BOXGLUE_REFUSAL_WRONG_MODE => "WrongMode",
        sys::BOXGLUE_REFUSAL_WRONG_KIND => "WrongKind",
        sys::BOXGLUE_REFUSAL_LIST_TOO_LONG => "ListTooLong",
        sys::BOXGLUE_REFUSAL_TOO_DEEP => "TooDeep",
        sys::BOXGLUE_REFUSAL_INFINITE_SHRINK => "InfiniteShrink",
        sys::BOXGLUE_REFUSAL_TOO_MANY_BREAKS => "TooManyBreaks",
        sys::BOXGLUE_REFUSAL_HUGE_PAGE => "HugePage",
        sys::BOXGLUE_REFUSAL_TOO_MANY_PAGES => "TooManyPages",
        sys::BOXGLUE_REFUSAL_TOO_MUCH_SHIPPED => "TooMuchShipped",
        sys::BOXGLUE_REFUSAL_LISTS_OPEN => "ListsOpen",
        sys::BOXGLUE_REFUSAL_DEVICE => "Device",
        sys::BOXGLUE_REFUSAL_JOB_OVER => "JobOver",
        sys::BOXGLUE_REFUSAL_VOID_BOX => "VoidBox",
        sys::BOXGLUE_REFUSAL_TOO_MUCH_SPECIAL => "TooMuchSpecial",
        _ => return None,
    })
}

/// What is wrong with a metric file (docs/FORMATS.md, section 9).
fn tfm_cause(number: u32) -> Option<&'static str> {
    Some(match number {
        sys::BOXGLUE_TFM_TOO_SHORT => "TooShort",
        sys::BOXGLUE_TFM_COUNTS => "Counts",
        sys::BOXGLUE_TFM_DESIGN_SIZE => "DesignSize",
        sys::BOXGLUE_TFM_CHAR_INFO => "CharInfo",
        sys::BOXGLUE_TFM_FIX_WORD => "FixWord",
        sys::BOXGLUE_TFM_LIG_KERN => "LigKern",
        _ => return None,
    })
}

/// What is wrong with a line of a script (docs/FORMATS.md, section 2).
fn line_cause(number: u32) -> Option<&'static str> {
    Some(match number {
        sys::BOXGLUE_LINE_BYTE => "Byte",
        sys::BOXGLUE_LINE_WORD => "Word",
        sys::BOXGLUE_LINE_MISSING => "Missing",
        sys::BOXGLUE_LINE_EXTRA => "Extra",
        sys::BOXGLUE_LINE_NUMBER => "Number",
        sys::BOXGLUE_LINE_DIMENSION => "Dimension",
        sys::BOXGLUE_LINE_NAME => "Name",
        _ => return None,
    })
}

/// The sizes of a box, in scaled points: 65,536 of them are a point.
#[derive(Clone, Copy, Debug, PartialEq, Eq, Hash)]
pub struct BoxSizes {
    /// The width.
    pub width: i32,
    /// The height, above the baseline.
    pub height: i32,
    /// The depth, below it.
    pub depth: i32,
}

impl From<sys::boxglue_box_sizes> for BoxSizes {
    fn from(it: sys::boxglue_box_sizes) -> BoxSizes {
        BoxSizes { width: it.width, height: it.height, depth: it.depth }
    }
}

/// The kind of a box.
#[derive(Clone, Copy, Debug, PartialEq, Eq, Hash)]
pub enum BoxKind {
    /// An hbox.
    Horizontal,
    /// A vbox or a vtop.
    Vertical,
}

/// The answer of a command that was done (docs/COMMANDS.md, section 3), or of the end of a job. Dimensions are in scaled points.
#[derive(Clone, Debug, PartialEq, Eq, Hash)]
#[non_exhaustive]
pub enum Answer {
    /// There is nothing to report.
    Ok,
    /// A box was packed.
    Packed {
        /// Its sizes.
        sizes: BoxSizes,
        /// 0 to 10,000, or 1,000,000 for an overfull box.
        badness: u32,
    },
    /// A box was measured.
    Measured {
        /// Its kind.
        kind: BoxKind,
        /// Its sizes.
        sizes: BoxSizes,
    },
    /// The register that was measured is void.
    MeasuredVoid,
    /// Items of a text were added.
    Shaped {
        /// How many.
        items: u64,
        /// How many characters the font does not have; `u32::MAX` stands for more, too.
        missing: u32,
    },
    /// Items were added.
    Added {
        /// How many.
        items: u64,
    },
    /// A paragraph was broken and added.
    Paragraph {
        /// How many lines it has.
        lines: u64,
        /// The pass that broke it, 1 to 3; 0 for an empty one.
        pass: u32,
        /// By how much its lines are overfull.
        overhang: i64,
        /// Its demerits.
        demerits: i64,
    },
    /// A box was split.
    Split {
        /// The sizes of the front.
        front: BoxSizes,
        /// The badness of the front.
        badness: u32,
        /// The sizes of the rest, if there is one.
        rest: Option<BoxSizes>,
    },
    /// The register whose box was to be split is void.
    SplitVoid,
    /// A page was shipped.
    Shipped {
        /// How many pages were shipped so far.
        pages: u64,
    },
    /// The job was ended.
    End {
        /// How many pages the file has.
        pages: u64,
        /// How many bytes it has.
        bytes: u64,
    },
    /// A kind that this version does not know.
    Other(u32),
}

/// The reply to a line of a script, or to the end of a job. Its text is the line of an answer (docs/FORMATS.md, section 3).
#[derive(Clone, Debug, PartialEq, Eq, Hash)]
pub struct Reply {
    /// The number of the line, from 1; none for the end.
    pub line: Option<u64>,
    /// What the command answers, or why it was refused, or the piece or the script with this bad line.
    pub answer: Result<Answer, Refusal>,
}

impl Reply {
    /// The reply that a row has.
    pub(crate) fn of(row: &sys::boxglue_reply) -> Reply {
        let line = (row.line > 0).then_some(row.line);
        let (sizes, rest, badness) = (row.box_.into(), row.rest.into(), row.badness);
        let answer = match row.kind {
            sys::BOXGLUE_REPLY_REFUSED | sys::BOXGLUE_REPLY_BAD_LINE => return Reply { line, answer: Err(refusal(row)) },
            sys::BOXGLUE_REPLY_OK => Answer::Ok,
            sys::BOXGLUE_REPLY_PACKED => Answer::Packed { sizes, badness },
            sys::BOXGLUE_REPLY_MEASURED => {
                Answer::Measured { kind: if row.box_kind == sys::BOXGLUE_BOX_HORIZONTAL { BoxKind::Horizontal } else { BoxKind::Vertical }, sizes }
            }
            sys::BOXGLUE_REPLY_MEASURED_VOID => Answer::MeasuredVoid,
            sys::BOXGLUE_REPLY_SHAPED => Answer::Shaped { items: row.count, missing: row.missing },
            sys::BOXGLUE_REPLY_ADDED => Answer::Added { items: row.count },
            sys::BOXGLUE_REPLY_PARAGRAPH => Answer::Paragraph { lines: row.count, pass: row.pass, overhang: row.overhang, demerits: row.demerits },
            sys::BOXGLUE_REPLY_SPLIT => Answer::Split { front: sizes, badness, rest: (row.has_rest != 0).then_some(rest) },
            sys::BOXGLUE_REPLY_SPLIT_VOID => Answer::SplitVoid,
            sys::BOXGLUE_REPLY_SHIPPED => Answer::Shipped { pages: row.count },
            sys::BOXGLUE_REPLY_END => Answer::End { pages: row.count, bytes: row.bytes },
            other => Answer::Other(other),
        };
        Reply { line, answer: Ok(answer) }
    }
}

/// The refusal of a row, with the texts of an answer. That of a bad line names the line in its detail, as no command of it was run.
fn refusal(row: &sys::boxglue_reply) -> Refusal {
    // A number of a later version has itself as its name.
    let text = |name: Option<&str>, number: u32| name.map_or_else(|| number.to_string(), str::to_string);
    let (number, name) = (row.refusal, text(refusal_name(row.refusal), row.refusal));
    if row.kind == sys::BOXGLUE_REPLY_BAD_LINE {
        return Refusal {
            line: None,
            number,
            name,
            detail: format!("{} {}", row.line, text(line_cause(row.cause), row.cause)),
            command: None,
            open_lists: Vec::new(),
        };
    }
    let detail = if row.cause == 0 { String::new() } else { text(tfm_cause(row.cause), row.cause) };
    Refusal { line: (row.line > 0).then_some(row.line), number, name, detail, command: None, open_lists: Vec::new() }
}

/// A run of a script.
#[derive(Clone, Debug, PartialEq, Eq)]
pub struct Run {
    /// A reply to each command, in order, and then to the end; or the one refusal of a script with a bad line.
    pub replies: Vec<Reply>,
    /// The bytes of the DVI file; none if no page was shipped. If the end was refused, they are not a whole file.
    pub dvi: Vec<u8>,
    /// Whether everything was accepted.
    pub accepted: bool,
}

impl Run {
    /// Iterates over the refusals among the replies, in order.
    pub fn refusals(&self) -> impl Iterator<Item = &Refusal> + '_ {
        self.replies.iter().filter_map(|it| it.answer.as_ref().err())
    }

    /// Returns this run, or the first refusal as an error.
    ///
    /// # Errors
    ///
    /// [`Error::Refused`].
    pub fn check(self) -> Result<Run, Error> {
        let first = self.refusals().next().cloned();
        first.map_or(Ok(self), |it| Err(it.into()))
    }
}

/// Runs a script with these fonts. A refused command is among the replies, and [`Run::check`] makes it an error.
///
/// # Errors
///
/// [`Error::OutOfMemory`] and [`Error::BadFontName`].
///
/// # Examples
///
/// ```
/// use boxglue::{run, Answer, BoxSizes};
///
/// let ran = run("hbox into 0\nrule 1pt 1pt 0pt\nend\nship 0\n", &[])?.check()?;
/// let sizes = BoxSizes { width: 65_536, height: 65_536, depth: 0 };
/// assert_eq!(ran.replies[2].answer, Ok(Answer::Packed { sizes, badness: 0 }));
/// assert_eq!((ran.replies[3].line, &ran.replies[3].answer), (Some(4), &Ok(Answer::Shipped { pages: 1 })));
/// assert_eq!((ran.replies[4].line, &ran.replies[4].answer), (None, &Ok(Answer::End { pages: 1, bytes: 116 })));
/// # Ok::<(), boxglue::Error>(())
/// ```
pub fn run(script: impl AsRef<[u8]>, fonts: &[Font<'_>]) -> Result<Run, Error> {
    let (script, fonts) = (script.as_ref(), given(fonts));
    // A reply to each line, and one to the end.
    let mut sizes = sys::boxglue_reply_sizes { replies: lines_of(script) + 1, dvi: dvi_room(script) };
    loop {
        let (mut rows, mut dvi) = (buffer(sizes.replies, sys::boxglue_reply::default())?, buffer(sizes.dvi, 0)?);
        // SAFETY: each pointer is that of a slice with its length, none of which overlap, and no slice has a null pointer.
        let status = unsafe {
            sys::boxglue_run_replies(
                script.as_ptr(),
                script.len(),
                fonts.as_ptr(),
                fonts.len(),
                rows.as_mut_ptr(),
                rows.len(),
                dvi.as_mut_ptr(),
                dvi.len(),
                &mut sizes,
            )
        };
        if status == sys::BOXGLUE_BUFFER_TOO_SMALL {
            continue;
        }
        let accepted = Error::is_accepted(status)?;
        dvi.truncate(sizes.dvi);
        let mut replies: Vec<Reply> = rows[..sizes.replies].iter().map(Reply::of).collect();
        OpenLists::default().follow(script, &mut replies);
        return Ok(Run { replies, dvi, accepted });
    }
}

/// How many lines a script has at most: its line feeds, and one.
pub(crate) fn lines_of(script: &[u8]) -> usize {
    script.iter().filter(|it| **it == b'\n').count() + 1
}
