//! What stops a call.

use crate::{Answer, Cause, ListOpening, RefusalKind};
use boxglue_sys as sys;
use std::fmt;

/// A refusal: of a command, a script, the end of a job, or a DVI file.
#[derive(Clone, Debug, PartialEq, Eq, Hash)]
#[non_exhaustive]
pub struct Refusal {
    /// The line of the command that was refused, if a command was.
    pub line: Option<u64>,
    /// Its number (docs/REFUSALS.md), such as 4.
    pub number: u32,
    /// Its name, such as "NoFont".
    pub name: String,
    /// The text after the name, such as "74 Trailer" after "BadDvi".
    pub detail: String,
    /// The command, such as "use 7", or the bad line of a script; none in a refusal of a text of answers.
    pub command: Option<String>,
    /// After WrongMode, VoidBox and ListsOpen the lists that are open, the innermost one last. A refusal of a text of answers has none.
    pub open_lists: Vec<ListOpening>,
}

impl Refusal {
    /// The refusal of an answer, if it is one: "7: refused 4 NoFont", "end: refused 17 ListsOpen" or "refused 20 BadDvi 74 Trailer".
    fn of(answer: &str) -> Option<Refusal> {
        let (line, rest) = answer.split_once(": ").unwrap_or(("", answer));
        let mut words = rest.strip_prefix("refused ")?.splitn(3, ' ');
        let number = words.next()?.parse().ok()?;
        let name = words.next()?.to_string();
        Some(Refusal { line: line.parse().ok(), number, name, detail: words.next().unwrap_or_default().to_string(), command: None, open_lists: Vec::new() })
    }

    /// Returns its kind, by its number.
    pub fn kind(&self) -> RefusalKind {
        RefusalKind::of(self.number)
    }

    /// Returns the rule that a line of a script, a metric file or a DVI file breaks, if the refusal names one.
    ///
    /// # Examples
    ///
    /// ```
    /// use boxglue::{Cause, RefusalKind};
    ///
    /// let ran = boxglue::run("kern 12px\n", &[])?;
    /// let refusal = ran.refusals().next().unwrap();
    /// assert_eq!((refusal.kind(), refusal.bad_line(), refusal.cause()), (RefusalKind::BadScript, Some(1), Some(Cause::Dimension)));
    /// # Ok::<(), boxglue::Error>(())
    /// ```
    pub fn cause(&self) -> Option<Cause> {
        self.detail.rsplit(' ').next().filter(|it| !it.is_empty()).map(Cause::of)
    }

    /// Returns the number of the bad line, if a script or a piece was refused as a whole.
    pub fn bad_line(&self) -> Option<u64> {
        self.where_in("BadScript")
    }

    /// Returns the place in a DVI file, in bytes, at which it breaks a rule.
    ///
    /// # Examples
    ///
    /// ```
    /// let refused = boxglue::fonts(b"no DVI file").unwrap_err();
    /// assert!(matches!(refused, boxglue::Error::Refused(it) if it.place() == Some(11) && it.cause() == Some(boxglue::Cause::Trailer)));
    /// ```
    pub fn place(&self) -> Option<u64> {
        self.where_in("BadDvi")
    }

    /// Writes what an answer says of it.
    pub(crate) fn write_said(&self, out: &mut fmt::Formatter<'_>) -> fmt::Result {
        write!(out, "refused {} {}", self.number, self.name)?;
        if self.detail.is_empty() {
            Ok(())
        } else {
            write!(out, " {}", self.detail)
        }
    }

    /// The number before the cause of a refusal of this name.
    fn where_in(&self, name: &str) -> Option<u64> {
        self.detail.split_once(' ').filter(|_| self.name == name)?.0.parse().ok()
    }

    /// The refusals among answers.
    pub(crate) fn all(answers: &str) -> impl Iterator<Item = Refusal> + '_ {
        answers.lines().filter_map(Refusal::of)
    }
}

impl fmt::Display for Refusal {
    fn fmt(&self, out: &mut fmt::Formatter<'_>) -> fmt::Result {
        if let Some(line) = self.line {
            write!(out, "line {line}: ")?;
        }
        self.write_said(out)?;
        if let Some(command) = &self.command {
            write!(out, ": {command:?}")?;
        }
        for (at, it) in self.open_lists.iter().enumerate() {
            write!(out, "{}{} (line {})", if at == 0 { "; open lists: " } else { ", " }, it.form, it.line)?;
        }
        let adds_text = |it: &String| it.starts_with("text ") || it.starts_with("char ");
        match (self.kind(), &self.command, self.line) {
            (RefusalKind::NoFont, Some(it), _) if adds_text(it) => out.write_str("; no font is current: `use` chooses one"),
            // Of a DVI file. With the name itself an `Error` would have 128 bytes or more, which clippy calls large in each caller.
            (RefusalKind::NoFont, None, None) => out.write_str("; no metric file has the name of a font: `check` says which"),
            _ => Ok(()),
        }
    }
}

impl std::error::Error for Refusal {}

/// Why a DVI file is refused. A field that a fault does not have is `None`.
#[derive(Clone, Debug, PartialEq, Eq, Hash)]
#[non_exhaustive]
pub struct Fault {
    /// The refusal (docs/REFUSALS.md).
    pub kind: RefusalKind,
    /// The rule that the file or a metric file breaks.
    pub cause: Option<Cause>,
    /// The number of bytes before the place at which the file breaks a rule.
    pub place: Option<u64>,
    /// The name of the font that is missing.
    pub missing: Option<Vec<u8>>,
    /// The number by which the file selects the font whose metric file is refused.
    pub font: Option<i32>,
}

impl Fault {
    /// The fault of its row, with the name of a missing font.
    pub(crate) fn of(row: &sys::boxglue_fault, name: &[u8]) -> Fault {
        let kind = RefusalKind::of(row.number);
        Fault {
            kind,
            cause: match kind {
                RefusalKind::BadDvi => Some(Cause::of_dvi(row.cause)),
                RefusalKind::BadTfm => Some(Cause::of_metrics(row.cause)),
                _ => None,
            },
            place: (kind == RefusalKind::BadDvi).then_some(row.place),
            missing: (kind == RefusalKind::NoFont).then(|| name[..row.name_size].to_vec()),
            font: matches!(kind, RefusalKind::BadTfm | RefusalKind::DimensionTooLarge).then_some(row.font),
        }
    }
}

/// An error of a call. A refused command of a script is not one: it is among the answers.
#[derive(Clone, Debug, PartialEq, Eq)]
#[non_exhaustive]
pub enum Error {
    /// A DVI file was refused, or an answer that was checked is a refusal.
    Refused(Refusal),
    /// The system refused memory, and nothing was done.
    OutOfMemory,
    /// The name of a font does not have 1 to 255 bytes.
    BadFontName,
    /// The DVI file is good and does not have this page.
    NoSuchPage,
    /// A page, a number of pixels or an argument of a command is out of its range. Nothing was sent.
    OutOfRange,
    /// A text has a byte at this place that scripts do not have. Nothing was sent.
    BadByte {
        /// The place, from 0.
        place: usize,
    },
    /// A text is not a dimension.
    BadDimension,
    /// The command needs another list than the innermost one, which was dropped without its end. Nothing was sent.
    ListOpen,
    /// The library gave another answer than the command has, which this version never does.
    OtherAnswer(Answer),
    /// The commands were run, or the job was finished, and the system refused memory for the text of the answers.
    AnswersLost,
    /// A status that this version does not know.
    Other(u32),
}

impl Error {
    /// The error of a status.
    pub(crate) fn of(status: u32) -> Error {
        match status {
            sys::BOXGLUE_OUT_OF_MEMORY => Error::OutOfMemory,
            sys::BOXGLUE_BAD_FONT_NAME => Error::BadFontName,
            sys::BOXGLUE_NO_SUCH_PAGE => Error::NoSuchPage,
            sys::BOXGLUE_OUT_OF_RANGE => Error::OutOfRange,
            sys::BOXGLUE_ANSWERS_LOST => Error::AnswersLost,
            other => Error::Other(other),
        }
    }

    /// Whether all commands of a call were accepted, by its status; the error of a call that has no answers.
    pub(crate) fn is_accepted(status: u32) -> Result<bool, Error> {
        match status {
            sys::BOXGLUE_ACCEPTED => Ok(true),
            sys::BOXGLUE_REFUSED | sys::BOXGLUE_REFUSED_MEMORY => Ok(false),
            other => Err(Error::of(other)),
        }
    }

    /// The error of the first refusal among lines.
    pub(crate) fn refused(lines: &str) -> Error {
        Refusal::all(lines).next().map_or(Error::Other(sys::BOXGLUE_REFUSED), Error::Refused)
    }
}

impl fmt::Display for Error {
    fn fmt(&self, out: &mut fmt::Formatter<'_>) -> fmt::Result {
        match self {
            Error::Refused(refusal) => refusal.fmt(out),
            Error::OutOfMemory => out.write_str("memory was refused, and nothing was done"),
            Error::BadFontName => out.write_str("the name of a font does not have 1 to 255 bytes"),
            Error::NoSuchPage => out.write_str("the DVI file has no page of this number"),
            Error::OutOfRange => out.write_str("a number is out of its range"),
            Error::BadByte { place } => {
                write!(out, "the byte at {place} is not allowed: a text is one line of bytes 32 to 126, so send other characters by `char`; ")?;
                out.write_str("the name of a font has letters, digits, -, _ and .")
            }
            Error::BadDimension => out.write_str("a text is not a dimension: write a number and a unit, such as 1.5pt, without em or ex"),
            Error::ListOpen => out.write_str("a list was dropped without its end, and is open"),
            Error::OtherAnswer(answer) => write!(out, "the answer is {answer}"),
            Error::AnswersLost => out.write_str("memory was refused for the text of the answers"),
            Error::Other(status) => write!(out, "status {status}"),
        }
    }
}

impl From<Refusal> for Error {
    fn from(refusal: Refusal) -> Error {
        Error::Refused(refusal)
    }
}

/// The text of a refusal is that of the error, so it is no source beside it.
impl std::error::Error for Error {}

#[cfg(test)]
mod tests {
    use super::{sys, Error};

    // No test of a whole call has the library refuse memory for one command.
    #[test]
    fn commands_are_accepted_by_one_status_alone() {
        assert_eq!(Error::is_accepted(sys::BOXGLUE_ACCEPTED), Ok(true));
        assert_eq!(Error::is_accepted(sys::BOXGLUE_REFUSED), Ok(false));
        assert_eq!(Error::is_accepted(sys::BOXGLUE_REFUSED_MEMORY), Ok(false));
        assert_eq!(Error::is_accepted(sys::BOXGLUE_OUT_OF_MEMORY), Err(Error::OutOfMemory));
        assert_eq!(Error::is_accepted(sys::BOXGLUE_ANSWERS_LOST), Err(Error::AnswersLost));
    }
}
