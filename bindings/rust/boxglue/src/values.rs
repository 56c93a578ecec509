//! What commands take.

use crate::{Error, Sp};
use std::fmt::Write;

/// The registers are 0 to this number.
const LAST_REGISTER: u16 = 32_767;
const MOST_PENALTY: i32 = 500_000_000;
const LARGEST_FONT: i32 = (1 << 27) - 1;
const MOST_NAME: usize = 255;
const MOST_FIRST_LINES: u8 = 32;

/// Tests whether a script can have a text in a line of `text` or `special`, and returns it unchanged: all its bytes are 32 to 126.
///
/// # Errors
///
/// [`Error::BadByte`], with the place of the first other byte.
///
/// # Examples
///
/// ```
/// use boxglue::{quote, Error};
///
/// assert_eq!(quote("100 % sure"), Ok("100 % sure"));
/// assert_eq!(quote("a\nship 0"), Err(Error::BadByte { place: 1 }));
/// ```
pub fn quote(text: &str) -> Result<&str, Error> {
    match text.bytes().position(|it| !matches!(it, b' '..=b'~')) {
        Some(place) => Err(Error::BadByte { place }),
        None => Ok(text),
    }
}

/// The size of a box that is opened.
#[derive(Clone, Copy, Debug, Default, PartialEq, Eq, Hash)]
pub enum Target {
    /// Its natural size.
    #[default]
    Natural,
    /// This size: the width of an hbox, the height of a vbox or vtop.
    To(Sp),
    /// By so much more than its natural size.
    Spread(Sp),
}

/// Stretch or shrink of glue. The amount of an infinite order is in 65536ths: `Fil(Sp::points(1))` is `1fil`.
#[derive(Clone, Copy, Debug, PartialEq, Eq, Hash)]
pub enum Stretch {
    /// A length.
    Finite(Sp),
    /// An amount of the first infinite order.
    Fil(Sp),
    /// An amount of the second infinite order.
    Fill(Sp),
    /// An amount of the third infinite order.
    Filll(Sp),
}

impl Default for Stretch {
    fn default() -> Stretch {
        Stretch::Finite(Sp::ZERO)
    }
}

/// Glue: a width, a stretch and a shrink.
///
/// ```
/// use boxglue::{Glue, Sp, Stretch};
///
/// let fill = Glue { plus: Stretch::Fil(Sp::points(1)), ..Glue::default() };
/// assert_eq!(Glue::from(Sp::points(3)).width, Sp(196_608));
/// # assert_eq!(fill.width, Sp::ZERO);
/// ```
#[derive(Clone, Copy, Debug, Default, PartialEq, Eq, Hash)]
pub struct Glue {
    /// Its natural width.
    pub width: Sp,
    /// Its stretch.
    pub plus: Stretch,
    /// Its shrink.
    pub minus: Stretch,
}

impl From<Sp> for Glue {
    fn from(width: Sp) -> Glue {
        Glue { width, ..Glue::default() }
    }
}

/// A parameter and its value (docs/COMMANDS.md, section 1).
#[derive(Clone, Copy, Debug, PartialEq, Eq, Hash)]
#[non_exhaustive]
#[allow(missing_docs)] // docs/COMMANDS.md says what each is for
pub enum Parameter {
    Boxmaxdepth(Sp),
    Splitmaxdepth(Sp),
    Splittopskip(Glue),
    Baselineskip(Glue),
    Lineskip(Glue),
    Lineskiplimit(Sp),
    Hsize(Sp),
    Firstsize(Sp),
    Firstlines(u8),
    Parfillskip(Glue),
    Pretolerance(i32),
    Tolerance(i32),
    Linepenalty(i32),
    Adjdemerits(i32),
    Clubpenalty(i32),
    Widowpenalty(i32),
    Interlinepenalty(i32),
    Hoffset(Sp),
    Voffset(Sp),
}

/// The line of a command that is being made. What a script cannot have is an error, and then the line is not sent.
#[derive(Debug, Default)]
pub(crate) struct Line {
    text: String,
    wrong: Option<Error>,
}

impl Line {
    /// Begins a command.
    pub(crate) fn begin(&mut self, word: &str) -> &mut Line {
        self.text.clear();
        self.wrong = None;
        self.text.push_str(word);
        self
    }

    /// The whole line, or what is wrong with it.
    pub(crate) fn end(&mut self) -> Result<&str, Error> {
        self.text.push('\n');
        self.wrong.take().map_or(Ok(&self.text), Err)
    }

    /// The line without its line feed.
    pub(crate) fn shown(&self) -> String {
        self.text.trim_end_matches('\n').to_string()
    }

    /// Keeps the first error.
    fn refuse(&mut self, is_wrong: bool, error: Error) {
        if is_wrong && self.wrong.is_none() {
            self.wrong = Some(error);
        }
    }

    pub(crate) fn word(&mut self, word: &str) -> &mut Line {
        self.text.push(' ');
        self.text.push_str(word);
        self
    }

    pub(crate) fn number(&mut self, number: i32) -> &mut Line {
        // Writing to a String does not fail.
        let _ = write!(self.text, " {number}");
        self
    }

    pub(crate) fn penalty(&mut self, penalty: i32) -> &mut Line {
        self.refuse(!(-MOST_PENALTY..=MOST_PENALTY).contains(&penalty), Error::OutOfRange);
        self.number(penalty)
    }

    pub(crate) fn register(&mut self, register: u16) -> &mut Line {
        self.refuse(register > LAST_REGISTER, Error::OutOfRange);
        self.number(i32::from(register))
    }

    pub(crate) fn dimension(&mut self, dimension: Sp) -> &mut Line {
        self.refuse(!dimension.fits(), Error::OutOfRange);
        self.number(dimension.0);
        self.text.push_str("sp");
        self
    }

    pub(crate) fn size_of_rule(&mut self, size: Option<Sp>) -> &mut Line {
        match size {
            Some(size) => self.dimension(size),
            None => self.word("*"),
        }
    }

    /// A text up to the end of the line.
    pub(crate) fn quoted(&mut self, text: &str) -> &mut Line {
        if let Err(error) = quote(text) {
            self.refuse(true, error);
        }
        self.word(text)
    }

    pub(crate) fn font(&mut self, name: &str, size: Option<Sp>) -> &mut Line {
        let bad = name.bytes().position(|it| !(it.is_ascii_alphanumeric() || matches!(it, b'-' | b'_' | b'.')));
        self.refuse(name.is_empty() || name.len() > MOST_NAME, Error::BadFontName);
        self.refuse(bad.is_some(), Error::BadByte { place: bad.unwrap_or(0) });
        self.word(name);
        if let Some(size) = size {
            self.refuse(!(1..=LARGEST_FONT).contains(&size.0), Error::OutOfRange);
            self.word("at").dimension(size);
        }
        self
    }

    pub(crate) fn target(&mut self, target: Target) -> &mut Line {
        match target {
            Target::Natural => self,
            Target::To(size) => self.word("to").dimension(size),
            Target::Spread(size) => self.word("spread").dimension(size),
        }
    }

    fn stretch(&mut self, word: &str, stretch: Stretch) {
        let (amount, order) = match stretch {
            Stretch::Finite(Sp(0)) => return,
            Stretch::Finite(amount) => {
                self.word(word).dimension(amount);
                return;
            }
            Stretch::Fil(amount) => (amount, "fil"),
            Stretch::Fill(amount) => (amount, "fill"),
            Stretch::Filll(amount) => (amount, "filll"),
        };
        self.refuse(!amount.fits(), Error::OutOfRange);
        self.word(word).word(amount.to_string().trim_end_matches("pt"));
        self.text.push_str(order);
    }

    pub(crate) fn glue(&mut self, glue: Glue) -> &mut Line {
        self.dimension(glue.width);
        self.stretch("plus", glue.plus);
        self.stretch("minus", glue.minus);
        self
    }

    pub(crate) fn parameter(&mut self, parameter: Parameter) -> &mut Line {
        match parameter {
            Parameter::Boxmaxdepth(it) => self.word("boxmaxdepth").dimension(it),
            Parameter::Splitmaxdepth(it) => self.word("splitmaxdepth").dimension(it),
            Parameter::Splittopskip(it) => self.word("splittopskip").glue(it),
            Parameter::Baselineskip(it) => self.word("baselineskip").glue(it),
            Parameter::Lineskip(it) => self.word("lineskip").glue(it),
            Parameter::Lineskiplimit(it) => self.word("lineskiplimit").dimension(it),
            Parameter::Hsize(it) => self.word("hsize").dimension(it),
            Parameter::Firstsize(it) => self.word("firstsize").dimension(it),
            Parameter::Firstlines(it) => {
                self.refuse(it > MOST_FIRST_LINES, Error::OutOfRange);
                self.word("firstlines").number(i32::from(it))
            }
            Parameter::Parfillskip(it) => self.word("parfillskip").glue(it),
            Parameter::Pretolerance(it) => self.word("pretolerance").penalty(it),
            Parameter::Tolerance(it) => self.word("tolerance").penalty(it),
            Parameter::Linepenalty(it) => self.word("linepenalty").penalty(it),
            Parameter::Adjdemerits(it) => self.word("adjdemerits").penalty(it),
            Parameter::Clubpenalty(it) => self.word("clubpenalty").penalty(it),
            Parameter::Widowpenalty(it) => self.word("widowpenalty").penalty(it),
            Parameter::Interlinepenalty(it) => self.word("interlinepenalty").penalty(it),
            Parameter::Hoffset(it) => self.word("hoffset").dimension(it),
            Parameter::Voffset(it) => self.word("voffset").dimension(it),
        }
    }
}
