//! The commands of scripts as typed calls: those that need no list on a [`Job`], the others on a list that it opens.

use crate::{Answer, BoxKind, BoxSizes, Error, Glue, Job, Parameter, Sp, Target};
use std::fmt::{Debug, Display, Formatter, Result as FormatResult};
use std::marker::PhantomData;

/// A box that was packed.
#[derive(Clone, Copy, Debug, PartialEq, Eq, Hash)]
#[non_exhaustive]
pub struct Packed {
    /// Its sizes.
    pub sizes: BoxSizes,
    /// 0 to 10,000, or 1,000,000 for an overfull box.
    pub badness: u32,
}

/// A paragraph that was broken into lines.
#[derive(Clone, Copy, Debug, PartialEq, Eq, Hash)]
#[non_exhaustive]
pub struct Paragraph {
    /// How many lines it has.
    pub lines: u64,
    /// The pass that broke it, 1 to 3; 0 for an empty one.
    pub pass: u32,
    /// By how much its lines are overfull, in scaled points.
    pub overhang: i64,
    /// Its demerits.
    pub demerits: i64,
}

/// The result of a text.
#[derive(Clone, Copy, Debug, PartialEq, Eq, Hash)]
#[non_exhaustive]
pub struct Shaped {
    /// How many items were added.
    pub items: u64,
    /// How many characters the font does not have; `u32::MAX` stands for more, too.
    pub missing: u32,
}

/// The front and the rest of a box that was split.
#[derive(Clone, Copy, Debug, PartialEq, Eq, Hash)]
#[non_exhaustive]
pub struct Split {
    /// The sizes of the front.
    pub front: BoxSizes,
    /// The badness of the front.
    pub badness: u32,
    /// The sizes of the rest, if there is one.
    pub rest: Option<BoxSizes>,
}

/// Any other answer than a command has is an error of this crate or of the library.
macro_rules! answer {
    ($given:expr, $($pattern:pat => $value:expr),+) => {
        match $given {
            $($pattern => Ok($value),)+
            other => Err(Error::OtherAnswer(other)),
        }
    };
}

/// The mode of a list: the kind of box or paragraph that it becomes.
pub trait Mode: sealed::Sealed {
    /// The result of the end of the list.
    type End;

    /// What an answer to `end` gives.
    #[doc(hidden)]
    fn end(answer: Answer) -> Result<Self::End, Error>;
}

/// The modes of horizontal lists: those of an hbox and of a paragraph.
pub trait Horizontal: Mode {}

mod sealed {
    pub trait Sealed {}
    impl Sealed for super::InHbox {}
    impl Sealed for super::InVbox {}
    impl Sealed for super::InParagraph {}
}

/// The mode of an hbox's list.
#[derive(Debug)]
pub enum InHbox {}
/// The mode of the list of a vbox or a vtop.
#[derive(Debug)]
pub enum InVbox {}
/// The mode of a paragraph's list.
#[derive(Debug)]
pub enum InParagraph {}

impl Mode for InHbox {
    type End = Packed;

    fn end(answer: Answer) -> Result<Packed, Error> {
        answer!(answer, Answer::Packed { sizes, badness } => Packed { sizes, badness })
    }
}

impl Mode for InVbox {
    type End = Packed;

    fn end(answer: Answer) -> Result<Packed, Error> {
        InHbox::end(answer)
    }
}

impl Mode for InParagraph {
    type End = Paragraph;

    fn end(answer: Answer) -> Result<Paragraph, Error> {
        answer!(answer, Answer::Paragraph { lines, pass, overhang, demerits } => Paragraph { lines, pass, overhang, demerits })
    }
}

impl Horizontal for InHbox {}
impl Horizontal for InParagraph {}

/// The list of an hbox.
pub type HboxList<'j> = List<'j, InHbox>;
/// The list of a vbox or a vtop.
pub type VboxList<'j> = List<'j, InVbox>;
/// The list of a paragraph.
pub type ParagraphList<'j> = List<'j, InParagraph>;

/// An open list, whose type has the commands of its mode. It borrows its job, so nothing goes into another list while it is open; [`List::job`] has the
/// calls that need no list.
///
/// [`List::end`] ends it. A list that is dropped without its end, for example by `?`, stays open: [`Job::is_list_open`] says so, and each command that
/// needs another list returns [`Error::ListOpen`], until [`Job::end_open_list`] or [`Job::recover`].
///
/// ```
/// use boxglue::{Error, Job, Sp, Target};
///
/// let mut job = Job::new(&[])?;
/// let mut page = job.vbox(0, Target::Natural)?;
/// page.rule(Some(Sp::points(100)), Sp::points(1), Sp::ZERO)?;
/// let mut paragraph = page.par()?;
/// paragraph.rule(Sp::points(3), None, None)?;
/// assert_eq!(paragraph.end()?.lines, 1);
/// assert_eq!(page.end()?.sizes.width, Sp(30_785_863).0);
/// assert_eq!(job.ship(0)?, 1);
/// # Ok::<(), Error>(())
/// ```
///
/// The list around it is borrowed, too:
///
/// ```compile_fail
/// let mut job = boxglue::Job::new(&[]).unwrap();
/// let mut page = job.vbox(0, boxglue::Target::Natural).unwrap();
/// let list = page.hbox(boxglue::Target::Natural).unwrap();
/// page.penalty(0).unwrap();
/// list.end().unwrap();
/// ```
///
/// A horizontal list has no paragraphs, and a vertical list no texts:
///
/// ```compile_fail
/// let mut job = boxglue::Job::new(&[]).unwrap();
/// let mut list = job.hbox(0, boxglue::Target::Natural).unwrap();
/// list.par();
/// ```
///
/// ```compile_fail
/// let mut job = boxglue::Job::new(&[]).unwrap();
/// let mut list = job.vbox(0, boxglue::Target::Natural).unwrap();
/// list.text("a");
/// ```
#[must_use = "a list that is dropped without `end` stays open"]
pub struct List<'j, M: Mode> {
    job: &'j mut Job,
    /// The number of open lists with this one.
    level: usize,
    /// The same of the list around this one that is not dropped.
    around: usize,
    mode: PhantomData<M>,
}

/// An end that was refused, and the list, which is open as before.
pub struct EndRefused<'j, M: Mode> {
    /// The list. Dropped it stays open.
    pub list: List<'j, M>,
    /// Why its end was refused.
    pub error: Error,
}

impl<M: Mode> Debug for List<'_, M> {
    fn fmt(&self, out: &mut Formatter<'_>) -> FormatResult {
        out.debug_struct("List").field("level", &self.level).finish_non_exhaustive()
    }
}

impl<M: Mode> Debug for EndRefused<'_, M> {
    fn fmt(&self, out: &mut Formatter<'_>) -> FormatResult {
        out.debug_struct("EndRefused").field("error", &self.error).finish_non_exhaustive()
    }
}

impl<M: Mode> Display for EndRefused<'_, M> {
    fn fmt(&self, out: &mut Formatter<'_>) -> FormatResult {
        Display::fmt(&self.error, out)
    }
}

impl<M: Mode> std::error::Error for EndRefused<'_, M> {}

impl<M: Mode> From<EndRefused<'_, M>> for Error {
    fn from(refused: EndRefused<'_, M>) -> Error {
        refused.error
    }
}

impl<M: Mode> Drop for List<'_, M> {
    fn drop(&mut self) {
        self.job.held = self.around;
    }
}

impl Job {
    /// Opens a list by the command of the line.
    fn opened<M: Mode>(&mut self) -> Result<List<'_, M>, Error> {
        self.send()?;
        self.open += 1;
        let (level, around) = (self.open, self.held);
        self.held = level;
        Ok(List { job: self, level, around, mode: PhantomData })
    }

    /// Tells whether the innermost list was dropped without [`List::end`].
    pub fn is_list_open(&self) -> bool {
        self.open > self.held
    }

    /// Ends the innermost list if it was dropped without [`List::end`], and returns [`Answer::Packed`] or [`Answer::Paragraph`].
    ///
    /// # Errors
    ///
    /// [`Error::Refused`]: the list is open as before. [`Error::ListOpen`]: the innermost list was not dropped, or there is none.
    pub fn end_open_list(&mut self) -> Result<Answer, Error> {
        if !self.is_list_open() {
            return Err(Error::ListOpen);
        }
        self.line.begin("end");
        let answer = self.send()?;
        self.open -= 1;
        Ok(answer)
    }

    /// Tells the job that a script ended the lists that were dropped.
    pub fn recover(&mut self) {
        self.open = self.held;
    }

    /// Loads a font into a slot, at a size or at its design size.
    ///
    /// # Errors
    ///
    /// [`Error::Refused`] as NoFont, BadTfm, DimensionTooLarge or SlotTaken; [`Error::BadFontName`], [`Error::BadByte`] or [`Error::OutOfRange`].
    pub fn load(&mut self, slot: u8, name: &str, at: Option<Sp>) -> Result<(), Error> {
        self.line.begin("font").number(i32::from(slot)).font(name, at);
        self.send().map(drop)
    }

    /// Makes the font of a slot the current one.
    ///
    /// # Errors
    ///
    /// [`Error::Refused`] as NoFont.
    pub fn use_font(&mut self, slot: u8) -> Result<(), Error> {
        self.line.begin("use").number(i32::from(slot));
        self.send().map(drop)
    }

    /// Opens the list of an hbox, which will go into a register.
    ///
    /// # Errors
    ///
    /// [`Error::Refused`] as TooDeep; [`Error::OutOfRange`].
    pub fn hbox(&mut self, into: u16, target: Target) -> Result<HboxList<'_>, Error> {
        self.line.begin("hbox").target(target).word("into").register(into);
        self.opened()
    }

    /// Opens the list of a vbox, which will go into a register.
    ///
    /// # Errors
    ///
    /// As [`Job::hbox`].
    pub fn vbox(&mut self, into: u16, target: Target) -> Result<VboxList<'_>, Error> {
        self.line.begin("vbox").target(target).word("into").register(into);
        self.opened()
    }

    /// Opens the list of a vtop, which will go into a register.
    ///
    /// # Errors
    ///
    /// As [`Job::hbox`].
    pub fn vtop(&mut self, into: u16, target: Target) -> Result<VboxList<'_>, Error> {
        self.line.begin("vtop").target(target).word("into").register(into);
        self.opened()
    }

    /// Splits the vbox of a register, which keeps the rest; the front goes into another register. A void register gives `None`.
    ///
    /// # Errors
    ///
    /// [`Error::Refused`] as WrongKind, InfiniteShrink or DimensionTooLarge; [`Error::OutOfRange`].
    ///
    /// # Examples
    ///
    /// ```
    /// use boxglue::{Glue, Job, Sp, Target};
    ///
    /// let mut job = Job::new(&[])?;
    /// let mut column = job.vbox(0, Target::Natural)?;
    /// column.rule(Some(Sp::points(10)), Sp::points(5), Sp::ZERO)?;
    /// column.glue(Glue::from(Sp::points(2)))?;
    /// column.rule(Some(Sp::points(10)), Sp::points(5), Sp::ZERO)?;
    /// column.end()?;
    /// let split = job.vsplit(0, Sp::points(5), 1)?.expect("register 0 has a box");
    /// assert_eq!(split.front.height, Sp::points(5).0);
    /// assert_eq!(split.rest.map(|it| it.height), Some(Sp::points(10).0)); // splittopskip puts its first baseline at 10pt
    /// # Ok::<(), boxglue::Error>(())
    /// ```
    pub fn vsplit(&mut self, register: u16, to: Sp, into: u16) -> Result<Option<Split>, Error> {
        self.line.begin("vsplit").register(register).word("to").dimension(to).word("into").register(into);
        answer!(self.send()?, Answer::Split { front, badness, rest } => Some(Split { front, badness, rest }), Answer::SplitVoid => None)
    }

    /// Measures the box of a register: its kind and its sizes. A void register gives `None`.
    ///
    /// # Errors
    ///
    /// [`Error::OutOfRange`].
    pub fn measure(&mut self, register: u16) -> Result<Option<(BoxKind, BoxSizes)>, Error> {
        self.line.begin("measure").register(register);
        answer!(self.send()?, Answer::Measured { kind, sizes } => Some((kind, sizes)), Answer::MeasuredVoid => None)
    }

    /// Makes a register void.
    ///
    /// # Errors
    ///
    /// [`Error::OutOfRange`].
    pub fn void(&mut self, register: u16) -> Result<(), Error> {
        self.line.begin("void").register(register);
        self.send().map(drop)
    }

    /// Sets a parameter.
    ///
    /// # Errors
    ///
    /// [`Error::OutOfRange`].
    ///
    /// # Examples
    ///
    /// ```
    /// let mut job = boxglue::Job::new(&[])?;
    /// job.set(boxglue::Parameter::Hsize("12cm".parse()?))?;
    /// # Ok::<(), boxglue::Error>(())
    /// ```
    pub fn set(&mut self, parameter: Parameter) -> Result<(), Error> {
        self.line.begin("set").parameter(parameter);
        self.send().map(drop)
    }

    /// Sets one of the ten counts of the pages that follow, 0 to 9.
    ///
    /// # Errors
    ///
    /// [`Error::OutOfRange`].
    pub fn count(&mut self, which: u8, value: i32) -> Result<(), Error> {
        if which > 9 {
            return Err(Error::OutOfRange);
        }
        self.line.begin("count").number(i32::from(which)).number(value);
        self.send().map(drop)
    }

    /// Ships the box of a register as the next page, and returns the number of pages.
    ///
    /// # Errors
    ///
    /// [`Error::Refused`] as VoidBox, HugePage, TooManyPages, TooMuchShipped, TooMuchSpecial or Device; [`Error::OutOfRange`].
    ///
    /// # Examples
    ///
    /// ```
    /// let mut job = boxglue::Job::new(&[])?;
    /// let mut page = job.hbox(0, boxglue::Target::Natural)?;
    /// page.end()?;
    /// assert_eq!(job.ship(0)?, 1);
    /// assert!(job.ship(0).is_err()); // the register is void
    /// # Ok::<(), boxglue::Error>(())
    /// ```
    pub fn ship(&mut self, register: u16) -> Result<u64, Error> {
        self.line.begin("ship").register(register);
        answer!(self.send()?, Answer::Shipped { pages } => pages)
    }
}

/// The items that lists of all modes have. Each call returns [`Error::ListOpen`] if a list in this one was dropped without its end.
impl<'j, M: Mode> List<'j, M> {
    /// Returns the job, for calls that need no list. A list that it opens is in this one.
    pub fn job(&mut self) -> &mut Job {
        self.job
    }

    /// Whether this is the innermost list.
    fn is_innermost(&self) -> Result<(), Error> {
        if self.job.open == self.level {
            Ok(())
        } else {
            Err(Error::ListOpen)
        }
    }

    /// Sends the command of the line, into this list.
    fn send(&mut self) -> Result<Answer, Error> {
        self.is_innermost()?;
        self.job.send()
    }

    /// How many items a command added.
    fn added(&mut self) -> Result<u64, Error> {
        answer!(self.send()?, Answer::Added { items } => items)
    }

    /// Ends the list, and returns a [`Packed`] box or a [`Paragraph`].
    ///
    /// # Errors
    ///
    /// [`EndRefused`], which has the list and the error. `?` turns it into the error, and then the list stays open. A `Box<dyn Error>` cannot borrow the
    /// job, so write `.map_err(boxglue::Error::from)?` there.
    #[allow(clippy::result_large_err)] // a refused end gives the list back, with its reason
    pub fn end(self) -> Result<M::End, EndRefused<'j, M>> {
        self.job.line.begin("end");
        let mut list = self;
        match list.send().and_then(|it| {
            list.job.open -= 1;
            M::end(it)
        }) {
            Ok(end) => Ok(end),
            Err(error) => Err(EndRefused { list, error }),
        }
    }

    /// Opens the list of an hbox, which will be an item of this list.
    ///
    /// # Errors
    ///
    /// [`Error::Refused`] as TooDeep; [`Error::OutOfRange`].
    pub fn hbox(&mut self, target: Target) -> Result<HboxList<'_>, Error> {
        self.is_innermost()?;
        self.job.line.begin("hbox").target(target);
        self.job.opened()
    }

    /// Opens the list of a vbox, which will be an item of this list.
    ///
    /// # Errors
    ///
    /// As [`List::hbox`].
    pub fn vbox(&mut self, target: Target) -> Result<VboxList<'_>, Error> {
        self.is_innermost()?;
        self.job.line.begin("vbox").target(target);
        self.job.opened()
    }

    /// Opens the list of a vtop, which will be an item of this list.
    ///
    /// # Errors
    ///
    /// As [`List::hbox`].
    pub fn vtop(&mut self, target: Target) -> Result<VboxList<'_>, Error> {
        self.is_innermost()?;
        self.job.line.begin("vtop").target(target);
        self.job.opened()
    }

    /// Adds a kern.
    ///
    /// # Errors
    ///
    /// [`Error::OutOfRange`]; [`Error::Refused`] as ListTooLong, as each call that adds items may return it.
    pub fn kern(&mut self, amount: Sp) -> Result<(), Error> {
        self.job.line.begin("kern").dimension(amount);
        self.send().map(drop)
    }

    /// Adds glue.
    ///
    /// # Errors
    ///
    /// [`Error::OutOfRange`].
    pub fn glue(&mut self, glue: Glue) -> Result<(), Error> {
        self.job.line.begin("glue").glue(glue);
        self.send().map(drop)
    }

    /// Adds a penalty, -500,000,000 to 500,000,000.
    ///
    /// # Errors
    ///
    /// [`Error::OutOfRange`].
    pub fn penalty(&mut self, penalty: i32) -> Result<(), Error> {
        self.job.line.begin("penalty").penalty(penalty);
        self.send().map(drop)
    }

    /// Adds a special, a text for the program that reads the file.
    ///
    /// # Errors
    ///
    /// [`Error::BadByte`]; [`Error::Refused`] as TooMuchSpecial.
    pub fn special(&mut self, text: &str) -> Result<(), Error> {
        self.job.line.begin("special").quoted(text);
        self.send().map(drop)
    }

    /// Adds the box of a register, which becomes void, and returns how many items were added.
    ///
    /// The shift moves the box down in a horizontal list, and to the right in a vertical one.
    ///
    /// # Errors
    ///
    /// [`Error::Refused`] as DimensionTooLarge; [`Error::OutOfRange`].
    pub fn put(&mut self, register: u16, shift: Sp) -> Result<u64, Error> {
        self.job.line.begin("box").register(register).word("shift").dimension(shift);
        self.added()
    }

    /// Adds a copy of the box of a register, as [`List::put`] adds the box.
    ///
    /// # Errors
    ///
    /// As [`List::put`].
    pub fn copy(&mut self, register: u16, shift: Sp) -> Result<u64, Error> {
        self.job.line.begin("copy").register(register).word("shift").dimension(shift);
        self.added()
    }

    /// Moves the last item into a register if it is a box; otherwise makes the register void.
    ///
    /// # Errors
    ///
    /// [`Error::OutOfRange`].
    pub fn lastbox(&mut self, into: u16) -> Result<(), Error> {
        self.job.line.begin("lastbox").register(into);
        self.send().map(drop)
    }
}

/// The items that only horizontal lists have.
impl<M: Horizontal> List<'_, M> {
    /// What came of a text.
    fn shaped(&mut self) -> Result<Shaped, Error> {
        answer!(self.send()?, Answer::Shaped { items, missing } => Shaped { items, missing })
    }

    /// Adds a text in the current font, with its kerns and ligatures.
    ///
    /// # Errors
    ///
    /// [`Error::BadByte`]; [`Error::Refused`] as NoFont.
    pub fn text(&mut self, text: &str) -> Result<Shaped, Error> {
        self.job.line.begin("text").quoted(text);
        self.shaped()
    }

    /// Adds a character of the current font.
    ///
    /// # Errors
    ///
    /// [`Error::Refused`] as NoFont.
    pub fn char(&mut self, code: u8) -> Result<Shaped, Error> {
        self.job.line.begin("char").number(i32::from(code));
        self.shaped()
    }

    /// Adds a rule. A height or a depth of `None` comes from the box around the rule.
    ///
    /// # Errors
    ///
    /// [`Error::OutOfRange`].
    pub fn rule(&mut self, width: Sp, height: Option<Sp>, depth: Option<Sp>) -> Result<(), Error> {
        self.job.line.begin("rule").dimension(width).size_of_rule(height).size_of_rule(depth);
        self.send().map(drop)
    }

    /// Adds the items of the hbox of a register, which becomes void, and returns how many.
    ///
    /// # Errors
    ///
    /// [`Error::Refused`] as WrongKind; [`Error::OutOfRange`].
    pub fn unhbox(&mut self, register: u16) -> Result<u64, Error> {
        self.job.line.begin("unhbox").register(register);
        self.added()
    }

    /// Adds copies of the items of the hbox of a register, and returns how many.
    ///
    /// # Errors
    ///
    /// As [`List::unhbox`].
    pub fn unhcopy(&mut self, register: u16) -> Result<u64, Error> {
        self.job.line.begin("unhcopy").register(register);
        self.added()
    }
}

/// The items that only vertical lists have.
impl List<'_, InVbox> {
    /// Opens a paragraph, whose lines will be items of this list.
    ///
    /// # Errors
    ///
    /// [`Error::Refused`] as TooDeep.
    ///
    /// # Examples
    ///
    /// ```
    /// use boxglue::{Glue, Job, Parameter, Sp, Stretch, Target};
    ///
    /// let mut job = Job::new(&[])?;
    /// job.set(Parameter::Hsize(Sp::points(40)))?;
    /// let mut page = job.vbox(0, Target::Natural)?;
    /// let mut paragraph = page.par()?;
    /// for width in [10, 10, 10, 25, 30] {
    ///     paragraph.rule(Sp::points(width), Some(Sp::points(1)), Some(Sp::ZERO))?;
    ///     paragraph.glue(Glue { width: Sp::points(5), plus: Stretch::Finite(Sp::points(15)), ..Glue::default() })?;
    /// }
    /// assert_eq!(paragraph.end()?.lines, 3);
    /// # Ok::<(), boxglue::Error>(())
    /// ```
    pub fn par(&mut self) -> Result<ParagraphList<'_>, Error> {
        self.is_innermost()?;
        self.job.line.begin("par");
        self.job.opened()
    }

    /// Adds a rule. A width of `None` comes from the box around the rule.
    ///
    /// # Errors
    ///
    /// [`Error::OutOfRange`].
    pub fn rule(&mut self, width: Option<Sp>, height: Sp, depth: Sp) -> Result<(), Error> {
        self.job.line.begin("rule").size_of_rule(width).dimension(height).dimension(depth);
        self.send().map(drop)
    }

    /// Adds the items of the vbox of a register, which becomes void, and returns how many.
    ///
    /// # Errors
    ///
    /// [`Error::Refused`] as WrongKind; [`Error::OutOfRange`].
    pub fn unvbox(&mut self, register: u16) -> Result<u64, Error> {
        self.job.line.begin("unvbox").register(register);
        self.added()
    }

    /// Adds copies of the items of the vbox of a register, and returns how many.
    ///
    /// # Errors
    ///
    /// As [`List::unvbox`].
    pub fn unvcopy(&mut self, register: u16) -> Result<u64, Error> {
        self.job.line.begin("unvcopy").register(register);
        self.added()
    }
}
