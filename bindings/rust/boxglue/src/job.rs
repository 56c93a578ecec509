//! A job that is kept between calls.

use crate::buffers::{answers_room, buffer, given, one_output, one_text, DVI_ROOM};
use crate::opened::OpenLists;
use crate::replies::lines_of;
use crate::values::Line;
use crate::{Answer, Error, Font, Refusal, Reply};
use boxglue_sys as sys;

/// The replies to the commands of a piece.
#[derive(Clone, Debug, PartialEq, Eq)]
pub struct Answers {
    /// A reply to each command, in order; or the one refusal of a piece with a bad line.
    pub replies: Vec<Reply>,
    /// Whether everything was accepted.
    pub accepted: bool,
}

impl Answers {
    /// Iterates over the refusals among the replies, in order.
    pub fn refusals(&self) -> impl Iterator<Item = &Refusal> + '_ {
        self.replies.iter().filter_map(|it| it.answer.as_ref().err())
    }

    /// Returns these replies, or the first refusal as an error.
    ///
    /// # Errors
    ///
    /// [`Error::Refused`].
    pub fn check(self) -> Result<Answers, Error> {
        let first = self.refusals().next().cloned();
        first.map_or(Ok(self), |it| Err(it.into()))
    }
}

/// The answers to the commands of a piece, a line each, or the line of the end of a job.
#[derive(Clone, Debug, PartialEq, Eq)]
pub struct TextAnswers {
    /// The lines.
    pub text: String,
    /// Whether everything was accepted.
    pub accepted: bool,
}

impl TextAnswers {
    /// Iterates over the refusals among the answers, in order.
    pub fn refusals(&self) -> impl Iterator<Item = Refusal> + '_ {
        Refusal::all(&self.text)
    }

    /// Returns these answers, or the first refusal as an error.
    ///
    /// # Errors
    ///
    /// [`Error::Refused`].
    pub fn check(self) -> Result<TextAnswers, Error> {
        if self.accepted {
            Ok(self)
        } else {
            Err(Error::refused(&self.text))
        }
    }
}

/// A job that is kept between calls. Its calls are the commands of scripts: those that need a list are calls of the [`List`](crate::List) that a job opens.
/// [`Job::commands`] takes a script piece by piece.
///
/// ```
/// use boxglue::{Error, Job, Sp, Target};
///
/// fn main() -> Result<(), Error> {
///     let mut job = Job::new(&[])?;
///     let mut page = job.hbox(0, Target::Natural)?;
///     page.rule("1pt".parse()?, Some(Sp::points(1)), Some(Sp::ZERO))?;
///     assert_eq!(page.end()?.sizes.width, 65_536);
///     job.ship(0)?;
///     job.finish()?.answer?;
///     assert_eq!(job.take()?.len(), 116);
///     Ok(())
/// }
/// ```
///
/// A job may move from one thread to another, but two threads cannot share it:
///
/// ```
/// let mut job = boxglue::Job::new(&[])?;
/// std::thread::spawn(move || job.finish()).join().unwrap()?;
/// # Ok::<(), boxglue::Error>(())
/// ```
///
/// ```compile_fail
/// fn shared(_: impl Sync) {}
/// shared(boxglue::Job::new(&[]).unwrap());
/// ```
#[derive(Debug)]
pub struct Job {
    handle: sys::boxglue_job,
    /// The line of a typed call, which is made in one piece of memory again and again.
    pub(crate) line: Line,
    /// How many lists typed calls opened, and the number of the innermost one that is not dropped.
    pub(crate) open: usize,
    pub(crate) held: usize,
    /// The lists that are open, whoever opened them.
    lists: OpenLists,
}

// SAFETY: the library allows that a handle moves to another thread between two calls where a lock orders them, and a move of Rust orders as much.
// A raw pointer is not Sync, and so a job is not: the library allows one call at a time.
unsafe impl Send for Job {}

impl Job {
    /// Makes a job with these fonts, which it copies.
    ///
    /// # Errors
    ///
    /// [`Error::OutOfMemory`] and [`Error::BadFontName`].
    pub fn new(fonts: &[Font<'_>]) -> Result<Job, Error> {
        let (mut handle, fonts) = (sys::boxglue_job { at: std::ptr::null_mut() }, given(fonts));
        // SAFETY: the handle has no job, and the pointer is that of a slice with its length.
        match unsafe { sys::boxglue_job_new(&mut handle, fonts.as_ptr(), fonts.len()) } {
            sys::BOXGLUE_ACCEPTED => Ok(Job { handle, line: Line::default(), open: 0, held: 0, lists: OpenLists::default() }),
            other => Err(Error::of(other)),
        }
    }

    /// The answers after a call with this status.
    fn answers(&mut self, status: u32, lines: usize) -> Result<TextAnswers, Error> {
        let accepted = Error::is_accepted(status)?;
        // SAFETY: the buffer is a slice.
        let text = one_text(answers_room(lines), |at, room, size| unsafe { sys::boxglue_job_answers(&mut self.handle, at, room, size) })?;
        Ok(TextAnswers { text, accepted })
    }

    /// Runs a piece of a script, which is whole lines, and returns the replies to its commands. Lines are numbered on from piece to piece.
    ///
    /// A piece with a bad line is refused as a whole: its one reply is this refusal, nothing of it is run, and the job goes on.
    ///
    /// # Errors
    ///
    /// [`Error::OutOfMemory`]: nothing was run.
    ///
    /// # Examples
    ///
    /// ```
    /// use boxglue::{Answer, BoxSizes, Job};
    ///
    /// let mut job = Job::new(&[])?;
    /// let replies = job.commands("hbox into 0\nrule 1pt 1pt 0pt\nend\n")?.check()?.replies;
    /// assert_eq!(replies[2].answer, Ok(Answer::Packed { sizes: BoxSizes { width: 65_536, height: 65_536, depth: 0 }, badness: 0 }));
    /// assert_eq!(job.finish()?.answer?, Answer::End { pages: 0, bytes: 0 });
    /// # Ok::<(), boxglue::Error>(())
    /// ```
    pub fn commands(&mut self, script: impl AsRef<[u8]>) -> Result<Answers, Error> {
        let script = script.as_ref();
        let (mut rows, mut count) = (buffer(lines_of(script), sys::boxglue_reply::default())?, 0);
        // SAFETY: each pointer is that of a slice with its length, and they do not overlap. A room of a reply to each line suffices, so status 4 is not returned.
        let status = unsafe { sys::boxglue_job_run(&mut self.handle, script.as_ptr(), script.len(), rows.as_mut_ptr(), rows.len(), &mut count) };
        let accepted = Error::is_accepted(status)?;
        let mut replies: Vec<Reply> = rows[..count].iter().map(Reply::of).collect();
        self.lists.follow(script, &mut replies);
        Ok(Answers { replies, accepted })
    }

    /// Runs a piece of a script as [`Job::commands`] does, and returns the answers as a text.
    ///
    /// # Errors
    ///
    /// [`Error::OutOfMemory`]: nothing was run. [`Error::AnswersLost`]: the commands were run.
    pub fn commands_text(&mut self, script: impl AsRef<[u8]>) -> Result<TextAnswers, Error> {
        let script = script.as_ref();
        // SAFETY: the pointer is that of a slice with its length.
        let status = unsafe { sys::boxglue_job_commands(&mut self.handle, script.as_ptr(), script.len()) };
        let answers = self.answers(status, lines_of(script))?;
        self.lists.follow_text(script, &answers.text);
        Ok(answers)
    }

    /// Sends the line, which is one command, and returns its answer.
    pub(crate) fn send(&mut self) -> Result<Answer, Error> {
        let script = self.line.end()?.as_bytes();
        let (mut rows, mut count) = ([sys::boxglue_reply::default(); 2], 0);
        // SAFETY: as in `commands`.
        let status = unsafe { sys::boxglue_job_run(&mut self.handle, script.as_ptr(), script.len(), rows.as_mut_ptr(), rows.len(), &mut count) };
        Error::is_accepted(status)?;
        let mut reply = Reply::of(&rows[0]);
        self.lists.follow(script, std::slice::from_mut(&mut reply));
        reply.answer.map_err(|it| Error::Refused(Refusal { command: Some(self.line.shown()), ..it }))
    }

    /// Ends the job, and returns the reply to its end. Take the last bytes afterwards.
    ///
    /// A refusal is a reply, too. After ListsOpen and OutOfMemory the job goes on, and you may end it later.
    ///
    /// # Errors
    ///
    /// This version returns no error.
    pub fn finish(&mut self) -> Result<Reply, Error> {
        let mut row = sys::boxglue_reply::default();
        // SAFETY: the handle has a job.
        let status = unsafe { sys::boxglue_job_end(&mut self.handle, &mut row) };
        Error::is_accepted(status)?;
        let mut reply = Reply::of(&row);
        if let Err(refusal) = &mut reply.answer {
            self.lists.explain(refusal);
        }
        Ok(reply)
    }

    /// Ends the job as [`Job::finish`] does, and returns the line of its end.
    ///
    /// # Errors
    ///
    /// [`Error::AnswersLost`]: the next call shows whether the job has ended, by the answer JobOver.
    pub fn finish_text(&mut self) -> Result<TextAnswers, Error> {
        // SAFETY: the handle has a job.
        let status = unsafe { sys::boxglue_job_finish(&mut self.handle) };
        self.answers(status, 1)
    }

    /// Lists the box in a register into these buffers. Returns the status.
    pub(crate) fn items(&mut self, register: u16, rows: &mut [sys::boxglue_item], texts: &mut [u8], sizes: &mut sys::boxglue_item_sizes) -> u32 {
        // SAFETY: each pointer is that of a slice with its length, and they do not overlap.
        unsafe { sys::boxglue_job_items(&mut self.handle, u32::from(register), rows.as_mut_ptr(), rows.len(), texts.as_mut_ptr(), texts.len(), sizes) }
    }

    /// Takes the bytes of the DVI file that went out since the last call: pages as they were shipped, and the end of the file after [`Job::finish`].
    ///
    /// # Errors
    ///
    /// [`Error::OutOfMemory`]: nothing is lost.
    pub fn take(&mut self) -> Result<Vec<u8>, Error> {
        // SAFETY: the buffer is a slice.
        one_output(DVI_ROOM, |at, room, size| unsafe { sys::boxglue_job_take(&mut self.handle, at, room, size) }).map(|(_, bytes)| bytes)
    }
}

impl Drop for Job {
    fn drop(&mut self) {
        // SAFETY: a job is freed once.
        unsafe { sys::boxglue_job_free(&mut self.handle) }
    }
}
