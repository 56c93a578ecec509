//! Which lists are open, by the replies to commands.

use crate::{Answer, Refusal, RefusalKind, Reply};
use std::fmt::{Display, Formatter, Result as FormatResult};

/// The command that opens a list.
#[derive(Clone, Copy, Debug, PartialEq, Eq, Hash)]
#[allow(missing_docs)]
pub enum ListForm {
    Hbox,
    Vbox,
    Vtop,
    Par,
}

impl ListForm {
    /// The one of a word of a script.
    fn of(word: &[u8]) -> Option<ListForm> {
        match word {
            b"hbox" => Some(ListForm::Hbox),
            b"vbox" => Some(ListForm::Vbox),
            b"vtop" => Some(ListForm::Vtop),
            b"par" => Some(ListForm::Par),
            _ => None,
        }
    }
}

impl Display for ListForm {
    fn fmt(&self, out: &mut Formatter<'_>) -> FormatResult {
        out.pad(match self {
            ListForm::Hbox => "hbox",
            ListForm::Vbox => "vbox",
            ListForm::Vtop => "vtop",
            ListForm::Par => "par",
        })
    }
}

/// A list that is open.
#[derive(Clone, Copy, Debug, PartialEq, Eq, Hash)]
pub struct ListOpening {
    /// The command that opened it.
    pub form: ListForm,
    /// The line of this command: in the script, or among all commands of the job.
    pub line: u64,
}

/// The lists of a job that are open, the innermost one last, and how many lines were run.
#[derive(Debug, Default)]
pub(crate) struct OpenLists {
    lines: u64,
    lists: Vec<ListOpening>,
}

/// A line without a line feed, and without spaces at its ends.
fn trimmed(line: &[u8]) -> &[u8] {
    let is_text = |it: &u8| !matches!(it, b' ' | b'\r');
    let first = line.iter().position(is_text).unwrap_or(line.len());
    &line[first..line.iter().rposition(is_text).map_or(first, |last| last + 1)]
}

fn text_of(line: &[u8]) -> String {
    String::from_utf8_lossy(trimmed(line)).into_owned()
}

impl OpenLists {
    /// Takes the reply to the line of this number.
    fn take(&mut self, line: u64, text: &[u8], is_ok: bool, is_end: bool) {
        let word = trimmed(text).split(|it| *it == b' ').next().unwrap_or_default();
        if is_end && word == b"end" {
            self.lists.pop();
        } else if let Some(form) = ListForm::of(word).filter(|_| is_ok) {
            self.lists.push(ListOpening { form, line });
        }
    }

    /// Takes the replies to a piece. Each refusal gets its command, and after WrongMode, VoidBox and ListsOpen the lists that are open.
    pub(crate) fn follow(&mut self, script: &[u8], replies: &mut [Reply]) {
        let first = self.lines + 1;
        if let [Reply { answer: Err(refusal), .. }] = &mut *replies {
            if let Some(line) = refusal.bad_line() {
                let bad = line.checked_sub(first).and_then(|it| script.split(|byte| *byte == b'\n').nth(it as usize));
                refusal.command = bad.map(text_of);
                return; // nothing was run, and its lines do not count
            }
        }
        let mut left = replies.iter_mut().peekable();
        for (line, text) in (first..).zip(script.split(|byte| *byte == b'\n')) {
            let Some(reply) = left.next_if(|it| it.line == Some(line)) else { continue };
            match &mut reply.answer {
                Ok(answer) => self.take(line, text, *answer == Answer::Ok, matches!(answer, Answer::Packed { .. } | Answer::Paragraph { .. })),
                Err(refusal) => {
                    refusal.command = Some(text_of(text));
                    self.explain(refusal);
                }
            }
        }
        left.filter_map(|it| it.answer.as_mut().err()).for_each(|it| self.explain(it));
        self.count(script);
    }

    /// Takes the answers to a piece, which are texts.
    pub(crate) fn follow_text(&mut self, script: &[u8], answers: &str) {
        let first = self.lines + 1;
        if answers.starts_with("refused ") {
            return; // a bad piece
        }
        let mut left = answers.lines().filter_map(|it| it.split_once(": ")).filter_map(|(line, said)| Some((line.parse::<u64>().ok()?, said))).peekable();
        for (line, text) in (first..).zip(script.split(|byte| *byte == b'\n')) {
            if let Some((_, said)) = left.next_if(|it| it.0 == line) {
                self.take(line, text, said == "ok", said.starts_with("packed ") || said.starts_with("paragraph "));
            }
        }
        self.count(script);
    }

    /// Counts the lines of a piece.
    fn count(&mut self, script: &[u8]) {
        let is_cut = script.last().is_some_and(|it| *it != b'\n');
        self.lines += script.iter().filter(|it| **it == b'\n').count() as u64 + u64::from(is_cut);
    }

    /// Says which lists are open, if they may be the reason of a refusal: the register of VoidBox may be that of a box without its end.
    pub(crate) fn explain(&self, refusal: &mut Refusal) {
        if matches!(refusal.kind(), RefusalKind::WrongMode | RefusalKind::VoidBox | RefusalKind::ListsOpen) {
            refusal.open_lists.clone_from(&self.lists);
        }
    }
}
