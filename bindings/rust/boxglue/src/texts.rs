//! Replies as texts: the answers of docs/FORMATS.md, section 3.

use crate::{points, Answer, BoxKind, BoxSizes, Reply};
use std::fmt::{Display, Formatter, Result};

/// "1.0pt 2.5pt 0.0pt": width, height and depth.
impl Display for BoxSizes {
    fn fmt(&self, out: &mut Formatter<'_>) -> Result {
        write!(out, "{} {} {}", points(self.width), points(self.height), points(self.depth))
    }
}

/// "hbox" or "vbox".
impl Display for BoxKind {
    fn fmt(&self, out: &mut Formatter<'_>) -> Result {
        out.write_str(match self {
            BoxKind::Horizontal => "hbox",
            BoxKind::Vertical => "vbox",
        })
    }
}

/// What stands after the number of the line in an answer.
impl Display for Answer {
    fn fmt(&self, out: &mut Formatter<'_>) -> Result {
        match self {
            Answer::Ok => out.write_str("ok"),
            Answer::Packed { sizes, badness } => write!(out, "packed {sizes} badness {badness}"),
            Answer::Measured { kind, sizes } => write!(out, "measured {kind} {sizes}"),
            Answer::MeasuredVoid => out.write_str("measured void"),
            Answer::Shaped { items, missing } => write!(out, "added {items} missing {missing}"),
            Answer::Added { items } => write!(out, "added {items}"),
            Answer::Paragraph { lines, pass, overhang, demerits } => write!(out, "paragraph lines {lines} pass {pass} overhang {overhang} demerits {demerits}"),
            Answer::Split { front, badness, rest: None } => write!(out, "split {front} badness {badness} rest void"),
            Answer::Split { front, badness, rest: Some(rest) } => write!(out, "split {front} badness {badness} rest {rest}"),
            Answer::SplitVoid => out.write_str("split void"),
            Answer::Shipped { pages } => write!(out, "shipped {pages}"),
            Answer::End { pages, bytes } => write!(out, "pages {pages} bytes {bytes}"),
            Answer::Other(kind) => write!(out, "answer {kind}"),
        }
    }
}

/// The line of an answer, without its line feed.
impl Display for Reply {
    fn fmt(&self, out: &mut Formatter<'_>) -> Result {
        let is_of_command = !matches!(&self.answer, Err(it) if it.bad_line().is_some());
        match self.line {
            Some(line) if is_of_command => write!(out, "{line}: ")?,
            None => out.write_str("end: ")?,
            Some(_) => {}
        }
        match &self.answer {
            Ok(answer) => answer.fmt(out),
            Err(refusal) => refusal.write_said(out),
        }
    }
}
