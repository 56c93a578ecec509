//! Makes random documents by the typed calls of bindings/rust and by their scripts, and compares the replies and the files: typed_calls DOCUMENTS METRICS LEAST, where
//! LEAST is how many documents the types of the calls have to be able to say.

use boxglue::{run, Answer, EndRefused, Error, Font, Glue, HboxList, Horizontal, Job, List, Mode, Packed, Paragraph, Parameter, ParagraphList, Refusal, Shaped, Sp, Stretch, Target, VboxList};
use std::{env, fs, process};

type Given = Result<Answer, Error>;

/// The calls of a document that are left, and what those before them gave.
struct Calls<'c> {
    left: std::str::Lines<'c>,
    given: Vec<Given>,
}

/// Why the calls of a list end: there are no more, or one comes that ends it.
#[derive(PartialEq)]
enum Left {
    End,
    Nothing,
}

fn sp(word: &str) -> Sp {
    Sp(word.parse().unwrap())
}

fn register(word: &str) -> u16 {
    word.parse().unwrap()
}

fn running(word: &str) -> Option<Sp> {
    (word != "*").then(|| sp(word))
}

fn stretch(words: &[&str]) -> Stretch {
    [Stretch::Finite, Stretch::Fil, Stretch::Fill, Stretch::Filll][words[1].parse::<usize>().unwrap()](sp(words[0]))
}

fn glue(words: &[&str]) -> Glue {
    Glue { width: sp(words[0]), plus: stretch(&words[1..]), minus: stretch(&words[3..]) }
}

fn target(words: &[&str]) -> Target {
    match words[1] {
        "to" => Target::To(sp(words[2])),
        "spread" => Target::Spread(sp(words[2])),
        _ => Target::Natural,
    }
}

fn parameter(words: &[&str]) -> Parameter {
    let number = || words[2].parse().unwrap();
    match words[1] {
        "boxmaxdepth" => Parameter::Boxmaxdepth(sp(words[2])),
        "splitmaxdepth" => Parameter::Splitmaxdepth(sp(words[2])),
        "lineskiplimit" => Parameter::Lineskiplimit(sp(words[2])),
        "hsize" => Parameter::Hsize(sp(words[2])),
        "firstsize" => Parameter::Firstsize(sp(words[2])),
        "hoffset" => Parameter::Hoffset(sp(words[2])),
        "voffset" => Parameter::Voffset(sp(words[2])),
        "splittopskip" => Parameter::Splittopskip(glue(&words[2..])),
        "baselineskip" => Parameter::Baselineskip(glue(&words[2..])),
        "lineskip" => Parameter::Lineskip(glue(&words[2..])),
        "parfillskip" => Parameter::Parfillskip(glue(&words[2..])),
        "firstlines" => Parameter::Firstlines(words[2].parse().unwrap()),
        "pretolerance" => Parameter::Pretolerance(number()),
        "tolerance" => Parameter::Tolerance(number()),
        "linepenalty" => Parameter::Linepenalty(number()),
        "adjdemerits" => Parameter::Adjdemerits(number()),
        "clubpenalty" => Parameter::Clubpenalty(number()),
        "widowpenalty" => Parameter::Widowpenalty(number()),
        "interlinepenalty" => Parameter::Interlinepenalty(number()),
        other => panic!("{other}"),
    }
}

fn ok(given: Result<(), Error>) -> Given {
    given.map(|()| Answer::Ok)
}

fn added(given: Result<u64, Error>) -> Given {
    given.map(|items| Answer::Added { items })
}

fn shaped(given: Result<Shaped, Error>) -> Given {
    given.map(|it| Answer::Shaped { items: it.items, missing: it.missing })
}

fn packed(it: Packed) -> Answer {
    Answer::Packed { sizes: it.sizes, badness: it.badness }
}

fn paragraph(it: Paragraph) -> Answer {
    Answer::Paragraph { lines: it.lines, pass: it.pass, overhang: it.overhang, demerits: it.demerits }
}

/// A call that needs no list; none if the line is another one.
fn in_job(job: &mut Job, line: &str, words: &[&str]) -> Option<Given> {
    Some(match words[0] {
        "font" => ok(job.load(words[1].parse().unwrap(), words[2], (words[3] != "-").then(|| sp(words[3])))),
        "use" => ok(job.use_font(words[1].parse().unwrap())),
        "set" => ok(job.set(parameter(words))),
        "count" => ok(job.count(words[1].parse().unwrap(), words[2].parse().unwrap())),
        "void" => ok(job.void(register(words[1]))),
        "ship" => job.ship(register(words[1])).map(|pages| Answer::Shipped { pages }),
        "measure" => job.measure(register(words[1])).map(|it| it.map_or(Answer::MeasuredVoid, |(kind, sizes)| Answer::Measured { kind, sizes })),
        "vsplit" => job.vsplit(register(words[1]), sp(words[2]), register(words[3])).map(|it| match it {
            Some(it) => Answer::Split { front: it.front, badness: it.badness, rest: it.rest },
            None => Answer::SplitVoid,
        }),
        _ => {
            debug_assert!(!line.is_empty());
            return None;
        }
    })
}

/// A call that lists of all modes have.
fn in_list<M: Mode>(list: &mut List<'_, M>, line: &str, words: &[&str]) -> Option<Given> {
    Some(match words[0] {
        "kern" => ok(list.kern(sp(words[1]))),
        "glue" => ok(list.glue(glue(&words[1..]))),
        "penalty" => ok(list.penalty(words[1].parse().unwrap())),
        "special" => ok(list.special(&line["special ".len()..])),
        "box" => added(list.put(register(words[1]), sp(words[2]))),
        "copy" => added(list.copy(register(words[1]), sp(words[2]))),
        "lastbox" => ok(list.lastbox(register(words[1]))),
        _ => return in_job(list.job(), line, words),
    })
}

fn in_horizontal<M: Horizontal>(list: &mut List<'_, M>, line: &str, words: &[&str]) -> Option<Given> {
    Some(match words[0] {
        "text" => shaped(list.text(&line["text ".len()..])),
        "char" => shaped(list.char(words[1].parse().unwrap())),
        "rule" => ok(list.rule(sp(words[1]), running(words[2]), running(words[3]))),
        "unhbox" => added(list.unhbox(register(words[1]))),
        "unhcopy" => added(list.unhcopy(register(words[1]))),
        _ => return in_list(list, line, words),
    })
}

fn in_vertical(list: &mut VboxList<'_>, line: &str, words: &[&str]) -> Option<Given> {
    Some(match words[0] {
        "rule" => ok(list.rule(running(words[1]), sp(words[2]), sp(words[3]))),
        "unvbox" => added(list.unvbox(register(words[1]))),
        "unvcopy" => added(list.unvcopy(register(words[1]))),
        _ => return in_list(list, line, words),
    })
}

impl<'c> Calls<'c> {
    /// Keeps the opening of a list, and makes the calls in it up to its end. An opening that is refused is all.
    fn within<'j, M: Mode>(&mut self, opened: Result<List<'j, M>, Error>, make: impl Fn(&mut Self, &mut List<'j, M>) -> Left, end: fn(M::End) -> Answer) {
        let mut list = match opened {
            Ok(list) => list,
            Err(error) => return self.given.push(Err(error)),
        };
        self.given.push(Ok(Answer::Ok));
        while make(self, &mut list) == Left::End {
            match list.end() {
                Ok(it) => return self.given.push(Ok(end(it))),
                Err(EndRefused { list: it, error }) => {
                    list = it;
                    self.given.push(Err(error));
                }
            }
        }
    }

    /// Makes calls in a list, up to one that opens another list or ends this one.
    fn items(&mut self, mut make: impl FnMut(&str, &[&str]) -> Option<Given>) -> Option<Vec<&'c str>> {
        for line in self.left.by_ref() {
            let words: Vec<_> = line.split(' ').collect();
            match make(line, &words) {
                Some(given) => self.given.push(given),
                None => return Some(words),
            }
        }
        None
    }

    fn hbox(&mut self, list: &mut HboxList<'_>) -> Left {
        while let Some(words) = self.items(|line, words| in_horizontal(list, line, words)) {
            if !self.opening(list, &words) {
                return Left::End;
            }
        }
        Left::Nothing
    }

    fn paragraph(&mut self, list: &mut ParagraphList<'_>) -> Left {
        while let Some(words) = self.items(|line, words| in_horizontal(list, line, words)) {
            if !self.opening(list, &words) {
                return Left::End;
            }
        }
        Left::Nothing
    }

    fn vbox(&mut self, list: &mut VboxList<'_>) -> Left {
        while let Some(words) = self.items(|line, words| in_vertical(list, line, words)) {
            if words[0] == "par" {
                self.within(list.par(), Self::paragraph, paragraph);
            } else if !self.opening(list, &words) {
                return Left::End;
            }
        }
        Left::Nothing
    }

    /// Opens a box in a list. Returns false if the call is another one: its end.
    fn opening<M: Mode>(&mut self, list: &mut List<'_, M>, words: &[&str]) -> bool {
        if words[0] == "end" {
            return false;
        }
        if words[3] != "-" {
            return self.boxes(list.job(), words);
        }
        match words[0] {
            "hbox" => self.within(list.hbox(target(words)), Self::hbox, packed),
            "vbox" => self.within(list.vbox(target(words)), Self::vbox, packed),
            _ => self.within(list.vtop(target(words)), Self::vbox, packed),
        }
        true
    }

    /// Opens a box that goes into a register.
    fn boxes(&mut self, job: &mut Job, words: &[&str]) -> bool {
        match words[0] {
            "hbox" => self.within(job.hbox(register(words[3]), target(words)), Self::hbox, packed),
            "vbox" => self.within(job.vbox(register(words[3]), target(words)), Self::vbox, packed),
            _ => self.within(job.vtop(register(words[3]), target(words)), Self::vbox, packed),
        }
        true
    }
}

/// The error of a refusal without its command, which a script does not give.
fn plain(error: &Error) -> Refusal {
    let Error::Refused(refusal) = error else { panic!("{error}") };
    let mut plain = refusal.clone();
    plain.command = None;
    plain
}

/// What differs between a script and its calls, if the types of the calls allow them all: a paragraph whose end is refused takes what was for the list around it.
fn difference(script: &[u8], text: &str, fonts: &[Font<'_>]) -> Result<usize, String> {
    let ran = run(script, fonts).unwrap();
    let mut job = Job::new(fonts).unwrap();
    let mut calls = Calls { left: text.lines(), given: Vec::new() };
    loop {
        let mut found = None;
        while let Some(line) = calls.left.next() {
            let words: Vec<_> = line.split(' ').collect();
            match in_job(&mut job, line, &words) {
                Some(given) => calls.given.push(given),
                None => {
                    found = Some(words);
                    break;
                }
            }
        }
        match found {
            Some(words) => calls.boxes(&mut job, &words),
            None => break,
        };
    }
    let end = job.finish().unwrap();
    let number = calls.given.len();
    for (at, (given, wanted)) in calls.given.iter().zip(&ran.replies).enumerate() {
        let same = match (given, &wanted.answer) {
            (Ok(given), Ok(wanted)) => given == wanted,
            (Err(error), Err(refusal)) => plain(error) == plain(&Error::Refused(refusal.clone())),
            _ => false,
        };
        if !same {
            return Err(format!("line {}: {given:?}, and by the script {:?}", at + 1, wanted.answer));
        }
    }
    if ran.replies.len() != number + 1 || ran.replies[number] != end || job.take().unwrap() != ran.dvi {
        return Err("the file or its end differs".into());
    }
    Ok(number)
}

/// Whether the types of the calls can say a document: the end of no list is refused, since what comes after it is for another mode.
fn can_be_said(script: &[u8], fonts: &[Font<'_>]) -> bool {
    let ran = run(script, fonts).unwrap();
    let lines = script.split(|it| *it == b'\n');
    lines.zip(&ran.replies).all(|(line, reply)| reply.answer.is_ok() || !(line == b"end" || line == b"par" || line.starts_with(b"rule") || line.starts_with(b"unv") || line.starts_with(b"text")))
}

fn main() {
    let words: Vec<String> = env::args().collect();
    let (data, metrics) = (fs::read(&words[1]).unwrap(), fs::read(&words[2]).unwrap());
    let fonts = [Font::new("cmr10", &metrics)];
    let (mut at, mut documents, mut said) = (0, 0, 0);
    while at < data.len() {
        let line = at + data[at..].iter().position(|it| *it == b'\n').unwrap();
        let size: usize = std::str::from_utf8(&data[at + "document ".len()..line]).unwrap().parse().unwrap();
        let (first, mark) = (line + 1 + size, b"\ndocument ");
        let end = data[first..].windows(mark.len()).position(|it| it == mark).map_or(data.len(), |it| first + it + 1);
        let (script, calls) = (&data[line + 1..first], std::str::from_utf8(&data[first..end]).unwrap());
        if can_be_said(script, &fonts) {
            said += 1;
            if let Err(wrong) = difference(script, calls, &fonts) {
                eprintln!("document {documents}: {wrong}");
                process::exit(1);
            }
        }
        (at, documents) = (end, documents + 1);
    }
    assert!(said >= words[3].parse().unwrap(), "the types of the calls can say {said} documents");
    println!("{documents} documents");
}
