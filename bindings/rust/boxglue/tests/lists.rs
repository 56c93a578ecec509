//! The typed calls: what is wanted is from docs/COMMANDS.md and docs/FORMATS.md, or what the same script gives.
use boxglue::{quote, run, BoxKind, BoxSizes, EndRefused, Error, Glue, Job, Parameter, RefusalKind, Sp, Stretch, Target};

const PT: i32 = 65_536;

fn job() -> Job {
    Job::new(&[]).unwrap()
}

fn kind(error: Error) -> RefusalKind {
    match error {
        Error::Refused(refusal) => refusal.kind(),
        other => panic!("{other}"),
    }
}

/// The values of docs/FORMATS.md, section 1.
#[test]
fn dimensions_of_texts() {
    let cases = "1in 4736286 6.5in 30785863 1cm 1864679 -2.5mm -466169 0.1pt 6554 1bp 65781 1dd 70124 1cc 841489 5.pt 327680 +007pt 458752 \
        -0.00001pt -1 0.000007pt 0 -1.9sp -1 16383.99999pt 1073741823 .5pt 32768 0000000000000000000001pt 65536";
    let words: Vec<_> = cases.split_whitespace().collect();
    for pair in words.chunks(2) {
        assert_eq!(pair[0].parse(), Ok(Sp(pair[1].parse().unwrap())), "{}", pair[0]);
    }
    for text in [".pt", "5", "1,5pt", "1PT", "1 pt", "--1pt", "1em", "", "pt", "1pt ", "1pt\n", "\u{661}pt", "1..2pt", "1\u{e9}", "+pt"] {
        assert_eq!(text.parse::<Sp>(), Err(Error::BadDimension), "{text:?}");
    }
    for text in ["16383.999999pt", "1073741824sp", "-16384pt", "99999999999999999999999999in"] {
        assert_eq!(text.parse::<Sp>(), Err(Error::OutOfRange), "{text}");
    }
    for size in (-70_000..70_000).step_by(7).chain([Sp::MAX.0, -Sp::MAX.0]) {
        assert_eq!(Sp(size).to_string().parse(), Ok(Sp(size)));
    }
}

#[test]
fn each_call_has_its_answer() {
    let mut job = job();
    let mut list = job.hbox(0, Target::Natural).unwrap();
    list.rule(Sp(15 * PT), Some(Sp(5 * PT)), None).unwrap();
    list.special("a b").unwrap();
    let packed = list.end().unwrap();
    assert_eq!((packed.sizes, packed.badness), (BoxSizes { width: 15 * PT, height: 5 * PT, depth: 0 }, 0));
    assert_eq!((job.measure(0), job.measure(9)), (Ok(Some((BoxKind::Horizontal, packed.sizes))), Ok(None)));
    let mut page = job.vbox(2, Target::Natural).unwrap();
    assert_eq!((page.copy(0, Sp::ZERO), page.put(8, Sp(1))), (Ok(1), Ok(0)));
    page.penalty(10_000).unwrap();
    page.glue(Glue { width: Sp(2 * PT), plus: Stretch::Fil(Sp(PT)), minus: Stretch::Finite(Sp(1)) }).unwrap();
    page.rule(None, Sp(5 * PT), Sp::ZERO).unwrap();
    let par = page.par().unwrap().end().unwrap();
    assert_eq!((par.lines, par.pass, par.overhang, par.demerits), (0, 0, 0, 0));
    assert_eq!(page.end().unwrap().sizes, BoxSizes { width: 15 * PT, height: 12 * PT, depth: 0 });
    let split = job.vsplit(2, Sp(12 * PT), 3).unwrap().unwrap();
    assert_eq!((split.front.height, split.badness, split.rest, job.vsplit(9, Sp(0), 9)), (12 * PT, 0, None, Ok(None)));
    job.count(0, -5).unwrap();
    assert_eq!((job.ship(3), job.finish().unwrap().answer.is_ok()), (Ok(1), true));
}

/// The same file as by the script.
#[test]
fn calls_are_their_script() {
    let script = "set hsize 100pt\nset firstlines 3\nset tolerance 300\nset parfillskip 1pt plus 2fill minus 3pt\ncount 3 4\nvtop spread 3pt into 1\nhbox to 5pt\nkern 1sp\nglue 1sp plus .5fil minus 3filll\nend\n\
        par\nrule 20pt * 1pt\nglue 3pt plus 1pt minus 1sp\nhbox\nend\nlastbox 7\nvbox\nrule * 1pt 1pt\nend\nend\nend\nhbox into 4\nend\nvoid 4\nvtop into 5\nunvcopy 1\nunvbox 1\nend\n\
        hbox into 6\nunhcopy 7\nunhbox 7\nend\nship 5\n";
    let mut job = job();
    let finite = |it| Stretch::Finite(Sp(it));
    for parameter in [
        Parameter::Hsize(Sp(100 * PT)),
        Parameter::Firstlines(3),
        Parameter::Tolerance(300),
        Parameter::Parfillskip(Glue { width: Sp(PT), plus: Stretch::Fill(Sp(2 * PT)), minus: finite(3 * PT) }),
    ] {
        job.set(parameter).unwrap();
    }
    job.count(3, 4).unwrap();
    let mut page = job.vtop(1, Target::Spread(Sp(3 * PT))).unwrap();
    let mut inner = page.hbox(Target::To(Sp(5 * PT))).unwrap();
    inner.kern(Sp(1)).unwrap();
    inner.glue(Glue { width: Sp(1), plus: Stretch::Fil(Sp(PT / 2)), minus: Stretch::Filll(Sp(3 * PT)) }).unwrap();
    inner.end().unwrap();
    let mut par = page.par().unwrap();
    par.rule(Sp(20 * PT), None, Some(Sp(PT))).unwrap();
    par.glue(Glue { width: Sp(3 * PT), plus: finite(PT), minus: finite(1) }).unwrap();
    par.hbox(Target::Natural).unwrap().end().unwrap();
    par.lastbox(7).unwrap();
    let mut inner = par.vbox(Target::Natural).unwrap();
    inner.rule(None, Sp(PT), Sp(PT)).unwrap();
    inner.end().unwrap();
    par.end().unwrap();
    page.end().unwrap();
    job.hbox(4, Target::Natural).unwrap().end().unwrap();
    job.void(4).unwrap();
    let mut page = job.vtop(5, Target::Natural).unwrap();
    page.unvcopy(1).unwrap();
    page.unvbox(1).unwrap();
    page.end().unwrap();
    let mut list = job.hbox(6, Target::Natural).unwrap();
    list.unhcopy(7).unwrap();
    list.unhbox(7).unwrap();
    list.end().unwrap();
    job.ship(5).unwrap();
    let end = job.finish().unwrap();
    let ran = run(script, &[]).unwrap().check().unwrap();
    assert_eq!((end, job.take().unwrap()), (ran.replies.last().unwrap().clone(), ran.dvi));
}

/// What scripts cannot have is refused before anything is sent.
#[test]
fn nothing_is_sent() {
    let mut job = job();
    let (big, bad) = (Sp(1 << 30), Err(Error::OutOfRange));
    assert_eq!(job.load(0, "a b", None), Err(Error::BadByte { place: 1 }));
    assert_eq!(job.load(0, "x\nship", None), Err(Error::BadByte { place: 1 }));
    assert_eq!((job.load(0, "", None), job.load(0, &"x".repeat(256), None)), (Err(Error::BadFontName), Err(Error::BadFontName)));
    assert_eq!((job.load(0, "x", Some(Sp(0))), job.load(0, "x", Some(Sp(1 << 27)))), (bad.clone(), bad.clone()));
    assert_eq!(
        (job.void(32_768), job.ship(32_768).map(drop), job.count(10, 0), job.set(Parameter::Firstlines(33))),
        (bad.clone(), bad.clone(), bad.clone(), bad.clone())
    );
    assert_eq!((job.set(Parameter::Hsize(big)), job.set(Parameter::Tolerance(500_000_001))), (bad.clone(), bad.clone()));
    assert_eq!(job.hbox(0, Target::To(-big)).map(drop), bad);
    let mut list = job.hbox(0, Target::Natural).unwrap();
    for (text, place) in [("a\nend\nship 0", 1), ("na\u{ef}ve", 2), ("\t", 0), ("x\r", 1), ("\u{7f}", 0)] {
        assert_eq!((list.text(text).map(drop), list.special(text)), (Err(Error::BadByte { place }), Err(Error::BadByte { place })), "{text:?}");
        assert_eq!(quote(text), Err(Error::BadByte { place }));
    }
    assert_eq!((list.kern(big), list.penalty(i32::MIN), list.rule(Sp(0), Some(big), None)), (bad.clone(), bad.clone(), bad.clone()));
    assert_eq!((list.glue(Glue { plus: Stretch::Fil(big), ..Glue::default() }), list.put(0, big).map(drop)), (bad.clone(), bad));
    assert_eq!(list.end().unwrap().sizes.width, 0);
    assert_eq!(job.finish().unwrap().to_string(), "end: pages 0 bytes 0");
}

/// The last numbers that scripts have are sent.
#[test]
fn limits_of_calls() {
    let mut job = job();
    let (name, largest) = ("x".repeat(255), Sp((1 << 27) - 1));
    for refused in [job.load(255, &name, Some(largest)), job.load(0, "x", Some(Sp(1))), job.use_font(255)] {
        assert_eq!(kind(refused.unwrap_err()), RefusalKind::NoFont);
    }
    assert_eq!((job.void(32_767), job.count(9, i32::MIN), job.count(0, i32::MAX)), (Ok(()), Ok(()), Ok(())));
    for it in [-500_000_000, 500_000_000] {
        assert_eq!(job.set(Parameter::Tolerance(it)), Ok(()));
    }
    for parameter in [Parameter::Firstlines(32), Parameter::Hsize(Sp::MAX), Parameter::Hsize(-Sp::MAX)] {
        assert_eq!(job.set(parameter), Ok(()));
    }
    let mut list = job.hbox(32_767, Target::To(Sp::MAX)).unwrap();
    assert_eq!((list.penalty(500_000_000), list.penalty(-500_000_000), list.kern(Sp::MAX), list.kern(-Sp::MAX)), (Ok(()), Ok(()), Ok(()), Ok(())));
    let Err(Error::Refused(refusal)) = list.char(255) else { panic!() };
    assert_eq!((refusal.kind(), refusal.command.as_deref()), (RefusalKind::NoFont, Some("char 255")));
    assert_eq!(list.end().unwrap().sizes.width, Sp::MAX.0);
}

#[test]
fn refusals_have_their_command() {
    let mut job = job();
    let Err(Error::Refused(refusal)) = job.use_font(7) else { panic!() };
    assert_eq!((refusal.kind(), refusal.line, refusal.command.as_deref()), (RefusalKind::NoFont, Some(1), Some("use 7")));
    assert_eq!(refusal.to_string(), "line 1: refused 4 NoFont: \"use 7\"");
    let mut list = job.hbox(0, Target::Natural).unwrap();
    assert_eq!(kind(list.text("a").unwrap_err()), RefusalKind::NoFont);
    list.end().unwrap();
    let mut list = job.vbox(1, Target::Natural).unwrap();
    assert_eq!(kind(list.unvbox(0).unwrap_err()), RefusalKind::WrongKind);
    list.end().unwrap();
    assert_eq!(kind(job.ship(9).unwrap_err()), RefusalKind::VoidBox);
}

/// A void register is often that of a box whose list is still open.
#[test]
fn an_end_that_is_forgotten() {
    let mut job = job();
    let mut list = job.vbox(0, Target::Natural).unwrap();
    let refused = list.job().ship(0).unwrap_err();
    assert_eq!(refused.to_string(), "line 2: refused 21 VoidBox: \"ship 0\"; open lists: vbox (line 1)");
    list.end().unwrap();
    assert_eq!((job.ship(0), job.ship(0).unwrap_err().to_string()), (Ok(1), "line 5: refused 21 VoidBox: \"ship 0\"".into()));
}

/// Each text says what to do in its place, and is right for texts and for names.
#[test]
fn texts_of_errors() {
    let bad = "the byte at 3 is not allowed: a text is one line of bytes 32 to 126, so send other characters by `char`; the name of a font has \
        letters, digits, -, _ and .";
    assert_eq!((quote("caf\u{e9}").unwrap_err().to_string(), job().load(0, "cmr 10", None).unwrap_err().to_string()), (bad.into(), bad.into()));
    let unit = "a text is not a dimension: write a number and a unit, such as 1.5pt, without em or ex";
    assert_eq!("1em".parse::<Sp>().unwrap_err().to_string(), unit);
    assert_eq!("1.5pt".parse(), Ok(Sp(98_304)));
}

/// A function that leaves its lists by `?`.
fn left(job: &mut Job) -> Result<(), Error> {
    let mut page = job.vbox(0, Target::Natural)?;
    let mut par = page.par()?;
    par.kern(Sp(1 << 30))?;
    par.end()?;
    page.end()?;
    Ok(())
}

#[test]
fn lists_that_are_dropped_stay_open() {
    let mut job = job();
    assert!(!job.is_list_open());
    assert_eq!(left(&mut job), Err(Error::OutOfRange));
    assert!(job.is_list_open());
    assert_eq!(job.measure(0), Ok(None)); // which needs no list
    assert_eq!(kind(job.finish().unwrap().answer.unwrap_err().into()), RefusalKind::ListsOpen);
    let mut other = job.hbox(1, Target::Natural).unwrap();
    assert_eq!((other.job().is_list_open(), other.job().end_open_list()), (false, Err(Error::ListOpen)));
    other.end().unwrap();
    assert!(job.end_open_list().is_ok() && job.is_list_open() && job.end_open_list().is_ok());
    assert_eq!((job.is_list_open(), job.end_open_list(), job.finish().unwrap().answer.is_ok()), (false, Err(Error::ListOpen), true));
}

#[test]
fn commands_that_need_another_list() {
    let mut job = job();
    let mut page = job.vbox(0, Target::Natural).unwrap();
    drop(page.hbox(Target::Natural).unwrap());
    assert_eq!(
        (page.kern(Sp(1)), page.par().map(drop), page.hbox(Target::Natural).map(drop)),
        (Err(Error::ListOpen), Err(Error::ListOpen), Err(Error::ListOpen))
    );
    let EndRefused { list: mut page, error } = page.end().unwrap_err();
    assert_eq!(error, Error::ListOpen);
    page.job().commands("end\n").unwrap().check().unwrap();
    page.job().recover();
    page.kern(Sp(3)).unwrap();
    assert_eq!(page.end().unwrap().sizes.height, 3);
    assert!(job.finish().unwrap().answer.is_ok());
}

#[test]
fn an_end_that_is_refused_gives_the_list_back() {
    let mut job = job();
    let mut list = job.hbox(0, Target::Natural).unwrap();
    list.kern(Sp::MAX).unwrap();
    list.kern(Sp(1)).unwrap();
    let EndRefused { mut list, error } = list.end().unwrap_err();
    assert_eq!(error.to_string(), "line 4: refused 3 DimensionTooLarge: \"end\"");
    list.kern(Sp(-1)).unwrap();
    assert_eq!(list.end().unwrap().sizes.width, Sp::MAX.0);
    assert!(!job.is_list_open());
}

#[test]
fn a_forgotten_list_is_no_fault() {
    let mut job = job();
    std::mem::forget(job.hbox(0, Target::Natural).unwrap());
    assert_eq!(job.end_open_list(), Err(Error::ListOpen));
    job.commands("end\n").unwrap().check().unwrap();
    let list = job.hbox(0, Target::Natural).unwrap();
    assert!(list.end().is_ok());
}

/// A text before the first `use`, and a slot without a font.
#[test]
fn missing_font() {
    let mut job = Job::new(&[]).unwrap();
    let mut list = job.hbox(0, Target::Natural).unwrap();
    assert_eq!(list.text("a").unwrap_err().to_string(), "line 2: refused 4 NoFont: \"text a\"; no font is current: `use` chooses one");
    assert_eq!(list.char(65).unwrap_err().to_string(), "line 3: refused 4 NoFont: \"char 65\"; no font is current: `use` chooses one");
    list.end().unwrap();
    assert_eq!(job.use_font(7).unwrap_err().to_string(), "line 5: refused 4 NoFont: \"use 7\"");
}
