//! The calls, on pages of one rule and on inputs that are refused.
use boxglue::{check, fonts, listing, marks, paint, run, run_text, version};
use boxglue::{Cause, Error, Font, Job, ListForm, PaintOptions, Refusal, RefusalKind, Sp, Target};

const RULE: &str = "hbox into 0\nrule 1pt 1pt 0pt\nend\nship 0\n";

#[test]
fn a_page_of_a_rule() {
    let ran = run_text(RULE, &[]).unwrap().check().unwrap();
    assert_eq!((ran.answers.lines().last(), ran.dvi.len()), (Some("end: pages 1 bytes 116"), 116));
    assert_eq!(listing(&ran.dvi, &[]).unwrap(), "page 1 counts 0 0 0 0 0 0 0 0 0 0\nrule 0 65536 65536 65536\n");
}

#[test]
fn a_file_that_is_cut() {
    let ran = run(RULE, &[]).unwrap();
    for error in [listing(&ran.dvi[..74], &[]).unwrap_err(), fonts(&ran.dvi[..74]).unwrap_err()] {
        let Error::Refused(refusal) = error else { panic!("{error}") };
        assert_eq!((refusal.line, refusal.number, refusal.name.as_str(), refusal.detail.as_str()), (None, 20, "BadDvi", "74 Trailer"));
        assert_eq!((refusal.kind(), refusal.cause(), refusal.place()), (RefusalKind::BadDvi, Some(Cause::Trailer), Some(74)));
    }
}

/// A metric file of one character, `a`, of half its design size.
fn metrics_of_a() -> Vec<u8> {
    metrics_of_width(1 << 19)
}

/// The same with another width, in 2^20ths of the design size.
fn metrics_of_width(width: u32) -> Vec<u8> {
    let counts = [14_u16, 2, 97, 97, 2, 1, 1, 1, 0, 0, 0, 0];
    let words = [0_u32, 10 << 20, 1 << 24, 0, width, 0, 0, 0];
    counts.iter().flat_map(|it| it.to_be_bytes()).chain(words.iter().flat_map(|it| it.to_be_bytes())).collect()
}

#[test]
fn checks_of_files() {
    let script = "font 0 plain\nuse 0\nhbox into 0\ntext a\nend\nship 0\n";
    let metrics = metrics_of_a();
    let plain = [Font::new("plain", &metrics)];
    let dvi = run(script, &plain).unwrap().check().unwrap().dvi;
    assert_eq!(check(&dvi, &plain), Ok(None));
    let missing = check(&dvi, &[]).unwrap().unwrap();
    assert_eq!((missing.kind, missing.missing.as_deref(), missing.font, missing.cause), (RefusalKind::NoFont, Some(&b"plain"[..]), None, None));
    let said = "refused 4 NoFont; no metric file has the name of a font: `check` says which";
    assert_eq!(listing(&dvi, &[]).unwrap_err().to_string(), said);
    assert_eq!(marks(&dvi, &[]).unwrap_err().to_string(), said);
    let of_a_command = run_text("use 7\n", &[]).unwrap().check().unwrap_err();
    assert_eq!(of_a_command.to_string(), "line 1: refused 4 NoFont");
    let bad = check(&dvi, &[Font::new("plain", &metrics[..8])]).unwrap().unwrap();
    assert_eq!((bad.kind, bad.cause, bad.font, bad.place), (RefusalKind::BadTfm, Some(Cause::TooShort), Some(0), None));
    let cut = check(&dvi[..74], &plain).unwrap().unwrap();
    assert_eq!((cut.kind, cut.cause, cut.place, cut.missing), (RefusalKind::BadDvi, Some(Cause::Trailer), Some(74), None));
    assert_eq!(check(&dvi, &[Font::new("", b"")]), Err(Error::BadFontName));
}

/// A metric file that is too large at the size of its font, and one that is bad: the font is that of its slot.
#[test]
fn a_font_of_number_9() {
    let (metrics, wide) = (metrics_of_a(), metrics_of_width((1 << 24) - 1));
    let script = "font 9 plain at 2047pt\nuse 9\nhbox into 0\ntext a\nend\nship 0\n";
    let dvi = run(script, &[Font::new("plain", &metrics)]).unwrap().check().unwrap().dvi;
    let large = check(&dvi, &[Font::new("plain", &wide)]).unwrap().unwrap();
    assert_eq!((large.kind, large.cause, large.font, large.place, large.missing), (RefusalKind::DimensionTooLarge, None, Some(9), None, None));
    let bad = check(&dvi, &[Font::new("plain", &metrics[..8])]).unwrap().unwrap();
    assert_eq!((bad.kind, bad.font), (RefusalKind::BadTfm, Some(9)));
}

/// The longest name that a font may have is given whole.
#[test]
fn a_missing_font_of_255_bytes() {
    let (metrics, name) = (metrics_of_a(), "n".repeat(255));
    let script = format!("font 0 {name}\nuse 0\nhbox into 0\ntext a\nend\nship 0\n");
    let dvi = run(script, &[Font::new(&name, &metrics)]).unwrap().check().unwrap().dvi;
    assert_eq!(check(&dvi, &[]).unwrap().unwrap().missing.as_deref(), Some(name.as_bytes()));
}

/// More fonts than the first buffer of the call has room for.
#[test]
fn seventy_fonts() {
    let (metrics, mut script) = (metrics_of_a(), String::from("hbox into 0\n"));
    for slot in 0..70 {
        script += &format!("font {slot} plain at {}sp\nuse {slot}\ntext a\n", 655_360 + slot);
    }
    let dvi = run(script + "end\nship 0\n", &[Font::new("plain", &metrics)]).unwrap().check().unwrap().dvi;
    let found: Vec<_> = fonts(&dvi).unwrap().into_iter().map(|it| (it.number, it.name, it.size)).collect();
    assert_eq!(found, (0..70).map(|slot| (slot, b"plain".to_vec(), 655_360 + slot)).collect::<Vec<_>>());
}

/// A square of an inch whose lower left corner is an inch below the origin, at a pixel an inch.
#[test]
fn a_bitmap_that_is_wider_than_high() {
    let dvi = run("hbox into 0\nrule 1in 1in 0pt\nend\nship 0\n", &[]).unwrap().dvi;
    let sheet = PaintOptions { page: 1, dpi: 1, width: 3, height: 2 };
    assert_eq!(paint(&dvi, &[], sheet).unwrap(), "P1\n3 2\n000\n100\n");
    assert_eq!(paint(&dvi, &[], PaintOptions { width: 10_001, ..sheet }), Err(Error::OutOfRange));
}

/// 20,000 rules in a file that is longer than the first buffer, which a short script makes: it is run again, and a job hands the file over whole.
#[test]
fn a_file_that_is_long_for_its_script() {
    let page = format!("hbox into 1\n{}end\nship 1\n", "unhcopy 0\n".repeat(20));
    let script = format!("hbox into 0\n{}end\n{}", "rule 1pt 1pt 0pt\n".repeat(100), page.repeat(10));
    let (ran, texts) = (run(&script, &[]).unwrap().check().unwrap(), run_text(&script, &[]).unwrap().check().unwrap());
    assert!(ran.dvi.len() > 2 * script.len() && ran.dvi.len() > 1 << 17);
    assert_eq!(listing(&ran.dvi, &[]).unwrap().lines().count(), 20_010);
    let mut job = Job::new(&[]).unwrap();
    job.commands(&script).unwrap().check().unwrap();
    job.finish().unwrap().answer.unwrap();
    assert!(job.take().unwrap() == ran.dvi && texts.dvi == ran.dvi);
}

#[test]
fn the_version_is_that_of_the_crate() {
    assert_eq!(version(), env!("CARGO_PKG_VERSION"));
}

/// 300 jobs with a font of a mebibyte need the memory of one: the resident pages, of 4 KiB each, of which other tests take some.
#[cfg(target_os = "linux")]
#[test]
fn a_dropped_job_frees_its_memory() {
    let resident = || -> usize {
        let text = std::fs::read_to_string("/proc/self/statm").unwrap();
        text.split(' ').nth(1).unwrap().parse().unwrap()
    };
    let (before, metrics) = (resident(), vec![1; 1 << 20]);
    for _ in 0..300 {
        drop(Job::new(&[Font::new("x", &metrics)]).unwrap());
    }
    let after = resident();
    assert!(after < before + 40_000, "{before} and then {after} pages");
}

#[test]
fn refused_commands() {
    let ran = run("ship 3\nend\n", &[]).unwrap();
    let found: Vec<_> = ran.refusals().map(|it| it.to_string()).collect();
    assert_eq!(found, ["line 1: refused 21 VoidBox: \"ship 3\"", "line 2: refused 7 NoOpenList: \"end\""]);
    assert_eq!(ran.check().unwrap_err().to_string(), "line 1: refused 21 VoidBox: \"ship 3\"");
}

#[test]
fn a_bad_script() {
    let error = run("kern 12px\n", &[]).unwrap().check().unwrap_err();
    assert_eq!(error.to_string(), "refused 2 BadScript 1 Dimension: \"kern 12px\"");
}

#[test]
fn empty_inputs_and_bad_names() {
    assert_eq!(run_text("", &[]).unwrap().answers, "end: pages 0 bytes 0\n");
    assert_eq!(run("", &[Font::new("", b"")]), Err(Error::BadFontName));
}

#[test]
fn fonts_of_a_file() {
    let script = "font 0 none at 5pt\nuse 0\nhbox into 0\nend\nship 0\n";
    let ran = run(script, &[Font::new("none", b"no metrics")]).unwrap();
    assert_eq!(ran.refusals().map(|it| it.kind()).collect::<Vec<_>>(), [RefusalKind::BadTfm, RefusalKind::NoFont]);
    assert_eq!(ran.refusals().next().unwrap().cause(), Some(Cause::TooShort));
}

#[test]
fn buffers_grow() {
    let ran = run_text(RULE.repeat(5_000), &[]).unwrap();
    assert_eq!((ran.answers.lines().count(), ran.accepted), (20_001, true));
    assert_eq!(listing(&ran.dvi, &[]).unwrap().lines().count(), 10_000);
}

#[test]
fn a_job_in_pieces_is_one_run() {
    let mut job = Job::new(&[]).unwrap();
    let (mut answers, mut dvi) = (String::new(), Vec::new());
    for line in RULE.lines() {
        answers += &job.commands_text(line).unwrap().check().unwrap().text;
        dvi.extend(job.take().unwrap());
    }
    assert_eq!(job.commands_text("kern 12px\n").unwrap().text, "refused 2 BadScript 5 Dimension\n");
    answers += &job.finish_text().unwrap().text;
    dvi.extend(job.take().unwrap());
    let whole = run_text(RULE, &[]).unwrap();
    assert_eq!((answers, dvi), (whole.answers, whole.dvi));
}

#[test]
fn a_job_moves_between_threads() {
    let mut job = Job::new(&[]).unwrap();
    for piece in RULE.lines().map(|it| format!("{it}\n")) {
        job = std::thread::spawn(move || {
            job.commands(piece).unwrap().check().unwrap();
            job
        })
        .join()
        .unwrap();
    }
    assert_eq!(job.finish_text().unwrap().text, "end: pages 1 bytes 116\n");
}

/// The form and the line of each list that is open at a refusal.
fn lists_of(refusal: &Refusal) -> Vec<(ListForm, u64)> {
    refusal.open_lists.iter().map(|it| (it.form, it.line)).collect()
}

#[test]
fn commands_and_open_lists_of_refusals() {
    let script = "% a comment\n\nvbox into 0\n  hbox \nrule * 1pt 1pt\nend\nunhbox 9\nhbox\npar\nfont 0 x\nend\nvbox  to 1pt\r\npar\nrule * 1pt 1pt\n";
    let ran = run(script, &[]).unwrap();
    let found: Vec<_> = ran.refusals().map(|it| (it.line, it.command.as_deref(), lists_of(it))).collect();
    let (vbox, par) = ((ListForm::Vbox, 3), (ListForm::Par, 13));
    let wanted = [
        (Some(5), Some("rule * 1pt 1pt"), vec![vbox, (ListForm::Hbox, 4)]),
        (Some(7), Some("unhbox 9"), vec![vbox]),
        (Some(9), Some("par"), vec![vbox, (ListForm::Hbox, 8)]),
        (Some(10), Some("font 0 x"), vec![]),
        (Some(14), Some("rule * 1pt 1pt"), vec![vbox, (ListForm::Vbox, 12), par]),
        (None, None, vec![vbox, (ListForm::Vbox, 12), par]),
    ];
    assert_eq!(found, wanted);
    assert_eq!(ran.refusals().nth(1).unwrap().to_string(), "line 7: refused 8 WrongMode: \"unhbox 9\"; open lists: vbox (line 3)");
    let bad = run("kern 1pt\n kern 12px \n", &[]).unwrap();
    assert_eq!(bad.refusals().next().unwrap().command.as_deref(), Some("kern 12px"));
}

#[test]
fn open_lists_of_a_job() {
    let mut job = Job::new(&[]).unwrap();
    job.commands("% a\nvbox into 3\r\n").unwrap().check().unwrap();
    assert!(!job.commands("hbox\nfoo\n").unwrap().accepted);
    job.commands_text("vtop\nend\nvtop\nend").unwrap().check().unwrap();
    let mut list = job.hbox(4, Target::Natural).unwrap();
    assert_eq!(list.kern(Sp(1)), Ok(()));
    list.end().unwrap();
    job.commands_text("hbox\n").unwrap().check().unwrap();
    let wrong = job.commands("unvbox 9\n").unwrap();
    let refusal = wrong.refusals().next().unwrap();
    assert_eq!((refusal.line, lists_of(refusal)), (Some(11), vec![(ListForm::Vbox, 2), (ListForm::Hbox, 10)]));
    let end = job.finish().unwrap().answer.unwrap_err();
    assert_eq!(lists_of(&end), lists_of(refusal));
    job.commands("end\nend\n").unwrap().check().unwrap();
    assert!(job.finish().unwrap().answer.is_ok());
}
