//! Replies and marks are the answers and the listing.
use boxglue::{fonts, listing, marks, points, run, run_text, Answer, BoxKind, BoxSizes, Error, Font, Job, Mark, Refusal};
use std::fmt::Write;

/// A script with refusals of commands, of a metric file, and of the end.
const REFUSED: &str = "ship 3\nfont 0 none at 5pt\nend\nhbox into 0\nmeasure 1\nkern 1pt\n";
const BOXES: &str = "hbox into 0\nrule 1pt 2pt 3pt\nspecial a b\nend\nmeasure 0\nvbox into 1\ncopy 0\nend\nvsplit 1 to 9pt into 2\nship 0\nship 2\n";

/// The listing of marks.
fn listed(dvi: &[u8]) -> String {
    let (mut text, found) = (String::new(), marks(dvi, &[]).unwrap());
    for (number, page) in found.pages().enumerate() {
        let counts: Vec<_> = page.counts().iter().map(i32::to_string).collect();
        writeln!(text, "page {} counts {}", number + 1, counts.join(" ")).unwrap();
        for mark in page.marks() {
            match mark {
                Mark::Glyph { font, code, h, v, .. } => writeln!(text, "glyph {font} {code} {h} {v}").unwrap(),
                Mark::Rule { h, v, height, width } => writeln!(text, "rule {h} {v} {height} {width}").unwrap(),
                Mark::Special { h, v, text: its } => writeln!(text, "special {h} {v} {}", String::from_utf8_lossy(its)).unwrap(),
                other => panic!("{other:?}"),
            }
        }
    }
    text
}

const PT: i32 = 65_536;
/// A metric file with the character `a`, which is half as wide as the font's size, and has no height and no depth. The design size is 10pt.
const METRICS: [u8; 56] = *b"\0\x0e\0\x02\0a\0a\0\x02\0\x01\0\x01\0\x01\0\0\0\0\0\0\0\0\x01#Eg\0\xa0\0\0\x01\0\0\0\0\0\0\0\0\x08\0\0\0\0\0\0\0\0\0\0\0\0\0\0";

fn sizes(width: i32, height: i32) -> BoxSizes {
    BoxSizes { width: width * PT, height: height * PT, depth: 0 }
}

/// Each line of a script has the answer beside it, by docs/COMMANDS.md, section 3.
#[test]
fn each_kind_of_answer() {
    let lines = [
        ("font 0 plain", Answer::Ok),
        ("use 0", Answer::Ok),
        ("hbox into 0", Answer::Ok),
        ("text ab", Answer::Shaped { items: 1, missing: 1 }),
        ("rule 10pt 5pt 0pt", Answer::Ok),
        ("end", Answer::Packed { sizes: sizes(15, 5), badness: 0 }),
        ("measure 0", Answer::Measured { kind: BoxKind::Horizontal, sizes: sizes(15, 5) }),
        ("measure 9", Answer::MeasuredVoid),
        ("vbox into 2", Answer::Ok),
        ("copy 0", Answer::Added { items: 1 }),
        ("penalty 10000", Answer::Ok),
        ("glue 2pt", Answer::Ok),
        ("rule 10pt 5pt 0pt", Answer::Ok),
        ("par", Answer::Ok),
        ("end", Answer::Paragraph { lines: 0, pass: 0, overhang: 0, demerits: 0 }),
        ("end", Answer::Packed { sizes: sizes(15, 12), badness: 0 }),
        ("measure 2", Answer::Measured { kind: BoxKind::Vertical, sizes: sizes(15, 12) }),
        ("vsplit 2 to 12pt into 3", Answer::Split { front: sizes(15, 12), badness: 0, rest: None }),
        ("vsplit 9 to 5pt into 9", Answer::SplitVoid),
        ("ship 3", Answer::Shipped { pages: 1 }),
    ];
    let script: String = lines.iter().map(|(line, _)| format!("{line}\n")).collect();
    let fonts = [Font::new("plain", &METRICS)];
    let ran = run(&script, &fonts).unwrap().check().unwrap();
    for (number, ((line, wanted), reply)) in (1..).zip(lines.iter().zip(&ran.replies)) {
        assert_eq!((reply.line, reply.answer.as_ref()), (Some(number), Ok(wanted)), "{line}");
    }
    assert_eq!(ran.replies.last().unwrap().answer, Ok(Answer::End { pages: 1, bytes: ran.dvi.len() as u64 }));
    let texts: String = ran.replies.iter().map(|it| format!("{it}\n")).collect();
    assert_eq!(texts, run_text(script, &fonts).unwrap().answers);
}

/// A rule of 20pt in lines of 10pt: one line, which the third pass takes, 10pt overfull. A front of 5pt leaves a rest,
/// which is 10pt high: its first rule has its top at the 10pt of splittopskip.
#[test]
fn numbers_of_a_paragraph_and_of_a_rest() {
    let script = "set hsize 10pt\nset parfillskip 0pt\nvbox into 0\npar\nrule 20pt 1pt 0pt\nend\nend\n";
    let answer = run(script, &[]).unwrap().replies.swap_remove(5).answer.unwrap();
    assert!(matches!(answer, Answer::Paragraph { lines: 1, pass: 3, overhang, .. } if overhang == i64::from(10 * PT)), "{answer:?}");
    let script = "vbox into 2\nrule 10pt 5pt 0pt\nspecial a\nglue 2pt\nrule 10pt 5pt 0pt\nend\nvsplit 2 to 5pt into 3\n";
    let answer = run(script, &[]).unwrap().replies.swap_remove(6).answer.unwrap();
    assert_eq!(answer, Answer::Split { front: sizes(10, 5), badness: 0, rest: Some(sizes(10, 10)) });
}

/// The text of a dimension is read as the same number.
#[test]
fn dimensions_are_read_again() {
    let widths: Vec<_> = (0..PT).step_by(7).chain([1, 65_535, 1_073_741_823]).flat_map(|it| [it, -it]).collect();
    let script: String = widths.iter().map(|it| format!("hbox into 0\nkern {}\nend\n", points(*it))).collect();
    let replies = run(script, &[]).unwrap().check().unwrap().replies;
    for (width, reply) in widths.into_iter().zip(replies.chunks(3).map(|it| &it[2])) {
        assert_eq!(reply.answer, Ok(Answer::Packed { sizes: BoxSizes { width, height: 0, depth: 0 }, badness: 0 }));
    }
}

#[test]
fn marks_are_the_listing() {
    let ran = run(BOXES, &[]).unwrap().check().unwrap();
    assert_eq!(listed(&ran.dvi), listing(&ran.dvi, &[]).unwrap());
    assert_eq!(marks(&ran.dvi[..74], &[]).unwrap_err(), listing(&ran.dvi[..74], &[]).unwrap_err());
}

/// Each page has its own counts, even without marks.
#[test]
fn counts_of_empty_pages() {
    let script: String = [7, -8, i32::MIN].iter().map(|it| format!("count 9 {it}\nhbox into 0\nend\nship 0\n")).collect();
    let dvi = run(script, &[]).unwrap().check().unwrap().dvi;
    let found: Vec<_> = marks(&dvi, &[]).unwrap().pages().map(|it| (it.counts()[9], it.marks().len())).collect();
    assert_eq!(found, [(7, 0), (-8, 0), (i32::MIN, 0)]);
}

#[test]
fn a_glyph_and_its_font() {
    let metrics = [Font::new("plain", &METRICS)];
    let dvi = run("font 7 plain at 20pt\nuse 7\nhbox into 0\nkern 1pt\ntext a\nend\nship 0\n", &metrics).unwrap().check().unwrap().dvi;
    let document = marks(&dvi, &metrics).unwrap();
    let found: Vec<_> = document.marks().collect();
    assert_eq!(found, [Mark::Glyph { font: 7, code: i32::from(b'a'), h: PT, v: 0, width: 10 * PT }]);
    assert_eq!((document.units().num, document.units().den, document.units().mag), (25_400_000, 473_628_672, 1000));
    let font = fonts(&dvi).unwrap().remove(0);
    assert_eq!((font.number, font.name.as_slice(), font.size, font.design_size, font.check_sum), (7, b"plain".as_slice(), 20 * PT, 10 * PT, 0x0123_4567));
    assert!(matches!(marks(&dvi, &[]), Err(Error::Refused(it)) if it.name == "NoFont"));
}

#[test]
fn replies_are_the_answers() {
    let fonts = [Font::new("none", b"no metrics")];
    for script in [REFUSED, BOXES, "kern 12px\n", "hbox\nend\ntexta\n", "kern \t\n", "char\n", "end end\n", "penalty x\n", "font 0 a/b at 5pt\n"] {
        let (texts, replied) = (run_text(script, &fonts).unwrap(), run(script, &fonts).unwrap());
        assert_eq!(replied.replies.iter().map(|it| format!("{it}\n")).collect::<String>(), texts.answers, "{script}");
        let parts = |it: Refusal| (it.line, it.number, it.name, it.detail); // texts have no commands
        assert_eq!(replied.refusals().cloned().map(parts).collect::<Vec<_>>(), texts.refusals().map(parts).collect::<Vec<_>>(), "{script}");
        assert_eq!((replied.accepted, &replied.dvi, replied.replies.len()), (texts.accepted, &texts.dvi, texts.answers.lines().count()), "{script}");
    }
}

#[test]
fn a_job_in_pieces_replies_as_one_run() {
    let (mut job, mut found) = (Job::new(&[]).unwrap(), Vec::new());
    for line in BOXES.lines() {
        found.extend(job.commands(line).unwrap().replies);
    }
    let refused = job.commands("kern 12px\n").unwrap().replies.remove(0);
    assert_eq!((refused.line, refused.answer.unwrap_err().to_string()), (Some(12), "refused 2 BadScript 12 Dimension: \"kern 12px\"".into()));
    found.push(job.finish().unwrap());
    assert_eq!(found, run(BOXES, &[]).unwrap().replies);
    assert!(matches!(job.finish().unwrap().answer, Err(it) if it.name == "JobOver"));
}
