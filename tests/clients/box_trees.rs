//! Compares the trees of boxes of bindings/rust with the marks of shipped pages, and their texts with those of TeX: box_trees DOCUMENTS METRICS BOXES PLAIN, where BOXES
//! is what tests/shown-boxes prints.

use boxglue::{marks, points, BoxView, Font, Item, Job, Mark, Sp};
use std::{env, fs};

/// What an item or a mark shows, from the reference point of the box.
#[derive(Debug, PartialEq)]
enum Shown<'t> {
    Glyph(i128, i128, i32, i32, i32),
    Rule(i128, i128, i32, i32),
    Special(i128, i128, &'t [u8]),
}

fn shown<'t>(item: Item<'t>) -> Option<Shown<'t>> {
    match item {
        Item::Glyph { at, sizes, slot, code } => Some(Shown::Glyph(at.x, at.y, slot as i32, code as i32, sizes.width)),
        Item::Rule { at, sizes, .. } if sizes.height + sizes.depth > 0 && sizes.width > 0 => Some(Shown::Rule(at.x, at.y, sizes.height + sizes.depth, sizes.width)),
        Item::Special { at, text } => Some(Shown::Special(at.x, at.y, text)),
        _ => None,
    }
}

fn shown_mark(mark: Mark<'_>, x: i32, y: i32) -> Shown<'_> {
    let place = |h, v| (i128::from(h) - i128::from(x), i128::from(v) - i128::from(y));
    match mark {
        Mark::Glyph { font, code, h, v, width } => Shown::Glyph(place(h, v).0, place(h, v).1, font, code, width),
        Mark::Rule { h, v, height, width } => Shown::Rule(place(h, v).0, place(h, v).1, height, width),
        Mark::Special { h, v, text } => Shown::Special(place(h, v).0, place(h, v).1, text),
        other => panic!("{other:?}"),
    }
}

/// Compares the boxes of the pages of a script with their marks. Returns how many pages and marks there are.
fn compared(script: &str, fonts: &[Font<'_>]) -> (usize, usize) {
    let (mut job, mut trees, mut x, mut y) = (Job::new(fonts).unwrap(), Vec::new(), 0, 0);
    for line in script.lines() {
        let words: Vec<_> = line.split(' ').collect();
        match words[..] {
            ["set", "hoffset", it] => x = it.parse::<Sp>().unwrap().0,
            ["set", "voffset", it] => y = it.parse::<Sp>().unwrap().0,
            _ => {}
        }
        let tree = if words[0] == "ship" { job.inspect(words[1].parse().unwrap()).unwrap() } else { None };
        let accepted = job.commands(line).unwrap().accepted;
        trees.extend(tree.filter(|_| accepted).map(|it| (it, x, y)));
    }
    if job.finish().unwrap().answer.is_err() || trees.is_empty() {
        return (0, 0);
    }
    let dvi = job.take().unwrap();
    let document = marks(&dvi, fonts).unwrap();
    assert_eq!(document.pages().len(), trees.len());
    for (page, (tree, x, y)) in document.pages().zip(&trees) {
        let found: Vec<_> = tree.root().walk().filter_map(shown).collect();
        let wanted: Vec<_> = page.marks().map(|it| shown_mark(it, *x, y + tree.root().sizes().height)).collect();
        assert_eq!(found, wanted);
    }
    let count = document.marks().len();
    (trees.len(), count)
}

fn documents(data: &str, fonts: &[Font<'_>]) {
    let (mut rest, mut count, mut pages, mut marks) = (data, 0, 0, 0);
    while let Some((line, after)) = rest.split_once('\n') {
        let (script, others) = after.split_at(line.split(' ').nth(1).unwrap().parse().unwrap());
        let (more_pages, more_marks) = compared(script, fonts);
        (rest, count, pages, marks) = (others, count + 1, pages + more_pages, marks + more_marks);
    }
    println!("{count} documents, {pages} pages, {marks} marks");
}

/// What a box says of itself, as tests/shown-boxes prints it.
fn said(page: BoxView<'_>) -> String {
    let dimension = |it: i64| points(it.try_into().unwrap());
    format!("badness {} natural {} overhang {}\n{page}", page.badness(), dimension(page.natural_size()), dimension(page.overhang()))
}

/// Compares boxes with what TeX says of them.
fn boxes(text: &str, plain: &[u8]) {
    let (head, rest) = text.trim_end().split_once('\n').unwrap();
    let digits = head.rsplit(' ').next().unwrap();
    let kerned: Vec<u8> = (0..digits.len()).step_by(2).map(|at| u8::from_str_radix(&digits[at..at + 2], 16).unwrap()).collect();
    let fonts = [Font::new("plain", plain), Font::new("kerned", &kerned)];
    let cases = rest.strip_prefix("case ").unwrap().split("\ncase ");
    println!("{} boxes", cases.clone().count());
    for case in cases {
        let (name, rest) = case.split_once('\n').unwrap();
        let (script, wanted) = rest.split_once("\nbadness ").unwrap();
        let mut job = Job::new(&fonts).unwrap();
        job.commands(format!("font 0 plain\nfont 7 kerned\nuse 0\n{script}\n")).unwrap().check().unwrap();
        assert_eq!(said(job.inspect(0).unwrap().unwrap().root()), format!("badness {wanted}"), "{name}");
    }
}

/// A paragraph of 4,000 words: the ends of its lines in the tree are those of the marks.
fn paragraph(plain: &[u8]) {
    let (fonts, mut number) = ([Font::new("plain", plain)], 4000_u64);
    let mut next = |most: u64| {
        number = number.wrapping_mul(6_364_136_223_846_793_005).wrapping_add(1_442_695_040_888_963_407);
        (number >> 33) % most
    };
    let words: Vec<String> = (0..4000).map(|_| (0..=next(10)).map(|_| char::from(b'a' + next(26) as u8)).collect()).collect();
    let mut job = Job::new(&fonts).unwrap();
    let text: String = words.chunks(100).map(|it| format!("text {} \n", it.join(" "))).collect();
    job.commands(format!("font 0 plain\nuse 0\nset hsize 300pt\nset firstsize 300pt\nvbox into 0\npar\n{text}end\nend\n")).unwrap().check().unwrap();
    let tree = job.inspect(0).unwrap().unwrap();
    job.commands("ship 0\n").unwrap().check().unwrap();
    job.finish().unwrap().answer.unwrap();
    let dvi = job.take().unwrap();
    let (document, height) = (marks(&dvi, &fonts).unwrap(), i128::from(tree.root().sizes().height));
    let mut wanted: Vec<(i128, i128)> = Vec::new();
    for mark in document.marks() {
        if let Mark::Glyph { h, v, width, .. } = mark {
            let (end, down) = (i128::from(h) + i128::from(width), i128::from(v) - height);
            match wanted.last_mut() {
                Some(last) if last.1 == down => last.0 = end,
                _ => wanted.push((end, down)),
            }
        }
    }
    let end = |it: Item<'_>| if let Item::Glyph { at, sizes, .. } = it { Some((at.x + i128::from(sizes.width), at.y)) } else { None };
    let found: Vec<_> = tree.root().lines().filter_map(|it| it.items().filter_map(end).last()).collect();
    assert_eq!(found, wanted);
    println!("{} words, more than 400 lines: {}", words.len(), found.len() > 400);
}

fn main() {
    let words: Vec<String> = env::args().collect();
    let (metrics, plain) = (fs::read(&words[2]).unwrap(), fs::read(&words[4]).unwrap());
    documents(&fs::read_to_string(&words[1]).unwrap(), &[Font::new("cmr10", &metrics)]);
    boxes(&fs::read_to_string(&words[3]).unwrap(), &plain);
    paragraph(&plain);
}
