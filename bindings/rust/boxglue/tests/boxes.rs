//! The tree of a box.
use boxglue::{Answer, BoxKind, Error, GlueSetting, Item, Job, Order, Place, Sp, Stretch};

fn job(script: &str) -> Job {
    let mut job = Job::new(&[]).unwrap();
    job.commands(script).unwrap().check().unwrap();
    job
}

#[test]
fn items_of_a_vbox() {
    let script = "vbox to 30pt into 5\nrule * 1pt 0.5pt\nglue 2pt plus 1fill minus 3pt\nhbox into 6\nkern 3pt\nspecial a b\npenalty -7\nrule 1pt * 2pt\nend\nbox 6 shift 4pt\nend\n";
    let tree = job(script).inspect(5).unwrap().unwrap();
    let page = tree.root();
    assert_eq!(
        (page.kind(), page.place(), page.shift(), page.sizes().height, page.sizes().depth),
        (BoxKind::Vertical, Place::default(), Sp::ZERO, 30 << 16, 2 << 16)
    );
    let half = (1 << 16) + (1 << 15);
    let top = i128::from(half) - (30 << 16);
    let [rule, glue, Item::Box(inner)] = page.items().collect::<Vec<_>>()[..] else { panic!("other items") };
    assert!(matches!(rule, Item::Rule { at: Place { x: 0, .. }, running, sizes } if running.width && !running.height && sizes.width == page.sizes().width));
    assert_eq!((rule.place().y, glue.place()), (top, Place { x: 0, y: top }));
    let Item::Glue { glue, set_width, .. } = glue else { panic!("no glue") };
    assert_eq!((glue.width, glue.plus, glue.minus), (Sp::points(2), Stretch::Fill(Sp::points(1)), Stretch::Finite(Sp::points(3))));
    assert_eq!(set_width, (30 << 16) - i128::from(half));
    let GlueSetting::Stretching { order: Order::Fill, num, den } = page.setting() else { panic!("another setting") };
    assert_eq!(i128::from(num) * 65_536, (set_width - (2 << 16)) * i128::from(den));
    assert_eq!((inner.place(), inner.shift(), inner.setting()), (Place { x: 4 << 16, y: 0 }, Sp::points(4), GlueSetting::Natural));
    let [kern, special, penalty, rule] = inner.items().collect::<Vec<_>>()[..] else { panic!("other items") };
    assert!(matches!(kern, Item::Kern { width, is_from_font: false, .. } if width == Sp::points(3)));
    assert!(matches!(special, Item::Special { at: Place { x: 458_752, y: 0 }, text: b"a b" }));
    assert!(matches!(penalty, Item::Penalty { penalty: -7, .. }));
    assert!(matches!(rule, Item::Rule { running, .. } if running.height && !running.width && !running.depth));
    assert_eq!(page.walk().len(), 7);
    assert_eq!(page.lines().count(), 1);
    assert_eq!(inner.lines().count(), 0);
}

#[test]
fn registers_without_a_box() {
    let mut job = job("hbox into 3\nend\n");
    assert!(job.inspect(7).unwrap().is_none());
    assert!(matches!(job.inspect(32_768), Err(Error::OutOfRange)));
    let tree = job.inspect(3).unwrap().unwrap();
    assert_eq!((tree.root().items().count(), tree.root().walk().count(), tree.root().badness()), (0, 0, 0));
    job.commands("void 3\n").unwrap().check().unwrap();
    assert_eq!(tree.to_string(), "\\hbox(0.0+0.0)x0.0");
}

#[test]
fn more_items_than_the_first_room() {
    let text = "x".repeat(60_000);
    let script = format!("hbox into 0\n{}special {text}\nend\n", "kern 1sp\n".repeat(1000));
    let tree = job(&script).inspect(0).unwrap().unwrap();
    assert_eq!((tree.root().items().count(), tree.root().natural_size()), (1001, 1000));
    assert!(matches!(tree.root().items().last(), Some(Item::Special { text: its, .. }) if its == text.as_bytes()));
}

/// Glue that balances but for one scaled point: each scaled point of stretch is set to the width of the box.
#[test]
fn places_beyond_64_bits() {
    let (amount, count) = (16_383_i64 << 16, 3000);
    let script =
        format!("hbox to 1000pt into 0\n{}glue 0pt plus 1sp\n{}end\n", "glue 0pt plus 16383pt\n".repeat(count), "glue 0pt plus -16383pt\n".repeat(count));
    let tree = job(&script).inspect(0).unwrap().unwrap();
    let places: Vec<_> = tree.root().items().map(|it| it.place().x).collect();
    assert_eq!(places[count], (count as i128 * i128::from(amount)) * (1000 << 16));
    assert_eq!(places[2 * count], i128::from(amount + 1) * (1000 << 16));
    assert!(places[count] > 1 << 63);
}

#[test]
fn sizes_of_replies() {
    for (glue, badness, overhang) in
        [("9pt minus 1.5pt", 1_000_000, 163_840), ("9pt minus 4pt", 100, 0), ("1pt plus 1fil", 0, 0), ("9pt minus 1fil", 0, 0), ("4pt plus 1pt", 100, 0)]
    {
        let mut job = Job::new(&[]).unwrap();
        let replies = job.commands(format!("hbox to 5pt into 0\nglue {glue}\nend\n")).unwrap().check().unwrap().replies;
        let tree = job.inspect(0).unwrap().unwrap();
        assert!(matches!(replies[2].answer, Ok(Answer::Packed { badness: its, .. }) if its == badness), "{glue}");
        assert_eq!((tree.root().badness(), tree.root().overhang()), (badness, overhang), "{glue}");
    }
}

/// As `\showboxdepth` and `\showboxbreadth` of TeX.
#[test]
fn depth_and_breadth() {
    let tree = job("vbox into 0\nhbox\nkern 1pt\nkern 2pt\nkern 3pt\nend\nhbox\nend\nend\n").inspect(0).unwrap().unwrap();
    let (head, inner) = ("\\vbox(12.0+0.0)x6.0", ".\\hbox(0.0+0.0)x6.0");
    assert_eq!(tree.root().show(Some(0), None), format!("{head} []"));
    assert_eq!(tree.root().show(Some(1), Some(2)), format!("{head}\n{inner} []\n.\\glue 12.0\n.etc."));
    assert_eq!(tree.root().show(None, Some(1)), format!("{head}\n{inner}\n..\\kern 1.0\n..etc.\n.etc."));
}
