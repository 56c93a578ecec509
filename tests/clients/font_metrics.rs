//! Prints the metrics of files at a size as lines, as bindings/c does: font_metrics SIZE FILE ..

use boxglue::{metrics, Error, FontMetrics, Sp, Step};
use std::{env, fs};

/// A number, or "unfit".
fn measure(value: Option<Sp>) -> String {
    value.map_or("unfit".into(), |it| it.0.to_string())
}

fn print_metrics(it: &FontMetrics) {
    let ((space, stretch, shrink), others) = (it.space(), [it.x_height(), it.quad(), it.extra_space()].map(measure));
    println!("status 0");
    println!("size {} {} check {} slant {} space {} {} {} {}", it.size().0, it.design_size().0, it.check_sum(), it.slant(), space.0, stretch.0, shrink.0, others.join(" "));
    for (code, its) in it.glyphs() {
        println!("glyph {code} {} {} {} {}", its.width.0, its.height.0, its.depth.0, measure(its.italic));
    }
    for (left, right, step) in it.steps() {
        assert_eq!(it.step(left, right), Some(step));
        match step {
            Step::Kern(width) => println!("kern {left} {right} {}", width.0),
            Step::Ligature(code) => println!("ligature {left} {right} {code}"),
            other => panic!("{other:?}"),
        }
    }
}

fn main() {
    let words: Vec<String> = env::args().collect();
    let size: i32 = words[1].parse().unwrap();
    for path in &words[2..] {
        match metrics(&fs::read(path).unwrap(), (size != 0).then_some(Sp(size))) {
            Ok(found) => print_metrics(&found),
            Err(Error::Refused(it)) => println!("status 1\n{it}"),
            Err(Error::OutOfRange) => println!("status 6"),
            Err(other) => panic!("{other}"),
        }
    }
}
