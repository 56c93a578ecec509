//! Sets a page in the font cmtt10 by typed calls: page METRICS OUT. It prints the width of the page's box and the end of the job, and writes the DVI file to OUT.

use boxglue::{Font, Job, Parameter, Sp, Target};
use std::error::Error;
use std::{env, fs};

/// The DVI file of the page.
fn page(metrics: &[u8]) -> Result<Vec<u8>, boxglue::Error> {
    let mut job = Job::new(&[Font::new("cmtt10", metrics)])?;
    job.load(0, "cmtt10", None)?;
    job.use_font(0)?;
    job.set(Parameter::Hsize(Sp::points(200)))?;
    let mut list = job.vbox(0, Target::Natural)?;
    let mut paragraph = list.par()?;
    paragraph.text("Glue stretches and shrinks until the lines are as wide as hsize.")?;
    paragraph.end()?;
    println!("{} wide", Sp(list.end()?.sizes.width));
    job.ship(0)?;
    println!("end: {}", job.finish()?.answer?);
    job.take()
}

fn main() -> Result<(), Box<dyn Error>> {
    let words: Vec<String> = env::args().collect();
    let [_, metrics, out] = words.as_slice() else {
        return Err("usage: page METRICS OUT".into());
    };
    fs::write(out, page(&fs::read(metrics)?)?)?;
    Ok(())
}
