//! Times the typed calls beside the same commands as a text that is made by `write!`: the least of some rounds, in microseconds a command.
use boxglue::{Error, Job, Sp, Target};
use std::fmt::Write;
use std::time::Instant;

const PAIRS: i32 = 2000;
const ROUNDS: usize = 200;

fn by_calls(job: &mut Job) -> Result<(), Error> {
    let mut list = job.hbox(0, Target::Natural)?;
    for at in 0..PAIRS {
        list.rule(Sp(65_536 + at), Some(Sp(65_536)), Some(Sp::ZERO))?;
        list.kern(Sp(-at))?;
    }
    list.end()?;
    Ok(())
}

fn by_text(job: &mut Job) -> Result<(), Error> {
    let mut text = String::from("hbox into 0\n");
    for at in 0..PAIRS {
        write!(text, "rule {}sp 65536sp 0sp\nkern {}sp\n", 65_536 + at, -at).expect("a String takes it");
    }
    text += "end\n";
    job.commands(text)?.check()?;
    Ok(())
}

fn least(job: &mut Job, run: fn(&mut Job) -> Result<(), Error>) -> Result<f64, Error> {
    let mut found = f64::MAX;
    for _ in 0..ROUNDS {
        let began = Instant::now();
        run(job)?;
        found = found.min(began.elapsed().as_secs_f64());
    }
    Ok(found / f64::from(2 * PAIRS + 2) * 1e6)
}

fn main() -> Result<(), Error> {
    let mut job = Job::new(&[])?;
    println!("Rust\t{:.3}\t{:.3}", least(&mut job, by_calls)?, least(&mut job, by_text)?);
    Ok(())
}
