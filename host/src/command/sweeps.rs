//! The sweeps of `bbhost bench`: the library beside a plain Rust evaluator of the same terms.
use super::{Failure, Status, bench::fastest, fill, grouped, progress::Progress};
use bitblast_host::{TERM_BYTES, VALUE_BYTES, jobs, plain::Plain, run_job, sweep_job};
use std::{hint::black_box, io::Write};

/// The rules and widths of the equalities that are swept: an adder and a product.
const SWEEPS: [(&str, u16, usize); 2] = [("sweep add4", 10, 4), ("sweep mult8", 11, 8)];

/// Measures each sweep with both; both read the job from its bytes.
pub fn measure_all(memory: &mut (Vec<u8>, Vec<u8>), out: &mut impl Write) -> Result<Status, Failure> {
    writeln!(
        out,
        "Sweeps, with exactly the work memory that the terms need, and with twice that. An evaluation is that of one term under one assignment. The\n\
         plain evaluator is Rust; it decodes the job once, where the library runs it."
    )?;
    writeln!(
        out,
        "{:<20}{:>12}{:>7}{:>18}{:>18}{:>18}{:>9}",
        "sweep", "assignments", "terms", "million/s, exact", "million/s, twice", "plain million/s", "ratio"
    )?;
    let mut status = Status::Fine;
    let mut progress = Progress::new();
    for (name, rule, width) in SWEEPS {
        progress.show(|| name.to_owned());
        if !measure(name, &jobs::right_claim(rule, width), memory, out)? {
            status = Status::Failed;
        }
        out.flush()?;
    }
    Ok(status)
}

/// Measures the sweep of a job's last term; whether both found the same, and exact room is not too slow.
fn measure(name: &str, job: &[u8], memory: &mut (Vec<u8>, Vec<u8>), out: &mut impl Write) -> Result<bool, Failure> {
    let terms = run_job(job, &mut memory.0, &mut memory.1).terms;
    let room = TERM_BYTES * (terms as usize - 2);
    let (mut work, mut values) = (vec![0; 2 * room], vec![0; VALUE_BYTES * terms as usize]);
    let number = terms - 1;
    let swept = sweep_job(job, &mut work, &mut memory.1, &mut values, number);
    let Some(mut program) = Plain::read(job).program(number as usize) else {
        writeln!(out, "{name:<20} NOT MEASURED, there is no term {number}")?;
        return Ok(false);
    };
    if (swept.code, (swept.assignments, swept.differing)) != (0, program.sweep()) {
        writeln!(out, "{name:<20} NOT MEASURED, the library and the plain evaluator differ: {swept:?}")?;
        return Ok(false);
    }
    let mut sweep = |room| {
        fastest(|| sweep_job(black_box(job), &mut work[..room], &mut memory.1, black_box(&mut values), number)).0
    };
    let (exact, library) = (sweep(room), sweep(2 * room));
    let (plain, _) =
        fastest(|| Plain::read(black_box(job)).program(number as usize).map(|mut program| program.sweep()));
    let millions = f64::from(swept.assignments) * program.terms() as f64 / 1e6;
    writeln!(
        out,
        "{name:<20}{:>12}{:>7}{:>18.1}{:>18.1}{:>18.1}{:>8.2}x",
        grouped(swept.assignments.into()),
        program.terms(),
        millions / exact,
        millions / library,
        millions / plain,
        plain / library
    )?;
    Ok(exact <= fill::MOST * library)
}
