//! Jobs made from a seed: right and wrong claims of every rule, bad records of every kind, lent memory around what is needed.
mod alike;
mod asked;
mod chains;
mod claims;
mod derived;
mod equalities;
mod first;
mod large;
mod limits;
mod long;
mod maker;
mod over;
mod records;
mod slices;
mod terms;
pub mod texts;
mod wrong;

pub use asked::{Asked, asked_case};
pub use maker::Maker;

use crate::check::Summary;
use crate::format::Format;
use crate::job::{Lent, Limits, expect_text};
use crate::limited::Limited;
use crate::rule::STEP_RULES;
use crate::survey::Survey;
use std::fs::{self, File};
use std::io;
use std::path::Path;

pub struct Case {
    pub job: Vec<u8>,
    pub lent: Lent,
    /// For each step, whether its claim is right, where that is known.
    pub claims: Vec<Option<bool>>,
    /// What is asked of the final list.
    pub asked: Vec<Asked>,
    /// Limits under which the job is to be run too.
    pub under: Vec<Limits>,
}

impl Case {
    /// The job of a maker, with the memory that it needs.
    fn of(maker: &mut Maker) -> Self {
        let (row, answer) = (maker.format.row, maker.format.answer);
        let lent = Lent { work: row * (maker.peak - 2), room: answer * maker.claims.len() };
        let (job, claims) = (std::mem::take(&mut maker.bytes), std::mem::take(&mut maker.claims));
        Case { job, lent, claims, asked: Vec::new(), under: Vec::new() }
    }

    /// The text of the .expect file.
    pub fn text(&self) -> String {
        let asked = self.asked.iter().map(|asked| asked.question.text() + &asked.answer.text());
        let under = self.under.iter().map(|&limits| self.limited(limits).text(limits));
        expect_text(&self.job, self.lent) + &asked.chain(under).collect::<String>()
    }

    /// What the job comes to under limits.
    pub fn limited(&self, limits: Limits) -> Limited {
        Limited::of(&self.job, self.lent, limits)
    }
}

/// More terms than most jobs keep.
const MANY: usize = 1_000;

/// Of so many cases in a hundred the numbers have four bytes.
const IN_FOUR_BYTES: usize = 45;

/// Case number `i` of a seed: the large ones first, then the others in turns.
pub fn case(seed: u64, i: usize) -> Case {
    let mut maker = Maker::new(seed.wrapping_mul(1_000_003).wrapping_add(i as u64));
    let Some(i) = i.checked_sub(large::COUNT) else {
        return large::case(&mut maker, i);
    };
    let Some(i) = i.checked_sub(long::COUNT) else {
        return long::case(&mut maker, i);
    };
    if maker.rng.chance(IN_FOUR_BYTES) {
        maker.in_four_bytes();
    }
    let rule = (i / 5) as u16 % STEP_RULES + 1;
    match i % 5 {
        0 => maker.claims_of(rule),
        1 => maker.mixture(),
        2 if maker.rng.chance(15) => maker.first_records(),
        2 => maker.stopped(),
        3 => maker.chains(),
        _ => maker.small_steps(rule),
    }
    let mut case = Case::of(&mut maker);
    if i % 5 == 4 || maker.rng.chance(15) {
        lend_around(&mut maker, &mut case);
    } else {
        case.lent.work += maker.rng.below(40);
        case.lent.room += maker.rng.below(40);
    }
    if maker.rng.chance(8) {
        damage(&mut maker, &mut case);
    }
    case.under = maker.limits(&case);
    case
}

/// Lends a little more or less than is needed.
fn lend_around(maker: &mut Maker, case: &mut Case) {
    let (Format { row, answer, .. }, rng) = (maker.format, &mut maker.rng);
    let mut around = |need: usize, unit: usize| match rng.below(8) {
        0 => rng.below(2 * unit),
        1 => need,
        2..=4 => (need + rng.below(2 * unit + 1)).saturating_sub(unit),
        5 => rng.below(need + 1),
        _ => need + unit,
    };
    case.lent = Lent { work: around(case.lent.work, row), room: around(case.lent.room, answer) };
}

/// Changes some bytes of a job, or cuts it; what its claims are is not known then.
fn damage(maker: &mut Maker, case: &mut Case) {
    case.claims.clear();
    if case.job.is_empty() {
        return;
    }
    let rng = &mut maker.rng;
    let at = rng.below(case.job.len());
    match rng.below(4) {
        0 => case.job.truncate(at),
        1 => drop(case.job.remove(at)),
        2 => case.job[at] ^= 1 << rng.below(8),
        _ => case.job[at] = rng.below(26) as u8,
    }
}

/// Writes cases NNNNN.job and NNNNN.expect and summary.txt.
pub fn write_all(seed: u64, count: usize, folder: &Path) -> io::Result<Summary> {
    fs::create_dir_all(folder)?;
    let mut summary = Summary::default();
    for i in 0..count {
        let case = case(seed, i);
        write(&case, i, folder)?;
        summary.look(i, &case);
    }
    fs::write(folder.join("summary.txt"), summary.text())?;
    Ok(summary)
}

/// The same for cases with questions.
pub fn write_asked(seed: u64, count: usize, folder: &Path) -> io::Result<Survey> {
    fs::create_dir_all(folder)?;
    let mut survey = Survey::default();
    for i in 0..count {
        let case = asked_case(seed, i);
        write(&case, i, folder)?;
        survey.look(i, &case);
    }
    fs::write(folder.join("summary.txt"), survey.text())?;
    Ok(survey)
}

fn write(case: &Case, i: usize, folder: &Path) -> io::Result<()> {
    let path = folder.join(format!("{i:05}.job"));
    if case.job.iter().all(|&byte| byte == 0) {
        // The longest jobs are zeros, which a sparse file holds in no space.
        File::create(&path)?.set_len(case.job.len() as u64)?;
    } else {
        fs::write(&path, &case.job)?;
    }
    fs::write(path.with_extension("expect"), case.text())
}
