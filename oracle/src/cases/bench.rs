//! Jobs to measure.
use crate::ast::Operator;
use crate::maker::Maker;
use std::path::Path;

/// Jobs for measuring: one right claim each over two variables, and a run of many small steps.
pub fn bench_jobs(dir: &Path) -> std::io::Result<()> {
    std::fs::create_dir_all(dir)?;
    for (name, rule, w) in [
        ("add64", 10, 64),
        ("ult64", 8, 64),
        ("neg64", 12, 64),
        ("shl64", 18, 64),
        ("ashr64", 20, 64),
        ("mult8", 11, 8),
        ("mult16", 11, 16),
        ("mult32", 11, 32),
        ("mult64", 11, 64),
        ("udiv8", 21, 8),
        ("udiv16", 21, 16),
        ("udiv32", 21, 32),
        ("udiv64", 21, 64),
        ("urem64", 22, 64),
    ] {
        let mut m = Maker::new(1);
        let left = m.left(rule, w, true);
        let right = m.expected(rule, &left);
        m.claim(rule, &left, &right);
        std::fs::write(dir.join(format!("{}.job", name)), &m.bytes)?;
    }
    // below bbcheck's 64 KiB: steps of all rules with backs between, then one step again and again
    for seed in 2.. {
        let mut m = Maker::new(seed);
        while m.bytes.len() < 45_000 {
            m.some_claim();
            if m.list.len() > 2_000 {
                m.back(2);
            }
        }
        let (x, y) = (m.var(64, 0), m.var(64, 1));
        let left = m.op2(Operator::BvAdd, &x, &y);
        let right = m.expected(10, &left);
        for _ in 0..20 {
            m.claim(10, &left, &right);
        }
        if m.bytes.len() <= 65_536 {
            return std::fs::write(dir.join("mixed64k.job"), &m.bytes);
        }
    }
    Ok(())
}
