//! `tools/alethe.py` on a proof that cvc5 1.0.3 printed for examples/problem.smt2.
use std::{
    fs,
    path::{Path, PathBuf},
    process::Command,
};

fn root() -> PathBuf {
    Path::new(env!("CARGO_MANIFEST_DIR")).join("..")
}

/// The exit status and the output for a proof.
fn checked(name: &str, proof: &str) -> (Option<i32>, String) {
    let file = Path::new(env!("CARGO_TARGET_TMPDIR")).join(name);
    fs::write(&file, proof).unwrap();
    let done = Command::new("python3")
        .arg(root().join("tools/alethe.py"))
        .arg(root().join("examples/problem.smt2"))
        .arg("--proof")
        .arg(&file)
        .env("BBHOST", env!("CARGO_BIN_EXE_bbhost"))
        .output()
        .unwrap();
    (done.status.code(), String::from_utf8_lossy(&done.stdout).into_owned() + &String::from_utf8_lossy(&done.stderr))
}

#[test]
fn steps_of_a_solver() {
    let proof = fs::read_to_string(root().join("examples/problem.proof")).unwrap();
    let (status, text) = checked("right.proof", &proof);
    assert_eq!(status, Some(0), "{text}");
    assert!(text.contains("  9 bit-blasting steps: 8 held, 1 held with nested operations as one\n"), "{text}");
    assert!(text.contains(" other steps, which are not looked at: ") && text.ends_with("\ns HELD\n"), "{text}");

    // Another circuit of bvult, a rule that no job has, and a proof without such a step.
    let bvult = proof.lines().find(|line| line.contains("bv_bitblast_step_bvult")).unwrap();
    let wrong = proof.replace(bvult, &bvult.replacen("(and (not ", "(or (not ", 1));
    let (status, text) = checked("wrong.proof", &wrong);
    assert!(
        status == Some(1) && text.contains("bv_bitblast_step_bvult: refused: ") && text.ends_with("\ns NOT HELD\n"),
        "{text}"
    );
    let (status, text) = checked("unknown.proof", &proof.replace("step_bvult", "step_bvusubo"));
    assert!(
        status == Some(1) && text.contains("not checked, since no job can hold it: bv_bitblast_step_bvusubo"),
        "{text}"
    );
    let (status, text) = checked("none.proof", "(error \"unordered_map::at\")\n");
    assert!(status == Some(1) && text.contains("  0 bit-blasting steps: none in a job\n"), "{text}");
}
