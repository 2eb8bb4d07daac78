//! Compiles the C program c_host.c with include/bitblast.h, links the archive and runs it.
use std::{collections::BTreeSet, env, path::Path, process::Command};

#[test]
fn c_program() {
    let here = Path::new(env!("CARGO_MANIFEST_DIR"));
    let program = Path::new(env!("CARGO_TARGET_TMPDIR")).join("c_host");
    let compiler = env::var("CC").unwrap_or_else(|_| "gcc".to_owned());
    let compiled = Command::new(&compiler)
        .args(["-std=c11", "-O1", "-Wall", "-Wextra", "-Werror", "-pedantic", "-I"])
        .arg(here.join("../include"))
        .arg(here.join("tests/c_host.c"))
        .arg(env!("BITBLAST_ARCHIVE"))
        .arg("-o")
        .arg(&program)
        .output()
        .unwrap_or_else(|error| panic!("cannot run {compiler}: {error}; name a C compiler in CC"));
    assert!(compiled.status.success(), "{}", String::from_utf8_lossy(&compiled.stderr));
    let run = Command::new(&program).output().unwrap();
    assert!(run.status.success() && run.stdout == b"ok\n", "{}", String::from_utf8_lossy(&run.stdout));
}

/// A program without a C library brings these two functions itself, and no other.
#[test]
fn names_from_outside() {
    let listed = Command::new("nm").arg("--undefined-only").arg(env!("BITBLAST_ARCHIVE")).output();
    let listed =
        listed.unwrap_or_else(|error| panic!("cannot run nm: {error}; it is part of binutils, as gcc's linker is"));
    assert!(listed.status.success(), "{}", String::from_utf8_lossy(&listed.stderr));
    let text = String::from_utf8(listed.stdout).unwrap();
    let names: BTreeSet<_> = text.lines().filter_map(|line| line.trim().strip_prefix("U ")).collect();
    assert_eq!(names, BTreeSet::from(["memcpy", "memset"]));
}
