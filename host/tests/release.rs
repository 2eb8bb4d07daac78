//! A release: its files, a C program that is built from them alone, and a build of this crate that links its archive in place of one that is
//! proved here.
use std::{
    env, fs,
    path::{Path, PathBuf},
    process::{Command, Output},
};

fn text(bytes: &[u8]) -> String {
    String::from_utf8_lossy(bytes).into_owned()
}

/// Writes a release into a new folder.
fn release() -> PathBuf {
    let folder = Path::new(env!("CARGO_TARGET_TMPDIR")).join("release");
    let _ = fs::remove_dir_all(&folder);
    let tool = Path::new(env!("CARGO_MANIFEST_DIR")).join("../tools/release");
    let done = Command::new(&tool).arg(&folder).output().unwrap();
    assert!(done.status.success(), "{}", text(&done.stderr));
    // A folder that is there is not written into.
    assert_eq!(Command::new(&tool).arg(&folder).output().unwrap().status.code(), Some(1));
    folder
}

/// Checks this crate with an archive, without a kit.
fn check(archive: &Path, sum: Option<&str>, target: Option<&str>) -> Output {
    let mut cargo = Command::new(env!("CARGO"));
    cargo.args(["check", "--offline", "--quiet", "--lib", "--manifest-path"]);
    cargo.arg(Path::new(env!("CARGO_MANIFEST_DIR")).join("Cargo.toml"));
    cargo.env("CARGO_TARGET_DIR", Path::new(env!("CARGO_TARGET_TMPDIR")).join("linked"));
    cargo.env("RT", "no-such-kit").env("BITBLAST_ARCHIVE", archive).env_remove("BITBLAST_SHA256");
    sum.map(|sum| cargo.env("BITBLAST_SHA256", sum));
    target.map(|target| cargo.args(["--target", target]));
    cargo.output().unwrap()
}

#[test]
fn a_release_is_all_that_a_host_needs() {
    let folder = release();
    let page = fs::read_to_string(folder.join("PROVED.txt")).unwrap();
    let line = |name: &str| page.lines().find_map(|line| line.strip_prefix(name)).unwrap_or_else(|| panic!("{page}"));
    let sum = line("sha256  ");
    assert!(sum.len() == 64 && line("kit     ").starts_with("rattle-kit") && !line("commit  ").is_empty(), "{page}");
    let interface = format!("interface {},", bitblast_host::INTERFACE);
    assert!(page.starts_with("libbitblast.a, version ") && page.contains(&interface), "{page}");

    // The flags are those of bitblast.pc.
    let description = fs::read_to_string(folder.join("lib/pkgconfig/bitblast.pc")).unwrap();
    for flags in ["Libs: -L${libdir} -lbitblast\n", "Cflags: -I${includedir}\n"] {
        assert!(description.contains(flags), "{description}");
    }
    let program = Path::new(env!("CARGO_TARGET_TMPDIR")).join("c_host_of_release");
    let compiled = Command::new(env::var("CC").unwrap_or_else(|_| "gcc".to_owned()))
        .arg(Path::new(env!("CARGO_MANIFEST_DIR")).join("tests/c_host.c"))
        .arg(format!("-I{}", folder.join("include").display()))
        .arg(format!("-L{}", folder.join("lib").display()))
        .args(["-lbitblast", "-o"])
        .arg(&program)
        .output()
        .unwrap();
    assert!(compiled.status.success(), "{}", text(&compiled.stderr));
    assert_eq!(Command::new(&program).output().unwrap().stdout, b"ok\n");

    let archive = folder.join("lib/libbitblast.a");
    let linked = check(&archive, Some(sum), None);
    assert!(linked.status.success(), "{}", text(&linked.stderr));
    let other = sum.replace(|c: char| c.is_ascii_digit(), "a");
    for (sum, why) in [(Some(&other[..]), "has the sha256"), (None, "BITBLAST_SHA256 must say its sha256")] {
        let refused = check(&archive, sum, None);
        assert!(!refused.status.success() && text(&refused.stderr).contains(why), "{}", text(&refused.stderr));
    }
}

/// A build for another target is told so by the build script, before a compiler for that target is asked for.
#[test]
fn other_targets_are_named() {
    let refused = check(Path::new("no-such-archive"), None, Some("aarch64-unknown-linux-gnu"));
    let why = "the library is compiled for x86-64 Linux, and this build is for aarch64 linux";
    assert!(!refused.status.success() && text(&refused.stderr).contains(why), "{}", text(&refused.stderr));
}
