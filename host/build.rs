//! Asks `rt` for the static library of the crate `bitblast_c`, or takes one that was proved elsewhere, and links a copy of it.
use std::{
    env,
    fs::{self, File},
    path::{Path, PathBuf},
    process::{Command, exit},
};

const LIBRARY: &str = "bitblast";

/// The crate that exports the library. `rt` names the archive after it.
const CRATE: &str = "bitblast_c";

/// The archive to link in place of one that is proved here, and its checksum.
const ARCHIVE: &str = "BITBLAST_ARCHIVE";
const CHECKSUM: &str = "BITBLAST_SHA256";

fn main() {
    for variable in ["RT", ARCHIVE, CHECKSUM] {
        println!("cargo::rerun-if-env-changed={variable}");
    }
    look_at_target();
    // The copy is this build's own: what another build makes later does not change what this one links.
    let out = folder("OUT_DIR");
    let copy = out.join(format!("lib{LIBRARY}.a"));
    let origin = match env::var_os(ARCHIVE) {
        Some(archive) => take(Path::new(&archive), &copy),
        None => prove(&copy),
    };
    println!("cargo::rustc-link-search=native={}", out.display());
    println!("cargo::rustc-link-lib=static={LIBRARY}");
    // For the test that links the archive into a C program, and for `bbhost --version`.
    println!("cargo::rustc-env=BITBLAST_ARCHIVE={}", copy.display());
    println!("cargo::rustc-env=BITBLAST_ORIGIN={origin}");
}

/// The archive is for one target: another linker would only say that it cannot read it.
fn look_at_target() {
    let part = |variable: &str| env::var(variable).unwrap_or_default();
    let (machine, system) = (part("CARGO_CFG_TARGET_ARCH"), part("CARGO_CFG_TARGET_OS"));
    if (machine.as_str(), system.as_str()) != ("x86_64", "linux") {
        fail(&format!("the library is compiled for x86-64 Linux, and this build is for {machine} {system}"));
    }
}

/// Takes an archive that was proved elsewhere, where it has the checksum of its release; says what is linked.
fn take(archive: &Path, copy: &Path) -> String {
    println!("cargo::rerun-if-changed={}", archive.display());
    let Some(wanted) = env::var(CHECKSUM).ok().map(|sum| sum.trim().to_ascii_lowercase()) else {
        fail(&format!("{ARCHIVE} names an archive: {CHECKSUM} must say its sha256, as PROVED.txt of a release does"));
    };
    copy_archive(archive, copy);
    let found = checksum(copy);
    if found != wanted {
        fail(&format!("{} has the sha256 {found}, not {wanted} as {CHECKSUM} says", archive.display()));
    }
    format!("with the archive of sha256 {found}")
}

/// The sha256 of a file, in hex.
fn checksum(file: &Path) -> String {
    match Command::new("sha256sum").arg(file).output() {
        Ok(done) if done.status.success() => {
            String::from_utf8_lossy(&done.stdout).split_whitespace().next().unwrap_or_default().to_owned()
        }
        Ok(done) => fail(&format!("sha256sum failed: {}", String::from_utf8_lossy(&done.stderr).trim())),
        Err(error) => fail(&format!("cannot run sha256sum: {error}")),
    }
}

fn copy_archive(archive: &Path, copy: &Path) {
    if let Err(error) = fs::copy(archive, copy) {
        fail(&format!("cannot copy {} to {}: {error}", archive.display(), copy.display()));
    }
}

/// Has the library proved and built from the source as it stands; says what is linked.
fn prove(copy: &Path) -> String {
    let here = folder("CARGO_MANIFEST_DIR");
    let root = here.parent().unwrap_or_else(|| fail("this crate must stand in the repository, as host/"));
    // Asked again where a source of the library or the list of its crates changed since.
    for path in [root.join("crates.txt"), here.join("build.rs")].into_iter().chain(sources(&root.join("crates"))) {
        println!("cargo::rerun-if-changed={}", path.display());
    }
    let lock = lock(&here.join("target"));
    copy_archive(&build(&root.join("crates").join(CRATE)), copy);
    drop(lock);
    format!("proved with {}", kit())
}

/// The folders of the crates' sources: what `rt` makes, in a folder of each crate, is none.
fn sources(crates: &Path) -> Vec<PathBuf> {
    let entries =
        fs::read_dir(crates).unwrap_or_else(|error| fail(&format!("cannot read {}: {error}", crates.display())));
    let folders = entries.filter_map(|entry| Some(entry.ok()?.path()));
    let parts = folders.flat_map(|folder| ["src", "specs", "proofs"].map(|part| folder.join(part)));
    parts.filter(|part| part.is_dir()).collect()
}

/// The kit that proved the library, as `rt version` names it.
fn kit() -> String {
    match Command::new(rt()).arg("version").output() {
        Ok(done) if done.status.success() => {
            String::from_utf8_lossy(&done.stdout).lines().next().unwrap_or("unknown").to_owned()
        }
        _ => "unknown".to_owned(),
    }
}

/// The command that proves.
fn rt() -> PathBuf {
    env::var_os("RT").unwrap_or_else(|| "rt".into()).into()
}

/// A folder that cargo names in the environment.
fn folder(variable: &str) -> PathBuf {
    PathBuf::from(env::var_os(variable).unwrap_or_else(|| fail(&format!("cargo sets no {variable}"))))
}

/// Waits until no other build has the lock: each makes the archive anew in one place.
fn lock(target: &Path) -> File {
    let path = target.join("host.lock");
    let locked = fs::create_dir_all(target).and_then(|()| File::create(&path)).and_then(|file| {
        file.lock()?;
        Ok(file)
    });
    locked.unwrap_or_else(|error| fail(&format!("cannot lock {}: {error}", path.display())))
}

/// Runs `rt` in the folder of the crate, and gives the archive's path.
fn build(folder: &Path) -> PathBuf {
    let rt = rt();
    let archive = folder.join("out").join(format!("lib{CRATE}.a"));
    match Command::new(&rt).arg("lib").current_dir(folder).output() {
        Err(error) => fail(&format!(
            "cannot run {}: {error}. It proves and builds the library; put it on the PATH, or name it in the environment variable RT. Without \
             it, {ARCHIVE} and {CHECKSUM} may name an archive that was proved elsewhere.",
            rt.display()
        )),
        Ok(done) if !done.status.success() => fail(&format!(
            "`{} lib` failed in {}: {}\n{}{}",
            rt.display(),
            folder.display(),
            done.status,
            String::from_utf8_lossy(&done.stdout),
            String::from_utf8_lossy(&done.stderr)
        )),
        Ok(_) if !archive.is_file() => {
            fail(&format!("`{} lib` ended well but wrote no {}", rt.display(), archive.display()))
        }
        Ok(_) => archive,
    }
}

fn fail(why: &str) -> ! {
    eprintln!("bitblast_host: {why}");
    exit(1)
}
