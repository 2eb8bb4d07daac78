//! Finds the original's files below the folder that CARCARA_SRC names, and writes the `mod` items that compile them in place.
//! Without CARCARA_SRC the crate is built without the original, and its commands and tests say that they are skipped.
use std::{
    env, fs,
    path::{Path, PathBuf},
    process::exit,
};

fn main() {
    println!("cargo::rustc-check-cfg=cfg(original)");
    println!("cargo::rerun-if-env-changed=CARCARA_SRC");
    let Some(folder) = env::var_os("CARCARA_SRC").filter(|folder| !folder.is_empty()) else {
        return;
    };
    let folder = fs::canonicalize(&folder).unwrap_or_else(|error| {
        fail(&format!("CARCARA_SRC names {}: {error}", Path::new(&folder).display()));
    });
    let module = |name: &str, file: &str| {
        let path = folder.join(file);
        if !path.is_file() {
            fail(&format!("CARCARA_SRC names {}, which has no {file}", folder.display()));
        }
        println!("cargo::rerun-if-changed={}", path.display());
        format!("#[path = {:?}]\n#[allow(unused, dead_code)]\npub(crate) mod {name};\n", path.display().to_string())
    };
    let ast = module("macros", "src/ast/macros.rs") + &module("term", "src/ast/term.rs");
    let rules = module("bitvectors", "src/checker/rules/bitvectors.rs");
    let out = PathBuf::from(env::var_os("OUT_DIR").expect("cargo sets OUT_DIR"));
    for (file, text) in [("original_ast.rs", ast), ("original_rules.rs", rules)] {
        fs::write(out.join(file), text).unwrap_or_else(|error| fail(&format!("{file}: {error}")));
    }
    println!("cargo::rustc-cfg=original");
}

fn fail(why: &str) -> ! {
    eprintln!("oracle: {why}");
    exit(1)
}
