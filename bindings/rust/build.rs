//! Links `librummymaple.a`: from the folder that RUMMYMAPLE_LIB names, as seen from where cargo was called,
//! or else from where `tools/release --library .` and `rt lib` put it in this repository.

use std::{env, path::PathBuf, process::exit};

/// The folders that may have it, the first one first.
fn folders() -> Vec<PathBuf> {
    let top = PathBuf::from(env::var_os("CARGO_MANIFEST_DIR").expect("set by cargo")).join("../..");
    match env::var_os("RUMMYMAPLE_LIB") {
        Some(named) => {
            let called_in = env::var_os("PWD").map(PathBuf::from).unwrap_or_default();
            vec![called_in.join(&named), top.join(named)]
        }
        None => vec![top.clone(), top.join("crates/rummymaple/out")],
    }
}

fn main() {
    println!("cargo:rerun-if-env-changed=RUMMYMAPLE_LIB");
    for folder in folders() {
        println!("cargo:rerun-if-changed={}", folder.join("librummymaple.a").display());
    }
    let Some(folder) = folders().into_iter().find(|folder| folder.join("librummymaple.a").is_file()) else {
        eprintln!("librummymaple.a is in none of these folders:");
        folders().iter().for_each(|folder| eprintln!("    {}", folder.display()));
        eprintln!("`tools/release --library .` unpacks it at the top of the repository, and RUMMYMAPLE_LIB");
        eprintln!("names another folder.");
        exit(1);
    };
    println!("cargo:rustc-link-search=native={}", folder.display());
    println!("cargo:rustc-link-lib=static=rummymaple");
}
