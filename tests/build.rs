use std::env;
use std::path::PathBuf;

const LIBRARIES: [&str; 2] = ["player", "paper"];

fn main() {
    println!("cargo:rerun-if-changed=build.rs");
    println!("cargo:rerun-if-env-changed=PLAYER_LIB_DIR");

    let package = PathBuf::from(env::var_os("CARGO_MANIFEST_DIR").expect("set by cargo"));
    let directory = match env::var_os("PLAYER_LIB_DIR") {
        Some(given) => PathBuf::from(given),
        None => package.join("../target/staticlib"),
    };
    println!("cargo:rustc-env=LIBRARIES_DIR={}", directory.display());
    println!("cargo:rustc-link-search=native={}", directory.display());
    for library in LIBRARIES {
        let archive = directory.join(format!("lib{library}.a"));
        println!("cargo:rerun-if-changed={}", archive.display());
        println!("cargo:rustc-link-lib=static={library}");
    }
}
