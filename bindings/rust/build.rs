//! Finds the archive and has it linked; where it is not, says in one line what to do, and fails.
use std::env;
use std::path::PathBuf;
use std::process::exit;

/// The archive: its name to the linker, where it stands in the repository, in a directory for each processor, and what makes it.
const LIBRARY: &str = "malstrink";
const DIRECTORY: &str = "../../target/archive";
const PROCESSORS: [&str; 2] = ["x86_64", "aarch64"];
const COMMAND: &str = "include/archive";

fn main() {
    println!("cargo:rerun-if-env-changed=MALSTRINK_LIB_DIR");
    let arch = env::var("CARGO_CFG_TARGET_ARCH").unwrap_or_default();
    let dir = match env::var("MALSTRINK_LIB_DIR") {
        // to check, without linking
        Ok(dir) if dir == "none" => return,
        // a relative one is meant from here, the crate's directory; in full, since cargo's user stands elsewhere
        Ok(dir) => PathBuf::from(env!("CARGO_MANIFEST_DIR")).join(dir),
        Err(_) => PathBuf::from(env!("CARGO_MANIFEST_DIR")).join(DIRECTORY).join(&arch),
    };
    let archive = dir.join(format!("lib{LIBRARY}.a"));
    // also where it is not: once it is written, this script runs again
    println!("cargo:rerun-if-changed={}", archive.display());
    if !PROCESSORS.contains(&arch.as_str()) {
        fail(&format!(
            "the archive is for x86-64 and aarch64, and this build is for {arch}; MALSTRINK_LIB_DIR=none only checks"
        ));
    }
    if !archive.is_file() {
        let way = format!("run `{COMMAND}` in the repository, or name the archive's directory in MALSTRINK_LIB_DIR");
        fail(&format!("there is no archive {}; {way}", archive.display()));
    }
    println!("cargo:rustc-link-search=native={}", dir.display());
    println!("cargo:rustc-link-lib=static={LIBRARY}");
}

fn fail(why: &str) -> ! {
    eprintln!("malstrink: {why}");
    exit(1)
}
