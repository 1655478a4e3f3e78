//! Where the script `bench` put the archive and the compiled hard.c.
fn main() {
    println!("cargo:rerun-if-env-changed=BENCH_MADE");
    let made = std::env::var("BENCH_MADE").expect("BENCH_MADE: run oracle/bench");
    println!("cargo:rerun-if-changed={made}/libmalstrink.a");
    println!("cargo:rerun-if-changed={made}/libhard.a");
    println!("cargo:rustc-link-search=native={made}");
    println!("cargo:rustc-link-lib=static=hard");
}
