//! timing WHAT [PART]: times the proved calls beside the Rust and OpenSSL, and prints the tables. WHAT says what the proved side is.
//! An answer is compared with the Rust's before it is timed. With PART, only the rows that have it in their names; with `lengths`,
//! only the ratios of short frames of every length.
mod clock;
mod openssl;
mod ours;
#[expect(dead_code, reason = "it also has the records of calls that are not timed")]
#[path = "../../../bindings/rust/src/records.rs"]
mod records;
mod rows;
mod sealed;
mod table;

use std::process::Command;

fn main() {
    let what = std::env::args().nth(1).unwrap_or_default();
    if what == "openssl" {
        for (name, ns) in openssl::rows() {
            println!("{name}\t{ns}");
        }
        return;
    }
    let child = |without: bool| {
        let mut c = Command::new(std::env::current_exe().unwrap());
        c.arg("openssl").env_remove(openssl::WITHOUT.0);
        if without {
            c.env(openssl::WITHOUT.0, openssl::WITHOUT.1);
        }
        let said = c.output().expect("itself, for OpenSSL");
        assert!(said.status.success(), "OpenSSL's side failed: {}", String::from_utf8_lossy(&said.stderr));
        table::read(&String::from_utf8(said.stdout).unwrap())
    };
    let part = std::env::args().nth(2).unwrap_or_default();
    println!("Proved side: {what}. Best of {} rounds.\n", clock::ROUNDS);
    if part == "lengths" {
        table::print_lengths(&rows::every_length(128));
        return;
    }
    let rows = rows::beside(&part);
    if rows.is_empty() {
        eprintln!("no row has '{part}' in its name");
        std::process::exit(2);
    }
    table::print(&rows, &child(true), &child(false));
    if part.is_empty() {
        println!();
        table::print_growth(&rows::GROWING, &rows::growth());
        println!();
        table::print_lengths(&rows::every_length(128));
    }
}
