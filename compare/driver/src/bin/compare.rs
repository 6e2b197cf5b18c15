//! Drives the reference and the index side by side.
//!
//!     compare            the full run
//!     compare --small    under a minute
//!     compare --sample   prints a sample of the reference's answers

use driver::checks::{self, FULL, SMALL};
use driver::report::Report;

fn main() {
    let size = match std::env::args().nth(1).as_deref() {
        None => FULL,
        Some("--small") => SMALL,
        Some("--sample") => return driver::sample::print(),
        Some(other) => {
            eprintln!("unknown argument {other}; known: --small, --sample");
            std::process::exit(2);
        }
    };
    let mut report = Report::default();
    checks::numbers::run(size, &mut report);
    checks::rows::run(size, &mut report);
    checks::editions::run(size, &mut report);
    checks::keys::run(size, &mut report);
    checks::addresses::run(size, &mut report);
    checks::balances::run(size, &mut report);
    checks::undo::run(size, &mut report);
    checks::buffers::run(size, &mut report);
    checks::histories::run(size, &mut report);
    if !report.end() {
        std::process::exit(1);
    }
}
