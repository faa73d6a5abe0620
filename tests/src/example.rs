//! The example in the binding's documentation, built beside this program: it prints what stands below it there.

use crate::c::printed;
use crate::report::Report;
use std::process::Command;

pub fn compare(report: &mut Report) {
    let own = std::env::current_exe().expect("the path of this program");
    let got = printed(&mut Command::new(own.with_file_name("twin")));
    let want = include_str!("../../bindings/rust/examples/twin.txt");
    report.lines("the binding's example", &got, want);
}
