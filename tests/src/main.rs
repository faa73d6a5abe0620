//! Compares the engine with a plain enumeration of documents 01 and 02: through its C boundary, by raw calls and by the binding,
//! and through the programs.
//!
//!     tusqirma-tests LISTING ORDER [--seed N] [--networks N] [--long]
//!
//! LISTING and ORDER are the programs; the other counts follow the number of networks, which `--long` takes twenty times.
//! Prints the seed; each part prints its smallest failed case; the last line is `N passed, M failed`.

mod alterations;
mod blif;
mod c;
mod call;
mod convert;
mod counts;
mod damage;
mod engine;
mod example;
mod files;
mod networks;
mod old_files;
mod order;
mod program;
mod random;
mod reference;
mod refusals;
mod report;
mod sessions;
mod short;
mod stack;
mod states;
mod users;
mod weights;
mod wide;

use report::Report;

fn main() {
    let args: Vec<String> = std::env::args().collect();
    let option = |name: &str, other: u64| {
        let place = args.iter().position(|a| a == name);
        place.map_or(other, |i| args[i + 1].parse().expect("a number"))
    };
    let listing = args.get(1).expect("the path of the listing program");
    engine::LISTING.set(listing.clone()).expect("set once");
    let order = args.get(2).expect("the path of the order program");
    let order = std::fs::canonicalize(order).expect("the order program");
    order::ORDER.set(order).expect("set once");
    let long = args.iter().any(|a| a == "--long");
    let seed = option("--seed", 1);
    let count = option("--networks", 6000) as usize * if long { 20 } else { 1 };
    println!("seed {seed}, {count} networks");
    let mut report = Report::default();
    report.part("C program", c::compare);
    report.part("converter", convert::compare);
    report.part("binding's example", example::compare);
    report.part("refusals in words", refusals::compare);
    report.part("program's input and output", program::compare);
    report.part("edges", files::edges);
    report.part("excluded patterns", files::excluded);
    report.part("pattern counts", counts::compare);
    report.part("order of a file's tests", files::order);
    report.part("six fan-ins", wide::compare);
    report.part("damaged files", |r| files::damaged(r, seed, count));
    report.part("random bytes", |r| files::random_bytes(r, seed, count));
    report.part("stack", |r| stack::compare(r, seed));
    report.part("networks", |r| networks::compare(r, seed, count));
    report.part("sessions", |r| sessions::compare(r, seed, count));
    report.part("stated patterns by weight", weights::stated);
    report.part("patterns named by weight", |r| {
        weights::compare(r, seed, count.max(3000))
    });
    report.part("states made by hand", |r| states::compare(r, seed, count));
    report.part("stated BLIF texts", blif::texts_stated);
    report.part("stated BLIF out", blif::written_stated);
    report.part("BLIF texts", |r| blif::texts(r, seed, count));
    report.part("damaged BLIF texts", |r| blif::damaged(r, seed, count));
    report.part("random BLIF lines", |r| blif::random_lines(r, seed, count));
    report.part("BLIF out and back", |r| blif::trips(r, seed, count));
    let few = 20 + count / 100;
    report.part("cut BLIF texts", |r| blif::cuts(r, seed, few));
    report.part("short buffers", |r| short::compare(r, seed, few));
    report.part("stated orders", order::stated);
    report.part("stated orders on wide boards", order::wide);
    report.part("files and outputs that fail", order::failures);
    let some = (count / 10).max(500);
    report.part("orders", |r| order::orders(r, seed, some));
    report.part("chains of orders", |r| order::chains(r, seed, some));
    println!("{} passed, {} failed", report.passed, report.failed);
    std::process::exit((report.failed > 0) as i32);
}
