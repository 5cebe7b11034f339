//! Compares the library, through its C calls, with an implementation written
//! apart from it, from docs/SPECIFICATION.md alone.
//!
//!     second_opinion [--long] [--seed N] [--stop] [--only KIND] [--lister PROGRAM]
//!     second_opinion --list <FILE
//!
//! With --lister it compares the listing program instead; with --list it prints its
//! own listing of a survey file, by plot.set in the folder that it runs in.
//! --long tries some twenty times as much, from another seed each time, unless one
//! is given; --stop ends at the first failure; --only asks the library for calls of one
//! kind, as call.rs names it, and takes the second opinion's word for the others.
//!
//! Prints `N passed, M failed` last; a case is one plot, one call that is
//! refused or at a bound, one series, one sheet or one file.

mod bodies;
mod call;
mod groups;
mod library;
mod listing;
mod opinion;
mod plots;
mod samples;
mod sheet;
mod surface;
mod tester;

use std::io::Read;

fn main() {
    let arguments: Vec<String> = std::env::args().skip(1).collect();
    let given = |name: &str| arguments.iter().any(|a| a == name);
    let after = |name: &str| arguments.iter().skip_while(|a| *a != name).nth(1);
    if given("--list") {
        let mut input = Vec::new();
        std::io::stdin().read_to_end(&mut input).expect("standard input");
        let settings = listing::plot_set().expect("plot.set");
        print!("{}", listing::listing(&settings, &input));
        return;
    }
    let (long, stop) = (given("--long"), given("--stop"));
    let seed = match after("--seed") {
        Some(seed) => seed.parse().expect("--seed takes a number"),
        None if long => std::time::UNIX_EPOCH.elapsed().unwrap().as_secs(),
        None => 1,
    };
    let only = after("--only").map(|name| {
        let named = |kind: &call::Kind| format!("{kind:?}") == *name;
        call::KINDS.into_iter().find(named).expect("--only takes a kind of call")
    });
    println!("seed {seed}");
    let mut tester = tester::Tester::new(stop, only);
    let mut chance = plots::Chance(seed);
    match after("--lister") {
        Some(lister) => {
            let times = if long { 20 } else { 1 };
            groups::lister::lister(&mut tester, lister, &mut chance, times);
        }
        None => groups::all(&mut tester, &mut chance, long),
    }
    std::process::exit(if tester.finish() { 0 } else { 1 });
}
