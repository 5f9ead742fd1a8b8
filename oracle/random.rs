//! The supplied Rust and the proved library in one process, on the same operands.
//!
//!     random SEED [CALLS]     everything small, then CALLS random calls (10,000,000), a third of them to be refused
//!     random faults SEED      plants faults and says whether each is noticed

mod checks;
mod classes;
mod compare;
mod damage;
mod draw;
mod faults;
mod proved;
mod report;
mod small;

use draw::Draw;
use report::Report;
use supplied::call::Kind;

fn random(report: &mut Report, seed: u64, calls: u64) {
    let mut draw = Draw(seed);
    for _ in 0..calls {
        let kind = draw.choose(Kind::ALL);
        let call = if draw.one_in(3) {
            damage::refused(&mut draw, kind)
        } else {
            draw::accepted(&mut draw, kind)
        };
        report.add(&call, compare::compare(&call));
    }
}

fn number(word: Option<String>, or: u64) -> u64 {
    match word {
        None => or,
        Some(word) => word.parse().unwrap_or_else(|_| {
            eprintln!("usage: random SEED [CALLS] | random faults SEED");
            std::process::exit(2)
        }),
    }
}

fn main() {
    supplied::rust::quiet();
    let mut words = std::env::args().skip(1);
    let first = words.next();
    if first.as_deref() == Some("faults") {
        std::process::exit(faults::all_noticed(number(words.next(), 1)));
    }
    let seed = number(first, 1);
    let calls = number(words.next(), 10_000_000);
    let (mut small, mut drawn) = (Report::default(), Report::default());
    small::everything(&mut small, seed);
    small.print("everything small");
    random(&mut drawn, seed, calls);
    drawn.print(&format!("random, seed {seed}"));
    drawn.print_refusals();
    let different = small.different + drawn.different;
    println!(
        "{} calls compared: {} of everything small, {} random; {different} different",
        small.calls() + drawn.calls(),
        small.calls(),
        drawn.calls()
    );
    std::process::exit((different != 0) as i32);
}
