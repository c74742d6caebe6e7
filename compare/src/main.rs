//! Compares the original crate, a model of docs/RULES.md and the proved library; see README.md.

// Without the proved library some of the helpers have no user.
#![cfg_attr(not(feature = "proved"), allow(dead_code, unused_imports))]

#[cfg(feature = "proved")]
mod bench;
mod call;
mod damage;
mod drivers;
mod generate;
mod model;
mod original;
#[cfg(feature = "proved")]
mod proved;
mod seed;
mod sequence;
mod smallest;
mod subject;
mod vectors;
mod wrong;

use drivers::Effort;
use std::time::Instant;

/// Long mode does this many times what short mode does.
const LONG: u64 = 10;

/// What the command line asks for.
struct Options {
    effort: Effort,
    bench: bool,
    vectors: bool,
    only: Option<String>,
}

/// The command line, read.
fn options() -> Options {
    let effort = Effort { seed: seed::SEED, times: 1 };
    let mut options = Options { effort, bench: false, vectors: false, only: None };
    let mut arguments = std::env::args().skip(1);
    while let Some(argument) = arguments.next() {
        match argument.as_str() {
            "short" => options.effort.times = 1,
            "long" => options.effort.times = LONG,
            "bench" => options.bench = true,
            "vectors" => options.vectors = true,
            "--only" => options.only = arguments.next(),
            "--seed" => {
                let seed = arguments.next().and_then(|seed| seed.parse().ok());
                options.effort.seed = seed.expect("--seed needs a number");
            }
            other => panic!("unknown argument {other}"),
        }
    }
    options
}

fn main() {
    let Options { effort, bench, vectors, only } = options();
    if vectors {
        return vectors::write();
    }
    if bench {
        return measure(effort.seed, only.as_deref());
    }
    let begun = Instant::now();
    let Effort { seed, times } = effort;
    let library = if cfg!(feature = "proved") { "with" } else { "without" };
    println!("compare: seed {seed}, {times} times the short run, {library} the proved library");
    let wanted = |name: &str| only.as_deref().is_none_or(|only| only == name);
    let mut drivers = drivers::ALL.iter().filter(|driver| wanted(driver.0)).peekable();
    assert!(drivers.peek().is_some(), "no driver of that name");
    drivers.for_each(|driver| driver.1(effort));
    println!("compare: nothing disagrees, {:.1} s", begun.elapsed().as_secs_f32());
}

#[cfg(feature = "proved")]
fn measure(seed: u64, only: Option<&str>) {
    bench::run(seed, only);
}

#[cfg(not(feature = "proved"))]
fn measure(_: u64, _: Option<&str>) {
    panic!("bench needs --proved");
}
