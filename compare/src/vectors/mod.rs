//! The list of calls that `crates/vectors` replays, and what the original answers to each (the model
//! to an insert with max_count 0 and a merge of two families): the two files of that crate, made
//! here and compared with those that stand there.

mod lent;
mod listing;
mod plans;
mod rebuilds;
mod refusals;
mod replay;
mod script;

use std::path::PathBuf;

const NAME: &str = "vectors";

/// The files `stdin` and `stdout` of the crate.
fn files() -> [(PathBuf, String); 2] {
    let replay = script::replayed();
    let folder = PathBuf::from(concat!(env!("CARGO_MANIFEST_DIR"), "/../crates/vectors"));
    [(folder.join("stdin"), replay.script), (folder.join("stdout"), replay.answers)]
}

/// Writes the crate's files.
pub fn write() {
    for (path, text) in files() {
        std::fs::write(path, &text).expect("the crate's folder can be written");
        println!("{NAME}: {} lines", text.lines().count());
    }
}

/// The crate's files must be the ones that are made today.
pub fn compare() {
    let mut lines = 0;
    for (path, text) in files() {
        let there = std::fs::read_to_string(&path).unwrap_or_default();
        let name = path.file_name().expect("a file").display();
        if there != text {
            let first = there.lines().zip(text.lines()).position(|(a, b)| a != b);
            let first = first.unwrap_or(there.lines().count().min(text.lines().count()));
            println!(
                "{NAME}: crates/vectors/{name} DISAGREES\n  line {}: {:?}, expected {:?}",
                first + 1,
                there.lines().nth(first),
                text.lines().nth(first)
            );
            std::process::exit(1);
        }
        lines = text.lines().count();
    }
    println!("{NAME}: {lines} calls agree with the files of crates/vectors");
}
