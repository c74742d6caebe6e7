//! The check program, run as a process where STRUMBLAY_PROGRAM names it, against the model.

use super::Effort;
use super::reads::some_len;
use crate::generate::Hashes;
use crate::model::{Numbers, Shape, program};
use crate::seed::Rng;
use crate::smallest::hex;
use crate::wrong;
use std::io::Write;
use std::process::{Command, Stdio};

const NAME: &str = "program";

/// Runs the program on files that may be wrong.
pub fn drive(effort: Effort) {
    let Some(path) = std::env::var_os("STRUMBLAY_PROGRAM") else {
        return;
    };
    let mut rng = Rng::new(effort.seed, NAME);
    let mut runs = 0;
    for input in inputs(&mut rng, 60 * effort.times) {
        let got = output(&path, &input);
        let expected = program(&input);
        if got != expected {
            println!("{NAME}: DISAGREES\n  on {}\n  {got:?}, expected {expected:?}", hex(&input));
            std::process::exit(1);
        }
        runs += 1;
    }
    println!("{NAME}: {runs} runs agree");
}

/// Too short ones, wrong marks, old files, and filters that may be wrong.
fn inputs(rng: &mut Rng, rounds: u64) -> Vec<Vec<u8>> {
    let mut all: Vec<Vec<u8>> = (0..=22).map(|len| rng.bytes(len)).collect();
    let marked = |input: &Vec<u8>| [&[0x51, 0x46], &input[..]].concat();
    all.extend(all.clone().iter().map(marked));
    for round in 0..rounds {
        let (qbits, rbits) =
            rng.pick(&[(6, 1), (6, 8), (6, 58), (7, 8), (8, 3), (9, 8), (9, 55), (10, 5)]);
        let shape = Shape { qbits, rbits };
        let hashes = Hashes::spread(rng, shape);
        let len = some_len(rng, shape);
        let filter = hashes.holding(rng, 0, len);
        let (numbers, bytes) = wrong::some(rng, &filter);
        let mut input = file(numbers, &bytes);
        if round % 16 == 0 {
            input[(round / 16 % 2) as usize] ^= 1;
        }
        if round % 16 == 1 {
            input.truncate(rng.below(22) as usize);
        }
        if round % 16 == 2 {
            // As before there was a family.
            input.drain(13..21);
        }
        all.push(input);
    }
    all
}

fn file(n: Numbers, bytes: &[u8]) -> Vec<u8> {
    let (len, family) = (n.len.to_le_bytes(), n.family.to_le_bytes());
    [&[0x51, 0x46], &len[..], &[n.qbits, n.rbits, n.max_qbits], &family, bytes].concat()
}

fn output(path: &std::ffi::OsStr, input: &[u8]) -> String {
    let mut child = Command::new(path)
        .stdin(Stdio::piped())
        .stdout(Stdio::piped())
        .spawn()
        .expect("STRUMBLAY_PROGRAM names a program");
    // A program that refuses early may leave the rest unread.
    let _ = child.stdin.take().expect("it is piped").write_all(input);
    let output = child.wait_with_output().expect("it ends");
    String::from_utf8_lossy(&output.stdout).into_owned()
}
