//! The fuzz target without a fuzzer.
//!
//!     fuzz_plain N SEEDS [FOUND]   N inputs, random ones and changed seeds of the folder SEEDS; each is written to FOUND before
//!                                  it is run, and the first that differs, crashes or does not end stays there
//!     fuzz_plain FILE...           the inputs in these files
//!
//! The last line is `fuzz calls C differences D inputs N`. CREST_SEED makes other inputs.

use std::env;
use std::fs;
use std::path::{Path, PathBuf};
use std::process::ExitCode;

use crest_tests::compare::Compare;
use crest_tests::random::Random;

#[path = "target.rs"]
mod target;
use target::{one_input, Seen, FUNCTIONS};

/// In a run of so many inputs every function answers, and gives every number that it can.
const COVERED: usize = 20_000;

/// After so many differences no more inputs are made.
const ENOUGH: u64 = 5;

/// An input that takes so long ends the process.
const SECONDS: u32 = 60;

extern "C" {
    fn alarm(seconds: u32) -> u32;
}

fn main() -> ExitCode {
    let arguments: Vec<String> = env::args().skip(1).collect();
    let mut seen = Seen::default();
    let inputs = match arguments.first().map(|first| first.parse::<usize>()) {
        Some(Ok(wanted)) if (2..=3).contains(&arguments.len()) => {
            let seeds = seeds_of(Path::new(&arguments[1]));
            let mut random = Compare::cases("fuzz_plain").random();
            let mut made = 0;
            while made < wanted && seen.differences < ENOUGH {
                let input = input_of(&mut random, &seeds);
                if let (Some(found), 0) = (arguments.get(2), seen.differences) {
                    fs::write(found, &input).expect("FOUND can be written");
                }
                unsafe { alarm(SECONDS) };
                one_input(&input, &mut seen);
                made += 1;
            }
            made
        }
        Some(Err(_)) => {
            for file in &arguments {
                one_input(&fs::read(file).expect("FILE can be read"), &mut seen);
            }
            arguments.len()
        }
        _ => {
            eprintln!("usage: fuzz_plain N SEEDS [FOUND] | FILE...");
            return ExitCode::from(2);
        }
    };
    let mut missing = false;
    for ((name, numbers), seen) in FUNCTIONS.iter().zip(&seen.numbers) {
        println!("{name}: {} calls, {} answered", seen.iter().sum::<u64>(), seen[0]);
        if inputs >= COVERED {
            for &number in [0].iter().chain(numbers.iter()).filter(|&&number| seen[number] == 0) {
                println!("{name} never gave {number}");
                missing = true;
            }
        }
    }
    let calls: u64 = seen.numbers.iter().flatten().sum();
    println!("fuzz calls {calls} differences {} inputs {inputs}", seen.differences);
    ExitCode::from(u8::from(seen.differences > 0 || missing))
}

fn seeds_of(folder: &Path) -> Vec<Vec<u8>> {
    let mut files: Vec<PathBuf> =
        fs::read_dir(folder).expect("SEEDS is a folder").map(|entry| entry.expect("an entry").path()).collect();
    files.sort();
    files.iter().map(|file| fs::read(file).expect("a seed can be read")).collect()
}

/// Any bytes, or a seed with some bytes changed, cut out, or followed by the end of another.
fn input_of(random: &mut Random, seeds: &[Vec<u8>]) -> Vec<u8> {
    if seeds.is_empty() || random.one_in(2) {
        let len = random.below(600);
        return random.bytes(len);
    }
    let mut input = seeds[random.below(seeds.len())].clone();
    for _ in 0..random.below(6) {
        if input.is_empty() {
            break;
        }
        let at = random.below(input.len());
        match random.below(5) {
            0 => input[at] = random.bits() as u8,
            1 => input[at] ^= 1 << random.below(8),
            2 => {
                let end = input.len().min(at + 1 + random.below(8));
                input.drain(at..end);
            }
            3 => {
                let len = 1 + random.below(16);
                let more = random.bytes(len);
                input.splice(at..at, more);
            }
            _ => {
                let other = &seeds[random.below(seeds.len())];
                input.truncate(at);
                input.extend_from_slice(&other[random.below(other.len() + 1)..]);
            }
        }
    }
    input
}
