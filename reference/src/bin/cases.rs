//! Writes cases to two files, checks two files against the cases, or prints what the cases hold.

use std::fs;
use std::process::ExitCode;

use reference::frames::{first_difference, Frame};
use reference::generation::cases;
use reference::generation::summary::Summary;
use reference::program::run_with_arguments;

const USAGE: &str = "usage: cases SEED COUNT INPUT OUTPUT
       cases --check SEED COUNT INPUT OUTPUT
       cases --summary SEED COUNT";

/// The bytes of a file's frames.
fn bytes_of_frames<'a>(frames: impl Iterator<Item = &'a Frame>) -> Result<Vec<Vec<u8>>, String> {
    frames
        .enumerate()
        .map(|(number, frame)| {
            frame
                .to_bytes()
                .map_err(|error| format!("frame {number}: {error}"))
        })
        .collect()
}

/// The frames of the input file and of the output file, each as its bytes.
fn files(seed: u64, count: usize) -> Result<[Vec<Vec<u8>>; 2], String> {
    let cases = cases(seed, count);
    Ok([
        bytes_of_frames(cases.iter().map(|case| &case.input))?,
        bytes_of_frames(cases.iter().map(|case| &case.output))?,
    ])
}

/// Writes one file.
fn write(path: &str, frames: &[Vec<u8>]) -> Result<(), String> {
    fs::write(path, frames.concat()).map_err(|error| format!("{path}: {error}"))
}

/// Checks one file against the frames that would be written.
fn check(path: &str, frames: &[Vec<u8>]) -> Result<(), String> {
    let found = fs::read(path).map_err(|error| format!("{path}: {error}"))?;
    match first_difference(&found, frames) {
        Some(difference) => Err(format!("{path}: {difference}")),
        None => Ok(()),
    }
}

/// The seed and the count of the command line.
fn numbers(seed: &str, count: &str) -> Result<(u64, usize), String> {
    let seed = seed.parse().map_err(|_| USAGE.to_string())?;
    let count = count.parse().map_err(|_| USAGE.to_string())?;
    Ok((seed, count))
}

/// Does what the command line asks for.
fn run(arguments: &[&str]) -> Result<(), String> {
    match arguments {
        ["--summary", seed, count] => {
            let (seed, count) = numbers(seed, count)?;
            print!("{}", Summary::of_cases(&cases(seed, count)));
            Ok(())
        }
        ["--check", seed, count, input, output] => {
            let (seed, count) = numbers(seed, count)?;
            let [inputs, outputs] = files(seed, count)?;
            check(input, &inputs)?;
            check(output, &outputs)
        }
        [seed, count, input, output] => {
            let (seed, count) = numbers(seed, count)?;
            let [inputs, outputs] = files(seed, count)?;
            write(input, &inputs)?;
            write(output, &outputs)
        }
        _ => Err(USAGE.to_string()),
    }
}

fn main() -> ExitCode {
    run_with_arguments(run)
}
