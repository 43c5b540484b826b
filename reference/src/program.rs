//! What the programs have in common: the words of the command line, and how they end.

use std::env;
use std::process::ExitCode;

/// Does what the words of the command line ask for. What is wrong is told on standard error, and
/// the status is then not 0.
pub fn run_with_arguments(run: impl Fn(&[&str]) -> Result<(), String>) -> ExitCode {
    let arguments: Vec<String> = env::args().skip(1).collect();
    let arguments: Vec<&str> = arguments.iter().map(String::as_str).collect();
    match run(&arguments) {
        Ok(()) => ExitCode::SUCCESS,
        Err(message) => {
            eprintln!("{message}");
            ExitCode::FAILURE
        }
    }
}
