//! The program `colwythar`.
#![forbid(unsafe_code)]

use std::env;
use std::process::ExitCode;

fn main() -> ExitCode {
    ExitCode::from(cli::run(env::args_os().skip(1)))
}
