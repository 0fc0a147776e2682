//! The command `wegrusamt`: docs/DESK.md.

use std::process::ExitCode;

use clap::Parser;
use desk::commands::{Arguments, run};

fn main() -> ExitCode {
    run(&Arguments::parse()).into()
}
