//! `lentil` keeps a Lentilraft volume in an ordinary file: see `lentil --help`.

mod args;
mod commands;
mod failure;
mod host;
mod map;
mod progress;
mod replace;
mod scale;
mod store;
mod svg;
mod sys;
mod text;
mod transfer;
mod tree;

use std::env;
use std::process;

use args::Request;
use failure::{Failure, Outcome};

fn main() {
    sys::set_signals();
    let code = run().unwrap_or_else(|failure| {
        eprintln!("lentil: {}", failure);
        failure.exit_code()
    });
    process::exit(code);
}

/// Does what is asked for, and gives the exit code.
fn run() -> Outcome<i32> {
    let told = match args::parse(commands::ALL, env::args_os().skip(1))? {
        Request::Run(command, arguments) => return command.carry_out(&arguments),
        Request::Help(None) => args::help(commands::ALL),
        Request::Help(Some(command)) => command.help(),
        Request::Version => VERSION.to_string(),
    };
    text::print(told.as_bytes())?;
    Ok(0)
}

const VERSION: &str = concat!("lentil ", env!("CARGO_PKG_VERSION"), "\n");

impl Failure {
    /// 1 for what was refused or failed, 2 for a command line that makes no sense.
    fn exit_code(&self) -> i32 {
        match self {
            Failure::Usage(_) => 2,
            _ => 1,
        }
    }
}
