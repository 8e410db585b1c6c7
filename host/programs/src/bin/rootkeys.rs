//! Lists the pieces of ROOT files, and does NOT audit.

use programs::rootaudit::{output, own};
use programs::rootkeys::{run, Console};
use std::env;
use std::process::ExitCode;

fn main() -> ExitCode {
    ExitCode::from(output::with("rootkeys", |out| {
        run(env::args_os().skip(1), &mut Console { out, errors: &mut *own::errors() })
    }))
}
