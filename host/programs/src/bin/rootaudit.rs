//! Audits ROOT files through the C interface, and prints a line a file.

use programs::rootaudit::own::{self, Obstacle};
use programs::rootaudit::{output, run_apart, Console, FAILED};
use std::env;
use std::ffi::OsString;
use std::io::{self, IsTerminal, Write};
use std::process::ExitCode;

fn main() -> ExitCode {
    let arguments: Vec<OsString> = env::args_os().skip(1).collect();
    // Nothing that is wrong may be said into a file that is named.
    if own::check(&arguments) == Err(Obstacle::Errors) {
        return ExitCode::from(FAILED);
    }
    ExitCode::from(output::with("rootaudit", |out| {
        let mut terminal = io::stderr();
        let terminal = terminal.is_terminal().then_some(&mut terminal as &mut (dyn Write + Send));
        let mut console = Console { out, errors: &mut own::errors(), terminal };
        run_apart(arguments, &mut console)
    }))
}
