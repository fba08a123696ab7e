//! `cogunwa`: the command line.

use cogunwa_tool::args::{Asked, take_apart};
use cogunwa_tool::commands::{COMMANDS, write_file};
use cogunwa_tool::trouble::{Outcome, unusable};
use std::io::{ErrorKind, Write};
use std::process::ExitCode;

fn main() -> ExitCode {
    match run() {
        Ok(code) => ExitCode::from(code),
        Err(trouble) => {
            // Where standard error is closed there is nobody to tell.
            _ = writeln!(std::io::stderr(), "{}", trouble.message.trim_end());
            ExitCode::from(trouble.code)
        }
    }
}

fn run() -> Outcome<u8> {
    let arguments: Vec<String> = std::env::args_os().skip(1).map(|a| a.to_string_lossy().into_owned()).collect();
    let (command, args) = match take_apart(&arguments, COMMANDS)? {
        Asked::Help(text) => return print(text.as_bytes()).map(|()| 0),
        Asked::Run(command, args) => (command, args),
    };
    let done = (command.run)(&args)?;
    match args.value("-o").filter(|&file| file != "-") {
        Some(file) => write_file(file, &done.out)?,
        None => print(&done.out)?,
    }
    _ = std::io::stderr().write_all(done.beside.as_bytes());
    Ok(done.code)
}

/// Writes to standard output. A reader that has seen enough is no trouble.
fn print(bytes: &[u8]) -> Outcome<()> {
    let mut out = std::io::stdout().lock();
    match out.write_all(bytes).and_then(|()| out.flush()) {
        Err(error) if error.kind() != ErrorKind::BrokenPipe => Err(unusable(format!("standard output: {error}"))),
        _ => Ok(()),
    }
}
