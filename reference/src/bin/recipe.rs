//! The program of document 01 over the current folder and standard input; its arguments are its option and the parameters, and what lines demand goes to
//! standard error.

use std::env::args_os;
use std::ffi::OsString;
use std::io::{stderr, stdin, stdout, BufWriter};
use std::os::unix::ffi::OsStringExt;
use std::path::Path;
use std::process::ExitCode;

use reference::program::{run, Started};

fn main() -> ExitCode {
    let out = BufWriter::new(stdout().lock());
    let Some(started) = Started::by(args_os().skip(1).map(OsString::into_vec)) else {
        eprintln!("usage: recipe [--shout] [--] [PARAMETER]... < LINES");
        return ExitCode::from(2);
    };
    match run(Path::new("."), &started, stdin().lock(), out, stderr().lock()) {
        Ok(()) => ExitCode::SUCCESS,
        Err(error) => {
            eprintln!("recipe: {error}");
            ExitCode::FAILURE
        }
    }
}
