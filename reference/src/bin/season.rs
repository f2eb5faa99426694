//! Writes a folder for the program, made from a seed: vars.tab, homes.tab, paths.tab, recipe.txt with so many lines, and expected.txt with the reference's
//! answers to them.

use std::fs::{create_dir_all, write};
use std::io::sink;
use std::path::Path;
use std::process::ExitCode;

use reference::generate::season::Season;
use reference::program::{self, Started};

fn main() -> ExitCode {
    let words: Vec<String> = std::env::args().skip(1).collect();
    let words: Vec<&str> = words.iter().map(String::as_str).collect();
    let made = match words[..] {
        [folder, seed, count] => match (seed.parse(), count.parse()) {
            (Ok(seed), Ok(count)) => write_season(Path::new(folder), &Season::of(seed, count)),
            _ => return usage(),
        },
        _ => return usage(),
    };
    match made {
        Ok(()) => ExitCode::SUCCESS,
        Err(error) => {
            eprintln!("season: {error}");
            ExitCode::FAILURE
        }
    }
}

fn usage() -> ExitCode {
    eprintln!("usage: season FOLDER SEED COUNT");
    ExitCode::FAILURE
}

fn write_season(folder: &Path, season: &Season) -> std::io::Result<()> {
    create_dir_all(folder)?;
    write(folder.join("vars.tab"), &season.variables)?;
    write(folder.join("homes.tab"), &season.homes)?;
    write(folder.join("paths.tab"), &season.paths)?;
    let lines: Vec<u8> = season.lines.iter().flat_map(|line| [line.as_slice(), b"\n"].concat()).collect();
    write(folder.join("recipe.txt"), &lines)?;
    let mut answers = Vec::new();
    program::run(folder, &Started::default(), lines.as_slice(), &mut answers, sink())?;
    write(folder.join("expected.txt"), answers)
}
