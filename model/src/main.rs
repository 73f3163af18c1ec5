//! `model cases [NAME..]`, run at the repository's top, writes the case programs' input and expected output;
//! `model walk` reads what the program `walk` reads, and writes what it must write; `model repeat sheet
//! BLOCKS TURNS`, `repeat step BLOCKS SHEETBLOCKS TURNS` and `repeat walk HOPS TURNS` do the same work
//! many times, to be measured.

use model::{cases, program, repeat};
use std::io::{stdin, Error, Read};
use std::{env, path::Path, process::ExitCode};

const USAGE: &str = "usage: model cases [NAME..] | walk | repeat sheet|step|walk NUMBER..";

fn walk() -> Result<(), Error> {
    let mut input = Vec::new();
    stdin().read_to_end(&mut input)?;
    print!("{}", program::run(&input));
    Ok(())
}

fn repeat(what: &str, numbers: &[String]) -> Result<(), Error> {
    let numbers = numbers.iter().map(|number| number.parse().map_err(Error::other));
    match (what, numbers.collect::<Result<Vec<usize>, Error>>()?.as_slice()) {
        ("sheet", [blocks, turns]) => repeat::check_sheet(*blocks, *turns),
        ("step", [blocks, sheet_blocks, turns]) => repeat::step_request(*blocks, *sheet_blocks, *turns),
        ("walk", [hops, turns]) => repeat::walk_worked(*hops as u8, *turns),
        _ => return Err(Error::other(USAGE)),
    }
    Ok(())
}

fn run(arguments: &[String]) -> Result<(), Error> {
    match arguments {
        [command, names @ ..] if command == "cases" => cases::write(Path::new("."), names),
        [command] if command == "walk" => walk(),
        [command, what, numbers @ ..] if command == "repeat" => repeat(what, numbers),
        _ => Err(Error::other(USAGE)),
    }
}

fn main() -> ExitCode {
    let arguments: Vec<String> = env::args().skip(1).collect();
    match run(&arguments) {
        Ok(()) => ExitCode::SUCCESS,
        Err(error) => {
            eprintln!("model: {error}");
            ExitCode::FAILURE
        }
    }
}
